#!/usr/bin/env bash
# Runs the front end's jobs from C and compares the records, to the bit, with those of ./savrunte --tsv: says so, or shows what differs.
exec "$(dirname "$0")/compare.sh" front_end "$(dirname "$0")/front_end.jobs"
