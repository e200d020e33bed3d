#!/usr/bin/env bash
# Runs the spreads from C and compares the records, to the bit, with those of ./savrunte --tsv spreads: says so, or shows what differs.
exec "$(dirname "$0")/compare.sh" spreads "$(dirname "$0")/spreads.jobs" spreads
