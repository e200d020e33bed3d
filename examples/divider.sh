#!/usr/bin/env bash
# Builds and runs examples/divider.c.
exec "$(dirname "$0")/run.sh" divider
