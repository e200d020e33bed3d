#!/usr/bin/env bash
# Builds and runs examples/diode.c.
exec "$(dirname "$0")/run.sh" diode
