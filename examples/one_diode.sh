#!/usr/bin/env bash
# Builds and runs examples/one_diode.c.
exec "$(dirname "$0")/run.sh" one_diode
