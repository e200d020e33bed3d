#!/usr/bin/env bash
# Builds and runs examples/inductor.c.
exec "$(dirname "$0")/run.sh" inductor
