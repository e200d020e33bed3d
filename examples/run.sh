#!/usr/bin/env bash
# Builds examples/NAME.c with every warning an error, links it with the archive and runs it: examples/run.sh NAME ARGUMENT...
# The archive is for x86-64, as the kit that makes it is: on another processor it has to be there already (target/staticlib/libsavrunte.a, made on x86-64); the example is then cross-compiled,
# and run under Debian's qemu-user with the cross compiler's C library.
set -eu
name=$1
shift
top=$(cd "$(dirname "$0")/.." && pwd)
archive=$top/target/staticlib/libsavrunte.a
if [ "$(uname -m)" = x86_64 ] || [ ! -f "$archive" ]; then "$top/tools/make_archive" >/dev/null; fi
cc=gcc
run=
library=
if [ "$(uname -m)" != x86_64 ]; then
    cc=x86_64-linux-gnu-gcc
    library=/usr/x86_64-linux-gnu
    run=qemu-x86_64
    command -v x86_64-linux-gnu-gcc >/dev/null && command -v "$run" >/dev/null || {
        apt-get update -qq
        apt-get install -y -qq gcc-x86-64-linux-gnu libc6-dev-amd64-cross qemu-user
    } >&2
fi
mkdir -p "$top/target/examples"
$cc -std=c11 -O2 -Wall -Wextra -Wpedantic -Werror -I"$top/include" -o "$top/target/examples/$name" "$top/examples/$name.c" "$archive" -lm
exec ${run:+"$run" -L "$library" -E "LD_LIBRARY_PATH=$library/lib"} "$top/target/examples/$name" "$@"
