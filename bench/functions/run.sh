#!/bin/sh
# Times exp, ln and sin beside libm's, in one run. Needs rt and a C compiler; works in a folder of its own and changes nothing here.
# The archive is made from a copy of the crates with a door to C over them, proved first as every archive is.
set -e
here=$(cd "$(dirname "$0")" && pwd)
top=$(cd "$here/../.." && pwd)
work=$(mktemp -d)
trap 'rm -rf "$work"' EXIT
. "$here/../scratch.sh"
scratch "$top" "$work" functions
mkdir -p "$work/crates/door/src"
cat > "$work/crates/door/src/lib.rt" <<'END'
// The three functions for C, for timing alone.
#![tactic(auto)]

#[unsafe(no_mangle)]
pub extern "C" fn own_exp(x: f64) -> f64 {
    functions::exp(x)
}

#[unsafe(no_mangle)]
pub extern "C" fn own_ln(x: f64) -> f64 {
    functions::ln(x)
}

#[unsafe(no_mangle)]
pub extern "C" fn own_sin(x: f64) -> f64 {
    functions::sin(x).unwrap_or(0.0 / 0.0)
}
END
echo 'door staticlib: functions' >>"$work/crates.txt"
cd "$work"
(cd crates/door && rt lib) > build.log 2>&1 || { tail -20 build.log; exit 1; }
${CC:-cc} -O2 -fno-builtin -o times "$here/times.c" crates/door/out/libdoor.a -lm
./times
