#!/bin/sh
# Builds `solve` as an archive in a scratch copy, and the Rust's `solve` from its published text, and times one against the other.
# usage: bench/solve/run.sh PATH-TO-engine.rs [SCRATCH-DIRECTORY]
set -eu
engine=$(realpath "$1")
here=$(cd "$(dirname "$0")" && pwd)
top=$(cd "$here/../.." && pwd)
work=${2:-$(mktemp -d)}
. "$here/../scratch.sh"
scratch "$top" "$work" solve
mkdir -p "$work/crates/door/src"
echo 'door staticlib: solve' >>"$work/crates.txt"
cat >"$work/crates/door/src/lib.rt" <<'D'
// The solver for C, for timing alone.
#![tactic(auto)]

#[unsafe(no_mangle)]
pub extern "C" fn door_solve(matrix: &mut [f64], vector: &mut [f64], n: usize) -> u8 {
    match solve::solve(matrix, vector, n) {
        Ok(()) => 0,
        Err(refusal) => refusal.number(),
    }
}
D
(cd "$work/crates/door" && rt lib) | tail -1
# the two functions, from one comment line of the published text to another
{
    echo 'struct Engine { c_nodes: usize, c_vsrcs: usize }'
    echo 'impl Engine {'
    sed -n '/^    \/\/ Solve the system of linear equations/,/^    \/\/ mean squared error/p' "$engine" | sed '$d'
    echo '}'
} >"$work/published.rs"
PUBLISHED="$work/published.rs" rustc --edition 2015 -O "$here/main.rs" -o "$work/times" \
    -C link-arg="$work/crates/door/out/libdoor.a" 2>"$work/rustc.log" || { cat "$work/rustc.log"; exit 1; }
"$work/times"
