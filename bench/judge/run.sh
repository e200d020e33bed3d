#!/usr/bin/env bash
# Times the proved judge beside GMP's mpz and Python's fractions on the same dense systems. Outside the gate.
# Needs rt, cc, libgmp-dev (Debian) and python3, on x86-64. The archive is built in a scratch copy, since its exporting crate is no part of the repository.
set -euo pipefail
here=$(cd "$(dirname "$0")" && pwd)
top=$(cd "$here/../.." && pwd)
work=$(mktemp -d)
trap 'rm -rf "$work"' EXIT

. "$here/../scratch.sh"
scratch "$top" "$work/repo" judge
mkdir -p "$work/repo/crates/judge_row/src"
echo 'judge_row staticlib: judge' >>"$work/repo/crates.txt"
cat >"$work/repo/crates/judge_row/src/lib.rt" <<'R'
// The judge for C, as one number.
#![tactic(auto)]

use judge::Judged;

#[unsafe(no_mangle)]
pub extern "C" fn judge_row(system: &[f64], vector: &[f64], tolerances: &[f64], rows: usize) -> usize {
    match judge::judge(system, vector, tolerances, rows) {
        Ok(Judged::Accepted) => rows,
        Ok(Judged::Rejected(i)) => i,
        Err(refusal) => 1000 + (refusal.number() as usize),
    }
}
R
(cd "$work/repo/crates/judge_row" && rt lib >"$work/log" 2>&1) || { tail -20 "$work/log"; exit 1; }
cc -O3 -o "$work/judge" "$here/judge.c" "$work/repo/crates/judge_row/out/libjudge_row.a" -lgmp
python3 "$here/run.py" "$work/judge" "$work"
