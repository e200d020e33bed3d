#!/bin/sh
# Makes the stored answers of crates/models_replay/data anew: copies the published Rust's element files to a scratch folder, makes the
# edits below there, builds them with answers.rs and lets them answer. The seed is fixed, so the same files come out each time.
# usage, at the repository's top: tools/models/make.sh SOURCE [FUNCTIONS]
#   SOURCE     the published Rust's folder src
#   FUNCTIONS  exp, ln and sin: the archive that tools/make_archive makes (the default), or a Rust file that has them
set -eu
source=$1
functions=${2:-target/staticlib/libsavrunte.a}
here=$(dirname "$0")
scratch=$(mktemp -d)
trap 'rm -rf "$scratch"' EXIT

# edit FILE TIMES OLD NEW: OLD, a basic regular expression, must stand on TIMES lines
edit() {
    n=$(grep -c -- "$3" "$scratch/$1") || true
    if [ "$n" != "$2" ]; then
        echo "$1: '$3' stands on $n lines and not on $2" >&2
        exit 1
    fi
    sed -i "s|$3|$4|" "$scratch/$1"
}

for f in vpwl capacitor diode isine vsine; do
    cp "$source/element/$f.rs" "$scratch/$f.rs"
done
link=
case $functions in
*.a)
    cp "$functions" "$scratch/libsavrunte.a"
    cat > "$scratch/functions.rs" <<'END'
#[repr(C)]
pub struct Answer { refusal: u64, value: f64 }
extern "C" {
    fn savrunte_exp(x: f64) -> f64;
    fn savrunte_ln(x: f64) -> f64;
    fn savrunte_sin(x: f64) -> Answer;
}
pub fn exp(x: f64) -> f64 { unsafe { savrunte_exp(x) } }
pub fn ln(x: f64) -> f64 { unsafe { savrunte_ln(x) } }
pub fn sin(x: f64) -> Option<f64> {
    let a = unsafe { savrunte_sin(x) };
    if a.refusal == 0 { Some(a.value) } else { None }
}
END
    link="-L native=$scratch -l static=savrunte -l m"
    ;;
*)
    cp "$functions" "$scratch/functions.rs"
    ;;
esac
cp "$here/answers.rs" "$scratch/answers.rs"

# the proved functions in place of the library's; sqrt of 2.0 is exact enough as it stands
edit diode.rs 1 '\.exp()' '.proved_exp()'
edit diode.rs 3 '\.ln()' '.proved_ln()'
edit isine.rs 1 '\.sin()' '.proved_sin()'
edit vsine.rs 1 '\.sin()' '.proved_sin()'
# the constants are handed in; a diode's memory can be set, and its thermal and critical voltage read
edit diode.rs 1 'BOLTZMANN \*' 'BOLTZMANN() *'
edit diode.rs 1 '/ CHARGE;' '/ CHARGE();'
edit diode.rs 1 'Cell::new(GMIN)' 'Cell::new(GMIN())'
edit diode.rs 1 'g_eq < GMIN ' 'g_eq < GMIN() '
edit diode.rs 1 'g_eq = GMIN;' 'g_eq = GMIN();'
edit diode.rs 1 '^    v_d_prev: Cell<f64>,' '    pub v_d_prev: Cell<f64>,'
edit diode.rs 1 '^    v_thermal: f64,' '    pub v_thermal: f64,'
edit diode.rs 1 '^    v_crit: f64,' '    pub v_crit: f64,'
for f in diode isine vsine; do
    echo 'use crate::Proved;' >> "$scratch/$f.rs"
done

# shellcheck disable=SC2086
rustc --edition 2015 -A warnings -O $link -o "$scratch/answers" "$scratch/answers.rs"
"$scratch/answers" crates/models_replay/data > crates/models_replay/stdout
cat crates/models_replay/stdout
