# Builds the bench program; read in by the scripts beside it. Leaves its command line in $bench.
#
# options: --rust PATH      the published Rust (a folder with lib.rs); ../shared/docs/src/src by default
#          --archive PATH   the archive to link; target/staticlib/libsavrunte.a by default, made by tools/make_archive if need be
#          --no-archive     without one: the model and a second writing of exp, ln and sin stand in
#          --emulate        build for x86-64 and run under qemu, as on any machine that is not x86-64
#          --native         on aarch64: build for this machine, by default with target/native/libsavrunte.a, which bench/native makes on x86-64
#
# A script may set $folder first: the program is built in that folder of target/, bench by default.
set -eu
top=$(cd "$(dirname "$0")/.." && pwd)
rust=$top/../shared/docs/src/src
shipped=$top/target/staticlib/libsavrunte.a
own=$top/target/native/libsavrunte.a
archive=
with_archive=yes
emulate=no
native=no
target=x86_64-unknown-linux-gnu
out=$top/target/${folder:-bench}

# Installs Debian packages, as root, unless the command given first is there.
need() {
    command -v "$1" >/dev/null 2>&1 && return
    shift
    echo "installing $*" >&2
    apt-get update -qq >&2 && DEBIAN_FRONTEND=noninteractive apt-get install -y -qq "$@" >&2
}

words=
while [ $# -gt 0 ]; do
    case $1 in
    --rust) rust=$2; shift ;;
    --archive) archive=$2; shift ;;
    --no-archive) with_archive=no ;;
    --emulate) emulate=yes ;;
    --native) native=yes ;;
    --*) echo "unknown option $1" >&2; exit 2 ;;
    *) words="$words $1" ;;
    esac
    shift
done
# shellcheck disable=SC2086
set -- $words

if [ "$(uname -m)" = x86_64 ]; then
    native=no
elif [ $native = no ]; then
    emulate=yes
fi
rustc=${RUSTC:-rustc}
flags=
runner=
if [ $emulate = yes ]; then
    # x86-64 code under emulation: the archive is x86-64 everywhere
    if [ "$(uname -m)" != x86_64 ]; then
        dpkg --print-foreign-architectures | grep -qx amd64 || dpkg --add-architecture amd64
        std=$(command -v "$rustc" >/dev/null && "$rustc" --print sysroot || true)
        if [ -z "$std" ] || [ ! -d "$std/lib/rustlib/$target/lib" ]; then
            [ -d "/usr/lib/rustlib/$target/lib" ] || need no-such-command rustc libstd-rust-dev:amd64
            rustc=/usr/bin/rustc
        fi
        need x86_64-linux-gnu-gcc gcc-x86-64-linux-gnu
    fi
    need qemu-x86_64 qemu-user
    flags="--target $target -C linker=x86_64-linux-gnu-gcc"
    runner=qemu-x86_64
else
    need "$rustc" rustc
fi
need cc gcc libc6-dev

[ -f "$rust/lib.rs" ] || { echo "no published Rust at $rust (give its folder with --rust)" >&2; exit 2; }
link=
if [ $with_archive = yes ]; then
    # an archive that was not named is made anew when a source is newer; the kit makes archives on x86-64 alone
    if [ -z "$archive" ]; then
        archive=$shipped
        [ $native = no ] || archive=$own
        [ "$(uname -m)" != x86_64 ] || "$top/tools/make_archive" >/dev/null || exit 2
    fi
    [ -f "$archive" ] || { echo "no archive at $archive" >&2; exit 2; }
    mkdir -p "$out"
    cp "$archive" "$out/libsavrunte.a"
    link="--cfg archive -L native=$out -l static=savrunte -l m"
fi

# the same inputs need no second build
mkdir -p "$out"
builds="plain quiet timed hooked"
externs="-L $out --extern recorder=$out/librecorder.rlib"
for build in $builds; do
    externs="$externs --extern spice_$build=$out/libspice_$build.rlib"
done
stamp=$( (cat "$top"/bench/build.sh "$top"/bench/oracle/* "$top"/bench/src/* "$top"/bindings/rust/src/raw.rs
    find "$rust" -name '*.rs' | sort | xargs cat
    [ -z "$link" ] || cat "$archive"; echo "$link $flags"; "$rustc" --version) | cksum)
if [ "$(cat "$out/stamp" 2>/dev/null || true)" != "$stamp" ]; then
    rm -f "$out/stamp"
    echo "building the bench" >&2
    "$rustc" --edition 2021 -O "$top/bench/oracle/prepare.rs" -o "$out/prepare"
    # shellcheck disable=SC2086
    "$rustc" --edition 2021 -O $flags --crate-type rlib --crate-name recorder "$top/bench/oracle/recorder.rs" --out-dir "$out"
    for build in $builds; do
        rm -rf "${out:?}/$build"
        "$out/prepare" $build "$rust" "$out/$build" "$top/bench/oracle/wavewriter.rs"
        # shellcheck disable=SC2086
        "$rustc" --edition 2015 -O $flags --cap-lints allow --crate-type rlib --crate-name spice_$build \
            "$out/$build/lib.rs" --out-dir "$out" -L "$out"
    done
    # shellcheck disable=SC2086
    "$rustc" --edition 2021 -O $flags --cap-lints warn "$top/bench/src/main.rs" -o "$out/bench" $externs $link
    echo "$stamp" >"$out/stamp"
fi
bench="$runner $out/bench"

# Runs the bench where it writes a stored list, and puts what it wrote beside the crate that replays it too.
listed() {
    status=0
    # shellcheck disable=SC2086
    $bench "$@" || status=$?
    "$top/tools/twice" --write
    exit $status
}
