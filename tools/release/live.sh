#!/bin/sh
# Builds lldpa-live with the library that tools/library/library.sh makes, which runs first if there is no
# library yet. Prints the path of lldpa-live. lldpa-ctl, lldpctl and lldpcli are links to it beside it.
#     tools/release/live.sh [--arch amd64|arm64] [--dynamic]
# The program is rust/live/out/lldpa-live for this machine, rust/live/out/ARCH/lldpa-live for
# another architecture. It is linked statically. With --dynamic it uses the GNU C library of the
# system, and is written to a subfolder `dynamic`, where tools/release/package.sh looks for it.
# LLDPA_LIB_DIR can name another folder of liblldpa.a. Needs cargo 1.63 or later, and the crate libc, which
# tools/release/vendor.sh finds; a release has it.
# Another architecture needs its gcc and its standard library of Rust, such as libstd-rust-dev:arm64
# for Debian's cargo. Without such a library the status is 3.
. "$(dirname "$0")/../help.sh"
set -eu
cd "$(dirname "$0")/../.."
fail() {
    echo "tools/release/live.sh: $1" >&2
    exit 1
}

machine=$(uname -m)
arch=
dynamic=
flags=-Ctarget-feature=+crt-static
while [ $# -gt 0 ]; do
    case $1 in
        --arch) arch=${2-none} && shift $(($# > 1)) ;;
        --dynamic) flags='' dynamic=/dynamic ;;
        *) fail "unknown option $1" ;;
    esac
    shift
done
case ${arch:-$machine} in
    amd64 | x86_64) arch=amd64 triple=x86_64-unknown-linux-gnu ;;
    arm64 | aarch64) arch=arm64 triple=aarch64-unknown-linux-gnu ;;
    *) fail "--arch ${arch:-$machine}: it is amd64 or arm64" ;;
esac
command -v cargo > /dev/null || fail "cargo is not installed"
has_library() { [ -d "$("$1" --print sysroot)/lib/rustlib/$triple/lib" ]; }
if ! has_library rustc; then
    has_library /usr/bin/rustc 2> /dev/null || { echo "the standard library of Rust for $arch is not installed" >&2 && exit 3; }
    PATH=/usr/bin:$PATH
fi
out=$PWD/rust/live/out
if [ "$triple" = "$machine-unknown-linux-gnu" ]; then
    program=$out$dynamic/lldpa-live
    library=$PWD/crates/lldpa_c/out/lib
else
    program=$out/$arch$dynamic/lldpa-live
    library=$PWD/crates/lldpa/out/$arch/lib
    export CARGO_TARGET_AARCH64_UNKNOWN_LINUX_GNU_LINKER=aarch64-linux-gnu-gcc
    export CARGO_TARGET_X86_64_UNKNOWN_LINUX_GNU_LINKER=x86_64-linux-gnu-gcc
fi
[ -n "${LLDPA_LIB_DIR-}" ] || [ -f "$library/liblldpa.a" ] || tools/library/library.sh --arch "$arch" "$library" > /dev/null
export LLDPA_LIB_DIR="${LLDPA_LIB_DIR:-$library}"
[ -f "$LLDPA_LIB_DIR/liblldpa.a" ] || fail "$LLDPA_LIB_DIR has no liblldpa.a; tools/library/library.sh makes it"
# The program does not name the folder in which it was built, of which cargo knows the name without links.
sources=$(cd rust && pwd -P)
separator=$(printf '\037')
export CARGO_ENCODED_RUSTFLAGS="$flags${flags:+$separator}--remap-path-prefix=${sources%/rust}=lldpa"
export CARGO_TARGET_DIR="$out/target"
tools/release/vendor.sh
(cd rust/live && cargo build --release --locked --quiet --target "$triple") || fail "cargo failed"
mkdir -p "$(dirname "$program")"
cp "$out/target/$triple/release/lldpa-live" "$program.new"
mv "$program.new" "$program"
for name in lldpa-ctl lldpctl lldpcli; do
    ln -f "$program" "$(dirname "$program")/$name"
done
echo "$program"
