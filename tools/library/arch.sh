# Parses the arguments `[--arch amd64|arm64] [FOLDER]` of tools/library/library.sh and
# tools/release/build.sh. Sets `arch` and `folder`. Sets `target` to the toolchain's options for the
# architecture, and `tools` to the prefix of the compiler and binutils (empty for this machine). A
# script that sources this file must have a function `fail`.
here=$(uname -m | sed 's/x86_64/amd64/; s/aarch64/arm64/')
arch=$here
folder=
while [ $# -gt 0 ]; do
    case $1 in
        --arch) arch=${2-none} && shift $(($# > 1)) ;;
        -*) fail "unknown option $1" ;;
        *) folder=$1 ;;
    esac
    shift
done
case $arch in
    amd64) triple=x86_64-linux-gnu target='x86_64-unknown-linux-gnu --cpu=x86-64' ;;
    arm64) triple=aarch64-linux-gnu target=aarch64-unknown-linux-gnu ;;
    *) fail "--arch $arch: it is amd64 or arm64" ;;
esac
tools=
[ "$arch" = "$here" ] || tools=$triple-
