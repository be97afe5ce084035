#!/bin/sh
# Builds the program and the library for an architecture, in a folder.
#     tools/release/build.sh [--arch amd64|arm64] [FOLDER]
# By default FOLDER is crates/lldpa/out/ARCH and the architecture is that of this machine. Another
# architecture needs a gcc and binutils, such as the package gcc-aarch64-linux-gnu. Programs for
# amd64 run on every amd64 processor. Prints the name of FOLDER, which then has
#     lldpa          the program, linked to the GNU C library of the system, 2.34 or later
#     lldpa-static   the same, linked statically: it runs on any Linux, also in an empty folder. The
#                    licence of the GNU C library in it (LGPL) requires lldpa.o, to link it again
#     lldpa.o        the program before it is linked
#     lib            what tools/library/library.sh makes
# Both are made from assembly that tools/release/assembly.sh gives: in a release without the kit, else
# with it. `lldpa` and `lldpa_c` are proved for this architecture, and the crates that they use for all.
. "$(dirname "$0")/../help.sh"
set -eu
cd "$(dirname "$0")/../.."
fail() {
    echo "tools/release/build.sh: $1" >&2
    exit 1
}

. tools/library/arch.sh
for command in "${tools}gcc" "${tools}strip"; do
    command -v "$command" > /dev/null || fail "$command is not installed"
done
folder=$(realpath -m -- "${folder:-crates/lldpa/out/$arch}")
mkdir -p "$folder"
room=$(mktemp -d)
trap 'rm -rf "$room"' EXIT

# The library is built at the same time. If its build fails, library.sh reports why.
tools/library/library.sh --arch "$arch" "$folder/lib" > /dev/null &
library=$!
if ! assembly=$(tools/release/assembly.sh "$arch" lldpa); then
    wait "$library" || true
    exit 1
fi
"${tools}gcc" -c "$assembly" -o "$folder/lldpa.o"
for source in tools/release/platform.c crates/lldpa_c/front/memory.c; do
    "${tools}gcc" -std=gnu99 -O2 -fPIE -Wall -Wextra -Werror -c "$source" -o "$room/$(basename "$source").o"
done
"${tools}gcc" -pie -Wl,-z,relro,-z,now "$folder/lldpa.o" "$room"/*.o -o "$folder/lldpa"
"${tools}gcc" -static-pie "$folder/lldpa.o" "$room"/*.o -o "$folder/lldpa-static"
"${tools}strip" "$folder/lldpa" "$folder/lldpa-static"
wait "$library"
echo "$folder"
