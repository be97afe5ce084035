#!/bin/sh
# Makes the library that programs link: liblldpa.a, liblldpa.so.1 and lldpa.h, in a folder.
#     tools/library/library.sh [--arch amd64|arm64] [FOLDER]
# By default FOLDER is crates/lldpa_c/out/lib and the architecture is that of this machine. Another
# architecture needs a C compiler and binutils, such as the package gcc-aarch64-linux-gnu. The
# library for amd64 runs on every amd64 processor.
#
# tools/release/assembly.sh gives the proved functions as assembly, and they get the prefix `proved_`.
# Programs call the functions of crates/lldpa_c/front, most of which checked.awk makes of the header.
# These check for NULL, then call malloc and the proved functions. Each group of functions below is one
# object of liblldpa.a, with what they use. The archive's global names are the functions of lldpa.h.
# Prints FOLDER.
. "$(dirname "$0")/../help.sh"
set -eu
export LC_ALL=C # in Turkish a-z does not have each letter
cd "$(dirname "$0")/../.."
front=crates/lldpa_c/front
header=crates/lldpa_c/include

fail() {
    echo "tools/library/library.sh: $1" >&2
    exit 1
}

# Prints the name of each object of the archive, and the functions that the object exports.
groups() {
    echo "version lldpa_version"
    echo "reading lldpa_frame_pdu lldpa_examine lldpa_next_kept lldpa_caps lldpa_mgmt"
    echo "building lldpa_build"
    echo "machine lldpa_transmit_new lldpa_transmit_event"
    echo "texts lldpa_fault_text lldpa_tlv_text lldpa_escape"
    echo "agent $(sed -n 's/^[a-z0-9_]* \(lldpa_[a-z_]*\)(\(const \)*lldpa_agent .*/\1/p' $header/lldpa.h | tr '\n' ' ') lldpa_open"
}

. tools/library/arch.sh
for command in awk "${tools}gcc" "${tools}ar" "${tools}ld" "${tools}nm" "${tools}objcopy" sha256sum; do
    command -v "$command" > /dev/null || fail "there is no $command"
done
folder=$(realpath -m -- "${folder:-crates/lldpa_c/out/lib}")
room=$(mktemp -d)
trap 'rm -rf "$room"' EXIT

# Each function of the front gets a section of its own.
compile() {
    "${tools}gcc" -std=gnu99 -O2 -fPIC -ffunction-sections -Wall -Wextra -Werror -I"$header" -I"$room" -c "$@"
}

"${tools}gcc" -c "$(tools/release/assembly.sh "$arch" lldpa_c)" -o "$room/proved.o"
"${tools}nm" --defined-only "$room/proved.o" | sed -n 's/^.* T \(lldpa_.*\)$/\1 proved_\1/p' > "$room/names"
"${tools}objcopy" --redefine-syms="$room/names" "$room/proved.o"
"${tools}ar" rcsD "$room/proved.a" "$room/proved.o"
echo 'LLDPA_1 { global: lldpa_*; local: *; };' > "$room/exports"
"${tools}gcc" -E -P $header/lldpa.h | awk -f $front/checked.awk > "$room/checked.h"
# The archive's functions are hidden, so a shared object that contains them does not export them.
compile -fvisibility=hidden $front/lldpa.c -o "$room/front.o"
compile $front/memory.c -o "$room/memory.o"
mkdir -p "$room/objects" "$folder"
groups | while read -r name calls; do
    set --
    for call in $calls; do
        set -- "$@" -u "$call"
        echo "$call" >> "$room/$name.calls"
    done
    "${tools}ld" -r --gc-sections "$@" -o "$room/objects/lldpa_$name.o" "$room/front.o" --start-group "$room/proved.a" \
        "$room/memory.o" --end-group
    "${tools}objcopy" --keep-global-symbols="$room/$name.calls" "$room/objects/lldpa_$name.o"
done
rm -f "$room/liblldpa.a"
(cd "$room/objects" && "${tools}ar" rcsD ../liblldpa.a ./*.o)
install -m 644 "$room/liblldpa.a" "$header/lldpa.h" "$folder"
# The functions that the front calls, for tests that link them with a changed front.
cp "$room/proved.a" "$folder/proved.a"
"${tools}ar" rsD "$folder/proved.a" "$room/memory.o" 2> /dev/null
compile $front/lldpa.c -o "$room/exported.o"
"${tools}gcc" -shared -o "$folder/liblldpa.so.1" "$room/exported.o" -Wl,--start-group "$room/proved.a" \
    "$room/memory.o" -Wl,--end-group -Wl,--gc-sections -Wl,-z,defs,-z,now,-soname,liblldpa.so.1 \
    -Wl,--version-script="$room/exports"
echo "$folder"
