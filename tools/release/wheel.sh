#!/bin/sh
# Makes a wheel of the Python packages and the program lldpa, so that pip installs all at once.
#     tools/release/wheel.sh [FOLDER]
# It writes the wheel to FOLDER (default: the current one) and prints its name. The wheel is for the
# machine of the program: linux_x86_64 or linux_aarch64. LLDPA names the program (default
# crates/lldpa/out/lldpa). `pip install ./python` makes a wheel without the program.
. "$(dirname "$0")/../help.sh"
set -eu
[ $# -le 1 ] || { echo "usage: tools/release/wheel.sh [FOLDER]" >&2; exit 2; }
folder=$(realpath -m -- "${1:-.}")
program=$(realpath -m -- "${LLDPA:-$(dirname "$0")/../../crates/lldpa/out/lldpa}")
[ -d "$folder" ] || { echo "tools/release/wheel.sh: there is no folder $folder" >&2; exit 1; }
[ -f "$program" ] || { echo "tools/release/wheel.sh: there is no program $program: make builds it" >&2; exit 1; }
cd "$(dirname "$0")/../../python/building"
exec python3 -B -c 'import sys, lldpa_wheel; print(lldpa_wheel.build_wheel(sys.argv[1], {"program": sys.argv[2]}))' \
    "$folder" "$program"
