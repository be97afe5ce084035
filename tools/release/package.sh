#!/bin/sh
# Builds the Debian packages into a folder, with dpkg-buildpackage, and prints their names.
#     tools/release/package.sh FOLDER [OPTION..]
# The options are those of dpkg-buildpackage, such as `-a arm64`. LLDPA_BUILT names the folder that
# tools/release/build.sh filled, by default crates/lldpa/out/ARCH. The sources stay as they are, and no build dependency is checked,
# since cargo need not be Debian's. Needs debhelper and dh-python, but not root.
. "$(dirname "$0")/../help.sh"
set -eu
[ $# -gt 0 ] || { echo "usage: tools/release/package.sh FOLDER [OPTION..]" >&2; exit 2; }
folder=$(realpath -m -- "$1")
shift
cd "$(dirname "$0")/../.."
room=$(mktemp -d)
trap 'rm -rf "$room"' EXIT
# dpkg-buildpackage writes to debian, and to the folder above.
mkdir "$room/source"
ln -s "$PWD"/* "$room/source"
rm "$room/source/debian"
cp -R debian "$room/source/debian"
if ! (cd "$room/source" && dpkg-buildpackage -b -d -nc -uc -us "$@") > "$room/said" 2>&1; then
    tail -n 20 "$room/said" >&2
    exit 1
fi
mkdir -p "$folder"
mv "$room"/*.deb "$room"/*.buildinfo "$room"/*.changes "$folder"
ls "$folder"/*.deb
