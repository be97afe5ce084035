#!/bin/sh
# Makes a release: lldpa-VERSION.tar.xz, which builds on amd64 and arm64 without the kit.
#     tools/release/dist.sh [FOLDER]           writes it to FOLDER, by default the current one
#     tools/release/dist.sh --check ARCHIVE    makes it again, and compares each octet
# It has the files that git tracks here, as they are now, the proved crates as assembly
# (tools/release/assembly.sh), and the crate libc (tools/release/vendor.sh). The same commit, the same kit and
# Debian's package of this crate give the same octets. Needs the kit, git, GNU tar and xz. Prints the name of
# the archive.
. "$(dirname "$0")/../help.sh"
set -eu
fail() {
    echo "tools/release/dist.sh: $1" >&2
    exit 1
}
archive=
folder=$PWD
case ${1-} in
    --check) archive=$(realpath -m -- "${2-.}") && [ -f "$archive" ] || fail "--check needs an archive, and ${2-it} is none" ;;
    -*) echo "usage: tools/release/dist.sh [FOLDER | --check ARCHIVE]" >&2 && exit 2 ;;
    ?*) folder=$(realpath -- "$1") ;;
esac
[ -d "$folder" ] || fail "there is no folder $folder"
cd "$(dirname "$0")/../.."
git rev-parse --is-inside-work-tree > /dev/null 2>&1 || fail "only a clone makes a release, and this is none"
version=$(sed -n 's/^## \([0-9][0-9.]*\)$/\1/p' CHANGELOG.md | head -n 1)
name=lldpa-$version
umask 022
room=$(mktemp -d)
trap 'rm -rf "$room"' EXIT
tree=$room/$name

mkdir "$tree"
git ls-files -z | xargs -0 cp -P --parents -t "$tree"
tools/release/vendor.sh
cp -R rust/vendor "$tree/rust"
for made in amd64/lldpa amd64/lldpa_c arm64/lldpa arm64/lldpa_c; do
    assembly=$(tools/release/assembly.sh "${made%/*}" "${made#*/}")
    install -D -m 644 "$assembly" "$tree/assembly/$made.s"
done
# Neither who packs nor where and when shows.
tar -C "$room" --format=ustar --sort=name --owner=0 --group=0 --numeric-owner --mode=u=rwX,go=rX \
    --mtime="@$(git log -1 --format=%ct)" -cf "$room/made.tar" "$name"
if [ -z "$archive" ]; then
    xz -9 -T1 -c "$room/made.tar" > "$room/made.tar.xz"
    mv "$room/made.tar.xz" "$folder/$name.tar.xz"
    echo "$folder/$name.tar.xz"
    exit
fi
xz -dc "$archive" > "$room/given.tar"
if ! cmp "$room/given.tar" "$room/made.tar"; then
    mkdir "$room/given"
    tar -C "$room/given" -xf "$room/given.tar"
    diff -rq "$room/given/$name" "$tree" || true
    fail "$archive is not what this clone and this kit make"
fi
echo "$archive is what this clone and this kit make"
