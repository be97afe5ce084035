#!/bin/sh
# Makes rust/vendor, from which cargo takes the crate libc without network, unless it is there. A release has it.
#     tools/release/vendor.sh
# The files are those of Debian's package librust-libc-dev, if its version is that of Cargo.lock. Otherwise cargo
# fetches them from crates.io.
. "$(dirname "$0")/../help.sh"
set -eu
cd "$(dirname "$0")/../../rust"
[ ! -d vendor ] || exit 0
room=$(mktemp -d ./vendor.XXXXXX)
trap 'rm -rf "$room"' EXIT
chmod 755 "$room"
packaged=/usr/share/cargo/registry/libc-$(sed -n '/^name = "libc"$/{n;s/^version = "\(.*\)"$/\1/p}' Cargo.lock)
if [ -d "$packaged" ]; then
    cp -R -L "$packaged" "$room/libc"
else # from another folder, since below this one cargo has no network
    manifest=$PWD/Cargo.toml folder=$PWD/$room
    (cd / && cargo vendor --quiet --locked --manifest-path "$manifest" "$folder" > /dev/null)
fi
mv -T "$room" vendor 2> /dev/null || [ -d vendor ] # another build was faster
