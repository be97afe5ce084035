#!/bin/sh
# Makes a release, and builds and tests it where there is no kit, as a user who is not root.
#     tools/gate/check-dist.sh [--arm64 | --packages]
# In namespaces without a network empty folders cover the kit and Debian's crates, and the user is `nobody`. There the
# archive is unpacked, built, tested (make check), installed in a folder, and packed for Debian. With --arm64, for
# a release, its arm64 programs are tested too, by qemu. With --packages only the archive is checked,
# and the packages that are built from it. Prints the seconds from `tar` to `lldpa-ctl --version`, and
# those of `make check`. The archive is left in the folder out. Needs root, the kit, and what the Makefile names.
. "$(dirname "$0")/../help.sh"
set -u
case ${1-} in
    '' | --arm64 | --packages) ;;
    *) echo "tools/gate/check-dist.sh: there is no option $1, but --arm64 and --packages" >&2 && exit 2 ;;
esac
cd "$(dirname "$0")/../.." || exit 2
. tools/gate/parts.sh
kit=$(dirname "$(rt doc)")
version=$(sed -n 's/^## \([0-9][0-9.]*\)$/\1/p' CHANGELOG.md | head -n 1)
place=$room/place # the user's folder
system_path=/usr/local/sbin:/usr/local/bin:/usr/sbin:/usr/bin:/sbin:/bin
tree=$place/lldpa-$version
chmod 755 "$room"
install -d -o nobody -m 755 "$place" "$place/tmp"

# inside COMMAND..: runs a command as the user nobody, where there is no kit, no crate of Debian and no network.
inside() {
    unshare --mount --net sh -c 'for folder in "$1" /usr/share/cargo/registry; do
            [ ! -d "$folder" ] || mount -t tmpfs none "$folder" || exit
        done
        ip link set lo up && shift && cd "$1" && shift && exec "$@"' sh "$kit" "$place" \
        setpriv --reuid=nobody --regid=nogroup --clear-groups \
        env -i "PATH=$system_path" "HOME=$place" "TMPDIR=$place/tmp" \
        PYTHONDONTWRITEBYTECODE=1 LC_ALL=C.UTF-8 "$@"
}

# refused WHAT COMMAND..: checks that a command fails.
refused() {
    refused_what=$1
    shift
    ! "$@" > "$room/out" 2>&1
    judge $? "$refused_what: $(tail -n 3 "$room/out")"
}

# Sets `used` to the seconds of processor that the commands of this script have used.
look_at_processor() {
    times > "$room/times"
    used=$(awk -F '[ms ]+' 'NR == 2 { print int(60 * ($1 + $3) + $2 + $4) }' "$room/times")
}

# Two archives have the same octets, and one with another octet is noticed.
check_archive() {
    mkdir "$room/first" "$room/again"
    check "tools/release/dist.sh" tools/release/dist.sh "$room/first"
    archive=$room/first/lldpa-$version.tar.xz
    check "the archive again" env --chdir=/ TZ=Pacific/Auckland sh -c 'umask 077; "$@"' sh "$PWD/tools/release/dist.sh" "$room/again"
    check "the archive has other octets the second time" cmp "$archive" "$room/again/lldpa-$version.tar.xz"
    check "dist.sh --check refuses its own archive" tools/release/dist.sh --check "$archive"
    unpacked=$room/changed/lldpa-$version
    mkdir "$room/changed"
    check "tar" tar -C "$room/changed" -xf "$archive"
    sed -i '0,/\tretq\?$/s//\tnop/' "$unpacked/assembly/amd64/lldpa.s"
    tar -C "$room/changed" -cJf "$room/changed.tar.xz" "lldpa-$version"
    refused "dist.sh --check takes an archive in which an instruction was changed" \
        tools/release/dist.sh --check "$room/changed.tar.xz"
    head -c 100000 "$archive" > "$room/short.tar.xz"
    refused "dist.sh --check takes an archive that was cut short" tools/release/dist.sh --check "$room/short.tar.xz"
    sed -i 's/u32::from(greatest) < value/u32::from(greatest) <= value/' "$unpacked/crates/lldp_text/src/numbers.rt"
    refused "a release with a changed source is built, though its assembly is that of the old one" \
        "$unpacked/tools/release/build.sh" "$room/built"
    for file in "$unpacked"/assembly/*/*.s; do
        head -n 2 "$file" | grep -q "kit: $(rt version)$"
        judge $? "the head of ${file#"$unpacked"/} does not name the kit and its logic"
    done
}

# From tar to the first answer of what was built, in seconds.
check_build() {
    refused "the kit is still there" inside rt version
    check "the user is root" inside sh -c '[ "$(id -u)" -ne 0 ] && [ -z "$(ls -A "$1")" ]' sh "$kit"
    look_at_processor
    began=$(date +%s) used_before=$used
    check "tar" inside tar -xf "$archive"
    refused "lldpa-ctl runs before make" inside "$tree/bin/lldpa-ctl" --version
    grep -q "lldpa-ctl is not built: run make in $tree" "$room/out"
    judge $? "before make lldpa-ctl says: $(cat "$room/out")"
    check "make" inside make -C "$tree"
    check "lldpa-ctl --version" inside "$tree/rust/live/out/lldpa-ctl" --version
    grep -qx "lldpa-ctl $version" "$room/out"
    judge $? "lldpa-ctl --version says $(cat "$room/out")"
    look_at_processor
    echo "from tar to lldpa-ctl --version: $(($(date +%s) - began)) s (aim: 60), of a processor $((used - used_before)) s"
}

# What is missing is named: each row has a command, what runs without it, and what that says.
check_missing() {
    while read -r missing script said; do
        mkdir "$place/no-$missing"
        ln -s /usr/bin/* "$place/no-$missing"
        rm -f "$place/no-$missing/$missing"
        refused "$script runs without $missing" inside env "PATH=$place/no-$missing" "$tree/$script" < /dev/null
        grep -q "$said" "$room/out"
        judge $? "without $missing $script says: $(cat "$room/out")"
    done << 'END'
cargo tools/release/live.sh cargo is not installed
gcc tools/release/build.sh gcc is not installed
END
}

# live.sh makes the library first if there is none. A cargo that fails saves a second build.
check_library_first() {
    library=$tree/crates/lldpa_c/out/lib
    mkdir "$place/failing"
    printf '#!/bin/sh\nexit 1\n' > "$place/failing/cargo"
    chmod 755 "$place/failing/cargo"
    inside mv "$library" "$place/lib"
    refused "live.sh succeeds though cargo fails" inside env "PATH=$place/failing:$system_path" "$tree/tools/release/live.sh"
    grep -q "cargo failed" "$room/out"
    judge $? "live.sh does not say that cargo failed: $(cat "$room/out")"
    check "live.sh makes no library if there is none" ls "$library/liblldpa.a"
    inside rm -rf "$library"
    inside mv "$place/lib" "$library"
}

# The library is the same if it is built in Turkish, where the range a-z does not have each letter.
check_language() {
    check "localedef" inside localedef -i tr_TR -f UTF-8 "$place/tr_TR.UTF-8"
    check "library.sh in Turkish" inside env "LOCPATH=$place" LC_ALL=tr_TR.UTF-8 "$tree/tools/library/library.sh" "$place/turkish"
    check "the library that is built in Turkish" cmp "$place/turkish/liblldpa.a" "$tree/crates/lldpa_c/out/lib/liblldpa.a"
}

# What make install copies runs, and make uninstall leaves nothing.
check_installing() {
    check "make install" inside make -C "$tree" install "DESTDIR=$place/dest" prefix=/usr
    for name in lldpa lldpa-live lldpa-ctl lldpa-capture lldpa-audit; do
        check "$name --help, installed" inside "$place/dest/usr/bin/$name" --help
    done
    check "make install copies no library" ls "$place/dest/usr/lib/liblldpa.so.1" "$place/dest/usr/include/lldpa.h"
    check "make uninstall" inside make -C "$tree" uninstall "DESTDIR=$place/dest" prefix=/usr
    [ -z "$(find "$place/dest" ! -type d)" ]
    judge $? "make uninstall leaves $(find "$place/dest" ! -type d)"
    check "install.sh with a relative DESTDIR" inside env DESTDIR=near "$tree/tools/release/install.sh" /usr
    check "DESTDIR is not of the folder where install.sh was called" ls "$place/near/usr/bin/lldpa"
}

# same_packages WITH WITHOUT: checks that two folders have the same packages, made with and without the
# kit, and none more.
same_packages() {
    names_with=$(cd "$1" && ls ./*.deb)
    names_without=$(cd "$2" && ls ./*.deb)
    [ -n "$names_with" ] && [ "$names_with" = "$names_without" ]
    judge $? "with the kit these packages are made: $names_with; and without it these: $names_without"
    for package in "$1"/*.deb; do
        check "${package##*/} is another with the kit" cmp "$package" "$2/${package##*/}"
    done
}

# The Debian packages from the source package have the octets of those that are built with the kit.
check_packages() {
    debian=$place/debian
    inside mkdir "$debian"
    cp "$archive" "$debian/lldpa_$version.orig.tar.xz"
    check "the source package" inside sh -euc 'cd "$1" && tar -xf *.orig.tar.xz && dpkg-source -b lldpa-*
        rm -r lldpa-*/ && dpkg-source -x *.dsc' sh "$debian"
    check "dpkg-buildpackage" inside sh -c 'cd "$1"/lldpa-*/ && dpkg-buildpackage -b -d -uc -us' sh "$debian"
    check "tools/release/build.sh" tools/release/build.sh "$room/with-kit"
    # by the same cargo, from the same files without the assembly
    mkdir "$room/without"
    check "tar" tar -C "$room/without" -xf "$archive"
    rm -r "$room/without/lldpa-$version/assembly"
    check "tools/release/package.sh" env "PATH=$system_path" "LLDPA_BUILT=$room/with-kit" \
        "$room/without/lldpa-$version/tools/release/package.sh" "$room/packages"
    same_packages "$room/packages" "$debian"
}

check_archive
mkdir -p out && rm -f out/lldpa-*.tar.xz && cp "$archive" out
if [ "${1-}" = --packages ]; then
    check_packages
    finish
    exit
fi
check_build
if [ "$failed" -eq 0 ]; then
    began=$(date +%s)
    check "make check" inside make --silent -C "$tree" check
    echo "make check: $(($(date +%s) - began)) s (aim: 600)"
    check_missing
    check_language
    check_library_first
    check_installing
    check_packages
fi
finish
