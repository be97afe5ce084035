#!/bin/sh
# Copies lldpa to a prefix, on systems without Debian's packages. debian/rules packs what it copies.
#     tools/release/install.sh [--uninstall] [--library] [PREFIX]
# The default prefix is /usr/local; DESTDIR, if set, is put before all paths. It copies the programs
# with their Python packages, manual pages, completions, the service with its configuration, alerts
# for Prometheus, and the pages; with --library only the C library, to LIBDIR (default PREFIX/lib).
# Without DESTDIR root also makes the user of an lldpa-live that is started by hand.
# --uninstall removes what was copied, and says what stays: a configuration that was changed, what
# somebody added, records, and the user. It removes nothing while systemd runs the service or would
# start it at a boot. `import lldpa` works for a
# python3 that searches PYTHON_FOLDER (default: the first folder below the prefix that python3
# searches). LLDPA names the program (default crates/lldpa/out/lldpa), LLDPA_LIVE names lldpa-live
# (default rust/live/out/lldpa-live), and LLDPA_LIB_DIR the folder that tools/library/library.sh made
# (default crates/lldpa_c/out/lib).
. "$(dirname "$0")/../help.sh"
set -eu
export LC_ALL=C # in Turkish A-Z does not have each letter
uninstall=
library=
prefix=/usr/local
for word; do
    case $word in
        --uninstall) uninstall=yes ;;
        --library) library=yes ;;
        /*) prefix=${word%/} ;;
        -*) echo "tools/release/install.sh: there is no option $word, but --uninstall and --library" >&2 && exit 2 ;;
        *) echo "tools/release/install.sh: the prefix $word does not begin with /" >&2 && exit 2 ;;
    esac
done
program=$(realpath -m -- "${LLDPA:-$(dirname "$0")/../../crates/lldpa/out/lldpa}")
live=$(realpath -m -- "${LLDPA_LIVE:-$(dirname "$0")/../../rust/live/out/lldpa-live}")
built=$(realpath -m -- "${LLDPA_LIB_DIR:-$(dirname "$0")/../../crates/lldpa_c/out/lib}")
libdir=${LIBDIR:-$prefix/lib}
destination=${DESTDIR:+$(realpath -m -- "$DESTDIR")}
cd "$(dirname "$0")/../.."
umask 022
private=$prefix/lib/lldpa
documents=$prefix/share/doc/lldpa
# Debian has another folder for zsh. For /usr and /usr/local the configuration is in /etc.
zsh=site-functions
case $prefix in
    /usr) etc=/etc zsh=vendor-completions ;;
    /usr/local) etc=/etc ;;
    *) etc=$prefix/etc ;;
esac
room=$(mktemp -d)
trap 'rm -rf "$room"' EXIT
tree=$room/tree # gets all files first, and then they are copied or removed one by one

# put MODE FOLDER FILE..: copies files to a folder of the tree.
put() {
    mode=$1 into=$2
    shift 2
    install -D -m "$mode" -t "$tree$into" "$@"
}

# link TARGET NAME: makes a link in the tree. The target is relative to the folder of the name.
link() {
    mkdir -p "$(dirname "$tree$2")"
    ln -s "$1" "$tree$2"
}

put_programs() {
    put 755 "$prefix/bin" "$program" "$live"
    link lldpa-live "$prefix/bin/lldpa-ctl"
    for file in bin/lldpa-audit bin/lldpa-capture; do
        put 755 "$private/bin" "$file"
        link "../lib/lldpa/$file" "$prefix/$file"
    done
    [ "$prefix" != /usr ] || sed -i '1s,.*,#!/usr/bin/python3 -I,' "$tree$private"/bin/*
    # lldpd has programs with these names, so they are not on the path.
    link ../../../bin/lldpa-live "$private/bin/lldpctl"
    link ../../../bin/lldpa-live "$private/bin/lldpcli"
    find python/lldpa audit/lldpa_audit -name '*.py' -o -name py.typed | while read -r file; do
        put 644 "$private/$(dirname "$file")" "$file"
    done
    looks=${PYTHON_FOLDER-}
    if [ -z "$looks" ] && command -v python3 > /dev/null; then
        looks=$(python3 -c 'import site; print(*site.getsitepackages(), sep="\n")' |
            awk -v front="$prefix/" 'index($0, front) == 1 && !found++')
        [ -n "$looks$uninstall" ] ||
            echo "to import lldpa, put $private/python and $private/audit on PYTHONPATH: python3 does not search $prefix"
    elif [ -z "$looks$uninstall" ]; then
        echo "lldpa-capture and lldpa-audit need Python 3.9 or later, and there is no python3"
    fi
    if [ -n "$looks" ]; then
        link "$(realpath -m --relative-to="$looks" "$private/python/lldpa")" "$looks/lldpa"
        link "$(realpath -m --relative-to="$looks" "$private/audit/lldpa_audit")" "$looks/lldpa_audit"
    fi
}

put_service() {
    put 644 "$prefix/lib/systemd/system" share/systemd/*
    sed -i "s,/usr/local/,$prefix/,g; s,/etc/default/,$etc/default/,g; s,/etc/lldpa,$etc/lldpa,g" "$tree$prefix/lib/systemd/system"/*
    put 644 "$prefix/lib/tmpfiles.d" share/tmpfiles.d/lldpa.conf
    put 644 "$prefix/lib/sysusers.d" share/sysusers.d/lldpa.conf
    put 644 "$prefix/share/lldpa" share/prometheus/*
    put 644 "$etc/default" share/default/lldpa
    put 644 "$etc" share/settings/lldpa.conf
    put 644 "$etc/lldpa.d" share/settings/README
}

# A link to a file that is only in the sources becomes text.
put_pages() {
    put 644 "$prefix/share/man/man1" man/*.1 audit/*.1
    put 644 "$prefix/share/man/man8" man/*.8
    for name in lldpa lldpa-live lldpa-ctl lldpctl lldpa-audit lldpa-capture; do
        install -D -m 644 share/bash-completion/lldpa "$tree$prefix/share/bash-completion/completions/$name"
    done
    put 644 "$prefix/share/zsh/$zsh" share/zsh/_lldpa
    put 644 "$documents" README.md SECURITY.md
    put 644 "$documents/docs" docs/*
    put 644 "$documents/audit" audit/README.md audit/*.schema.json
    put 644 "$documents/audit/worked" audit/worked/*
    install -m 644 CHANGELOG.md "$tree$documents/changelog"
    sources='crates|examples|man|tools|share|python|rust|Makefile|CONTRIBUTING|CHANGELOG|(audit/)?lldpa-audit\.1'
    find "$tree$documents" -name '*.md' -exec sed -zEi "s,\[([^]]*)\]\((\.\./)*($sources)[^)]*\),\1,g" {} +
}

put_library() {
    put 644 "$prefix/include" "$built/lldpa.h"
    put 644 "$libdir" "$built/liblldpa.a" "$built/liblldpa.so.1"
    link liblldpa.so.1 "$libdir/liblldpa.so" # the linker searches for this name
    put 644 "$libdir/pkgconfig" share/pkgconfig/lldpa.pc
    version=$(sed -n 's/^## \([0-9][0-9.]*\)$/\1/p' CHANGELOG.md | head -n 1)
    sed -i "s,@prefix@,$prefix,; s,@libdir@,$libdir,; s,@version@,$version," "$tree$libdir/pkgconfig/lldpa.pc"
    put 644 "$prefix/share/man/man3" crates/lldpa_c/include/lldpa.3
    put 644 "$prefix/share/doc/liblldpa-dev" docs/LIBRARY.md
    put 644 "$prefix/share/doc/liblldpa-dev/examples/c" examples/c/*.c
    put 644 "$prefix/share/doc/liblldpa-dev/examples/python" examples/python/*.py
    # The examples are beside this page. The other links become text.
    sed -zEi 's,\]\(\.\./examples/(c|python)/,](examples/\1/,g
        s,\[([^]]*)\]\((\.\./|[A-Z]+\.md)[^)]*\),\1,g' "$tree$prefix/share/doc/liblldpa-dev/LIBRARY.md"
}

if [ -n "$uninstall" ]; then # only names count, so nothing has to be built
    program=$room/lldpa live=$room/lldpa-live built=$room
    touch "$program" "$live" "$room/lldpa.h" "$room/liblldpa.a" "$room/liblldpa.so.1"
fi
set -- "$program" "$live"
[ -z "$library" ] || set -- "$built/liblldpa.a"
for file; do
    [ -f "$file" ] || { echo "tools/release/install.sh: there is no $file: make builds it" >&2 && exit 1; }
done
if [ -n "$library" ]; then
    put_library
else
    put_programs
    put_service
    put_pages
fi
# Succeeds if systemd runs the service of this prefix, or starts it at a boot.
serves() {
    [ -d /run/systemd/system ] &&
        [ "$(systemctl show --value -p FragmentPath lldpa)" -ef "$destination$prefix/lib/systemd/system/lldpa.service" ] &&
        { systemctl is-active --quiet lldpa || systemctl is-enabled --quiet lldpa; }
}

if [ -n "$uninstall" ] && [ -z "$library" ] && serves; then
    echo "systemd has the service lldpa: first run: systemctl disable --now lldpa" >&2
    exit 1
fi
(cd "$tree" && find . ! -type d) | sed 's/^\.//' | while read -r name; do
    new=$tree$name there=$destination$name
    if [ "${name#"$etc/"}" != "$name" ] && [ -e "$there" ] && ! cmp -s "$new" "$there"; then
        echo "$there was changed, so it stays"
    elif [ -n "$uninstall" ]; then
        rm -f "$there"
    else
        mkdir -p "$(dirname "$there")"
        cp -PT --remove-destination --preserve=mode "$new" "$there.new"
        mv -T "$there.new" "$there"
    fi
done
if [ -n "$uninstall" ] && [ -n "$library" ]; then
    rm -rf "$destination$prefix/share/doc/liblldpa-dev"
elif [ -n "$uninstall" ]; then # also what Python has compiled
    rm -rf "$destination$private" "$destination$documents"
    for folder in "$prefix/share/lldpa" "$etc/lldpa.d"; do
        [ ! -d "$destination$folder" ] || rmdir --ignore-fail-on-non-empty "$destination$folder"
        [ ! -d "$destination$folder" ] || echo "$destination$folder has files of yours, so it stays"
    done
    [ ! -e "$destination/var/lib/lldpa" ] || echo "$destination/var/lib/lldpa has records, so it stays"
    [ -n "$destination" ] || ! id _lldpa > /dev/null 2>&1 || echo "the user _lldpa stays: userdel _lldpa removes it"
elif [ -z "$library$destination" ] && [ "$(id -u)" -eq 0 ]; then
    systemd-sysusers "$prefix/lib/sysusers.d/lldpa.conf" 2> "$room/said" ||
        echo "there is no user _lldpa: an lldpa-live that is started by hand becomes nobody ($(tail -n 1 "$room/said"))"
fi
echo "${uninstall:+un}installed under $destination$prefix"
