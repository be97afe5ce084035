#!/bin/sh
# Installs lldpa into folders, and runs what was installed. Checks that uninstalling removes
# everything. Builds the Debian packages, compares them with what tools/release/install.sh installs,
# and checks that lintian, if installed, finds nothing.
#     tools/gate/check-package.sh [PROGRAM]
# It installs nothing on this host. Only as root it also installs the package, in a chroot. It needs lldpa-live
# (tools/release/live.sh --dynamic) and what the Makefile names.
. "$(dirname "$0")/../help.sh"
set -u
LLDPA=$(realpath -- "${1:-$(dirname "$0")/../../crates/lldpa/out/lldpa}")
export LLDPA
cd "$(dirname "$0")/../.." || exit 2
. tools/gate/parts.sh
export LLDPA_LIVE="$PWD/rust/live/out/dynamic/lldpa-live"
multiarch=$(dpkg-architecture -qDEB_HOST_MULTIARCH 2> /dev/null || true)
export LIBDIR="/usr/lib${multiarch:+/$multiarch}"
version=$(sed -n 's/^## \([0-9][0-9.]*\)$/\1/p' CHANGELOG.md | head -n 1)

# Lists the files, folders and links of a tree, each with its mode and the target of a link.
listed() {
    (cd "$1" && find . -mindepth 1 -printf '%P %M %l\n' | LC_ALL=C sort)
}

# install_into TREE WORD..: installs into a tree, with these arguments of install.sh.
install_into() {
    tree=$1
    shift
    check "tools/release/install.sh $*" env "DESTDIR=$tree" "PYTHON_FOLDER=$searched" tools/release/install.sh "$@"
}

# says PATTERN COMMAND..: checks that a command writes a line with this pattern.
says() {
    wanted=$1
    shift
    "$@" > "$room/out" 2>&1
    grep -q "$wanted" "$room/out"
    judge $? "$*: $(cat "$room/out")"
}

# Succeeds if no file is left in a tree. Otherwise lists the files.
left_in() {
    [ -z "$(find "$1" ! -type d -o -name lldpa.d | tee /dev/stderr)" ]
}

# The default prefix has the same files as /usr, except that Debian names some folders differently.
check_prefixes() {
    searched=/usr/local/lib/python3/dist-packages
    install_into "$room/local"
    (cd "$room/local" && find . ! -type d) | sed 's,/usr/local/,/usr/,; s,/site-functions/,/vendor-completions/,' | sort > "$room/of-local"
    (cd "$room/usr" && find . ! -type d) | sort > "$room/of-usr"
    check "the prefix /usr/local has other files than /usr" diff "$room/of-local" "$room/of-usr"
}

# Uninstalling removes all that was installed, except a configuration that was changed.
check_uninstalling() {
    searched=/opt/python
    for prefix in /usr /usr/local /opt/lldpa; do
        install_into "$room/gone" "$prefix"
        install_into "$room/gone" --uninstall "$prefix"
        check "tools/release/install.sh --uninstall $prefix leaves files" left_in "$room/gone"
    done
    install_into "$room/kept" /usr
    echo 'PORTS="swp1"' > "$room/kept/etc/default/lldpa"
    install_into "$room/kept" /usr
    install_into "$room/kept" --uninstall /usr
    check "tools/release/install.sh does not keep a configuration that was changed" \
        grep -qx 'PORTS="swp1"' "$room/kept/etc/default/lldpa"
}

# Nothing is written through a link that waits where install.sh writes first, and what somebody added stays.
check_others_files() {
    searched=/opt/python
    install_into "$room/shared" /usr
    echo theirs > "$room/theirs"
    cp "$room/theirs" "$room/shared/usr/share/lldpa"
    for name in bin/lldpa bin/lldpa-live share/man/man1/lldpa.1; do ln -s "$room/theirs" "$room/shared/usr/$name.new"; done
    install_into "$room/shared" /usr
    check "tools/release/install.sh writes through a link" grep -qx theirs "$room/theirs"
    install_into "$room/shared" --uninstall /usr
    grep -qx "$room/shared/usr/share/lldpa has files of yours, so it stays" "$room/out"
    judge $? "tools/release/install.sh --uninstall does not name the files of others: $(cat "$room/out")"
    check "it removes the files of others" cmp "$room/theirs" "$room/shared/usr/share/lldpa/theirs"
}

# Each program has a manual page and completions, and runs. lldpctl is not in usr/bin.
check_programs() {
    for path in "$room"/usr/usr/bin/* "$room/usr/usr/lib/lldpa/bin/lldpctl"; do
        name=${path##*/}
        case $name in lldpa-live | lldpa-ctl) section=8 ;; *) section=1 ;; esac
        for file in man/man$section/$name.$section bash-completion/completions/$name zsh/vendor-completions/_lldpa; do
            check "$name has no usr/share/$file" [ -f "$room/usr/usr/share/$file" ]
        done
        says "$name" "$path" --help
        says "^$name $version$" "$path" --version
    done
    for name in lldpctl lldpcli; do
        check "lldpd's $name is in usr/bin" [ ! -e "$room/usr/usr/bin/$name" ]
    done
    says "^lldpcli: nobody answers at $room/none" "$room/usr/usr/lib/lldpa/bin/lldpcli" -u "$room/none" show chassis
    check "there is no py.typed" [ -f "$room/usr/usr/lib/lldpa/python/lldpa/py.typed" ]
    path=$room/usr/usr/lib/python3/dist-packages
    says "^$path/lldpa/__init__.py$" env --chdir / "PYTHONPATH=$path" /usr/bin/python3 -c 'import lldpa; print(lldpa.__file__)'
    says "^lldpa-audit " env --chdir / "PYTHONPATH=$path" /usr/bin/python3 -m lldpa_audit --version
}

# All pages are installed, and each of their links leads to an installed file.
check_pages() {
    documents=$room/usr/usr/share/doc/lldpa
    (cd "$documents" && find . -name '*.md' | sort) > "$room/pages"
    find ./README.md ./SECURITY.md ./audit/README.md ./docs -name '*.md' | sort > "$room/wanted"
    check "pages that are installed" diff "$room/wanted" "$room/pages"
    check "links of installed pages" env PAGES="$documents" pytest -q tools/gate/test_pages.py -k links
}

# The service reads the settings of /etc/lldpa.d. Below another prefix it reads PREFIX/etc/lldpa.d.
check_units() {
    units=$room/usr/usr/lib/systemd/system
    check "/etc/default/lldpa has options that belong in the unit" grep -qx 'LIVE_OPTIONS=""' "$room/usr/etc/default/lldpa"
    check "lldpa.service does not run lldpa-live" grep -q \
        '^ExecStart=/usr/bin/lldpa-live .* --keep-state --events --forget-on-down ' "$units/lldpa.service"
    check "lldpa-record.service does not run lldpa-ctl" grep -q '^ExecStart=/usr/bin/lldpa-ctl .* record ' "$units/lldpa-record.service"
    check "no unit for metrics, no user, no cleaning of records, or no rules for Prometheus" ls "$units/lldpa-metrics.timer" "$room/usr/usr/lib/sysusers.d/lldpa.conf" \
        "$room/usr/usr/lib/tmpfiles.d/lldpa.conf" "$room/usr/usr/share/lldpa/lldpa.rules.yml"
    install_into "$room/opt" /opt/lldpa
    check "there is no folder of settings" \
        ls -d "$room/usr/etc/lldpa.d" "$room/local/etc/lldpa.d" "$room/opt/opt/lldpa/etc/lldpa.d"
    check "the service does not read /etc/lldpa.d" \
        grep -q '^ExecStart=.* --config /etc/lldpa.conf --config /etc/lldpa.d ' "$units/lldpa.service"
    check "the service below /opt/lldpa does not read /opt/lldpa/etc/lldpa.d" grep -q \
        '^ExecStart=/opt/lldpa/bin/lldpa-live .* --config /opt/lldpa/etc/lldpa.conf --config /opt/lldpa/etc/lldpa.d ' \
        "$room/opt/opt/lldpa/lib/systemd/system/lldpa.service"
}

# pkg-config finds the library, and uninstalling removes it.
check_library() {
    install_into "$room/dev" --library /usr
    check "links of the library's page" env PAGES="$room/dev/usr/share/doc/liblldpa-dev" pytest -q tools/gate/test_pages.py -k links
    shared_object "$room/dev$LIBDIR/liblldpa.so.1"
    told_by_pkg_config liblldpa.so.1
    told_by_pkg_config -l:liblldpa.a
    install_into "$room/undone" --library /usr
    install_into "$room/undone" --uninstall --library /usr
    check "tools/release/install.sh --uninstall --library leaves files" left_in "$room/undone"
}

# shared_object FILE: checks the object's name, and that it exports what lldpa.h declares.
shared_object() {
    objdump -p "$1" > "$room/said"
    check "the shared object has another name" grep -x ' *SONAME  *liblldpa.so.1' "$room/said"
    nm -D --defined-only "$1" | sed 's/.* //; s/@@LLDPA_1$//' | grep -vx LLDPA_1 | sort > "$room/exported"
    sed -n 's/^[a-z0-9_]* \(lldpa_[a-z_]*\)(.*/\1/p' crates/lldpa_c/include/lldpa.h | sort > "$room/declared"
    check "the shared object exports other names than lldpa.h declares" diff "$room/declared" "$room/exported"
}

# Builds and runs examples/c/who.c with pkg-config's flags and the shared object or the archive.
told_by_pkg_config() {
    told=$(dirname "$(find "$room/dev" -name lldpa.pc)")
    flags=$(PKG_CONFIG_LIBDIR=$told PKG_CONFIG_SYSROOT_DIR=$room/dev pkg-config --cflags --libs lldpa)
    case $1 in -l*) flags=$(echo "$flags" | sed "s/-llldpa/$1/") ;; esac
    # shellcheck disable=SC2086 # each flag is a word
    cc examples/c/who.c -o "$room/who" $flags > "$room/out" 2>&1 &&
        LD_LIBRARY_PATH=$(dirname "$told") "$room/who" docs/lab.pcap > "$room/out" 2>&1 &&
        cmp -s "$room/out" examples/c/who.expect
    judge $? "examples/c/who.c, built as pkg-config says with $1: $(cat "$room/out")"
    needed=$(objdump -p "$room/who" | sed -n 's/ *NEEDED *\(liblldpa.*\)/\1/p')
    case $1 in -l*) [ -z "$needed" ] ;; *) [ "$needed" = "$1" ] ;; esac
    judge $? "examples/c/who.c, built with $1, needs $needed"
}

# The packages have the files that install.sh installs, and a few more. postinst adds the settings.
check_files() {
    for package in "$room"/packages/*.deb; do
        check "dpkg-deb -x $package" dpkg-deb -x "$package" "$room/package"
        dpkg-deb --fsys-tarfile "$package" | tar -t | grep -v '/$' >> "$room/files"
    done
    [ -z "$(sort "$room/files" | uniq -d)" ]
    judge $? "files of two packages: $(sort "$room/files" | uniq -d)"
    cp -a "$room/dev/usr" "$room/usr"
    find "$room/usr" -name __pycache__ -exec rm -r {} +  # of the programs that ran
    cp "$LLDPA_LIVE" "$room/usr/usr/bin/lldpa-live"      # debian/rules may have built it again
    mv "$room/package/usr/share/cargo/registry" "$room/crates"
    rm -r "$room/package/usr/share/cargo" "$room/package/usr/share/python3"
    # The links of lldpa-lldpctl, which install.sh leaves to the one who installs.
    rm -r "$room/package/usr/sbin" "$room/package/usr/share/bash-completion/completions/lldpcli" "$room"/package/usr/share/man/man1/lldpcli.1.gz
    gunzip "$room"/package/usr/share/man/*/*.gz "$room/package/usr/share/doc/lldpa/changelog.gz"
    mkdir -p "$room/package/etc/default"
    mv "$room/package/usr/share/lldpa/default" "$room/package/etc/default/lldpa"
    own='^usr/share/doc/\(liblldpa1\|librust-lldpa-dev\|lldpa-tools\|lldpa-lldpctl\)\|^usr/share/doc/[^/]*/\(copyright\|changelog[.A-Za-z]*\.gz\) '
    listed "$room/package" | grep -v "$own" > "$room/packaged"
    listed "$room/usr" > "$room/installed"
    check "the packages have other files than tools/release/install.sh installs" diff "$room/installed" "$room/packaged"
    set -- --remove-section=.comment --remove-section=.note
    strip "$@" "$room/usr/usr/bin/lldpa" "$room/usr/usr/bin/lldpa-live"
    find "$room/usr$LIBDIR" -name liblldpa.so.1 -exec strip "$@" --strip-unneeded {} +
    strip "$@" --strip-debug --enable-deterministic-archives "$room/usr$LIBDIR/liblldpa.a"
    diff -rq "$room/usr" "$room/package" | grep -v 'Only in .*package/usr/share/doc' > "$room/out"
    [ ! -s "$room/out" ]
    judge $? "files differ: $(cat "$room/out")"
}

# field NAME FIELD: prints a field of a package.
field() {
    dpkg-deb -f "$room/packages/$1"_*.deb "$2"
}

# What a package needs, what an upgrade may ask, and that the library has the symbols of each release.
check_control() {
    dpkg-deb -x "$room"/packages/lldpa_*.deb "$room/alone"
    ! grep -rlI python "$room/alone/usr/bin" "$room/alone/usr/lib" && ! field lldpa Depends | grep python
    judge $? "the package lldpa needs Python"
    [ "$(field lldpa Recommends)" = lldpa-tools ]
    judge $? "lldpa does not recommend lldpa-tools"
    ! dpkg-deb --info "$room"/packages/lldpa_*.deb conffiles | grep /etc/default/lldpa
    judge $? "/etc/default/lldpa is a conffile of the package, so an upgrade could ask about it"
    [ "$(field lldpa Version | sed 's/-[0-9]*$//')" = "$version" ]
    judge $? "debian/changelog has another version than CHANGELOG.md"
    dpkg-deb --info "$room"/packages/liblldpa1_*.deb symbols | sed -n 's/^ \(lldpa_.*\)@LLDPA_[0-9]* .*/\1/p' > "$room/said"
    sed -n 's/^[a-z0-9_]* \(lldpa_[a-z_]*\)(.*/\1/p' tools/library/abi/*.h | sort -u > "$room/released"
    [ -s "$room/released" ] && ! grep -vxF -f "$room/said" "$room/released"
    judge $? "liblldpa1 lacks symbols of a release in tools/library/abi"
    dpkg-deb --info "$room"/packages/liblldpa1_*.deb shlibs | grep -q '^liblldpa 1 liblldpa1 '
    judge $? "the shlibs file of liblldpa1 does not have the name of the package"
}

# Installs the package in a copy of this host's files in which no systemd runs, as makers of images do. Then systemd
# seems to run, and a service that was taken over has left links to a file of root: neither an upgrade nor a purge
# writes through them.
check_chroot() {
    [ "$(id -u)" -eq 0 ] || { echo "skipped: the package in a chroot, which needs root"; return; }
    cat > "$room/in-chroot" <<'END'
#!/bin/sh
# in-chroot FOLDER PACKAGE LLDPCTL: writes a line for each check, `held` or `FAILED`, and a name.
mkdir -p "$1" && mount -t tmpfs tmpfs "$1" && mkdir "$1/upper" "$1/work" "$1/root" || exit 3
mount -t overlay overlay -o "lowerdir=/,upperdir=$1/upper,workdir=$1/work" "$1/root" || exit 3
root=$1/root
mount -t proc proc "$root/proc" && mount --rbind /dev "$root/dev" || exit 3
mount -t tmpfs tmpfs "$root/run" && mount -t tmpfs tmpfs "$root/tmp" || exit 3
cp "$2" "$root/tmp/lldpa.deb"
cp "$3" "$root/tmp/lldpctl.deb"
held() {
    what=$1
    shift
    if "$@" > "${root%root}said" 2>&1; then echo "held: $what"; else echo "FAILED: $what: $(tail -n 3 "${root%root}said")"; fi
}
# The folders that the service's user can write, with links in the places of the files that stood there.
plant() {
    mkdir -p "$root/run/systemd/system"
    for folder in run/private/lldpa var/lib/private/lldpa run/lldpa-metrics; do
        mkdir -p "$root/$folder"
        chown nobody "$root/$folder"
    done
    rm -f "$root/run/private/lldpa/state" "$root/run/lldpa-metrics/lldpa.prom"
    echo forged > "$root/run/private/lldpa/state"
    chown nobody "$root/run/private/lldpa/state"
    for link in var/lib/private/lldpa/state run/lldpa-metrics/lldpa.prom; do ln -sfT /etc/lldpa-victim "$root/$link"; done
}
unharmed() { [ "$(stat -c '%U %a' "$root/etc/lldpa-victim") $(cat "$root/etc/lldpa-victim")" = "root 600 of root" ]; }
# Two agents on a link of their own. The name of the second must appear in what the first one answers.
connect() {
    ip link add eth0 type veth peer name far && ip link set eth0 up && ip link set far up
    chroot "$root" lldpa-live --control /run/lldpa/control eth0 &
    agents=$!
    chroot "$root" lldpa-live --control /run/far/control far -- --hostname far.example &
    agents="$agents $!"
    for _ in $(seq 300); do
        if chroot "$root" lldpa-ctl | grep far.example; then return; fi
        sleep 0.2
    done
    false
}
told_in() { chroot "$root" sh -c "PATH=/usr/sbin:/usr/bin; $2" | grep -x "$1"; }
no_lldpd() { [ ! -e "$root/usr/sbin/lldpd" ] && { [ ! -e /etc/lldpd.d ] || [ -e "$root/etc/lldpd.d" ]; }; }
lldpd_has_room() { [ ! -e "$root/usr/sbin/lldpcli" ] && [ -e "$root/usr/lib/lldpa/bin/lldpcli" ]; }
held "it installs without systemd" chroot "$root" dpkg -i /tmp/lldpa.deb
held "it has a configuration" [ -f "$root/etc/default/lldpa" ]
held "it has a user for lldpa-live by hand" chroot "$root" id _lldpa
(umask 077 && echo of root > "$root/etc/lldpa-victim")
plant
held "it upgrades" chroot "$root" dpkg -i /tmp/lldpa.deb
held "an upgrade writes through no link of the service" unharmed
held "two agents hear each other" connect
held "lldpa-lldpctl takes the place of lldpd" chroot "$root" apt-get -qqy install /tmp/lldpctl.deb
held "lldpd has gone, but for its configuration" no_lldpd
held "lldpctl answers as Ansible asks it" told_in 'lldp.eth0.chassis.name=far.example' 'lldpctl -f keyvalue'
held "lldpctl answers in JSON" told_in far.example 'lldpctl -f json |
    python3 -c "import json, sys; print(*json.load(sys.stdin)[\"lldp\"][\"interface\"][\"eth0\"][\"chassis\"])"'
held "lldpcli answers" told_in ' *SysName: *far.example' 'lldpcli show neighbors'
held "lldpa-lldpctl goes again" chroot "$root" dpkg -P lldpa-lldpctl
held "the names are free for lldpd" lldpd_has_room
# shellcheck disable=SC2086 # each number is a word
kill $agents
wait
plant
held "it is purged" chroot "$root" dpkg -P lldpa
held "a purge writes through no link of the service" unharmed
held "no file of it is left" [ -z "$(cd "$root" && ls -d run/lldpa* var/lib/private/lldpa etc/default/lldpa etc/lldpa.d 2> /dev/null)" ]
END
    unshare --mount --net --propagation private sh "$room/in-chroot" "$room/over" "$(ls "$room"/packages/lldpa_*.deb)" \
        "$(ls "$room"/packages/lldpa-lldpctl_*.deb)" > "$room/tried" 2>&1
    if [ $? -eq 3 ]; then
        echo "skipped: the package in a chroot, since no file system can be laid over this one: $(tail -n 1 "$room/tried")"
        return
    fi
    [ "$(grep -c '^held: ' "$room/tried")" -eq 16 ]
    judge $? "the package in a chroot: $(grep -v '^held: ' "$room/tried")"
}

# debian/rules refuses a program of another version.
check_refusal() {
    mkdir "$room/older"
    printf '#!/bin/sh\necho lldpa 0.9.9\n' > "$room/older/lldpa"
    chmod 755 "$room/older/lldpa"
    ! LLDPA_BUILT=$room/older make -f debian/rules override_dh_auto_test > "$room/out" 2>&1
    judge $? "debian/rules takes a program of another version: $(cat "$room/out")"
}

# A second build, under other conditions, gives the same octets.
check_same() {
    umask 077
    check "a second build" env TZ=Pacific/Auckland LC_ALL=C.UTF-8 tools/release/package.sh "$room/again"
    for package in "$room"/packages/*.deb; do
        check "a second build has another ${package##*/}" cmp "$package" "$room/again/${package##*/}"
    done
}

# The crate of librust-lldpa-dev is found and linked as Debian's crates are.
check_crate() {
    mkdir -p "$room/crate/src"
    cp rust/lldpa/examples/receive.rs "$room/crate/src/main.rs"
    printf '[package]\nname = "receive"\nversion = "1.0.0"\nedition = "2021"\n[dependencies]\nlldpa = "1"\n' > "$room/crate/Cargo.toml"
    check "a program with the crate of librust-lldpa-dev" env --chdir "$room/crate" \
        "LLDPA_LIB_DIR=$room/package$LIBDIR" cargo build --offline --quiet \
        --config 'source.crates-io.replace-with="debian"' --config "source.debian.directory=\"$room/crates\""
}

searched=/usr/lib/python3/dist-packages
install_into "$room/usr" /usr
check_prefixes
check_uninstalling
check_others_files
check_programs
check_pages
check_units
if ! tools/library/library.sh "$room/built" > "$room/said" 2>&1; then
    judge 1 "the library and the packages: $(cat "$room/said")"
    finish
    exit
fi
# lldpa-live was built with the library in this folder. With the same library cargo need not build it again.
export LLDPA_LIB_DIR="$PWD/crates/lldpa_c/out/lib"
cmp -s "$room/built/liblldpa.a" "$LLDPA_LIB_DIR/liblldpa.a" || LLDPA_LIB_DIR=$room/built
check_library
mkdir "$room/given"
cp "$LLDPA" "$room/given/lldpa"
ln -s "$LLDPA_LIB_DIR" "$room/given/lib"
export LLDPA_BUILT="$room/given"
check "tools/release/package.sh" tools/release/package.sh "$room/packages"
check_files
check_control
check_chroot
check_refusal
check_crate
lintian --fail-on error,warning --allow-root "$room"/packages/*.changes > "$room/out" 2>&1 && [ ! -s "$room/out" ]
judge $? "lintian: $(cat "$room/out")"
check_same
finish
