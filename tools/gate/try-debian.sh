#!/bin/sh
# Makes a release, and builds it in a new Debian, as a user who is not root, without a network and without Debian's
# crates. Then does there what a new user does: `make check`, and in a container that boots `make install`, the service,
# an upgrade and `make uninstall`.
#     tools/gate/try-debian.sh [--build] SUITE..
# A SUITE is a release of Debian, such as bookworm or trixie, which debootstrap gets, or the path of a folder that has
# one. It has what README names for a build, and for the rest also systemd, Python and pytest. With --build it only
# builds, as the gate does. ARCHIVE names a release that is there. Needs root, the kit, debootstrap and a network, and
# without --build systemd-nspawn.
. "$(dirname "$0")/../help.sh"
set -u
only_build=
[ "${1-}" != --build ] || { only_build=yes && shift; }
case ${1--} in
    -*) echo "tools/gate/try-debian.sh: name a release of Debian, such as trixie, and not ${1-none}" >&2 && exit 2 ;;
esac
cd "$(dirname "$0")/../.." || exit 2
. tools/gate/parts.sh
. tools/gate/boot.sh
chmod 755 "$room"

# in_it COMMAND: runs a shell command as nobody in the folder /build of the Debian, without a network.
in_it() {
    unshare --mount --net --pid --fork --kill-child sh -c '
        mount -t proc proc "$1/proc" && mount --rbind /dev "$1/dev" &&
        ip link set lo up && exec chroot "$1" setpriv --reuid=65534 --regid=65534 --clear-groups \
            env -i PATH=/usr/bin:/bin HOME=/build LC_ALL=C.UTF-8 sh -euc "cd /build; $2"' sh "$root" "$1"
}

# timed WHAT COMMAND..: checks, and prints how long it took, in seconds and in seconds of processor.
timed() {
    timed_what=$1 began=$(date +%s)
    times > "$room/before"
    check "$@"
    times > "$room/after"
    used=$(tail -qn 1 "$room/before" "$room/after" |
        awk -F '[ms ]+' '{ sum = 60 * ($1 + $3) + $2 + $4 - sum } END { print int(sum) }')
    echo "$timed_what: $(($(date +%s) - began)) s, of a processor $used s"
}

# get SUITE: makes the Debian.
get() {
    case $1 in
        */*) cp -a "$1" "$root" ;;
        *) debootstrap --variant=minbase --include=xz-utils,make,gcc,libc6-dev,cargo "$1" "$root" ;;
    esac
}

# What a new user does as root, with the commands of README and OPERATORS.
cat > "$room/try.sh" <<'END'
#!/bin/bash
. /root/in-container.sh
cd /build/lldpa-*/ || exit
listens() { bin/lldpa-live --once 35 eth0 -- --receive-only | grep -x lldp.eth0.1.chassis.name=sender; }
refused() { ! make uninstall && make uninstall 2>&1 | grep 'systemctl disable --now lldpa'; }
reads() { lldpa-capture --table /usr/local/share/doc/lldpa/docs/lab.pcap | grep -x '2 neighbors on 1 port.'; }
found() { find /etc /usr/local /opt /var/lib /run -name '*lldp*' ! -path '/run/systemd/*'; }
nothing_left() { ! found | grep -vx /etc/default/lldpa; }
neighbor &
check "it shows the neighbors of a link before it is installed" listens
check "it is installed" make install
check "it has a user for lldpa-live by hand" id _lldpa
check "its programs run" reads
sed -i 's/^PORTS=.*/PORTS="eth0"/' /etc/default/lldpa
systemctl daemon-reload
check "the service starts" systemctl enable --now lldpa
say_once
check "it sees a neighbor" keeps
old=$(process)
check "it is upgraded" make install
systemctl daemon-reload
check "the service restarts" systemctl restart lldpa
check "it is another process" is_another
check "an upgrade keeps the neighbors" keeps
check "an upgrade keeps the configuration" grep -x 'PORTS="eth0"' /etc/default/lldpa
check "nothing is removed while the service runs" refused
check "the service ends" systemctl disable --now lldpa
check "it is removed" make uninstall
check "only the configuration is left" nothing_left
poweroff
END

try_service() {
    cp tools/gate/in-container.sh "$room/try.sh" "$root/root" && LONGEST=900 boot "$root" || return
    cat "$root/root/tried"
    [ "$(grep -c '^held: ' "$root/root/tried")" -eq 15 ] && ! grep '^FAILED: ' "$root/root/tried"
}

# check_suite SUITE: builds the archive there, and tries it.
check_suite() {
    root=$room/${1##*/}
    timed "a new ${1##*/}" get "$1"
    install -d -o nobody "$root/build"
    cp "$archive" "$root/build"
    timed "make" in_it 'tar -xf *.xz; cd lldpa-*/; make; make install DESTDIR=/build/there
        /build/there/usr/local/bin/lldpa-ctl --version'
    [ -n "$only_build" ] || [ "$failed" -ne 0 ] || {
        timed "apt-get" chroot "$root" apt-get install -y --no-install-recommends systemd-sysv dbus iproute2 python3 \
            python3-pytest python3-pytest-xdist python3-pytest-timeout python3-pytest-rerunfailures
        timed "make check" in_it 'cd lldpa-*/; make check'
        grep -e '^skipped: ' -e '^[0-9]* passed' "$room/out"
        timed "the service" try_service
        cat "$room/out"
    }
    rm -rf --one-file-system "$root"
}

archive=${ARCHIVE-}
if [ -z "$archive" ]; then
    check "tools/release/dist.sh" tools/release/dist.sh "$room"
    archive=$(ls "$room"/*.tar.xz)
fi
for suite; do check_suite "$suite"; done
finish
