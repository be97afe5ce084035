#!/bin/sh
# Boots a new Debian in a container. Installs the packages there, runs each command of the pages that
# needs root and the service, upgrades and purges the packages, and checks that no file is left. Then
# removes Python, and tries the package lldpa alone. Before that it makes an image, as their makers do:
# installs the package in a chroot without systemd, and boots it, with groups that are missing or that
# a directory tells late, and with an ExecStart of its own.
#     tools/by-hand/try-package.sh [ROOT]
# ROOT is a folder with a Debian that has python3, systemd-sysv, dbus, iproute2 and libnss-extrausers;
# it is not changed. Without it debootstrap gets one from the network, of the release SUITE (default
# bookworm). Needs Linux, root, and Debian's packages systemd-container and, without ROOT,
# debootstrap. LLDPA_BUILT names what was built, as for tools/release/package.sh. If NODE_EXPORTER
# names that program, it reads the metrics.
# The last line is `N passed, M failed`. If something is missing, the status is 77.
. "$(dirname "$0")/../help.sh"
. "$(dirname "$0")/../gate/boot.sh"
set -u
skip() {
    echo "skipped: $1"
    echo "0 passed, 0 failed"
    exit 77
}

given=${1:+$(realpath -m -- "$1")}
tools=$(realpath "$(dirname "$0")/..")
[ "$(id -u)" -eq 0 ] || skip "it needs root"
command -v systemd-nspawn > /dev/null || skip "there is no systemd-nspawn"
[ -n "$given" ] || command -v debootstrap > /dev/null || skip "there is no debootstrap"
[ -z "$given" ] || [ -d "$given/etc" ] || { echo "tools/by-hand/try-package.sh: there is no Debian in $given" >&2 && exit 2; }
room=$(mktemp -d) || exit 2
trap 'rm -rf "$room"' EXIT
if [ -z "$given" ]; then
    given=$room/given
    debootstrap --variant=minbase --include=python3,systemd-sysv,dbus,iproute2,libnss-extrausers "${SUITE-bookworm}" "$given" \
        > "$room/said" || exit 1
fi
root=$room/root
cp -a "$given" "$root" || exit 1
"$tools/release/package.sh" "$root/root/packages" || exit 1
# A package of the next revision, with the same files.
dpkg-deb -R "$root"/root/packages/lldpa_*-2_*.deb "$room/next" || exit 1
sed -i 's/^\(Version: .*\)-2$/\1-3/' "$room/next/DEBIAN/control"
dpkg-deb -b "$room/next" "$root/root/packages" || exit 1
[ -z "${NODE_EXPORTER-}" ] || cp "$NODE_EXPORTER" "$root/root/node_exporter" || exit 1
cp "$tools/../debian/tests/service" "$root/root/service"
python3 "$tools/gate/examples.py" --as-root > "$root/root/commands" || exit 1

# What both scripts in containers use.
cp "$tools/gate/in-container.sh" "$root/root/checks.sh"
cat >> "$root/root/checks.sh" <<'EOF'
cd /root/packages || exit
collected=/var/lib/prometheus/node-exporter
published() { eventually grep -x "lldpa_up $1" $collected/lldpa.prom; }
# as_member GROUP COMMAND..: runs a command as a member of a group. as_nobody succeeds if others cannot run it.
as_member() { setpriv --reuid=4711 --regid=4711 --groups="$1" "${@:2}"; }
as_nobody() { ! setpriv --reuid=4711 --regid=4711 --clear-groups "$@"; }
# Succeeds if node_exporter reads the file of metrics without an error, with this line about lldpa_up if one is given.
scraped() {
    [ -x /root/node_exporter ] || return 0
    /root/node_exporter --collector.disable-defaults --collector.textfile --collector.textfile.directory=$collected \
        --web.listen-address=127.0.0.1:9100 > /root/exporter 2>&1 &
    eventually python3 -c 'import sys, urllib.request
text = urllib.request.urlopen("http://127.0.0.1:9100/metrics").read().decode()
lines = [line for line in text.splitlines() if line.startswith(("lldpa_up", "node_textfile_scrape_error "))]
mtime = "node_textfile_mtime_seconds{file=\"" in text and "lldpa.prom" in text
sys.exit(0 if lines == [*sys.argv[1:], "node_textfile_scrape_error 0"] and mtime else str(lines))' "$@"
    local status=$?
    kill %+
    return $status
}
EOF

# The script of the image.
cat > "$room/image.sh" <<'EOF'
#!/bin/bash
. /root/checks.sh
at_first_start() { eventually systemctl is-active lldpa && [ "$(systemctl show -p NRestarts --value lldpa)" -eq 0 ]; }
readable() { setpriv --reuid=4711 --regid=4711 --clear-groups cat $collected/lldpa.prom; }
recorded() { grep -q '^# lldpa --' /var/lib/lldpa/*.trace; }
restarts() { systemctl restart lldpa && shows Station:on; }
waits() { systemctl restart lldpa && eventually sh -c 'lldpa-ctl 2>&1 | grep "waiting for an interface: \*"'; }
mkdir -p $collected
systemctl start lldpa-metrics.timer lldpa-record
check "an image: it has no user and no group of its own" bash -c '! grep lldpa /etc/passwd /etc/group'
check "an image: it runs at the first start" at_first_start
check "an image: it answers" shows Station:on
check "an image: its metrics are written" published 1
check "an image: node_exporter reads them" scraped "lldpa_up 1"
check "an image: others may read them" readable
check "an image: the unknown group is reported" eventually journalctl -u lldpa -g 'group late is not known'
check "an image: nobody may ask meanwhile" as_nobody lldpa-ctl
echo 'late:x:61234:' > /var/lib/extrausers/group
check "an image: a group that the directory tells late may ask" eventually as_member 61234 lldpa-ctl
check "an image: it may change something" as_member 61234 lldpa-ctl configure lldp tx-hold 5
check "an image: nobody else may ask" as_nobody lldpa-ctl
check "an image: that took no restart" at_first_start
check "an image: it is recorded" eventually recorded
rm /etc/default/lldpa
check "an image: without its configuration it waits for a hardware interface" waits
printf 'PORTS="eth0"\nLIVE_OPTIONS=""\nAGENT_OPTIONS=""\n' > /etc/default/lldpa
restarts > /root/said 2>&1
# A second service, as OPERATORS makes it.
ip link add eth1 type veth peer name far1 && ip link set eth1 up && ip link set far1 up
bash /root/second
sed -i 's/^PORTS=.*/PORTS="eth1"/' /etc/default/lldpa2
systemctl daemon-reload
systemctl start lldpa2 lldpa2-metrics.timer
second_says() { eventually grep -x "lldpa_up{service=\"lldpa2\"} $1" $collected/lldpa2.prom; }
check "a second service: its metrics name it" second_says 1
check "a second service: node_exporter reads both files" scraped 'lldpa_up 1' 'lldpa_up{service="lldpa2"} 1'
systemctl stop lldpa2
check "a second service: its end is told" second_says 0
check "a second service: node_exporter reads that" scraped 'lldpa_up 1' 'lldpa_up{service="lldpa2"} 0'
systemctl stop lldpa2-metrics.timer
rm -r /etc/systemd/system/lldpa2* $collected/lldpa2.prom
mkdir -p /etc/systemd/system/lldpa.service.d
printf '[Service]\nExecStart=\nExecStart=/usr/bin/lldpa-live --control /run/lldpa/control eth0\n' \
    > /etc/systemd/system/lldpa.service.d/own.conf
systemctl daemon-reload
check "an ExecStart of its own: it runs" restarts
check "an ExecStart of its own: the metrics tell it" published 1
systemctl stop lldpa
check "an ExecStart of its own: the end is told" published 0
printf '[Service]\nExecStart=\nExecStart=/usr/bin/lldpa-live --wrong\n' > /etc/systemd/system/lldpa.service.d/own.conf
systemctl daemon-reload
check "a wrong ExecStart: it does not run" bash -c '! systemctl start lldpa'
check "a wrong ExecStart: the metrics tell it" published 0
rm -r /etc/systemd/system/lldpa.service.d
systemctl daemon-reload
poweroff
EOF

# The script that runs in the container.
cat > "$root/root/try.sh" <<'EOF'
#!/bin/bash
. /root/checks.sh
# Lists the files below /etc, /usr and other folders, except those that apt, dpkg and systemd write.
listed() {
    find /etc /usr /opt /srv /var/lib /run/lldpa -path /var/lib/dpkg -prune -o -path /var/lib/apt -prune -o -printf '%p %M %u %g %l\n' 2> /dev/null |
        grep -v '^/var/lib/systemd/\(timers\|random-seed\|catalog\)\|^/\(etc\|var/lib\|var/lib/systemd\) ' | sort
}
# autopkgtest fails a test that writes to standard error.
without_errors() {
    "$@" 2> /root/errors && ! grep . /root/errors
}
# Runs a command for at most 15 seconds. Succeeds if the command succeeds or does not end.
for_a_while() {
    local status
    timeout 15 bash -c "$1" < /dev/null
    status=$?
    [ "$status" -eq 0 ] || [ "$status" -eq 124 ]
}
install_all() { apt-get install -y ./lldpa-tools_*-2_*.deb ./lldpa_*-2_*.deb; }
finds() { python3 -c 'import lldpa.ctl'; }
reads() { lldpa-capture --table /usr/share/doc/lldpa/docs/lab.pcap | grep -x '2 neighbors on 1 port.'; }

notifies() { systemctl show -p Type -p StatusText lldpa | grep -c -x -e Type=notify -e 'StatusText=[0-9no]* neighbors\? on 1 port' | grep -x 2; }
tells() { journalctl -u lldpa -g 'eth0 came: sender p1'; }
# refuses UNIT ACTS [LINE ..]: succeeds if UNIT, with the lines added, can do no act listed here.
refuses() {
    local unit=$1 acts=$2 status
    shift 2
    touch /boot/probe /home/probe /var/log/probe
    cat > /usr/probe.py <<END
import os, socket, sys

def refused(act):
    try:
        act()
    except OSError:
        return True
    return False

def look(folder):
    if not os.listdir(folder):
        raise OSError

def connect(path, kind):
    with socket.socket(socket.AF_UNIX, kind) as one:
        one.connect(path)

acts = [lambda: open("/usr/probe", "w"), lambda: open("/dev/shm/probe", "w"), lambda: open("/dev/mqueue/probe", "w"),
        lambda: look("/boot"), lambda: os.kill(1, 0), lambda: socket.socket(socket.AF_VSOCK), $acts]
allowed = [at for at, act in enumerate(acts) if not refused(act)]
sys.exit(f"not refused: {allowed}" if allowed else 0)
END
    mkdir -p "/run/systemd/system/$unit.service.d"
    printf '%s\n' '[Service]' "$@" ExecStart= 'ExecStart=/usr/bin/python3 /usr/probe.py' \
        > "/run/systemd/system/$unit.service.d/probe.conf"
    systemctl daemon-reload
    systemctl restart "$unit"
    status=$(systemctl show -p ExecMainStatus --value "$unit")
    rm -r "/run/systemd/system/$unit.service.d" /usr/probe.py /boot/probe /home/probe /var/log/probe
    systemctl daemon-reload
    journalctl -u "$unit" -o cat -g 'not refused'
    [ "$status" -eq 0 ]
}
confined_live() {
    refuses lldpa 'lambda: look("/var/log"), lambda: look("/root"), lambda: open("/etc/probe", "w"),
        lambda: connect("/run/dbus/system_bus_socket", socket.SOCK_STREAM),
        lambda: connect("/run/systemd/journal/socket", socket.SOCK_DGRAM)' Type=oneshot Restart=no WatchdogSec=0
}
is_another_active() { is_another && systemctl is-active lldpa; }
starts_anew() { eventually is_another_active; }
# Writes the time to live of each frame that this host sends.
hears() {
    python3 -uc 'import socket
heard = socket.socket(socket.AF_PACKET, socket.SOCK_RAW, socket.htons(0x88cc))
heard.bind(("far", 0x88cc))
while True:
    frame, (_, _, kind, _, _) = heard.recvfrom(2000)
    if kind != 4:
        place = 14
        for _ in range(2):
            place += 2 + frame[place + 1]
        print(int.from_bytes(frame[place + 2:place + 4], "big"))' > /root/heard
}
# Succeeds if a command lets no frame with a time to live of 0 go, but another one.
silently() {
    : > /root/heard
    "$@" && eventually grep -q '[1-9]' /root/heard && ! grep -x 0 /root/heard
}
says_goodbye() { : > /root/heard; "$@" && eventually grep -x 0 /root/heard; }
killed() {
    kill -KILL "$(process)"
    eventually inactive
    published 0 && scraped "lldpa_up 0"
}
without_python() { apt-get purge -y --auto-remove 'python3*' 'libpython3*' && ! ls /usr/bin/python3*; }
tells_alone() { lldpa-ctl $1 | grep "$2"; }

neighbor &
hears &
listed > /root/before
check "it installs" install_all
sed -i 's/^PORTS=.*/PORTS="eth0"/' /etc/default/lldpa
check "it does not run before it is enabled" inactive
check "its programs run" reads
check "import lldpa finds the package" finds
mkdir -p /var/lib/prometheus/node-exporter
while read -r command; do
    check "sudo $command" for_a_while "$command"
    sleep 1
done < /root/commands
check "systemd receives its state" notifies
check "the journal names the new neighbor" tells
check "its metrics are written" published 1
check "node_exporter reads the metrics" scraped "lldpa_up 1"
mkdir -p /run/systemd/system/lldpa.service.d
printf '[Service]\nRestart=no\n' > /run/systemd/system/lldpa.service.d/once.conf
systemctl daemon-reload
check "after a crash node_exporter reads that it does not answer" killed
rm -r /run/systemd/system/lldpa.service.d
systemctl daemon-reload
systemctl restart lldpa
check "after a restart the metrics are new" published 1
systemctl stop lldpa
check "the metrics report that it does not answer" published 0
check "node_exporter reads that it does not answer" scraped "lldpa_up 0"
systemctl disable --now --quiet lldpa-metrics.timer lldpa-record
rm -r /var/lib/prometheus
systemctl restart lldpa
check "the service answers" shows Station:on
groupadd asking
group=$(getent group asking | cut -d: -f3)
cp /etc/default/lldpa /root/default
sed -i 's/^LIVE_OPTIONS=.*/LIVE_OPTIONS="--control-group asking"/' /etc/default/lldpa
systemctl daemon-reload
systemctl restart lldpa
shows Station:on > /root/said 2>&1
check "a member of the group may ask" as_member "$group" lldpa-ctl
check "a member of the group may ask without Python" as_member "$group" lldpa-ctl show neighbors
check "nobody else may" as_nobody lldpa-ctl
cp /root/default /etc/default/lldpa
groupdel asking
systemctl daemon-reload
systemctl restart lldpa
shows Station:on > /root/said 2>&1
say_once
check "it sees a neighbor" keeps
check "it restarts, and says no goodbye" silently systemctl restart lldpa
check "a restart keeps the table" keeps
check "a stop says goodbye" says_goodbye systemctl stop lldpa
systemctl start lldpa
say_once
check "it sees the neighbor again" keeps
sleep 70
kill -KILL "$(process)"
check "a crash keeps the table" keeps
old=$(process)
kill -STOP "$old"
check "an lldpa-live that hangs is noticed, and the service restarts" starts_anew
mkdir -p /etc/lldpa.d && echo 'configure system description "of the folder"' > /etc/lldpa.d/a.conf
check "it reloads" systemctl reload lldpa
check "its settings are those of the folder" shows 'descr=of the folder'
rm /etc/lldpa.d/a.conf
check "the service keeps no capability" grep -q '^CapEff:\s*0*$' "/proc/$(process)/status"
sed -i 's/^AGENT_OPTIONS=.*/AGENT_OPTIONS="--role bridge"/' /etc/default/lldpa
old=$(process)
check "it upgrades, and says no goodbye" silently dpkg -i lldpa_*-3_*.deb
check "the upgrade restarts the service" is_another
check "an upgrade keeps the table" keeps
check "a changed configuration stays" shows Bridge:on
check "all files are as the package has them" \
    bash -c '! dpkg --verify lldpa lldpa-tools | grep .'
check "lldpa-live may read, write and connect no more than it needs" confined_live
check "it is removed" dpkg -r lldpa lldpa-tools
check "the service has ended" inactive
check "it installs again" install_all
check "it is purged" dpkg -P lldpa lldpa-tools
listed > /root/after
check "no file is left" diff /root/before /root/after
check "it installs without lldpa-tools" dpkg -i lldpa_*-2_*.deb
check "the test of debian/tests" without_errors /root/service
check "it is purged after the test" dpkg -P lldpa
ip link del lldpa0
check "Python is removed" without_python
check "it installs without Python" dpkg -i lldpa_*-2_*.deb
sed -i 's/^PORTS=.*/PORTS="eth0"/' /etc/default/lldpa
check "it starts without Python" systemctl enable --now lldpa
check "it tells the neighbor without Python" eventually tells_alone 'show neighbors' chassis.name=sender
echo 'configure system description "of the folder"' > /etc/lldpa.d/a.conf
check "it reloads without Python" systemctl reload lldpa
check "it has the settings without Python" eventually tells_alone 'show chassis' 'descr=of the folder'
check "it is purged without Python" dpkg -P lldpa
poweroff
EOF
# The image was booted once before the package comes, so that systemd does not make users at the next boot.
image=$room/image
cp -a "$root" "$image"
printf '#!/bin/sh\necho booted\npoweroff\n' > "$image/root/try.sh"
boot "$image" || skip "it does not boot here"
cp "$room/image.sh" "$image/root/try.sh"
sed -n '/^sed -e .*default.lldpa/,/^done/p' "$tools/../docs/OPERATORS.md" > "$image/root/second"
chroot "$image" sh -c 'mount -t proc proc /proc; dpkg -i /root/packages/lldpa_*-2_*.deb; status=$?; umount /proc
    userdel _lldpa; mkdir -p /etc/sysusers.d /var/lib/extrausers; ln -s /dev/null /etc/sysusers.d/lldpa.conf; : > /var/lib/extrausers/group; systemctl enable lldpa; exit $status' \
    > "$room/said" 2>&1 || { tail -n 5 "$room/said"; echo "FAILED: it does not install in a chroot"; exit 1; }
sed -i 's/^group:.*/group: files extrausers/' "$image/etc/nsswitch.conf"
sed -i 's/^PORTS=.*/PORTS="eth0"/; s/^LIVE_OPTIONS=.*/LIVE_OPTIONS="--control-group late"/' "$image/etc/default/lldpa"
boot "$image" || skip "it does not boot here"
boot "$root" || skip "it does not boot here"
cat "$image/root/tried" "$root/root/tried" | tee "$room/tried"
passed=$(grep -c '^held: ' "$room/tried")
failed=$(grep -c '^FAILED: ' "$room/tried")
wanted=$((23 + 47 + $(wc -l < "$root/root/commands")))
[ $((passed + failed)) -eq "$wanted" ] || failed=$((failed + 1))
echo "$passed passed, $failed failed"
[ "$failed" -eq 0 ]
