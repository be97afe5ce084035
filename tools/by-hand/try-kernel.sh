#!/bin/sh
# Runs tests of rust/live/tests on a kernel of Debian in a virtual machine: it has bonds, teams, VLANs,
# ipvlans and macvlans, any of which the kernel of this host may lack.
#     tools/by-hand/try-kernel.sh [MODULE..]
# Without modules these are the tests of addresses, short losses of a link, rights, groups, and of the
# frame of a real lldpd. The machine has the files of this host, and keeps its changes in memory. Needs root,
# lldpa-live (tools/release/live.sh) and Debian's packages qemu-system-x86 and kmod. KERNEL names the folder into
# which linux-image-VERSION and busybox-static were unpacked; without it apt fetches them. ACCEL=kvm is
# faster, where it works.
# The last line is `N passed, M failed`. If something is missing, the status is 77.
. "$(dirname "$0")/../help.sh"
set -u
skip() {
    echo "skipped: $1"
    echo "0 passed, 0 failed"
    exit 77
}
top=$(realpath "$(dirname "$0")/../..")
[ "$(id -u)" -eq 0 ] || skip "root: the machine reads all files of this host"
for name in qemu-system-x86_64 depmod; do
    command -v "$name" > /dev/null || skip "$name: it is not installed"
done
[ $# -gt 0 ] || set -- test_addresses test_address_above test_short_losses test_rights \
    test_unit_filter test_groups test_hanging_groups test_lldpd_table
room=$(mktemp -d) || exit 2
trap 'rm -rf "$room"' EXIT
if [ -z "${KERNEL-}" ]; then
    KERNEL=$room/kernel
    image=$(apt-cache depends linux-image-amd64 | sed -n 's/.*Depends: \(linux-image-[0-9]\)/\1/p')
    (cd "$room" && apt-get download "$image" busybox-static > said 2>&1) || skip "apt: it fetches no $image"
    for package in "$room"/*.deb; do dpkg-deb -x "$package" "$KERNEL" || exit 2; done
fi
version=$(ls "$KERNEL/lib/modules")
depmod -b "$KERNEL" "$version"

# What the machine starts with: busybox, and the modules that reach the files of this host.
start=$room/start
mkdir -p "$start/bin" "$start/modules"
cp "$KERNEL/bin/busybox" "$start/bin"
for name in virtio_pci 9pnet_virtio 9p overlay; do modprobe -d "$KERNEL" -S "$version" --show-depends "$name"; done |
    sed -n 's/^insmod //p' | awk '!known[$1]++ {printf "%s %02d.ko\n", $1, NR}' > "$room/modules"
while read -r module number; do cp "$module" "$start/modules/$number"; done < "$room/modules"
cat > "$start/init" <<'END'
#!/bin/busybox sh
/bin/busybox --install -s /bin
mkdir -p /proc /sys /dev /host /memory /top
mount -t proc none /proc && mount -t sysfs none /sys && mount -t devtmpfs none /dev
for module in /modules/*; do insmod "$module"; done
plan9() { mount -t 9p -o trans=virtio,version=9p2000.L,ro,msize=524288,cache=loose "$1" "$2"; }
plan9 files /host && mount -t tmpfs none /memory && mkdir /memory/changes /memory/work
mount -t overlay -o lowerdir=/host,upperdir=/memory/changes,workdir=/memory/work none /top
mkdir -p /top/lib/modules && plan9 modules /top/lib/modules
for folder in proc sys dev; do mount --move "/$folder" "/top/$folder"; done
mount -t tmpfs none /top/run && mount -t tmpfs -o mode=1777 none /top/tmp
cp /try /top/run/try
exec switch_root /top /bin/sh /run/try
END
cat > "$start/try" <<END
export PATH=/usr/sbin:/usr/bin:/sbin:/bin HOME=/root PYTHONDONTWRITEBYTECODE=1
mkdir -p /run/netns /dev/pts /dev/shm && mount -t devpts none /dev/pts && mount -t tmpfs none /dev/shm
ip link set lo up
echo "kernel \$(uname -r)"
# The first start of tshark takes half a minute here, which is longer than a test waits.
tshark -i lo -a duration:1 > /dev/null 2>&1
cd "$top/rust/live/tests" && PYTHONPATH=$top/python:$top/python/tests python3 -m unittest -v $* 2>&1
echo o > /proc/sysrq-trigger
sleep 60
END
chmod 755 "$start/init"
(cd "$start" && find . | "$KERNEL/bin/busybox" cpio -o -H newc 2> /dev/null) > "$room/initrd"
# The program needs a newer processor than the one that qemu shows by itself.
timeout "${LONGEST-3000}" qemu-system-x86_64 -accel "${ACCEL-tcg}" -cpu max -m 3072 -smp 2 -display none -nic none -no-reboot \
    -serial "file:$room/said" -kernel "$KERNEL/boot/vmlinuz-$version" -initrd "$room/initrd" -append "console=ttyS0 quiet" \
    -virtfs local,path=/,mount_tag=files,security_model=none,readonly=on,multidevs=remap \
    -virtfs "local,path=$KERNEL/lib/modules,mount_tag=modules,security_model=none,readonly=on" < /dev/null
tr -d '\r' < "$room/said" | grep -a -v ' \.\.\. ok$'
number() { sed -n "s/\(.*[ (]\)\?$1\([0-9]\+\).*/\2/p" "$room/said" | tail -n 1 | grep . || echo "${2-0}"; }
ran=$(number 'Ran ' '') skipped=$(number 'skipped=') failed=$(($(number 'failures=') + $(number 'errors=')))
[ -n "$ran" ] || { ran=1 failed=1; echo "FAILED: the tests did not end"; }
echo "$((ran - skipped - failed)) passed, $failed failed"
[ "$failed" -eq 0 ]
