# To be sourced: boots a Debian in a container, without a network.

# boot ROOT: boots, runs the script ROOT/root/try.sh there, which ends by `poweroff`, and waits for that. What the
# script writes is ROOT/root/tried. Fails if it does not boot, or takes longer than LONGEST seconds (default 500).
# systemd needs a control group hierarchy of its own, of version 2.
boot() {
    rm -f "$1/root/tried"
    chmod 755 "$1/root/try.sh"
    mkdir -p "$1/etc/systemd/system/multi-user.target.wants"
    printf '%s\n' '[Unit]' After=multi-user.target '[Service]' ExecStart=/root/try.sh StandardOutput=file:/root/tried \
        > "$1/etc/systemd/system/try.service"
    ln -sf ../try.service "$1/etc/systemd/system/multi-user.target.wants/try.service"
    unshare --mount --pid --fork --kill-child sh -c 'mount --make-rprivate / && mount -t proc proc /proc &&
        { umount -R -l /sys/fs/cgroup; mount -t cgroup2 none /sys/fs/cgroup; } &&
        exec timeout "$1" systemd-nspawn --quiet --register=no --keep-unit --private-network -D "$0" -b' \
        "$1" "${LONGEST-500}" < /dev/null > "$1.said" 2>&1
    [ -s "$1/root/tried" ] || { tail -n 5 "$1.said" && false; }
}
