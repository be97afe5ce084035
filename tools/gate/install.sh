#!/bin/sh
# Installs the packages of Debian that the gate uses, or says which are missing.
#     tools/gate/install.sh [--install | --list | --lacks NAME]
# It installs them if it runs as root, apt-get is there, and CI is set or --install is given.
# Otherwise it prints the command that does, and changes nothing: the gate skips what lacks a tool.
# No service is started. The status is 0 even if a package cannot be installed.
#
# --list prints the name of each package and of each feature of the host, and what the gate skips
# without it. --lacks looks whether the package or the feature of this name, or the package with this
# command, is missing here. If it is, it prints `package: ` or `feature: ` and what for, and the status
# is 0. It is 1 if it is there, and 2 if the list does not have this name.
. "$(dirname "$0")/../help.sh"
set -u

# Prints each package, the command, the file or the plugin of pytest that shows that it is installed, and what it is
# for.
packages() {
    cat << 'END'
gcc                       cc                    everything: the gate fails without a C compiler
g++                       c++                   the library's header in C++
binutils                  objcopy               the library, and the package
cargo                     /usr/bin/cargo        lldpa-live, the crate for Rust, and a release that another user builds
rustfmt                   cargo-fmt             the form of lldpa-live and of the crates for Rust
rust-clippy               cargo-clippy          warnings about them
rustc                     /usr/bin/rustc        the crate for Rust with Debian's compiler
librust-libc-dev          /usr/share/cargo/registry/libc-*  lldpa-live, unless cargo reaches a registry
python3-pytest            pytest                tests in Python
python3-pytest-xdist      pytest:xdist          tests in Python
python3-pytest-timeout    pytest:timeout        tests in Python
python3-pytest-rerunfailures  pytest:rerunfailures  tests in Python
bindgen                   bindgen               the declarations of the crate for Rust
iproute2                  ip                    lldpa-live on links, and what else needs links
util-linux                unshare               the same
e2fsprogs                 mkfs.ext4             disks that are full, or that stand still
lldpd                     lldpd                 lldpa-live beside lldpd
libnss-extrausers         /usr/lib/libnss_extrausers.so.2  groups that only the name service knows
strace                    strace                descriptors that a program inherits
tshark                    tshark                frames as another program reads them
tcpdump                   tcpdump               the reference in Python on a live link
valgrind                  valgrind              memory of the library, and instructions
qemu-user                 qemu-aarch64          arm64, and old processors
gcc-aarch64-linux-gnu     aarch64-linux-gnu-gcc arm64
libc6-dev-arm64-cross     /usr/aarch64-linux-gnu/include/stdint.h  arm64
libstd-rust-dev:arm64     /usr/lib/rustlib/aarch64-unknown-linux-gnu/lib  lldpa-live for arm64, at a release
make                      make                  a release, where there is no kit
locales                   /usr/share/i18n/locales/tr_TR  a release that is built in Turkish
xz-utils                  xz                    the same
debootstrap               debootstrap           a release that new Debians build
dpkg-dev                  dpkg-buildpackage     the packages
debhelper                 dh                    the packages
dh-python                 dh_python3            the packages
lintian                   lintian               the packages
pkgconf                   pkg-config            programs that are built as pkg-config says
python3-venv              /usr/lib/python3*/ensurepip  the Python package, as pip installs it
python3-jsonschema        /usr/lib/python3/dist-packages/jsonschema  output in JSON, by its schemas
python3-textfsm           /usr/lib/python3/dist-packages/textfsm  text of switches, in the audit
chromium                  chromium              the audit's page, as a browser shows it
mypy                      mypy                  types of the Python packages
shellcheck                shellcheck            faults of the scripts
prometheus                promtool              the metrics and the alerts
mandoc                    mandoc                manual pages
groff                     groff                 manual pages
systemd                   systemd-analyze       the rights of the service
systemd-container         systemd-nspawn        the service under a systemd that boots
linux-libc-dev            /usr/include/*/asm/unistd_64.h  the calls that the service may make
zsh                       zsh                   completions
bash-completion           /usr/share/bash-completion/bash_completion  completions
librsvg2-bin              rsvg-convert          pictures
END
}

# Prints each feature of a host that no package gives, and what is skipped without it. `has_feature`
# tries it.
features() {
    cat << 'END'
root          what needs links, other users or mounts
link-veth     lldpa-live on links
link-vlan     ports that are a VLAN, and addresses of a VLAN of a port
link-bond     addresses of a bond above a port
link-team     addresses of a team above a port
link-bridge   addresses of a bridge
link-macvlan  addresses of a macvlan on a port
link-ipvlan   addresses of an ipvlan on a port
memory-cgroups  the memory of lldpa-live at its worst
link-tun      interfaces that are no Ethernet
loop-mounts   disks that stand still
user-namespaces  capabilities in a new user namespace
booted-systemd  the service under a systemd that boots
debian-mirror  a release that new Debians build
x86-64        what writes registers of this processor, or runs its older ones
sanitizers    the library under the compiler's sanitizers
END
}

# in_namespace COMMAND: runs a shell command with links of its own, which go when it ends.
in_namespace() {
    unshare --net sh -c "ip link add tried0 type veth peer name tried1 && $1" > /dev/null 2>&1
}

# has_feature NAME: tries the feature, and succeeds if this host has it.
has_feature() {
    case $1 in
        root) [ "$(id -u)" -eq 0 ] ;;
        link-veth) in_namespace true ;;
        link-vlan) in_namespace "ip link add link tried0 name tried2 type vlan id 5" ;;
        link-macvlan | link-ipvlan) in_namespace "ip link add tried2 link tried0 type ${1#link-}" ;;
        link-tun) in_namespace "ip tuntap add tried2 mode tun" ;;
        link-*) in_namespace "ip link add tried2 type ${1#link-}" ;;
        loop-mounts) mounts_a_file ;;
        memory-cgroups) limits_memory ;;
        booted-systemd) PYTHONPATH=rust/live/tests:python/tests:python python3 -B rust/live/tests/booted.py > /dev/null 2>&1 ;;
        debian-mirror) wget -q --spider --tries=1 --timeout=20 http://deb.debian.org/debian/dists/stable/Release ;;
        user-namespaces) unshare --user true 2> /dev/null ;;
        x86-64) [ "$(uname -m)" = x86_64 ] ;;
        sanitizers) runs_sanitized ;;
    esac
}

# Mounts a file system in a file, where no other process sees it.
mounts_a_file() {
    tried=$(mktemp -d) || return
    truncate -s 16M "$tried/disk" && mkfs.ext4 -q "$tried/disk" > /dev/null 2>&1 &&
        unshare --mount mount -o loop "$tried/disk" "$tried" 2> /dev/null
    mounted=$?
    rm -r "$tried"
    return "$mounted"
}

# Makes a control group that limits memory, as the test does.
limits_memory() {
    PYTHONPATH=rust/live/tests python3 -c '
import limited, sys
group = limited.memory_group(1 << 28)
sys.exit(group is None or group.close())'
}

runs_sanitized() {
    tried=$(mktemp -d) || return
    echo 'int main(void) { return 0; }' > "$tried/one.c"
    cc -fsanitize=address,undefined "$tried/one.c" -o "$tried/one" 2> /dev/null && "$tried/one"
    ran=$?
    rm -r "$tried"
    return "$ran"
}

# is_installed PLACE: succeeds if there is a command, a file or a plugin of this name.
is_installed() {
    # shellcheck disable=SC2086 # a pattern
    case $1 in
        /*) ls $1 > /dev/null 2>&1 ;;
        pytest:*) pytest -p "${1#*:}" --version > /dev/null 2>&1 ;;
        *) command -v "$1" > /dev/null ;;
    esac
}

# lacks NAME: says whether a package or a feature of the list is missing, and what for. (A cargo that is not Debian's
# does for all but a release.)
lacks() {
    found=$(packages | while read -r package place what; do
        case $1 in "$package" | "$place") echo "$place $what" ;; esac
    done)
    what=$(features | while read -r feature what; do [ "$1" != "$feature" ] || echo "$what"; done)
    if [ -n "$found" ]; then
        ! command -v "$1" > /dev/null && ! is_installed "${found%% *}" && echo "package: ${found#* }"
    elif [ -n "$what" ]; then
        ! has_feature "$1" && echo "feature: $what"
    else
        return 2
    fi
}

# Lets apt-get install packages without starting their services.
install_all() {
    policy=/usr/sbin/policy-rc.d
    if [ ! -e "$policy" ]; then
        printf '#!/bin/sh\nexit 101\n' > "$policy" && chmod 755 "$policy"
        trap 'rm -f "$policy"' EXIT
    fi
    export DEBIAN_FRONTEND=noninteractive
    case $missing in *:arm64*) dpkg --add-architecture arm64 ;; esac
    apt-get update -qq
    # If one package is not to be had, the others are still installed.
    # shellcheck disable=SC2086 # several names
    apt-get install -y -qq --no-install-recommends $missing || for package in $missing; do
        apt-get install -y -qq --no-install-recommends "$package" ||
            echo "the package $package cannot be installed"
    done
}

case ${1-} in
    --list)
        packages | sed 's/^\([^ ]*\) *[^ ]* */\1\t/'
        features | sed 's/^\([^ ]*\) */\1\t/'
        exit ;;
    --lacks)
        lacks "${2-}"
        exit ;;
    '' | --install) ;;
    *)
        echo "tools/gate/install.sh: there is no option $1, but --install, --list and --lacks NAME" >&2
        exit 2 ;;
esac
missing=$(packages | while read -r package place _; do is_installed "$place" || echo "$package"; done | tr '\n' ' ')
if [ -z "$missing" ]; then
    echo "nothing is missing"
elif [ "$(id -u)" -eq 0 ] && command -v apt-get > /dev/null && [ -n "${CI-}${1-}" ]; then
    echo "installing: $missing"
    install_all < /dev/null 2>&1 | grep -E '^(the package|[EW]:) '
else
    echo "some packages of Debian are missing, and this command installs them:"
    echo "    sudo tools/gate/install.sh --install    # $missing"
fi
exit 0
