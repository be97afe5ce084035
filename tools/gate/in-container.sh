# To be sourced by bash scripts that run as root in a container that boots. Each check writes a line, `held` or `FAILED`,
# and a name.
export DEBIAN_FRONTEND=noninteractive
check() {
    local what=$1
    shift
    if "$@" > /root/said 2>&1; then echo "held: $what"; else echo "FAILED: $what: $(tail -n 3 /root/said)"; fi
}
process() { systemctl show -p MainPID --value lldpa; }
# Runs a command until it succeeds, for a minute at most.
eventually() { for _ in $(seq 120); do "$@" && return; sleep 0.5; done; false; }
answers() { lldpa-ctl show chassis | grep "$1"; }
shows() { eventually answers "$1"; }
inactive() { ! systemctl is-active lldpa; }
is_another() { [ "$old" != "$(process)" ]; }
# Sends a neighbor's frame each second, at the other end of the link.
neighbor() {
    python3 -c 'import socket, time
sender = socket.socket(socket.AF_PACKET, socket.SOCK_RAW)
sender.bind(("far", 0))
while True:
    sender.send(bytes.fromhex("0180c200000e02000000000a88cc0207040200000000010403057031060200780a0673656e6465720000"))
    time.sleep(1)'
}
# Sends the frame of a neighbor once, with a time to live of an hour.
say_once() {
    python3 -c 'import socket
sender = socket.socket(socket.AF_PACKET, socket.SOCK_RAW)
sender.bind(("far", 0))
sender.send(bytes.fromhex("0180c200000e02000000000b88cc02070402000000000b040305703206020e100a066b65657065720000"))'
}
keeps() { eventually sh -c 'lldpa-ctl neighbors | grep keeper'; }
ip link add eth0 type veth peer name far && ip link set eth0 up && ip link set far up
