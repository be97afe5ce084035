# Functions for scripts of checks, which source this file from the top of the repository. `room` is a
# temporary folder, which is removed at the end.
room=$(mktemp -d) || exit 2
trap 'rm -rf "$room"' EXIT
failed=0
export PYTHONDONTWRITEBYTECODE=1

# judge STATUS WHAT: reports a check if STATUS is not 0.
judge() {
    [ "$1" -eq 0 ] && return
    failed=$((failed + 1))
    echo "FAILED: $2"
}

# check WHAT COMMAND..: runs a command. If it fails, reports the end of its output.
check() {
    check_what=$1
    shift
    "$@" > "$room/out" 2>&1
    judge $? "$check_what: $(tail -n 20 "$room/out")"
}

# The status is 1 if a check failed.
finish() {
    [ "$failed" -eq 0 ]
}
