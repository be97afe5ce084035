#!/bin/sh
# Runs the transcripts of examples/ on the program as it is, without proofs, in two minutes.
#     tools/write/try-transcripts.sh [NAME..]
# Prints the case of each transcript whose output differs, and what differs. Transcripts with a
# filter are left out. The last line counts the cases. `rt run` builds the program only when all
# transcripts are theorems, so run this first if a change alters the output.
. "$(dirname "$0")/../help.sh"
set -eu
cd "$(dirname "$0")/../.."
room=$(mktemp -d)
trap 'rm -rf "$room"' EXIT
[ $# -gt 0 ] || set -- $(cd examples && ls ./*.trace | sed 's,^./,,; s,\.trace$,,')
for name; do
    [ -f "examples/$name.trace" ] || { echo "tools/write/try-transcripts.sh: there is no transcript $name" >&2 && exit 1; }
    if ! grep -q '^|' "examples/$name.args"; then
        cp "examples/$name.trace" "$room/$name"
        cp "examples/$name.args" "$room/$name.args"
        grep -v '^> ' "examples/$name.expect" > "$room/$name.stdout" || true
    fi
done
cd crates/lldpa
rt try --cases "$room" 2>&1 | grep -v ' output=expected '
