#!/bin/sh
# Runs a command if this machine has all that it needs. Otherwise says what is skipped and why, and fails only if CI is
# set and a package is missing.
#     tools/gate/with.sh NAME.. -- COMMAND [WORD..]
# A NAME is a package or a feature of tools/gate/install.sh --list, or the command of such a package.
. "$(dirname "$0")/../help.sh"
set -u
list=$(dirname "$0")/install.sh
for name; do
    shift
    [ "$name" != -- ] || exec "$@"
    lacks=$("$list" --lacks "$name")
    case $? in
        0) break ;;
        1) continue ;;
        *) echo "tools/gate/with.sh: $list does not list $name" >&2 && exit 2 ;;
    esac
done
if [ $# -eq 0 ]; then
    echo "usage: tools/gate/with.sh NAME.. -- COMMAND [WORD..]" >&2
    exit 2
fi
while [ "$1" != -- ]; do shift; done
shift
echo "skipped: $name: ${lacks#*: }: $*" | cut -c -160
[ -z "${CI-}" ] || [ "${lacks%%:*}" = feature ]
