#!/bin/sh
# Is ROOM/tools/bin/clang, of the folder of tools that tools/release/assembly.sh gives the compiler. The
# kit's tools are ROOM/kit; the compiler passes no environment. Writes the object file that is asked for,
# since the compiler reads it, and then the same as assembly to ROOM/written.s. A second object file in
# one build would be a surprise, and fails.
set -eu
room=${0%/tools/bin/clang}
clang=$room/kit/bin/clang
written=$room/written.s
"$clang" "$@"
case " $* " in
    *" -c "*) ;;
    *) exit ;;
esac
[ ! -e "$written" ]
before=
for word; do
    shift
    if [ "$before" = -o ]; then
        set -- "$@" "$written"
    elif [ "$word" = -c ]; then
        set -- "$@" -S
    else
        set -- "$@" "$word"
    fi
    before=$word
done
exec "$clang" "$@"
