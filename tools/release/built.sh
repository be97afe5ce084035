# To be sourced by the scripts in bin: runs what tools/release/live.sh has built.

# run_built NAME [WORD..]: runs the program of this name. If there is none, says how to build it.
run_built() {
    top=$(dirname "$(dirname "$(realpath "$0")")")
    built=$top/rust/live/out/$1
    if ! [ -x "$built" ]; then
        how="run tools/release/live.sh, which needs cargo and liblldpa"
        [ ! -d "$top/assembly" ] || how="run make in $top, which needs gcc and cargo"
        echo "$1 is not built: $how" >&2
        exit 1
    fi
    shift
    exec "$built" "$@"
}
