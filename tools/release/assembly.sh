#!/bin/sh
# Prints the path of a proved crate as assembly, which GNU as takes.
#     tools/release/assembly.sh ARCH CRATE     ARCH is amd64 or arm64, CRATE is lldpa or lldpa_c
#     tools/release/assembly.sh --sources      prints the digest of what a proof and a build read
# A release has these files in the folder `assembly`, and needs no kit. Elsewhere the kit's compiler
# writes crates/CRATE/out/ARCH/CRATE.s, unless the head of that file names the sources and the kit of
# now.
. "$(dirname "$0")/../help.sh"
set -eu
export LC_ALL=C # in Turkish a-z does not have each letter
cd "$(dirname "$0")/../.."
fail() {
    echo "tools/release/assembly.sh: $1" >&2
    exit 1
}

digest_of_sources() {
    find crates -name out -prune -o -type f \( -path '*/src/*' -o -path '*/specs/*' -o -path '*/proofs/*' \) -print |
        LC_ALL=C sort | xargs sha256sum crates.txt | sha256sum | cut -d ' ' -f 1
}

# named_by CRATE prints what crates.txt lists for CRATE; below CRATE adds what these crates need.
named_by() {
    sed -n "s/^$1\( [a-z]*\)*: *//p" crates.txt
}
below() {
    for library in $(named_by "$1"); do
        if [ -d "crates/$library" ]; then
            echo "$library"
            below "$library"
        fi
    done
}

# Prints the lines at the top of the assembly: what it is, and what made it.
head_of() {
    version=$(sed -n 's/^## \([0-9][0-9.]*\)$/\1/p' CHANGELOG.md | head -n 1)
    echo "$comment lldpa $version: the proved crate $crate for $arch, as Rattle's compiler wrote it"
    echo "$comment kit: $(rt version)"
    echo "$comment sources: $(digest_of_sources)"
}

# `rt run` and `rt lib` give the compiler the kit's folder of tools, and so the kit's clang. So this runs
# the command that they run, with a folder of the same tools and tools/release/clang.sh.
make_tools() {
    mkdir -p "$room/tools/bin"
    ln -s "$kit/toolchain" "$room/kit"
    ln -s "$kit/toolchain/lib" "$room/tools/lib"
    ln -s "$kit"/toolchain/bin/* "$room/tools/bin"
    ln -sf "$PWD/tools/release/clang.sh" "$room/tools/bin/clang"
}

compile() {
    set -- --crate-name "$crate" src/main.rt
    [ -f "crates/$crate/src/main.rt" ] || set -- --crate-name "$crate" src/lib.rt --crate-type staticlib
    for library in $(named_by "$crate") std; do
        folder=$kit/rlibs
        [ ! -d "crates/$library" ] || folder=$PWD/crates/$library/out/rlib
        set -- "$@" --extern "$library=$folder/$library.rlib"
    done
    set -- "$@" -L "dependency=$kit/rlibs" --links "$crate="
    for library in $(below "$crate" | sort -u); do
        set -- "$@" -L "dependency=$PWD/crates/$library/out/rlib"
    done
    set -- "$@" --antt-project "$kit/rattle/logic/antt-project.json" --logic-built "$kit/logic_built" \
        --incremental out/incremental --toolchain "$room/tools" --backend llvm -o "$room/built"
    # shellcheck disable=SC2086 # the target is several words
    (cd "crates/$crate" && rt check && "$kit/bin/rattle" build "$@" --target $target)
}

if [ "$*" = --sources ]; then
    digest_of_sources
    exit
fi
crate=${2-}
case $crate in
    lldpa | lldpa_c) ;;
    *) fail "${crate:-no crate}: it is lldpa or lldpa_c, after the architecture" ;;
esac
set -- --arch "$1"
. tools/library/arch.sh
comment='#'
[ "$arch" != arm64 ] || comment=//
given=assembly/$arch/$crate.s
if [ -f "$given" ]; then
    head -n 3 "$given" | grep -q "^$comment sources: $(digest_of_sources)$" ||
        fail "$given was made from other sources than those in crates, which only the kit can compile"
    echo "$given"
    exit
fi
for command in rt python3; do
    command -v "$command" > /dev/null || fail "there is no $command"
done
kit=$(dirname "$(rt doc)")
kept=crates/$crate/out/$arch/$crate.s
room=$(mktemp -d)
trap 'rm -rf "$room"' EXIT
head_of > "$room/head"
if ! head -n 3 "$kept" 2> /dev/null | cmp -s - "$room/head"; then
    make_tools
    compile > "$room/said" 2>&1 || fail "the build of $crate failed: $(tail -n 15 "$room/said")"
    mkdir -p "$(dirname "$kept")"
    python3 tools/release/plain.py "$room/head" < "$room/written.s" > "$room/plain"
    mv "$room/plain" "$kept"
fi
echo "$kept"
