#!/usr/bin/env bash
# Compares what was built here, the program, the library, both for other machines and the page, with the release in dist/, byte for byte, if dist/ was built
# from the same sources with the same toolchain. It prints a line for each, and ends with status 1 if they differ.
# Usage: tools/compare.sh [sources | all]. With `all` the status is 1 also if one of them can't be compared. With `sources` only the sources are compared.
set -euo pipefail
cd "$(dirname "$0")/.."
what=${1:-built}
. tools/unpack.sh
. tools/machines.sh
status=0

# left TEXT: prints why something isn't compared
left() {
    echo "$1"
    [ "$what" = built ] || status=1
}

# sources_of CRATE NAME: true if dist/ is of the sources here, which are left in `sources`; otherwise says that it isn't
sources_of() {
    sources=$(tools/sources.sh "$1")
    grep -qxF "$sources  $1" dist/SOURCES && return
    left "dist/ is of older sources: the $2"
    return 1
}

# built NAME SOURCES FILE: true if FILE was built from these sources, which the file SOURCES names; otherwise says that it wasn't
built() {
    [ -e "$3" ] && [ "$sources" = "$(cat "$2" 2>/dev/null)" ] && return
    left "not built here from these sources: the $1"
    return 1
}

# same NAME FOLDER PATH..: compares what is built in FOLDER with the release, at these paths
same() {
    local path is_same=yes
    for path in "${@:3}"; do
        diff -rq "$2/$path" "$release/$path" || is_same=no status=1
    done
    [ "$is_same" = no ] || echo "dist/ has what was built, byte for byte: the $1"
}

# compares NAME CRATE SOURCES FILE PATH..: compares the files at these paths, which were built, FILE among them, from the sources that the file SOURCES names
compares() {
    sources_of "$2" "$1" || return 0
    if [ "$what" = sources ]; then
        echo "dist/ is of these sources: the $1"
    elif built "$1" "$3" "$4"; then
        same "$1" "$room/built" "${@:5}"
    fi
}

# compares_port MACHINE: compares what was built for another machine
compares_port() {
    local folder=ports/out/$1 name="builds for $1"
    if ! unpacks "$1"; then
        left "dist/ has no archive: the $name"
    elif built "$name" "$folder/sources" "$folder/unixvol"; then
        if ! diff "$release/COMPILERS" "$folder/compilers"; then
            left "built here by other compilers, or with another C library, than those of dist/: the $name"
            return
        fi
        PROGRAM=$folder/unixvol LIBRARY=$(library_of "$1") tools/lay_out.sh "$room/$1"
        (cd "$room/$1" && find . -maxdepth 1 -mindepth 1 ! -name share -printf '%P\n') >"$room/paths"
        mapfile -t paths <"$room/paths"
        same "$name" "$room/$1" "${paths[@]}"
    fi
}

# Compares the page, and the module with what runs it.
compares_page() {
    local name='page and what Node runs'
    sources_of page "$name" || return 0
    if [ "$what" = sources ]; then
        echo "dist/ is of these sources: the $name"
    elif ! unpacks node; then
        left "dist/ has no archive: the $name"
    elif built "$name" page/out/sources page/out/unixvol.html; then
        cp dist/unixvol-*.html "$release/unixvol.html"
        same "$name" page/out unixvol.{html,wasm,mjs,d.mts} node.mjs
    fi
}

unpacks x86_64-linux || { echo 'dist/ has no archive for x86_64-linux' >&2; exit 1; }
[ "$what" = sources ] || tools/lay_out.sh "$room/built"
compares program unixvol crates/unixvol/out/sources "$room/built/bin/unixvol" bin/unixvol
wheel=$(basename "$release"/*.whl)
compares library unixvol_c bindings/out/sources "$room/built/include" include lib "$wheel"
if ! sources_of ports 'builds for other machines'; then
    :
elif [ "$what" = sources ]; then
    echo 'dist/ is of these sources: the builds for other machines'
else
    for machine in $machines; do
        compares_port "$machine"
    done
fi
compares_page
[ "$status" = 0 ]
