#!/usr/bin/env bash
# Prints the SHA-256 checksum of the sources from which a crate is built, the program `unixvol` or the library `unixvol_c`: the crate and those that it needs,
# their lines of crates.txt, HANDLES, and the name of the toolchain; for the library also what tools/library.sh puts beside it. For `ports` it is that of both,
# and of what tools/ports.sh adds; for `page` that of the program, and of what tools/page.sh adds and packs.
# Usage: tools/sources.sh [CRATE | ports | page]. Without CRATE it is unixvol.
set -euo pipefail
export LC_ALL=C
cd "$(dirname "$0")/.."
crate=${1:-unixvol}
if [ "$crate" = ports ]; then
    { tools/sources.sh unixvol && tools/sources.sh unixvol_c && sha256sum tools/{module,ports}.sh ports/machines ports/*.c ports/*.awk; } | sha256sum | cut -d' ' -f1
    exit
fi
if [ "$crate" = page ]; then
    {
        tools/sources.sh unixvol
        find tools/module.sh tools/page.sh page samples/lessons docs/LESSON.md -type f ! -path 'page/out/*' ! -name README.md ! -name differ.mjs | sort | xargs sha256sum
    } | sha256sum | cut -d' ' -f1
    exit
fi
lines=$(awk -v crate="$crate" -f tools/crate_lines.awk crates.txt)
names=$(sed 's/[: ].*//' <<<"$lines")
{
    "${RT:-rt}" version
    cat HANDLES
    echo "$lines"
    for name in $names; do
        find "crates/$name" -type f \( -path '*/src/*' -o -path '*/specs/*' -o -path '*/proofs/*' \) ! -path '*/out/*'
    done | sort | xargs sha256sum
    if [ "$crate" = unixvol_c ]; then
        sha256sum tools/library.sh LICENSE bindings/c/unixvol.h bindings/python/*.* bindings/python/unixvol/*.*
    fi
} | sha256sum | cut -d' ' -f1
