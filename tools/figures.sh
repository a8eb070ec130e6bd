#!/usr/bin/env bash
# Measures parts of docs/FIGURES.md, and writes them there; the other parts stay as they are.
# Usage: tools/figures.sh PART.. With PART=FILE it takes what an earlier run of the part's command has printed; if the first line of FILE begins with `# `, it
# says when and where that was. The parts, and their commands:
#   counts    crates, lines and wrong bodies, counted
#   rows      make rows                                    the built program, some minutes
#   gate      bench/gate.sh                                everything proved from nothing, about an hour
#   loop      bench/loop.sh                                the short loop in a fresh clone, about as long
#   commands  make bench                                   needs rustc, some minutes
#   mounted   bench/mounted.sh ./unixvol                   needs root, /dev/fuse and fuse2fs
#   library   bench/library.sh bindings/out
#   page      bench/page.py ./unixvol page/out             needs node and chromium, some minutes
set -euo pipefail
cd "$(dirname "$0")/.."
figures=docs/FIGURES.md
room=$(mktemp -d)
trap 'rm -rf "$room"' EXIT

# lines FIND-WORD..: the number of lines in the files found below crates/
lines() { find crates -type f ! -path '*/out/*' "$@" -exec cat {} + | wc -l; }

# edits PATH..: the number of wrong bodies in folders, each of a crate
edits() { echo "$(find "$@" -name '*.edit' | wc -l), of $# crates"; }

counts() {
    echo "crates                                   $(grep -c '^[^#]' crates.txt)"
    echo "lines of code, src/                      $(lines -path '*/src/*.rt')"
    echo "lines of definitions, specs/             $(lines -path '*/specs/*.antt')"
    echo "lines of lemmas and proofs, proofs/      $(lines -path '*/proofs/*.antt')"
    echo "wrong bodies that the gate tries         $(edits crates/*/must-fail)"
    echo "wrong bodies in wrong-bodies/            $(edits wrong-bodies/*/)"
}

# about PART: the heading of a part, and what its command is
about() {
    case $1 in
        counts) echo '## Counts' ;;
        rows) printf '%s\n\n%s\n' '## Rows' 'By `make rows`: scripts side by side, with how long each took.' ;;
        gate) printf '%s\n\n%s\n' '## The gate' 'By `bench/gate.sh`: everything from nothing, in processor minutes. The parts of a crate are its proof, its tests, the check over which its wrong bodies
are tried, these, and the building of a program; `rt` is the tool itself.' ;;
        loop) printf '%s\n\n%s\n' '## The short loop' 'By `bench/loop.sh`: the steps of CONTRIBUTING in a fresh clone, in minutes by the clock and of the processors.' ;;
        commands) printf '%s\n\n%s\n' '## Commands' 'By `make bench`, beside a program in plain Rust; SPEED says how, and what the columns are.' ;;
        mounted) printf '%s\n\n%s\n' '## Mounted volumes' 'By `bench/mounted.sh`, beside fuse2fs with an ext2 image of the same files.' ;;
        library) printf '%s\n\n%s\n' '## The library' 'By `bench/library.sh`, on a volume of 200 MB.' ;;
        page) printf '%s\n\n%s\n' '## The page' 'By `bench/page.py`: the program for WebAssembly beside the native one, on volumes that are half full; the native program and Node'"'"'s command as
whole processes, each command in the page as its worker counts it. The memory is the most of the process; in the page, of the browser'"'"'s process for it.' ;;
        *) echo "$0: there is no part $1" >&2 && exit 2 ;;
    esac
}

# measured PART: runs the part's command
measured() {
    case $1 in
        counts) counts ;;
        rows) make -s rows ;;
        gate) bench/gate.sh | sed -n '/^processor minutes/,$p' ;;
        loop) bench/loop.sh ;;
        commands) make -s bench ;;
        mounted) bench/mounted.sh ./unixvol ;;
        library) bench/library.sh bindings/out ;;
        page) bench/page.py ./unixvol page/out ;;
    esac
}

# when_and_where: the day, the commit, and the machine
when_and_where() {
    echo "$(date -u +%F), commit $(git rev-parse --short=8 HEAD), $(nproc) processors ($(sed -n 's/^model name.*: //p' /proc/cpuinfo | head -n 1))," \
        "$(awk '/^MemTotal/ { printf "%d", $2 / 1048576 }' /proc/meminfo) GB of memory"
}

for word; do
    about "${word%%=*}" > /dev/null
    {
        [[ $word == *=* ]] && head -n 1 "${word#*=}" | sed -n 's/^# //p' | grep . || when_and_where
        echo
        if [[ $word == *=* ]]; then sed '1{/^# /d}' "${word#*=}"; else measured "$word"; fi
    } > "$room/${word%%=*}"
done

{
    cat << 'END'
# Figures

What was counted and measured, each part with the day, the commit and the machine. `tools/figures.sh` writes this page.
END
    for part in counts rows gate loop commands mounted library page; do
        [ -e "$room/$part" ] || awk -v head="$(about "$part" | head -n 1)" '/^## / { on = $0 == head } on && /^    |^$/ { sub(/^    /, ""); print }' "$figures" |
            sed -e '/./,$!d' | sed -e :a -e '/^\n*$/{$d;N;ba' -e '}' > "$room/$part"
        [ -s "$room/$part" ] || continue
        printf '\n%s\n\n' "$(about "$part")"
        sed 's/^\(.\)/    \1/' "$room/$part"
    done
} > "$room/figures"
cp "$room/figures" "$figures"
echo "$figures: ${*%%=*}"
