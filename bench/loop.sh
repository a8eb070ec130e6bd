#!/usr/bin/env bash
# Walks the short loop of CONTRIBUTING in a fresh clone, as a new engineer would: proves and builds the program, changes a line of a help, adds a row that has
# it and sees it pass, then makes the row wrong and sees it fail by file and line. Prints what each step takes, in minutes: by the clock, and of the processors.
# Usage: bench/loop.sh [CHECKOUT]. With CHECKOUT, another checkout of the same commit on this machine whose libraries are built, the clone gets these, and what a
# fresh clone proves first isn't measured. RT names another `rt`. Ends with status 1 where a step doesn't do what CONTRIBUTING says.
set -euo pipefail
built=${1:+$(realpath "$1")}
cd "$(dirname "$0")/.."
rt=${RT:-rt}
room=$(mktemp -d)
trap 'rm -rf "$room"' EXIT
git clone -q . "$room/clone"
cd "$room/clone"

# step LABEL COMMAND..: runs a command, whose output it keeps in `said` of the room, and prints what it took
step() {
    local label=$1 TIMEFORMAT='%R %U %S' status=0
    shift
    { time "$@" > "$room/said" 2>&1; } 2> "$room/time" || status=$?
    awk -v label="$label" '{ printf "%-64s %6.1f %6.1f\n", label, $1 / 60, ($2 + $3) / 60 }' "$room/time"
    return "$status"
}

# in_crate NAME WORD..: runs rt in the folder of a crate
in_crate() { (cd "crates/$1" && "$rt" "${@:2}"); }

# stops: ends the walk, with what the last step said
stops() {
    tail -n 20 "$room/said" >&2
    exit 1
}

rows() { make -s rows ROWS=cat PROGRAM=crates/unixvol/out/unixvol; }

# takes_libraries: gives the clone the libraries that another checkout has built
takes_libraries() {
    local rlib crate
    for rlib in "$built"/crates/*/out/rlib; do
        crate=$(basename "${rlib%/out/rlib}")
        mkdir -p "crates/$crate/out"
        cp -a "$rlib" "crates/$crate/out/"
    done
}

# proves_first LABEL CRATE WORD..: what comes before the loop in a fresh clone: measured, unless the libraries were built elsewhere
proves_first() {
    if [ "$built" ]; then in_crate "${@:2}" > "$room/said" 2>&1; else step "$1" in_crate "${@:2}"; fi || stops
}

printf '%-64s %6s %6s\n' 'minutes' clock cpu
[ ! "$built" ] || takes_libraries
proves_first 'fresh: rt check in command_words, with all crates below it' command_words check
proves_first 'fresh: rt run in unixvol, with all crates below it' unixvol run -- cat --help
sed -i 's/^\(pub const CAT_ABOUT: &str = "\)[^"]*/\1Prints a file./' crates/command_words/src/texts.rt
sed -i '/rows\.sh"$/a has "the first line of its help" "Prints a file." "$("$program" cat --help | head -n 1)"' tests/cat.sh
row=$(grep -n 'the first line of its help' tests/cat.sh | cut -d : -f 1)
step 'a help text: rt check in command_words' in_crate command_words check || stops
step 'a help text: rt run in unixvol' in_crate unixvol run -- cat --help || stops
step 'a help text: the rows of cat' rows || stops
sed -i "${row}s/Prints a file/Prints files/" tests/cat.sh
if step 'a wrong row: the rows of cat, which fail' rows; then stops; fi
grep "^tests/cat.sh:$row: failed" "$room/said" || stops
