#!/usr/bin/env bash
# Runs scripts of rows side by side, each in a folder of its own. It prints a line for each when it ends, and at last what the rows that failed print;
# then the status is 1.
# Usage: tests/run.sh PROGRAM NAME.. where `looks` names tests/looks.sh. JOBS is how many run at once: as many as there are processors, if it isn't said.
# Those in `alone` run one by one after the others, since their rows wait for a server or for the kernel only so long.
set -euo pipefail
usage='usage: tests/run.sh PROGRAM NAME..'
program=$(realpath "${1:?$usage}")
shift
: "${1:?$usage}"
cd "$(dirname "$0")/.."
alone='serve mount'
room=$(mktemp -d)
trap 'rm -rf "$room"' EXIT
# Each script is a group of processes, so that an interrupt ends it with all that it runs.
set -m
trap 'trap - INT TERM; for group in $(jobs -p); do kill -- "-$group" 2> /dev/null || true; done; wait; exit 130' INT TERM

for name; do
    [ -x "tests/$name.sh" ] || { echo "$0: there is no script tests/$name.sh" >&2; exit 2; }
done
[ -x "$program" ] || { echo "$0: there is no program $program: build it by \`make build\`, or name another by \`make rows PROGRAM=FILE\`" >&2; exit 2; }

# runs NAME: runs a script, and prints its last line, and what it skips; one whose last line has no count, or counts failed rows, has failed
runs() {
    local begun=$SECONDS status=0 last
    "tests/$1.sh" "$program" > "$room/$1" 2>&1 < /dev/null || status=$?
    last=$(tail -n 1 "$room/$1")
    if [[ $last =~ ^[0-9]+\ passed,\ [0-9]+\ failed$ ]]; then
        echo "$last" > "$room/$1.count"
    else
        last="ended with status $status, without a count"
    fi
    if [ "$status" = 0 ] && [[ $last == *' passed, 0 failed' ]]; then
        : > "$room/$1.passed"
    else
        last="FAILED: $last"
    fi
    echo "tests/$1.sh: $last, in $((SECONDS - begun)) s"
    grep '^skipped' "$room/$1" || true
}

begun=$SECONDS
later=()
running=0
for name; do
    if [[ " $alone " == *" $name "* ]]; then
        later+=("$name")
        continue
    fi
    if [ "$running" -ge "${JOBS:-$(nproc)}" ]; then
        wait -n || true
        running=$((running - 1))
    fi
    runs "$name" &
    running=$((running + 1))
done
wait
for name in "${later[@]}"; do
    runs "$name" &
    wait
done

failed=()
for name; do
    # (one without a mark may have ended without a word, as on a full disk)
    [ ! -e "$room/$name.passed" ] || continue
    failed+=("tests/$name.sh")
    printf '\n%s\n' "tests/$name.sh:"
    [ -e "$room/$name" ] || { echo 'it left no output'; continue; }
    head -n 300 "$room/$name"
    lines=$(wc -l < "$room/$name")
    [ "$lines" -le 300 ] || echo ".. and $((lines - 300)) lines more: tests/$name.sh $program"
done
counts=$(cat "$room"/*.count 2> /dev/null | awk '{ passed += $1; failed += $3 } END { printf "%d passed, %d failed", passed, failed }')
echo
echo "all: $counts, in $((SECONDS - begun)) s"
[ ${#failed[@]} = 0 ] || { echo "failed: ${failed[*]}"; exit 1; }
