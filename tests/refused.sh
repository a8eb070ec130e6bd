#!/usr/bin/env bash
# Does each run `refused` of the program `library_runs` with each of its allocations refused in turn: the first, the second, .., until no allocation is
# refused. The program checks the state after a refusal, and prints the number of broken promises; each run must print that there were none, and end
# with status 0. Some runs are also done with all allocations refused from the first on, from the second on, ..: then a repeated step finds no memory
# either, and the run may end there, which it counts as one broken promise, or at its words, with status 1. A run that takes 20 seconds is ended, and
# fails; so does a program without refusals, such as one with an allocator of its own.
# Usage: tests/refused.sh LIBRARY_RUNS [RUN..]. It needs rustc, which builds tests/refusing.rs. It prints a line for each run that fails and one for
# each kind of run, and ends with 'N passed, N failed'.
set -uo pipefail
export LC_ALL=C
usage='usage: tests/refused.sh LIBRARY_RUNS [RUN..]'
program=$(realpath "${1:?$usage}")
shift
[ "$#" -gt 0 ] || set -- volume sessions views
source=$(realpath "$(dirname "$0")/refusing.rs")
if ! command -v rustc > /dev/null; then
    echo 'refused: rustc is not there, which builds the library that refuses memory' >&2
    exit 1
fi
folder=$(mktemp -d)
trap 'rm -rf "$folder"' EXIT
cd "$folder" || exit 1
rustc -O --edition 2021 --crate-type cdylib -C panic=abort "$source" -o refusing.so || exit 1
echo '000 promises broken' > whole
echo '001 promises broken' > unfinished
passed=0
failed=0

# is_right VARIABLE STATUS: true if a run ended as it must when VARIABLE names the refusals
is_right() {
    case "$1 $2" in
    'REFUSED 0') cmp -s output whole ;;
    'REFUSED_FROM 0') cmp -s output whole || cmp -s output unfinished ;;
    'REFUSED_FROM 1') [ ! -s output ] ;;
    *) false ;;
    esac
}

# refuse VARIABLE RUN: does a run with VARIABLE at 1, 2, .., until nothing is refused
refuse() {
    local number=0 status
    while true; do
        number=$((number + 1))
        timeout 20 env "$1=$number" LD_PRELOAD="$folder/refusing.so" "$program" refused "$2" > output 2> error 9> met
        status=$?
        if is_right "$1" "$status"; then
            passed=$((passed + 1))
        else
            failed=$((failed + 1))
            echo "failed: $2, $1 $number: status $status: $(head -c 200 output error)"
        fi
        # A run without a refusal is the last.
        [ -s met ] || break
    done
    echo "$2: $((number - 1)) allocations refused, $1"
    if [ "$number" = 1 ]; then
        failed=$((failed + 1))
        echo "failed: $2, $1: nothing is refused of this program"
    fi
}

for run in "$@"; do
    refuse REFUSED "$run"
    case "$run" in
    sessions | views) refuse REFUSED_FROM "$run" ;;
    esac
done
echo "$passed passed, $failed failed"
[ "$failed" = 0 ]
