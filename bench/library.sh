#!/usr/bin/env bash
# Times the library from C and from Python, on a volume of 200 MB that is made in memory. Each job is timed five times; the least time counts.
# Usage: bench/library.sh FOLDER, where `make library` left the library. It needs a C compiler and Python 3.
set -euo pipefail
export LC_ALL=C PYTHONDONTWRITEBYTECODE=1
built=$(realpath "${1:?usage: bench/library.sh FOLDER}")
cd "$(dirname "$0")/../bindings"
room=$(mktemp -d)
trap 'rm -rf "$room"' EXIT
cc -std=c11 -O2 -I c c/examples/speed.c "$built/libunixvol.a" -o "$room/speed"
export PYTHONPATH=$built/python
for _ in 1 2 3 4 5; do
    "$room/speed" | sed 's/^/C /'
    python3 python/examples/speed.py | sed 's/^/Python /'
done | awk '
    { from = $1; taken = $NF; sub(/^[^ ]* /, ""); sub(/ *[^ ]*$/, ""); job = $0 }
    !(job in first) { first[job] = ++count; name[count] = job }
    !((from, job) in least) || taken < least[from, job] { least[from, job] = taken }
    END {
        printf "%-40s %9s %9s\n", "job", "C ms", "Python ms"
        for (i = 1; i <= count; i++) printf "%-40s %9.1f %9.1f\n", name[i], least["C", name[i]], least["Python", name[i]]
    }'
