#!/usr/bin/env bash
# Prints the file in samples/hello.v6 with ./unixvol if it was built, else with the program in dist/. It prints which on standard error.
set -euo pipefail
cd "$(dirname "$0")/.."
if [ -x unixvol ]; then
    program=./unixvol
    echo './unixvol, as it was built here:' >&2
else
    . tools/unpack.sh
    unpacks_own
    program=$release/bin/unixvol
    echo "${release##*/}, from dist/:" >&2
fi
"$program" cat 6 samples/hello.v6 1
