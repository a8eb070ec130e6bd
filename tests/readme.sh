#!/usr/bin/env bash
# Runs the blocks of commands in README.md as they are, one after the other in one folder, as a user does who copies and pastes them.
# Usage: tests/readme.sh PROGRAM. It prints a line for each block that fails, and ends with 'N passed, N failed'.
. "$(dirname "$0")/rows.sh"
top=${samples%/*}
ln -s "$program" unixvol
for name in samples dist manual tools bin bindings Makefile; do ln -s "$top/$name" .; done
named
runs_blocks "$top/README.md"
# The first session needs nothing but the program.
mkdir session empty
awk '/^## / { on = /^## First session/ } { print on ? $0 : "" }' "$top/README.md" > session/README.md
(cd empty && : > none && runs_blocks ../session/README.md && [ "$failed" = 0 ]) > came
status=$?
has 'the first session in an empty folder' '0 ' "$status $(cat came)"
echo "$passed passed, $failed failed"
[ "$failed" -eq 0 ]
