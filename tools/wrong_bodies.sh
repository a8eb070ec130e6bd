#!/usr/bin/env bash
# Tries the wrong bodies of the crates named, or of all crates that have some here: the prover must refuse each. It works on a copy, in which the crates are
# proved first. It prints a line for each crate and each wrong body, and why a proof failed.
# Usage: tools/wrong_bodies.sh [CRATE..]
set -euo pipefail
cd "$(dirname "$0")/.."
(($#)) || set -- $(cd wrong-bodies && ls -d -- */ | tr -d /)
for crate; do
    [ -d "wrong-bodies/$crate" ] || { echo "$0: wrong-bodies has no folder $crate" >&2; exit 2; }
done
. tools/proving.sh
copy_crates "$@"
for crate; do
    cp -r "wrong-bodies/$crate" "$room/crates/$crate/must-fail"
done
cd "$room"
"${RT:-rt}" ci | grep -E '^rt: |: error|^[0-9]+ passed'
