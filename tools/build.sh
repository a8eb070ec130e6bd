#!/usr/bin/env bash
# Proves and builds the program, and leaves it as ./unixvol. Only the crates that it needs are proved.
set -euo pipefail
cd "$(dirname "$0")/.."
. tools/proving.sh
sources=$(tools/sources.sh)
copy_crates unixvol
(cd "$room" && "${RT:-rt}" ci)
cp -f "$room/crates/unixvol/out/unixvol" unixvol
mkdir -p crates/unixvol/out
echo "$sources" >crates/unixvol/out/sources
