#!/usr/bin/env bash
# Builds the program for WebAssembly from the proved crates, and leaves it in page/out: unixvol.wasm; beside it what runs it, unixvol.mjs with its types and
# node.mjs; unixvol.html, the page with all of that in one file; and sources (the checksum of tools/sources.sh).
# The crates are proved first, over what earlier checks kept. It needs only `rt` and Python, and the same toolchain gives the same bytes.
set -euo pipefail
export LC_ALL=C
cd "$(dirname "$0")/.."
. tools/module.sh
out=page/out

# stops TEXT: prints why nothing can be built, and ends
stops() {
    echo "no page: $1" >&2
    exit 1
}

command -v python3 >/dev/null || stops 'python3 is not here, which makes the module one for 32 bits, and packs the page'
"$clang" --print-targets 2>/dev/null | grep -qw wasm64 || stops "$clang has no target wasm64"
sources=$(tools/sources.sh page)
prepare_program
# The compiler's default uses instructions of later processors, for which WebAssembly has none.
build_program --cpu=x86-64 -O0

for_wasm=(--target=wasm64-unknown-unknown -mbulk-memory)
module_for "${for_wasm[@]}" >"$room/wasm64.ll"
"$clang" "${for_wasm[@]}" -O3 -ffunction-sections -fdata-sections -c -x ir "$room/wasm64.ll" -o "$room/unixvol.o"
for file in heap wide host; do
    "$clang" "${for_wasm[@]}" -std=c11 -O2 -ffreestanding -fno-builtin -Wall -Wextra -Werror -c "page/$file.c" -o "$room/$file.o"
done
# The stack is below the data, so that one that is too long traps; after the memory's end there are some MiB that no address can name, for the same reason.
(exec -a wasm-ld "$clang" -mwasm64 --no-entry --export=main --fatal-warnings --gc-sections --strip-all --compress-relocations --stack-first \
    -z stack-size=8388608 --max-memory=4286578688 "$room"/{unixvol,heap,wide,host}.o -o "$room/unixvol64.wasm")

rm -rf "$out"
mkdir -p "$out"
python3 page/lower.py "$room/unixvol64.wasm" "$out/unixvol.wasm"
cp page/{unixvol.mjs,unixvol.d.mts,node.mjs} "$out"
python3 page/pack.py "$out/unixvol.wasm" "$out/unixvol.html"
echo "$sources" >"$out/sources"
echo "$out: unixvol.wasm ($(wc -c <"$out/unixvol.wasm") bytes), unixvol.html ($(wc -c <"$out/unixvol.html") bytes)"
