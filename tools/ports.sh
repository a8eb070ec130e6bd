#!/usr/bin/env bash
# Builds the program for the machines of ports/machines from the proved crates, linked statically, and the library for aarch64. It leaves them in
# ports/out/MACHINE: unixvol, library (as tools/library.sh leaves it), sources (the checksum of tools/sources.sh), and compilers: what they were compiled and
# linked with. A machine whose compiler is missing is skipped with a message.
# The crates are proved first, over what earlier checks kept. The same compilers give the same bytes.
set -euo pipefail
export LC_ALL=C
cd "$(dirname "$0")/.."
. tools/module.sh

# compiler MACHINE: the name of its C compiler
compiler() { echo "${1%%-*}-linux-gnu-gcc"; }

# compilers MACHINE: prints what compiles and links there, and what it adds, each file with its checksum
compilers() {
    local cc file
    cc=$(compiler "$1")
    "$cc" --version | head -n 1
    "$cc" -Wl,--version 2>/dev/null | head -n 1
    for file in crt1.o crti.o crtbeginT.o libgcc.a libgcc_eh.a libc.a libc.so.6 crtend.o crtn.o; do
        echo "$(sha256sum <"$("$cc" -print-file-name="$file")" | cut -d' ' -f1)  $file"
    done
}

for_riscv64=(--target=riscv64-linux-gnu -march=rv64gc -mabi=lp64d)

# compiles MACHINE FLAG: proves the program and compiles it, as $room/unixvol.o
compiles() {
    build_program "$2"
    [ "$1" = riscv64-linux ] || return 0
    module_for "${for_riscv64[@]}" >"$room/module.ll"
    awk -f ports/riscv64.awk "$room/module.ll" "$room/module.ll" >"$room/riscv64.ll"
    "$clang" "${for_riscv64[@]}" -O2 -fPIE -ffunction-sections -fdata-sections -c -x ir "$room/riscv64.ll" -o "$room/unixvol.o"
}

# links MACHINE: links $room/unixvol.o with the functions that it needs beside the C library: the toolchain's for x86-64, else those of ports/
links() {
    local cc file parts=()
    cc=$(compiler "$1")
    case $1 in
        x86_64-*) parts=("$kit"/c/lib{os,libc}_c.a) ;;
        *)
            for file in heap host; do
                "$cc" -std=c11 -O2 -Wall -Wextra -Werror -c "ports/$file.c" -o "$room/$file.o"
                parts+=("$room/$file.o")
            done
            ;;
    esac
    "$cc" -static -s -Wl,--gc-sections -o "ports/out/$1/unixvol" "$room/unixvol.o" "${parts[@]}"
}

sources=$(tools/sources.sh ports)
while read -r -u 3 machine package flag; do
    case $machine in '' | '#'*) continue ;; esac
    out=ports/out/$machine
    rm -rf "$out"
    if ! echo 'int main(void) { return 0; }' | "$(compiler "$machine")" -static -x c - -o "$room/none" 2>"$room/said"; then
        echo "skipped: $(compiler "$machine") and its C library are not here (Debian's $package): the builds for $machine"
        continue
    fi
    [ ${#words[@]} != 0 ] || prepare_program
    mkdir -p "$out"
    compiles "$machine" "$flag"
    links "$machine"
    if [ "$machine" = aarch64-linux ]; then
        MACHINE=aarch64 OUT=$out/library tools/library.sh
    fi
    compilers "$machine" >"$out/compilers"
    echo "$sources" >"$out/sources"
    echo "$out: unixvol ($(wc -c <"$out/unixvol") bytes)"
done 3<ports/machines
