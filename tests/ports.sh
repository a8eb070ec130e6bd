#!/usr/bin/env bash
# Runs rows of the other tests through the programs that `make ports` built, those for other machines by Debian's qemu-user, and the tests in C of the library
# for aarch64. What is missing, or was built from other sources, is skipped with a message.
# Usage: tests/ports.sh FOLDER, which tools/ports.sh built. ROWS names the scripts, if not those below. It prints what fails, and ends with 'N passed, N failed,
# N skipped'.
set -uo pipefail
built=$(realpath "${1:?usage: $0 FOLDER}")
cd "$(dirname "$0")/.." || exit 1
. tools/machines.sh
. tests/elsewhere.sh
rows=${ROWS:-looks changes plays identify checks volumes}
sources=$(tools/sources.sh ports)

# runner MACHINE: what runs its programs here: nothing, or qemu-user
runner() { [ "${1%%-*}" = "$(uname -m)" ] || echo "qemu-${1%%-*}"; }

# test_program MACHINE: it is linked statically, and does what the rows say
test_program() {
    local program=$built/$1/unixvol script run
    has "$1: what it needs of the system" 0 "$(readelf -ldW "$program" | grep -E 'INTERP|NEEDED'; echo "${PIPESTATUS[0]}")"
    read -ra run < <(runner "$1")
    export SLOWER=1
    [ ${#run[@]} = 0 ] || SLOWER=10
    stands_for "${run[@]}" "$program"
    has "$1: --version" "unixvol $version" "$("$room/unixvol" --version)"
    for script in $rows; do runs "$1: $script" "tests/$script.sh" "$room/unixvol"; done
}

# test_library MACHINE: the tests in C, an example with the shared object, and what the wheel's tag promises
test_library() {
    local library=$built/$1/library cc=${1%%-*}-linux-gnu-gcc run name flags newest
    newest=$(grep -ao 'GLIBC_2\.[0-9]*' "$library/libunixvol.so.0" | sort -Vu | tail -n 1)
    has "$1: the C library that the shared object needs" GLIBC_2.17 "$newest"
    has "$1: the wheel" "unixvol-$version-py3-none-manylinux2014_${1%%-*}.whl" "$(python3 "$library/python/make_wheel.py" "$room")"
    command -v "$cc" >/dev/null || skips "$cc is not here (Debian's gcc-${1%%-*}-linux-gnu): the tests in C for $1" || return
    # With the C library that the compiler has.
    run=("$(runner "$1")" -L "$(dirname "$(dirname "$("$cc" -print-file-name=libc.so.6)")")" -E "LD_LIBRARY_PATH=$library")
    for name in calls faults threads; do
        flags=()
        [ $name != faults ] || flags=(-Wl,--wrap=malloc,--wrap=realloc,--wrap=free)
        "$cc" -std=c11 -I bindings/c "bindings/c/tests/$name.c" "$library/libunixvol.a" "${flags[@]}" -o "$room/$name"
        has "$1: compiles $name" 0 $?
        has "$1: $name" ' passed, 0 failed' "$("${run[@]}" "$room/$name" | grep -o ' passed, 0 failed')"
    done
    "$cc" -I bindings/c bindings/c/examples/list.c -L "$library" -lunixvol -o "$room/list"
    has "$1: list, by the shared object" "$("$room/unixvol" ls -l 7 samples/linux_made.v7 /usr | awk '$NF !~ /^\.\.?$/ { print $NF }')" \
        "$("${run[@]}" "$room/list" 7 samples/linux_made.v7 /usr | awk '$NF !~ /^\.\.?$/ { print $NF }')"
}

for machine in $machines; do
    [ -x "$built/$machine/unixvol" ] || skips "not built here: $machine" || continue
    [ "$sources" = "$(cat "$built/$machine/sources")" ] || skips "built from other sources: $machine" || continue
    run=$(runner "$machine")
    if [ -n "$run" ] && ! command -v "$run" >/dev/null; then
        skips "$run is not here (Debian's qemu-user): the rows for $machine"
        continue
    fi
    test_program "$machine"
    [ ! -d "$built/$machine/library" ] || test_library "$machine"
done
ends
