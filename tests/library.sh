#!/usr/bin/env bash
# Tests the built library from C, Python and Rust: each function, each refused allocation, threads, the examples, the installed files, and that the
# declarations agree with the source. If a tool is missing, its tests are skipped with a message.
# Usage: tests/library.sh FOLDER [PROGRAM], which are what tools/library.sh built, and ./unixvol if no other is given. It prints what fails, and ends with
# 'N passed, N failed, N skipped'.
set -uo pipefail
built=$(realpath "${1:?usage: $0 FOLDER [PROGRAM]}")
program=$(realpath -m "${2:-$(dirname "$0")/../unixvol}")
cd "$(dirname "$0")/.." || exit 1
top=$PWD
room=$(mktemp -d)
trap 'rm -rf "$room"' EXIT
export PYTHONDONTWRITEBYTECODE=1
passed=0
failed=0
skipped=0

# runs LABEL WORD..: the command ends with status 0; else its output is shown
runs() {
    local label=$1
    shift
    if "$@" > "$room/output" 2>&1; then
        passed=$((passed + 1))
    else
        failed=$((failed + 1))
        echo "tests/library.sh:${BASH_LINENO[-2]}: failed: $label"
        sed 's/^/    /' "$room/output"
    fi
}

# fails STATUS LABEL WORD..: the command ends with this status
fails() {
    local status=$1 label=$2
    shift 2
    "$@" > "$room/output" 2>&1
    runs "$label" test $? = "$status"
}

# there COMMAND WHAT: true if the command exists and runs; otherwise says that WHAT is skipped
there() {
    "$1" --version > "$room/output" 2>&1 && return
    skips "$1 is not here: $2"
}

# skips WHAT: says that WHAT is skipped
skips() {
    skipped=$((skipped + 1))
    echo "skipped: $1"
    return 1
}

compiler=
for name in gcc clang cc; do
    [ -n "$compiler" ] || compiler=$(command -v "$name")
done
warnings=(-std=c11 -Wall -Wextra -Wpedantic -Wshadow -Wconversion -Werror -g -I "$top/bindings/c")

# compiles NAME FILE FLAG..: leaves the program in `$room`
compiles() {
    local name=$1 file=$2
    shift 2
    runs "compiles $name" "$compiler" "${warnings[@]}" "$top/bindings/c/$file" "$built/libunixvol.a" -lpthread -o "$room/$name" "$@"
}

# The header by itself, in each language that reads it.
test_header() {
    runs 'the header in C99' "$compiler" -std=c99 -Wall -Wextra -Wpedantic -Werror -fsyntax-only -x c bindings/c/unixvol.h
    if there g++ 'the header in C++'; then
        runs 'the header in C++' g++ -Wall -Wextra -Wpedantic -Werror -fsyntax-only -x c++ bindings/c/unixvol.h
    fi
}

# The tests in C: plainly, with sanitizers, and under valgrind.
test_c() {
    local wrap=-Wl,--wrap=malloc,--wrap=realloc,--wrap=free sanitized=(-fsanitize=address,undefined -fno-sanitize-recover=all)
    compiles calls tests/calls.c
    compiles faults tests/faults.c $wrap
    compiles threads tests/threads.c
    for name in calls faults threads; do runs "$name" "$room/$name"; done
    if echo 'int main(void) { return 0; }' | "$compiler" "${sanitized[@]}" -x c - -o "$room/none" 2> "$room/output"; then
        compiles sane_calls tests/calls.c "${sanitized[@]}"
        compiles sane_faults tests/faults.c $wrap "${sanitized[@]}"
        for name in sane_calls sane_faults; do runs "$name" "$room/$name"; done
    else
        skips "$compiler has no sanitizers: calls and faults with them"
    fi
    if there valgrind 'calls under memcheck, threads under helgrind'; then
        runs 'calls under memcheck' valgrind -q --error-exitcode=9 --leak-check=full "$room/calls"
        runs 'threads under helgrind' valgrind -q --error-exitcode=9 --tool=helgrind "$room/threads"
    fi
}

# The examples in C, on a volume that Linux wrote, compared with what `ls -li` printed there.
test_examples() {
    compiles list examples/list.c
    compiles inject examples/inject.c
    awk '/^\.\/usr:$/ { on = 1; next } /^$/ { on = 0 } on { print $1, $3, $4, $5, $6, $NF }' samples/linux_made.txt | sort > "$room/wanted"
    "$room/list" 7 samples/linux_made.v7 /usr | awk '$NF !~ /^\.\.?$/ { print $1, $3, $4, $5, $6, $NF }' | sort > "$room/found"
    runs 'rows that Linux wrote' test -s "$room/wanted"
    runs 'list' cmp "$room/wanted" "$room/found"
    cp samples/linux_made.v7 "$room/pack"
    runs 'inject' "$room/inject" 7 "$room/pack" README.md /usr/README.md
    "$room/list" 7 "$room/pack" /usr > "$room/found"
    runs 'the injected file' grep -q " $(wc -c < README.md) README.md$" "$room/found"
    runs 'inject from a pipe' "$room/inject" 7 "$room/pack" <(cat README.md) /usr/piped
    "$room/list" 7 "$room/pack" /usr > "$room/found"
    runs 'the file injected from a pipe' grep -q " $(wc -c < README.md) piped$" "$room/found"
    cp "$room/pack" "$room/before"
    fails 1 'inject a name that is there' "$room/inject" 7 "$room/pack" README.md /usr/README.md
    runs 'the pack is as it was' cmp "$room/before" "$room/pack"
    fails 1 'list of an image that is none' "$room/list" 7 README.md
    "$room/list" 7 samples/lessons/rule_12.v7 2> "$room/found"
    runs 'the rules that an image breaks' grep -q '^12 each link count is the number of entries: a wrong link count: ' "$room/found"
}

# The Python package: the declarations, the tests, the examples.
test_python() {
    runs 'declarations' bindings/declarations.py "$built/python"
    export PYTHONPATH=$built/python
    runs 'the tests in Python' python3 -W error bindings/python/tests/test_unixvol.py
    runs 'the tests of looks in Python' python3 -W error bindings/python/tests/test_looks.py
    python3 bindings/python/examples/lesson.py > "$room/lesson" 2>&1
    runs 'the lesson' diff "$room/lesson" bindings/python/examples/lesson.txt
    python3 bindings/python/examples/list_all.py 7 samples/linux_made.v7 > "$room/all" 2>&1
    runs 'list_all' grep -q '^drwxr-xr-x   2   0     688 ....-..-.. ..:.. games$' "$room/all"
    if [ -x "$program" ]; then
        runs 'saves of Python and of the program' python3 bindings/python/tests/beside_program.py "$program" "$room"
        runs 'volumes of packs as the program finds them' python3 bindings/python/tests/packs_beside_program.py "$program" "$room"
        runs 'looks as the program prints them' python3 bindings/python/tests/looks_beside_program.py "$program" "$room"
    else
        skips "$program is not built: saves of Python and of the program, the volumes that both find, and what both show"
    fi
    unset PYTHONPATH
    if python3 -m pip --version > "$room/output" 2>&1; then
        runs 'the wheel' python3 -m pip install --no-index -q --target "$room/wheel" "$built/python"
        runs 'the package in the wheel' env PYTHONPATH="$room/wheel" python3 -c 'import unixvol; unixvol.mkfs(6, 100, 2)'
    else
        skips 'pip is not here: the wheel'
    fi
}

# The Rust wrapper and its example.
test_rust() {
    (cd bindings/rust && UNIXVOL_LIB=$built CARGO_TARGET_DIR=$room/rust cargo build --offline -q --example look) > "$room/output" 2>&1
    runs 'the Rust wrapper' test -x "$room/rust/debug/examples/look" || return
    "$room/rust/debug/examples/look" 7 samples/linux_made.v7 /usr > "$room/found" 2>&1
    runs 'look' grep -q '^   95 0755      688 games$' "$room/found"
    runs 'the report in Rust' grep -q '^missing 0$' "$room/found"
    runs 'the differences in Rust' grep -q '^A /note$' "$room/found"
    runs 'an i-node in Rust' grep -q '^{"addr":\[.*"size":15,.*}$' "$room/found"
    fails 1 'look at an image that is none' "$room/rust/debug/examples/look" 7 README.md
}

# The C library that the wheel's tag, manylinux2014, promises to be enough.
test_wheel_tag() {
    local newest
    newest=$(grep -ao 'GLIBC_2\.[0-9]*' "$built/libunixvol.so.0" | sort -Vu | tail -n 1)
    runs "no newer C library than that of manylinux2014: $newest" test "$(printf '%s\n' "$newest" GLIBC_2.17 | sort -V | tail -n 1)" = GLIBC_2.17
}

# The installed files, used as another program would.
test_installed() {
    LIBRARY=$built runs 'lay out' tools/lay_out.sh "$room/tree"
    runs 'install' tools/place.sh "$room/usr" "$room/tree"
    if there pkg-config 'the installed library in C'; then
        local flags
        flags=$(PKG_CONFIG_PATH=$room/usr/lib/pkgconfig pkg-config --cflags --libs unixvol)
        # shellcheck disable=SC2086
        runs 'links with the installed shared object' "$compiler" bindings/c/examples/list.c -o "$room/linked" $flags
        runs 'list by the installed shared object' env LD_LIBRARY_PATH="$room/usr/lib" "$room/linked" 7 samples/linux_made.v7
    fi
    if there python3 'the installed package'; then
        runs 'the installed package' env PYTHONPATH="$(dirname "$room"/usr/lib/python3*/*-packages/unixvol)" python3 -c 'import unixvol; unixvol.mkfs(6, 100, 2)'
    fi
}

test_wheel_tag
if [ -n "$compiler" ]; then
    test_header
    test_c
    test_examples
    test_installed
else
    skips 'no C compiler is here: all tests in C, and of what is installed'
fi
if there python3 'the declarations, and all tests in Python'; then
    if python3 -c 'import sys; sys.exit(sys.version_info < (3, 10))'; then
        test_python
    else
        skips 'python3 is older than 3.10: the declarations, and all tests in Python'
    fi
fi
if there cargo 'the Rust wrapper'; then test_rust; fi
echo "$passed passed, $failed failed, $skipped skipped"
[ "$failed" = 0 ]
