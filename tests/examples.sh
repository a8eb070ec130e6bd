#!/usr/bin/env bash
# Tries the examples in the READMEs of the crates as they stand: the code of each README is a module of a new crate, which `rt try` compiles. Nothing is
# proved; lemmas that an example names must be there. Without `rt` (or the command that RT names) it says that it is skipped. It takes half a minute.
# Usage: tests/examples.sh. It prints a line for each README that fails, with what is wrong, and ends with 'N passed, N failed'.
set -uo pipefail
cd "$(dirname "$0")/.." || exit 1
folder=$(mktemp -d)
trap 'rm -rf "$folder"' EXIT
example=$folder/crates/readme_examples
passed=0
failed=0

# counts LABEL STATUS: a row, which holds if the status is 0; else the lines in `$folder/wrong` are shown
counts() {
    if [ "$2" = 0 ]; then
        passed=$((passed + 1))
    else
        failed=$((failed + 1))
        echo "failed: $1"
        sed 's/^/    /' "$folder/wrong"
    fi
}

# code FILE: the code of a README, each line where it is there, and empty lines for all others. An example begins with what it uses.
code() { awk '/^    (ghost )?use / { on = 1 } /^[^ ]/ { on = 0 } { print on ? substr($0, 5) : "" }' "$1"; }

# lemmas_there FILE: the lemmas that an example names are there; those that aren't are in `$folder/wrong`
lemmas_there() {
    local path name
    for path in $(grep -o '[a-z_]*::proofs::[A-Za-z_:]*' "$1"); do
        name=${path##*::} path=${path%::*}
        grep -q "^ *pub $name :" "crates/$(sed 's,::,/,g' <<< "$path").antt" || echo "there is no $path::$name"
    done > "$folder/wrong"
    [ ! -s "$folder/wrong" ]
}

if ! "${RT:-rt}" version > "$folder/wrong" 2>&1; then
    echo "skipped: the examples of READMEs, since there is no ${RT:-rt}"
    echo '0 passed, 0 failed'
    exit
fi
tar -cf - --exclude=out crates HANDLES | tar -xf - -C "$folder"
mkdir -p "$example/src"
echo '//! The examples of the READMEs.' > "$example/src/main.rt"
for file in crates/*/README.md; do
    name=$(basename "$(dirname "$file")")
    code "$file" > "$example/src/of_$name.rt"
    diff <(sed -n 's/^    \(.*\bfn .*\)/\1/p' "$file") <(grep '\bfn ' "$example/src/of_$name.rt") > "$folder/wrong"
    counts "$file: an example begins with what it uses" $?
    if grep -q . "$example/src/of_$name.rt"; then
        lemmas_there "$example/src/of_$name.rt"
        counts "$file: the lemmas" $?
        echo "mod of_$name;" >> "$example/src/main.rt"
    else
        rm "$example/src/of_$name.rt"
    fi
done
printf '\nfn main() {}\n' >> "$example/src/main.rt"
used=$(sed -n 's/^use \([a-z_]*\)::.*/\1/p' "$example"/src/of_*.rt | sort -u | grep -vx std | tr '\n' ' ')
{ cat crates.txt && echo "readme_examples: $used"; } > "$folder/crates.txt"

(cd "$example" && timeout 900 "${RT:-rt}" try) > "$folder/tried" 2>&1
tried=$?
sed -i -E 's,src/of_([a-z_]+)\.rt:([0-9]+):[0-9]+,crates/\1/README.md:\2,' "$folder/tried"
for file in "$example"/src/of_*.rt; do
    name=$(basename "${file%.rt}")
    ! grep "^crates/${name#of_}/README.md:" "$folder/tried" > "$folder/wrong"
    counts "crates/${name#of_}/README.md: the example" $?
done
cp "$folder/tried" "$folder/wrong"
counts 'all examples at once' $tried
echo "$passed passed, $failed failed"
[ "$failed" = 0 ]
