#!/usr/bin/env bash
# Applies the wrong bodies of each crate: what they replace has to stand once in its files. That the prover refuses them is seen by the gate and by `make wrong-bodies`.
# Usage: tests/bodies.sh PROGRAM, which isn't run. It prints each row that fails, and ends with 'N passed, N failed'.
. "$(dirname "$0")/rows.sh"
top=${samples%/*}

# unapplied FOLDER CRATE: prints each wrong body in a folder that can't be applied to the files of a crate
unapplied() {
    python3 - "$@" << 'PYTHON'
import pathlib, sys

def is_applied(edit, crate):
    texts, pairs, file, old = {}, 0, None, None
    for line in edit.read_text().splitlines():
        word, _, text = line.partition(":")
        text = text.removeprefix(" ")
        if word == "file":
            file = crate / text
        elif word == "old":
            old = text
        elif word == "new":
            there = texts.get(file) or file.read_text()
            if not old or there.count(old) != 1:
                return False
            texts[file] = there.replace(old, text)
            pairs += 1
    return pairs > 0

folder, crate = map(pathlib.Path, sys.argv[1:])
for edit in sorted(folder.iterdir()):
    if edit.suffix == ".edit" and not is_applied(edit, crate):
        print(edit.name)
PYTHON
}

for bodies in "$top"/wrong-bodies/*/ "$top"/crates/*/must-fail/; do
    bodies=${bodies%/}
    crate=${bodies%/must-fail}
    crate=$top/crates/${crate##*/}
    has "wrong bodies that can't be applied, in ${bodies#"$top/"}" '' "$(unapplied "$bodies" "$crate")"
done

echo "$passed passed, $failed failed"
[ "$failed" = 0 ]
