#!/usr/bin/env bash
# Runs rows of the other tests through the program for WebAssembly that `make page` built, by Node, compares it with the native program, by page/differ.mjs, imports
# what the page makes of a dropped folder, by tests/page/folders.mjs, and drives the page in Chromium, by tests/page/rows.py.
# What is missing, or was built from other sources, is skipped with a message.
# Usage: tests/page.sh FOLDER, which tools/page.sh built. ROWS names the scripts, if not those below; PROGRAM the native program, if it isn't ./unixvol; RUNS how
# many runs are compared. It prints what fails, and ends with 'N passed, N failed, N skipped'.
set -uo pipefail
built=$(realpath "${1:?usage: $0 FOLDER}")
cd "$(dirname "$0")/.." || exit 1
. tests/elsewhere.sh
rows=${ROWS:-words looks identify checks changes trees archives volumes packs fields rescue syncs builds}
program=${PROGRAM:-./unixvol}

# is_built: the folder has what these sources give
is_built() {
    [ -e "$built/unixvol.wasm" ] || skips 'not built here: the program for WebAssembly' || return
    [ "$(tools/sources.sh page)" = "$(cat "$built/sources")" ] || skips 'built from other sources: the program for WebAssembly'
}

# test_command: the command for Node does what the rows say. It takes twice the processor time of the native program, and more on a busy machine.
test_command() {
    export SLOWER=3
    stands_for node "$built/unixvol.mjs"
    has 'Node: --version' "unixvol $version" "$("$room/unixvol" --version)"
    ln -s "$built/unixvol.mjs" "$room/linked"
    has 'Node: --version, by a link' "unixvol $version" "$(node "$room/linked" --version)"
    for script in $rows; do runs "Node: $script" "tests/$script.sh" "$room/unixvol"; done
}

# test_same: it does what the native program does
test_same() {
    [ -x "$program" ] || skips "$program is not here: the comparison with the native program" || return
    node page/differ.mjs "$program" "${RUNS:-2000}" >"$room/output" 2>&1
    has 'the native program: the status' 0 $?
    echo "the native program: $(tail -n 1 "$room/output")"
    sed '$d; s/^/    /' "$room/output"
}

# test_folders: the archive of a folder that is dropped on the page
test_folders() {
    runs 'a dropped folder' tests/page/folders.mjs "$built"
}

# test_page: what the page shows and saves in a browser
test_page() {
    command -v chromium chromium-browser google-chrome >/dev/null || skips "chromium is not here (Debian's chromium): the page in a browser" || return
    [ -x "$program" ] || skips "$program is not here: the page in a browser" || return
    PAGE=$built/unixvol.html runs 'the page in Chromium' tests/page/rows.py "$program"
}

if is_built; then
    if command -v node >/dev/null; then
        test_command
        test_same
        test_folders
    else
        skips "node is not here (Debian's nodejs): the rows for WebAssembly"
    fi
    test_page
fi
ends
