# Shared by the tests of the program; README.md here has the grammars of rows. It is read with `.`, with the program as the first word, and continues in
# a folder of the test's own: `program` is the program, `samples` the folder of the samples.
set -uo pipefail
: "${1:?usage: $0 PROGRAM}"
program=$(realpath -m "$1")
[ -x "$program" ] || { echo "$0: there is no program $1" >&2; exit 2; }
unset UNIXVOL_EXPLAIN UNIXVOL_PROGRESS
rows_script=$(realpath "$0")
samples=$(realpath "$(dirname "${BASH_SOURCE[0]}")/../samples")
folder=$(mktemp -d)
# (the folder of now, whatever a test calls by this name)
trap "rm -rf $(printf %q "$folder")" EXIT
cd "$folder" || exit 1
passed=0
failed=0

# image FILE BYTES: a file of BYTES zeros
image() { head -c "$2" /dev/zero > "$1"; }

# put FILE AT HEX: puts these bytes at byte AT of FILE
put() {
    local escaped
    escaped=$(sed 's/../\\x&/g' <<< "${3// /}")
    printf '%b' "$escaped" | dd of="$1" bs=1 seek="$2" conv=notrunc status=none
}

# repeated COUNT HEX: the bytes COUNT times
repeated() { printf "${2// /}%.0s" $(seq "$1"); }

# body FILE BYTES: a file of BYTES zeros, which take no room on the disk
body() { rm -f "$1" && truncate -s "$2" "$1"; }

# changed FROM TO AT HEX: TO is a copy of FROM with these bytes at byte AT
changed() {
    cp "$1" "$2"
    put "$2" "$3" "$4"
}

# shared FILE NAMES: a volume of the seventh edition with 63 directories of the greatest size, in which all logical blocks from 16,522 on are one
# block, with NAMES names: n0 for the root, n1 for the directory after it, and so on
shared() {
    "$program" mkfs 7 "$1" 50 8 0 0 1
    python3 - "$@" << 'PYTHON'
import struct, sys
image = bytearray(open(sys.argv[1], "rb").read())
size = 512 * (10 + 128 + 128 ** 2 + 128 ** 3)
directory = struct.pack("<6H36x4B12x", 0o40755, 1, 0, 0, size >> 16, size & 0xFFFF, 0, 11, 0, 0)
image[1024 + 64:1024 + 64 * 64] = 63 * directory
for block in 11, 12, 13:
    image[512 * block:512 * block + 512] = 128 * struct.pack("<HH", 0, block + 1)
names = b"".join(struct.pack("<H14s", 2 + n, b"n%d" % n) for n in range(int(sys.argv[2])))
image[512 * 14:512 * 15] = names.ljust(512, b"\0")
open(sys.argv[1], "wb").write(image)
PYTHON
}

# ringed FILE MODE SIZE FIRST COUNT WORDS: a volume of the seventh edition of 12 blocks. COUNT i-nodes from FIRST on have this mode and size, and all
# their addresses name block 11, which has these bytes again and again
ringed() {
    "$program" mkfs 7 "$1" 12 1 0 0 1
    python3 - "$@" << 'PYTHON'
import struct, sys
image = bytearray(open(sys.argv[1], "rb").read())
size, first, count = map(int, sys.argv[3:6])
inode = struct.pack("<6H", int(sys.argv[2], 8), 1, 0, 0, size >> 16, size & 0xFFFF) + 13 * b"\0\x0b\0" + bytes(13)
image[1024 + 64 * (first - 1):1024 + 64 * (first - 1 + count)] = count * inode
words = bytes.fromhex(sys.argv[6])
image[512 * 11:] = 512 // len(words) * words
open(sys.argv[1], "wb").write(image)
PYTHON
}

# A row that fails is found by its place, a line of a file. While the lines of a data file are carried out, `row_at` has it. Otherwise it is the line of the
# script from which the check was called, or, in a loop over a table, the table's line.
row_at=
lines_read=()

# read WORD..: the builtin, which also counts how many lines each loop of the script has read
read() {
    if [ "${BASH_SOURCE[1]}" != "$0" ]; then
        builtin read "$@"
    elif builtin read "$@"; then
        lines_read[BASH_LINENO[0]]=$((${lines_read[BASH_LINENO[0]]-0} + 1))
    else
        set -- $?
        unset "lines_read[${BASH_LINENO[0]}]"
        return "$1"
    fi
}

# called FILE: the file as it is called from the top of the repository
called() { echo "${1#"${samples%/*}"/}"; }

# table_row LINE CALL: the place of the line that the loop around line LINE of the script has read last, if there is such a loop over a table. If the loop is
# in a function, CALL is the line that called it.
table_row() {
    local loop=0 end=0 text='' found
    for found in "${!lines_read[@]}"; do
        [ "$found" -lt "$1" ] || break
        found=$(awk -v loop="$found" 'NR < loop { next } { match($0, / */) } NR == loop { if (!/^ *while /) exit; indent = RLENGTH; next }
            /^ *done/ && RLENGTH == indent { print loop, NR, $0; exit }' "$rows_script")
        found=${found:-0 0}
        [ "$(cut -d ' ' -f 2 <<< "$found")" -lt "$1" ] || builtin read -r loop end text <<< "$found"
    done
    [ "$loop" != 0 ] || return
    case $text in
        *'<<<'* | *'< <('*) ;;
        *'<<'*) echo "$(called "$rows_script"):$((end + lines_read[loop]))" ;;
        *' < '*) echo "$(called "$(eval "realpath ${text#* < }")"):${lines_read[loop]}" ;;
        done) [[ $(sed -n "${2:-0}p" "$rows_script" 2> /dev/null) != *'<<'* ]] || echo "$(called "$rows_script"):$(($2 + lines_read[loop]))" ;;
    esac
}

# passes, fails LABEL: counts a row. For one that fails its place and label are printed, and the lines of the script that led there; the differences follow
passes() { passed=$((passed + 1)); }
fails() {
    local frame number lines=() at=$row_at
    failed=$((failed + 1))
    for frame in "${!BASH_SOURCE[@]}"; do
        [ "$frame" = 0 ] || [ "${BASH_SOURCE[frame]}" != "$0" ] || lines+=("${BASH_LINENO[frame - 1]}")
    done
    for number in "${!lines[@]}"; do
        [ -n "$at" ] || at=$(table_row "${lines[number]}" "${lines[number + 1]-}")
    done
    [ -n "$at" ] || { at=$(called "$rows_script"):${lines[-1]} && unset 'lines[-1]'; }
    echo "$at: failed: $1"
    [ ${#lines[@]} = 0 ] || echo "    by line ${lines[*]} of $(called "$rows_script")"
}

# is_text FILE: true if the file is printable text, and not much
is_text() { [ "$(wc -c < "$1")" -lt 1000000 ] && ! LC_ALL=C grep -aq '[^[:print:][:blank:]]' "$1"; }

# differ NAME WANTED CAME: prints how the file that came differs from the one that was wanted: their lines, or the bytes from the first that differs on
differ() {
    local at file shown=$folder/.differences
    ! cmp -s "$2" "$3" || return
    if [ ! -e "$2" ] || [ ! -e "$3" ]; then
        for file in "$2" "$3"; do [ -e "$file" ] || echo "there is no file $file"; done > "$shown"
    elif is_text "$2" && is_text "$3"; then
        diff -u --label "$1, wanted" --label "$1, as it came" "$2" "$3" > "$shown"
    else
        at=$(cmp "$2" "$3" 2>&1 | sed -n 's/.*byte \([0-9]*\).*/\1/p')
        {
            echo "$1: wanted $(wc -c < "$2") bytes, came $(wc -c < "$3"); they differ at offset $((${at:-1} - 1))"
            for file in "$2" "$3"; do
                if [ "$file" = "$2" ]; then echo '--- wanted'; else echo '+++ as it came'; fi
                od -Ad -tx1z -w16 -v -j $(((${at:-1} - 1) / 16 * 16)) -N 64 "$file" 2> /dev/null
            done
        } > "$shown"
    fi
    head -n 60 "$shown" | sed 's/^/    /'
    [ "$(wc -l < "$shown")" -le 60 ] || echo "    .. and $(($(wc -l < "$shown") - 60)) lines more"
}

# wants LABEL STATUS OUTPUT ERROR: checks the status, output and error of the last run; OUTPUT and ERROR are files
wants() {
    if [ "$(cat status)" = "$2" ] && cmp -s output "$3" && cmp -s error "$4"; then
        passes
    else
        fails "$1"
        [ "$(cat status)" = "$2" ] || echo "    status: wanted $2, came $(cat status)"
        differ output "$3" output
        differ 'standard error' "$4" error
    fi
}

# runs WORD..: runs the program. If it prints JSON, each key has to be one of docs/JSON.md
runs() {
    "$program" "$@" > output 2> error < /dev/null
    echo $? > status
    [[ " $* " != *' --json '* ]] || keys_are_known "$@"
}

# keys_are_known WORD..: each key in the JSON that these words printed is in the table of docs/JSON.md
keys_are_known() {
    local unknown
    if [ ! -e "$folder/.keys" ]; then
        sed -n '/^| `/s/^| \([^|]*\)|.*/\1/p' "$samples/../docs/JSON.md" | grep -o '`[^`]*`' | tr '`' '"' | sed 's/$/:/' | sort -u > "$folder/.keys"
    fi
    unknown=$(grep -ao '"[^"\]*":' output | sort -u | comm -23 - "$folder/.keys")
    if [ -z "$unknown" ]; then passes; else fails "$*: these keys aren't in docs/JSON.md: $unknown"; fi
}

# runs_within SECONDS WORD..: runs the program, and ends it after SECONDS seconds
runs_within() {
    timeout "$1" "$program" "${@:2}" > output 2> error < /dev/null
    echo $? > status
}

# seconds N: N seconds of a processor, for `ulimit -t`; more for a program that is emulated, by the factor SLOWER (tests/ports.sh, tests/page.sh)
seconds() { echo $(($1 * ${SLOWER:-1})); }

# in_memory KB COMMAND WORD..: in parentheses, runs a command that may take this many KB of memory. If another program runs the program (tests/elsewhere.sh), there
# is no limit, since that one takes more.
in_memory() {
    [ -n "${ELSEWHERE:-}" ] || ulimit -v "$1"
    "${@:2}"
}

# prints FILE WORD..: the program prints exactly the bytes of FILE, with status 0
prints() {
    local file=$1
    shift
    runs "$@"
    wants "$*" 0 "$file" none
}

# gives FILE WORD..: like `prints`, for a body that isn't kept
gives() {
    local file=$1
    shift
    { "$program" "$@" 2> error < /dev/null; echo $? > status; } | cmp - "$file" > output 2>&1
    wants "$*" 0 none none
}

# ls_prints IMAGE PATH LINE..: `ls` of a volume of the edition `edition` prints these lines
ls_prints() {
    local volume=$1 path=$2
    shift 2
    printf '%s\n' "$@" > lines
    prints lines ls "$edition" "$volume" "$path"
}

# refuses STATUS LINE WORD..: the program prints only this line, on standard error
refuses() {
    local status=$1
    printf '%s\n' "$2" > line
    shift 2
    runs "$@"
    wants "$*" "$status" none line
}

# misread TEXT WORD..: the command line is wrong: status 2, no output, and an error that begins with TEXT
misread() {
    local text=$1
    shift
    runs "$@"
    if [ "$(head -c ${#text} error)" = "$text" ]; then
        cp error line
    else
        printf '%s\n' "$text" > line
    fi
    wants "$*" 2 none line
}

# helps WORD..: the program prints a help that begins with a sentence and has a usage, with status 0
helps() {
    runs "$@"
    cp output help
    grep -q '^Usage: unixvol' help || echo 'no usage' > help
    wants "$*" 0 help none
}

# saves LABEL FILE WANTED: FILE has the bytes of WANTED, and no new file is left in its folder
saves() {
    local wanted=$3 left
    left=$(find "$(dirname "$2")" -maxdepth 1 -name '.unixvol-*')
    if [ -p "$3" ]; then wanted=$folder/.wanted && cat "$3" > "$wanted"; fi
    if cmp -s "$2" "$wanted" && [ -z "$left" ]; then
        passes
    else
        fails "$1"
        [ -z "$left" ] || echo "    left behind: $left"
        differ "$2" "$wanted" "$2"
    fi
}

# has LABEL WANTED TEXT: the two texts are equal
has() {
    if [ "$2" = "$3" ]; then
        passes
    else
        fails "$1"
        if [[ $2$3 == *$'\n'* ]]; then
            printf '%s\n' "$2" > "$folder/.wanted"
            printf '%s\n' "$3" > "$folder/.came"
            differ text "$folder/.wanted" "$folder/.came"
        else
            printf '    %s\n' "wanted: $2" "came:   $3"
        fi
    fi
}

# holds LABEL FILE AT HEX: FILE has these bytes from byte AT on
holds() {
    local digits=${4// /}
    has "$1" "${digits,,}" "$(od -An -v -tx1 -j "$3" -N $((${#digits} / 2)) "$2" | tr -d ' \n')"
}

: > none

# pieces FILE: makes the files that FILE describes: `= NAME BYTES` begins one of BYTES zeros, `AT TEXT` puts text with escapes into it
pieces() {
    local at text name
    while read -r at text; do
        case $at in
            '#'*) ;;
            =)
                name=${text% *}
                image "$name" "${text#* }"
                ;;
            *) printf '%b' "$text" | dd of="$name" bs=1 seek="$at" conv=notrunc status=none ;;
        esac
    done < "$1"
}

# follows FILE: runs each line `$ WORD..` of FILE, in which E is the edition and '' an empty word. The lines after it are its output, `! LINE` is its
# line on standard error, and `? N` its status if it isn't 0. `= ONE OTHER` compares two files; lines with # are comments.
follows() {
    local line words=() want=0 number=0
    has "the rows in $1" yes "$([ -s "$1" ] && echo yes)"
    while IFS= read -r line; do
        number=$((number + 1))
        case $line in
            '$ '* | '= '* | '#'*)
                followed
                row_at=$(called "$(realpath "$1")"):$number
                case $line in
                    '$'*) words_of "${line#??}" ;;
                    '='*)
                        words_of "${line#??}"
                        saves "${words[0]}" "${words[0]}" "${words[1]}"
                        words=()
                        ;;
                esac
                ;;
            '! '*) printf '%s\n' "${line#??}" >> to_tell ;;
            '? '*) want=${line#??} ;;
            *) printf '%s\n' "$line" >> to_print ;;
        esac
    done < "$1"
    followed
    row_at=
}

# words_of TEXT: leaves the words of a line of `follows` in words
words_of() {
    local word
    words=()
    for word in $1; do
        case $word in
            E) words+=("$edition") ;;
            "''") words+=('') ;;
            *) words+=("$word") ;;
        esac
    done
}

# followed: runs the words, if any, and compares; then clears them
followed() {
    if [ ${#words[@]} != 0 ]; then
        runs "${words[@]}"
        wants "${words[*]}" "$want" to_print to_tell
    fi
    words=()
    want=0
    : > to_print
    : > to_tell
}

# finds STATUS COMMAND IMAGE LINE..: the checker prints these lines for an image of the edition `edition`, with 1, 2, 7 and 64 threads, and as JSON, and
# ends with this status
finds() {
    local status=$1 command=$2 volume=$3 workers
    shift 3
    if [ $# = 0 ]; then : > lines; else printf '%s\n' "$@" > lines; fi
    for workers in 1 2 7 64; do
        runs "$command" "$edition" "$volume" "$workers"
        wants "$command of $volume by $workers threads" "$status" lines none
    done
    runs "$command" --json "$edition" "$volume" 2
    as_lines "$status" < output > text || echo 'no report as JSON' >> text
    mv text output
    wants "$command --json of $volume" "$status" lines none
}

# as_lines STATUS: the lines that a checker's report in JSON has as text; the status has to say whether it has faults
as_lines() {
    python3 -c 'import json, re, sys
text = {
    "rule": "rule {rule}", "bad": "bad {ino} {count} {least}", "dup": "dup {block} {places} {is_free:d}", "lost": "lost {block}",
    "free": "{fault} {number}", "total": "{total} {count}", "links": "{ino} {entry_count} {links}", "name": "{ino} {path}",
}
report = json.load(sys.stdin)
assert list(report) == ["faulty", "format", "lines"] and report["format"] == 1 and report["faulty"] == (sys.argv[1] == "1")
for it in report["lines"]:
    line = text[it["line"]].format(**it).encode()
    sys.stdout.buffer.write(re.sub(rb"\\([0-7]{3}|\\)", lambda m: bytes([int(m[1], 8)]) if len(m[1]) == 3 else m[1], line) + b"\n")' "$1"
}

# totals FILES DIRECTORIES SPECIAL ODD USED FREE MISSING: the last lines of icheck
totals() { printf '%s\n' "files $1" "directories $2" "special $3" "odd $4" "used $5" "free $6" "missing $7"; }

# named: makes the program the command `unixvol`, as documents call it, with an empty home
named() {
    mkdir path home
    ln -s "$program" path/unixvol
    export PATH=$folder/path:$PATH HOME=$folder/home
}

# blocks FILE: a document's blocks of commands, each after the number of its first line, without the spaces before each line, apart by a byte of zero
blocks() {
    awk '/^```/ { fenced = !fenced } fenced { next } /^    / { if (!on) print NR; print substr($0, 5); on = 1; next } on && /^$/ { printf "%c", 0; on = 0 }
        END { if (on) printf "%c", 0 }' "$1"
}

# session TEXT: what each command after a prompt prints, as a terminal would show it with the command
session() {
    local line
    while IFS= read -r line; do
        [[ $line == '$ '* ]] || continue
        echo "$line"
        (eval "${line#'$ '}") 2>&1 < /dev/null
    done <<< "$1"
}

# runs_blocks FILE: runs a document's blocks of commands, one after the other in one folder. In a block with prompts, the lines after a command are what
# it must print; a block without prompts must end with status 0.
runs_blocks() {
    local block
    has "the blocks in $1" yes "$(grep -q '^    ' "$1" && echo yes)"
    while IFS= read -r -d '' block; do
        row_at=$(called "$(realpath "$1")"):${block%%$'\n'*}
        block=${block#*$'\n'}
        : > said
        if [[ $block == '$ '* ]]; then
            session "$block" > output
            printf '%s' "$block" > wanted
        else
            bash -euo pipefail -c "$block" > said 2>&1 < /dev/null
            echo "status $?" > output
            echo 'status 0' > wanted
        fi
        if cmp -s output wanted; then
            passes
        else
            fails "the block that begins with ${block%%$'\n'*}"
            differ output wanted output
            sed 's/^/    /' said
        fi
    done < <(blocks "$1")
    row_at=
}
