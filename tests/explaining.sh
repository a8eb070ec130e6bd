#!/usr/bin/env bash
# Runs the built program with `--explain`, and compares the second lines of its faults; without it there is one line.
# Usage: tests/explaining.sh PROGRAM. It prints a line for each row that fails, and ends with 'N passed, N failed'.
archives=$(realpath "$(dirname "$0")/archives")
. "$(dirname "$0")/rows.sh"
linux="$samples/linux_made.v7"

# explains STATUS FIRST SECOND WORD..: without `--explain` the program prints FIRST on standard error; with it, before or after the
# words, SECOND too; the status is the same
explains() {
    local status=$1 first=$2 second=$3
    shift 3
    refuses "$status" "$first" "$@"
    refuses "$status" "$first"$'\n'"$second" --explain "$@"
    refuses "$status" "$first"$'\n'"$second" "$@" --explain
    refuses "$status" "$first"$'\n'"$second" --explain "$@" --explain
}

# A volume with a file, a directory in it, and one with a wrong link count.
for edition in 6 7; do
    "$program" mkfs "$edition" "disk.v$edition" 400 10 0 0 1000
    echo hello > hello
    "$program" mkdir "$edition" "disk.v$edition" /d 1001
    "$program" put "$edition" "disk.v$edition" /d/f hello 1002
    cp "disk.v$edition" "broken.v$edition"
    put "broken.v$edition" $((edition == 6 ? 1024 + 2 : 1024 + 64 + 2)) 09
done
image=disk.v6
cp "$image" before

# Refusals, each with its path.
explains 1 'unixvol: 2 NoEntry' 'unixvol: /usr/x: no file or directory has this name' get 6 "$image" /usr/x
explains 1 'unixvol: 2 NoEntry' 'unixvol: none: no file or directory has this name' ls 6 "$image" none
explains 1 'unixvol: 2 NoEntry' "unixvol: /none/a: a directory on the way to it isn't there" put 6 "$image" /none/a hello
explains 1 'unixvol: 2 NoEntry' "unixvol: /none/a: a directory on the way to it isn't there" mkdir 6 "$image" /none/a
explains 1 'unixvol: 2 NoEntry' "unixvol: /none/a: a directory on the way to it isn't there" mknod 6 "$image" /none/a c 3 5
explains 1 'unixvol: 2 NoEntry' 'unixvol: i-node 99: there is no i-node of this number, it is free, or the path leads to none' cat 6 "$image" 99
explains 1 'unixvol: 2 NoEntry' 'unixvol: /usr/x: there is no i-node of this number, it is free, or the path leads to none' cat 6 "$image" /usr/x
explains 1 'unixvol: 2 NoEntry' 'unixvol: i-node 9999: there is no i-node of this number, or the path leads to none' inode 6 "$image" 9999
explains 1 'unixvol: 2 NoEntry' "unixvol: /x to /y: the first path leads to nothing, or the directory for the second name isn't there" mv 6 "$image" /x /y
explains 1 'unixvol: 2 NoEntry' "unixvol: /x to /y: the first path leads to nothing, or the directory for the second name isn't there" ln 6 "$image" /x /y
explains 1 'unixvol: 2 NoEntry' 'unixvol: /x: no file or directory has this name; or, with -r, it ends in .., or leads through what is to be removed' rm -r 6 "$image" /x
explains 1 'unixvol: 2 NoEntry' 'unixvol: /d/..: no file or directory has this name; or, with -r, it ends in .., or leads through what is to be removed' rm -r 6 "$image" /d/..
explains 1 'unixvol: 17 Exists' 'unixvol: /d: a file or directory has this name already' mkdir 6 "$image" /d
explains 1 'unixvol: 17 Exists' 'unixvol: /d/f: a file or directory has this name already' mkdir -p 6 "$image" /d/f
explains 1 'unixvol: 17 Exists' 'unixvol: /d/f to /d: the second name is there already' ln 6 "$image" /d/f /d
explains 1 'unixvol: 17 Exists' 'unixvol: /d/f to /d: the new name is there already, and mv replaces no file' mv 6 "$image" /d/f /d
explains 1 'unixvol: 20 NotDirectory' 'unixvol: /d/f/x: something on the way to it is no directory' get 6 "$image" /d/f/x
explains 1 'unixvol: 20 NotDirectory' 'unixvol: /d/f: it, or something on the way to it, is no directory' rmdir 6 "$image" /d/f
explains 1 'unixvol: 20 NotDirectory' 'unixvol: /d/f: it, or something on the way to it, is no directory; `unixvol ls -l` lists a file too' ls 6 "$image" /d/f
explains 1 'unixvol: 20 NotDirectory' 'unixvol: /d/f: it, or something on the way to it, is no directory' find 6 "$image" /d/f
explains 1 'unixvol: 20 NotDirectory' 'unixvol: /d/f: it, or something on the way to it, is no directory; nothing is exported' export 6 "$image" /d/f
explains 1 'unixvol: 21 IsDirectory' 'unixvol: /d: it is a directory, whose names `unixvol ls` lists' get 6 "$image" /d
explains 1 'unixvol: 21 IsDirectory' 'unixvol: /d: it is a directory: rmdir removes an empty one, and rm -r one with all below it' rm 6 "$image" /d
explains 1 'unixvol: 21 IsDirectory' 'unixvol: /d to /e: the first path leads to a directory, and only files get other names' ln 6 "$image" /d /e
explains 1 'unixvol: 22 Invalid' "unixvol: /d/..: the root, and what . or .. names, can't be removed" rmdir 6 "$image" /d/..
explains 1 'unixvol: 22 Invalid' "unixvol: /: the root, and what . or .. names, can't be removed" rm -r 6 "$image" /
head -c 300000 /dev/zero > great
explains 1 'unixvol: 28 NoSpace' 'unixvol: /great: more blocks are needed than are free' put 6 "$image" /great great
explains 1 'unixvol: 101 NotEmpty' 'unixvol: /d: there are names in it beside . and ..' rmdir 6 "$image" /d
explains 1 'unixvol: 104 BadId' "unixvol: /d: the user or the group is above the edition's highest, 255 in the sixth and 32767 in the seventh" chown 6 "$image" /d 256 0
explains 1 'unixvol: 104 BadId' "unixvol: /new: the user or the group is above the edition's highest, 255 in the sixth and 32767 in the seventh" put 6 "$image" /new hello --owner 256:0
explains 1 'unixvol: 104 BadId' "unixvol: /new: the user or the group is above the edition's highest, 255 in the sixth and 32767 in the seventh" mkdir 6 "$image" /new --owner 0:256
head -c 16777216 /dev/zero > great
explains 1 'unixvol: 27 TooBig' 'unixvol: great: a boot block has 512 bytes, and the program more' boot 6 "$image" great
explains 1 'unixvol: 27 TooBig' 'unixvol: /great: the edition has no file, or no directory, of that size' put 6 "$image" /great great
saves 'an image on which commands were refused' "$image" before
: > empty
cp "$image" special.v6
"$program" put 6 special.v6 /tty empty 1003
number=$("$program" ls 6 special.v6 | awk '$2 == "tty" { print $1 }')
put special.v6 $((1024 + 32 * (number - 1) + 1)) a1
explains 1 'unixvol: 102 NotRegular' 'unixvol: /tty: it is a special file, which has no bytes' get 6 special.v6 /tty
explains 1 'unixvol: 105 HasDevice' "unixvol: special.v6: the volume has a special file, which migrate doesn't keep" migrate special.v6 new.img 400 10

# A path with control characters is escaped, and any other isn't.
explains 1 'unixvol: 2 NoEntry' 'unixvol: /\033[31m\012: no file or directory has this name' get 6 "$image" $'/\e[31m\n'
explains 1 'unixvol: 2 NoEntry' 'unixvol: /grüße\: no file or directory has this name' get 6 "$image" '/grüße\'

# Rules that images break, described as by `check`.
explains 1 'unixvol: unsound, rule 12' 'unixvol: broken.v6: it breaks rule 12, that each link count is the number of entries; `unixvol check` says what breaks it; --unsound shows what is there' ls 6 broken.v6
explains 1 'unixvol: unsound, rule 12' 'unixvol: broken.v7: it breaks rule 12, that each link count is the number of entries; `unixvol check` says what breaks it' rm 7 broken.v7 /d/f
explains 1 'unixvol: unsound, rule 1' 'unixvol: hello: it breaks rule 1, that the image has all blocks of the volume' super 6 hello
explains 1 'unixvol: unsound, rule 1' 'unixvol: hello: it breaks rule 1, that the image has all blocks of the volume' cat 6 hello 1

# The variable UNIXVOL_EXPLAIN asks for the second line if it is 1, and for nothing else if it has another value.
for row in '1 2' '0 1' '2 1' 'yes 1'; do
    UNIXVOL_EXPLAIN=${row% *} "$program" get 6 disk.v6 /none > output 2> error
    has "the lines where UNIXVOL_EXPLAIN is ${row% *}" "1 ${row#* }" "$? $(wc -l < error)"
done
UNIXVOL_EXPLAIN=1 refuses 1 $'unixvol: 2 NoEntry\nunixvol: /none: no file or directory has this name' get 6 disk.v6 /none
UNIXVOL_EXPLAIN=0 refuses 1 $'unixvol: 2 NoEntry\nunixvol: /none: no file or directory has this name' get 6 disk.v6 /none --explain

# The sizes of a truncated image, and the other edition if its rules 1 and 2 hold. A pipe isn't read again.
head -c 100000 disk.v7 > cut.v7
explains 1 'unixvol: unsound, rule 1' 'unixvol: cut.v7: it breaks rule 1, that the image has all blocks of the volume: it has 195 blocks, its super-block says 400' super 7 cut.v7
explains 1 'unixvol: unsound, rule 1' 'unixvol: cut.v7: it breaks rule 1, that the image has all blocks of the volume: it has 195 blocks, its super-block says 400; nothing is exported: add --cut to read what is there' export 7 cut.v7
cut='unixvol: cut.v7: it breaks rule 1, that the image has all blocks of the volume: it has 195 blocks, its super-block says 400'
explains 1 'unixvol: unsound, rule 1: cut.v7' "$cut" diff 7 broken.v7 cut.v7
explains 1 'unixvol: unsound, rule 1: cut.v7' "$cut" diff 7 cut.v7 broken.v7 --fields
line='unixvol: unsound, rule 12: broken.v7'
explains 0 "$line"$'\n'"$line" 'unixvol: broken.v7: it breaks rule 12, that each link count is the number of entries; `unixvol check` says what breaks it' diff 7 broken.v7 broken.v7
explains 1 'unixvol: unsound, rule 1' "unixvol: disk.v6: it breaks rule 1, that the image has all blocks of the volume: it has 400 blocks, its super-block says $((400 * 65536 + $(od -An -tu2 -j 516 -N 2 disk.v6))); rules 1 and 2 hold for edition 6" ls 7 disk.v6
explains 1 'unixvol: unsound, rule 2' 'unixvol: disk.v7: it breaks rule 2, that the sizes are within their limits; rules 1 and 2 hold for edition 7' rm 6 disk.v7 /d/f
cut='unixvol: /dev/stdin: it breaks rule 1, that the image has all blocks of the volume'
has 'the second line of a pipe' "$cut" "$(head -c 2000 disk.v7 | "$program" cat 7 /dev/stdin 2 --explain 2>&1 | tail -n 1)"

# Where rule 1 or 2 fails, the guess of `identify` says what the file seems to hold, and how to go on.
one='it breaks rule 1, that the image has all blocks of the volume'
two='it breaks rule 2, that the sizes are within their limits'
gzip -nc disk.v7 | head -c 1000 > packed.img
explains 1 'unixvol: unsound, rule 1' "unixvol: packed.img: $one; it looks packed by gzip: \`gzip -dc packed.img\` prints what is in it" ls 7 packed.img
explains 1 'unixvol: unsound, rule 1' "unixvol: packed.img: $one; it looks packed by gzip: \`gzip -dc packed.img\` prints what is in it; nothing is exported" export 7 packed.img
for row in 'bzip2 -dc|425a68' 'xz -dc|fd377a585a00' 'zstd -dc|28b52ffd' 'unzip -p|504b0304'; do
    image zipped.img 1000
    put zipped.img 0 "${row#*|}"
    name=${row%% *}
    explains 1 'unixvol: unsound, rule 1' "unixvol: zipped.img: $one; it looks packed by ${name#un}: \`${row%|*} zipped.img\` prints what is in it" ls 6 zipped.img
done
dd if=disk.v7 of=swapped.img conv=swab status=none
explains 1 'unixvol: unsound, rule 1' "unixvol: swapped.img: $one; it looks like a volume of edition 7, with 400 blocks, with each pair of bytes exchanged: \`dd if=swapped.img of=NEW conv=swab\` exchanges them again" get 7 swapped.img /d/f
{ head -c 102400 /dev/zero | tr '\0' y && cat disk.v7; } > pack.img
explains 1 'unixvol: unsound, rule 1' "unixvol: pack.img: $one; it looks like a larger pack: at block 200 begins a volume of edition 7, with 400 blocks: \`dd if=pack.img of=NEW bs=512 skip=200 count=400\` copies it" ls 7 pack.img
dd if=pack.img of=NEW bs=512 skip=200 count=400 status=none
saves 'a volume that was copied from a pack as the second line says' NEW disk.v7
tar --format=ustar -cf tape.img hello
explains 1 'unixvol: unsound, rule 1' "unixvol: tape.img: $one; it looks like an archive of tar" salvage 6 tape.img
image linux.img 4096
put linux.img 1080 53ef
explains 1 'unixvol: unsound, rule 2' "unixvol: linux.img: $two; it looks like a volume of ext2, ext3 or ext4" cat 6 linux.img 1
image zeros.img 4096
explains 1 'unixvol: unsound, rule 2' "unixvol: zeros.img: $two; it looks empty: it has no bytes but zeros" rm 7 zeros.img /a
explains 1 'unixvol: unsound, rule 2' "unixvol: cut.v7: $two; it looks like a volume of edition 7, with 400 blocks, cut off after 195" ls 6 cut.v7

# On a terminal the second line is printed without the option, unless UNIXVOL_EXPLAIN is 0.
if [ -n "$(command -v script)" ]; then
    # watched: the lines on a terminal for a path that leads nowhere
    watched() { script -qec "'$program' get 6 disk.v6 /none" /dev/null < /dev/null | tr -d '\r'; }
    none='unixvol: /none: no file or directory has this name'
    has 'what a terminal is told' "$(printf '%s\n' 'unixvol: 2 NoEntry' "$none")" "$(watched)"
    has 'what a terminal is told that wants no second line' 'unixvol: 2 NoEntry' "$(UNIXVOL_EXPLAIN=0 watched)"
    has 'what a terminal is told where the variable says something else' "$none" "$(UNIXVOL_EXPLAIN=1 watched | tail -n 1)"

    # replaces WORD..: the lines on a terminal for a volume that is made
    replaces() { script -qec "'$program' $*" /dev/null < /dev/null | tr -d '\r'; }
    cp disk.v6 old.img
    has 'what is told of a sound volume that is replaced' 'unixvol: old.img: it held a sound volume of edition 6 with 1 file' "$(replaces mkfs 7 old.img 100 5 0 0 5)"
    cp broken.v7 old.img
    has 'what is told of an unsound volume that is replaced' 'unixvol: old.img: it held an unsound volume of edition 7 with 1 file' "$(replaces mkfs 6 old.img 100 5 0 0 5)"
    cat disk.v6 hello > old.img
    has 'what is told of a volume with bytes after it' 'unixvol: old.img: it held a sound volume of edition 6 with 1 file, and 6 bytes after it' "$(replaces mkfs 7 old.img 100 5 0 0 5)"
    cp hello old.img
    has 'what is told of other bytes that migrate replaces' 'unixvol: old.img: it held 6 bytes, with no volume at block 0' "$(replaces migrate disk.v6 old.img 400 50 5)"
    has 'what is told of a new file' '' "$(replaces mkfs 7 brand_new.img 100 5 0 0 5)"
    has 'what is told of a file that is kept' "$(printf '%s\n' 'unixvol: cannot write hello' 'unixvol: hello: it is there already, and --new replaces no file')" "$(replaces mkfs --new 7 hello 100 5 0 0 5)"

    # Waiting for a lock is reported after a second.
    if [ -n "$(command -v flock)" ]; then
        cp disk.v6 locked.img
        flock locked.img sleep 3 &
        sleep 0.5
        has 'what is told of a lock' 'unixvol: locked.img: waiting for another program that has it locked' "$(replaces rmdir 6 locked.img /e 5 | head -n 1)"
        wait
    else
        echo 'skipped: the line on a lock, since there is no flock'
    fi
else
    echo 'skipped: lines on a terminal, since there is no script'
fi

grep -q 'each link count is the number of entries' <("$program" check 6 broken.v6)
has 'the sentence of a rule is the one of check' 0 $?
"$program" export 6 broken.v6 --explain > archive 2> error
has 'what is told last of an archive' 'unixvol: broken.v6: it breaks rule 12, that each link count is the number of entries; `unixvol check` says what breaks it' "$(tail -n 1 error)"

# After a report in which a rule is broken, `check` says where the rules and their definitions are; what it prints, and its status, are the same.
place='unixvol: docs/FORMATS.md has the twelve rules, and docs/PROOFS.md the file that defines each, under "Where each definition is"'
while IFS='|' read -r status words second; do
    # shellcheck disable=SC2086
    "$program" $words > plain 2> error
    has "the status and the errors of $words" "$status " "$? $(cat error)"
    # shellcheck disable=SC2086
    "$program" --explain $words > output 2> error
    has "the status and the errors of $words, explained" "$status $second" "$? $(cat error)"
    has "what $words prints, explained" "$(cat plain)" "$(cat output)"
done << END
1|check 6 broken.v6|$place
1|check 7 cut.v7|$place
6|check --status 7 cut.v7|$place
1|check --json 7 broken.v7|$place
0|check 6 disk.v6|
END

# That page has a row for each rule and for each part of the headline, and the file of a row has the definitions that the row names.
sources=${samples%/*}
sed -n '/^## Where each definition is/,/^## What no clause says/p' "$sources/docs/PROOFS.md" | grep -E '^\|[ 0-9]+\|' > rows
defined=
while IFS='|' read -r _ number words last _; do
    at=$(grep -oE '`[a-z_0-9]+/specs/[A-Za-z0-9]+\.antt`' <<< "$last" | tr -d '`')
    defined=${at:-$defined}
    names=$(grep -oE '`[A-Za-z_0-9]+`' <<< "$last" || grep -oE '`[A-Za-z_0-9]+`' <<< "$words")
    for name in ${names//'`'/}; do
        grep -qE "^(abbrev |unfoldable )?pub (record |data )?$name( |:)" "$sources/crates/$defined" || echo "$name isn't in $defined"
    done
    echo "$number" >> numbers
done < rows > lacking
has 'the definitions on the page that check names' '' "$(cat lacking)"
has 'the rules and parts on the page that check names' "$(echo $(seq 12) $(seq 23))" "$(echo $(cat numbers))"

# New volumes.
explains 1 'unixvol: bounds' 'unixvol: new.img: no volume of the edition has these sizes' mkfs 6 new.img 9 9 0 0
explains 1 'unixvol: 104 BadId' "unixvol: new.img: the user or the group is above the edition's highest, 255 in the sixth and 32767 in the seventh" mkfs 6 new.img 400 10 256 0
explains 1 'unixvol: bounds' 'unixvol: new.img: no volume of the edition has these sizes' migrate disk.v6 new.img 9 9
explains 1 'unixvol: 28 NoSpace' 'unixvol: new.img: the files need more blocks than the new volume has for them' migrate disk.v6 new.img 17 14
explains 1 'unixvol: 103 NoInode' 'unixvol: new.img: the i-list of the new volume has no room for the highest i-number' migrate disk.v6 new.img 400 1
has 'no volume was made' '' "$(ls new.img 2> error)"

# Scripts: the file, the line, and its first word that can't be read.
printf '5 0 0 create /a 644\n' > first
# unread LINE SECOND: a script with this text as its second line
unread() {
    printf '5 0 0 create /b 644\n%b' "$1" > second
    explains 2 'unixvol: script 2 line 2' "unixvol: second: line 2$2" play 6 "$image" first second
}
unread 'nonsense\n' ": the word \`nonsense\` at column 1 isn't a number up to 4294967295"
unread '\n' ": the empty word at column 1 isn't a number up to 4294967295"
unread '4294967296 0 0 cut\n' ": the word \`4294967296\` at column 1 isn't a number up to 4294967295"
unread '5 65536 0 cut\n' ": the word \`65536\` at column 3 isn't a number up to 65535"
unread '5 0 -1 cut\n' ": the word \`-1\` at column 5 isn't a number up to 65535"
unread '5 0  cut\n' ": the empty word at column 5 isn't a number up to 65535"
unread '5 0 0\n' ' ends where a call, a query or `cut` is wanted'
unread '5 0 0 remove /a\n' ": the word \`remove\` at column 7 isn't a call, a query or \`cut\`"
unread '5 0 0 chmod\n' ' ends where a path is wanted'
unread '5 0 0 chmod /a perm\n' ": the word \`perm\` at column 16 isn't an octal number up to 7777"
unread '5 0 0 chmod /a 10000\n' ": the word \`10000\` at column 16 isn't an octal number up to 7777"
unread '5 0 0 chmod /a 644 \n' ': the empty word at column 20 is one too many'
unread '5 0 0 chown /a 0\n' ' ends where a number up to 65535 is wanted'
unread '5 0 0 write /a 0 abc\n' ": the word \`abc\` at column 18 isn't two hexadecimal digits for each byte, or \`-\`"
unread '5 0 0 write /a x 61\n' ": the word \`x\` at column 16 isn't a number up to 4294967295"
unread '5 0 0 cut /a\n' ': the word `/a` at column 11 is one too many'
unread '5 0 0 \033[31m\n' ": the word \`\\033[31m\` at column 7 isn't a call, a query or \`cut\`"
unread '5 0 0 unlink /a' ' has no newline at its end'
unread "5 0 0 $(printf '%041d' 0)\\n" ": the word \`$(printf '%040d' 0)..\` at column 7 isn't a call, a query or \`cut\`"
yes '1 ' | head -70000 | tr -d '\n' > long_line
explains 2 'unixvol: script 2 line 1' "unixvol: long_line: line 1: the word \`1\` at column 7 isn't a call, a query or \`cut\`" play 6 "$image" first long_line
printf 'view\n5 0 0 unlink /a\n' > second
explains 2 'unixvol: script 2 line 2' "unixvol: second: line 2: the word \`unlink\` at column 7 isn't a query, and a script for a view has no others" play 6 "$image" first second
printf 'view\n' > seen
explains 2 'unixvol: script 17 line 1' 'unixvol: seen: it is the seventeenth script for a view, and there can be 16' play 6 "$image" seen seen seen seen seen seen seen seen seen seen seen seen seen seen seen seen seen

# Files that can't be read or written, with the system's reason.
explains 3 'unixvol: cannot read none.img' 'unixvol: none.img: No such file or directory (os error 2)' ls 6 none.img
explains 3 'unixvol: cannot read none.img' 'unixvol: none.img: No such file or directory (os error 2)' rm 6 none.img /a
explains 3 'unixvol: cannot read none.img' 'unixvol: none.img: No such file or directory (os error 2)' cat 6 none.img 1
explains 3 'unixvol: cannot read none.img' 'unixvol: none.img: No such file or directory (os error 2)' migrate none.img new.img 400 10
explains 3 'unixvol: cannot read none.img' 'unixvol: none.img: No such file or directory (os error 2)' check 6 none.img
explains 3 'unixvol: cannot read none.img' 'unixvol: none.img: No such file or directory (os error 2)' icheck 6 none.img 1
explains 3 'unixvol: cannot read third' 'unixvol: third: No such file or directory (os error 2)' play 6 "$image" first third
explains 3 'unixvol: cannot read third' 'unixvol: third: No such file or directory (os error 2)' put 6 "$image" /a third
explains 3 'unixvol: cannot read .' 'unixvol: .: Is a directory (os error 21)' ls 6 .
explains 3 'unixvol: cannot read .' 'unixvol: .: Is a directory (os error 21)' cat 6 . 1
explains 3 'unixvol: cannot write missing/new.img' 'unixvol: missing/new.img: No such file or directory (os error 2)' mkfs 6 missing/new.img 400 10 0 0
explains 3 'unixvol: cannot write disk.v6' 'unixvol: disk.v6: it holds what was read, which is kept' migrate disk.v6 disk.v6 400 20
mkfifo pipe
explains 3 'unixvol: cannot write pipe' 'unixvol: pipe: it is a pipe, a socket or a terminal, which keeps nothing to be changed' rm 6 pipe /a
"$program" import 6 "$image" --explain < . > output 2> error
has 'standard input that fails' '3 unixvol: cannot read - unixvol: standard input: Is a directory (os error 21)' "$? $(paste -s -d ' ' error)"
for words in "ls 6 $image" "cat 6 $image 1" 'get 6 disk.v6 /d/f' 'check 6 disk.v6' 'icheck 6 disk.v6 1' '--help'; do
    # shellcheck disable=SC2086
    "$program" --explain $words > /dev/full 2> error
    has "$words to a full device" '3 unixvol: cannot write - unixvol: standard output: No space left on device (os error 28)' "$? $(paste -s -d ' ' error)"
done
mkdir full
if mount -t tmpfs -o size=64k tmpfs full 2> error; then
    "$program" mkfs 6 full/disk.img 400 10 0 0 --explain > output 2> error
    has 'a file on a full disk' '3 unixvol: cannot write full/disk.img unixvol: full/disk.img: No space left on device (os error 28)' "$? $(paste -s -d ' ' error)"
    umount full
else
    echo 'skipped: a file on a full disk, since no disk can be mounted here'
fi
if command -v script > /dev/null; then
    script -qec "'$program' export 6 $image --explain" /dev/null < /dev/null > typescript
    has 'an archive to a terminal' "unixvol: cannot write - unixvol: standard output: it is a terminal, which gets no archive" "$(tr -d '\r' < typescript | paste -s -d ' ' -)"
    for volume in "$image" none.img; do
        script -qec "'$program' import 6 $volume --explain" /dev/null < /dev/null > typescript
        has "an archive from a terminal into $volume" "3 unixvol: cannot read - unixvol: standard input: it is a terminal, which gives no archive" "$? $(tr -d '\r' < typescript | paste -s -d ' ' -)"
    done
else
    echo 'skipped: archives to and from a terminal, since there is no script'
fi

# A refused allocation has its line too: there is too little memory for the image.
truncate -s 100M large
printf '\003\000\003\000\100\015' | dd of=large bs=1 seek=512 conv=notrunc status=none # 200,000 blocks
(ulimit -v 60000 && "$program" ls 7 large --explain) > output 2> error
has 'want of memory' '4 unixvol: 12 NoMemory unixvol: there was too little memory for this' "$? $(paste -s -d ' ' error)"

# Lines in plain words have no second one; a refusal of a member has one.
: > fifteen-bytes-n
tar --format=ustar -cf long.tar fifteen-bytes-n
"$program" import 6 "$image" --explain < long.tar > output 2> error
has 'a member with a long name' '1 unixvol: fifteen-bytes-n: a name above 14 bytes' "$? $(paste -s -d ' ' error)"
head -c 100 long.tar > cut.tar
"$program" import 6 "$image" --explain < cut.tar > output 2> error
has 'an archive that is cut' '1 unixvol: archive, byte 0: cut off' "$? $(paste -s -d ' ' error)"
for row in 'a gzip file: `gzip -dc` prints the archive in it|gzip -c' 'a bzip2 file: `bzip2 -dc` prints the archive in it|bzip2 -c' \
    'an xz file: `xz -dc` prints the archive in it|xz -c' 'a zip file, and no archive of tar|cat zipped'; do
    tool=${row#*|}
    [ -n "$(command -v "${tool%% *}")" ] || { echo "skipped: an archive that is packed, since there is no ${tool%% *}"; continue; }
    { printf 'PK\3\4'; head -c 1020 /dev/zero; } > zipped
    { head -c 100000 /dev/urandom; } | $tool > packed
    "$program" import 6 "$image" --explain < packed > output 2> error
    has "what is said of an archive in ${row%%[:,]*}" "1 2 unixvol: standard input: it is ${row%|*}" "$? $(wc -l < error) $(tail -n 1 error)"
done
"$program" import 6 "$image" --explain < "$archives/sparse_bsd.tar" > output 2> error
has 'a member that is a sparse file' '1 unixvol: dir/holes: a sparse file unixvol: this member: it is stored without its zeros; `tar` without -S, or `bsdtar --no-read-sparse`, stores it whole' "$? $(paste -s -d ' ' error)"
: > d
tar --format=ustar -cf file.tar d
"$program" import 6 "$image" --explain < file.tar > output 2> error
has 'a member whose path is taken' "1 unixvol: 17 Exists: /d unixvol: this member: something has its path already that isn't the directory wanted" "$? $(paste -s -d ' ' error)"

printf 'volume 6 100\ntime 5\ndir /d 755 0:0\nfile /d 644 0:0 hello\n' > taken.list
explains 1 'unixvol: 17 Exists: /d' "unixvol: this line of the list: something has its path already that isn't the directory wanted" build taken.list taken.img

for number in $(seq 130); do ln hello "$number"; done
tar --format=ustar -cf linked.tar hello $(seq 130)
"$program" import 6 "$image" --explain < linked.tar > output 2> error
has 'a member whose file has too many links' "1 unixvol: 31 TooManyLinks: /127 unixvol: this member: the file, or the directory above, has as many links as the edition lets it have" "$? $(paste -s -d ' ' error)"
rm $(seq 130)
ln hello further
tar --format=ustar -cf linked.tar hello further
tar --delete -f linked.tar hello
"$program" import 6 "$image" --explain < linked.tar > output 2> error
has 'a member that is a link to nothing' "1 unixvol: 2 NoEntry: /further unixvol: this member: a directory on the way to it, or the file that it is a link to, isn't there" "$? $(paste -s -d ' ' error)"
rm -f d
ln hello d
tar --format=ustar -cf linked.tar d hello
tar --delete -f linked.tar d
"$program" import 6 "$image" --explain < linked.tar > output 2> error
has 'a member that is a link to a directory' '1 unixvol: 21 IsDirectory: /hello unixvol: this member: what it is a link to is a directory, and only files get other names' "$? $(paste -s -d ' ' error)"

# Several files: the refusal of one has a line with its path.
explains 1 'unixvol: 2 NoEntry: /none/hello' "unixvol: this file: a directory on the way to it isn't there" put 6 "$image" -t /none hello
explains 1 'unixvol: 21 IsDirectory: d' 'unixvol: this file: it is a directory, whose names `unixvol ls` lists' get 6 "$image" -o . /d/f d
explains 3 'unixvol: cannot write missing/f' 'unixvol: missing/f: No such file or directory (os error 2)' get 6 "$image" -o missing /d/f
mkfifo f
timeout 20 "$program" get 6 "$image" -o . /d/f --explain > output 2> error
has 'get -o onto a pipe' '3 unixvol: cannot write ./f unixvol: ./f: it is a pipe or a socket, which keeps no file' "$? $(paste -s -d ' ' error)"
rm f
refuses 1 'unixvol: fifteen-bytes-n: a name above 14 bytes' put 6 "$image" -t /d fifteen-bytes-n --explain
touch -d @-1 early
explains 3 'unixvol: cannot read early' 'unixvol: early: it was modified before 1970 or after 7 February 2106, which no volume can say' put 6 "$image" -p /early early
explains 3 'unixvol: cannot write hello' 'unixvol: hello: it is there already, and --rescue replaces no file' serve --rescue hello 6 "$image"
: > 1975
refuses 2 'unixvol: 1975: a moment, and a file too: write ./1975, or the moment in another form' put 6 "$image" -t /d hello 1975 --explain

# A file called `--explain`, after `--`; and a command that succeeds, with and without the option.
refuses 1 'unixvol: 2 NoEntry' get 6 "$image" -- --explain
refuses 1 $'unixvol: 2 NoEntry\nunixvol: --explain: no file or directory has this name' --explain get 6 "$image" -- --explain
refuses 1 $'unixvol: 2 NoEntry\nunixvol: --explain: no file or directory has this name' get --explain 6 "$image" -- --explain
"$program" get 6 "$image" /d/f --explain | cmp -s - hello
has 'a file with --explain' 0 $?

# The command line's own errors, with the number of a word that isn't text.
misread "error: invalid value '8'" --explain ls 8 "$image"
misread "error: invalid value '8' for '<EDITION>': 6 for the Sixth, 7 for the Seventh" ls 8 "$image"
for words in 'chmod|755' 'chown|1 2' 'touch|' 'mknod|c 3 5' 'import|' 'put|hello' 'sync|.' 'rm|' 'rm|-r' 'rmdir|' 'mkdir|' 'mkdir|-p' 'ln|/e' 'mv|/e'; do
    misread "error: invalid value '' for '" "${words%|*}" 6 "$image" '' ${words#*|}
    has "what ${words/|/ } says of an empty path" 1 "$(grep -c ': it is empty; the root is /$' error)"
done
for verb in ln mv; do misread "error: invalid value '' for '<TO>': it is empty; the root is /" "$verb" 6 "$image" /d/f ''; done
misread "error: invalid value '8' for '<EDITION>': 6 for the Sixth, 7 for the Seventh" ls 8 "$image"
has 'the usage where an edition is wrong' 'Usage: unixvol ls [OPTIONS] <EDITION> <IMAGE> [PATH]' "$(grep '^Usage' error)"
misread "error: unexpected argument '--svg' found" super --svg 6 "$image"
has 'the tip on an option that another command has' '' "$(grep 'tip:' error)"
misread "error: unexpected argument '--jsn' found" super --jsn 6 "$image"
has 'the tip on a misspelled option' "  tip: a similar argument exists: '--json'" "$(grep 'tip:' error)"
misread 'error: ' --explain
misread 'error: ' ls 6 "$image" --explain --explain
misread 'error: word 1 of the command line is not UTF-8 text' $'\xff'
misread 'error: word 4 of the command line is not UTF-8 text' --explain cat 6 $'a\xff' 1
misread 'error: word 2 of the command line is not UTF-8 text' ls $'\xff' $'\xff'
misread 'error: word 3 of the command line is not UTF-8 text' ls 6 "$(head -c 1000 /dev/zero | tr '\0' a)"$'\xff'
helps --explain --help
helps --explain ls --help

echo "$passed passed, $failed failed"
[ "$failed" -eq 0 ]
