#!/usr/bin/env bash
# Runs `export`, `find`, `sums`, `ls`, `get`, `cat`, `check`, `block`, `map` and `repair` of the built program with `--cut`, `--bad`, `--bad-blocks`, `--sizes` and `--like` on volumes that were cut off, or
# of which blocks couldn't be read, and compares what it writes with what the whole volume holds.
# Usage: tests/rescue.sh PROGRAM. It prints a line for each row that fails, and ends with 'N passed, N failed'.
. "$(dirname "$0")/rows.sh"
linux="$samples/linux_made.v7"

# exports STATUS FILE WORD..: the program writes an archive to FILE, with this status; its lines are in `error`
exports() {
    "$program" export "${@:3}" > "$2" 2> error < /dev/null
    has "the status of export ${*:3}" "$1" $?
}

# comments ARCHIVE: a line for each member that has a comment, with its name and the comment, as Python reads them
comments() {
    python3 -c 'import sys, tarfile
for member in tarfile.open(sys.argv[1]):
    if "comment" in member.pax_headers:
        print(member.name, member.pax_headers["comment"], sep=": ")' "$1"
}

# same ARCHIVE NAME FILE: the member NAME has the bytes of FILE
same() {
    tar -xOf "$1" "$2" | cmp -s - "$3"
    has "$2 in $1" 0 $?
}

# Eight files of 100,000 bytes, of which the last four and some more are cut off, in both editions. The sixth has file f4's blocks elsewhere, so only
# the counts of the seventh are compared.
for n in 1 2 3 4 5 6 7 8; do yes "line$n" | head -c 100000 > "f$n"; done
for edition in 6 7; do
    "$program" mkfs "$edition" b.img 4872 100 0 0 0
    "$program" put "$edition" b.img -t / f1 f2 f3 f4 f5 f6 f7 f8 0
    head -c 450000 b.img > cut.img
    refuses 1 'unixvol: unsound, rule 1' export "$edition" cut.img
    exports 0 whole.tar "$edition" b.img
    exports 5 cut.tar "$edition" cut.img --cut
    has "the members of a cut volume of edition $edition" 'f1 f2 f3' "$(tar -tf cut.tar | paste -s -d ' ' -)"
    for n in 1 2 3; do same cut.tar "f$n" "f$n"; done
    has "the lost blocks of edition $edition" 'unixvol: 3994 of 4872 blocks are lost' "$(head -n 1 error)"
    has "the files named of edition $edition" 'f4 f5 f6 f7 f8' "$(sed -n 's/^unixvol: \(f.\): .*/\1/p' error | paste -s -d ' ' -)"
    cp error told
    exports 5 damaged.tar "$edition" cut.img --cut --damaged
    cmp -s error told
    has "the lines with damaged files of edition $edition" 0 $?
    has "the members with damaged files of edition $edition" 'f1 f2 f3 f4 f5 f6 f7 f8' "$(tar -tf damaged.tar | paste -s -d ' ' -)"
    for n in 1 2 3; do same damaged.tar "f$n" "f$n"; done
    # The archive has the words of the lines as comments, and is imported with them; without damaged files there are none.
    has "the comments on damaged files of edition $edition" "$(sed -n 's/^unixvol: f/f/p' told)" "$(comments damaged.tar)"
    for name in whole cut; do has "the comments of $name.tar of edition $edition" '' "$(comments "$name.tar")"; done
    tar -xOf damaged.tar f1 2> error > /dev/null
    has "what GNU tar says of comments of edition $edition" '' "$(cat error)"
    "$program" mkfs "$edition" into.img 4872 100 0 0 0
    "$program" import "$edition" into.img / 2000 < damaged.tar > output 2> error
    echo $? > status
    wants "import of comments of edition $edition" 0 none none
    tar -xOf damaged.tar f4 > zeros
    prints zeros get "$edition" into.img /f4
    # `get` prints the files of which nothing is lost, and a damaged one only if it is told to; each line is about that file.
    echo 'unixvol: 3994 of 4872 blocks are lost' > count
    for n in 1 2 3; do
        runs get "$edition" cut.img --cut "/f$n"
        wants "get of a whole file, f$n" 1 "f$n" count
    done
    for n in 4 8; do
        tar -xOf damaged.tar "f$n" > zeros
        { cat count; sed -n "s,^unixvol: f$n:,unixvol: /f$n:,p" told; } > line
        runs get "$edition" --cut cut.img "/f$n"
        wants "get of a damaged file, f$n" 5 none line
        runs get "$edition" --cut --damaged cut.img "/f$n"
        wants "get --damaged, f$n" 5 zeros line
    done
    # So does `cat`, by a path or an i-number, which it names then.
    for n in 1 4 8; do
        ino=$("$program" ls "$edition" b.img | awk -v name="f$n" '$2 == name { print $1 }')
        tar -xOf damaged.tar "f$n" > zeros
        for name in "/f$n" "$ino"; do
            { cat count; sed -n "s,^unixvol: f$n:,unixvol: $name:,p" told; } > line
            runs cat "$edition" cut.img --cut "$name"
            if [ "$n" = 1 ]; then wants "cat of a whole file, $name" 1 f1 count; else wants "cat of a damaged file, $name" 5 none line; fi
            runs cat "$edition" --cut --damaged cut.img "$name"
            wants "cat --damaged, $name" "$([ "$n" = 1 ] && echo 1 || echo 5)" zeros line
        done
    done
    # `ls` lists what can be read, and has a line for each file of which bytes are lost.
    { cat count; sed -n 's,^unixvol: f,unixvol: /f,p' told; } > lines
    for words in '' -l --json; do
        # shellcheck disable=SC2086
        "$program" ls $words "$edition" b.img > wanted
        # shellcheck disable=SC2086
        runs ls $words "$edition" --cut cut.img
        wants "ls $words of a cut volume of edition $edition" 5 wanted lines
    done
    for n in 1 4; do
        "$program" ls -l "$edition" b.img "/f$n" > wanted
        sed -n "1p; s,^unixvol: f$n:,unixvol: /f$n:,p" told > line
        runs ls -l "$edition" --cut cut.img "/f$n"
        wants "ls of a file of a cut volume, f$n" "$([ "$n" = 1 ] && echo 1 || echo 5)" wanted line
    done
    "$program" ls -l -d "$edition" b.img / > wanted
    runs ls -l -d "$edition" --cut cut.img /
    wants "ls of a directory itself" 1 wanted count
    "$program" ls -l "$edition" b.img > wanted
    runs ls -l "$edition" --cut b.img
    wants 'ls --cut of a whole image' 0 wanted none
    refuses 1 'unixvol: 2 NoEntry' ls "$edition" --cut cut.img /f9
    refuses 1 'unixvol: 20 NotDirectory' ls "$edition" --cut cut.img /f4
    refuses 1 'unixvol: unsound, rule 1' ls "$edition" --unsound cut.img
    for name in /f9 0 700 65535; do refuses 1 'unixvol: 2 NoEntry' cat "$edition" --cut cut.img "$name"; done
    refuses 1 'unixvol: unsound, rule 1' cat "$edition" cut.img /f1
    refuses 1 'unixvol: unsound, rule 1' cat "$edition" --damaged cut.img 3
    runs cat "$edition" --cut b.img /f4
    wants 'cat --cut of a whole image' 0 f4 none
    refuses 1 'unixvol: 2 NoEntry' get "$edition" --cut cut.img /f9
    refuses 1 'unixvol: 21 IsDirectory' get "$edition" --cut cut.img /
    refuses 1 'unixvol: unsound, rule 1' get "$edition" --unsound cut.img /f1
    runs get "$edition" --cut b.img /f4
    wants 'get --cut of a whole image' 0 f4 none
    sed -n 's/^unixvol: f4: .*: \([0-9]*\)-[0-9]*$/\1/p' told > from
    has "f4 has all bytes before the lost ones in edition $edition" "$(head -c "$(cat from)" f4 | md5sum)" "$(tar -xOf damaged.tar f4 | head -c "$(cat from)" | md5sum)"
    has "f4 has zeros in their place in edition $edition" "$((100000 - $(cat from)))" "$(tar -xOf damaged.tar f4 | tail -c "+$(($(cat from) + 1))" | tr -d -c '\0' | wc -c)"
    exports 1 nothing.tar "$edition" cut.img --cut /f1
    exports 5 status.tar "$edition" cut.img --cut --status
    cmp -s status.tar cut.tar
    has "the archive with a graded status of edition $edition" 0 $?

    # Of a whole image all is as without the option, byte for byte.
    exports 0 again.tar "$edition" b.img --cut
    cmp -s again.tar whole.tar && [ ! -s error ]
    has "a whole volume of edition $edition with --cut" 0 $?
    cp b.img broken.img
    put broken.img $((edition == 6 ? 1024 + 2 : 1024 + 64 + 2)) 09
    exports 1 broken.tar "$edition" broken.img --cut --damaged
    has "a whole volume of edition $edition that isn't sound, with --cut" 'unixvol: unsound, rule 12' "$(cat error)"
    runs cat "$edition" --cut broken.img /f4
    wants 'cat --cut of a whole image that is not sound' 0 f4 none
    cmp -s broken.tar whole.tar
    has "its archive, of edition $edition" 0 $?
done
has 'all lines of a cut volume' 'unixvol: 3994 of 4872 blocks are lost
unixvol: f4: 10400 of 100000 bytes are lost: 89600-99999
unixvol: f5: 100000 of 100000 bytes are lost: 0-99999
unixvol: f6: 100000 of 100000 bytes are lost: 0-99999
unixvol: f7: 100000 of 100000 bytes are lost: 0-99999
unixvol: f8: 100000 of 100000 bytes are lost: 0-99999' "$(cat told)"

# The record counts its own length: 7 of the keyword, 43 of the comment, a space, an equals sign, a newline and two digits. The header before it has that size.
has 'the record of f4' 1 "$(grep -a -c '^55 comment=10400 of 100000 bytes are lost: 89600-99999$' <(tr '\0' '\n' < damaged.tar))"
has 'the headers of comments' 5 "$(grep -a -o 'PaxHeader' damaged.tar | wc -l)"
has 'the size in the header of a comment' '00000000067' "$(LC_ALL=C grep -a -o -b '././@PaxHeader' damaged.tar | head -n 1 | { IFS=: read -r at _; tail -c "+$((at + 125))" damaged.tar | head -c 11; })"

# A path that doesn't fit a header and a comment are in one extended header; each further name of a damaged file has the comment too.
"$program" mkfs 7 long.img 400 40 0 0 0
path=
for n in $(seq 20); do path=$path/directory.$(printf %04d "$n"); done
"$program" mkdir 7 long.img -p "$path" 1
"$program" put 7 long.img "$path/file" f1 1
"$program" ln 7 long.img "$path/file" /zz 1
at=$("$program" inode 7 long.img "$path/file" | awk '$1 == "addr" { print $2 }')
exports 5 damaged.tar 7 long.img --bad-blocks "$at" --damaged
python3 - damaged.tar > got << 'PYTHON'
import sys, tarfile

with open(sys.argv[1], "rb") as file:
    print(file.read().count(b"././@PaxHeader"))
for member in tarfile.open(sys.argv[1]):
    if "comment" in member.pax_headers:
        print(member.islnk(), sorted(member.pax_headers), len(member.name), member.pax_headers["comment"])
PYTHON
# The directories 17 to 20 have extended headers for their paths alone.
cat > want << 'END'
6
False ['comment', 'path'] 304 512 of 100000 bytes are lost: 0-511
True ['comment', 'linkpath'] 2 512 of 100000 bytes are lost: 0-511
END
has 'one extended header for a path and a comment' "$(cat want)" "$(cat got)"

# Blocks are lost in which nothing is stored: everything is exported, and a line says so.
"$program" mkfs 7 free.img 400 10 0 0 0
"$program" put 7 free.img /f1 f1 1
exports 0 whole.tar 7 free.img
head -c 190000 free.img > cut.img
exports 1 cut.tar 7 cut.img --cut
has 'the line where only free blocks are lost' 'unixvol: 29 of 400 blocks are lost' "$(cat error)"
cmp -s cut.tar whole.tar
has 'the archive where only free blocks are lost' 0 $?

# A block that is there in part is lost; one byte more makes it whole.
"$program" mkfs 7 one.img 40 2 0 0 0
printf hello > hello
"$program" put 7 one.img /hello hello 1
at=$("$program" inode 7 one.img /hello | awk '$1 == "addr" { print $2 }')
for row in "511 5" "512 1"; do
    head -c $((512 * at + ${row% *})) one.img > cut.img
    exports "${row#* }" cut.tar 7 cut.img --cut
    has "the file whose block has ${row% *} bytes" "$([ "${row#* }" = 5 ] && echo 1 || echo 0)" "$(grep -c 'unixvol: hello: 5 of 5 bytes are lost: 0-4' error)"
done

# Lost i-nodes: the i-list is cut off after its first block.
"$program" mkfs 7 many.img 100 4 0 0 0
for n in 1 2 3 4 5 6 7 8 9; do "$program" touch 7 many.img "/e$n" 1; done
head -c 1536 many.img > cut.img
exports 5 cut.tar 7 cut.img --cut
has 'the lines of lost i-nodes' 'unixvol: 97 of 100 blocks are lost
unixvol: i-nodes 9 to 16 are lost
unixvol: i-nodes 17 to 24 are lost
unixvol: i-nodes 25 to 32 are lost
unixvol: .: names may be missing: 176 of 176 bytes are lost: 0-175' "$(cat error)"
has 'no member of lost i-nodes' '' "$(tar -tf cut.tar)"

# A directory of which a block is lost: what is named in the rest of it is exported, and with --lost what is named in the lost block too.
"$program" mkfs 7 dir.img 100 10 0 0 0
"$program" mkdir 7 dir.img /d 1
for n in $(seq 40); do "$program" touch 7 dir.img "/d/name$n" 2; done
blocks=$("$program" inode 7 dir.img /d | awk '$1 == "addr" { print }' | tr -s ' ' '\n' | grep '^[1-9]' | sort -n | paste -s -d ' ' -)
last=${blocks##* }
head -c $((512 * last)) dir.img > cut.img
exports 5 cut.tar 7 cut.img --cut
has 'the line of a directory with a lost block' 1 "$(grep -c '^unixvol: d: names may be missing: 160 of 672 bytes are lost: 512-671$' error)"
has 'the names in the rest of it' 31 "$(tar -tf cut.tar | wc -l)"
exports 5 found.tar 7 cut.img --cut --lost
has 'the names in all of it' 30 "$(tar -tf found.tar | grep -c '^d/name')"
has 'the i-nodes whose names are lost' 10 "$(tar -tf found.tar | grep -c '^lost+found/#')"

# An image without its first 1,024 bytes has no size; nor has one whose super-block states more blocks than a volume can have.
head -c 1023 one.img > cut.img
refuses 1 'unixvol: unsound, rule 1' export --cut 7 cut.img
changed one.img endless.img 514 ffffffff
refuses 1 'unixvol: unsound, rule 1' export --cut 7 endless.img
# More than 1,048,576 missing blocks aren't taken as zeros: 16,000,000 blocks, of which 40 are there.
changed one.img long.img 514 f4000024
refuses 6 'unixvol: the image has 40 of 16000000 blocks' export --cut 7 long.img
refuses 1 'unixvol: unsound, rule 1' export 7 long.img
# Sizes that contradict one another break rule 2, cut off or not.
changed one.img bounds.img 512 ffff
refuses 1 'unixvol: unsound, rule 2' export --cut 7 bounds.img
refuses 6 'unixvol: unsound, rule 2' export --cut --status 7 bounds.img
refuses 3 'unixvol: cannot read missing' export --cut 7 missing
"$program" export --cut 7 one.img > /dev/full 2> error
has 'a cut volume to a full device' '3 unixvol: cannot write -' "$? $(cat error)"

# What is exported of a cut volume is in the archive of the whole one, with the same header and bytes, wherever it was cut off.
exports 0 whole.tar 7 "$linux"
for bytes in $(seq 1024 3517 "$(wc -c < "$linux")"); do
    head -c "$bytes" "$linux" > cut.img
    "$program" export --cut 7 cut.img > "cut.$bytes.tar" 2> /dev/null < /dev/null || true
done
python3 - whole.tar cut.*.tar > error << 'PYTHON'
import os, sys, tarfile

def members(path):
    if os.path.getsize(path) == 0:
        return
    with tarfile.open(path) as archive:
        for member in archive:
            is_file = member.isreg() or member.islnk()
            body = archive.extractfile(member).read() if is_file else None
            yield member.name, (member.mode, member.uid, member.gid, member.mtime, is_file or member.type, body)

whole = dict(members(sys.argv[1]))
count = 0
for path in sys.argv[2:]:
    for name, member in members(path):
        count += 1
        if whole.get(name) != member:
            print(path, name)
print(count > 100)
PYTHON
has 'members of cut volumes' True "$(cat error)"

# A map of ddrescue that says of a whole image what `head` left above: the same archive and lines as with --cut, with --cut or without.
printf '%s\n' '# Mapfile' '0x0 ? 1' '0x0 0x6DDD0 +' '0x6DDD0 0x1F3230 -' > half.map
for edition in 6 7; do
    "$program" mkfs "$edition" b.img 4872 100 0 0 0
    "$program" put "$edition" b.img -t / f1 f2 f3 f4 f5 f6 f7 f8 0
    head -c 450000 b.img > cut.img
    exports 5 cut.tar "$edition" cut.img --cut
    cp error told
    for words in '--bad half.map' '--bad half.map --cut' '--status --bad half.map'; do
        # shellcheck disable=SC2086
        exports 5 bad.tar "$edition" b.img $words
        cmp -s bad.tar cut.tar && cmp -s error told
        has "an image of edition $edition with $words" 0 $?
    done
    exports 5 cut.tar "$edition" cut.img --cut --damaged
    exports 5 bad.tar "$edition" b.img --bad half.map --damaged
    cmp -s bad.tar cut.tar
    has "an image of edition $edition with damaged files" 0 $?
done

# A map that GNU ddrescue 1.27 wrote, of b.img on a medium with three bad blocks: two of f2, one of f4. What is in their place is no matter.
cat > rescue.map << 'END'
# Mapfile. Created by GNU ddrescue version 1.27
# Command line: ddrescue -q -H medium.map -r 1 b.img copy.img rescue.map
# Start time:   2026-11-29 02:46:24
# Current time: 2026-11-29 02:46:24
# Finished
# current_pos  current_status  current_pass
0x0006B800     +               1
#      pos        size  status
0x00000000  0x0002B400  +
0x0002B400  0x00000400  -
0x0002B800  0x00040000  +
0x0006B800  0x00000200  -
0x0006BA00  0x001F5600  +
END
cp b.img copy.img
head -c 1024 /dev/urandom | dd of=copy.img bs=512 seek=346 conv=notrunc status=none
head -c 512 /dev/urandom | dd of=copy.img bs=512 seek=860 conv=notrunc status=none
exports 5 bad.tar 7 copy.img --bad rescue.map
has "the members with ddrescue's map" 'f1 f3 f5 f6 f7 f8' "$(tar -tf bad.tar | paste -s -d ' ' -)"
for n in 1 3 5 6 7 8; do same bad.tar "f$n" "f$n"; done
has "the lines with ddrescue's map" 'unixvol: 3 of 4872 blocks are lost
unixvol: f2: 1024 of 100000 bytes are lost: 22016-23039
unixvol: f4: 512 of 100000 bytes are lost: 80384-80895' "$(cat error)"
exports 5 damaged.tar 7 copy.img --bad rescue.map --damaged
tar -xOf damaged.tar f4 > f4.got
{ head -c 80384 f4; head -c 512 /dev/zero; tail -c +80897 f4; } > f4.want
cmp -s f4.got f4.want
has 'a damaged file has zeros in place of the lost bytes, and no others' 0 $?

# With --at the map is of the pack. A volume at block 7 of one, and the map's positions 7 blocks further on.
{ head -c 3584 /dev/urandom; cat copy.img; head -c 5000 /dev/urandom; } > pack.img
exports 5 damaged.tar 7 copy.img --bad rescue.map --damaged
cp error told
printf '%s\n' '0x0 + 1' '0 3584 -' '3584 177152 +' '180736 1024 *' '181760 262144 +' '443904 512 /' '0x6C800 0x1F5600 +' > pack.map
exports 5 pack.tar 7 pack.img --at 7 --bad pack.map
cmp -s pack.tar bad.tar && cmp -s error told
has 'a volume in a pack' 0 $?
refuses 1 'unixvol: unsound, rule 2' export --at 7 --bad rescue.map 7 b.img

# A block is lost if one of its bytes is, also between two ranges that touch no others; ranges that touch are one.
bytes=$(wc -c < one.img)
exports 0 whole.tar 7 one.img
while IFS='|' read -r status ranges; do
    { echo '0 ?'; for range in $ranges; do tr , ' ' <<< "$range"; done; } > one.map
    exports "$status" bad.tar 7 one.img --bad one.map
    has "hello with the ranges $ranges" "$([ "$status" = 5 ] && echo 1 || echo 0)" "$(grep -c 'unixvol: hello: 5 of 5 bytes are lost: 0-4' error)"
done << END
0|0,$bytes,+
0|0,$((512 * at + 100)),+ $((512 * at + 100)),$((bytes - 512 * at - 100)),+
0|0,$((512 * at + 100)),+ $((512 * at + 100)),0,- $((512 * at + 100)),$((bytes - 512 * at - 100)),+
0|0,$bytes,+ $bytes,99999999,-
5|0,$((512 * at + 100)),+ $((512 * at + 100)),1,- $((512 * at + 101)),$((bytes - 512 * at - 101)),+
5|0,$((512 * at + 511)),+ $((512 * at + 512)),$((bytes - 512 * at - 512)),+
5|0,$((512 * at + 1)),+ $((512 * at + 1)),511,? $((512 * at + 512)),$((bytes - 512 * at - 512)),+
5|0,$((512 * at)),+
5|0,$((512 * at + 511)),+
END
printf '0 +\n0 %d +\n' "$bytes" > one.map
exports 0 bad.tar 7 one.img --bad one.map
cmp -s bad.tar whole.tar && [ ! -s error ]
has 'an image that was read whole' 0 $?

# The super-block is lost: its sizes aren't known, though they are in the image. A map without ranges says that nothing was read.
printf '%s\n' '0 ?' '0 1023 +' '1024 100000 +' > super.map
for command in export 'export --status' find sums ls 'check' 'check --status' 'check --json' 'cat 2' 'get /hello'; do
    # shellcheck disable=SC2086
    set -- $command
    refuses 6 'unixvol: the super-block is lost: give --sizes or --like' "$1" --bad super.map 7 one.img "${@:2}"
done
refuses 6 'unixvol: the super-block is lost: give --sizes or --like' repair --bad super.map 7 one.img -n
echo '0 ?' > empty.map
refuses 6 'unixvol: the super-block is lost: give --sizes or --like' export --bad empty.map 7 one.img

# Maps that can't be read: the line, what is wrong with it, status 3, and nothing else.
state="it isn't ddrescue's state: a position, one of ? * / - F G +, and perhaps a pass"
while IFS='|' read -r map line flaw; do
    printf '%b' "$map" > bad.map
    refuses 3 "unixvol: bad.map: line $line: $flaw" export --bad bad.map 7 one.img
done << END
|1|the map ends before ddrescue's state
# only\\n# comments\\n|3|the map ends before ddrescue's state
0x0 0x200 +\\n|1|$state
x ? 1\\n|1|$state
0 ? 1 2\\n|1|$state
0\\n|1|$state
0 ? x\\n|1|$state
0 F\\n0 010 +\\n|2|the size is no number
0 ?\\n\\n# here\\n0 512 +\\n0x20g 512 +\\n|5|the position is no number
0 G 3\\n-1 512 +\\n|2|the position is no number
0 ?\\n0 18446744073709551616 +\\n|2|the size is no number
0 ?\\n0 0x +\\n|2|the size is no number
0 ?\\n0 512\\n|2|the status is none of ? * / - +
0 ?\\n0 512 F\\n|2|the status is none of ? * / - +
0 ?\\n0 512 ++\\n|2|the status is none of ? * / - +
0 ?\\n0 512 + x\\n|2|it has more than three words
0 ?\\n0\\t512 +\\n|2|the position is no number
0 ?\\n0 512 +\\r\\n|2|the status is none of ? * / - +
0 ?\\n1 18446744073709551615 +\\n|2|the range ends past the last byte of any file
0 ?\\n0 512 +\\n511 512 -\\n|3|the range begins before the end of the one above
0 ?\\n512 512 +\\n0 512 +\\n|3|the range begins before the end of the one above
END
cp one.map "$(printf 'odd\033.map')"
echo x >> "$(printf 'odd\033.map')"
refuses 3 'unixvol: odd\033.map: line 3: the position is no number' export --bad "$(printf 'odd\033.map')" 7 one.img
refuses 3 'unixvol: cannot read missing.map' export --bad missing.map 7 one.img
refuses 3 'unixvol: cannot read missing' export --bad one.map 7 missing
refuses 3 'unixvol: cannot read one.img' export --at 4000000 --bad one.map 7 one.img
refuses 6 'unixvol: the image has 40 of 16000000 blocks' export --bad one.map 7 long.img

# A list of blocks says what the maps above say: the same archives and lines. With --at the numbers are of the volume.
for edition in 6 7; do
    "$program" mkfs "$edition" b.img 4872 100 0 0 0
    "$program" put "$edition" b.img -t / f1 f2 f3 f4 f5 f6 f7 f8 0
    exports 5 bad.tar "$edition" b.img --bad half.map
    cp error told
    for list in 878-4871 0878-4871 878-1000,1001-4871 878-4294967295 878,879,880-4871; do
        exports 5 list.tar "$edition" b.img --bad-blocks "$list"
        cmp -s list.tar bad.tar && cmp -s error told
        has "the blocks $list of edition $edition" 0 $?
    done
done
exports 5 bad.tar 7 copy.img --bad rescue.map
cp error told
exports 5 list.tar 7 copy.img --bad-blocks 346-347,860
cmp -s list.tar bad.tar && cmp -s error told
has 'the blocks of a map' 0 $?
exports 5 list.tar 7 pack.img --at 7 --bad-blocks 346-347,860
cmp -s list.tar bad.tar && cmp -s error told
has 'the blocks of a volume in a pack' 0 $?
exports 5 damaged.tar 7 copy.img --bad-blocks 346-347,860 --damaged
tar -xOf damaged.tar f4 | cmp -s - f4.want
has 'a damaged file by a list' 0 $?
exports 1 list.tar 7 b.img --bad-blocks 4871
has 'a free block' 'unixvol: 1 of 4872 blocks are lost' "$(cat error)"
cp half.map kept.map
refuses 3 'unixvol: cannot write kept.map' repair --bad kept.map 7 b.img kept.map
saves 'a map that is not replaced' kept.map half.map
for list in 4872 4872-99999 860,4872; do refuses 3 'unixvol: cannot read b.img' export --bad-blocks "$list" 7 b.img; done
exports 5 list.tar 7 cut.img --bad-blocks 860
has 'blocks that are missing, and one of a list' 'unixvol: 3995 of 4872 blocks are lost' "$(head -n 1 error)"
refuses 6 'unixvol: the super-block is lost: give --sizes or --like' export --bad-blocks 1 7 b.img
while IFS= read -r list; do
    misread "error: invalid value '$list' for '--bad-blocks <LIST>': not numbers and ranges of blocks" export --bad-blocks "$list" 7 b.img
done << END

5-3
3,3
12,5
1-5,5
1-5,3-9
1,,2
1,
,1
1-
1-2-3
x
1, 2
+1
0x10
4294967296
1-4294967296
END
misread "error: the argument '--bad-blocks' cannot be used with '--bad'" export --bad-blocks 12 --bad half.map 7 b.img
misread "error: the argument '--bad-blocks' cannot be used with '--bad'" find --bad half.map 7 b.img --bad-blocks 12

# The super-block is lost: with the sizes of the volume everything else is there. Whatever the image has in block 1 is no matter.
exports 0 whole.tar 7 "$linux"
fsize=240 isize=12
cp "$linux" super.img
head -c 512 /dev/zero | dd of=super.img bs=512 seek=1 conv=notrunc status=none
refuses 1 'unixvol: unsound, rule 2' export 7 super.img
for image in super.img "$linux"; do
    for words in "--sizes $fsize,$isize" "--cut --sizes $fsize,$isize" "--sizes $fsize,$isize --bad-blocks 1"; do
        # shellcheck disable=SC2086
        exports 1 sizes.tar 7 "$image" $words
        has "the line of ${image##*/} with $words" "unixvol: 1 of $fsize blocks are lost" "$(cat error)"
        cmp -s sizes.tar whole.tar
        has "the archive of ${image##*/} with $words" 0 $?
    done
done
for edition in 6 7; do
    "$program" mkfs "$edition" rk.img rk05
    "$program" put "$edition" rk.img -t / f1 f2 f3 0
    exports 0 whole.tar "$edition" rk.img
    head -c 512 /dev/urandom | dd of=rk.img bs=512 seek=1 conv=notrunc status=none
    exports 1 like.tar "$edition" rk.img --like RK05
    has "the line of a disk of edition $edition" 'unixvol: 1 of 4872 blocks are lost' "$(cat error)"
    cmp -s like.tar whole.tar
    has "the archive of a disk of edition $edition" 0 $?
    { head -c 3584 /dev/urandom; cat rk.img; } > pack.img
    exports 1 like.tar "$edition" pack.img --at 7 --like rk05
    cmp -s like.tar whole.tar
    has "a disk of edition $edition in a pack" 0 $?
    truncate -s 1000 rk.img
    refuses 5 "unixvol: 4871 of 4872 blocks are lost"$'\n'"unixvol: /: i-node $((edition - 5)) is lost" export "$edition" rk.img --like rk05
done
refuses 2 'unixvol: no volume has 5 blocks with an i-list of 9' export --sizes 5,9 7 b.img
refuses 2 'unixvol: no volume has 240 blocks with an i-list of 0' export --sizes 240,0 7 b.img
refuses 2 'unixvol: no volume has 240 blocks with an i-list of 238' export --sizes 240,238 7 b.img
refuses 2 'unixvol: no volume has 70000 blocks with an i-list of 100' export --sizes 70000,100 6 b.img
refuses 2 'unixvol: no volume has 65535 blocks with an i-list of 4096' export --sizes 65535,4096 6 b.img
refuses 2 'unixvol: no volume has 16777217 blocks with an i-list of 9' find --sizes 16777217,9 7 b.img
refuses 6 'unixvol: the image has 4872 of 16000000 blocks' export --sizes 16000000,100 7 b.img
for word in '' 240 240,12,3 240,x 240,65536 4294967296,12 240, ,12; do
    misread "error: invalid value '$word' for '--sizes <FSIZE,IBLOCKS>': not two decimal numbers" export --sizes "$word" 7 b.img
done
misread "error: invalid value 'ra81' for '--like <DISK>': not rk05" export --like ra81 7 b.img
misread "error: the argument '--like' cannot be used with '--sizes'" export --like rk05 --sizes 4872,100 7 b.img

# `find` prints the paths that can be read without the lost blocks, and the lines of an export.
for edition in 6 7; do
    "$program" mkfs "$edition" b.img 4872 100 0 0 0
    "$program" put "$edition" b.img -t / f1 f2 f3 f4 f5 f6 f7 f8 0
    head -c 450000 b.img > cut.img
    "$program" find "$edition" b.img > paths
    exports 5 cut.tar "$edition" cut.img --cut
    cp error told
    refuses 1 'unixvol: unsound, rule 1' find "$edition" cut.img
    for words in '--cut cut.img' '--bad half.map b.img' '--bad-blocks 878-4871 b.img' '--cut --bad-blocks 878-4871 cut.img'; do
        # shellcheck disable=SC2086
        "$program" find "$edition" ${words##* } ${words% *} > found 2> error
        has "the status of find $words of edition $edition" 5 $?
        cmp -s found paths && cmp -s error told
        has "find $words of edition $edition" 0 $?
    done
    "$program" find "$edition" b.img --cut > found 2> error
    has "find --cut of a whole image of edition $edition" 0 $?
    cmp -s found paths && [ ! -s error ]
    has "its paths, of edition $edition" 0 $?
done
"$program" find 7 dir.img /d --bad-blocks "$last" --json > found 2> error
has 'the status of find --json in a directory of which a block is lost' 5 $?
has 'its paths' 30 "$(grep -o '"path"' found | wc -l)"
has 'its line' 1 "$(grep -c '^unixvol: .: names may be missing: 160 of 672 bytes are lost: 512-671$' error)"
"$program" find --lost 7 dir.img --bad-blocks "$last" --name '#*' > found 2> error
has 'find --lost has the i-nodes whose names are lost' 10 "$(wc -l < found)"
refuses 3 'unixvol: bad.map: line 3: the range begins before the end of the one above' find --bad bad.map 7 b.img

# lost_on_way BLOCK PATH LINE: with this block lost, PATH isn't found, and nothing is printed but LINE after the number of lost blocks
lost_on_way() {
    local words
    for words in find sums export ls get cat 'find --json' 'sums --json' 'find --lost' 'export --damaged' 'get --damaged' 'cat --damaged'; do
        [[ "$words $1 $2" != @(get|cat)*' 41 /usr/games/moved' ]] || continue
        # shellcheck disable=SC2086
        "$program" $words --bad-blocks "$1" 7 "$linux" "$2" > found 2> error
        has "the status of $words --bad-blocks $1 $2" 5 $?
        has "the lines of $words --bad-blocks $1 $2" "unixvol: 1 of 240 blocks are lost
unixvol: $3" "$(cat error)"
        has "the output of $words --bad-blocks $1 $2" 0 "$(wc -c < found)"
    done
}

# The indirect block of a file is lost: so is all that it leads to, though these blocks are there.
"$program" export --bad-blocks 32 7 "$linux" > indirect.tar 2> error
has 'the status without an indirect block' 5 $?
has 'the lines without an indirect block' 'unixvol: 1 of 240 blocks are lost
unixvol: usr/numbers: 2080 of 7200 bytes are lost: 5120-7199' "$(cat error)"
has 'the file without an indirect block' 0 "$(tar -tf indirect.tar | grep -c numbers)"

# A path that isn't found, while something is lost on the way, is no wrong path: the line has the last node of which something is lost.
lost_on_way 13 /usr '/usr: i-node 96 is lost'
lost_on_way 13 /usr/games/moved '/usr: i-node 96 is lost'
lost_on_way 2 /etc '/: i-node 2 is lost'
lost_on_way 14 /etc '/: names may be missing: 80 of 80 bytes are lost: 0-79'
lost_on_way 41 //usr/games/none '/usr/games: names may be missing: 176 of 688 bytes are lost: 512-687'
lost_on_way 41 /usr/games/moved '/usr/games: names may be missing: 176 of 688 bytes are lost: 512-687'
lost_on_way 15 /usr/../etc/motd '/usr: names may be missing: 96 of 96 bytes are lost: 0-95'
# `get` finds that file, and the line is about the directory from which other names may be missing.
"$program" get 7 "$linux" /usr/games/moved > wanted
printf '%s\n' 'unixvol: 1 of 240 blocks are lost' 'unixvol: /usr/games: names may be missing: 176 of 688 bytes are lost: 512-687' > line
for command in get cat; do
    runs "$command" --bad-blocks 41 7 "$linux" /usr/games/moved
    wants "$command of a file in a directory of which names may be missing" 5 wanted line
done
# By its i-number `cat` finds it without a way. A lost i-node has its line, and so have the lost bytes of a directory: its slots.
moved=$("$program" ls 7 "$linux" /usr/games | awk '$2 == "moved" { print $1 }')
head -n 1 line > count
runs cat --bad-blocks 41 7 "$linux" "$moved"
wants 'cat of a file by its i-number, whatever is lost on the way' 1 wanted count
for words in '' --damaged; do
    # shellcheck disable=SC2086
    runs cat --bad-blocks 13 7 "$linux" 96 $words
    { cat count; echo 'unixvol: 96: i-node 96 is lost'; } > line
    wants "cat $words of an i-node that is lost" 5 none line
done
refuses 1 'unixvol: 2 NoEntry' cat --bad-blocks 13 7 "$linux" 0
refuses 1 'unixvol: 2 NoEntry' cat --bad-blocks 13 7 "$linux" 65535
games=$("$program" ls 7 "$linux" /usr | awk '$2 == "games" { print $1 }')
"$program" cat 7 "$linux" /usr/games > wanted
{ head -c 512 wanted; head -c 176 /dev/zero; } > zeros
{ cat count; echo "unixvol: $games: 176 of 688 bytes are lost: 512-687"; } > line
runs cat --bad-blocks 41 7 "$linux" "$games"
wants 'cat of a directory of which a block is lost' 5 none line
runs cat --bad-blocks 41 7 "$linux" "$games" --damaged
wants 'cat --damaged of it' 5 zeros line
{ cat count; printf 'unixvol: /usr/games: %s176 of 688 bytes are lost: 512-687\n' 'names may be missing: ' ''; } > line
runs cat --bad-blocks 41 7 "$linux" /usr/games --damaged
wants 'cat --damaged of it by its path' 5 zeros line
runs cat --sizes $fsize,$isize 7 super.img /usr/games
wants 'cat of a volume without a super-block' 1 wanted count
# `ls` names the directory of which names may be missing, and each name in it whose i-node is lost, which has a row of zeros.
"$program" ls --slots 7 "$linux" /usr/games | awk '$1 < 32 && $2 > 0 { print $3 }' > names
"$program" ls -l 7 "$linux" /usr/games | awk 'NR == FNR { names[$1] = 1; next } $NF in names' names - > wanted
{ cat count; echo 'unixvol: /usr/games: names may be missing: 176 of 688 bytes are lost: 512-687'; } > line
runs ls -l --bad-blocks 41 7 "$linux" /usr/games
wants 'ls of a directory of which a block is lost' 5 wanted line
"$program" ls -l 7 "$linux" | sed -E 's/^(   9[46]) .* (etc|usr)$/\1 ?---------     0     0     0          0 1970-01-01 00:00:00 \2/' > wanted
{ cat count; echo 'unixvol: /etc: i-node 94 is lost'; echo 'unixvol: /usr: i-node 96 is lost'; } > line
runs ls -l --bad-blocks 13 7 "$linux"
wants 'ls of entries whose i-nodes are lost' 5 wanted line
{ cat count; echo 'unixvol: /usr: i-node 96 is lost'; } > line
echo '   96 ?---------     0     0     0          0 1970-01-01 00:00:00 /usr' > wanted
runs ls -l -d --bad-blocks 13 7 "$linux" /usr
wants 'ls of a path whose i-node is lost' 5 wanted line
runs ls --json -d --bad-blocks 13 7 "$linux" /usr
has 'the kind of an i-node that is lost' '"kind":null,"links":0' "$(grep -o '"kind":[^,]*,"links":0' output)"
runs ls --sizes $fsize,$isize 7 super.img
"$program" ls 7 "$linux" > wanted
wants 'ls of a volume without a super-block' 1 wanted count
misread "error: the argument '--recursive' cannot be used with '--cut'" ls -R --cut 7 b.img
misread "error: the argument '--recursive' cannot be used with '--unsound'" ls -R --cut --unsound 7 b.img
misread "error: the argument '--slots' cannot be used with '--bad-blocks'" ls --slots --bad-blocks 12 7 b.img
misread "error: the argument '--bad-blocks' cannot be used with '--bad'" ls --bad-blocks 12 --bad half.map 7 b.img
misread "error: invalid value 'ra81' for '--like <DISK>'" ls --like ra81 7 b.img
refuses 2 'unixvol: no volume has 5 blocks with an i-list of 9' ls --sizes 5,9 7 b.img
refuses 3 'unixvol: cannot read missing.map' ls --bad missing.map 7 one.img
refuses 6 'unixvol: the image has 40 of 16000000 blocks' ls --cut 7 long.img
misread "error: the argument '--bad-blocks' cannot be used with '--bad'" cat --bad-blocks 12 --bad half.map 7 b.img 1
misread "error: the argument '--like' cannot be used with '--sizes'" cat --like rk05 --sizes 4872,100 7 b.img 1
misread "error: invalid value '5-3' for '--bad-blocks <LIST>'" cat --bad-blocks 5-3 7 b.img 1
refuses 2 'unixvol: no volume has 5 blocks with an i-list of 9' cat --sizes 5,9 7 b.img 1
refuses 3 'unixvol: cannot read missing.map' cat --bad missing.map 7 one.img 1
refuses 6 'unixvol: the image has 40 of 16000000 blocks' cat --cut 7 long.img 1
# If nothing is lost on the way, the path is wrong, also if bytes of the file at its end are lost.
for command in find sums export ls get cat; do
    refuses 1 'unixvol: 2 NoEntry' "$command" --bad-blocks 41 7 "$linux" /none
    [ "$command" = get ] || [ "$command" = cat ] || refuses 1 'unixvol: 20 NotDirectory' "$command" --bad-blocks 41 7 "$linux" /etc/motd
    refuses 1 'unixvol: 20 NotDirectory' "$command" --bad-blocks 20 7 "$linux" /etc/motd/x
done

# `sums` has the digest of each file of which nothing is lost, a dash for the others, and the lines of an export.
for edition in 6 7; do
    "$program" mkfs "$edition" b.img 4872 100 0 0 0
    "$program" put "$edition" b.img -t / f1 f2 f3 f4 f5 f6 f7 f8 0
    head -c 450000 b.img > cut.img
    "$program" sums "$edition" b.img > whole.sums
    sed '/ f[4-8]$/s/^[0-9a-f]*/-/' whole.sums > cut.sums
    exports 5 cut.tar "$edition" cut.img --cut
    cp error told
    refuses 1 'unixvol: unsound, rule 1' sums "$edition" cut.img
    for words in '--cut cut.img' '--bad half.map b.img' '--bad-blocks 878-4871 b.img' '--cut --bad-blocks 878-4871 cut.img'; do
        # shellcheck disable=SC2086
        "$program" sums "$edition" ${words##* } ${words% *} > found 2> error
        has "the status of sums $words of edition $edition" 5 $?
        cmp -s found cut.sums && cmp -s error told
        has "sums $words of edition $edition" 0 $?
    done
    "$program" sums "$edition" b.img --cut > found 2> error
    has "sums --cut of a whole image of edition $edition" 0 $?
    cmp -s found whole.sums && [ ! -s error ]
    has "its manifest, of edition $edition" 0 $?
done
"$program" sums 7 cut.img --cut --json > found 2> error
has 'the status of sums --json' 5 $?
has 'the lost bytes of a file' 1 "$(grep -o '"lost":\[\[89600,100000\]\],"mtime"' found | wc -l)"
has 'the files of which all bytes are lost' 4 "$(grep -o '"lost":\[\[0,100000\]\],"mtime"' found | wc -l)"
has 'the files without a digest' 5 "$(grep -o '"sha256":null' found | wc -l)"
"$program" sums 7 copy.img --bad rescue.map --json > found 2> error
has 'each range of lost bytes' 2 "$(grep -o '"lost":\[\[22016,23040\]\]\|"lost":\[\[80384,80896\]\]' found | wc -l)"
"$program" sums 7 b.img --json > whole.json
"$program" sums 7 b.img --bad-blocks 4871 --json > found 2> error
has 'sums --json where a free block is lost' '1 unixvol: 1 of 4872 blocks are lost' "$? $(cat error)"
cmp -s found whole.json
has 'its objects' 0 $?
"$program" sums 7 many.img > whole
"$program" sums 7 many.img --bad-blocks 4 > found 2> error
has 'the line of an entry whose i-node is lost' '5 1' "$? $(grep -c '^unixvol: e9: i-node 24 is lost$' error)"
grep -v "$(sed -n 's/^unixvol: \(.*\): i-node [0-9]* is lost$/ \1$/p' error)" whole > wanted
cmp -s found wanted
has 'the manifest without the entries whose i-nodes are lost' 0 $?
"$program" sums 7 dir.img --bad-blocks "$last" --json > found 2> error
has 'the lost bytes of a directory' 1 "$(grep -o '"kind":"directory","links":[0-9]*,"lost":\[\[512,672\]\]' found | wc -l)"
refuses 3 'unixvol: bad.map: line 3: the range begins before the end of the one above' sums --bad bad.map 7 b.img
misread "error: the argument '--like' cannot be used with '--sizes'" sums --like rk05 --sizes 4872,100 7 b.img

# Random volumes of both editions, of which random blocks are lost and have random bytes: each member is in the whole volume with the same header and
# bytes, each file that is no member has a line, and of damaged files the bytes outside the ranges are right. Each line of a manifest that has a digest is
# one of the whole volume's, the others but for the digest; and each path below whole directories has the i-number that it has there. Each use of a block that is
# shown is its use there; in a map it may also be named twice there.
python3 - "$program" > error << 'PYTHON'
import json, os, random, re, subprocess, sys, tarfile

program, count, digests, bodies, listings, uses, drawn = sys.argv[1], 0, 0, 0, 0, 0, 0
random.seed(1979)
chosen = random.Random(1979)

def run(*words, **more):
    return subprocess.run([program, *words], stdin=subprocess.DEVNULL, capture_output=True, **more)

def members(path):
    if os.path.getsize(path) == 0:
        return
    with tarfile.open(path) as archive:
        for member in archive:
            is_file = member.isreg() or member.islnk()
            body = archive.extractfile(member).read() if is_file else None
            yield member.name, (member.mode, member.uid, member.gid, member.mtime, is_file or member.type, body)

def exported(edition, image, path, *words):
    done = run("export", edition, image, *words)
    with open(path, "wb") as file:
        file.write(done.stdout)
    return done, dict(members(path))

def volume(edition):
    """Makes r.img, a volume with some directories and files."""
    run("mkfs", edition, "r.img", str(random.randint(300, 900)), "12", "0", "0", "1")
    for d in range(random.randint(1, 4)):
        run("mkdir", edition, "r.img", f"/d{d}", "2")
        for f in range(random.randint(1, 12)):
            with open("r.file", "wb") as file:
                file.write(random.randbytes(random.choice((0, 5, 512, 3000, 9000, 70000))))
            run("put", edition, "r.img", f"/d{d}/f{f}", "r.file", "3")

def lose(at):
    """Makes r.bad, the image with random bytes in lost blocks, at block `at` of a file, and r.map, its map."""
    image = bytearray(open("r.img", "rb").read())
    blocks = len(image) // 512
    lost = sorted({k for k in random.sample(range(blocks), random.choice((1, 3, 10, 40))) if k != 1})
    for k in lost:
        image[512 * k:512 * k + 512] = random.randbytes(512)
    with open("r.bad", "wb") as file:
        file.write(random.randbytes(512 * at) + image)
    with open("r.map", "w") as file:
        print("# Mapfile. Created by GNU ddrescue version 1.27\n0x0     +               1", file=file)
        print(f"0x00000000  {512 * at:#010x}  ?", file=file)
        for k in range(blocks):
            print(f"{512 * (at + k):#010x}  0x00000200  {random.choice('?*/-') if k in lost else '+'}", file=file)
    return lost

def listed(edition, image, *words):
    """The lines of a manifest, as pairs of a digest and the rest."""
    return [tuple(line.split(b" ", 1)) for line in run("sums", edition, image, *words).stdout.splitlines()]

def paths(edition, image, *words):
    """The paths with their i-numbers."""
    return {entry["path"]: entry["ino"] for entry in json.loads(run("find", "--json", edition, image, *words).stdout)["entries"]}

def mapped(edition, image, *words):
    """The use of each block, as `map --json` shows it."""
    done = run("map", "--json", edition, image, *words)
    assert done.returncode == (5 if words else 0), done.stderr
    return [part["use"] for part in json.loads(done.stdout)["map"] for block in range(part["count"])]

def outside(body, line):
    """The bytes of a file outside the ranges that a line names."""
    kept = bytearray(body)
    for first, last in re.findall(r"(\d+)-(\d+)", line):
        kept[int(first):int(last) + 1] = bytes(int(last) + 1 - int(first))
    return bytes(kept)

for round in range(50 * int(os.environ.get('TIMES', 1))):
    edition, at = "67"[round % 2], random.choice((0, 0, 9))
    volume(edition)
    lost = lose(at)
    whole = exported(edition, "r.img", "r.tar")[1]
    words = ("--at", str(at), "--bad", "r.map")
    done, kept = exported(edition, "r.bad", "k.tar", *words)
    if done.stdout == b"":
        if done.returncode != 5 or b"\nunixvol: /: i-node " not in done.stderr:
            print(round, "no archive:", done.stderr)
        continue
    lines = dict(line[9:].split(": ", 1) for line in done.stderr.decode().splitlines() if ": " in line[9:])
    if done.returncode not in (1, 5) or (done.returncode == 5) != (done.stderr.count(b"\n") > 1):
        print(round, done.returncode, done.stderr)
    for name, member in kept.items():
        count += 1
        if whole.get(name) != member:
            print(round, "a member is wrong:", name)
    short = {name for name in lines if "names may be missing" in lines[name] or "i-node" in lines[name]}
    for name in whole:
        if name not in kept and name not in lines and not any(d == "." or name.startswith(d + "/") for d in short):
            print(round, "no line for", name)
    all_lines = listed(edition, "r.img")
    if (status := run("sums", edition, "r.bad", *words).returncode) not in (1, 5):
        print(round, "the status of the manifest is", status)
    for digest, rest in listed(edition, "r.bad", *words):
        digests += digest != b"-"
        if (digest, rest) not in all_lines if digest != b"-" else rest not in [r for _, r in all_lines]:
            print(round, "a line of the manifest is wrong:", digest, rest)
    all_paths = paths(edition, "r.img")
    for path, ino in paths(edition, "r.bad", *words).items():
        if all_paths.get(path) != ino and not any(d == "." or path.startswith(f"/{d}/") for d in short):
            print(round, "a path is wrong:", path, ino)
    for top in ("/", "/d0"):
        rows = {row["path"]: row for row in json.loads(run("ls", "--json", edition, "r.img", top).stdout)["entries"]}
        printed = run("ls", "--json", edition, "r.bad", top, *words)
        if printed.returncode not in (1, 5):
            print(round, "the status of the listing is", printed.returncode)
        for row in json.loads(printed.stdout)["entries"] if printed.stdout else ():
            listings += rows.get(row["path"]) == row
            if rows.get(row["path"]) != row and f"unixvol: {row['path']}: i-node {row['ino']} is lost\n".encode() not in printed.stderr:
                print(round, "a row is wrong:", row)
    for ino in random.sample(sorted(set(all_paths.values())), min(4, len(all_paths))):
        wanted, printed = run("cat", edition, "r.img", str(ino)).stdout, run("cat", edition, "r.bad", str(ino), *words)
        bodies += printed.returncode == 1
        if printed.returncode not in (1, 5) or printed.stdout != (wanted if printed.returncode == 1 else b""):
            print(round, "what cat prints is wrong:", ino)
    for block in chosen.sample(range(os.path.getsize("r.img") // 512), 8) + lost[:2]:
        wanted, printed = json.loads(run("block", "--json", edition, "r.img", str(block)).stdout), run("block", "--json", edition, "r.bad", str(block), *words)
        shown = json.loads(printed.stdout)
        known = shown["uses"] != [{"use": "unknown"}]
        uses += known
        if known and shown["uses"] != wanted["uses"] or shown["unreadable"] != (block in lost) or printed.returncode != (1 if known and block not in lost else 5):
            print(round, "a use is wrong:", block, shown)
    wanted, printed = mapped(edition, "r.img"), mapped(edition, "r.bad", *words)
    drawn += len([use for use in printed if use not in ("unreadable", "unknown")])
    for block, (real, known) in enumerate(zip(wanted, printed, strict=True)):
        if (known == "unreadable") != (block in lost) or known == "lost" or known not in ("unreadable", "unknown", real) and real != "named twice":
            print(round, "a use in the map is wrong:", block, known, real)
    again, damaged = exported(edition, "r.bad", "d.tar", *words, "--damaged")
    if again.stderr != done.stderr:
        print(round, "other lines with --damaged")
    for name, member in damaged.items():
        line = lines.get(name, "")
        if member[5] is None or ", .." in line:
            continue
        if member[:5] != whole[name][:5] or member[5] != outside(whole[name][5], line):
            print(round, "a damaged file is wrong outside its ranges:", name)
print(count > 500 and digests > 500 and bodies > 50 and listings > 500 and uses > 200 and drawn > 1000)
PYTHON
has 'members of volumes of which random blocks are lost' True "$(cat error)"

# `repair` makes a sound copy of what is left: files that are whole have all bytes, the others zeros in place of what is lost, with the lines of an export. With
# -n it prints the same, and saves nothing. The image stays as it is.
mends() { # mends STATUS EDITION IMAGE WORD..: `repair` of the image to new, with this status; its lines are in `error`, and `report` has what differs
    cp "$3" before
    rm -f new
    "$program" repair "$2" "$3" -n "${@:4}" > output 2> error < /dev/null
    has "the status of repair -n $3 ${*:4}" "$1" $?
    has "no copy with -n of $3 ${*:4}" none "$([ -e new ] && echo some || echo none)"
    cp error told
    "$program" repair "$2" "$3" new 5 "${@:4}" > report 2> error < /dev/null
    has "the status of repair $3 ${*:4}" "$1" $?
    cmp -s report output && cmp -s error told && cmp -s "$3" before
    has "repair of $3 ${*:4}, with -n and without" 0 $?
    "$program" check "$2" new > checked
    has "the rules that the copy of $3 ${*:4} keeps" '0 12' "$? $(grep -c ': holds$' checked)"
}
for edition in 6 7; do
    "$program" mkfs "$edition" b.img 4872 100 0 0 0
    "$program" put "$edition" b.img -t / f1 f2 f3 f4 f5 f6 f7 f8 0
    head -c 450000 b.img > cut.img
    exports 5 damaged.tar "$edition" cut.img --cut --damaged
    cp error wanted
    refuses 1 'unixvol: unsound, rule 1' repair "$edition" cut.img -n
    for words in '--cut cut.img' '--bad half.map b.img' '--bad-blocks 878-4871 b.img'; do
        # shellcheck disable=SC2086
        mends 5 "$edition" ${words##* } ${words% *}
        cmp -s error wanted
        has "the lines of repair $words of edition $edition are those of export" 0 $?
        has "the length of the copy with $words of edition $edition" $((512 * 4872)) "$(wc -c < new)"
        for n in 1 2 3 4 5 6 7 8; do
            "$program" get "$edition" new "/f$n" > got
            tar -xOf damaged.tar "f$n" | cmp -s - got
            has "f$n in the copy with $words of edition $edition" 0 $?
        done
    done
    mends 5 "$edition" cut.img --cut --blocks 5000
    cmp -s error wanted
    has "the lines of a larger copy of edition $edition" 0 $?
    has "the length of a larger copy of edition $edition" $((512 * 5000)) "$(wc -c < new)"
    # Of a whole image all is as without the options.
    mends 0 "$edition" b.img --cut
    saves "the copy of a whole volume of edition $edition with --cut" new b.img
    [ ! -s error ] && [ ! -s report ]
    has "the lines of a whole volume of edition $edition" 0 $?
done
changed "$linux" nameless 8752 '00 00'
"$program" repair 7 nameless plain 5 > wanted
mends 0 7 nameless --cut
cmp -s report wanted && cmp -s new plain && [ ! -s error ]
has 'a damaged volume of which no block is lost' 0 $?
# The super-block is lost: the free list is made anew, and all else is there.
mends 5 7 super.img --sizes $fsize,$isize
has 'the line of a volume without a super-block' 'unixvol: 1 of 240 blocks are lost' "$(cat error)"
has 'its report' 'free list: rebuilt' "$(cat report)"
"$program" diff 7 "$linux" new > differs 2>&1
has 'the tree of its copy' '0 ' "$? $(cat differs)"
# A directory of which a block is lost: what was named there is in lost+found.
blocks=$("$program" inode 7 dir.img /d | awk '$1 == "addr" { print }' | tr -s ' ' '\n' | grep '^[1-9]' | sort -n | paste -s -d ' ' -)
mends 5 7 dir.img --bad-blocks "${blocks##* }"
has 'the line of a directory in a copy' 1 "$(grep -c '^unixvol: d: names may be missing: 160 of 672 bytes are lost: 512-671$' error)"
"$program" find 7 new > found
has 'the files whose names are lost, in a copy' 10 "$(grep -c '^/*lost+found/#' found)"
has 'the names in the rest of it' 30 "$(grep -c '^/*d/name' found)"
# Lost i-nodes: the names that led to them are removed, and each has its line.
mends 5 7 many.img --bad-blocks 5
has 'the line of lost i-nodes in a copy' 'unixvol: 1 of 100 blocks are lost unixvol: i-nodes 25 to 32 are lost' "$(paste -s -d ' ' error)"
has 'the names of lost i-nodes' 8 "$(grep -c ' -> empty$' report)"
# A lost root: the block of its i-node, or that of its names. Nothing that it led to is found, and each command says that something of the root is lost. With
# --lost all else is below lost+found, by its i-number, and in a repaired copy too. The names are in the first data block, in slots of 16 bytes.
for edition in 6 7; do
    "$program" mkfs "$edition" root.img 600 40 0 0 0
    "$program" put "$edition" root.img /f f1 0
    "$program" mkdir "$edition" root.img /d 0
    "$program" put "$edition" root.img /d/g f2 0
    file=$(od -An -tu2 -j $((512 * 42 + 32)) -N 2 root.img | tr -d ' ')
    directory=$(od -An -tu2 -j $((512 * 42 + 48)) -N 2 root.img | tr -d ' ')
    for block in 2 42; do
        said="names may be missing: 64 of 64 bytes are lost: 0-63"
        [ $block = 42 ] || said="i-node $((edition - 5)) is lost"
        for words in export find sums 'export --damaged' 'find --json' 'sums --json'; do
            # shellcheck disable=SC2086
            "$program" $words --bad-blocks $block "$edition" root.img > found 2> error
            has "the status of $words without block $block of edition $edition" 5 $?
            has "the lines of $words without block $block of edition $edition" "unixvol: 1 of 600 blocks are lost unixvol: : $said" \
                "$(sed 's,^unixvol: [/.]: ,unixvol: : ,' error | paste -s -d ' ')"
            has "the bytes and the paths of $words without block $block of edition $edition" "0 0" "$(tr -d '\0' < found | grep -v '^{' | wc -c) $(grep -c '"path"' found)"
        done
        printf '%s\n' 'unixvol: 1 of 600 blocks are lost' "unixvol: /: $said" > line
        for words in get 'get --damaged' 'get --unsound'; do
            # shellcheck disable=SC2086
            runs $words --bad-blocks $block "$edition" root.img /f
            wants "$words /f without block $block of edition $edition" 5 none line
        done
        exports 5 lost.tar "$edition" root.img --bad-blocks $block --lost
        has "the line of the root, without block $block of edition $edition" 1 "$(grep -c "^unixvol: [.]: $said$" error)"
        same lost.tar "lost+found/#$file" f1
        same lost.tar "lost+found/#$directory/g" f2
        "$program" find --lost --bad-blocks $block "$edition" root.img > found 2> error
        has "find --lost without block $block of edition $edition" "5 /lost+found/#$directory /lost+found/#$directory/g /lost+found/#$file" \
            "$? $(grep '#' found | paste -s -d ' ')"
        "$program" sums --lost --bad-blocks $block "$edition" root.img > found 2> error
        has "the status of sums --lost without block $block of edition $edition" 5 $?
        has "sums --lost without block $block of edition $edition" "$(sha256sum < f1 | cut -c 1-64) $(sha256sum < f2 | cut -c 1-64)" \
            "$(sed -n "s,^\([0-9a-f]*\) .* lost+found/#$file$,\1,p" found) $(sed -n 's,^\([0-9a-f]*\) .*/g$,\1,p' found)"
        mends 5 "$edition" root.img --bad-blocks $block
        has "the line of the root of a copy without block $block of edition $edition" 1 "$(grep -c "^unixvol: [.]: $said$" error)"
        prints f1 get "$edition" new "/lost+found/#$file"
        prints f2 get "$edition" new "/lost+found/#$directory/g"
    done
done
# What isn't rescued, and words that exclude each other. If NEW is standard output, all lines are on standard error.
for words in '--sizes 5,9' '--sizes 240,0'; do
    # shellcheck disable=SC2086
    refuses 2 "unixvol: no volume has $(tr , ' ' <<< "${words#* }" | sed 's/ / blocks with an i-list of /')" repair 7 b.img -n $words
done
refuses 6 'unixvol: the image has 40 of 16000000 blocks' repair --cut 7 long.img new
refuses 1 'unixvol: bounds' repair --cut 6 cut.img new --blocks 65536
refuses 3 'unixvol: cannot read missing.map' repair --bad missing.map 7 one.img new
refuses 3 'unixvol: cannot write cut.img' repair --cut 7 cut.img cut.img
misread "error: the argument '--bad-blocks' cannot be used with '--bad'" repair --bad-blocks 12 --bad half.map 7 b.img new
misread "error: the argument '--like' cannot be used with '--sizes'" repair --like rk05 --sizes 4872,100 7 b.img new
misread "error: invalid value '5-3' for '--bad-blocks <LIST>'" repair --bad-blocks 5-3 7 b.img new
mends 5 7 cut.img --cut
cat report error > wanted
cp new plain
"$program" repair --cut 7 cut.img /dev/stdout 5 2> error | cat > copied
cmp -s copied plain && cmp -s error wanted
has 'a copy with lost blocks on standard output' 0 $?

# The law itself: of a sound volume random blocks are lost, with any bytes in their place. Each file of the copy without a line has the bytes and the i-node of
# the whole volume.
python3 - "$program" "$linux" << 'PYTHON' > error
import json, os, random, re, subprocess, sys

program, linux = sys.argv[1:]
random.seed(1979)

def run(*words):
    return subprocess.run([program, *words], stdin=subprocess.DEVNULL, capture_output=True)

def files(image):
    """The rows of the regular files, by their i-numbers: the digest with the other columns but the links, and the path."""
    entries = json.loads(run("sums", "--json", "7", image).stdout)["entries"]
    return {entry["ino"]: ({key: entry[key] for key in entry if key not in ("links", "path")}, entry["path"]) for entry in entries if entry["sha256"]}

def lost_inodes(lines):
    """The i-numbers whose i-nodes are lost, by the lines."""
    ranges = re.findall(r"i-nodes (\d+) to (\d+) are lost", lines)
    return {ino for first, last in ranges for ino in range(int(first), int(last) + 1)} | {int(ino) for ino in re.findall(r"i-node (\d+) is lost", lines)}

whole, count = files(linux), 0
for round in range(40 * int(os.environ.get('TIMES', 1))):
    image = bytearray(open(linux, "rb").read())
    lost = sorted(random.sample(range(2, len(image) // 512), random.choice((1, 3, 10, 40))))
    for block in lost:
        image[512 * block:512 * block + 512] = random.randbytes(512)
    open("r.img", "wb").write(image)
    done = run("repair", "7", "r.img", "r.new", "5", "--bad-blocks", ",".join(map(str, lost)))
    if done.returncode != 5:
        if done.returncode != 1 or done.stderr not in (b"unixvol: 28 NoSpace\n", b"unixvol: 112 NotRepaired\n"):
            print(round, done.returncode, done.stderr)
        continue
    lines = done.stderr.decode()
    told, gone = {line.split(": ")[1] for line in lines.splitlines()}, lost_inodes(lines)
    if run("check", "7", "r.new").returncode != 0:
        print(round, "the copy isn't sound")
    kept = files("r.new")
    for ino, (row, path) in whole.items():
        if ino in gone or ino in kept and kept[ino][1].lstrip("/") in told:
            continue
        count += 1
        if ino not in kept or kept[ino][0] != row:
            print(round, ino, path)
print(count > 100)
PYTHON
has 'files of repaired copies without a line' True "$(cat error)"

# `check`: what can be said of each rule.
# reports STATUS LINES WORD..: `check` prints these lines, without what the rules require
reports() {
    runs check "${@:3}"
    sed -i 's/^\([0-9]*\) [^:]*: /\1 /' output
    printf '%s\n' "$2" > lines
    wants "check ${*:3}" "$1" lines none
}
left='not broken by what is left'
for edition in 6 7; do
    "$program" mkfs "$edition" b.img 4872 100 0 0 0
    "$program" put "$edition" b.img -t / f1 f2 f3 f4 f5 f6 f7 f8 0
    head -c 450000 b.img > cut.img
    rest=$(printf '%d not asked\n' 10 11 12)
    reports 1 "1 3994 blocks are lost, the first is 878
2 holds
3 $left
4 $left
5 $left
6 $left
7 $left
8 not asked
9 $left
$rest" "$edition" cut.img --cut
    reports 1 "1 1 blocks are lost, the first is 4871
2 holds
3 $left
4 $left
5 $left
6 $left
7 $left
8 not asked
9 $left
$rest" "$edition" b.img --bad-blocks 4871
    # Without lost blocks all is as without the options.
    runs check "$edition" b.img
    cp output whole
    runs check "$edition" b.img --cut --status
    wants "check --cut of a whole volume of edition $edition" 0 whole none
    # The super-block is lost: the sizes are given, so nothing can be said of them.
    runs check "$edition" cut.img --cut --sizes 4872,100
    has "rules 1 and 2 of edition $edition with given sizes" '1 3995 blocks are lost, the first is 1
2 not asked' "$(sed -n '1,2s/ [^:]*:/ /; 1,2s/  / /; 1,2p' output)"
done
# An i-node of no known kind is told: it was there, whatever is lost.
at=$((1024 + 64 * 2))
changed cut.img odd.img $at 00f0
reports 1 "1 3994 blocks are lost, the first is 878
2 holds
3 an odd mode: i-node 3
4 $left
5 $left
6 $left
7 $left
8 not asked
9 $left
$rest" 7 odd.img --cut
# A name with a slash is told if nothing of its directory is lost. A name whose i-node is lost may have one.
"$program" mkfs 7 d.img 100 4 0 0 0
for n in 1 2 3 4 5 6 7 8 9; do "$program" touch 7 d.img "/e$n" 1; done
runs check 7 d.img --bad-blocks 5
has 'rule 9, if an i-node is lost for which there is a name' 'not asked' "$(sed -n 's/^9 .*: //p' output)"
root=$("$program" inode 7 d.img / | awk '$1 == "addr" { print $2 }')
changed d.img slash.img $((512 * root + 16 * 2 + 2)) 2f
runs check 7 slash.img --bad-blocks 50
has 'rule 9, if a name has a slash' 'a slash in a name: directory 2, slot 2' "$(sed -n 's/^9 [^:]*: //p' output)"
runs check 7 slash.img --bad-blocks "$root"
has 'rule 9, if the directory is lost' "$left" "$(sed -n 's/^9 [^:]*: //p' output)"
runs check --json 7 cut.img --cut
has 'the report as JSON' 'False [{"at": {"block": 878, "count": 3994}, "finding": "blocks are lost", "holds": false}, {"at": null, "finding": null, "holds": true}, {"at": null, "finding": null, "holds": null}]' \
    "$(python3 -c 'import json, sys
report = json.load(sys.stdin)
print(report["sound"], json.dumps([{key: rule[key] for key in ("at", "finding", "holds")} for rule in report["rules"][:3]]))' < output)"
runs check --status --cut 7 cut.img
has 'the status of check --status, if rule 1 alone is broken' 1 "$(cat status)"
runs check --explain --cut 7 cut.img
has 'the second line of check of a volume that was cut off' \
    'unixvol: docs/FORMATS.md has the twelve rules, and docs/PROOFS.md the file that defines each, under "Where each definition is"' "$(cat error)"
refuses 6 'unixvol: the image has 40 of 16000000 blocks' check --cut 7 long.img
refuses 2 'unixvol: no volume has 5 blocks with an i-list of 9' check 7 b.img --sizes 5,9
refuses 3 'unixvol: cannot read missing.map' check --bad missing.map 7 b.img
misread "error: the argument '--bad-blocks' cannot be used with '--bad'" check --bad-blocks 12 --bad half.map 7 b.img

# The law itself: what is named of a volume with lost blocks, of which some bytes were changed before, breaks the rule in the volume.
python3 - "$program" "$linux" << 'PYTHON' > error
import json, os, random, subprocess, sys

program, linux = sys.argv[1:]
random.seed(1977)

def rules(*words):
    done = subprocess.run([program, "check", "--json", "7", *words], stdin=subprocess.DEVNULL, capture_output=True)
    return {rule["rule"]: rule["holds"] for rule in json.loads(done.stdout)["rules"]}

named = 0
for round in range(150 * int(os.environ.get('TIMES', 1))):
    image = bytearray(open(linux, "rb").read())
    for change in range(random.choice((4, 8, 16))):
        image[random.choice((random.randrange(1024, 1024 + 512 * 12), random.randrange(512 * 14, 512 * 22)))] = random.choice((0, 47, 255, random.randrange(256)))
    open("r.img", "wb").write(image)
    lost = sorted(random.sample(range(2, len(image) // 512), random.choice((1, 3, 10))))
    whole, left = rules("r.img"), rules("r.img", "--bad-blocks", ",".join(map(str, lost)))
    for rule in (3, 4, 5, 6, 7, 8, 9, 10, 11, 12):
        if left[rule] is not None:
            named += 1
            if left[rule] or whole[rule] is not False:
                print(round, rule, lost)
print(named > 20)
PYTHON
has 'violations that are named although blocks are lost' True "$(cat error)"

# `block`: a volume of the seventh edition with 100 blocks, of which the last 93 were freed one by one from block 99 down to block 7. Block 50 was freed when the
# array of 50 was full, with a 0 and blocks 99 to 51 in it; it continues the list, and blocks 49 to 7 are after it in the super-block. I-node 3 points to blocks
# 60 and 61, and entry 3 of that to block 62.
"$program" mkfs 7 m.img 100 4 0 0 0
put m.img $((1024 + 64 * 2)) 'a481 0100 0000 0000 0000 0018 003c00'
put m.img $((1024 + 64 * 2 + 12 + 3 * 10)) 003d00
put m.img $((512 * 61 + 4 * 3)) '00003e00'
echo 'unixvol: 1 of 100 blocks are lost' > count
# owned STATUS BLOCK LOST USE..: with these blocks lost, BLOCK has these lines, and this status
owned() {
    local block=$2 lost=$3
    runs block --bad-blocks "$lost" 7 m.img "$block"
    printf "block $block: %s\n" "${@:4}" > wanted
    sed "s/ 1 / $(tr , '\n' <<< "$lost" | wc -l) /" count > line
    wants "block --bad-blocks $lost 7 m.img $block" "$1" wanted line
}
listed='free, listed in block 50 free[40]'
pointed='data of i-node 3, logical 0, addr[0]'
owned 1 60 99 "$listed" "$pointed"
owned 1 60 50 "$pointed"
owned 1 60 2 "$listed"
owned 5 60 2,50 'use unknown, nothing that is left uses it'
owned 5 60 60 unreadable "$listed" "$pointed"
owned 5 60 2,50,60 unreadable 'use unknown, nothing that is left uses it'
owned 1 61 99 'free, listed in block 50 free[39]' 'indirect block of i-node 3, from logical 10, addr[10]'
owned 5 61 61 unreadable 'free, listed in block 50 free[39]' 'indirect block of i-node 3, from logical 10, addr[10]'
owned 1 62 50 'data of i-node 3, logical 13, addr[10][3]'
owned 1 62 61 'free, listed in block 50 free[38]'
owned 5 62 50,61 'use unknown, nothing that is left uses it'
owned 5 50 50 unreadable 'free, listed in super-block free[0]'
owned 1 7 50 'free, listed in super-block free[43]'
owned 5 6 2 'use unknown, nothing that is left uses it'
owned 5 6 6 unreadable 'data of i-node 2, logical 0, addr[0]'
owned 1 0 50 'boot block'
owned 1 1 50 super-block
owned 1 3 2 'i-list, i-nodes 9 to 16'
owned 5 3 3 unreadable 'i-list, i-nodes 9 to 16'
owned 1 100 50 'outside the volume'
# Without a lost block all is as without the options.
printf '%s\n' "block 60: $listed" "block 60: $pointed" > wanted
runs block --cut 7 m.img 60
wants 'block --cut of a whole image' 0 wanted none
echo '{"block":60,"format":1,"uses":[{"index":40,"listed_in":50,"use":"free"},{"ino":3,"level":0,"logical":0,"use":"i-node"}]}' > wanted
runs block --json --cut 7 m.img 60
wants 'block --json --cut of a whole image' 0 wanted none
# A block that nothing uses is lost then, as ever: that of the root's names, without its address.
changed m.img lost.img $((1024 + 64 + 12)) 000000
echo 'block 6: lost' > wanted
runs block --cut 7 lost.img 6
wants 'block --cut of a whole image that has lost a block' 0 wanted none
# As JSON, by a map, of an image that was cut off in block 58, and with given sizes, which leave nothing of the super-block.
echo '{"block":60,"format":1,"unreadable":true,"uses":[{"index":40,"listed_in":50,"use":"free"},{"ino":3,"level":0,"logical":0,"use":"i-node"}]}' > wanted
printf '%s\n' '# Mapfile' '0x0 ? 1' '0x0 0x7800 +' '0x7800 0x200 -' '0x7A00 0x4E00 +' > block.map
runs block --json --bad block.map 7 m.img 60
wants 'block --json of a block that is lost' 5 wanted count
echo '{"block":60,"format":1,"unreadable":false,"uses":[{"use":"unknown"}]}' > wanted
sed 's/ 1 / 2 /' count > line
runs block --json --bad-blocks 2,50 7 m.img 60
wants 'block --json of a block whose use is unknown' 5 wanted line
head -c 30000 m.img > cut-m.img
printf 'block 60: %s\n' unreadable "$listed" "$pointed" > wanted
sed 's/ 1 / 42 /' count > line
runs block --cut 7 cut-m.img 60
wants 'block of an image that was cut off' 5 wanted line
refuses 1 'unixvol: unsound, rule 1' block 7 cut-m.img 60
echo "block 60: $pointed" > wanted
runs block --sizes 100,4 7 m.img 60
wants 'block with given sizes' 1 wanted count
echo 'block 7: use unknown, nothing that is left uses it' > wanted
runs block --sizes 100,4 7 m.img 7
wants 'block of a free block with given sizes' 5 wanted count
printf 'block 1: %s\n' unreadable super-block > wanted
runs block --sizes 100,4 7 m.img 1
wants 'block of the super-block with given sizes' 5 wanted count
# In the sixth edition all 93 are in the super-block.
"$program" mkfs 6 s.img 100 4 0 0 0
echo 'block 20: free, listed in super-block free[80]' > wanted
runs block --bad-blocks 99 6 s.img 20
wants 'block of a volume of the sixth edition' 1 wanted count
refuses 6 'unixvol: the super-block is lost: give --sizes or --like' block --bad-blocks 1 7 m.img 60
refuses 2 'unixvol: no volume has 5 blocks with an i-list of 9' block --sizes 5,9 7 m.img 1
refuses 3 'unixvol: cannot read missing.map' block --bad missing.map 7 m.img 1
refuses 6 'unixvol: the image has 40 of 16000000 blocks' block --cut 7 long.img 1
misread "error: the argument '--bad-blocks' cannot be used with '--bad'" block --bad-blocks 12 --bad half.map 7 m.img 1
misread "error: the argument '--like' cannot be used with '--sizes'" block --like rk05 --sizes 4872,100 7 m.img 1
misread "error: invalid value '5-3' for '--bad-blocks <LIST>'" block --bad-blocks 5-3 7 m.img 1

# `map` of the same volume: block 6 is the root's.
"$program" map 7 m.img > whole.map
# drawn LOST PICTURE: with these blocks lost, the letters of the rows are these, and the status is 5
drawn() {
    runs map --bad-blocks "$1" 7 m.img
    has "the letters of map --bad-blocks $1" "$2" "$(sed -n '3,4s/^ *[0-9]* //p' output | tr -d '\n')"
    has "the end of map --bad-blocks $1" "5 unixvol: $(tr , '\n' <<< "$1" | wc -l) of 100 blocks are lost" "$(cat status) $(cat error)"
}
letters=$(sed -n '3,4s/^ *[0-9]* //p' whole.map | tr -d '\n')
# with AT LETTERS WORD: the letters of the whole volume, or of $3, with others from block AT on
with() {
    local row=${3-$letters}
    echo "${row:0:$1}$2${row:$(($1 + ${#2}))}"
}
has 'the letters of the volume' "BSiiiid$(printf 'o%.0s' {1..43})c$(printf 'o%.0s' {1..9})TTT$(printf 'o%.0s' {1..37})" "$letters"
drawn 99 "$(with 99 U)"
drawn 0 "$(with 0 U)"
drawn 4 "$(with 4 U)"
drawn 60 "$(with 60 U)"
# The block that continues the free list: what it lists isn't known to be free, and blocks 60 to 62 have their i-node alone.
drawn 50 "$(with 50 "U$(printf '?%.0s' {1..9})fpf$(printf '?%.0s' {1..37})")"
# The i-list: the blocks of i-nodes 2 and 3 aren't known to be theirs.
drawn 2 "$(with 2 U "$(with 6 '?' "$(with 60 ooo)")")"
drawn 2,50 "$(with 2 U "$(with 6 '?' "$(with 50 "U$(printf '?%.0s' {1..49})")")")"
# The indirect block: what is below it isn't known to be the file's.
drawn 61 "$(with 61 Uo)"
drawn 50,61 "$(with 50 "U$(printf '?%.0s' {1..9})fU$(printf '?%.0s' {1..38})")"
# The legend has the numbers of both, and colours go with the letters as for the others.
runs map --bad-blocks 50 7 m.img
has 'the legend of map with lost blocks' '1 U unreadable,46 ? unknown' "$(sed -n 's/^ *//; / [U?] /p' output | paste -s -d , -)"
# With given sizes the super-block is lost, and with it the free list.
runs map --sizes 100,4 7 m.img
has 'map with given sizes' "5 $(with 1 U "$(with 7 "$(printf '?%.0s' {1..53})fpf$(printf '?%.0s' {1..37})")") $(cat count)" \
    "$(cat status) $(sed -n '3,4s/^ *[0-9]* //p' output | tr -d '\n') $(cat error)"
# As JSON, by a map, and of an image that was cut off in block 58.
printf '%s\n' '# Mapfile' '0x0 ? 1' '0x0 0x200 -' '0x200 0xC600 +' > boot.map
echo '{"format":1,"map":[{"block":0,"count":1,"use":"unreadable"},{"block":1,"count":1,"use":"super-block"},{"block":2,"count":4,"use":"i-list"},{"block":6,"count":1,"use":"directory"},{"block":7,"count":43,"use":"free"},{"block":50,"count":1,"use":"chain"},{"block":51,"count":9,"use":"free"},{"block":60,"count":3,"use":"named twice"},{"block":63,"count":37,"use":"free"}]}' > wanted
runs map --json --bad boot.map 7 m.img
wants 'map --json of an image whose boot block is lost' 5 wanted count
echo '{"format":1,"map":[{"block":0,"count":1,"use":"boot"},{"block":1,"count":1,"use":"super-block"},{"block":2,"count":4,"use":"i-list"},{"block":6,"count":1,"use":"directory"},{"block":7,"count":43,"use":"free"},{"block":50,"count":1,"use":"unreadable"},{"block":51,"count":9,"use":"unknown"},{"block":60,"count":1,"use":"file"},{"block":61,"count":1,"use":"pointer"},{"block":62,"count":1,"use":"file"},{"block":63,"count":37,"use":"unknown"}]}' > wanted
runs map --json --bad-blocks 50 7 m.img
wants 'map --json of an image with a lost block' 5 wanted count
sed 's/ 1 / 42 /' count > line
runs map --cut 7 cut-m.img
has 'map of an image that was cut off' "5 $(with 58 "$(printf 'U%.0s' {1..42})") $(cat line)" "$(cat status) $(sed -n '3,4s/^ *[0-9]* //p' output | tr -d '\n') $(cat error)"
refuses 1 'unixvol: unsound, rule 1' map 7 cut-m.img
# As a picture for a browser: a square says only what its block is used for.
runs map --svg --bad-blocks 50,61 7 m.img
has 'map --svg with lost blocks' 5 "$(cat status)"
has 'the squares of map --svg with lost blocks' "block 50: unreadable
block 60: file
block 61: unreadable
block 62: unknown
block 0: boot" "$(for block in 50 60 61 62 0; do grep -o "block $block: [^<]*" output; done)"
# A letter for several blocks hides no block that is lost.
"$program" mkfs 7 cells.img 4872 100 0 0 0
runs map --bad-blocks 4000 7 cells.img
has 'a letter that hides an unreadable block' '1 U unreadable,1 % cells with some blocks that are unreadable or of unknown use' \
    "$(sed -n 's/^ *//; / [U%] /p' output | paste -s -d , -)"
# Without a lost block all is as without the options.
for words in '' --svg --json; do
    "$program" map $words 7 m.img > wanted
    runs map $words --cut 7 m.img
    wants "map $words --cut of a whole image" 0 wanted none
    "$program" map $words 7 lost.img > wanted
    runs map $words --cut 7 lost.img
    wants "map $words --cut of a whole image that has lost a block" 0 wanted none
done
has 'a lost block of a whole image' 1 "$("$program" map --cut 7 lost.img | grep -c '^ *1 L lost$')"
# In the sixth edition.
"$program" map 6 s.img > wanted
runs map --cut 6 s.img
wants 'map --cut of a volume of the sixth edition' 0 wanted none
runs map --bad-blocks 99 6 s.img
has 'map of a volume of the sixth edition' 5 "$(cat status)"
refuses 6 'unixvol: the super-block is lost: give --sizes or --like' map --bad-blocks 1 7 m.img
refuses 2 'unixvol: no volume has 5 blocks with an i-list of 9' map --sizes 5,9 7 m.img
refuses 3 'unixvol: cannot read missing.map' map --bad missing.map 7 m.img
refuses 6 'unixvol: the image has 40 of 16000000 blocks' map --cut 7 long.img
misread "error: the argument '--bad-blocks' cannot be used with '--bad'" map --bad-blocks 12 --bad half.map 7 m.img
misread "error: the argument '--like' cannot be used with '--sizes'" map --like rk05 --sizes 4872,100 7 m.img
misread "error: the argument '--file' cannot be used with '--cut'" map --cut --file / 7 m.img
misread "error: the argument '--file' cannot be used with '--bad-blocks'" map --file / --bad-blocks 12 7 m.img
misread "error: the argument '--file' cannot be used with '--sizes'" map --svg --file / --sizes 100,4 7 m.img
misread "error: the argument '--file' cannot be used with '--json'" map --json --cut --file / 7 m.img
misread "error: the argument '--svg' cannot be used with '--json'" map --json --cut --svg 7 m.img

echo "$passed passed, $failed failed"
[ "$failed" = 0 ]
