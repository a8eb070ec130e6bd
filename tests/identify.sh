#!/usr/bin/env bash
# Runs `identify` of the built program on images made byte by byte, on samples, and on files of other programs.
# Usage: tests/identify.sh PROGRAM. It prints a line for each row that fails, and ends with 'N passed, N failed'.
. "$(dirname "$0")/rows.sh"

# looks FILE TEXT: FILE, and only it, has a line with this text
looks() {
    printf '%s\n' "$1: $2" > line
    prints line identify "$1"
}

# A volume of each edition with 8 blocks, by hand: the sizes, the free list (the end, then blocks 7, 6, 5 and 4), the root's i-node and its slots.
image six.img 4096
put six.img 512 '0100 0800 0500 0000 0700 0600 0500 0400'
put six.img 1024 'edc1 02 00 00 00 2000 0300'
put six.img 1536 '0100 2e'
put six.img 1552 '0100 2e2e'
image seven.img 4096
put seven.img 512 '0300 00000800 0500 00000000 00000700 00000600 00000500 00000400'
put seven.img 1088 'ed41 0200 0000 0000 00002000 000300'
put seven.img 1536 '0200 2e'
put seven.img 1552 '0200 2e2e'
for row in 'six 6' 'seven 7'; do
    read -r name edition <<< "$row"
    volume="a volume of edition $edition, with 8 blocks"
    looks "$name.img" "looks like $volume, sound"
    dd if="$name.img" of=swapped.img conv=swab status=none
    looks swapped.img "looks like $volume, with each pair of bytes exchanged"
    head -c 2100 "$name.img" > cut.img
    looks cut.img "looks like $volume, cut off after 4"
    head -c 1535 "$name.img" > cut.img
    looks cut.img 'looks like nothing that unixvol knows'
    for before in 1 3 200; do
        { head -c $((512 * before)) /dev/zero | tr '\0' y && cat "$name.img"; } > pack.img
        {
            echo 'pack.img: looks like a larger pack'
            echo "  at 0: $before blocks of other bytes"
            echo "  at $before: $volume, sound: unixvol ls $edition pack.img --at $before"
        } > lines
        prints lines identify pack.img
    done
    # A pipe isn't searched further, and a volume isn't found if a byte of it lacks.
    cat pack.img | "$program" identify /dev/stdin > output 2> error
    has 'a pack through a pipe' "0 /dev/stdin: looks like a larger pack: at block $before begins $volume" "$? $(cat output error)"
    head -c -1 pack.img > short.img
    looks short.img 'looks like nothing that unixvol knows'
    { head -c 100 /dev/zero | tr '\0' x && cat "$name.img"; } > moved.img
    looks moved.img 'looks like nothing that unixvol knows'
    # A volume whose free list or root can't be right is still one, but not if both can't.
    links=$((edition == 6 ? 1026 : 1090))
    mode=$((edition == 6 ? 1024 : 1088))
    count=$((edition == 6 ? 516 : 518))
    changed "$name.img" broken.img $links 03
    looks broken.img "looks like $volume, which breaks rule 12"
    changed "$name.img" broken.img $mode 0000
    looks broken.img "looks like $volume, which breaks rule 3"
    changed "$name.img" broken.img $count 6500
    looks broken.img "looks like $volume, which breaks rule 6"
    put broken.img $mode 0000
    looks broken.img 'looks like nothing that unixvol knows'
done
for file in "$samples"/lessons/rule_{03,04,05,06,07,08,09,10,11,12}.v[67]; do
    [ -e "$file" ] || continue
    edition=${file##*.v}
    rule=$(sed 's/.*rule_0*\([0-9]*\)\.v.$/\1/' <<< "$file")
    at=$((edition == 6 ? 514 : 516))
    looks "$file" "looks like a volume of edition $edition, with $(od -An -tu2 -j $at -N 2 "$file" | tr -d ' ') blocks, which breaks rule $rule"
done

# What is no volume.
: > nothing
looks nothing 'looks empty: it has no bytes but zeros'
image zeros 5000
looks zeros 'looks empty: it has no bytes but zeros'
echo hello > text
looks text 'looks like nothing that unixvol knows'
seq 10000 > numbers
looks numbers 'looks like nothing that unixvol knows'
for format in ustar gnu pax v7; do
    tar --format=$format -cf archive text
    looks archive 'looks like an archive of tar'
done
put archive 0 78
looks archive 'looks like nothing that unixvol knows'
# A volume is one, whatever its boot block has.
for row in '1f8b' '504b0304' '425a68'; do
    cp seven.img boot.img
    put boot.img 0 "$row"
    looks boot.img 'looks like a volume of edition 7, with 8 blocks, sound'
done
tar --format=ustar -cf archive text
head -c 512 archive > boot.img
tail -c +513 six.img >> boot.img
looks boot.img 'looks like a volume of edition 6, with 8 blocks, sound'
gzip -c six.img > packed
looks packed 'looks packed by gzip'
for row in 'bzip2 425a68' 'xz fd377a585a00' 'zstd 28b52ffd' 'zip 504b0304'; do
    image packed 4096
    put packed 0 "${row#* }"
    looks packed "looks packed by ${row% *}"
done
image linux.img 4096
put linux.img 1080 53ef
looks linux.img 'looks like a volume of ext2, ext3 or ext4'

# A path with control characters is escaped, and any other isn't.
for row in $'six\e[1m\n.img|six\\033[1m\\012.img' 'zwölf\.img'; do
    cp six.img "${row%%|*}"
    printf '%s\n' "${row#*|}: looks like a volume of edition 6, with 8 blocks, sound" > line
    prints line identify "${row%%|*}"
    rm "${row%%|*}"
done

# Several images, and some that can't be read: the others have their lines.
printf '%s\n' 'six.img: looks like a volume of edition 6, with 8 blocks, sound' 'text: looks like nothing that unixvol knows' > lines
prints lines identify six.img text
echo 'unixvol: cannot read missing' > line
runs identify six.img missing text
wants 'an image that is missing' 3 lines line
runs identify missing
wants 'only one that is missing' 3 none line
printf '%s\n' 'unixvol: cannot read missing' 'unixvol: cannot read .' > line
runs identify missing six.img . text
wants 'two that cannot be read' 3 lines line

# The same as JSON: an object on a line for each, also for one that can't be read.
{
    echo '{"bytes":4096,"file":"six.img","format":1,"guess":"volume","parts":[{"block":0,"blocks":8,"command":"unixvol ls 6 six.img","edition":6,"rule":null,"sound":true}],"read":4096,"tail":0}'
    echo '{"fault":"cannot read","file":"missing","format":1}'
    echo '{"bytes":6,"file":"text","format":1,"guess":"unknown","parts":[],"read":6,"tail":6}'
} > lines.json
echo 'unixvol: cannot read missing' > line
runs identify --json six.img missing text
wants 'images as JSON' 3 lines.json line
# guessed FILE TEXT: the JSON of FILE has this text
guessed() {
    runs identify --json "$1"
    has "the JSON of $1" "0 $2,\"tail\":$(($(wc -c < "$1") % 512))" "$(cat status) $(sed 's/.*"format":1,//; s/}$//' output)"
}
dd if=seven.img of=swapped.img conv=swab status=none
guessed swapped.img '"guess":"swapped","parts":[{"block":0,"blocks":8,"edition":7}],"read":4096'
head -c 2100 seven.img > cut.img
guessed cut.img '"guess":"cut","parts":[{"block":0,"blocks":8,"edition":7}],"read":2100'
guessed packed '"guess":"zip","parts":[],"read":4096'
guessed zeros '"guess":"empty","parts":[],"read":5000'
guessed linux.img '"guess":"ext2","parts":[],"read":4096'
guessed broken.img '"guess":"unknown","parts":[],"read":4096'
changed seven.img broken.img 1090 03
guessed broken.img '"guess":"volume","parts":[{"block":0,"blocks":8,"command":"unixvol check 7 broken.img","edition":7,"rule":12,"sound":false}],"read":4096'
{ head -c 512 /dev/zero | tr '\0' y && cat seven.img; } > pack.img
cat pack.img | "$program" identify --json /dev/stdin > output 2> error
has 'the JSON of a pipe' '0 {"bytes":null,"file":"/dev/stdin","format":1,"guess":"inside","parts":[{"block":1,"blocks":8,"edition":7}],"read":4608,"tail":null}' "$? $(cat output error)"

# What follows a volume has a line unless it is zeros, also a volume that is cut off. A packed file isn't called a volume by half of the signs of one.
{ cat seven.img && head -c 1024 /dev/zero; } > longer.img
looks longer.img 'looks like a volume of edition 7, with 8 blocks, sound'
first='{"block":0,"blocks":8,"command":"unixvol ls 7 longer.img","edition":7,"rule":null,"sound":true}'
printf '%s\n' 'longer.img: looks like a larger pack' '  at 0: a volume of edition 7, with 8 blocks, sound: unixvol ls 7 longer.img' > front
{ cat seven.img && head -c 1030 /dev/zero | tr '\0' y; } > longer.img
{ cat front && printf '  at %s\n' '8: 2 blocks of other bytes' '10: 6 bytes follow'; } > line
prints line identify longer.img
guessed longer.img "\"guess\":\"pack\",\"parts\":[$first,{\"block\":8,\"blocks\":2,\"zeros\":false}],\"read\":null"
{ cat seven.img && head -c 2100 six.img; } > longer.img
{ cat front && printf '  at %s\n' '8: a volume of edition 6, with 8 blocks, which breaks rule 1: unixvol check 6 longer.img --at 8' '12: 52 bytes follow'; } > line
prints line identify longer.img
second='{"block":8,"blocks":8,"command":"unixvol check 6 longer.img --at 8","edition":6,"rule":1,"sound":false}'
guessed longer.img "\"guess\":\"pack\",\"parts\":[$first,$second],\"read\":null"

# Bytes after the last whole block have a line after that of a whole volume too, but not after that of another file, or where the size isn't known.
{ cat seven.img && printf x; } > more.img
whole='more.img: looks like a volume of edition 7, with 8 blocks, sound'
printf '%s\n' "$whole" '  at 8: 1 byte follows' > line
prints line identify more.img
guessed more.img '"guess":"volume","parts":[{"block":0,"blocks":8,"command":"unixvol ls 7 more.img","edition":7,"rule":null,"sound":true}],"read":4097'
{ cat seven.img; head -c 1001 /dev/zero; } > more.img
printf '%s\n' "$whole" '  at 9: 489 bytes follow' > line
prints line identify more.img
changed more.img broken.img 1090 03
printf '%s\n' 'broken.img: looks like a volume of edition 7, with 8 blocks, which breaks rule 12' '  at 9: 489 bytes follow' > line
prints line identify broken.img
dd if=more.img of=swapped.img conv=swab status=none
looks swapped.img 'looks like a volume of edition 7, with 8 blocks, with each pair of bytes exchanged'
cat more.img | "$program" identify /dev/stdin > output 2> error
has 'the line of a pipe' "0 ${whole/more.img//dev/stdin}" "$? $(cat output error)"
changed seven.img half.img 1088 0000
put half.img 0 1f8b
head -c 1024 /dev/zero | tr '\0' y >> half.img
looks half.img 'looks packed by gzip'

# A catalogue has a row without counts for a volume that is cut off, and no row for a file in which no volume is named.
cp "$samples/lessons/rule_01.v7" lesson.img
# row FILE BLOCK REST: the row of a volume
row() { echo "$1,$(wc -c < "$1"),$(sha256sum < "$1" | cut -d ' ' -f 1),$2,$3"; }
{
    echo 'file,bytes,sha256,block,edition,blocks,free_blocks,files,verdict,time'
    row cut.img 0 '7,8,,,rule 1,'
    row lesson.img 0 '7,16,,,rule 1,'
    row longer.img 0 '7,8,4,0,sound,1970-01-01 00:00:00'
    row longer.img 8 '6,8,,,rule 1,'
} > line
prints line identify --csv cut.img lesson.img nothing archive swapped.img half.img longer.img

# A guess takes no more memory than its file needs, and each line comes before the next file is read.
by=', by its first 268435456 bytes'
looks /dev/zero "looks empty: it has no bytes but zeros$by"
body sparse 3000000000
looks sparse "looks empty: it has no bytes but zeros$by"
cp sparse unknown
put unknown 0 79
looks unknown "looks like nothing that unixvol knows$by"
{ cat text && head -c 1018 /dev/zero && cat six.img; } > pack.img
truncate -s 3000000000 pack.img
{
    echo 'pack.img: looks like a larger pack'
    echo '  at 0: 2 blocks of other bytes'
    echo '  at 2: a volume of edition 6, with 8 blocks, sound: unixvol ls 6 pack.img --at 2'
    echo "  at 10: $((3000000000 / 512 - 10)) blocks of zeros"
} > line
(in_memory 100000 runs identify pack.img)
wants 'a pack of 3 GB in 100 MB of memory' 0 line none
cp six.img longer.img
truncate -s 3000000000 longer.img
printf '%s\n' 'six.img: looks like a volume of edition 6, with 8 blocks, sound' "sparse: looks empty: it has no bytes but zeros$by" \
    'text: looks like nothing that unixvol knows' > line
(in_memory 2000000 runs identify six.img sparse text)
wants 'a file of 3 GB in 2 GB of memory' 0 line none
if [ -z "${ELSEWHERE:-}" ]; then
    echo 'unixvol: 12 NoMemory: sparse' > line
    (in_memory 100000 runs identify six.img sparse text)
    wants 'a file that is too long for the memory' 4 lines line
    echo 'unixvol: cannot read missing' >> line
    (in_memory 100000 runs identify sparse six.img missing text)
    wants 'the greatest status of several files' 4 lines line
fi
echo 'longer.img: looks like a volume of edition 6, with 8 blocks, sound' > line
(in_memory 100000 runs identify longer.img)
wants 'a file of 3 GB that begins with a volume' 0 line none
mkfifo fifo
: > output
timeout 60 "$program" identify six.img fifo > output 2> error &
for _ in $(seq 300); do
    [ ! -s output ] || break
    sleep 0.1
done
has 'the line of a file before the next one is read' "$(head -n 1 lines)" "$(cat output)"
timeout 20 sh -c 'cat text > fifo'
wait $!
has 'the lines of a file and a pipe' "0 $(sed 's/^text/fifo/' lines)" "$? $(cat output)"
misread 'error: the following required arguments were not provided' identify
helps identify --help
[ ! -e /dev/full ] || {
    "$program" identify six.img > /dev/full 2> error
    has 'the status of a full disk' 3 $?
    has 'the line of a full disk' 'unixvol: cannot write -' "$(cat error)"
}

# Tapes and disks of other systems, by the bytes that tell them for sure; without one of these, nothing is said.
foreign() {
    looks "$1.img" "looks like $2"
    "$program" identify --json "$1.img" > output
    has "the word for $2" "\"guess\":\"$3\"" "$(grep -o '"guess":"[^"]*"' output)"
    while read -r at hex; do
        changed "$1.img" other.img "$at" "$hex"
        looks other.img 'looks like nothing that unixvol knows'
    done
}
image tape.img 2064
put tape.img 0 '00 04 00 00 d3 07'
put tape.img 1028 '00 04 00 00 00 04 00 00 11'
put tape.img 2060 '00 04 00 00'
foreign tape 'a tape in the format of SIMH' simh << 'END'
0 01
2 01
1028 02
1030 01
4 00040000
END
# The words of the header have the sum 84446, of which 16 bits are kept.
python3 - << 'PYTHON'
import struct
words = [1, 5, 6, 0, 0, 1, 0, 0, 0, 60011, 0] + [7] * 245
words[10] = (84446 - sum(words)) % 65536
open("dump.img", "wb").write(struct.pack("<256H", *words) + bytes(1536))
entry = struct.pack("<32sHBBBBHIH16sH", b"usr/motd", 0o100644, 3, 1, 0, 0, 12, 0, 25, b"", 0)
entry = entry[:62] + struct.pack("<H", -sum(struct.unpack("<32H", entry)) % 65536)
open("tp.img", "wb").write(b"z" * 512 + entry + bytes(64) + entry + bytes(1344))
home = [3] * 248 + list(struct.unpack("<6H", b"DECFILE11A  "))
home += [0] * (255 - len(home))
home.append(sum(home) % 65536)
open("files11.img", "wb").write(b"x" * 512 + struct.pack("<256H", *home) + bytes(1024))
open("rt11.img", "wb").write(b"y" * 512 + bytes(496) + b"DECRT11A    " + bytes(4) + bytes(1024))
boot = bytearray(2048)
boot[0:3] = b"\xeb\x3c\x90"
boot[3:11] = b"MSDOS5.0"
struct.pack_into("<HBHBHHB", boot, 11, 512, 1, 1, 2, 112, 720, 0xFD)
boot[510:512] = b"\x55\xaa"
open("fat.img", "wb").write(boot)
PYTHON
foreign dump "a tape of V7's dump" dump << 'END'
0 02
18 6c
20 00
300 08
END
foreign tp 'a tape of tp' tp << 'END'
512 7f
513 72
543 01
640 76
END
foreign files11 'a disk of Files-11' files11 << 'END'
1008 64
600 04
1022 00
END
foreign rt11 'a disk of RT-11' rt11 << 'END'
1008 64
1015 42
END
foreign fat 'a volume of FAT' fat << 'END'
0 ea
2 91
12 01
14 0000
16 03
21 ef
510 54
END
# A volume with such bytes in its boot block is a volume.
for name in tape dump fat; do
    { head -c 512 "$name.img" && tail -c +513 seven.img; } > boot.img
    looks boot.img 'looks like a volume of edition 7, with 8 blocks, sound'
done

echo "$passed passed, $failed failed"
[ "$failed" = 0 ]
