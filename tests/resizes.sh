#!/usr/bin/env bash
# Runs `resize` of the built program: volumes of both editions that grow and shrink, alone in their files and in a pack, and those that can't. What a
# volume needs is computed here from its i-nodes. Usage: tests/resizes.sh PROGRAM. It prints each row that fails, and ends with 'N passed, N failed'.
. "$(dirname "$0")/rows.sh"

# needed EDITION FILE: one more than the last block that an i-node of the volume names directly or in its first indirect block
needed() {
    python3 - "$@" << 'PYTHON'
import struct, sys
edition, image = int(sys.argv[1]), open(sys.argv[2], "rb").read()
words = lambda at, count: struct.unpack_from("<%dH" % count, image, at)
last = 0
def names(block):
    global last
    last = max(last, block)
    return block
if edition == 6:
    for at in range(1024, 1024 + 512 * words(512, 1)[0], 32):
        mode, addresses = words(at, 1)[0], words(at + 8, 8)
        if mode & 0o100000 and mode >> 13 & 3 in (0, 2):
            for block in filter(None, addresses):
                names(block)
                if mode & 0o10000:
                    for inner in words(512 * block, 256):
                        names(inner)
else:
    for at in range(1024, 512 * words(512, 1)[0], 64):
        mode = words(at, 1)[0]
        if mode >> 12 in (4, 8):
            three = image[at + 12:at + 51]
            blocks = [three[k] << 16 | three[k + 2] << 8 | three[k + 1] for k in range(0, 39, 3)]
            for block in filter(None, blocks):
                names(block)
            if blocks[10]:
                for high, low in struct.iter_unpack("<HH", image[512 * blocks[10]:512 * blocks[10] + 512]):
                    names(high << 16 | low)
print(last + 1)
PYTHON
}

# shown EDITION IMAGE [OPTION..]: all that the files of a volume are: their i-numbers, modes, owners, sizes, times, bytes, and the boot block
shown() {
    "$program" ls -lR "$@"
    "$program" sums "$@"
    "$program" export "$@" | od -An -v -tx1
    "$program" dump "$1" "$2" 0 "${@:3}"
}

# sized LABEL FILE BLOCKS: the file has so many blocks
sized() { has "the size of $1" $((512 * $3)) "$(stat -c %s "$2")"; }

# resized LABEL EDITION FILE BLOCKS: the volume in a file gets so many blocks: the trial changes nothing, and then the file is as long, the volume sound and
# its files the same; all blocks but those of files are free
resized() {
    cp "$3" before
    shown "$2" "$3" > wanted
    prints none resize "$2" "$3" "$4" -n
    saves "$1, after a trial" "$3" before
    prints none resize "$2" "$3" "$4"
    sized "$1" "$3" "$4"
    runs check "$2" "$3"
    has "the status of check of $1" 0 "$(cat status)"
    shown "$2" "$3" > came
    saves "the files of $1" came wanted
    cp "$3" salvaged
    "$program" salvage "$2" salvaged
    saves "the free list of $1, which salvage makes too" "$3" salvaged
}

head -c 30000 /dev/urandom > large
printf hello > hello
for edition in 6 7; do
    "$program" mkfs "$edition" disk 400 10 3 4 1000
    printf 'boot' | dd of=disk conv=notrunc status=none
    for name in a b c; do
        "$program" mkdir "$edition" disk "/$name" 1001
        "$program" put "$edition" disk "/$name/large" large 1002
        "$program" put "$edition" disk "/$name/hello" hello 1003
    done
    "$program" ln "$edition" disk /a/hello /linked 1004
    "$program" rm "$edition" disk /b/large 1005
    least=$(needed "$edition" disk)
    resized "a volume of edition $edition that grows by a block" "$edition" disk 401
    resized "a volume of edition $edition that grows" "$edition" disk 5000
    resized "a volume of edition $edition that shrinks" "$edition" disk 700
    resized "a volume of edition $edition that shrinks as far as it can" "$edition" disk "$least"
    has "what a volume of edition $edition needs" "$least" "$(needed "$edition" disk)"

    # What can't be is refused, and changes nothing. A trial says the same.
    cp disk before
    for option in '' -n; do
        refuses 1 "unixvol: it needs $least blocks" resize "$edition" disk $((least - 1)) $option
        refuses 1 "unixvol: it needs $least blocks" resize "$edition" disk 0 $option
        refuses 1 'unixvol: it has that many blocks' resize "$edition" disk "$least" $option
        refuses 1 'unixvol: bounds' resize "$edition" disk 4294967295 $option
    done
    last=$((least - 1))
    refuses 1 "unixvol: it needs $least blocks"$'\n'"unixvol: disk: block $last is the last one that a file uses; \`unixvol block $edition disk $last\` says which" \
        --explain resize "$edition" disk 20
    runs block "$edition" disk "$last"
    has "the last block that a file of edition $edition uses" 0 "$(cat status)"
    has "its file, of edition $edition" 1 "$(grep -c 'of i-node' output)"
    saves "a volume of edition $edition that isn't resized" disk before

    # A full volume grows, and is filled again.
    prints none resize "$edition" disk 1000
    head -c 200000 /dev/zero | tr '\0' x > huge
    prints none put "$edition" disk /huge huge 1006
    gives huge get "$edition" disk /huge
    runs check "$edition" disk
    has "the status of check of a volume of edition $edition that grew and was filled" 0 "$(cat status)"
done

# The bounds of the editions.
"$program" mkfs 6 six 100 4 0 0 1000
refuses 1 'unixvol: bounds' resize 6 six 65536
refuses 1 $'unixvol: bounds\nunixvol: six: no volume of the edition has these sizes' --explain resize 6 six 65536
prints none resize 6 six 65535
sized 'the largest volume of edition 6' six 65535
"$program" check 6 six > output && passes || fails 'the largest volume of edition 6'
resized 'a volume that was the largest for a while' 6 six 100
"$program" mkfs 7 seven 100 4 0 0 1000
refuses 1 'unixvol: bounds' resize 7 seven 16777217 -n
# A volume without files has a root, whose block it needs.
for edition in 6 7; do
    "$program" mkfs "$edition" new 300 5 0 0 1000
    least=$(needed "$edition" new)
    resized "a new volume of edition $edition" "$edition" new "$least"
done

# Words that say nothing, and volumes that aren't sound.
for words in '7 seven' '7 seven x' '7 seven -1' '7 seven 4294967296' '7 seven rk05' '7 seven 200 300' '8 seven 200'; do
    read -r -a given <<< "$words"
    runs resize "${given[@]}"
    has "the status of resize $words" 2 "$(cat status)"
done
changed seven damaged 1090 '05'
refuses 1 'unixvol: unsound, rule 12' resize 7 damaged 200
refuses 3 'unixvol: cannot read absent' resize 7 absent 200
refuses 3 'unixvol: cannot read absent' resize 7 absent 200 -n
mkfifo pipe
refuses 3 'unixvol: cannot write pipe' resize 7 pipe 200

# Bytes after the volume stay, and the file as long as it is, unless the volume takes them.
{ cat seven; head -c 20000 /dev/zero | tr '\0' z; } > longer
cp longer before
prints none resize 7 longer 120
has 'the size of a file with bytes after its volume' "$(stat -c %s before)" "$(stat -c %s longer)"
cmp -s <(tail -c +$((512 * 120 + 1)) longer) <(tail -c +$((512 * 120 + 1)) before)
has 'the bytes after a volume that grew into them' 0 $?
prints none resize 7 longer 50
cmp -s <(tail -c +$((512 * 120 + 1)) longer) <(tail -c +$((512 * 120 + 1)) before)
has 'the bytes after a volume that became smaller' 0 $?
prints none resize 7 longer 500
sized 'a file whose volume grew past its end' longer 500

# A pack: a volume gets blocks up to the next volume, or to the pack's end, and no others; the other volume keeps every byte.
"$program" mkfs 7 first 300 8 0 0 1000
"$program" mkfs 6 second 200 4 0 0 1000
"$program" put 7 first /hello hello 1001
"$program" put 6 second /hello hello 1001
body pack $((512 * 1000))
dd if=first of=pack conv=notrunc status=none
dd if=second of=pack seek=600 conv=notrunc status=none
cp pack before
shown 7 pack > wanted
shown 6 pack --at 600 > line6
refuses 3 'unixvol: cannot write pack' resize 7 pack 601
refuses 3 $'unixvol: cannot write pack\nunixvol: pack: it would overwrite blocks of the volume at block 600, which has 200' --explain resize 7 pack 601
refuses 3 'unixvol: cannot write pack' resize 7 pack 601 -n
refuses 3 'unixvol: cannot write pack' resize 7 pack 5000
refuses 3 'unixvol: cannot write pack' resize 6 pack 401 --at 600
refuses 3 $'unixvol: cannot write pack\nunixvol: pack: it has only 1000 blocks' --explain resize 6 pack 401 --at 600
saves 'a pack in which nothing was resized' pack before
prints none resize 7 pack 600
prints none resize 6 pack 400 --at 600
sized 'a pack' pack 1000
shown 7 pack > came
saves 'the files of the first volume of a pack' came wanted
shown 6 pack --at 600 > came
saves 'the files of the second volume of a pack' came line6
for words in '7 pack' '6 pack --at 600'; do
    read -r -a given <<< "$words"
    "$program" check "${given[@]}" > output && passes || fails "check $words"
done
"$program" resize 7 first 600
"$program" resize 6 second 400
dd if=first of=before conv=notrunc status=none
dd if=second of=before seek=600 conv=notrunc status=none
saves 'a pack with two larger volumes' pack before
prints none resize 7 pack 300
prints none resize 6 pack 100 --at 600
"$program" resize 7 first 300
"$program" resize 6 second 100
dd if=first of=before conv=notrunc status=none
dd if=second of=before seek=600 conv=notrunc status=none
saves 'a pack with two smaller volumes' pack before
{
    echo 'pack: looks like a larger pack'
    echo '  at 0: a volume of edition 7, with 300 blocks, sound: unixvol ls 7 pack'
    echo '  at 300: 300 blocks of other bytes'
    echo '  at 600: a volume of edition 6, with 100 blocks, sound: unixvol ls 6 pack --at 600'
} > line
"$program" identify pack | head -n 4 > output
saves 'what identify says of a pack with smaller volumes' output line

# A volume that is cut off keeps its blocks too.
"$program" mkfs 7 one 100 20 0 0 0
"$program" mkfs 7 two 100 20 0 0 0
{ cat one; head -c 30720 two; } > cut.pack
cp cut.pack before
refuses 3 'unixvol: cannot write cut.pack' resize 7 cut.pack 110
refuses 3 'unixvol: cannot write cut.pack' mkfs --at 110 7 cut.pack 20 5 0 0 0
saves 'a pack with a volume that is cut off' cut.pack before

# Holes stay holes, and a full disk leaves the old file.
truncate -s $((512 * 4000)) holes
dd if=first of=holes conv=notrunc status=none
prints none resize 7 holes 4000
has 'a volume that grew into a hole' yes "$([ "$(du -k holes | cut -f 1)" -lt 1000 ] && echo yes || du -k holes)"
cp first before
(ulimit -f 100; trap '' XFSZ; runs resize 7 first 4000)
echo 'unixvol: cannot write first' > line
wants 'resize where the new file finds no room' 3 none line
saves 'a volume whose new file found no room' first before

# A volume on a device gets smaller, and larger up to the device's end or the next volume.
cp pack wanted
"$program" resize 7 wanted 600
"$program" resize 6 wanted 400 --at 600
if device=$(losetup -f --show pack 2> /dev/null); then
    refuses 3 "unixvol: cannot write $device"$'\n'"unixvol: $device: it would overwrite blocks of the volume at block 600, which has 100" \
        --explain resize 7 "$device" 601
    refuses 3 "unixvol: cannot write $device"$'\n'"unixvol: $device: it has only 1000 blocks" --explain resize 6 "$device" 401 --at 600
    prints none resize 7 "$device" 600
    prints none resize 6 "$device" 400 --at 600
    sync "$device"
    saves 'a pack on a device with two larger volumes' pack wanted
    prints none resize 7 "$device" 200
    losetup -d "$device"
    "$program" check 7 pack > output && passes || fails 'a volume on a device that became smaller'
else
    echo 'skipped: no loop device can be had, so no volume on a device is resized'
fi

echo "$passed passed, $failed failed"
[ "$failed" = 0 ]
