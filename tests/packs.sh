#!/usr/bin/env bash
# Runs the built program on a volume inside a disk pack: what it shows is compared with what it shows of the volume cut out by dd, and a pack that was
# changed with the old pack into which dd writes the changed volume.
# Usage: tests/packs.sh PROGRAM. It prints a line for each row that fails, and ends with 'N passed, N failed'.
. "$(dirname "$0")/rows.sh"
: > none

# cut_out PACK BLOCK COUNT FILE: FILE is so many blocks of PACK
cut_out() { dd if="$1" of="$4" bs=512 skip="$2" count="$3" status=none; }

# placed FILE BLOCK PACK: puts the volume in FILE into PACK
placed() { dd if="$1" of="$3" bs=512 seek="$2" conv=notrunc status=none; }

# stored FILE: the KiB that a file takes on its disk
stored() { du -k "$1" | cut -f 1; }

# A pack with holes, and three volumes: one of the seventh edition at its beginning, a gap, one of the seventh and one of the sixth; and some blocks more.
blocks=24000 seventh=9614 sixth=21000
body pack $((512 * blocks))
printf 'what follows\n' | dd of=pack bs=512 seek=23000 conv=notrunc status=none
"$program" mkfs 7 first 3000 100 0 0 1000
"$program" mkfs 7 second 8000 200 0 0 1000
"$program" mkfs 6 third 1500 20 0 0 1000
head -c 300000 /dev/urandom > body
"$program" mkdir 7 second /d 1001
"$program" put 7 second /d/body body 1002
"$program" mkdir 7 first /other 1001
"$program" put 6 third /motd body 1001
placed first 0 pack
placed second $seventh pack
placed third $sixth pack
cp --sparse=always pack before
room=$(stored before)

# looks_same BLOCK EDITION VOLUME WORD..: a command shows the same of the volume in its place, in a file and through a pipe, as of the volume by itself
looks_same() {
    local at=$1 edition=$2 volume=$3 command=$4
    shift 4
    runs "$command" "$edition" "$volume" "$@"
    cp output wanted
    cp error line
    local status
    status=$(cat status)
    runs "$command" "$edition" pack "$@" --at "$at"
    wants "$command $* --at $at" "$status" wanted line
    cat pack | { "$program" "$command" "$edition" /dev/stdin "$@" --at "$at" > output 2> error; echo $? > status; cat > /dev/null; }
    wants "$command $* --at $at through a pipe" "$status" wanted line
}

# `identify` names each volume, what is between them, and the command to go on with; the first bytes of a pack don't hide its first volume.
{
    echo 'pack: looks like a larger pack'
    echo '  at 0: a volume of edition 7, with 3000 blocks, sound: unixvol ls 7 pack'
    echo "  at 3000: $((seventh - 3000)) blocks of zeros"
    echo "  at $seventh: a volume of edition 7, with 8000 blocks, sound: unixvol ls 7 pack --at $seventh"
    echo "  at $((seventh + 8000)): $((sixth - seventh - 8000)) blocks of zeros"
    echo "  at $sixth: a volume of edition 6, with 1500 blocks, sound: unixvol ls 6 pack --at $sixth"
    echo "  at $((sixth + 1500)): $((blocks - sixth - 1500)) blocks of other bytes"
} > lines
prints lines identify pack
grep -o 'unixvol .*' lines | while read -r _ words; do
    read -r -a given <<< "$words"
    "$program" "${given[@]}" > output 2> error || echo "$words"
done > failing
has 'the commands that identify names' '' "$(cat failing)"
sed 's/^pack/broken/; s/ls \([67]\) pack/ls \1 broken/' lines > line
cp pack broken
printf '\037\213' | dd of=broken conv=notrunc status=none
prints line identify broken
# Its commands are words of a shell.
for row in "a b;c|'a b;c'" "it's|'it'\\''s'" '-p|./-p' $'it\'s\e\\\n|$\'it\\\'s\\033\\\\\\012\''; do
    cp pack "./${row%%|*}"
    runs identify -- "${row%%|*}"
    has "the commands for ${row%%|*}" "unixvol ls 7 ${row#*|}" "$(grep -o 'unixvol ls 7 .*' output | head -n 1)"
    grep -o 'unixvol ls .*' output | while read -r line; do eval "${line/#unixvol/\"\$program\"}" > listed 2> error || echo "$line"; done > failing
    has "the commands for ${row%%|*}, as a shell runs them" '' "$(cat failing)"
    rm "./${row%%|*}"
done
# What is inside a volume isn't looked at.
cp second holder
"$program" put 7 holder /image third 1003
placed holder $seventh broken
prints line identify broken
printf '\005' | dd of=broken bs=1 seek=$((512 * sixth + 1026)) conv=notrunc status=none
sed -i 's/, sound: unixvol ls 6/, which breaks rule 12: unixvol check 6/' line
prints line identify broken
rm broken holder

cut_out pack $seventh 8000 cut
saves 'the volume that was put into the pack' cut second
for words in 'cat /d/body' 'cat 3' 'ls' 'ls /d --long' 'ls --slots' 'ls -R --json' 'get /d/body' 'find' 'find -g b*' 'export' 'sums' 'sums --json' 'inode /d/body' 'super' \
    'free' 'block 300' 'df' 'map' 'map --svg' 'check' 'check --json' 'icheck 2' 'dcheck 2' 'ncheck 2' 'salvage -n' 'repair -n'; do
    read -r -a given <<< "$words"
    looks_same $seventh 7 second "${given[@]}"
done
for words in 'ls' 'get /motd' 'check' 'super' 'export'; do
    read -r -a given <<< "$words"
    looks_same $sixth 6 third "${given[@]}"
done
looks_same 0 7 first ls

# What is made of a volume in a pack is the volume alone.
prints none get 7 pack --at $seventh -o . /d/body
"$program" get 7 second /d/body > wanted
saves 'a file that was taken out of a pack' body wanted
"$program" salvage 7 second -o wanted > report
prints report salvage 7 pack -o made --at $seventh
saves 'a volume that was salvaged out of a pack' made wanted
prints none migrate third wanted 4000 100 2000
prints none migrate pack made 4000 100 2000 --at $sixth
saves 'a volume that was migrated out of a pack' made wanted
saves 'a pack that was only read' pack before

# changes BLOCK EDITION VOLUME WORD..: a command changes the volume in its place, and all else in the pack stays
changes() {
    local at=$1 edition=$2 volume=$3 command=$4
    shift 4
    runs "$command" "$edition" "$volume" "$@"
    cp output wanted
    cp error line
    local status
    status=$(cat status)
    runs "$command" "$edition" pack "$@" --at "$at"
    wants "$command $* --at $at" "$status" wanted line
    placed "$volume" "$at" before
    saves "a pack after $command $* --at $at" pack before
}
printf '5 0 0 create /played 644\n5 0 0 write /played 0 616263\n' > script
changes $seventh 7 second mkdir /new 2000
changes $seventh 7 second mkdir -p /new/a/b 2000
changes $seventh 7 second put /new/file body 2001
changes $seventh 7 second put -t /new body script 2002
changes $seventh 7 second ln /new/file /linked 2003
changes $seventh 7 second mv /linked /moved 2004
changes $seventh 7 second chmod /moved 600 2005
changes $seventh 7 second chown /moved 3 4 2006
changes $seventh 7 second touch /moved 2007
changes $seventh 7 second rm /new/file 2008
changes $seventh 7 second rm -r /new/a 2009
changes $seventh 7 second rmdir /absent 2010
changes $seventh 7 second salvage
changes $seventh 7 second play script
changes $sixth 6 third mkdir /new 2000
changes 0 7 first mkdir /new 2000
"$program" export 7 second /d > archive
for volume in 'second 7' "pack 7 --at $seventh"; do
    read -r -a given <<< "$volume"
    "$program" import "${given[1]}" "${given[0]}" / 2011 "${given[@]:2}" < archive > output 2> error
    has "import into ${given[0]}" 0 $?
done
placed second $seventh before
saves 'a pack after an import' pack before
has 'the room of a pack that was changed' yes "$([ "$(stored pack)" -le $((room + 2048)) ] && echo yes || stored pack)"

# A pack without holes is saved without.
cp --sparse=never pack full
sync full
if [ "$(stored full)" -ge 11900 ]; then
    prints none touch 7 full --at $seventh /moved 2012
    has 'the room of a pack that had no holes' yes "$([ "$(stored full)" -ge 11900 ] && echo yes || stored full)"
fi
rm full

# A pack that is all one hole keeps it.
truncate -s 20M hollow
if [ "$(stored hollow)" = 0 ]; then
    prints none mkfs 7 hollow 2000 100 0 0 1 --at 18000
    has 'the room of a pack that was one hole' yes "$([ "$(stored hollow)" -le 2048 ] && echo yes || stored hollow)"
fi
rm hollow

# Places where there is no volume.
refuses 3 'unixvol: cannot read pack' ls 7 pack --at $((blocks + 1))
printf '%s\n' 'unixvol: cannot read pack' "unixvol: pack: it ends before block $((blocks + 1))" > line
runs --explain ls 7 pack --at $((blocks + 1))
wants 'what is said of a place after the end of a pack' 3 none line
runs --explain mkdir 7 pack /a 1 --at $((blocks + 1))
wants 'what is said of a change after the end of a pack' 3 none line
cat pack | { "$program" --explain ls 7 /dev/stdin --at $((blocks + 1)) > output 2> error; echo $? > status; }
printf '%s\n' 'unixvol: cannot read /dev/stdin' "unixvol: /dev/stdin: it ends before block $((blocks + 1))" > line
wants 'what is said of a place after the end of a pipe' 3 none line
refuses 1 'unixvol: unsound, rule 1' ls 7 pack --at $blocks
refuses 1 'unixvol: unsound, rule 1' ls 7 pack --at $((blocks - 1))
refuses 1 'unixvol: unsound, rule 2' ls 7 pack --at 3100
refuses 1 'unixvol: unsound, rule 2' mkdir 7 pack /a 1 --at 3100
refuses 3 'unixvol: cannot read pack' ls 7 pack --at 4294967295
for number in x '' -1 +1 4294967296 1,2 1.0 0x10; do
    runs ls 7 pack "--at=$number"
    has "the status of --at=$number" 2 "$(cat status)"
done
misread "error: unexpected argument '--at' found" identify pack --at 18000
saves 'a pack after commands that were refused' pack before

# `mkfs --at` makes a volume in its place in a pack, and every other byte of the pack stays.
made=$((seventh - 1000))
"$program" mkfs 7 wanted 900 20 0 0 1000
cp --sparse=always pack made
cp before placed
placed wanted $made placed
prints none mkfs 7 made 900 20 0 0 1000 --at $made
saves 'a volume that was made in a pack' made placed
has 'the room of a pack in which a volume was made' yes "$([ "$(stored made)" -le $((room + 2048)) ] && echo yes || stored made)"
runs check --status 7 made --at $made
has 'the status of a check of a volume that was made in a pack' 0 "$(cat status)"
# A volume that begins there is replaced, also by one that ends where the next begins.
prints none mkfs 7 made 1000 20 0 0 1001 --at $made
"$program" mkfs 7 wanted 1000 20 0 0 1001
placed wanted $made placed
saves 'a volume that was made in the place of another' made placed
prints none mkfs 6 made 3000 100 0 0 1000 --at 0
"$program" mkfs 6 wanted 3000 100 0 0 1000
placed wanted 0 placed
saves 'a volume that was made at the beginning of a pack' made placed
# overwrites BLOCK COUNT WHY: no volume is made there
overwrites() {
    printf '%s\n' 'unixvol: cannot write made' "unixvol: made: $3" > line
    runs --explain mkfs 7 made "$2" --at "$1"
    wants "mkfs of $2 blocks at $1" 3 none line
}
overwrites 100 50 'it would overwrite blocks of the volume at block 0, which has 3000'
overwrites 2999 100 'it would overwrite blocks of the volume at block 0, which has 3000'
overwrites 4000 $((made - 3999)) "it would overwrite blocks of the volume at block $made, which has 1000"
overwrites $made 1001 "it would overwrite blocks of the volume at block $seventh, which has 8000"
overwrites $((sixth + 1500)) $((blocks - sixth - 1499)) "it has only $blocks blocks"
overwrites 4294967295 100 "it has only $blocks blocks"
saves 'a pack in which no volume was made' made placed
refuses 3 'unixvol: cannot write absent' mkfs 7 absent 100 --at 0
has 'a file in which a volume was to be made' no "$([ -e absent ] && echo yes || echo no)"
refuses 3 'unixvol: cannot write /dev/null' mkfs 7 /dev/null 100 --at 0
refuses 1 'unixvol: bounds' mkfs 7 made 3 --at 4000
misread "error: the argument '--at' cannot be used with '--new'" mkfs --new 7 made 100 --at 4000
misread "error: invalid value 'x' for '--at <BLOCK>'" mkfs 7 made 100 --at x
saves 'a pack after refused words of mkfs' made placed
rm made placed

# What `identify --json` and `--csv` say of a pack.
"$program" mkfs 7 one 200 10 0 0 1000
"$program" mkfs 6 two 100 5 0 0 1000
"$program" put 6 two /motd script 1001
body small $((512 * 400 + 7))
placed one 0 small
placed two 250 small
printf '\005' | dd of=small bs=1 seek=$((512 * 250 + 1026)) conv=notrunc status=none
{
    printf '{"bytes":204807,"file":"small","format":1,"guess":"pack","parts":['
    printf '{"block":0,"blocks":200,"command":"unixvol ls 7 small","edition":7,"rule":null,"sound":true},'
    printf '{"block":200,"blocks":50,"zeros":true},'
    printf '{"block":250,"blocks":100,"command":"unixvol check 6 small --at 250","edition":6,"rule":12,"sound":false},'
    printf '{"block":350,"blocks":50,"zeros":true}],"read":null,"tail":7}\n'
} > line
prints line identify --json small
runs identify small
has 'the last line of a pack' '  at 400: 7 bytes follow' "$(tail -n 1 output)"
name="a 'b',\"c\".img"
cp small "$name"
"$program" identify --json "$name" > output 2> error
has 'the commands of an image whose name a shell would split' "0 unixvol ls 7 'a '\\''b'\\'',\"c\".img'" \
    "$? $(python3 -c 'import json; print(json.load(open("output"))["parts"][0]["command"])')"
has 'the name of such an image' "$name" "$(python3 -c 'import json; print(json.load(open("output"))["file"])')"
sum=$(sha256sum < small)
{
    echo 'file,bytes,sha256,block,edition,blocks,free_blocks,files,verdict,time'
    for row in small "\"a 'b',\"\"c\"\".img\""; do
        echo "$row,204807,${sum%% *},0,7,200,187,0,sound,1970-01-01 00:16:40"
        echo "$row,204807,${sum%% *},250,6,100,91,1,rule 12,1970-01-01 00:16:41"
    done
} > lines
prints lines identify --csv small script "$name"
echo 'unixvol: cannot read absent' > error.wanted
head -n 3 lines > line
runs identify --csv absent small
wants 'a catalogue with a file that is missing' 3 line error.wanted
printf '%s\n' 'unixvol: cannot read /dev/null' 'unixvol: /dev/null: it is no regular file, and a catalogue reads it more than once' > error.wanted
head -n 1 lines > line
runs --explain identify --csv /dev/null
wants 'a catalogue of a device' 3 line error.wanted
misread "error: the argument '--csv' cannot be used with '--json'" identify --csv --json small

# A save that fails leaves the old pack.
(ulimit -f 4000; trap '' XFSZ; runs mkdir 7 pack /e 3000 --at $seventh)
echo 'unixvol: cannot write pack' > line
wants 'mkdir where the new pack finds no room' 3 none line
saves 'a pack whose new file found no room' pack before
# Another program changes another volume of the pack meanwhile.
mkfifo slow
"$program" put 7 pack /slow slow 3000 --at $seventh > output 2> error &
put=$!
exec 3> slow
"$program" mkdir 7 pack /meanwhile 3000
echo slow >&3
exec 3>&-
wait $put
has 'the status of a put that waited for its file' 0 $?
"$program" mkdir 7 first /meanwhile 3000
echo slow > text
"$program" put 7 second /slow text 3000
placed first 0 before
placed second $seventh before
saves 'a pack of which two volumes were changed at once' pack before

# On a device only the volume's bytes are written.
if device=$(losetup -f --show pack 2> /dev/null); then
    prints none mkdir 7 "$device" /device 3000 --at $seventh
    "$program" mkdir 7 second /device 3000
    refuses 3 "unixvol: cannot read $device" ls 7 "$device" --at $((blocks + 1))
    losetup -d "$device"
    placed second $seventh before
    saves 'a pack on a device' pack before
else
    echo 'skipped: no loop device can be had, so no pack on a device is changed'
fi

# On a device a volume is made in its place, but in no block of another volume, and not past the end.
image small 512000
"$program" mkfs 7 one 300 10 0 0 1000
"$program" mkfs 6 two 600 10 0 0 1000
cp small wanted
dd if=one of=wanted seek=100 conv=notrunc status=none
dd if=two of=wanted seek=400 conv=notrunc status=none
if device=$(losetup -f --show small 2> /dev/null); then
    prints none mkfs 7 "$device" 300 10 0 0 1000 --at 100
    refuses 3 "unixvol: cannot write $device"$'\n'"unixvol: $device: it would overwrite blocks of the volume at block 100, which has 300" \
        --explain mkfs 6 "$device" 600 10 0 0 1000 --at 399
    refuses 3 "unixvol: cannot write $device"$'\n'"unixvol: $device: it has only 1000 blocks" --explain mkfs 6 "$device" 601 10 0 0 1000 --at 400
    prints none mkfs 6 "$device" 600 10 0 0 1000 --at 400
    # What is on a device stays if a new volume is too large for it.
    "$program" mkfs 7 large 1001 10 0 0 1000
    for words in 'mkfs 7 DEVICE 1001 10 0 0 1000' 'repair 7 large DEVICE 1000' 'salvage 7 large -o DEVICE'; do
        refuses 3 "unixvol: cannot write $device"$'\n'"unixvol: $device: it has only 1000 blocks" --explain ${words/DEVICE/$device}
    done
    losetup -d "$device"
    saves 'a device in which two volumes were made' small wanted
else
    echo 'skipped: no loop device can be had, so no volume is made in one'
fi

# A volume of a pack is served, and saved in its place.
"$program" serve --at $seventh 7 pack < /dev/null > output 2> error
has 'the status of a server without requests' 0 $?
"$program" serve --read-only --at $seventh 7 pack < /dev/null > output 2> error
has 'the status of a server that only reads' 0 $?
saves 'a pack after servers without requests' pack before

if [ -n "${ELSEWHERE:-}" ]; then
    echo 'skipped: the files below folders, since a program elsewhere may know no folders'
    echo "$passed passed, $failed failed"
    [ "$failed" = 0 ]
    exit
fi

# A device without an end that can be moved to has no blocks.
refuses 3 $'unixvol: cannot write /dev/null\nunixvol: /dev/null: it has only 0 blocks' --explain mkfs 7 /dev/null 200 10 0 0 1000 --at 1

# A folder of images: its files come first, then its folders, by the bytes of their names. Links aren't followed, and only regular files are read.
mkdir -p tree/b/deep tree/a tree/empty tree/B
"$program" mkfs 7 tree/volume 20 1 0 0 1
for number in $(seq 10 27); do
    printf 'text' > "tree/a/text.$number"
    printf '' > "tree/b/empty.$number"
done
cp tree/volume tree/b/deep/volume
cp tree/volume tree/B/volume
printf 'BZh' > tree/z
ln -s . tree/loop
ln -s ../z tree/a/link
ln -s nowhere tree/a/astray
mkfifo tree/pipe
volume='looks like a volume of edition 7, with 20 blocks, sound'
{
    echo "tree/volume: $volume"
    echo 'tree/z: looks packed by bzip2'
    echo "tree/B/volume: $volume"
    for number in $(seq 10 27); do echo "tree/a/text.$number: looks like nothing that unixvol knows"; done
    for number in $(seq 10 27); do echo "tree/b/empty.$number: looks empty: it has no bytes but zeros"; done
    echo "tree/b/deep/volume: $volume"
} > lines
prints lines identify -r tree
(ulimit -v 300000 && exec "$program" identify --recursive tree) > output 2> error
has 'the files below a folder, in little memory' "0$(cat lines)" "$?$(cat output error)"
prints lines identify -r tree/
has 'the number of files below a folder' 40 "$(wc -l < lines)"

# Words that are files have their lines, in their places; without the option a folder isn't read.
{ echo 'tree/z: looks packed by bzip2' && grep '^tree/b/' lines && echo "tree/volume: $volume"; } > some
prints some identify -r tree/z tree/b tree/volume
prints none identify -r tree/empty
refuses 3 'unixvol: cannot read tree' identify tree
{ echo 'tree/z: looks packed by bzip2' && grep '^tree/b/' lines; } > some
runs identify -r tree/z tree/none tree/b
echo 'unixvol: cannot read tree/none' > line
wants 'a word that names nothing, between others' 3 some line

# A link that is a word is followed.
ln -s tree/b there
sed -n 's@^tree/b/@there/@p' lines > some
prints some identify -r there

# One object a file, and one table for all.
"$program" identify --json -r tree > output
has 'the objects of the files below a folder' "$(sed 's/: looks.*//' lines)" "$(sed 's/.*"file":"\([^"]*\)".*/\1/' output)"
"$program" identify --csv -r tree > output
has 'the rows of the volumes below a folder' "$(printf '%s\n' file tree/volume tree/B/volume tree/b/deep/volume)" "$(cut -d , -f 1 output)"

# A name that isn't UTF-8, and a folder without rights: a fault each, and the run goes on.
printf x > "$(printf 'tree/b/\377')"
runs identify -r tree
echo 'unixvol: cannot read tree/b' > line
wants "a name that isn't UTF-8" 3 lines line
runs identify -r tree --explain
echo 'unixvol: tree/b: a name in it is not UTF-8 text' >> line
wants "the second line for a name that isn't UTF-8" 3 lines line
rm "$(printf 'tree/b/\377')"
# The super-user may read each folder, so the program runs as another user then.
user=''
if [ "$(id -u)" = 0 ]; then
    user=$program
    chmod 755 . "$folder"
    cp "$program" another
    printf '#!/bin/sh\nexec setpriv --reuid 65534 --regid 65534 --clear-groups ./another "$@"\n' > as-another
    chmod 755 as-another
    program=$PWD/as-another
fi
chmod 0 tree/b
grep -v '^tree/b/' lines > some
echo 'unixvol: cannot read tree/b' > line
runs identify -r tree
wants 'a folder without rights' 3 some line
chmod 755 tree/b
program=${user:-$program}

# If standard output fails, no further file is read.
"$program" identify -r tree > /dev/full 2> error
has 'the files below a folder, to a full device' '3 unixvol: cannot write -' "$? $(cat error)"

echo "$passed passed, $failed failed"
[ "$failed" = 0 ]
