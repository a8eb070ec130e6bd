#!/usr/bin/env bash
# Runs `salvage` of the built program on damaged free lists, with its options, and on volumes that it refuses.
# Usage: tests/salvage.sh PROGRAM. It prints each row that fails, and ends with 'N passed, N failed'.
. "$(dirname "$0")/rows.sh"

printf hello > hello
# A new volume of twenty blocks of the sixth edition, two of them the i-list; tests/mkfs.sh compares its bytes.
"$program" mkfs 6 made 20 2 0 0 168496141
mkfifo pipe

# Free lists that are rebuilt. `made` has the list that `mkfs` makes, which is also the one that `salvage` makes.
# foresees LABEL ADDED TAKEN EDITION IMAGE: `salvage -n` reports these numbers of blocks, and changes nothing
foresees() {
    cp "$5" before
    echo "free list: $2 blocks added, $3 taken away" > wanted
    prints wanted salvage "$4" "$5" -n
    saves "$1, after salvage -n" "$5" before
}
# salvages LABEL AT HEX ADDED TAKEN: `ls` refuses a copy of `made` with these bytes from byte AT on, `salvage -n` reports these numbers of
# blocks, and `salvage` restores `made`, in which the blocks 5 to 19 are free
salvages() {
    changed made damaged "$2" "$3"
    chmod 640 damaged
    runs ls 6 damaged /
    has "the status of ls of $1" 1 "$(cat status)"
    foresees "$1" "$4" "$5" 6 damaged
    prints none salvage 6 damaged
    saves "$1, salvaged" damaged made
    has "the permissions of $1" 640 "$(stat -c %a damaged)"
}
salvages 'a volume that lost a block' 516 '0F 00' 1 0
salvages 'a volume with a free block that the root has' 520 '04 00' 1 1
salvages 'a volume with too long a free list' 516 '65 00' 15 0
salvages 'a volume with a free block outside of the data' 520 '14 00' 1 0
cp made damaged
foresees 'a volume with a free list that was right' 0 0 6 damaged
prints none salvage 6 damaged
saves 'a volume with a free list that was right' damaged made
{ cat made; echo tail; } > longer
changed longer damaged 516 '0F 00'
prints none salvage 6 damaged
saves 'an image with bytes behind the volume, salvaged' damaged longer
prints none mkfs 7 made7 100 2 0 0 168496141
changed made7 damaged 25602 '00 00 32 00' # block 50, which has the rest of the list, names itself as the next such block
refuses 1 'unixvol: unsound, rule 6' ls 7 damaged /
foresees 'a volume with a free list that goes round' 0 0 7 damaged # the blocks 5 to 99 come before the fault
prints none salvage 7 damaged
saves 'a volume with a free list that goes round, salvaged' damaged made7
# A volume with files, cached i-numbers and bytes past the end of a file: everything except the free list stays.
cp "$samples/linux_made.v7" files
put files $((20 * 512 + 500)) 'AA BB' # block 20 has the eight bytes of /etc/motd
changed files damaged 518 '30 00'
refuses 1 'unixvol: unsound, rule 8' ls 7 damaged /
prints none salvage 7 damaged
# stays LABEL FROM COUNT: these bytes of the salvaged volume are unchanged
stays() { has "$1 of a salvaged volume" "$(od -An -v -tx1 -j "$2" -N "$3" files)" "$(od -An -v -tx1 -j "$2" -N "$3" damaged)"; }
stays 'the boot block and the sizes' 0 518
stays 'the cache, the flags and the time' 720 304
stays 'the i-list' 1024 6144
stays 'the block of a file, past its end too,' $((20 * 512)) 512
"$program" export 7 files > wanted
prints wanted export 7 damaged
cp damaged before
prints none salvage 7 damaged
saves 'a volume that was salvaged before' damaged before
# Two files of one block each, and the second one names the block of the first.
cp made twice
printf A > one_letter
prints none put 6 twice /a one_letter 1
prints none put 6 twice /b one_letter 1
put twice $((1024 + 32 * 30 + 8)) '05 00'
cp twice before
touch -d '2001-02-03 04:05:06.789' twice
stood=$(stat -c '%i %y' twice)
refuses 1 'unixvol: unsound, rule 7' salvage 6 twice
refuses 1 'unixvol: unsound, rule 7' salvage 6 twice -n
saves 'a volume with a block of two files' twice before
has 'a volume that was not salvaged' "$stood" "$(stat -c '%i %y' twice)"
changed made damaged 1026 '05'
refuses 1 'unixvol: unsound, rule 12' salvage 6 damaged
put damaged 516 '0F 00'
refuses 1 'unixvol: unsound, rule 12' salvage 6 damaged
refuses 1 'unixvol: unsound, rule 1' salvage 6 none
refuses 3 'unixvol: cannot read missing' salvage 6 missing
refuses 3 'unixvol: cannot read missing' salvage 6 missing --dry-run
refuses 3 'unixvol: cannot write pipe' salvage 6 pipe
changed made damaged 516 '0F 00'
cp damaged before
(ulimit -f 8; trap '' XFSZ; runs salvage 6 damaged)
echo 'unixvol: cannot write damaged' > line
wants 'salvage where the new file finds no room' 3 none line
saves 'a volume whose salvaged one found no room' damaged before
ln -s damaged leads
prints none salvage 6 leads
has 'a link to a volume that was salvaged' damaged "$(readlink leads)"
saves 'what a link leads to, salvaged' damaged made

# `salvage -o` leaves its volume as it is, and makes another file or replaces it.
changed made damaged 520 '04 00' # block 4 is free, and block 19 isn't
cp damaged before
ln -s damaged leads_to_it
ln damaged second_name
stood=$(stat -c '%i %y' damaged)
echo 'free list: 1 blocks added, 1 taken away' > wanted
prints wanted salvage 6 damaged -o salvaged
saves 'a volume salvaged into a new file' salvaged made
echo something > salvaged
chmod 640 salvaged
prints wanted salvage 6 damaged --output=salvaged
saves 'a volume salvaged into a file that was there' salvaged made
has 'the permissions of a file that a salvaged volume replaced' 640 "$(stat -c %a salvaged)"
for path in damaged ./damaged "$folder/damaged" leads_to_it second_name; do
    refuses 3 "unixvol: cannot write $path" salvage 6 damaged -o "$path"
    refuses 3 'unixvol: cannot write damaged' salvage 6 "$path" -o damaged
done
rm -f salvaged leads_to_it second_name
prints wanted salvage 6 damaged -n -o salvaged
refuses 3 'unixvol: cannot write no/folder' salvage 6 damaged -o no/folder
refuses 3 'unixvol: cannot write /dev/full' salvage 6 damaged -o /dev/full
refuses 3 'unixvol: cannot read missing' salvage 6 missing -o salvaged
refuses 1 'unixvol: unsound, rule 7' salvage 6 twice -o salvaged
has 'the file of a volume that was not salvaged' none "$([ -e salvaged ] && echo some || echo none)"
saves 'a volume that was salvaged into another file' damaged before
has 'a volume that was only read' "$stood" "$(stat -c '%i %y' damaged)"
"$program" salvage 6 damaged -o salvaged > /dev/full 2> error
has 'salvage -o to a full device' '3 unixvol: cannot write -' "$? $(cat error)"
saves 'a volume salvaged without a report' salvaged made
misread 'error: a value is required' salvage 6 damaged -o
# Where the copy goes to standard output, by any name, the report goes to standard error.
for path in /dev/stdout /proc/self/fd/1 /dev/fd/1; do
    "$program" salvage 6 damaged -o "$path" 2> error | cat > copied
    saves "a volume salvaged to a pipe, $path," copied made
    has "the report of salvage -o $path" "$(cat wanted)" "$(cat error)"
    runs salvage 6 damaged -o "$path"
    wants "salvage -o $path into a file" 0 made wanted
done
"$program" salvage 6 damaged -o copied > copied 2> error
has 'the report of salvage -o to the file of standard output' "0 $(cat wanted)" "$? $(cat error)"
saves 'a volume salvaged to the file of standard output' copied made
"$program" salvage 6 damaged -o /dev/stdout > /dev/full 2> error
has 'salvage -o /dev/stdout to a full device' '3 unixvol: cannot write /dev/stdout' "$? $(cat error)"

echo "$passed passed, $failed failed"
[ "$failed" = 0 ]
