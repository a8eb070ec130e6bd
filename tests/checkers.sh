#!/usr/bin/env bash
# Runs the checkers of the built program, `icheck`, `dcheck` and `ncheck`, each with 1, 2, 7 and 64 threads, on images that are sound or not, and
# compares their reports byte by byte. tests/icheck.sh has small volumes, and the refusals of the three commands.
# Usage: tests/checkers.sh PROGRAM. It prints a line for each row that fails, and ends with 'N passed, N failed'.
. "$(dirname "$0")/rows.sh"

# New volumes, two of their blocks the i-list: of 20 blocks of the sixth edition, whose root is in block 4, and of 100 of the seventh.
"$program" mkfs 6 new.6 20 2 0 0 168496141
"$program" mkfs 7 new.7 100 2 0 0 168496141

# make FILE FROM AT=HEX..: FILE is a copy of the image FROM with these bytes at these offsets
make() {
    local file=$1 piece
    cp "$2" "$file"
    for piece in "${@:3}"; do put "$file" "${piece%%=*}" "${piece#*=}"; done
}

# plays FILE CALL..: user 0 makes these calls on the volume
plays() {
    local file=$1
    shift
    printf '168496141 0 0 %s\n' "$@" > calls
    "$program" play "$edition" "$file" calls > played
    has "the calls on $file" $# "$(grep -c '^1\.[0-9]* ok ' played)"
}

# directory BLOCK: the i-node of a directory with three slots, in this block
directory() { printf 'FFC102000000 3000 %02x00' "$1"; }
regular='A481010000000000'

edition=7

# A new volume.
mapfile -t found < <(totals 0 1 0 0 1 95 0)
finds 0 icheck new.7 "${found[@]}"

# I-number 1 of the seventh edition may have no links; any other that isn't free must have some.
make image new.7 1024=0080
finds 0 dcheck image
make image new.7 1152=0080
finds 1 dcheck image '3 0 0'

# File 3 has a triple indirect block, and in the last image more: one that names itself in all its entries; one of four blocks, each of which names
# the next; and eight that name one another, numbers outside the data zone and 0. The counts were made block by block, by a separate program.
entries() { printf '0000%02x00' "$@"; }
all() { printf "0000$(printf %02x "$1")00%.0s" {1..128}; }
file=("1152=A48101" "1200=003C00")
make image new.7 "${file[@]}" 30720="$(all 60)"
mapfile -t found < <(echo 'dup 60 2113665 1' && totals 1 1 0 0 2 95 0)
finds 1 icheck image "${found[@]}"
make image new.7 "${file[@]}" 30720="$(all 61)" 31232="$(all 62)" 31744="$(all 63)"
mapfile -t found < <(printf '%s\n' 'dup 60 1 1' 'dup 61 128 1' 'dup 62 16384 1' 'dup 63 2097152 1' && totals 1 1 0 0 5 95 0)
finds 1 icheck image "${found[@]}"
make image new.7 "${file[@]}" 1191=003F00003E00003D00
for block in {60..67}; do
    numbers=()
    for entry in {0..127}; do
        if [ $((entry % 11)) = 0 ]; then numbers+=(0)
        elif [ $((entry % 7)) = 0 ]; then numbers+=($((200 + (entry + block) % 9)))
        else numbers+=($((60 + (entry * entry + block) % 8))); fi
    done
    put image $((512 * block)) "$(entries "${numbers[@]}")"
done
mapfile -t found < <(printf '%s\n' 'bad 3 170034 200' 'dup 60 60050 1' 'dup 61 183726 1' 'dup 62 185025 1' 'dup 63 2501 1' \
    'dup 64 60050 1' 'dup 65 183825 1' 'dup 66 189975 1' 'dup 67 125050 1' && totals 1 1 0 0 9 95 0)
finds 1 icheck image "${found[@]}"

# alike FILE INODE: an image of 1 MB in which 8,166 i-nodes begin with these bytes, have no direct blocks, and one triple indirect block, 1024
alike() {
    local inode
    "$program" mkfs 7 "$1" 2048 1021 0 0 0
    printf -v inode '%s%0*d000004%026d' "$2" $((96 - ${#2})) 0 0
    printf '%b' "$(printf "$inode%.0s" {1..8} | sed 's/../\\x&/g')" > inodes
    for _ in {1..1021}; do cat inodes; done | tail -c +129 | dd of="$1" bs=1152 seek=1 conv=notrunc status=none
}

# An image made to keep icheck busy: the block names itself.
alike busy A48101
put busy $((512 * 1024)) "$(printf '00000004%.0s' {1..128})"
mapfile -t found < <(echo 'dup 1024 17260188390 1' && totals 8166 1 0 0 2 1024 0)
printf '%s\n' "${found[@]}" > lines
runs_within 20 icheck 7 busy 1
wants 'icheck of an image that was made to keep it busy' 1 lines none

# One for ncheck: the i-nodes are directories of the greatest size, whose 67 million slots each are all in one block of 32 entries. Its report
# would have 548 billion lines.
alike names ED4101000000000081400014
for block in 1024 1025 1026; do put names $((512 * block)) "$(printf "0000$(printf %02X $((block - 1023)))04%.0s" {1..128})"; done
put names $((512 * 1027)) "$(printf '02007800000000000000000000000000%.0s' {1..32})"
echo 'unixvol: 12 NoMemory' > line
(in_memory 4000000 runs_within 20 ncheck 7 names 1)
wants 'ncheck of an image that was made to fill the memory' 4 none line

# One for dcheck: 24 of these directories, whose 1.6 billion entries are for the root.
cp names entries
dd if=/dev/zero of=entries bs=64 seek=$((16 + 26)) count=$((8168 - 26)) conv=notrunc status=none
(echo '2 1610612738 2' && seq -f '%g 0 1' 3 26) > lines
runs_within 20 dcheck 7 entries 1
wants 'dcheck of an image that was made to keep it busy' 1 lines none

# Eight directories of the greatest size in an image of 6 KB: all of their blocks are one block, with an entry or without.
ringed rings 40755 1082201088 1 8 0100030000000b0000000b0000000b00
(echo '1 228878848 1' && printf '%d 0 1\n' {2..8}) > lines
(ulimit -t "$(seconds 6)"; runs dcheck 7 rings 1)
wants 'dcheck of directories whose entries are in a ring' 1 lines none
ringed rings 40755 1082201088 1 8 00000b00
printf '%d 0 1\n' {1..8} > lines
(ulimit -t "$(seconds 6)"; runs dcheck 7 rings 1)
wants 'dcheck of directories in a ring, without entries' 1 lines none
(ulimit -t "$(seconds 6)"; in_memory 300000 runs ncheck 7 rings 1)
wants 'ncheck of directories in a ring, without entries' 0 none none

# A root of 16,522 blocks that are one block: the lines of 298,304 names are kept, but not their JSON.
ringed many 40755 8459264 2 1 0100030000000b0000000b0000000b00
"$program" ncheck 7 many 1 | awk -v ORS= 'BEGIN { print "{\"faulty\":false,\"format\":1,\"lines\":[" }
    { print (NR > 1 ? "," : "") "{\"ino\":" $1 ",\"line\":\"name\",\"path\":\"/\\\\003\"}" } END { print "]}\n" }' > wanted
(in_memory 100000 runs_within 60 ncheck --json 7 many 1)
wants 'ncheck --json of a root that names one block everywhere' 0 wanted none

# A directory of 66 blocks, which the checkers divide: file 16 has the name `/f` and 2,100 others, and directory 15 is `/d`. Then the last of the
# names is that of a directory.
"$program" mkfs 7 large 300 2 0 0 0
mapfile -t links < <(seq -f 'link /f /n%04g' 2100)
plays large 'create /f 644' 'mkdir /d 755' 'mkdir /d/e 755' "${links[@]}"
finds 0 dcheck large
put large $(($(grep -abo n2100 large | cut -d : -f 1) - 2)) 0F00
finds 1 dcheck large '15 4 3' '16 2100 2101'
mapfile -t found < <(seq -f '16 /n%04g' 2099)
finds 0 ncheck large '14 /d/e' '15 /d' '15 /n2100' '16 /f' "${found[@]}"

# Directory 3 has 527 logical blocks and seven slots. They lead by two shared indirect blocks, 60 and 62, to four blocks of entries, 70 to 73, to holes and
# outside the volume. awk makes these blocks, and counts the entries slot by slot.
awk '
    function entry(block, j) { return j % 11 == 0 ? 0 : j % 7 == 0 ? 200 : 70 + (j * j + block) % 4 }
    function number(b) { return b < 10 ? first[b + 1] : b < 138 ? entry(60, b - 10) : entry(60 + int((b - 138) / 128) % 2 * 2, (b - 138) % 128) }
    function inode(block, slot) { return block >= 70 && block < 74 ? (slot * slot + block) % 20 : 0 }
    BEGIN {
        split("70 71 0 200 70 72 72 0 73 70", first)
        for (block = 60; block < 63; block++) {
            printf "put %d ", 512 * block
            for (j = 0; j < 128; j++) printf "0000%02x00", block == 61 ? 60 + j % 2 * 2 : entry(block, j)
            print ""
        }
        for (block = 70; block < 74; block++) {
            printf "put %d ", 512 * block
            for (slot = 0; slot < 32; slot++) printf "%02x0078%026d", inode(block, slot), 0
            print ""
        }
        links[2] = 2; links[3] = 1; count[2] = 2
        for (slot = 0; slot < 527 * 32 + 7; slot++) { i = inode(number(int(slot / 32)), slot % 32); if (i > 0) { lines++; count[i]++ } }
        for (i = 1; i < 17; i++) if (count[i] != links[i]) print "line", i, count[i] + 0, links[i] + 0
        print "names", lines
    }' > shared.txt
make image new.7 1152=ED4101 1160=0400701E 1164=00460000470000000000C800004600004800004800000000004900004600 1194=003C00003D00
while read -r word at bytes; do
    if [ "$word" = put ]; then put image "$at" "$bytes"; fi
done < shared.txt
mapfile -t found < <(sed -n 's/^line //p' shared.txt)
finds 1 dcheck image "${found[@]}"
has 'the names of shared entries' "$(sed -n 's/^names //p' shared.txt)" "$("$program" ncheck 7 image 1 | wc -l)"

edition=6

# A size that is out of bounds.
make image new.6 512=1200
finds 1 icheck image 'rule 2'

# Lines of every kind except odd ones: the root is in block 4; file 2 names block 5 twice, and block 6, which is free and occurs again in the free
# list; file 3 names two blocks outside the volume; block 7 is lost.
"$program" mkfs 6 eight 8 2 0 0 168496141
make image eight 516=020006000600 1056="$regular 050005000600" 1088="$regular 78006300"
mapfile -t found < <(printf '%s\n' 'bad 3 2 99' 'dup 5 2 0' 'dup 6 1 1' 'lost 7' 'free repeat 6' && totals 2 1 0 0 3 1 1)
finds 1 icheck image "${found[@]}"

# A root with five links and two entries, a file with neither, and an entry for i-number 4, which is free.
make image new.6 1026=05 1030=3000 1056=A48100 2080=040061
finds 1 dcheck image '1 2 5' '2 0 0' '4 1 0'

# A file in a directory.
cp new.6 file
plays file 'mkdir /d 755' 'create /d/f 644' 'write /d/f 0 616263'
finds 0 ncheck file '31 /d/f' '32 /d'

# A name with an escape and a backslash: it is escaped on a terminal.
cp new.6 odd
plays odd 'create /unusual 644'
put odd "$(grep -abo unusual odd | cut -d : -f 1)" 1B5C
finds 0 ncheck odd $'32 /\033\\usual'
has 'ncheck on a terminal' '32 /\033\\usual' "$(script -qec "'$program' ncheck 6 odd 1" /dev/null < /dev/null | tr -d '\r')"

# Two directories apart from the root, each with an entry for the other.
cp new.6 two
plays two 'mkdir /a 755' 'mkdir /b 755'
make image two 2080="$(printf '00%.0s' {1..32})" 1990=30 2022=30 2592=1F0079 3104=200078
finds 1 ncheck image '31 .../y/x/y' '32 .../x/y/x'

# A file with two names, two directories in a ring, and one that no entry names.
make image new.6 1030=4000 2080=200064 2096=1F0067 1984="$regular" 1856="$regular" \
    2016="$(directory 5)" 2592=1F0066 \
    1952="$(directory 6)" 3104=1D0078 \
    1920="$(directory 7)" 3616=1E0079 \
    1888="$(directory 8)" 4128=1B007A
finds 1 ncheck image '27 .../z' '29 .../x/y/x' '30 .../y/x/y' '31 /d/f' '31 /g' '32 /d'

# Truncated images.
for length in 10239 1025 1024 512 1 0; do
    head -c "$length" new.6 > "cut at $length"
    for command in icheck dcheck ncheck; do finds 1 "$command" "cut at $length" 'rule 1'; done
done

# The bytes of files take no memory, even if they would read as entries. Here are 15 files of the sixth edition with 16 MB each, all of whose logical and indirect
# blocks are block 11, with the word 11 again and again.
"$program" mkfs 6 files 12 1 0 0 1
repeated 15 'A491010000FFFFFF 0B000B000B000B00 0B000B000B000B00 0000000000000000' > inodes
put files 1056 "$(cat inodes)"
put files 5632 "$(repeated 256 0B00)"
(in_memory 300000 runs_within 20 ncheck 6 files 1)
wants 'ncheck of files that would read as entries' 0 none none

# The steps of a sweep and the queries of a view take no lock. Proofs don't see one that is only tried a limited number of times, so the sources are searched.
crates=${samples%/*}/crates
has 'what waits, in the sources of vol_check, vol_views and count_table' '' \
    "$(sed 's@//.*@@' "$crates"/{vol_check,vol_views,count_table}/src/*.rt | grep -E 'Mutex|RwLock|Condvar|Barrier|try_lock|spin_loop')"

echo "$passed passed, $failed failed"
[ "$failed" = 0 ]
