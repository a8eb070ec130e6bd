#!/usr/bin/env bash
# Migrates worked volumes with the built program. Compares whole images byte for byte, and for larger volumes the names, the bytes of files and the
# fields of i-nodes. Then the command's files, refusals and words.
# Usage: tests/migrations.sh PROGRAM. It prints a line for each row that fails, and ends with 'N passed, N failed'.
. "$(dirname "$0")/rows.sh"

# The time of the old volumes is 168496141, which is 0B 0A 0D 0C on the disk; that of migrating is 16909060, or 02 01 04 03.
later=16909060

# plays FILE: makes the calls on standard input as user 0 on the old volume FILE; all are accepted
plays() {
    sed 's/^/168496141 0 0 /' > calls
    "$program" play 6 "$1" calls > played
    has "the calls on $1" "$(wc -l < calls)" "$(grep -c '^1\.[0-9]* ok ' played)"
}

# migrated OLD NEW FSIZE IBLOCKS: the program makes NEW from OLD, and it is sound
migrated() {
    prints none migrate "$@" "$later"
    "$program" check 7 "$2" > report
    has "the volume made of $1 is sound" 0 $?
}

# zeros COUNT: COUNT zeros as hexadecimal digits
zeros() { head -c $((2 * $1)) /dev/zero | tr '\0' 0; }

# padded LABEL FILE AT COUNT HEX: the COUNT bytes of FILE from byte AT on begin with these, and the others are zeros
padded() {
    local digits=${5// /}
    image wanted "$4"
    put wanted 0 "$digits"
    cmp -s -n "$4" -i "$3:0" "$2" wanted
    has "$1" 0 $?
}

# A directory, i-number 32, with a file of three bytes, 31: the whole new volume.
"$program" mkfs 6 new.6 20 2 0 0 168496141
cp new.6 old
plays old << 'END'
mkdir /d 755
create /d/f 644
write /d/f 0 616263
END
cp old before

# carried FILE BLOCKS: the directory and the file in a volume of BLOCKS blocks, five of them the i-list, with no free block
carried() {
    local times='0B 0A 0D 0C 0B 0A 0D 0C 02 01 04 03'
    image "$1" $((512 * $2))
    put "$1" 512 "07 00 00 00 $(printf %02x "$2") 00"
    put "$1" 926 '02 01 04 03'
    # The root in block 7, the file in block 8, and the directory in block 9.
    put "$1" $((1024 + 64)) "FF 41 03 00 00 00 00 00 00 00 30 00 00 07 00 $(zeros 37) $times"
    put "$1" $((1024 + 64 * 31)) "A4 81 01 00 00 00 00 00 00 00 03 00 00 08 00 $(zeros 37) $times"
    put "$1" $((1024 + 64 * 32)) "ED 41 02 00 00 00 00 00 00 00 30 00 00 09 00 $(zeros 37) $times"
    put "$1" $((512 * 7)) "02 00 2E $(zeros 13) 02 00 2E 2E $(zeros 12) 21 00 64"
    put "$1" $((512 * 8)) '61 62 63'
    put "$1" $((512 * 9)) "21 00 2E $(zeros 13) 02 00 2E 2E $(zeros 12) 20 00 66"
}

# numbers FROM TO: the block numbers from the first down to the last
numbers() { printf '0000%02x00' $(seq "$1" -1 "$2"); }

# The chain block is 50, whose array has 99 to 51, and the next free block is 10. After the count the array keeps its old numbers there: 59 to 51.
migrated old new 100 5
carried wanted 100
put wanted 518 "29 00 $(numbers 50 10) $(numbers 59 51)"
put wanted $((512 * 50)) "32 00 00 00 00 00 $(numbers 99 51)"
saves 'a volume with a directory and a file' new wanted
saves 'the old volume of a directory and a file' old before

# No block is left.
migrated old full 10 5
carried wanted 10
saves 'a full volume with a directory and a file' full wanted

# Sizes that no volume has. A special file is checked after them, and before the i-list and the blocks. More refusals are below.
cp new.6 device
plays device <<< 'create /t 644'
put device 2016 'A4 A1'
refuses 1 'unixvol: bounds' migrate old none.img 16777217 5 "$later"
refuses 1 'unixvol: bounds' migrate old none.img 9000 8192 "$later"
refuses 1 'unixvol: bounds' migrate device none.img 7 5 "$later"
refuses 1 'unixvol: 105 HasDevice' migrate device none.img 9 4 "$later"
has 'volumes that were not made' '' "$(find . -name none.img)"

# An empty slot whose name's bytes are still in the old volume, and bytes after a name, are zeros in the new one.
cp new.6 slots
plays slots << 'END'
create /a 644
create /b 644
unlink /a
END
put slots $((512 * 4 + 48 + 4)) '6A 75 6E 6B'
old_slots="2E $(zeros 13) 01 00 2E 2E $(zeros 12) 00 00 61 $(zeros 13)"
padded 'an old directory with an empty slot' slots $((512 * 4)) 512 "01 00 $old_slots 1F 00 62 00 6A 75 6E 6B"
migrated slots new 100 5
padded 'a new directory with an empty slot' new $((512 * 7)) 512 "02 00 2E $(zeros 13) 02 00 2E 2E $(zeros 12) $(zeros 16) 20 00 62"

# A file whose size became 3: the second of its two blocks and the other bytes of the first are past its end.
cp new.6 past
plays past << END
create /t 644
write /t 0 $(printf '41%.0s' {1..1000})
END
put past $((1024 + 32 * 31 + 5)) '00 03 00'
migrated past new 100 5
padded 'the size and the addresses of a file with blocks past its size' new $((1024 + 64 * 32 + 8)) 44 '00 00 03 00 00 08 00'
padded 'the block of a file with bytes past its size' new $((512 * 8)) 1024 '41 41 41'

# fields EDITION IMAGE NUMBER: the fields of an i-node that both editions have
fields() { "$program" inode "$@" | sed -n 's/^mode [0-7]* //p; /^\(nlink\|uid\|gid\|size\|[amc]time\) /p'; }

# nodes OLD NEW NUMBER..: these i-nodes of OLD have the fields of the next ones of NEW, whose last change is at the migration
nodes() {
    local number
    for number in "${@:3}"; do fields 6 "$1" "$number" && echo "ctime $later"; done > wanted
    for number in "${@:3}"; do fields 7 "$2" $((number + 1)); done > found
    cmp -s found wanted
    has "the i-nodes of the volume made of $1" "0 $((8 * ($# - 2)))" "$? $(wc -l < found)"
}

# names OLD NEW PATH COUNT: a directory has COUNT names, including `.` and `..`, in both volumes, each for the next i-number
names() {
    "$program" ls 6 "$1" "$3" | awk '{ printf "%5d %s\n", $1 + 1, $2 }' > wanted
    prints wanted ls 7 "$2" "$3"
    has "the names in $3 of $1" "$4" "$(wc -l < wanted)"
}

# lists OLD NEW LINES: the long listings of both volumes have LINES lines, and are equal except for i-numbers, which are one higher
lists() {
    "$program" ls -lR 6 "$1" | awk '/^ *[0-9]/ { $1 = sprintf("%5d", $1 + 1) } 1' > wanted
    "$program" ls -lR 7 "$2" | awk '/^ *[0-9]/ { $1 = sprintf("%5d", $1) } 1' > output
    cmp -s output wanted
    has "all that is listed of $1 and of the volume made of it" "0 $3" "$? $(wc -l < wanted)"
}

# A volume with files of each form: small, large, huge, with holes, and with more names than a small directory has. Of 300 files in /d every third is
# replaced by a name of /small, and in the first half the one after it is removed.
"$program" mkfs 6 forms 600 30 0 0 168496141
hole='a hole, and a part of a block'
behind='behind a hole'
eighth='the first block of the eighth address'
# hex TEXT: its bytes as hexadecimal digits
hex() { printf %s "$1" | od -An -v -tx1 | tr -d ' \n'; }
plays forms << END
create /small 644
write /small 1000 $(hex "$hole")
create /large 644
write /large 0 $(printf '41%.0s' {1..20000})
write /large 300000 $(hex "$behind")
create /huge 644
write /huge $((1792 * 512)) $(hex "$eighth")
write /huge 16777214 7a
create /empty 644
mkdir /d 755
$(printf 'create /d/%03d 644\n' {0..299})
$(printf 'unlink /d/%03d\n' {0..297..3})
$(printf 'link /small /d/%03d\n' {0..297..3})
$(printf 'unlink /d/%03d\n' {1..148..3})
END
migrated forms new 700 61
names forms new / 7
names forms new /d 252
nodes forms new $("$program" ls 6 forms / | awk '{ print $1 }' | sort -u) 94
lists forms new 262

# The fields of some of them. The old volume's i-numbers are 101 and below, since the cache of the lowest hundred is used from the highest down.
printf '%s\n' view '0 0 0 stat /small' '0 0 0 stat /large' '0 0 0 stat /huge' '0 0 0 stat /empty' '0 0 0 stat /' '0 0 0 stat /d' '0 0 0 stat /d/002' \
    '0 0 0 stat /d/003' > asking
printf '%s\n' '1.2 stat 102 file 0644 101 0 0 1029' '1.3 stat 101 file 0644 1 0 0 300013' '1.4 stat 100 file 0644 1 0 0 16777215' \
    '1.5 stat 99 file 0644 1 0 0 0' '1.6 stat 2 dir 0777 3 0 0 112' '1.7 stat 98 dir 0755 2 0 0 4832' '1.8 stat 95 file 0644 1 0 0 0' \
    '1.9 stat 102 file 0644 101 0 0 1029' 'records 0' 'confirmed 8' > wanted
cp new asked
prints wanted play 7 asked asking

# The bytes of the files, in both volumes.
{ head -c 1000 /dev/zero && printf %s "$hole"; } > small
{ head -c 20000 /dev/zero | tr '\0' A && head -c 280000 /dev/zero && printf %s "$behind"; } > large
{ head -c $((1792 * 512)) /dev/zero && printf %s "$eighth" && head -c $((16777214 - 1792 * 512 - ${#eighth})) /dev/zero && printf z; } > huge
cp none empty
for file in small large huge empty; do
    prints "$file" get 6 forms "/$file"
    prints "$file" get 7 new "/$file"
done
for number in 000 003 297; do prints small get 7 new "/d/$number"; done

# As many links as are allowed.
"$program" mkfs 6 links 100 2 0 0 168496141
plays links << END
mkdir /d 755
create /f 644
$(printf 'link /f /d/%03d\n' {0..125})
END
migrated links new 100 5
nodes links new 1 31 32
has 'the links of the new file' 'nlink 127' "$("$program" inode 7 new 32 | grep nlink)"

# A file whose size became 4096: after the first block there are only holes, and stored bytes past the old size become visible.
cp new.6 grown
plays grown << 'END'
create /t 644
write /t 0 616263
END
put grown $((1024 + 32 * 31 + 5)) '00 00 10'
put grown $((512 * 5 + 3)) '73 65 65 6E'
migrated grown new 100 5
nodes grown new 1 32
{ printf abcseen && head -c 4089 /dev/zero; } > seen
prints seen get 6 grown /t
prints seen get 7 new /t

# Special files: with --devices kinds, permissions, owners, links and times stay, and the numbers of devices. `/tty` has i-number 32 and a size, `/rk0` 31.
cp new.6 devices
prints none mknod 6 devices /tty c 3 5 620 168496141
prints none mknod 6 devices /rk0 b 255 0 640 168496141 --owner 3:4
prints none ln 6 devices /tty /console 168496141
put devices $((1024 + 32 * 31 + 5)) '01 E8 03'
refuses 1 'unixvol: 105 HasDevice' migrate devices none.img 100 5 "$later"
prints none migrate devices new 100 5 "$later" --devices
"$program" check 7 new > report
has 'the volume with special files is sound' 0 $?
stamps='0B 0A 0D 0C 0B 0A 0D 0C 02 01 04 03'
holds 'a character special file' new $((1024 + 64 * 32)) "90 21 02 00 00 00 00 00 01 00 E8 03 00 05 03 $(zeros 37) $stamps"
holds 'a block special file' new $((1024 + 64 * 31)) "A0 61 01 00 03 00 04 00 00 00 00 00 00 00 FF $(zeros 37) $stamps"
lists devices new 6
has 'the numbers of the devices' 'c 3,5 console b 255,0 rk0 c 3,5 tty' \
    "$("$program" ls -l 7 new | awk '$2 ~ /^[bc]/ { print substr($2, 1, 1), $6 $7, $NF }' | paste -s -d ' ' -)"
prints none migrate old plain 100 5 "$later"
prints none migrate old kept 100 5 "$later" --devices
saves 'a volume without special files' kept plain
# What a special file would lose: its second address, its last, and the flag of a large file, which makes its type 11 or 15.
for lost in '10 01' '23 80' '1 B1'; do
    cp devices losing
    put losing $((1024 + 32 * 31 + ${lost% *})) "${lost#* }"
    "$program" check 6 losing > report
    has 'the volume whose special file would lose something is sound' 0 $?
    refuses 1 'unixvol: bounds' migrate losing none.img 7 5 "$later" --devices
    refuses 1 'unixvol: 105 HasDevice' migrate losing none.img 9 4 "$later" --devices
done
cp devices losing
put losing $((1024 + 32 * 30 + 1)) 'F1'
refuses 1 'unixvol: 105 HasDevice' migrate losing none.img 100 5 "$later" --devices
refuses 1 'unixvol: 103 NoInode' migrate devices none.img 9 4 "$later" --devices
has 'volumes with special files that were not made' '' "$(find . -name none.img)"

# The command: the files that it reads and makes, the order of its refusals, and wrong words.
cp new.6 made
"$program" mkfs 7 made7 100 2 0 0 168496141
mkfifo pipe

# Volumes of the seventh edition that are made from volumes of the sixth. `old` has `/d`, i-number 32, and in it `/d/f`, 31, of three bytes.
cp made old
printf abc > letters
prints none mkdir 6 old /d 168496141
prints none put 6 old /d/f letters 168496142
cp old before
stood=$(stat -c '%i %y' old)
prints none migrate old new 100 5 168496143
has 'the old volume once it is migrated' "$stood" "$(stat -c '%i %y' old)"
saves 'the old volume once it is migrated' old before
has 'the size of the new volume' 51200 "$(wc -c < new)"
# 90 blocks are free, 41 of them in the super-block: the last, which is taken first, is block 10, and the first is block 50, which has the rest.
holds 'the super-block of the new volume' new 512 '07 00 00 00 64 00 29 00 00 00 32 00'
holds 'the next free block of the new volume' new 680 '00 00 0A 00'
holds 'the i-node of the new root' new 1088 'FF 41 03 00 00 00 00 00 00 00 30 00 00 07 00 00 00 00'
holds 'the times of the new root' new 1140 '0B 0A 0D 0C 0B 0A 0D 0C 0B 0A 0F 0C'
holds 'the i-node of the new file' new $((1024 + 64 * 31)) 'A4 81 01 00 00 00 00 00 00 00 03 00 00 08 00 00 00 00'
edition=7
finds 0 dcheck new
finds 0 ncheck new '32 /d/f' '33 /d'
mapfile -t found < <(totals 1 2 0 0 3 90 0)
finds 0 icheck new "${found[@]}"
edition=6
prints letters get 7 new /d/f
printf '%s\n' '    2 .' '    2 ..' '   33 d' > lines
prints lines ls 7 new /
echo something > other
chmod 640 other
prints none migrate old other 10 5 168496143 # no block is left
has 'the permissions of a file that was replaced' 640 "$(stat -c %a other)"
has 'the size of a full volume' 5120 "$(wc -c < other)"
holds 'the super-block of a full volume' other 512 '07 00 00 00 0A 00 00 00'
refuses 1 'unixvol: 103 NoInode' migrate old missing 100 4 1
refuses 1 'unixvol: 28 NoSpace' migrate old missing 9 5 1
refuses 1 'unixvol: bounds' migrate old missing 7 5 1
refuses 1 'unixvol: bounds' migrate old missing 4294967295 65535 1
has 'the file of a volume that was not made' none "$([ -e missing ] && echo some || echo none)"
cp made device
prints none put 6 device /t none 1
put device 2016 'A4 A1' # `/t` is a character special file
refuses 1 'unixvol: 105 HasDevice' migrate device missing 100 5 1
refuses 1 'unixvol: 103 NoInode' migrate old missing 9 4 1 # before the want of blocks
refuses 1 'unixvol: unsound, rule 2' migrate made7 missing 100 5 1
changed old damaged 1026 '05'
refuses 1 'unixvol: unsound, rule 12' migrate damaged missing 7 5 1 # before the sizes
refuses 3 'unixvol: cannot read missing' migrate missing . 7 5 1
refuses 3 'unixvol: cannot read .' migrate . missing 7 5 1
refuses 1 'unixvol: bounds' migrate old no/folder 7 5 1 # before the file that can't be made
refuses 3 'unixvol: cannot write no/folder' migrate old no/folder 100 5 1
refuses 3 'unixvol: cannot write .' migrate old . 100 5 1
refuses 3 'unixvol: cannot write /dev/full' migrate old /dev/full 100 5 1
# The old volume can't be the new one, whatever path leads to it.
ln -s old leads_to_old
ln old second_name
for path in old ./old "$folder/old" leads_to_old second_name; do
    refuses 3 "unixvol: cannot write $path" migrate old "$path" 100 5 1
    refuses 3 'unixvol: cannot write old' migrate "$path" old 100 5 1
done
has 'a link to an old volume' old "$(readlink leads_to_old)"
saves 'an old volume that was to become a new one' old before
has 'an old volume that was not to be written' "$stood" "$(stat -c '%i %y' old)"
refuses 1 'unixvol: bounds' migrate old old 7 5 1
rm -f leads_to_old second_name
# A new file at the end of a link, and one that another program has locked for less than half a minute.
ln -s made_there leads_on
prints none migrate old leads_on 100 5 168496143
saves 'what a link leads to, migrated' made_there new
rm -f leads_on made_there
if command -v flock > /dev/null; then
    cp other locked
    exec 9< locked
    flock 9
    (sleep 1; flock -u 9) &
    prints none migrate old locked 100 5 168496143
    wait
    exec 9<&-
    saves 'a file that was locked for a while' locked new
else
    echo 'skipped: a file that is locked, since there is no flock'
fi
cat old > pipe &
prints none migrate pipe fresh 100 5 168496143
wait
saves 'a volume that came through a pipe' fresh new
cat pipe > through &
prints none migrate old pipe 100 5 168496143
wait
saves 'a volume that went into a pipe' through new
cp other before
(ulimit -f 8; trap '' XFSZ; runs migrate old other 100 5 1)
echo 'unixvol: cannot write other' > line
wants 'migrate where the new file finds no room' 3 none line
saves 'a file in whose place the new volume found no room' other before
misread 'error: the following required arguments were not provided' migrate old new 100
misread 'error: unexpected argument' migrate 6 old new 100 5 1
for number in 4294967296 +1 one ''; do
    misread "error: invalid value '$number' for '<FSIZE>'" migrate old new "$number" 5 1
    misread "error: invalid value '$number' for '<NOW>'" migrate old new 100 5 "$number"
done
misread "error: invalid value '65536' for '<IBLOCKS>'" migrate old new 100 65536 1

echo "$passed passed, $failed failed"
[ "$failed" = 0 ]
