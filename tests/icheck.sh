#!/usr/bin/env bash
# Runs `icheck`, `dcheck` and `ncheck` of the built program on small volumes, with 1, 2, 7 and 64 threads, on what can't be read, and with wrong words.
# tests/checkers.sh has larger volumes.
# Usage: tests/icheck.sh PROGRAM. It prints each row that fails, and ends with 'N passed, N failed'.
. "$(dirname "$0")/rows.sh"

printf hello > hello
# A new volume of twenty blocks of the sixth edition, two of them the i-list; tests/mkfs.sh compares its bytes.
"$program" mkfs 6 made 20 2 0 0 168496141
"$program" mkfs 7 made7 100 2 0 0 168496141
mkfifo pipe

# `twice` has two files of one block each, and the second one names the block of the first.
cp made twice
printf A > one_letter
"$program" put 6 twice /a one_letter 1
"$program" put 6 twice /b one_letter 1
put twice $((1024 + 32 * 30 + 8)) '05 00'

# The findings of `icheck`, whatever the number of threads.
edition=6
mapfile -t made_lines < <(totals 0 1 0 0 1 15 0)
finds 0 icheck made "${made_lines[@]}"
mapfile -t found < <(echo 'dup 5 2 0' && echo 'lost 6' && totals 2 1 0 0 2 13 1)
finds 1 icheck twice "${found[@]}"
changed made damaged 516 '65 00' # a free list of 101 blocks
mapfile -t found < <(seq -f 'lost %g' 5 19 && echo 'free toomany 101' && totals 0 1 0 0 1 0 15)
finds 1 icheck damaged "${found[@]}"
changed made damaged 1032 '14' # the root's block is none of the volume's
mapfile -t found < <(echo 'bad 1 1 20' && echo 'lost 4' && totals 0 1 0 0 0 15 1)
finds 1 icheck damaged "${found[@]}"
changed made damaged 1026 '05' # the root says that it has five links, which is no matter of blocks
finds 0 icheck damaged "${made_lines[@]}"
changed made damaged 1056 '01 00' # i-node 2 has permissions, and is not allocated
mapfile -t found < <(totals 0 1 0 1 1 15 0)
finds 1 icheck damaged "${found[@]}"
cp made damaged
printf '\005\000' > itself
prints none put 6 damaged /a itself 1
put damaged 2017 '91' # the large flag: block 5 names itself
mapfile -t found < <(echo 'dup 5 2 0' && totals 1 1 0 0 2 14 0)
finds 1 icheck damaged "${found[@]}"
head -c 1023 made > damaged
finds 1 icheck damaged 'rule 1'
image damaged 1024
finds 1 icheck damaged 'rule 2'
finds 1 icheck none 'rule 1'
cp made damaged
stood=$(stat -c '%i %y' damaged)
runs icheck 6 damaged 2
has 'an image after icheck' "$stood" "$(stat -c '%i %y' damaged)"
for command in icheck dcheck ncheck; do
    refuses 3 'unixvol: cannot read missing' "$command" 6 missing 1
    refuses 3 'unixvol: cannot read .' "$command" 6 . 1
    misread "error: invalid value '8'" "$command" 8 made 1
    misread 'error: the following required arguments were not provided' "$command" 6 made
    misread 'error: unexpected argument' "$command" 6 made 1 2
    for number in 0 65 65536 99999999999999999999 +1 1.0 '' ' 1' one; do
        misread "error: invalid value '$number' for '<WORKERS>'" "$command" 6 made "$number"
    done
done
cat made > pipe &
printf '%s\n' "${made_lines[@]}" > lines
prints lines icheck 6 pipe 7
wait
changed made damaged 516 '65 00'
for volume in made damaged; do
    "$program" icheck 6 "$volume" 2 > /dev/full 2> error
    echo $? > status
    : > output
    echo 'unixvol: cannot write -' > line
    wants "icheck of $volume to a full device" 3 none line
done
truncate -s 400M great_image
put great_image 512 '03 00 03 00 40 0D' # 200,000 blocks
(in_memory 60000 runs icheck 7 great_image 1)
echo 'unixvol: 12 NoMemory' > line
wants 'icheck in less memory than the image takes' 4 none line
rm great_image
edition=7
mapfile -t found < <(echo 'free repeat 50' && totals 0 1 0 0 1 95 0)
changed made7 damaged 25602 '00 00 32 00'
finds 1 icheck damaged "${found[@]}"
edition=6

# The findings of `dcheck` and `ncheck`, whatever the number of threads. Names are printed byte for byte.
finds 0 dcheck made
finds 0 ncheck made
finds 0 dcheck twice
finds 0 ncheck twice '31 /b' '32 /a'
changed made damaged 1026 '05' # the root says that it has five links
finds 1 dcheck damaged '1 2 5'
finds 0 ncheck damaged
changed made damaged 1032 '14' # the root's block is none of the volume's
finds 1 dcheck damaged '1 0 2'
finds 0 ncheck damaged
head -c 1023 made > damaged
finds 1 dcheck damaged 'rule 1'
finds 1 ncheck damaged 'rule 1'
image damaged 1024
finds 1 dcheck damaged 'rule 2'
finds 1 ncheck damaged 'rule 2'
edition=7
changed made7 damaged 1096 'FF FF FF FF' # the root has the greatest size that there is a number for
finds 0 dcheck damaged
finds 0 ncheck damaged
refuses 1 'unixvol: unsound, rule 4' ls 7 damaged /
edition=6
cp made tree
prints none mkdir 6 tree /d 1
prints none put 6 tree /d/f hello 2
prints none ln 6 tree /d/f /g 3
finds 0 dcheck tree
finds 0 ncheck tree '31 /d/f' '31 /g' '32 /d'
put tree $((4 * 512 + 48)) '1F 00 FF 0A 67' # the entry `/g` now has a name of other bytes
finds 0 ncheck tree '31 /d/f' $'31 /\xff\ng' '32 /d'
put tree $((4 * 512 + 32)) '00 00' # the root's entry for `/d` is gone
finds 1 dcheck tree '32 1 2'
finds 1 ncheck tree '31 .../f' $'31 /\xff\ng'
# Two directories that contain each other, and that no path leads to: 31 has `x` for 32, and 32 has `y` for 31.
changed made ring 1984 "FF C1 02 00 00 00 30 00 05 00"
put ring 2016 "FF C1 02 00 00 00 30 00 06 00"
put ring $((5 * 512)) "1F 00 2E $(repeated 13 00) 20 00 2E 2E $(repeated 12 00) 20 00 78"
put ring $((6 * 512)) "20 00 2E $(repeated 13 00) 1F 00 2E 2E $(repeated 12 00) 1F 00 79"
finds 1 ncheck ring '31 .../y/x/y' '32 .../x/y/x'
cat tree > pipe &
echo '32 1 2' > lines
runs dcheck 6 pipe 7
wants 'dcheck of a pipe' 1 lines none
wait
for command in dcheck ncheck; do
    stood=$(stat -c '%i %y' tree)
    "$program" "$command" 6 tree 2 > /dev/full 2> error
    echo $? > status
    : > output
    echo 'unixvol: cannot write -' > line
    wants "$command to a full device" 3 none line
    has "an image after $command" "$stood" "$(stat -c '%i %y' tree)"
done

echo "$passed passed, $failed failed"
[ "$failed" = 0 ]
