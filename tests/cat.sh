#!/usr/bin/env bash
# Runs `cat` of the built program on files of both editions, made byte by byte, and on what can't be read; and a command line that has no command.
# Usage: tests/cat.sh PROGRAM. It prints each row that fails, and ends with 'N passed, N failed'.
. "$(dirname "$0")/rows.sh"

printf hello > hello
head -c 5 /dev/zero > zeros
{ cat hello; head -c 515 /dev/zero; } > long_hello

# A volume of the sixth edition: one block of i-nodes, five blocks; i-node 1 is a file of five bytes in block 3.
image six 2560
put six 512 '01 00 05 00'
put six 1024 'A4 81 01 00 00 00 05 00 03 00'
put six 1536 '68 65 6C 6C 6F'
# A volume of the seventh edition: one block of i-nodes, five blocks; i-node 2 is a file of five bytes in block 3.
image seven 2560
put seven 512 '03 00 00 00 05 00'
put seven 1088 'A4 81 01 00 00 00 00 00 00 00 05 00 00 03 00'
put seven 1536 '68 65 6C 6C 6F'

# Files of the sixth edition.
prints hello cat 6 six 1
prints hello cat 6 six 00001
refuses 1 'unixvol: 2 NoEntry' cat 6 six 16
refuses 1 'unixvol: 2 NoEntry' cat 6 six 17
refuses 1 'unixvol: 2 NoEntry' cat 6 six 0
refuses 1 'unixvol: 2 NoEntry' cat 6 six 65535
changed six edited 1030 '08 02' # 520 bytes: more than a block, and no second block
prints long_hello cat 6 edited 1
changed six edited 1032 '09' # a block outside the zone
prints zeros cat 6 edited 1
changed six edited 1025 '91' # the large flag: block 3 then holds numbers, and the first is none of the zone's
prints zeros cat 6 edited 1
changed six edited 512 '03' # no data block is left
refuses 1 'unixvol: unsound, rule 2' cat 6 edited 1
changed six edited 514 '06' # six blocks, of which five are there
refuses 1 'unixvol: unsound, rule 1' cat 6 edited 1
head -c 1023 six > edited
refuses 1 'unixvol: unsound, rule 1' cat 6 edited 1
refuses 1 'unixvol: unsound, rule 1' cat 6 none 1
changed six edited 1025 'C1' # a directory
prints hello cat 6 edited 1
changed six edited 1025 'A1' # a character special file
refuses 1 'unixvol: 102 NotRegular' cat 6 edited 1
changed six edited 1025 'E1' # a block special file
refuses 1 'unixvol: 102 NotRegular' cat 6 edited 1
changed six edited 1025 '01' # permissions, and not allocated
refuses 1 'unixvol: 102 NotRegular' cat 6 edited 1
changed six edited 1024 '00 00' # a free i-node
refuses 1 'unixvol: 2 NoEntry' cat 6 edited 1
changed six edited 1030 '00 00' # no byte
prints none cat 6 edited 1

# Files of the seventh edition.
prints hello cat 7 seven 2
refuses 1 'unixvol: 2 NoEntry' cat 7 seven 1
refuses 1 'unixvol: 2 NoEntry' cat 7 seven 9
changed seven edited 512 '02'
refuses 1 'unixvol: unsound, rule 2' cat 7 edited 2
changed seven edited 516 '06'
refuses 1 'unixvol: unsound, rule 1' cat 7 edited 2
changed seven edited 1096 '00 00 00 14' # 5,120 bytes: ten blocks
{ cat hello; head -c 5115 /dev/zero; } > ten_blocks
prints ten_blocks cat 7 edited 2
changed seven edited 1096 '00 00 01 14' # 5,121 bytes, and no indirect block
{ cat ten_blocks; head -c 1 /dev/zero; } > eleven_blocks
prints eleven_blocks cat 7 edited 2
changed seven edited 1088 'ED 41' # a directory
prints hello cat 7 edited 2
changed seven edited 1088 'A4 21' # a character special file
refuses 1 'unixvol: 102 NotRegular' cat 7 edited 2
changed seven edited 1088 'A4 11' # none of the edition's types
refuses 1 'unixvol: 102 NotRegular' cat 7 edited 2

# Files of every form. In both volumes each data block is filled with one letter, and the block after the volume names the first of them throughout,
# as does the rest of the i-list: following a number outside the zone would print its letters.

# word N, long N, address N: a number as hexadecimal bytes: two, four, or the three of an i-node's address
word() { printf '%02x%02x' $(($1 % 256)) $(($1 / 256)); }
long() { printf '%02x%02x' $(($1 / 65536 % 256)) $(($1 / 16777216)) && word $(($1 % 65536)); }
address() { printf '00' && word "$1"; }

# letter FILE BLOCK LETTER: fills block BLOCK of FILE with this letter
letter() { head -c 512 /dev/zero | tr '\0' "$3" | dd of="$1" bs=512 seek="$2" conv=notrunc status=none; }

# The sixth edition: blocks 3 to 11 are the zone. I-node 1 is a large file of the greatest size, 2 a small file, and 3 a large file whose addresses
# are outside the zone.
image six_forms $((13 * 512))
put six_forms 512 "$(word 1)$(word 12)"
put six_forms 1024 "$(repeated 256 "$(word 8)")"
put six_forms 1024 "A4 91 01 00 00 FF $(word 65535) $(word 3)$(word 0)$(word 12)$(word 2)$(word 65535)$(word 0)$(word 4)$(word 5)"
put six_forms 1056 "A4 81 01 00 00 00 $(word 4096) $(word 8)$(word 0)$(word 12)$(word 2)$(word 65535)$(word 0)$(word 0)$(word 11)"
put six_forms 1088 "A4 91 01 00 00 0E $(word 512) $(word 12)$(word 2)$(word 12)$(word 2)$(word 12)$(word 2)$(word 12)$(word 12)"
put six_forms $((3 * 512)) "$(word 8)$(word 0)$(word 12)$(word 2)$(word 65535)" # logical blocks 0 to 255
put six_forms $((4 * 512 + 2 * 255)) "$(word 9)"                                # and 1536 to 1791
put six_forms $((5 * 512)) "$(word 6)$(word 0)$(word 12)$(word 2)$(word 65535)" # the double indirect block
put six_forms $((5 * 512 + 2 * 120)) "$(word 7)"
put six_forms $((6 * 512)) "$(word 10)$(word 0)$(word 12)$(word 2)$(word 65535)" # from 1792 on
put six_forms $((7 * 512 + 2 * 255)) "$(word 11)"                                # up to 32767
put six_forms $((12 * 512)) "$(repeated 256 "$(word 8)")"
for block in 8:A 9:B 10:C 11:D; do letter six_forms "${block%:*}" "${block#*:}"; done
body wanted 16777215
for block in 0:A 1791:B 1792:C 32767:D; do letter wanted "${block%:*}" "${block#*:}"; done
truncate -s 16777215 wanted
gives wanted cat 6 six_forms 1
body wanted 4096
for block in 0:A 7:D; do letter wanted "${block%:*}" "${block#*:}"; done
gives wanted cat 6 six_forms 2
body wanted $((14 * 65536 + 512)) # one block more than single indirect blocks name
gives wanted cat 6 six_forms 3

# The seventh edition: blocks 3 to 19 are the zone. I-node 2 is a file of the greatest size, and 3 one whose addresses are outside the zone.
image seven_forms $((21 * 512))
put seven_forms 512 "$(word 3)$(long 20)"
put seven_forms 1024 "$(repeated 128 "$(long 12)")"
put seven_forms 1088 "A4 81 $(word 1)$(word 0)$(word 0)$(long 1082201088)"
put seven_forms 1100 "$(address 12)$(address 0)$(address 20)$(address 2)$(address 65535)$(repeated 4 "$(address 0)")$(address 13)"
put seven_forms 1130 "$(address 3)$(address 4)$(address 7)"
put seven_forms 1152 "A4 81 $(word 1)$(word 0)$(word 0)$(long $((16523 * 512)))"
put seven_forms 1164 "$(repeated 5 "$(address 2)$(address 20)")$(address 20)$(address 2)$(address 20)"
outside="$(long 0)$(long 20)$(long 2)$(long 65535)$(long 16777216)"
put seven_forms $((3 * 512)) "$(long 14)$outside" # logical blocks 10 to 137
put seven_forms $((3 * 512 + 4 * 127)) "$(long 15)"
put seven_forms $((4 * 512)) "$(long 5)$outside" # the double indirect block
put seven_forms $((4 * 512 + 4 * 127)) "$(long 6)"
put seven_forms $((5 * 512)) "$(long 16)$outside"   # from 138 on
put seven_forms $((6 * 512 + 4 * 127)) "$(long 17)" # up to 16521
put seven_forms $((7 * 512)) "$(long 8)$outside"    # the triple indirect block
put seven_forms $((7 * 512 + 4 * 127)) "$(long 9)"
put seven_forms $((8 * 512)) "$(long 10)$outside"
put seven_forms $((9 * 512 + 4 * 127)) "$(long 11)"
put seven_forms $((10 * 512)) "$(long 18)$outside"   # from 16522 on
put seven_forms $((11 * 512 + 4 * 127)) "$(long 19)" # up to 2113673
put seven_forms $((20 * 512)) "$(repeated 128 "$(long 12)")"
for block in 12:A 13:B 14:C 15:D 16:E 17:F 18:G 19:H; do letter seven_forms "${block%:*}" "${block#*:}"; done
body wanted 1082201088
for block in 0:A 9:B 10:C 137:D 138:E 16521:F 16522:G 2113673:H; do letter wanted "${block%:*}" "${block#*:}"; done
gives wanted cat 7 seven_forms 2
body wanted $((16523 * 512)) # one block more than double indirect blocks name
gives wanted cat 7 seven_forms 3

# Files that can't be read or written.
refuses 3 'unixvol: cannot read missing' cat 6 missing 1
refuses 3 'unixvol: cannot read .' cat 6 . 1
refuses 3 'unixvol: cannot read ' cat 6 '' 1
"$program" cat 6 six 1 > /dev/full 2> error
echo $? > status
: > output
echo 'unixvol: cannot write -' > line
wants 'cat to a full device' 3 none line
"$program" cat 6 six 1 >&- 2> error
echo $? > status
wants 'cat to a closed output' 3 none line
"$program" --help > /dev/full 2> error
echo $? > status
wants 'help to a full device' 3 none line
# A pipe that nobody reads any more, when its signal would end a program, and when it is ignored.
signal=()
env --default-signal=PIPE true 2> /dev/null && signal=(env --default-signal=PIPE)
(sleep 0.3; "${signal[@]}" "$program" cat 6 six 1 2> error; echo $? > status) | true
wants 'cat to a pipe that nobody reads' 3 none line
(sleep 0.3; trap '' PIPE; "$program" cat 6 six 1 2> error; echo $? > status) | true
wants 'cat to a pipe that nobody reads, the signal ignored' 3 none line
(sleep 0.3; "${signal[@]}" "$program" --help 2> error; echo $? > status) | true
wants 'help to a pipe that nobody reads' 3 none line
"$program" cat 6 six 1 > output 2>&-
echo $? > status
: > error
wants 'cat with a closed standard error' 0 hello none
mkfifo pipe
cat six > pipe &
prints hello cat 6 pipe 1
wait

# Words that the command line doesn't have.
misread 'error: invalid value' cat 8 six 1
misread 'error: invalid value' cat six 6 1
for number in 65536 99999999999999999999 +1 1.0 0x1 '' ' 1' '1 ' one; do
    misread "error: invalid value '$number' for '<INO>'" cat 6 six "$number"
done
misread 'error: unexpected argument' cat 6 six -1
misread "error: invalid value '-1' for '<INO>'" cat 6 six -- -1
misread 'error: the following required arguments were not provided' cat 6 six
misread 'error: unexpected argument' cat 6 six 1 2
misread 'error: unrecognized subcommand' dog 6 six 1
misread 'Works on disk images'
misread 'error: word 3 of the command line is not UTF-8 text' cat 6 $'\xff' 1

echo "$passed passed, $failed failed"
[ "$failed" = 0 ]
