#!/usr/bin/env bash
# Plays scripts on volumes: what `play` of the built program prints and saves, the order of faults, and the time for long scripts. tests/plays.sh has each
# line of a script, and sessions at once.
# Usage: tests/scripts.sh PROGRAM. It prints each row that fails, and ends with 'N passed, N failed'.
. "$(dirname "$0")/rows.sh"

printf hello > hello
# A new volume of twenty blocks of the sixth edition, two of them the i-list; tests/mkfs.sh compares its bytes.
"$program" mkfs 6 made 20 2 0 0 168496141
changed made unsound 1026 '05'
mkfifo pipe

# Scripts that are played on a volume.
echo '5 0 0 create /a 644' > create_a
cp made played
# Which of two scripts is first is left open.
runs play 6 played create_a create_a
printf '%s\n' '1.1 ok 32' '2.1 17 Exists' 'records 1' 'confirmed 2' > lines
printf '%s\n' '1.1 17 Exists' '2.1 ok 32' 'records 1' 'confirmed 2' > others
cmp -s output lines || cp others lines
wants 'two scripts that make one file' 1 lines none
printf '%s\n' '    1 .' '    1 ..' '   32 a' > lines
prints lines ls 6 played /
printf '%s\n' '5 0 0 create /a 644' '6 0 0 cut' '7 0 0 chmod /a 600' '8 0 0 stat /a' > cutting
cp made played
printf '%s\n' '1.1 ok 32' '1.2 cut 1' '1.3 ok 0' '1.4 stat 32 file 0600 1 0 0 0' 'records 1' 'confirmed 2' 'gone 1' > lines
prints lines play 6 played cutting
holds 'the i-node of a file that was played' played 2016 '80 81 01 00 00 00 00 00'
# Each call and each query, with their refusals.
cat > all << 'END'
1 0 0 mkdir /d 755
2 3 4 create /d/f 644
3 0 0 create /d/f 640
4 0 0 write /d/f 0 4142430a
5 0 0 write /d/f 1 -
6 0 0 link /d/f /g
7 0 0 read /g 1 4294967295
8 0 0 read /g 4 1
9 0 0 list /d
10 0 0 stat /d
11 0 0 truncate /g 1
12 0 0 chown /g 3 4
13 5 5 chmod /g 7777
14 0 0 chmod /g 7777
15 0 0 stat /g
16 0 0 rmdir /d
17 0 0 unlink /d/f
18 0 0 rmdir /d
19 256 0 stat /
20 0 4 mknod /tty 620 c 3 5
21 0 0 mknod /tty 620 b 3 5
22 0 0 mknod / 620 c 3 5
23 7 0 mknod /rk0 620 b 255 0
24 0 0 mknod /rk0 7777 b 255 0
25 0 0 read /tty 0 1
26 0 0 stat /tty
END
printf '%s\n' '1.1 ok 32' '1.2 13 Access' '1.3 ok 31' '1.4 ok 4' '1.5 ok 0' '1.6 ok 0' '1.7 read 42430a' '1.8 read -' '1.9 list 3' \
    '1.10 stat 32 dir 0755 2 0 0 48' '1.11 ok 0' '1.12 ok 0' '1.13 1 NotOwner' '1.14 ok 0' '1.15 stat 31 file 7777 2 3 4 1' \
    '1.16 101 NotEmpty' '1.17 ok 0' '1.18 ok 0' '1.19 104 BadId' '1.20 ok 32' '1.21 17 Exists' '1.22 17 Exists' '1.23 1 NotOwner' '1.24 ok 30' \
    '1.25 102 NotRegular' '1.26 stat 32 special 0620 1 0 4 0' 'records 12' 'confirmed 26' > lines
cp made played
runs play 6 played all
wants 'all calls and queries in a script' 1 lines none
holds 'a special file of characters that was played' played 2016 '90 A1 01 00 04 00 00 00 05 03 00 00 00 00'
holds 'a special file of blocks that was played' played 1952 'FF EF 01 00 00 00 00 00 00 FF 00 00 00 00'
printf '%s\n' '    1 .' '    1 ..' '   31 g' '   30 rk0' '   32 tty' > lines
prints lines ls 6 played /
: > no_line
cp made played
printf '%s\n' 'records 0' 'confirmed 0' > lines
prints lines play 6 played no_line
# Scripts for views, with a session's script and alone.
printf '%s\n' view '6 0 0 stat /' '7 0 0 stat /b' '8 0 0 read / 0 4' '9 0 0 list /' > watching
printf 'view\n6 0 0 stat /\n' > looking
cp made played
runs play 6 played create_a looking
# Whether the view already sees the file is left open.
printf '%s\n' '1.1 ok 32' '2.2 stat 1 dir 0777 2 0 0 48' 'records 1' 'confirmed 2' > lines
printf '%s\n' '1.1 ok 32' '2.2 stat 1 dir 0777 2 0 0 32' 'records 1' 'confirmed 2' > others
cmp -s output lines || cp others lines
wants 'a view beside a session' 0 lines none
printf '%s\n' '    1 .' '    1 ..' '   32 a' > lines
prints lines ls 6 played /
cp made played
printf '%s\n' '1.2 stat 1 dir 0777 2 0 0 32' '1.3 2 NoEntry' '1.4 21 IsDirectory' '1.5 list 2' 'records 0' 'confirmed 4' > lines
runs play 6 played watching
wants 'a view alone' 1 lines none
echo view > asks_nothing
printf '%s\n' 'records 0' 'confirmed 0' > lines
prints lines play 6 played asks_nothing
for line in '1 0 0 create /b 644' '1 0 0 cut' 'view'; do
    printf '%s\n' view '1 0 0 stat /' "$line" > odd_view
    refuses 2 'unixvol: script 1 line 3' play 6 played odd_view
done
printf '%s\n' '1 0 0 stat /' view > late_view
refuses 2 'unixvol: script 1 line 2' play 6 played late_view
yes looking | head -16 > sixteen
printf '%s\n' $(seq 16 | sed 's/$/.2 stat 1 dir 0777 2 0 0 32/' | tr ' ' '_') 'records 0' 'confirmed 16' | tr '_' ' ' > lines
prints lines play 6 played $(cat sixteen)
refuses 2 'unixvol: script 17 line 1' play 6 played $(cat sixteen) looking
refuses 2 'unixvol: script 18 line 1' play 6 played $(cat sixteen) create_a looking
# The order of faults: files that can't be read, lines that can't, the image, and the output.
printf '%s\n' '1 0 0 stat /' '2 0 0 write / 0 123' > odd_digits
printf '1 0 0 stat /' > no_end
printf '%s\n' '4294967296 0 0 stat /' > too_late
printf '%s\n' '1 0 0 chmod / 10000' > too_many_bits
printf '%s\n' '1 0 0  stat /' > two_spaces
printf '%s\n' '1 0 0 stat' > no_path
printf '%s\n\n' '1 0 0 stat /' > empty_line
cp made played
stood=$(stat -c '%i %y' played)
refuses 2 'unixvol: script 1 line 2' play 6 played odd_digits
refuses 2 'unixvol: script 2 line 1' play 6 played create_a no_end
for script in too_late too_many_bits two_spaces no_path; do
    refuses 2 'unixvol: script 3 line 1' play 6 played create_a no_line "$script" odd_digits
done
refuses 2 'unixvol: script 1 line 2' play 6 played empty_line
refuses 2 'unixvol: script 1 line 2' play 6 unsound odd_digits
refuses 3 'unixvol: cannot read missing' play 6 played odd_digits missing
refuses 3 'unixvol: cannot read missing' play 6 missing nothing
refuses 3 'unixvol: cannot read .' play 6 played . nothing
refuses 1 'unixvol: unsound, rule 12' play 6 unsound create_a
refuses 3 'unixvol: cannot write pipe' play 6 pipe create_a
saves 'an image of which no script was played' played made
has 'an image that was not to be written' "$stood" "$(stat -c '%i %y' played)"
"$program" play 6 played create_a > /dev/full 2> error < /dev/null
echo $? > status
: > output
echo 'unixvol: cannot write -' > line
wants 'a play into a full device' 3 none line
printf '%s\n' '    1 .' '    1 ..' '   32 a' > lines
prints lines ls 6 played /
cp made played
cp played before
printf '%s\n' '1.1 ok 32' 'records 1' 'confirmed 1' > lines
echo 'unixvol: cannot write played' > line
(ulimit -f 8; trap '' XFSZ; runs play 6 played create_a)
wants 'a play whose volume finds no room' 3 lines line
saves 'an image whose volume found no room' played before
# If standard output fails and then saving does, only the first fault is reported.
(
    ulimit -f 8
    trap '' XFSZ
    "$program" play 6 played create_a > /dev/full 2> error < /dev/null
    echo $? > status
)
: > output
echo 'unixvol: cannot write -' > line
wants 'a play into a full device, whose volume finds no room' 3 none line
saves 'an image whose volume found no room after all' played before
misread 'error: the following required arguments were not provided' play 6 played
misread "error: invalid value '65' for '<SCRIPT>'" play 6 played $(yes create_a | head -65)
misread "error: invalid value '8'" play 8 played create_a
# Sixty-four scripts of a thousand calls each, all at once, within a minute.
prints none mkfs 7 played 4000 100 0 0 1
for number in $(seq 64); do
    { echo "1 0 0 create /f$number 644"; yes "2 0 0 write /f$number 7 $(printf %02x "$number")" | head -999; } > "script$number"
done
runs_within 60 play 7 played script{1..64}
cp output report
head -64000 report | grep -v ' ok [0-9]*$' > output
wants '64 scripts of a thousand calls' 0 none none
printf '%s\n' 'records 64000' 'confirmed 64000' > lines
tail -n +64001 report > output
wants 'the receipts of 64 scripts of a thousand calls' 0 lines none
has 'the files that 64 scripts made' 64 "$("$program" ls 7 played / | grep -c ' f[0-9]*$')"
for number in 1 33 64; do
    { head -c 7 /dev/zero; printf "\\x$(printf %02x "$number")"; } > bytes
    prints bytes get 7 played "/f$number"
done
# The time to read a script is proportional to its length: one of a hundred thousand lines, and one with a word of 8 MB.
yes '1 0 0 list /' | head -100000 > many_lines
{ seq -f '1.%.0f list 66' 100000; printf '%s\n' 'records 0' 'confirmed 100000'; } > lines
runs_within 30 play 7 played many_lines
wants 'a script of a hundred thousand lines' 0 lines none
prints none mkfs 7 played 20000 100 0 0 1
seq 2000000 | head -c 8388608 > many_bytes
{
    echo '1 0 0 create /f 644'
    echo "2 0 0 write /f 0 $(od -An -v -tx1 many_bytes | tr -d ' \n')"
    echo '3 0 0 stat /f'
} > long_line
printf '%s\n' '1.1 ok 102' '1.2 ok 8388608' '1.3 stat 102 file 0644 1 0 0 8388608' 'records 2' 'confirmed 3' > lines
runs_within 30 play 7 played long_line
wants 'a script with 8 MB in one word' 0 lines none
gives many_bytes get 7 played /f
rm -f played many_bytes many_lines long_line script[0-9]* report

echo "$passed passed, $failed failed"
[ "$failed" = 0 ]
