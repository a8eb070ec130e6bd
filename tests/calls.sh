#!/usr/bin/env bash
# Runs the commands of the built program that make one call each, `put`, `rm`, `mkdir`, `rmdir`, `ln`, `chmod` and `chown`, with `ls` and `get`: on volumes of
# both editions, on one that Linux wrote, and on the examples of the help; their refusals and wrong words; and the help.
# Usage: tests/calls.sh PROGRAM. It prints each row that fails, and ends with 'N passed, N failed'.
. "$(dirname "$0")/rows.sh"

printf hello > hello
{ cat hello; head -c 515 /dev/zero; } > long_hello
mkdir volumes
"$program" mkfs 6 volumes/a 20 2 0 0 168496141
cp volumes/a made

# Words of the commands on trees that aren't valid.
for command in 'ls /' 'get /a' 'put /a hello 1' 'rm /a 1' 'rmdir /a 1' 'mkdir /a 1' 'ln /a /b 1' 'chmod /a 644 1' 'chown /a 1 2 1' 'mknod /a c 3 5 644 1'; do
    read -r -a given <<< "$command"
    misread "error: invalid value '8'" "${given[0]}" 8 volumes/a "${given[@]:1}"
    [ "${given[0]}" = ls ] || misread 'error: the following required arguments were not provided' "${given[0]}" 6 volumes/a
    case ${given[0]} in
        # These take further words, with an option.
        get | put) misread "error: invalid value '2' for '<MORE>'" "${given[0]}" 6 volumes/a "${given[@]:1}" 2 ;;
        *) misread 'error: unexpected argument' "${given[0]}" 6 volumes/a "${given[@]:1}" 2 ;;
    esac
done
misread 'error: the following required arguments were not provided' ls 6
misread "error: invalid value '8'" salvage 8 volumes/a
misread 'error: the following required arguments were not provided' salvage 6
misread 'error: unexpected argument' salvage 6 volumes/a 2
for number in 4294967296 +1 0x1 '' one 2026-11-31 2026-11-23T12:00:00 2026-11-23T12:00:00.5Z 1969-12-31T23:59:59Z 2106-02-07T06:28:16Z; do
    misread "error: invalid value '$number' for '<NOW>'" put 6 volumes/a /a hello "$number"
    misread "error: invalid value '$number' for '<NOW>'" rm 6 volumes/a /a "$number"
    misread "error: invalid value '$number' for '<NOW>'" rmdir 6 volumes/a /a "$number"
    misread "error: invalid value '$number' for '<NOW>'" mkdir 6 volumes/a /a "$number"
    misread "error: invalid value '$number' for '<NOW>'" ln 6 volumes/a /a /b "$number"
    misread "error: invalid value '$number' for '<NOW>'" chmod 6 volumes/a /a 644 "$number"
    misread "error: invalid value '$number' for '<NOW>'" chown 6 volumes/a /a 1 2 "$number"
done
for number in 10000 99999999999999999999 8 0648 +1 0x1 0o17 '' ' 1' '1 ' one u ug +q u+q u+xq z+x x 'u*x' u+x,g u+x, ,u+x u+x,,g+x 644,u+x u+x,644 u=g u+X u+x-w 'u+x, g+x' U+x u+7; do
    misread "error: invalid value '$number' for '<PERM>'" chmod 6 volumes/a / "$number" 1
done
misread 'error: unexpected argument' chmod 6 volumes/a / -x 1
for number in 65536 99999999999999999999 +1 0x1 '' ' 1' root; do
    misread "error: invalid value '$number' for '<UID>'" chown 6 volumes/a / "$number" 2 1
    misread "error: invalid value '$number' for '<GID>'" chown 6 volumes/a / 1 "$number" 1
done
saves 'a volume whose command line was misread' volumes/a made

# The tree of a volume, for each edition: the root's i-number, and those of the first two files or directories that are made.
for numbers in '6 1 32 31' '7 2 16 15'; do
    read -r edition top first second <<< "$numbers"
    dots=("    $top ." "    $top ..")
    tree=volumes/tree$edition
    prints none mkfs "$edition" "$tree" 100 2 0 0 1000
    chmod 640 "$tree"
    cp "$tree" empty
    ls_prints "$tree" / "${dots[@]}"
    prints none put "$edition" "$tree" /hello hello 1001
    ls_prints "$tree" '' "${dots[@]}" "   $first hello"
    prints hello get "$edition" "$tree" /hello
    prints hello get "$edition" "$tree" hello//
    prints none put "$edition" "$tree" /hello/ hello 1001
    prints hello cat "$edition" "$tree" "$first"
    prints none mkdir "$edition" "$tree" /d/ 1002
    ls_prints "$tree" / "${dots[@]}" "   $second d" "   $first hello"
    ls_prints "$tree" d/ "   $second ." "    $top .."
    prints none ln "$edition" "$tree" /hello /d/again 1003
    ls_prints "$tree" /d "   $second ." "    $top .." "   $first again"
    prints none put "$edition" "$tree" /d/../d/again long_hello 1004
    prints long_hello get "$edition" "$tree" /hello
    prints none put "$edition" "$tree" /d/none none 1005
    prints none get "$edition" "$tree" /d/none
    cp "$tree" before
    # A refusal leaves the image as it was.
    refuses 1 'unixvol: 2 NoEntry' ls "$edition" "$tree" /none
    refuses 1 'unixvol: 20 NotDirectory' ls "$edition" "$tree" /hello/none
    refuses 1 'unixvol: 20 NotDirectory' ls "$edition" "$tree" /hello
    printf '%s\n' "   $first /hello" > lines
    prints lines ls -d "$edition" "$tree" /hello
    refuses 1 'unixvol: 2 NoEntry' get "$edition" "$tree" /none
    refuses 1 'unixvol: 20 NotDirectory' get "$edition" "$tree" /hello/none
    refuses 1 'unixvol: 21 IsDirectory' get "$edition" "$tree" /d
    refuses 1 'unixvol: 2 NoEntry' put "$edition" "$tree" /none/a hello 2000
    refuses 1 'unixvol: 20 NotDirectory' put "$edition" "$tree" /hello/a hello 2000
    refuses 1 'unixvol: 21 IsDirectory' put "$edition" "$tree" / hello 2000
    refuses 1 'unixvol: 2 NoEntry' rm "$edition" "$tree" /none 2000
    refuses 1 'unixvol: 21 IsDirectory' rm "$edition" "$tree" /d 2000
    refuses 1 'unixvol: 2 NoEntry' rmdir "$edition" "$tree" /none 2000
    refuses 1 'unixvol: 20 NotDirectory' rmdir "$edition" "$tree" /hello 2000
    refuses 1 'unixvol: 22 Invalid' rmdir "$edition" "$tree" / 2000
    refuses 1 'unixvol: 22 Invalid' rmdir "$edition" "$tree" /d/.. 2000
    refuses 1 'unixvol: 101 NotEmpty' rmdir "$edition" "$tree" /d 2000
    refuses 1 'unixvol: 17 Exists' mkdir "$edition" "$tree" /d 2000
    refuses 1 'unixvol: 2 NoEntry' mkdir "$edition" "$tree" /none/a 2000
    refuses 1 'unixvol: 2 NoEntry' ln "$edition" "$tree" /none /a 2000
    refuses 1 'unixvol: 17 Exists' ln "$edition" "$tree" /hello /d 2000
    refuses 1 'unixvol: 21 IsDirectory' ln "$edition" "$tree" /d /e 2000
    body great 50000
    refuses 1 'unixvol: 28 NoSpace' put "$edition" "$tree" /great great 2000
    saves 'a volume that commands were refused on' "$tree" before
    # Back to the start: everything that was made is removed.
    prints none rm "$edition" "$tree" /d/none 1007
    prints none rm "$edition" "$tree" hello/ 1008
    prints long_hello get "$edition" "$tree" /d/again
    prints none rm "$edition" "$tree" /d/again 1009
    prints none rmdir "$edition" "$tree" /d 1010
    ls_prints "$tree" / "${dots[@]}"
    has 'the permissions of a volume that was changed' 640 "$(stat -c %a "$tree")"
    has 'the size of a volume that was changed' 51200 "$(wc -c < "$tree")"
    # The 95 blocks besides the root's are free again: a file takes them all, one of them as an indirect block.
    body all $((94 * 512))
    prints none put "$edition" "$tree" /all all 1011
    prints all get "$edition" "$tree" /all
    refuses 1 'unixvol: 28 NoSpace' put "$edition" "$tree" /more hello 1012
    prints none put "$edition" "$tree" /more none 1013
    refuses 1 'unixvol: 28 NoSpace' mkdir "$edition" "$tree" /d 1014
    prints none rm "$edition" "$tree" /all 1015
    prints none mkdir "$edition" "$tree" /d 1016
done

# Permissions and owners, as they are in the i-nodes: in the sixth edition mode, links, user and group are the first five bytes, in the seventh the
# first eight, two bytes each.
owned=volumes/owned
# Each row: the edition; the offsets of the i-nodes of the root and of /hello; the greatest number of a user or group; the i-node of /hello after put,
# after chmod, after chown, and after chown to the greatest numbers; the root's; and the i-nodes of /hello after a put with the owner of the chown, and
# with the greatest one, and of a directory made in its place with the first.
while IFS=: read -r edition root_at at greatest put_as permitted given greatly top put_given put_greatly made_given; do
    prints none mkfs "$edition" "$owned" 100 2 0 0 1000
    prints none put "$edition" "$owned" /hello hello 1001
    holds 'the i-node of a file that was put' "$owned" "$at" "$put_as"
    prints none chmod "$edition" "$owned" /hello 4751 1002
    holds 'the i-node of a file with other permissions' "$owned" "$at" "$permitted"
    prints none chown "$edition" "$owned" hello/ 3 17 1003
    holds 'the i-node of a file with another owner' "$owned" "$at" "$given"
    prints none chown "$edition" "$owned" /hello "$greatest" "$greatest" 1004
    holds 'the i-node of a file with the greatest owner' "$owned" "$at" "$greatly"
    prints none chmod "$edition" "$owned" / 000700 1005
    holds 'the i-node of a root with other permissions' "$owned" "$root_at" "$top"
    cp "$owned" before
    refuses 1 'unixvol: 2 NoEntry' chmod "$edition" "$owned" /none 644 2000
    refuses 1 'unixvol: 20 NotDirectory' chmod "$edition" "$owned" /hello/a 644 2000
    refuses 1 'unixvol: 2 NoEntry' chmod "$edition" "$owned" /none u+x 2000
    refuses 1 'unixvol: 20 NotDirectory' chmod "$edition" "$owned" /hello/a a=rx 2000
    refuses 1 'unixvol: 2 NoEntry' chown "$edition" "$owned" /none 3 17 2000
    refuses 1 'unixvol: 20 NotDirectory' chown "$edition" "$owned" /hello/a 3 17 2000
    refuses 1 'unixvol: 104 BadId' chown "$edition" "$owned" /hello $((greatest + 1)) 17 2000
    refuses 1 'unixvol: 104 BadId' chown "$edition" "$owned" /none 3 $((greatest + 1)) 2000
    saves 'a volume whose permissions and owners stay' "$owned" before
    # User 0 can still do everything as before.
    prints hello get "$edition" "$owned" /hello
    prints none put "$edition" "$owned" /hello none 1006
    prints none rm "$edition" "$owned" /hello 1007
    # Owners of what is put and made; a file that is there gets one too.
    prints none put "$edition" "$owned" /hello hello 1008 --owner 3:17
    holds 'the i-node of a file that was put with an owner' "$owned" "$at" "$put_given"
    prints none put "$edition" "$owned" /hello none 1009 -o "$greatest:$greatest"
    holds 'the i-node of a file that got the greatest owner by put' "$owned" "$at" "$put_greatly"
    cp "$owned" before
    for owner in "$((greatest + 1)):17" "3:$((greatest + 1))" 65535:65535; do
        refuses 1 'unixvol: 104 BadId' put "$edition" "$owned" /hello hello 2000 --owner "$owner"
        refuses 1 'unixvol: 104 BadId: /hello' put "$edition" "$owned" -t / hello 2000 --owner "$owner"
        refuses 1 'unixvol: 104 BadId' mkdir "$edition" "$owned" /d 2000 --owner "$owner"
        refuses 1 'unixvol: 104 BadId' mkdir -p "$edition" "$owned" /d/e 2000 --owner "$owner"
    done
    refuses 1 'unixvol: 17 Exists' mkdir "$edition" "$owned" /hello 2000 --owner 3:17
    refuses 1 'unixvol: 2 NoEntry' put "$edition" "$owned" /none/a hello 2000 --owner 3:17
    saves 'a volume in which nothing got an owner' "$owned" before
    prints none rm "$edition" "$owned" /hello 1010
    prints none mkdir "$edition" "$owned" /hello 1011 --owner 3:17
    holds 'the i-node of a directory that was made with an owner' "$owned" "$at" "$made_given"
done << 'END'
6:1024:2016:255:A4 81 01 00 00:E9 89 01 00 00:E9 89 01 03 11:E9 89 01 FF FF:C0 C1 02 00 00:A4 81 01 03 11:A4 81 01 FF FF:ED C1 02 03 11
7:1088:1984:32767:A4 81 01 00 00 00 00 00:E9 89 01 00 00 00 00 00:E9 89 01 00 03 00 11 00:E9 89 01 00 FF 7F FF 7F:C0 41 02 00 00 00 00 00:A4 81 01 00 03 00 11 00:A4 81 01 00 FF 7F FF 7F:ED 41 02 00 03 00 11 00
END
for owner in '' : 3 3: :3 x:3 65536:3 3:65536 3:3:3 -3:3; do
    for words in 'put 7 volumes/owned /x hello' 'put 7 volumes/owned -t / hello' 'mkdir 7 volumes/owned /d' 'mkdir -p 7 volumes/owned /d'; do
        # shellcheck disable=SC2086 # the words of a command
        misread "error: invalid value '$owner' for '--owner <UID:GID>': not two numbers from 0 to 65535 with a colon between them" $words "--owner=$owner"
    done
done

# Refusals that need a volume of their own: i-nodes, links, sizes, special files.
edition=6
prints none mkfs 6 volumes/small 20 1 0 0 0
for number in $(seq 15); do prints none put 6 volumes/small "/f$number" none 1; done
refuses 1 'unixvol: 103 NoInode' put 6 volumes/small /f16 none 1
refuses 1 'unixvol: 103 NoInode' mkdir 6 volumes/small /d 1
for number in $(seq 126); do "$program" ln 6 volumes/small /f1 "/l$number" 1 || break; done
refuses 1 'unixvol: 31 TooManyLinks' ln 6 volumes/small /f1 /l127 1
body great 16777216
refuses 1 'unixvol: 27 TooBig' put 6 volumes/small /f1 great 1
# Of a file without end, no more is read than one byte above the greatest size.
echo 'unixvol: 27 TooBig' > line
(in_memory 200000 runs_within 20 put 6 volumes/small /f1 /dev/zero 1)
wants 'put of a file without end' 1 none line
prints none mkfs 7 volumes/seventh 100 10 0 0 1
(in_memory 4000000 runs_within 60 put 7 volumes/seventh /x /dev/zero 1)
wants 'put of a file without end into the seventh edition' 1 none line
mkdir endless
ln -s /dev/zero endless/f1
echo 'unixvol: 27 TooBig: /f1' > line
(in_memory 200000 runs_within 20 put 6 volumes/small -t / endless/f1 none 1)
wants 'put -t of a file without end' 1 none line
prints none mkfs 6 volumes/special 20 2 0 0 0
prints none put 6 volumes/special /tty none 1
put volumes/special $((1024 + 32 * 31)) 'A4 A1'
ls_prints volumes/special / '    1 .' '    1 ..' '   32 tty'
refuses 1 'unixvol: 102 NotRegular' get 6 volumes/special /tty
refuses 1 'unixvol: 102 NotRegular' put 6 volumes/special /tty hello 1
prints none chmod 6 volumes/special /tty 600 1
prints none chown 6 volumes/special /tty 7 8 1
holds 'the i-node of a special file' volumes/special $((1024 + 32 * 31)) '80 A1 01 07 08'
prints none ln 6 volumes/special /tty /terminal 1
prints none rm 6 volumes/special /tty 1
prints none rm 6 volumes/special /terminal 1
ls_prints volumes/special / '    1 .' '    1 ..'

# A volume that Linux wrote, as samples/README.md says: its names, i-numbers, sizes and checksums are those that Linux printed.
linux="$samples/linux_made.v7"
# told DIRECTORY: the lines of Linux's listing of its entries
told() { sed -n "\\|^$1:\$|,/^\$/p" "$samples/linux_made.txt" | sed '1d;/^$/d'; }

while read -r directory own parent; do
    { printf '%5d .\n%5d ..\n' "$own" "$parent" && told "$directory" | awk '{ printf "%5d %s\n", $1, $NF }'; } | LC_ALL=C sort -k 2 > lines
    prints lines ls 7 "$linux" "${directory#.}"
    while read -r number mode size name; do
        case $mode in
            -*) runs get 7 "$linux" "${directory#.}/$name" ;;
            *) runs cat 7 "$linux" "$number" ;;
        esac
        has "the size of $directory/$name" "0 $size" "$(cat status) $(wc -c < output)"
    done < <(told "$directory" | awk '{ print $1, $2, $6, $NF }')
done <<< $'. 2 2\n./etc 94 2\n./usr 96 2\n./usr/games 95 96'
while read -r sum path; do
    runs get 7 "$linux" "$path"
    has "the bytes of $path" "0 $sum" "$(cat status) $(md5sum < output | cut -c 1-32)"
done < <(grep -E '^[0-9a-f]{32} ' "$samples/linux_made.txt")
"$program" get 7 "$linux" /etc/passwd > wanted
prints wanted get 7 "$linux" /usr/games/passwd.link
body wanted 72000 # all but the last four bytes are a hole
"$program" get 7 "$linux" /usr/sparse | head -c 72000 > output
has 'the hole of a file' same "$(cmp -s output wanted && echo same)"
for path in /tmp /usr/games/f3; do refuses 1 'unixvol: 2 NoEntry' get 7 "$linux" "$path"; done
cp "$linux" linux.v7
echo date > rc
prints none put 7 linux.v7 /etc/rc rc 1795000000
printf '%s\n' '   94 .' '    2 ..' '   91 empty' '   92 motd' '   93 passwd' '   51 rc' > lines
prints lines ls 7 linux.v7 /etc
prints rc get 7 linux.v7 /etc/rc
put linux.v7 1090 '05'
refuses 1 'unixvol: unsound, rule 12' ls 7 linux.v7 /etc

image root 32
put root 0 '01 00 2E'
put root 16 '01 00 2E 2E'

# The examples of README.md and of the help; the word `disk.img` is a volume with the example's file.
prints hello cat 6 "$samples/hello.v6" 1
prints none mkfs 6 disk.img 4000 100 0 0 173750400
has 'the size of a volume of 4,000 blocks' 2048000 "$(wc -c < disk.img)"
put root 0 '01'
put root 16 '01'
prints root cat 6 disk.img 1
cp disk.img whole
truncate -s 2047488 disk.img # 3,999 blocks
refuses 1 'unixvol: unsound, rule 1' cat 6 disk.img 1
truncate -s 2048000 disk.img
prints root cat 6 disk.img 1
saves 'an image short of its last blocks, once it is mended' disk.img whole
od -c < root > dumped
{ "$program" cat 6 disk.img 1 2> error; echo $? > status; } | od -c > output
wants 'cat of a root directory, dumped' 0 dumped none
echo 'Welcome.' > motd
prints none mkdir 6 disk.img /etc 173750401
prints none put 6 disk.img /etc/motd motd 173750402
printf '%s\n' '  101 .' '    1 ..' '  100 motd' > lines
prints lines ls 6 disk.img /etc
prints motd get 6 disk.img /etc/motd
prints none ln 6 disk.img /etc/motd /motd 173750403
prints none rm 6 disk.img /etc/motd 173750404
prints none rmdir 6 disk.img /etc 173750405
prints none chmod 6 disk.img /motd 0600 173750406
prints none chown 6 disk.img /motd 3 1 173750407
holds 'the i-node of the file of the examples' disk.img $((1024 + 32 * 99)) '80 81 01 03 01'
printf '%s\n' '    1 .' '    1 ..' '  100 motd' > lines
prints lines ls 6 disk.img /
put disk.img 1026 '05'
refuses 1 'unixvol: unsound, rule 12' ls 6 disk.img /
prints none mkfs 7 disk.img 100 2 0 0 0
put root 0 '02'
put root 16 '02'
prints root cat 7 disk.img 2
put disk.img 1536 'A4 81 01 00 00 00 00 00 00 00 05 00 00 05 00' # i-node 9, whose block is block 5
put disk.img 2560 '68 65 6C 6C 6F'
prints hello cat 7 disk.img 9

# The program's help and version.
echo "unixvol $(sed -n 's/^## \([0-9][0-9.]*\)$/\1/p' "$samples/../CHANGELOG.md" | head -n 1)" > version
prints version --version
prints version -V
helps --help
helps help
helps cat --help
helps help cat
for command in mkfs build ls get find export sums inode super free block df map check icheck dcheck ncheck put import rm mkdir rmdir ln mv chmod chown touch mknod boot salvage repair resize play migrate serve identify; do
    helps "$command" --help
    helps help "$command"
done

echo "$passed passed, $failed failed"
[ "$failed" = 0 ]
