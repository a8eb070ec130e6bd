#!/usr/bin/env bash
# Runs the built program with many command lines, and checks what it does with their files, paths, numbers and times. Usage: tests/words.sh PROGRAM.
# It prints a line for each row that fails, and ends with 'N passed, N failed'.
. "$(dirname "$0")/rows.sh"

# A table has one row per line, with columns separated by ` | `. The first column has the words as a shell reads them.

# reads WORDS: runs the program with the words of a table, and the archive in `given` on standard input
reads() {
    local words
    eval "words=($1)"
    begun=$(date +%s)
    "$program" "${words[@]}" > output 2> error < given
    echo $? > status
    ended=$(date +%s)
}

# bytes FILE AT COUNT: these bytes as hexadecimal digits
bytes() { od -An -v -tx1 -j "$2" -N "$3" "$1" | tr -d ' \n'; }

# dated LABEL MOMENT: the super-block of `disk`, of the seventh edition, has this time, or the clock's if MOMENT is `clock`
dated() {
    local high low found
    read -r high low < <(od -An -tu2 -j 926 -N 4 disk)
    found=$((high * 65536 + low))
    if [ "$2" = clock ]; then
        has "the moment of $1" yes "$([ "$begun" -le "$found" ] && [ "$found" -le "$ended" ] && echo yes || echo "no: $found")"
    else
        has "the moment of $1" "$2" "$found"
    fi
}

# paths LABEL WANTED: the paths in `disk`, each after its i-number
paths() { has "the paths after $1" "$2" "$("$program" ncheck 7 disk 1 | paste -s -d ' ' -)"; }

# begins NAME..: `disk` becomes a volume with directory /d, which is i-node 16, and files at these paths, which are 15, 14, ..; the bytes of each are
# those of its last name
begins() {
    local path
    "$program" mkfs 7 disk 100 2 0 0 1000
    "$program" mkdir 7 disk /d 1000
    for path in "$@"; do
        printf '%s' "${path##*/}" > body
        "$program" put 7 disk "$path" body 1000
    done
}

# refused: reads a table of words and a text: status 2, no output, and the text is part of the error
refused() {
    local words text
    while IFS='|' read -r words text; do
        text=${text# }
        reads "$words"
        if [[ $(cat error) == 'error: '*"$text"* ]]; then cp error line; else printf '%s\n' "$text" > line; fi
        wants "$words" 2 none line
    done
}

: > given
printf hello > file
# A member from before 1970, which gets the time of the import.
mkdir tree tree/t
tar --format=gnu --owner=0 --group=0 --mtime=@-1000 -cf archive -C tree t

# Calls that are made one after another: the words, the time of the super-block afterwards, and all paths with their i-numbers.
begins
"$program" rmdir 7 disk /d 1000
while IFS='|' read -r words moment wanted; do
    case $words in import*) cp archive given ;; *) : > given ;; esac
    reads "$words"
    wants "$words" 0 none none
    dated "$words" "${moment// /}"
    paths "$words" "${wanted# }"
done << 'END'
mkdir 7 disk d 0 | 0 | 16 /d
put 7 disk /d/f file 4294967295 | 4294967295 | 15 /d/f 16 /d
chmod 7 disk /d 07777 4 | 4 | 15 /d/f 16 /d
chown 7 disk /d 32767 010 5 | 5 | 15 /d/f 16 /d
put 7 disk /from file 6 | 6 | 14 /from 15 /d/f 16 /d
ln 7 disk /from /to 3 | 3 | 14 /from 14 /to 15 /d/f 16 /d
rm 7 disk /d/f 1 | 1 | 14 /from 14 /to 16 /d
rmdir 7 disk /d 02 | 2 | 14 /from 14 /to
rm 7 disk /to 7 | 7 | 14 /from
mv 7 disk /from /to 8 | 8 | 14 /to
mkdir -p 7 disk /d/e 8 | 8 | 14 /to 15 /d/e 16 /d
rm 7 disk /d --recursive | clock | 14 /to
mkdir -p 7 disk /d/e 2 | 2 | 14 /to 15 /d/e 16 /d
rm -r 7 disk /d 8 | 8 | 14 /to
import 7 disk | clock | 14 /to 16 /t
mkdir 7 disk /d 9 | 9 | 14 /to 15 /d 16 /t
import 7 disk /d 8 | 8 | 13 /d/t 14 /to 15 /d 16 /t
touch 7 disk /d/ 6 | 6 | 13 /d/t 14 /to 15 /d 16 /t
touch 7 disk d/e 5 | 5 | 12 /d/e 13 /d/t 14 /to 15 /d 16 /t
END
begins
cp disk before
refuses 1 'unixvol: 22 Invalid' rmdir 7 disk / 02
refuses 1 'unixvol: 104 BadId' chown 7 disk /d 65535 010 5
saves 'a volume whose root and whose owners stay' disk before
prints none chmod 7 disk /d 07777 4
prints none chown 7 disk /d 32767 010 5
has 'the i-node with the permissions and the owner of the words' 'ff4f0200ff7f0a00' "$(bytes disk $((1024 + 64 * 15)) 8)"

# Times: the words after those of `rm`, and the time that is meant.
begins /f
cp disk with_file
while IFS='|' read -r words moment; do
    cp with_file disk
    reads "rm 7 disk /f $words"
    wants "rm at $words" 0 none none
    dated "rm at $words" "${moment# }"
done << 'END'
2026-11-23T12:00:00Z | 1795435200
2026-11-23T13:30:00+01:30 | 1795435200
'2026-11-23 12:00:00.000Z' | 1795435200
1970-01-01T00:00:00Z | 0
2106-02-07T06:28:15Z | 4294967295
1979-01-10 | 284774400
1970-01-01 | 0
2106-02-07 | 4294944000
19700102 | 19700102
12 | 12
 | clock
END
for word in 2026-11-23T 2026-11-23Z 2026-13-01 2026-02-29 26-11-23 1969-12-31 2106-02-08 2026-11-23T12:00:00 2026-11-23T12:00:00.5Z 1969-12-31T23:59:59Z 2106-02-07T06:28:16Z now ''; do
    misread "error: invalid value '$word' for '<NOW>': not a decimal number from 0" rm 7 disk /f "$word"
done

# Several files that are put: the words, the time, and the files in order, each with the bytes of its path.
mkdir x y
for file in a x/b y/c d b c 123 456 notamoment -a b..; do printf '%s' "$file" > "./$file"; done
begins
cp disk empty
while IFS='|' read -r words moment files; do
    cp empty disk
    reads "put $words"
    wants "put $words" 0 none none
    dated "put $words" "${moment// /}"
    wanted='16 /d'
    number=15
    for file in $files; do
        wanted="$number /d/${file##*/} $wanted"
        number=$((number - 1))
        cmp -s <("$program" get 7 disk -- "/d/${file##*/}") "./$file"
        has "the bytes of $file by put $words" 0 $?
    done
    paths "put $words" "$wanted"
done << 'END'
7 disk -t /d a | clock | a
-t /d 7 disk a b | clock | a b
7 disk a x/b y/c d -t/d | clock | a x/b y/c d
7 disk --target-directory /d a 8 | 8 | a
7 disk a b c 8 -t /d | 8 | a b c
7 disk --target-directory=/d a b 1970-01-01T00:00:09Z | 9 | a b
-t /d 7 disk 123 | clock | 123
-t /d 7 disk a ./123 | clock | a ./123
-t /d 7 disk 123 456 8 | 8 | 123 456
-t /d 7 disk a notamoment | clock | a notamoment
-t /d 7 disk -- -a b.. | clock | -a b..
END

# Several files that are got: the words, and the last names of the paths in order. If a name can't be written, only those before it are.
begins /d/f /d/g /g /h /8
while IFS='|' read -r words names; do
    rm -rf out
    mkdir out
    reads "get $words"
    wants "get $words" 0 none none
    got=
    for name in $names; do
        has "the bytes of $name by get $words" "$name" "$(cat "out/$name")"
        rm -rf out
        mkdir -p "out/$name"
        reads "get $words"
        echo "unixvol: cannot write out/$name" > line
        wants "get $words, where out/$name is a folder" 3 none line
        rmdir "out/$name"
        has "the files before $name by get $words" "$got" "$(ls -x out)"
        got="${got:+$got  }$name"
        reads "get $words"
    done
    has "the files of get $words" "$(tr -s ' ' '\n' <<< "$names" | sed '/^$/d' | LC_ALL=C sort | paste -s -d ' ' -)" "$(ls out | LC_ALL=C sort | paste -s -d ' ' -)"
done << 'END'
7 disk -o out /d/f | f
-o out 7 disk /d/f g /h 8 | f g h 8
7 disk /d/f --output=out /d/g | f g
END

# Words that are refused, and a text in the error.
refused << 'END'
put 7 disk -t '' a | invalid value '' for '<DIR>': it is empty
get 7 disk --output= /d/f | invalid value '' for '<FOLDER>': it is empty
put 7 disk /d/f | no value for '<FILE>': a file is missing
put 7 disk /d/f a notamoment | invalid value 'notamoment' for '<NOW>': not a decimal number from 0
put 7 disk /d/f a 8 b | invalid value 'b' for '<MORE>': several files need -t DIR
mkfs 7 disk ra81 | invalid value 'ra81' for '<FSIZE>': not a decimal number from 0 to 4294967295, nor rk05
mkfs 7 disk rk05 x | invalid value 'x' for '<IBLOCKS>'
mkfs 7 disk rk05 5 65536 | invalid value '65536' for '<UID>'
put 7 disk -t /d | <FILE>
put 7 --target-directory=/d disk | <FILE>
put 7 disk | <PATH>
rm 7 disk /d/f /d/g | nor a date like 2026-11-23T12:00:00Z; rm takes one PATH, then the time
mkdir 7 disk /d/f /d/g | ; mkdir takes one PATH, then the time
mv 7 disk /d/f /d/g /d/h | ; mv takes two paths, FROM and TO, then the time
put 7 disk a -t | a value is required for '--target-directory <DIR>'
export 7 disk --bad | a value is required for '--bad <MAPFILE>'
put 7 disk -t /d -t /d a | '--target-directory <DIR>' cannot be used multiple times
put 7 disk -t /d x/a b y/a | invalid value 'a' for '<FILE>': two files have this last name
put 7 disk -t /d a a/. 8 | invalid value 'a' for '<FILE>'
put 7 disk -o /d a | invalid value '/d' for '--owner <UID:GID>': not two numbers from 0 to 65535 with a colon between them
get 7 disk /d/f /d/g | invalid value '/d/g' for '<MORE>': one file is printed, as by > FILE; several need -o FOLDER
get 7 disk -p /d/f | no value for '<FOLDER>': -p is for files in a folder: it needs -o FOLDER
get 7 disk -r /d | no value for '<FOLDER>': -r copies into a folder: it needs -o FOLDER
get 7 disk -r -o out --unsound /d | the argument '--output' cannot be used with '--unsound'
get 7 disk /d/f --preserve /d/g | invalid value '/d/g' for '<MORE>': one file is printed, as by > FILE; several need -o FOLDER
put 7 disk -p -p /d/f a | '--preserve' cannot be used multiple times
get 7 disk -x -o out /d/f | unexpected argument '-x'
get 7 disk -o out | <PATH>
get 7 disk -o out -o out /d/f | '--output <FOLDER>' cannot be used multiple times
get 7 disk -o out /d/f /e/f/ | invalid value 'f' for '<PATH>': two files have this last name
get --unsound -o out 7 disk /d/f | the argument '--output' cannot be used with '--unsound'
ls --unsound -R 7 disk | the argument '--recursive' cannot be used with '--unsound'
ls --unsound 7 disk --unsound | '--unsound' cannot be used multiple times
map --svg --json 7 disk | the argument '--svg' cannot be used with '--json'
map 7 disk --json --svg | the argument '--svg' cannot be used with '--json'
map 7 disk --json --file / | the argument '--file' cannot be used with '--json'
map 7 disk --file | a value is required for '--file <PATH>'
inode 7 disk | <INO>
map --svg --svg 7 disk | --svg
--explain | subcommand
super --explain 7 disk --explain | --explain
--explain=yes super 7 disk | --explain
super 7 disk --explained | --explained
icheck 7 disk 065 | '065' for '<WORKERS>'
END

# Second lines: a missing image has one if the words ask for it.
echo 'unixvol: cannot read missing' > first
{ cat first; echo 'unixvol: missing: No such file or directory (os error 2)'; } > second
while IFS='|' read -r words wanted; do
    reads "$words"
    wants "$words" 3 none "${wanted# }"
done << 'END'
super 7 missing | first
--explain super 7 missing | second
super --explain 7 missing | second
super 7 missing --explain | second
--explain super 7 missing --explain | second
super 7 --explain -- missing | second
super 7 -- missing | first
play 7 missing one two --explain | second
play 7 missing one -- --explain | first
END

# Listings: the words, and the lines, each followed by a semicolon, without leading spaces, and with single spaces inside.
begins /d/f
while IFS='|' read -r words wanted; do
    reads "$words"
    has "$words" "0$wanted" "$(cat status) $(tr -s ' ' < output | sed 's/^ //' | tr '\n' ';')"
done << 'END'
ls 7 disk /d | 16 .;2 ..;15 f;
ls 7 disk | 2 .;2 ..;16 d;
ls -l 7 disk /d | 16 drwxr-xr-x 2 0 0 48 1970-01-01 00:16:40 .;2 drwxrwxrwx 3 0 0 48 1970-01-01 00:16:40 ..;15 -rw-r--r-- 1 0 0 1 1970-01-01 00:16:40 f;
ls 7 -lR disk | /:;2 drwxrwxrwx 3 0 0 48 1970-01-01 00:16:40 .;2 drwxrwxrwx 3 0 0 48 1970-01-01 00:16:40 ..;16 drwxr-xr-x 2 0 0 48 1970-01-01 00:16:40 d;;/d:;16 drwxr-xr-x 2 0 0 48 1970-01-01 00:16:40 .;2 drwxrwxrwx 3 0 0 48 1970-01-01 00:16:40 ..;15 -rw-r--r-- 1 0 0 1 1970-01-01 00:16:40 f;
ls 7 disk --recursive /d | /d:;16 .;2 ..;15 f;
ls --long --json 7 disk /d | {"entries":[{"gid":0,"ino":16,"kind":"directory","links":2,"mtime":1000,"path":"/d/.","permissions":"0755","size":48,"uid":0},{"gid":0,"ino":2,"kind":"directory","links":3,"mtime":1000,"path":"/d/..","permissions":"0777","size":48,"uid":0},{"gid":0,"ino":15,"kind":"file","links":1,"mtime":1000,"path":"/d/f","permissions":"0644","size":1,"uid":0}],"format":1};
END

# Commands that show part of an image, and the beginning of their output. I-node 17 of `disk` is a file of five bytes in block 5.
image disk 3072
put disk 512 '05 00 00 00 06 00'
put disk 2048 'A4 81 01 00 00 00 00 00 00 00 05 00 00 05 00'
printf hello > hello
dd if=hello of=disk bs=512 seek=5 conv=notrunc status=none
prints hello cat 7 disk 017
refuses 1 'unixvol: 2 NoEntry' inode --json 7 disk 0
while IFS='|' read -r words wanted; do
    reads "$words"
    wanted=${wanted# }
    has "$words" "0 $wanted" "$(cat status) $(tr '\n' ';' < output | head -c ${#wanted})"
done << 'END'
inode 7 disk 017 | i-node 17;mode 0100644 file 0644;nlink 1;uid 0;gid 0;size 5;addr 5 0
inode 7 disk 017 --json | {"addr":[5,0,0,0,0,0,0,0,0,0,0,0,0],"atime":0,"ctime":0,"extents":[{"block":5,"count":1,"inside":true,"level":0,"logical":0}],"format":1,"gid":0,"ino":17,"kind":"file","links":1,"mode":"0100644",
super 7 disk | isize 5;fsize 6;nfree 0;
super 7 disk --json | {"cache":[],"data_blocks":1,"flock":0,"fmod":0,"format":1,"free":[],"free_blocks":0,"free_fault":null,"free_inodes":22,"fsize":6,"ilock":0,"inodes":24,
map 7 disk | 6 blocks, 1 in each cell;
map 7 disk -- | 6 blocks, 1 in each cell;
map 7 --svg disk | <svg xmlns='http://www.w3.org/2000/svg'
END

# Numbers of threads.
begins /d/f
printf '%s\n' 'files 1' 'directories 2' 'special 0' 'odd 0' 'used 3' 'free 93' 'missing 0' > icheck
: > dcheck
printf '%s\n' '15 /d/f' '16 /d' > ncheck
for command in icheck dcheck ncheck; do
    for number in 1 064 7; do prints "$command" "$command" 7 disk "$number"; done
done

# Numbers of new volumes: the super-block's sizes and time, and the user and the group of the root.
refuses 1 'unixvol: bounds' mkfs 7 disk 65536 65535 1 02 3
prints none mkfs 7 disk 65536 8191 1 02 3
has 'the size of a volume of 65,536 blocks' 33554432 "$(stat -c %s disk)"
has 'the sizes of a volume of 65,536 blocks' 012001000000 "$(bytes disk 512 6)"
has 'the user and the group of its root' 01000200 "$(bytes disk 1092 4)"
dated 'mkfs at 3' 3
"$program" mkfs 6 6 20 2 0 0 1

# Disks by name, and words that are left out: the sizes, and the i-list of the edition's mkfs; the root belongs to user 0 and group 0, and has this
# time. The seventh edition's s_isize counts the first two blocks too.
while read -r edition size blocks list; do
    reads "mkfs $edition disk $size"
    has "mkfs $edition $size" "0 isize $list fsize $blocks" "$(cat status) $("$program" super "$edition" disk | head -n 2 | paste -s -d ' ' -)"
done << 'END'
6 rk05 4872 103
6 4000 4000 85
6 rl01 10240 193
6 rl02 20480 325
6 20 20 1
7 rk05 4872 196
7 rl02 20480 821
7 rp03 81200 3250
6 rk06 27126 387
7 rk07 53790 2153
7 RM03 131680 5269
7 rp04 171798 6873
7 Rp06 340670 8189
6 rx01 500 11
7 RX02 1001 42
7 20 20 3
END
dated 'mkfs without words' clock
has 'the owner and the permissions of a root without words' 'drwxrwxrwx 2 0 0' "$("$program" ls -ld 7 disk | awk '{ print $2, $3, $4, $5 }')"
prints none mkfs 7 disk rk05 50 3 4 5
has 'an i-list, a user and a group that are said' 'isize 52 3 4' "$("$program" super 7 disk | head -n 1) $("$program" ls -ld 7 disk | awk '{ print $4, $5 }')"
dated 'mkfs at 5' 5
refuses 1 'unixvol: bounds' mkfs 6 disk rp06
refuses 1 'unixvol: bounds' mkfs 6 disk rp03
rm disk

# With --new an existing file is kept, even a link that leads nowhere.
prints none mkfs 7 disk 65536 8191 1 02 3
cp disk kept
refuses 3 'unixvol: cannot write disk' mkfs --new 6 disk 20 2 0 0 1
refuses 3 'unixvol: cannot write disk' migrate 6 disk 100 5 07 --new
saves 'a volume that --new keeps' disk kept
refuses 1 'unixvol: bounds' mkfs 6 disk 20 0 0 0 1 --new
ln -s nothing link
refuses 3 'unixvol: cannot write link' mkfs --new 6 link 20 2 0 0 1
rm link disk
prints none mkfs 6 disk 20 2 0 0 1 --new
saves 'a volume that is made anew' disk 6
rm disk
refuses 1 'unixvol: bounds' migrate 6 disk 4294967295 65535 07
prints none migrate 6 disk 100 5 07
dated 'migrate at 07' 7
has 'the size of a volume that was migrated' 51200 "$(stat -c %s disk)"
has 'the sizes of a volume that was migrated' 070000006400 "$(bytes disk 512 6)"
printf '%5d %s\n' 2 . 2 .. > lines
prints lines ls 7 disk /

# The commands on a volume of the sixth edition whose root has a directory `d` (i-number 3), a file `hello` (2) and a special file `tty` (4).
"$program" mkfs 6 worked 20 2 0 0 168496141
put worked 516 0E # blocks 5 and 6 leave the free list
put worked 1026 03
put worked 1030 50
put worked 1056 'A4 81 01 00 00 00 05 00 05 00'
put worked 1088 'ED C1 02 00 00 00 20 00 06 00'
put worked 1120 'A4 A1 01'
put worked 2080 "0200$(bytes hello 0 5)"
put worked 2096 '03 00 64'
put worked 2112 '04 00 74 74 79'
dd if=hello of=worked bs=512 seek=5 conv=notrunc status=none
put worked 3072 '03 00 2E'
put worked 3088 '01 00 2E 2E'
cp worked before
while IFS='|' read -r words wanted; do
    eval "refuses 1 'unixvol: ${wanted# }' $words"
done << 'END'
put 6 worked /d none 168496141 | 21 IsDirectory
rm 6 worked /none 168496141 | 2 NoEntry
rmdir 6 worked /hello 168496141 | 20 NotDirectory
mkdir 6 worked /d 168496141 | 17 Exists
ln 6 worked /hello /tty 168496141 | 17 Exists
chmod 6 worked /none 0 168496141 | 2 NoEntry
chown 6 worked /hello 256 0 168496141 | 104 BadId
chown 6 worked /none 0 256 168496141 | 104 BadId
chown 6 worked /hello/a 0 0 168496141 | 20 NotDirectory
touch 6 worked /hello/a 168496141 | 20 NotDirectory
get 6 worked /tty | 102 NotRegular
migrate worked new 100 5 5 | 105 HasDevice
migrate worked new 7 5 5 | bounds
END
saves 'a volume on which commands were refused' worked before
changed worked unsound 1026 05
refuses 1 'unixvol: unsound, rule 12' migrate unsound new 7 5 5
has 'no volume was made' none "$([ -e new ] && echo some || echo none)"
prints hello get 6 worked /hello
prints hello get 6 worked //d/../hello/
printf '%5d %s\n' 1 . 1 .. 3 d 2 hello 4 tty > lines
prints lines ls 6 worked ''
printf '%5d %s\n' 3 . 1 .. > lines
prints lines ls 6 worked d//
saves 'a volume at which commands looked' worked before

# Calls that are made one after another, and the names in the root after each.
printf hey > hey
printf bye > bye
while IFS='|' read -r words wanted; do
    # shellcheck disable=SC2086
    prints none $words
    # shellcheck disable=SC2086
    printf '%5d %s\n' $wanted > lines
    prints lines ls 6 worked /
done << 'END'
put 6 worked /new hey 168496141 | 1 . 1 .. 3 d 2 hello 32 new 4 tty
put 6 worked /hello bye 168496141 | 1 . 1 .. 3 d 2 hello 32 new 4 tty
ln 6 worked /hello /again 168496141 | 1 . 1 .. 2 again 3 d 2 hello 32 new 4 tty
mkdir 6 worked /d/e 168496141 | 1 . 1 .. 2 again 3 d 2 hello 32 new 4 tty
rm 6 worked /tty 168496141 | 1 . 1 .. 2 again 3 d 2 hello 32 new
rm 6 worked hello 168496141 | 1 . 1 .. 2 again 3 d 32 new
rmdir 6 worked /d/e 168496141 | 1 . 1 .. 2 again 3 d 32 new
rmdir 6 worked /d 168496141 | 1 . 1 .. 2 again 32 new
rm 6 worked /new 168496141 | 1 . 1 .. 2 again
END
prints bye get 6 worked /again

# Permissions, owners and times: where they stand in the i-node, and the bytes from there on after each call.
cp before worked
while IFS='|' read -r words at wanted; do
    wanted=${wanted// /}
    # shellcheck disable=SC2086
    prints none $words
    has "the i-node after $words" "${wanted,,}" "$(bytes worked "${at// /}" $((${#wanted} / 2)))"
done << 'END'
chmod 6 worked /hello 4751 168496141 | 1056 | E9 89 01 00 00 00 05 00
chown 6 worked /hello 255 17 168496141 | 1056 | E9 89 01 FF 11 00 05 00
chmod 6 worked /hello 0 168496141 | 1056 | 00 80 01 FF 11 00 05 00
chmod 6 worked /hello u+x 168496141 | 1056 | 40 80 01 FF 11 00 05 00
chmod 6 worked /hello a=rx,u+w 168496141 | 1056 | ED 81
chmod 6 worked /hello u+s,g+s,+t 168496141 | 1056 | ED 8F
chmod 6 worked /hello go-rwx 168496141 | 1056 | C0 8F
chmod 6 worked -- /hello -st 168496141 | 1056 | C0 81
chmod 6 worked /hello ug=rw,o=t,u+x,u-x 168496141 | 1056 | B0 83
chmod 6 worked /hello = 168496141 | 1056 | 00 80
chmod 6 worked /d/. 7777 168496141 | 1088 | FF CF 02 00 00
chmod 6 worked /d/. o-t,ug-s 168496141 | 1088 | FF C1
chown 6 worked /tty 7 8 168496141 | 1120 | A4 A1 01 07 08
chmod 6 worked /tty g+w 168496141 | 1120 | B4 A1 01 07 08
chmod 6 worked / 700 168496141 | 1024 | C0 C1 03 00 00
touch 6 worked /tty 168496141 | 1144 | 0B 0A 0D 0C 0B 0A 0D 0C
END
prints hello get 6 worked /hello

echo "$passed passed, $failed failed"
[ "$failed" = 0 ]
