#!/usr/bin/env bash
# Runs the commands of the built program that show part of an image, sound or not, and compares their output with that of GNU tar, Python and od.
# Usage: tests/looks.sh PROGRAM. It prints a line for each row that fails, and ends with 'N passed, N failed'.
. "$(dirname "$0")/rows.sh"
linux="$samples/linux_made.v7"

# exports STATUS FILE WORD..: the program writes an archive to FILE, with this status; its lines are in `error`
exports() {
    "$program" export "${@:3}" > "$2" 2> error < /dev/null
    has "the status of export ${*:3}" "$1" $?
}

# A volume that Linux wrote, as an archive: GNU tar finds the names that Linux listed, and the bytes.
exports 0 linux.tar 7 "$linux"
sed -n '2,/^[0-9a-f]\{32\} /p' "$samples/linux_made.txt" | grep '^\./' | sed 's,^\./,,' | LC_ALL=C sort > wanted
tar -tf linux.tar 2> /dev/null | sed 's,/$,,' > names
LC_ALL=C sort names | cmp -s - wanted
has 'the names in an archive' 0 $?
mkdir out
tar -xf linux.tar -C out 2> error
has 'what GNU tar tells of an archive' '' "$(cat error)"
while read -r sum path; do
    has "the bytes of $path, extracted" "$sum" "$(md5sum < "out/$path" | cut -c 1-32)"
done < <(grep -E '^[0-9a-f]{32} ' "$samples/linux_made.txt")
has 'a further name, extracted' "$(stat -c %i out/etc/passwd)" "$(stat -c %i out/usr/games/passwd.link)"
has 'permissions in an archive' 'drwxr-xr-x -rw-------' "$(tar -tvf linux.tar | awk '$6 == "etc/" || $6 == "etc/passwd" { print $1 }' | paste -s -d ' ' -)"
exports 0 below.tar 7 "$linux" /etc
has 'the names below a directory' 'empty motd passwd' "$(tar -tf below.tar | paste -s -d ' ' -)"
exports 0 below.tar 7 "$linux" usr/games/..
tar -xOf below.tar numbers > numbers
"$program" get 7 "$linux" /usr/numbers > wanted
cmp -s numbers wanted
has 'the bytes of a file below a directory' 0 $?
for word in / '' //; do
    exports 0 again.tar 7 "$linux" "$word"
    cmp -s again.tar linux.tar
    has "an archive of all by '$word'" 0 $?
done

# Both editions: holes, further names, empty files, names of 14 bytes.
for edition in 6 7; do
    "$program" mkfs "$edition" disk.img 400 10 0 0 1000
    head -c 300 /dev/zero | tr '\0' x > letters
    printf hello > hello
    "$program" mkdir "$edition" disk.img /d 1001
    "$program" put "$edition" disk.img /d/fourteen-bytes letters 1002
    "$program" put "$edition" disk.img /none none 1003
    "$program" ln "$edition" disk.img /d/fourteen-bytes /again 1004
    "$program" chmod "$edition" disk.img /none 4755 1005
    printf '5 0 0 create /hole 600\n6 0 0 write /hole 5000 6161\n' > script
    "$program" play "$edition" disk.img script > play
    exports 0 all.tar "$edition" disk.img
    has 'members ascend' 'again d/ d/fourteen-bytes hole none' "$(tar -tf all.tar | paste -s -d ' ' -)"
    rm -rf out
    mkdir out
    tar -xpf all.tar -C out
    cmp -s out/d/fourteen-bytes letters && cmp -s out/again letters && [ ! -s out/none ]
    has 'the files of an archive' 0 $?
    { head -c 5000 /dev/zero && printf aa; } | cmp -s - out/hole
    has 'the holes of a file' 0 $?
    has 'permissions and time of a file' '4755 1003' "$(stat -c '%a %Y' out/none)"
    has 'the time of a directory' 1002 "$(stat -c %Y out/d)"

    # An image that isn't sound is exported as far as it can be read, with lines on what is wrong.
    cp disk.img broken.img
    at=$((edition == 6 ? 1024 + 2 : 1024 + 64 + 2))
    put broken.img "$at" '09'
    exports 1 broken.tar "$edition" broken.img
    echo 'unixvol: unsound, rule 12' | cmp -s - error
    has 'what is told of a wrong link count' 0 $?
    cmp -s broken.tar all.tar
    has 'the archive of a volume with a wrong link count' 0 $?
    refuses 1 'unixvol: unsound, rule 12' ls "$edition" broken.img /
    refuses 1 'unixvol: unsound, rule 12' get "$edition" broken.img /again

    # With --unsound, `ls` and `get` show what they show of the sound volume, and the rule; of a sound one just what they show without.
    echo 'unixvol: unsound, rule 12' > rule
    while read -ra words; do
        "$program" "${words[0]}" "$edition" disk.img "${words[@]:1}" > wanted
        runs "${words[0]}" --unsound "$edition" broken.img "${words[@]:1}"
        wants "${words[*]} --unsound of an unsound volume" 1 wanted rule
        runs "${words[0]}" --unsound "$edition" disk.img "${words[@]:1}"
        wants "${words[*]} --unsound of a sound volume" 0 wanted none
    done << 'END'
ls
ls /d
ls --json -d /again
ls -l /again
ls -d -R /d
get /d/fourteen-bytes
get /none
get /hole
END
    for image in disk.img broken.img; do
        refuses 1 'unixvol: 2 NoEntry' ls --unsound "$edition" "$image" /x
        refuses 1 'unixvol: 20 NotDirectory' ls --unsound "$edition" "$image" /none
        refuses 1 'unixvol: 20 NotDirectory' ls --unsound -l "$edition" "$image" /none/x
        refuses 1 'unixvol: 2 NoEntry' get --unsound "$edition" "$image" /d/x
        refuses 1 'unixvol: 21 IsDirectory' get --unsound "$edition" "$image" /d
    done
    refuses 1 'unixvol: 2 NoEntry' export "$edition" disk.img /x
    refuses 1 'unixvol: 20 NotDirectory' export "$edition" disk.img /none
    refuses 1 'unixvol: 20 NotDirectory' export "$edition" disk.img /none/x
done

# An i-node that nothing names: the root's entry for usr, its third, is made empty.
cp "$linux" lost.img
put lost.img $((512 * $("$program" inode 7 "$linux" 2 | awk '$1 == "addr" { print $2 }') + 32)) 0000
lines='unixvol: i-node 96: a directory with 6 entries, which nothing names
unixvol: unsound, rule 10'
exports 1 lost.tar 7 lost.img
has 'the lines of an i-node that nothing names' "$lines" "$(cat error)"
has 'an archive without it' 'etc/ etc/empty etc/motd etc/passwd' "$(tar -tf lost.tar | paste -s -d ' ' -)"
exports 5 short.tar --status 7 lost.img
cmp -s short.tar lost.tar
has 'an archive that is told to be short by the status' 0 $?
exports 1 found.tar --lost --status 7 lost.img
has 'the lines of an i-node that is exported without a name' "${lines/names/names, rescued as lost+found/#96}" "$(cat error)"
tar -tf found.tar | sed 's,^lost+found/#96,usr,; /^lost+found\/$/d' | LC_ALL=C sort > names
tar -tf linux.tar | LC_ALL=C sort | cmp -s - names
has 'the names in an archive with it' 0 $?
has 'the bytes of a file below it' "$(tar -xOf linux.tar usr/numbers | md5sum)" "$(tar -xOf found.tar 'lost+found/#96/numbers' | md5sum)"
exports 0 again.tar --lost --status 7 "$linux"
cmp -s again.tar linux.tar
has 'an archive of all where nothing is lost' 0 $?
# A file and a special file that nothing names.
for edition in 6 7; do
    "$program" mkfs "$edition" two.img 400 10 0 0 1000
    "$program" put "$edition" two.img /f hello 1001
    "$program" touch "$edition" two.img /g 1002
    block=$("$program" inode "$edition" two.img / | awk '$1 == "addr" { print $2 }')
    file=$("$program" inode "$edition" two.img /f | awk '{ print $2; exit }')
    special=$("$program" inode "$edition" two.img /g | awk '{ print $2; exit }')
    put two.img $((512 * block + 32)) "$(printf '00%.0s' {1..32})"
    if [ "$edition" = 6 ]; then put two.img $((1024 + 32 * (special - 1))) 'A4A1'; else put two.img $((1024 + 64 * (special - 1))) 'A421'; fi
    exports 5 two.tar "$edition" two.img --status
    has 'the lines of a file and a special file that nothing names' "$(printf '%s\n' "unixvol: i-node $special: a special file, which nothing names" \
        "unixvol: i-node $file: a file of 5 bytes, which nothing names" | sort)" "$(grep i-node error | sort)"
done

# Standard output.
refuses 3 'unixvol: cannot read missing' export 7 missing
refuses 3 'unixvol: cannot read missing' sums 7 missing
"$program" export 7 "$linux" > /dev/full 2> error
has 'export to a full device' '3 unixvol: cannot write -' "$? $(cat error)"
head -c 600 "$linux" > short
for command in export super df free find map; do refuses 1 'unixvol: unsound, rule 1' "$command" 7 short; done
refuses 1 'unixvol: unsound, rule 1' inode 7 short 2
for command in inode cat; do refuses 1 'unixvol: unsound, rule 1' "$command" 7 short /; done
refuses 1 'unixvol: unsound, rule 1' sums 7 short
refuses 6 'unixvol: unsound, rule 1' export --status 7 short
for row in '0 --' '0 --status' '1 --'  '6 --status'; do
    "$program" check ${row#* } 7 "$([ "${row% *}" = 0 ] && echo "$linux" || echo short)" > output
    has "the status of check ${row#* }" "${row% *}" $?
done
"$program" check --status 7 lost.img > output
has 'the status of check --status of a volume that is not sound' 1 $?

# The slots of a directory, as Python reads them in its body, with names that were removed.
# slots EDITION IMAGE PATH: `ls --slots` prints these lines, and with `--json` this object
slots() {
    "$program" cat "$@" | python3 -c 'import json, struct, sys
body = sys.stdin.buffer.read()
slots = [(slot, *struct.unpack_from("<H14s", body, 16 * slot)) for slot in range(len(body) // 16)]
found = [(slot, ino, name.split(b"\0")[0]) for slot, ino, name in slots if ino or name.strip(b"\0")]
open("wanted", "wb").writelines(b"%5d %5d %s\n" % it for it in found)
objects = [{"ino": ino, "name": name.decode(), "slot": slot} for slot, ino, name in found]
print(json.dumps({"format": 1, "slots": objects}, separators=(",", ":")))' > object
    prints object ls --slots --json "$@"
    prints wanted ls --slots "$@"
}
slots 7 lost.img /
has 'a name that was removed' '    2     0 usr' "$(sed -n 3p output)"
for path in / /etc /usr/games/..; do slots 7 "$linux" "$path"; done
for edition in 6 7; do
    "$program" mkfs "$edition" slots.img 400 10 0 0 1000
    for number in {1..40}; do printf '%d 0 0 create /n%d 644\n' 1001 "$number"; done > script
    printf '1002 0 0 unlink /n%d\n' 3 30 40 >> script
    "$program" play "$edition" slots.img script > play
    slots "$edition" slots.img /
    has "the slots of removed names, edition $edition" 'n3 n30 n40' "$(awk '$2 == 0 { print $3 }' output | paste -s -d ' ' -)"
    "$program" touch "$edition" slots.img /again 1003
    slots "$edition" slots.img /
    has "a slot that is used again, edition $edition" 'n30 n40' "$(awk '$2 == 0 { print $3 }' output | paste -s -d ' ' -)"
done
# A root of the greatest size, almost all of it holes.
cp output wanted
put slots.img $((1024 + 64 + 8)) 81400014
prints wanted ls --slots 7 slots.img /
prints object ls --slots --json 7 slots.img /
# One without names in its slots.
"$program" mkfs 7 blank.img 400 10 0 0 1000
put blank.img $((512 * $("$program" inode 7 blank.img 2 | awk '/^addr/ { print $2 }'))) "$(repeated 32 00)"
prints none ls --slots 7 blank.img /
echo '{"format":1,"slots":[]}' > object
prints object ls --slots --json 7 blank.img /
# A root of 16,522 blocks that are one block: none of its 528,704 objects is kept.
ringed many.v7 40755 8459264 2 1 0100030000000b0000000b0000000b00
"$program" ls --slots 7 many.v7 / | awk -v ORS= 'BEGIN { print "{\"format\":1,\"slots\":[" }
    { print (NR > 1 ? "," : "") "{\"ino\":" $2 ",\"name\":\"\\\\003\",\"slot\":" $1 "}" } END { print "]}\n" }' > wanted
(in_memory 60000 "$program" ls --slots --json 7 many.v7 / > output 2> error; echo $? > status)
wants 'ls --slots --json of a root that names one block everywhere' 0 wanted none
# One whose triple indirect block leads to one block of entries everywhere: 8 million lines, none of which is kept.
shared wide.v7 4
(in_memory 60000 "$program" ls --slots 7 wide.v7 / 2> error; echo $? > status) | awk 'END { print NR ": " $0 }' > output
echo '8388608: 67637539     5 n3' > line
wants 'the slots of a root that names one block everywhere' 0 line none
refuses 1 'unixvol: 20 NotDirectory' ls --slots 7 "$linux" /etc/motd
refuses 1 'unixvol: 2 NoEntry' ls --slots 7 "$linux" /x
refuses 1 'unixvol: unsound, rule 1' ls --slots 7 short /
refuses 1 'unixvol: unsound, rule 1' ls --unsound 7 short /
refuses 1 'unixvol: unsound, rule 1' get --unsound 7 short /etc/motd
refuses 3 'unixvol: cannot read missing' ls --slots 7 missing

# An i-node, as od reads it.
field() { od -An -tu2 -j $((1024 + 64 * 91 + $1)) -N 2 "$linux" | tr -d ' '; }
runs inode 7 "$linux" 92
has 'the lines of an i-node' "i-node 92
mode 0$(printf %o "$(field 0)") file 0644
nlink $(field 2)
uid $(field 4)
gid $(field 6)
size $(field 10)" "$(head -n 6 output)"
cp output by_number
has 'the times of an i-node' "mtime $(($(field 56) * 65536 + $(field 58)))" "$(grep '^mtime' output)"
block=$(sed -n 's/^addr \([0-9]*\) .*/\1/p' output)
has 'the block of an i-node' "block $block: logical 0" "$(tail -n 1 output)"
dd if="$linux" bs=512 skip="$block" count=1 status=none | head -c "$(field 10)" > body
"$program" get 7 "$linux" /etc/motd > wanted
cmp -s body wanted
has 'the bytes in the block of an i-node' 0 $?

# A file by its path, as its i-node has it.
for node in 92 /etc/motd; do
    runs cat 7 "$linux" "$node"
    cmp -s output body
    has "the file $node" 0 $?
done
runs cat 7 "$linux" 2
cp output root
runs cat 7 "$linux" /
cmp -s output root
has 'the slots of the root by its path' 0 $?
refuses 1 'unixvol: 2 NoEntry' cat 7 "$linux" /x
refuses 1 'unixvol: 20 NotDirectory' cat 7 "$linux" /etc/motd/x

runs inode 7 "$linux" --json 92
has 'an i-node as JSON' "92 file $(field 10) $block" "$(python3 -c 'import json, sys; it = json.load(sys.stdin); print(it["ino"], it["kind"], it["size"], it["addr"][0])' < output)"
refuses 1 'unixvol: 2 NoEntry' inode 7 "$linux" 97
refuses 1 'unixvol: 2 NoEntry' inode 7 "$linux" 0
runs inode 7 "$linux" /etc/motd
cmp -s output by_number
has 'an i-node by its path' 0 $?
refuses 1 'unixvol: 2 NoEntry' inode 7 "$linux" /x
# A file whose addresses all lead to one block: 1,204,621 extents, whose JSON isn't kept.
ringed many.v7 100644 1082201088 2 1 0100030000000b0000000b0000000b00
runs inode 7 many.v7 2
blocks=$(grep -c '^block' output)
(in_memory 64000 "$program" inode --json 7 many.v7 2 2> error; echo $? > status) | tr '{' '\n' \
    | awk '/^"block":/ { extents++ } NR == 2 { print } END { print extents; print }' > output
printf '%s\n' "\"addr\":[11$(printf ',11%.0s' {1..12})],\"atime\":0,\"ctime\":0,\"extents\":[" "$blocks" \
    '"block":11,"count":1,"inside":true,"level":0,"logical":2113673}],"format":1,"gid":0,"ino":2,"kind":"file","links":1,"mode":"0100644","mtime":0,"permissions":"0644","size":1082201088,"uid":0}' > wanted
wants 'inode --json of a file that names one block everywhere' 0 wanted none
refuses 1 'unixvol: 20 NotDirectory' inode 7 "$linux" /etc/motd/x

# The super-block, as od reads it.
word() { od -An -tu2 -j "$1" -N 2 "$linux" | tr -d ' '; }
runs super 7 "$linux"
has 'the sizes in the super-block' "isize $(word 512)
fsize $(($(word 514) * 65536 + $(word 516)))
nfree $(word 518)" "$(head -n 3 output)"
"$program" icheck 7 "$linux" 1 > report
has 'how many blocks are free' "$(sed -n 's/^free //p' report)" "$(sed -n 's/^data blocks [0-9]*, free //p' output)"
runs super --json 7 "$linux"
has 'the super-block as JSON' "$(word 512) $(word 518)" "$(python3 -c 'import json, sys; it = json.load(sys.stdin); print(it["isize"], it["nfree"])' < output)"

# The chain of the free list: of 125 free blocks the last 99 are in the array in block 30.
"$program" mkfs 6 chain.v6 130 2 0 0 1000
runs free 6 chain.v6
has 'the links of a chain' 'super-block: nfree 26;block 30: nfree 100;links 2, free blocks 125' "$(grep -v '^free' output | paste -s -d ';' -)"
has 'the last numbers of a chain' 'free[90] 40 39 38 37 36 35 34 33 32 31' "$(grep '^free\[90\]' output)"
owner() { "$program" block "$@"; }
has 'a block in the second link' 'block 31: free, listed in block 30 free[99]' "$(owner 6 chain.v6 31)"
has 'the block of the second link' 'block 30: free, listed in super-block free[0]' "$(owner 6 chain.v6 30)"
runs free 7 "$linux"
has 'how many blocks are free, link by link' "$("$program" icheck 7 "$linux" 1 | sed -n 's/^free //p')" "$(sed -n 's/^links .*, free blocks //p' output)"

# The owners of indirect blocks, with the numbers in them as od reads them.
head -c 102400 /dev/zero | tr '\0' x > long
"$program" mkfs 7 deep.v7 400 10 0 0 1000
"$program" put 7 deep.v7 /long long 1001
number=$("$program" inode 7 deep.v7 /long | awk '{ print $2; exit }')
addresses=$("$program" inode 7 deep.v7 /long | grep '^addr')
long_at() { od -An -tu2 -j $((512 * $1 + 4 * $2)) -N 4 deep.v7 | awk '{ print 65536 * $1 + $2 }'; }
single=$(awk '{ print $12 }' <<< "$addresses")
double=$(awk '{ print $13 }' <<< "$addresses")
first=$(long_at "$double" 0)
data=$(long_at "$first" 5)
has 'an indirect block' "block $single: indirect block of i-node $number, from logical 10, addr[10]" "$(owner 7 deep.v7 "$single")"
has 'a doubly indirect block' "block $double: doubly indirect block of i-node $number, from logical 138, addr[11]" "$(owner 7 deep.v7 "$double")"
has 'an indirect block below another' "block $first: indirect block of i-node $number, from logical 138, addr[11][0]" "$(owner 7 deep.v7 "$first")"
has 'a block below two indirect blocks' "block $data: data of i-node $number, logical 143, addr[11][0][5]" "$(owner 7 deep.v7 "$data")"

# A map.
runs map 7 "$linux"
has 'the scale of a map' '240 blocks, 1 in each cell' "$(head -n 1 output)"
sed -n '3,/^$/s/^.\{8\}//p' output | tr -d '\n' > cells
has 'the cells of a map' 240 "$(wc -c < cells)"
has 'the cells of free blocks' "$(sed -n 's/^free //p' report)" "$(tr -cd oc < cells | wc -c)"
has 'the cells of used blocks' "$(sed -n 's/^used //p' report)" "$(tr -cd dfp < cells | wc -c)"
# On a terminal it is as wide as COLUMNS, or 80 if that isn't set.
# drawn COLUMNS: the map on a terminal, without colours
drawn() { COLUMNS=$1 script -qec "'$program' map 7 '$linux'" /dev/null < /dev/null | sed $'s/\e\\[[0-9;]*m//g' | tr -d '\r'; }
if [ -n "$(command -v script)" ]; then
    for columns in 20 60; do
        has "the cells in a row of a map, $columns columns wide" "$columns" "$(drawn $columns | sed -n 3p | tr -d '\n' | wc -c)"
    done
    drawn 80 > wanted
    for columns in x 0 ''; do
        drawn "$columns" | cmp -s - wanted
        has "a map where COLUMNS is '$columns'" 0 $?
    done
    # codes: the number of colour codes of this kind on a terminal
    codes() { TERM=$1 script -qec "'$program' map 7 '$linux'" /dev/null < /dev/null | grep -o $'\e' | wc -l; }
    has 'the codes for colours of a map' 496 "$(unset NO_COLOR && codes xterm)"
    has 'the codes for colours where NO_COLOR says something' 0 "$(NO_COLOR=1 codes xterm)"
    has 'the codes for colours where NO_COLOR is empty' 496 "$(NO_COLOR='' codes xterm)"
    has 'the codes for colours of a dumb terminal' 0 "$(codes dumb)"
else
    echo 'skipped: a map on a terminal, since there is no script'
fi
# The blocks of one file are those of its extents, its indirect blocks too; all others are dots, and in the legend they are one number.
runs map --file /long 7 deep.v7
sed -n '3,/^$/s/^.\{8\}//p' output | tr -d '\n' > shown
sed '1,2d' output | sed '1,/^$/d; s/^ *//' > counted
"$program" inode --json 7 deep.v7 "$number" > extents
has 'the blocks of one file' "$(python3 -c '
import json, sys
letters = ["."] * 400
for it in json.load(sys.stdin)["extents"]:
    for block in range(it["block"], it["block"] + it["count"]): letters[block] = "p" if it["level"] else "f"
print("".join(letters))' < extents)" "$(cat shown)"
has 'the numbers of the blocks of one file' "$(tr -cd f < shown | wc -c) f file
$(tr -cd p < shown | wc -c) p pointer
$(tr -cd . < shown | wc -c) . other blocks" "$(cat counted)"
# The tool-tip of a square for one block is the block's role, that of the i-node's extent if an i-node has it; also if the block isn't shown.
runs map --svg 7 deep.v7
sed -n 's,.*><title>\(block .*\)</title></path>$,\1,p' output > titles
"$program" map --json 7 deep.v7 > runs
has 'the tool-tips of the squares' same "$(python3 -c '
import json
names = {"boot": "boot block", "chain": "chain block", "directory": "directory 2, logical 0"}
titles = [names.get(it["use"], it["use"]) for it in json.load(open("runs"))["map"] for _ in range(it["count"])]
node = json.load(open("extents"))
for it in node["extents"]:
    for k in range(it["count"]):
        kind = "pointers of i-node %d, level %d, from logical %d" if it["level"] else "data of i-node %d, %0.0slogical %d"
        titles[it["block"] + k] = kind % (node["ino"], it["level"], it["logical"] + k)
wanted = ["block %d: %s" % it for it in enumerate(titles)]
assert len(titles) == 400 and open("titles").read().splitlines() == wanted
print("same")')"
runs map --svg --file / 7 deep.v7
has 'the tool-tips of the squares of one file' '' "$(sed -n 's,.*><title>\(block .*\)</title></path>$,\1,p' output | diff titles -)"
has 'the squares of the blocks of a directory' 1 "$(grep -c "^<path class='d' .*: directory 2, logical 0</title></path>$" output)"
has 'the other squares' 399 "$(grep -c "^<path class='n' .*><title>" output)"
refuses 1 'unixvol: 2 NoEntry' map --file /none 7 deep.v7
refuses 1 'unixvol: 20 NotDirectory' map --file /long/x 7 deep.v7

# A cell of several blocks shows the use of most of them, and the legend has the numbers of blocks.
"$program" mkfs 7 many.v7 8192 1000 0 0 1000
runs map 7 many.v7
has 'the scale of a map of many blocks' '8192 blocks, 4 in each cell; a cell shows the use of most of its blocks' "$(head -n 1 output)"
has 'the first blocks of the rows' "$(seq 0 256 7936)" "$(sed -n '3,/^$/s/^ *\([0-9]*\) .*/\1/p' output)"
"$program" map --json 7 many.v7 > runs
has 'the cells of a map of many blocks, and the numbers of blocks' same "$(python3 -c '
import json, sys
letters = {"boot": "B", "super-block": "S", "i-list": "i", "directory": "d", "file": "f", "pointer": "p", "free": "o", "chain": "c", "lost": "L", "named twice": "T"}
priority = "ocfpdiBSLT"
blocks = "".join(letters[it["use"]] * it["count"] for it in json.load(open("runs"))["map"])
lines = open("output").read().split("\n")
cells = "".join(line[8:] for line in lines[2:lines.index("", 2)])
for k, cell in enumerate(cells):
    part = blocks[4 * k:4 * k + 4]
    assert cell == max(part, key=lambda one: (part.count(one), priority.index(one))), k
counts = {line.split()[1]: int(line.split()[0]) for line in lines[lines.index("", 2):] if line}
assert counts == {one: blocks.count(one) for one in set(blocks)}
print("same")')"
"$program" mkfs 7 many.v7 40000 1000 0 0 1000
runs map --svg 7 many.v7
has 'the first of many squares' "<path class='S' d='M0 0h9v9h-9z'><title>blocks 0 to 2
1 boot
1 super-block
1 i-list</title></path>" "$(sed -n '4,7p' output)"

runs map --svg 7 "$linux"
has 'a map as SVG' 'http://www.w3.org/2000/svg 248' "$(python3 -c '
import sys, xml.etree.ElementTree as tree
root = tree.parse(sys.stdin).getroot()
print(root.tag[1:].split("}")[0], sum(it.tag.endswith("path") for it in root))' < output)"
misread "error: unexpected argument '--json'" cat --json 7 "$linux" 1
# The runs of blocks with one use, as JSON, are the cells of the picture.
runs map --json 7 "$linux"
has 'a map as JSON' "$(cat cells)" "$(python3 -c '
import json, sys
letters = {"boot": "B", "super-block": "S", "i-list": "i", "directory": "d", "file": "f", "pointer": "p", "free": "o", "chain": "c", "lost": "L", "named twice": "T"}
runs = json.load(sys.stdin)["map"]
assert all(one["use"] != two["use"] and one["block"] + one["count"] == two["block"] for one, two in zip(runs, runs[1:])) and runs[0]["block"] == 0
print("".join(letters[it["use"]] * it["count"] for it in runs))' < output)"
misread "error: unexpected argument '--svg'" super --svg 7 "$linux"
misread "error: invalid value '65536' for '<INO>'" inode 7 "$linux" 65536
misread "error: invalid value 'etc' for '<INO>'" inode 7 "$linux" etc
misread 'error: the following required arguments' inode 7 "$linux"

# Volumes of 20 blocks, two of them the i-list, all made at one time: a new one; with a directory; with a file of one letter, and with one of three
# blocks; with a tree; with special files.
now=168496141
data=$samples/../tests/looks
printf 'hello\n' > line_of_hello
printf x > x
printf y > y
head -c 1100 /dev/zero | tr '\0' '\007' > sevens
for edition in 6 7; do
    # on IMAGE COMMAND WORD..: changes a volume of this edition
    on() { "$program" "$2" "$edition" "$1" "${@:3}" "$now"; }
    "$program" mkfs "$edition" "bare.v$edition" 20 2 0 0 "$now"
    for name in directory letter three tree special archived; do cp "bare.v$edition" "$name.v$edition"; done
    on "directory.v$edition" mkdir /d
    on "letter.v$edition" put /a x
    on "three.v$edition" put /a sevens
    on "archived.v$edition" put /a line_of_hello
    on "archived.v$edition" mkdir /d
    on "archived.v$edition" ln /a /d/l
    image=tree.v$edition
    on "$image" put /b line_of_hello
    on "$image" put /a none
    on "$image" mkdir /d
    on "$image" ln /b /d/l
    on "$image" mkdir /d/e
    on "$image" put $'/d/e/tab\there' x
    image=special.v$edition
    on "$image" put /f line_of_hello
    on "$image" chmod /f 4755
    on "$image" put /g none
    on "$image" chmod /g 7000
    on "$image" mkdir /t
    on "$image" chmod /t 1777
    on "$image" chown /g 255 7
    on "$image" put /c none
    on "$image" put /k none
done
# `c` is a character special file for device 3, 9, and `k` a block special file for 200, 1.
put special.v6 $((1024 + 28 * 32)) 'A4 A1'
put special.v6 $((1024 + 28 * 32 + 8)) '09 03'
put special.v6 $((1024 + 27 * 32)) 'A4 E1'
put special.v6 $((1024 + 27 * 32 + 8)) '01 C8'
put special.v7 $((1024 + 12 * 64)) 'A4 21'
put special.v7 $((1024 + 12 * 64 + 13)) '09 03'
put special.v7 $((1024 + 11 * 64)) 'A4 61'
put special.v7 $((1024 + 11 * 64 + 13)) '01 C8'
changed directory.v6 links.v6 1026 05
changed bare.v6 twice_free.v6 544 '06 00'
changed three.v6 claimed.v6 2026 '08 00'

# Manifests, as Python makes them of the archive: in text and in JSON.
# manifest STATUS EDITION IMAGE: both are those of the archive, with its status and its lines on standard error
manifest() {
    "$program" ls -R --json "$2" "$3" > listing
    exports "$1" it.tar "$2" "$3"
    cp error told
    python3 "$data/manifest.py" it.tar listing > wanted
    runs sums "$2" "$3"
    wants "sums $2 $3" "$1" wanted told
    runs sums --json "$2" "$3"
    has "the lines of sums --json $2 $3" 1 "$(wc -l < output)"
    python3 "$data/manifest.py" --json < output > text
    mv text output
    wants "sums --json $2 $3" "$1" wanted told
}
manifest 0 7 "$linux"
for edition in 6 7; do
    for name in bare three tree special archived; do manifest 0 "$edition" "$name.v$edition"; done
    "$program" sums "$edition" "tree.v$edition" > all
    runs sums "$edition" "tree.v$edition" /d
    sed -n 's, d/, ,p' all > wanted
    wants 'sums of a directory' 0 wanted none
    refuses 1 'unixvol: 2 NoEntry' sums "$edition" "tree.v$edition" /x
    refuses 1 'unixvol: 20 NotDirectory' sums "$edition" "tree.v$edition" /b
    cp "tree.v$edition" broken.img
    put broken.img $((edition == 6 ? 1024 + 2 : 1024 + 64 + 2)) 09
    echo 'unixvol: unsound, rule 12' > line
    runs sums "$edition" broken.img
    wants 'sums of a volume that is not sound' 1 all line
done
rm -rf out
mkdir out
tar -xf linux.tar -C out
"$program" sums 7 "$linux" | grep -v '^-' | cut -c 1-65,119- > SHA256SUMS
has 'a manifest as sha256sum reads it' 34 "$(cd out && sha256sum -c ../SHA256SUMS 2> ../error | grep -c ': OK$')"
has 'what sha256sum tells of a manifest' '' "$(cat error)"

# Rules of soundness, listings, reports and the map, from the lines of a file.
follows "$data/rows"

# Paths whose last name is like a pattern.
# finds PATTERN PATH..: these are the paths below the root of `tree.v7`
finds() {
    printf '%s\n' "${@:2}" | grep . > wanted
    prints wanted find 7 tree.v7 / --name "$1"
}
finds '*' /a /b /d /d/e $'/d/e/tab\there' /d/l
finds '?' /a /b /d /d/e /d/l
finds e /d/e
finds '*e' /d/e $'/d/e/tab\there'
finds 't*?h**re' $'/d/e/tab\there'
finds 't*b' ''
finds 'd/e' ''
finds '' ''
finds "$(head -c 5000 /dev/zero | tr '\0' '*')z" ''
"$program" find 7 "$linux" > output
tar -tf linux.tar 2> /dev/null | sed 's,/$,,; s,^,/,' | cmp -s - output
has 'what find finds is what an archive has' 0 $?
misread "error: unexpected argument '-n'" find 7 tree.v7 -name e

# The output on a terminal: names escaped; colours, and as many cells in a row as it is wide; no archive.
# on_terminal COLUMNS WORD..: leaves the program's output on a terminal in `output`, its lines on standard error in `error`, and its status in
# `status`
on_terminal() {
    COLUMNS=$1 script -qec "'$program' ${*:2} 2> error; echo \$? > status" /dev/null < /dev/null | tr -d '\r' > output
}
on_terminal 80 ls 6 tree.v6 /d/e
printf '%s\n' '   29 .' '   30 ..' '   28 tab\011here' > wanted
wants 'ls of an odd name on a terminal' 0 wanted none
on_terminal 80 find 6 tree.v6 d/e
printf '%s\n' 'd/e/tab\011here' > wanted
wants 'find of an odd name on a terminal' 0 wanted none
on_terminal 16 map 6 letter.v6
printf '20 blocks, 1 in each cell\n\n      0 \033[100mB\033[0m' > wanted
has 'the beginning of a map on a terminal' same "$(head -c "$(wc -c < wanted)" output | cmp -s - wanted && echo same)"
has 'the status, the lines and the errors of a map on a terminal' '0 12 0' "$(cat status) $(wc -l < output) $(wc -c < error)"
on_terminal 80 export 6 archived.v6 /
echo 'unixvol: cannot write -' > line
wants 'export to a terminal' 3 none line

# The keys of each command's JSON are those that docs/JSON.md lists for it. Together the images have each kind of line, fault and place.
# keys_of COMMAND WORD..: of the command, with each of the words after the image, if there are any. The file of rule_04 is too long to sum.
keys_of() {
    local image word
    for image in special.v7 twice_free.v6 "$samples"/lessons/*.v?; do
        [[ $1 != sums || $image != */rule_04.* ]] || continue
        for word in "${@:2}"; do
            # shellcheck disable=SC2086
            "$program" $1 --json "${image##*.v}" "$image" $word 2> error < /dev/null
        done
    done > printed
    has "the keys of $1 --json" '' "$(python3 "$data/keys.py" "$samples/../docs/JSON.md" "$1" < printed)"
}
for command in ls 'ls --slots' find map super df free; do keys_of "$command" ''; done
for command in sums check; do keys_of $command '' '--bad-blocks 10-30'; done
for command in icheck dcheck ncheck; do keys_of $command 1; done
keys_of inode 1 12
keys_of block 0 2 5 19 '5 --bad-blocks 5'

# Multiplexor files, which the seventh edition has: `c` is one of type 030000, and `k` one of type 070000.
changed special.v7 multiplexed.v7 $((1024 + 12 * 64)) 'A4 31'
put multiplexed.v7 $((1024 + 11 * 64)) 'A4 71'
runs ls --json 7 multiplexed.v7
has 'the kinds in a listing of multiplexor files' 'multiplexor 3 9 multiplexor 200 1' "$(python3 -c '
import json, sys
print(*(it[key] for it in json.load(sys.stdin)["entries"] if it["path"] in ("/c", "/k") for key in ("kind", "major", "minor")))' < output)"
for node in 12 13; do
    runs inode --json 7 multiplexed.v7 $node
    has "the kind of multiplexor file $node" '"kind":"multiplexor"' "$(grep -o '"kind":"[a-z]*"' output)"
done
# devices EDITION IMAGE NODE MAJOR MINOR: the numbers of a special file's device, as the last lines of its i-node and in its JSON
devices() {
    has "the lines of the device of i-node $3" "major $4 minor $5" "$("$program" inode "$1" "$2" "$3" | tail -n 2 | paste -s -d ' ' -)"
    has "the keys of the device of i-node $3" "\"links\":1,\"major\":$4,\"minor\":$5,\"mode\":" \
        "$("$program" inode --json "$1" "$2" "$3" | grep -o '"links":.*"mode":')"
}
devices 7 multiplexed.v7 12 200 1
devices 7 multiplexed.v7 13 3 9
devices 6 special.v6 28 200 1
devices 6 special.v6 29 3 9
for node in '28 block' '29 character' '32 file' '30 directory' '2 free'; do
    runs inode --json 6 special.v6 "${node% *}"
    has "the kind of i-node $node" "\"kind\":\"${node#* }\"" "$(grep -o '"kind":"[a-z]*"' output)"
done
# The paths of a manifest begin as PATH is given, as those of `find` do.
for path in '' / /d d d/; do
    "$program" find 6 tree.v6 $path > wanted
    runs sums --json 6 tree.v6 $path
    python3 -c 'import json, sys; print(*(it["path"] for it in json.load(sys.stdin)["entries"]), sep="\n")' < output | sed 's/\\011/\t/' > text
    mv text output
    wants "the paths of sums --json of '$path'" 0 wanted none
done

# A full device, whatever command prints.
for command in 'check 6 directory.v6' 'check --json 6 directory.v6' 'sums 6 tree.v6' 'sums --json 6 tree.v6' 'ls -l 6 special.v6' 'ls -R --json 6 tree.v6' 'inode 6 three.v6 32' 'super --json 6 bare.v6' 'df 6 bare.v6' 'free 6 bare.v6' 'block 6 three.v6 8' 'find 6 tree.v6' 'find --json 6 tree.v6' 'block --json 6 three.v6 8' 'map 6 three.v6' 'map --svg 6 three.v6' 'map --json 6 three.v6'; do
    read -r -a words <<< "$command"
    "$program" "${words[@]}" > /dev/full 2> error < /dev/null
    echo $? > status
    : > output
    wants "$command, to a full device" 3 none line
done

# Squares.
runs map --svg 7 letter.v7
has 'the beginning of a map of squares' "<svg xmlns='http://www.w3.org/2000/svg' " "$(head -c 40 output)"
has 'the end of a map of squares' '</svg>' "$(tail -c 7 output)"
has 'the status and the errors of a map of squares' '0 0' "$(cat status) $(wc -c < error)"

# Archives, byte for byte as GNU tar makes them of the same files.
pieces "$data/archive"
for edition in 6 7; do prints archive export "$edition" "archived.v$edition" ''; done

# An image with faults: two files name block 5, and the entry of an unprintable name is for an i-node past the last.
cp bare.v6 wrong.v6
edition=6
on wrong.v6 put /a x
on wrong.v6 put /b y
on wrong.v6 put '/odd\name' none
put wrong.v6 1992 '05 00'
put wrong.v6 $((4 * 512 + 4 * 16)) 'FF FF 0A'
printf 'unixvol: %s\n' '\012dd\\name: no i-node' 'block 5: two places of files name it' 'unsound, rule 7' > wanted
exports 1 wrong.tar 6 wrong.v6 ''
has 'what is told of an image of which much is wrong' same "$(cmp -s error wanted && echo same)"
has 'the bytes of an archive of an image of which much is wrong' 3072 "$(wc -c < wrong.tar)"
runs sums 6 wrong.v6
cp output manifest
wants 'the lines on a manifest of it' 1 manifest wanted
has 'the paths in a manifest of it' 'a b' "$(cut -c 120- output | paste -s -d ' ' -)"

# A block that each of 32 directories names two million times is read once for each: 31 members, and 993 of the 1,024 names again.
shared shared.v7 32
runs_within 20 export 7 shared.v7 /
has 'an export of directories that name one block everywhere' '1 31 993' "$(cat status) $(tar tf output | wc -l) $(grep -c 'a directory that was met before$' error)"

# Eight directories whose entries are in a ring: what they name is collected once.
ringed ringed.v7 40755 1082201088 1 8 0100030000000b0000000b0000000b00
(ulimit -t "$(seconds 8)"; runs export --lost 7 ringed.v7 /)
has 'an export of directories in a ring, with what is lost' '1 8 unixvol: unsound, rule 3' "$(cat status) $(tar tf output | wc -l) $(tail -n 1 error)"

# Times on long lines, compared with those of Python's datetime: those of a table, and one every fifth day up to 2105. Each is the time of
# modification of a file, which is put into its i-node.
cat > moments.py << 'PYTHON'
import datetime, struct, sys
table = [int(line.split()[0]) for line in open(sys.argv[1])]
moments = table + [day * 86400 + day * 7919 % 86400 for day in range(0, 5 * 26 * 382, 5)]
if sys.argv[2] == "wanted":
    for it in moments:
        print(datetime.datetime.fromtimestamp(it, datetime.timezone.utc).strftime("%Y-%m-%d %H:%M:%S"))
elif sys.argv[2] == "script":
    for folder in range(0, len(moments), 1000):
        print(f"1 0 0 mkdir /{folder:05} 755")
        for number in range(folder, min(folder + 1000, len(moments))):
            print(f"1 0 0 create /{folder:05}/{number:05}.file 644")
elif sys.argv[2] == "put":
    made = [int(line.split()[2]) for line in open(sys.argv[4]) if " ok " in line]
    files = [ino for place, ino in enumerate(made) if place % 1001 != 0]
    image = bytearray(open(sys.argv[3], "rb").read())
    assert len(files) == len(moments)
    for ino, it in zip(files, moments):
        struct.pack_into("<HH", image, 1024 + 32 * (ino - 1) + 28, it >> 16, it & 0xFFFF)
    open(sys.argv[3], "wb").write(image)
else:
    # Each byte of the times in turn is added to 31 times the sum before it, of which the low 32 bits are kept.
    total = 0
    for line in open(sys.argv[3]).read().split("\n")[len(table):-1]:
        for byte in line.encode():
            total = (total * 31 + byte) & 0xFFFFFFFF
    print(total)
PYTHON
python3 moments.py "$data/moments" wanted > wanted
cut -d ' ' -f 2- "$data/moments" > table
has 'what Python makes of the moments of the table' same "$(head -n 90 wanted | cmp -s - table && echo same)"
python3 moments.py "$data/moments" script > script
"$program" mkfs 6 moments.v6 2000 700 0 0 1
"$program" play 6 moments.v6 script > played
has 'the files whose moments are listed' "records $((11 + 90 + 9932))" "$(grep records played)"
python3 moments.py "$data/moments" put moments.v6 played
runs ls -l -R 6 moments.v6
grep '\.file$' output | cut -c 47-65 > listed
has 'the moments of the table and of each fifth day' '0 same' "$(cat status) $(cmp listed wanted && echo same)"
has 'the sum of the moments of each fifth day' 3421988079 "$(python3 moments.py "$data/moments" sum listed)"

echo "$passed passed, $failed failed"
[ "$failed" = 0 ]
