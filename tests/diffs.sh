#!/usr/bin/env bash
# Runs `diff` without `--fields`: the lines of files, directories and links that differ, of both editions; volumes of other sizes, and images that aren't
# sound; refusals and wrong words. The lines of fields are in fields.sh.
# Usage: tests/diffs.sh PROGRAM. It prints each row that fails, and ends with 'N passed, N failed'.
rows=$(realpath "$(dirname "$0")")
. "$(dirname "$0")/rows.sh"

# tells STATUS FILE WORD..: prints the lines of FILE, with this status; with --json an object with an item for each
tells() {
    runs "${@:3}"
    wants "${*:3}" "$1" "$2" none
    listed "$@"
}
# listed STATUS FILE WORD..: with --json a comparison has this status, and an object for each line of FILE: of the same path, and with other values where
# the line has both
: > printed
listed() {
    runs "${@:3}" --json
    cat output >> printed
    python3 -c '
import json, sys
letters = {"added": "A", "gone": "D", "changed": "M", "turned": "T", "unseen": "U"}
words = {"permissions": "mode ", "links": "links ", "uid": "uid ", "gid": "gid ", "size": "size ", "mtime": "mtime ", "atime": "atime ", "ctime": "ctime "}
lines = open(sys.argv[1]).read().splitlines()
report = json.load(sys.stdin)
if sorted(report) != ["format", "lines"] or len(report["lines"]) != len(lines):
    sys.exit("%d lines, and %s" % (len(lines), report))
for line, it in zip(lines, report["lines"]):
    front = letters[it["line"]] + " " + it["path"]
    if not line.startswith(front):
        sys.exit("%s: %s" % (line, it))
    if it["line"] == "changed":
        told = line[len(front):]
        if any((it["old"][key] != it["new"][key]) != (" " + word in told) for key, word in words.items()):
            sys.exit("%s: %s" % (line, it))
        if (it["first_byte"] is None) == ("bytes from " in told) or (it["old"]["link"] != it["new"]["link"]) != ("link to " in told):
            sys.exit("%s: %s" % (line, it))' "$2" < output > made 2>&1
    has "the items of ${*:3} --json" "0 $1 " "$? $(cat status) $(cat made)"
}
# differs LINE WORD..: one line, with status 1
differs() { printf '%s\n' "$1" > wanted; tells 1 wanted diff "${@:2}"; }

printf hello > hello
printf help > help_file
"$program" mkfs 7 d.img 40 3 0 0 1000
"$program" put 7 d.img /a hello 2000

# A file's removal, and the other way round.
cp d.img e.img
"$program" rm 7 e.img /a 3000
cat > wanted << 'LINES'
M / mtime 1970-01-01 00:33:20 -> 00:50:00
D /a
LINES
tells 1 wanted diff 7 d.img e.img
cat > wanted << 'LINES'
M / mtime 1970-01-01 00:50:00 -> 00:33:20
A /a
LINES
tells 1 wanted diff 7 e.img d.img
tells 0 none diff 7 d.img d.img
tells 0 none diff 7 d.img d.img --times

# The same as JSON: all that is compared of both, and the times of the last read and of the last change with --times.
cat > wanted << 'JSON'
{"format":1,"lines":[{"first_byte":null,"line":"changed","new":{"atime":null,"ctime":null,"gid":0,"kind":"directory","link":null,"links":2,"major":null,"minor":null,
"mtime":3000,"permissions":"0777","size":null,"uid":0},"old":{"atime":null,"ctime":null,"gid":0,"kind":"directory","link":null,"links":2,"major":null,"minor":null,
"mtime":2000,"permissions":"0777","size":null,"uid":0},"path":"/"},
{"line":"gone","old":{"atime":null,"ctime":null,"gid":0,"kind":"file","link":null,"links":1,"major":null,"minor":null,"mtime":2000,"permissions":"0644","size":5,"uid":0},
"path":"/a"}]}
JSON
(tr -d '\n' < wanted; echo) > joined
runs diff 7 d.img e.img --json
wants 'differences as JSON' 1 joined none
cat > wanted << 'JSON'
{"format":1,"lines":[{"line":"added","new":{"atime":2000,"ctime":2000,"gid":0,"kind":"file","link":null,"links":1,"major":null,"minor":null,"mtime":2000,
"permissions":"0644","size":5,"uid":0},"path":"/a"}]}
JSON
(tr -d '\n' < wanted; echo) > joined
runs diff 7 e.img d.img --json --times
python3 -c 'import json; it = json.load(open("output")); it["lines"] = it["lines"][1:]; print(json.dumps(it, separators=(",", ":")))' > shown
cp shown output
wants 'a file that was added, with all times' 1 joined none
echo '{"format":1,"lines":[]}' > wanted
prints wanted diff 7 d.img d.img --json
"$program" mkfs 6 six.img 40 3 0 0 1000
cp six.img other_six.img
"$program" put 6 other_six.img /a hello 2000
runs diff 6 six.img other_six.img --json --times
has 'the times of the sixth edition' '2000 None' "$(python3 -c 'import json; it = json.load(open("output"))["lines"][1]["new"]; print(it["atime"], it["ctime"])')"

# What a call changes of a file, in both editions.
for edition in 6 7; do
    "$program" mkfs "$edition" old.img 60 3 0 0 1000
    "$program" put "$edition" old.img /a hello 2000
    "$program" mkdir "$edition" old.img /d 2000
    "$program" put "$edition" old.img /d/b hello 2000

    cp old.img new.img
    "$program" chmod "$edition" new.img /a 0600 3000
    differs 'M /a mode 0644 -> 0600' "$edition" old.img new.img
    cp old.img new.img
    "$program" chown "$edition" new.img /d 3 4 3000
    differs 'M /d uid 0 -> 3, gid 0 -> 4' "$edition" old.img new.img
    cp old.img new.img
    "$program" touch "$edition" new.img /a 90000
    differs 'M /a mtime 1970-01-01 00:33:20 -> 1970-01-02 01:00:00' "$edition" old.img new.img
    cp old.img new.img
    "$program" put "$edition" new.img /a help_file 2000
    differs 'M /a size 5 -> 4, bytes from 3' "$edition" old.img new.img
    cp old.img new.img
    printf '2000 0 0 write /d/b 1 45\n' > script
    "$program" play "$edition" new.img script > output
    differs 'M /d/b bytes from 1' "$edition" old.img new.img
    cp old.img new.img
    printf '2000 0 0 write /d/b 5 00\n' > script
    "$program" play "$edition" new.img script > output
    differs 'M /d/b size 5 -> 6, bytes from 5' "$edition" old.img new.img

    # Names of one file.
    cp old.img new.img
    printf '2000 0 0 link /a /c\n' > script
    "$program" play "$edition" new.img script > output
    printf '%s\n' 'M /a links 1 -> 2' 'A /c' > wanted
    tells 1 wanted diff "$edition" old.img new.img
    cp new.img other.img
    printf '%s\n' '2000 0 0 unlink /c' '2000 0 0 link /d/b /c' > script
    "$program" play "$edition" other.img script > output
    printf '%s\n' 'M /a links 2 -> 1' 'M /c link to /a -> own file' 'M /d/b own file -> link to /c, links 1 -> 2' > wanted
    tells 1 wanted diff "$edition" new.img other.img
    cp old.img other.img
    printf '%s\n' '2000 0 0 create /c 644' '2000 0 0 write /c 0 68656c6c6f' > script
    "$program" play "$edition" other.img script > output
    printf '%s\n' 'M /a links 1 -> 2' 'M /c own file -> link to /a, links 1 -> 2' > wanted
    tells 1 wanted diff "$edition" other.img new.img
    # What differs of a name that became a file of its own, and of each name of a file.
    printf '%s\n' '2000 0 0 write /c 1 45' '2000 0 0 chmod /c 600' '2000 0 0 chown /c 3 4' > script
    "$program" play "$edition" other.img script > output
    printf '%s\n' 'M /a links 2 -> 1' 'M /c link to /a -> own file, mode 0644 -> 0600, links 2 -> 1, uid 0 -> 3, gid 0 -> 4, bytes from 1' > wanted
    tells 1 wanted diff "$edition" new.img other.img
    cp new.img other.img
    "$program" chmod "$edition" other.img /c 0600 3000
    printf '%s\n' 'M /a mode 0644 -> 0600' 'M /c mode 0644 -> 0600' > wanted
    tells 1 wanted diff "$edition" new.img other.img

    # Another kind of node; a directory with what is in it, before a name that only goes on after its own.
    cp old.img new.img
    printf '%s\n' '2000 0 0 unlink /d/b' '2000 0 0 rmdir /d' '2000 0 0 create /d 600' '2000 0 0 create /d! 600' > script
    "$program" play "$edition" new.img script > output
    printf '%s\n' 'M / links 3 -> 2' 'T /d directory -> file' 'D /d/b' 'A /d!' > wanted
    [ "$edition" = 6 ] || sed -i 's/3 -> 2/4 -> 3/' wanted
    runs diff "$edition" old.img new.img
    sed 's/^M \/ links [0-9]* -> [0-9]*$/M \/ links/' output > shown
    printf '%s\n' 'M / links' 'T /d directory -> file' 'D /d/b' 'A /d!' > wanted
    cp shown output
    wants "another kind, edition $edition" 1 wanted none

    # The same tree on a volume of another size, at other i-numbers and blocks.
    "$program" mkfs "$edition" large.img 90 5 0 0 1000
    printf '%s\n' '2000 0 0 create /x 600' '2000 0 0 mkdir /d 755' '2000 0 0 create /d/b 644' '2000 0 0 write /d/b 0 68656c6c6f' \
        '2000 0 0 create /a 644' '2000 0 0 write /a 0 68656c6c6f' '2000 0 0 unlink /x' > script
    "$program" play "$edition" large.img script > output
    "$program" ls -l "$edition" old.img / > output
    cp old.img new.img
    printf '%s\n' '2000 0 0 chmod /d 755' '2000 0 0 chmod /a 644' '2000 0 0 chmod /d/b 644' > script
    "$program" play "$edition" new.img script > output
    tells 0 none diff "$edition" new.img large.img
    tells 0 none diff "$edition" large.img new.img
done

# The times of the last read and of the last change.
cp d.img e.img
printf '3000 0 0 times /a 4000 2000\n' > script
"$program" play 7 e.img script > output
tells 0 none diff 7 d.img e.img
differs 'M /a atime 1970-01-01 00:33:20 -> 01:06:40, ctime 1970-01-01 00:33:20 -> 00:50:00' 7 d.img e.img --times

# A tree in an archive, and out of it again.
"$program" mkfs 7 tree.img 100 4 0 0 1000
printf '%s\n' '2000 0 0 mkdir /d 777' '2100 1 2 create /d/f 640' '2100 0 0 create /e 604' '2200 0 0 write /e 600 4a4b' '2300 0 0 link /e /d/g' > script
"$program" play 7 tree.img script > output
"$program" mkfs 7 copy.img 200 4 0 0 1000
"$program" export 7 tree.img > tree.tar
"$program" import 7 copy.img / 5000 < tree.tar
runs diff 7 tree.img copy.img
has 'a tree that was archived' 'M / mtime' "$(cut -d ' ' -f 1-3 output)"

# Special files, by their devices.
changed d.img dev.img 2496 'a4 21 01 00'
cp dev.img dev2.img
put dev2.img 2508 '00 05 01'
runs diff 7 d.img dev.img
has 'a special file' 1 "$(grep -c '^T /a file -> character special file$' output)"
runs diff 7 dev.img dev2.img
has 'another device' 1 "$(grep -c '^M /a device 0,6 -> ' output)"
runs diff 7 dev.img dev2.img --json
cat output >> printed
has 'another device as JSON' 'character 0 6 1 5 None' \
    "$(python3 -c 'import json; it = json.load(open("output"))["lines"][-1]; print(it["old"]["kind"], it["old"]["major"], it["old"]["minor"], it["new"]["major"], it["new"]["minor"], it["new"]["size"])')"

# Names with bytes that no terminal shows.
cp d.img e.img
printf '2000 0 0 create /\001 644\n' > script
"$program" play 7 e.img script > output
differs 'A /\001' 7 d.img e.img

# A name that is empty looks like the root.
changed d.img empty.img 2594 00
runs diff 7 d.img empty.img --json
has 'an empty name as JSON' 'added / name that is empty or has a slash' \
    "$(python3 -c 'import json; print(*(" ".join((it["line"], it["path"], it["new"]["reason"])) for it in json.load(open("output"))["lines"] if it["line"] == "added"))')"
runs diff 7 d.img empty.img
has 'an empty name that only one volume has' 'A / (name that is empty or has a slash) D /a' "$(grep '^[AD]' output | paste -s -d ' ')"

# Images that aren't sound: what `find` meets is compared, and a line names the file.
changed d.img rule12.img 1090 05
runs diff 7 d.img rule12.img
echo 'unixvol: unsound, rule 12: rule12.img' > line
has 'the status of an image that is not sound' 1 "$(cat status)"
has 'its line' "$(cat line)" "$(cat error)"
has 'what differs in it' 1 "$(grep -c '^M / links [0-9]* -> 5$' output)"
runs diff 7 rule12.img rule12.img
cat line line > lines
wants 'an image that is not sound, with itself' 0 none lines
runs diff 7 rule12.img rule12.img --json
echo '{"format":1,"lines":[]}' > wanted
wants 'an image that is not sound, with itself, as JSON' 0 wanted lines
runs diff 7 rule12.img d.img --fields
has 'the same by fields' '' "$(cat error)"
changed d.img entry.img 2592 ffff
runs diff 7 d.img entry.img
has 'an entry without an i-node' 1 "$(grep -c '^T /a file -> entry without an i-node$' output)"
has 'the rule that it breaks' 1 "$(grep -c '^unixvol: unsound, rule [0-9]*: entry.img$' error)"
head -c 1023 d.img > short.img
refuses 1 'unixvol: unsound, rule 1: short.img' diff 7 short.img d.img
refuses 1 'unixvol: unsound, rule 1: short.img' diff 7 d.img short.img
changed d.img bounds.img 512 ffff
refuses 1 'unixvol: unsound, rule 2: bounds.img' diff 7 d.img bounds.img

# A path above 4,096 bytes, in both volumes: what is below it isn't compared, and that is said. The 274th of nested directories has such a path.
"$program" mkfs 7 far.img 600 40 0 0 1000
path=
for k in $(seq 276); do
    path=$path/abcdefghijk$((100 + k % 100))
    [ "$k" = 274 ] && echo "U $path path above 4096 bytes" > wanted
    echo "1000 3 5 mkdir $path 755"
done > script
"$program" play 7 far.img script > output
cp far.img further.img
echo "2000 0 0 create $path/new 644" > script
"$program" play 7 further.img script > output
tells 1 wanted diff 7 far.img further.img
tells 1 wanted diff 7 far.img far.img

# A volume inside a pack; files that can't be read, a device that is full, and wrong words.
{ head -c 5120 /dev/zero; cat d.img; } > pack.img
{ head -c 5120 /dev/zero; cat e.img; } > other_pack.img
differs 'A /\001' 7 pack.img other_pack.img --at 10
refuses 3 'unixvol: cannot read absent.img' diff 7 d.img absent.img
refuses 3 'unixvol: cannot read absent.img' diff 7 absent.img d.img
"$program" diff 7 d.img e.img > /dev/full 2> error
echo $? > status
: > output
echo 'unixvol: cannot write -' > line
wants 'differences on a full device' 3 none line
misread 'error: the following required arguments were not provided' diff 7 d.img
misread "error: unexpected argument '--time'" diff 7 d.img d.img --time

# The keys of the objects are those of docs/JSON.md.
"$program" diff 7 d.img empty.img --json >> printed
has 'the keys of diff --json' '' "$(python3 "$rows/looks/keys.py" "$samples/../docs/JSON.md" diff < printed)"

echo "$passed passed, $failed failed"
[ "$failed" = 0 ]
