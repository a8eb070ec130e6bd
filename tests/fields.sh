#!/usr/bin/env bash
# Runs `dump` and `diff --fields` of the built program: the lines of the fields of blocks and i-nodes of both editions; that the bytes of the lines are
# those of the image; the fields that a command changed, and each byte of an image changed alone; refusals and wrong words.
# Usage: tests/fields.sh PROGRAM. It prints each row that fails, and ends with 'N passed, N failed'.
rows=$(realpath "$(dirname "$0")")
. "$(dirname "$0")/rows.sh"
: > none

printf hello > hello
"$program" mkfs 7 d.img 40 3 0 0 1000
"$program" put 7 d.img /a hello 2000

# An i-node, by its number and by its path.
cat > wanted << 'LINES'
i-node 24: block 4, byte 448
  448 a4 81              mode              0100644  -rw-r--r--
  450 01 00              nlink             1
  452 00 00              uid               0
  454 00 00              gid               0
  456 00 00 05 00        size              5
  460 00 06 00           addr[0]           6  data of i-node 24, logical 0
  463 00 .. (36 bytes)   addr[1..12]       0
  499 00                 unused
  500 00 00 d0 07        atime             2000  1970-01-01 00:33:20
  504 00 00 d0 07        mtime             2000  1970-01-01 00:33:20
  508 00 00 d0 07        ctime             2000  1970-01-01 00:33:20
LINES
prints wanted dump 7 d.img -i 24
prints wanted dump 7 d.img -i /a
prints wanted dump 7 d.img /a

# The root's block, and that of a file.
cat > wanted << 'LINES'
block 5: directory 2, logical 0
    0 02 00                                      slot 0 i-number   2  directory
    2 2e 00 00 00 00 00 00 00 00 00 00 00 00 00  slot 0 name       .
   16 02 00                                      slot 1 i-number   2  directory
   18 2e 2e 00 00 00 00 00 00 00 00 00 00 00 00  slot 1 name       ..
   32 18 00                                      slot 2 i-number   24  file
   34 61 00 00 00 00 00 00 00 00 00 00 00 00 00  slot 2 name       a
   48 00 .. (464 bytes)                          slack
LINES
prints wanted dump 7 d.img 5
cat > wanted << 'LINES'
block 6: data of i-node 24, logical 0
    0 68 65 6c 6c 6f                                   bytes             hello
    5 00 .. (507 bytes)                                slack
LINES
prints wanted dump 7 d.img 6
cat > wanted << 'LINES'
block 6: data of i-node 24, logical 0
    0 150 145 154 154 157                                              bytes             hello
    5 000 .. (507 bytes)                                               slack
LINES
prints wanted dump 7 d.img 6 --octal

# As JSON: an i-node, the root's block, that of a file, and an address of one.
cat > wanted << 'JSON'
{"block":4,"format":1,"role":{"use":"system"},"rows":[{"count":1,"field":"mode","hex":"a481","index":0,"ino":24,"meaning":"-rw-r--r--","offset":448,"value":"0100644"},
{"count":1,"field":"nlink","hex":"0100","index":0,"ino":24,"meaning":null,"offset":450,"value":1},
{"count":1,"field":"uid","hex":"0000","index":0,"ino":24,"meaning":null,"offset":452,"value":0},
{"count":1,"field":"gid","hex":"0000","index":0,"ino":24,"meaning":null,"offset":454,"value":0},
{"count":1,"field":"size","hex":"00000500","index":0,"ino":24,"meaning":null,"offset":456,"value":5},
{"count":1,"field":"addr","hex":"000600","index":0,"ino":24,"meaning":"data of i-node 24, logical 0","offset":460,"value":6},
{"count":12,"field":"addr","hex":"@72@","index":1,"ino":24,"meaning":null,"offset":463,"value":0},
{"count":1,"field":"unused","hex":"00","index":0,"ino":24,"meaning":null,"offset":499,"value":null},
{"count":1,"field":"atime","hex":"0000d007","index":0,"ino":24,"meaning":"1970-01-01 00:33:20","offset":500,"value":2000},
{"count":1,"field":"mtime","hex":"0000d007","index":0,"ino":24,"meaning":"1970-01-01 00:33:20","offset":504,"value":2000},
{"count":1,"field":"ctime","hex":"0000d007","index":0,"ino":24,"meaning":"1970-01-01 00:33:20","offset":508,"value":2000}]}
JSON
# one_line: joins the lines of `wanted`, and puts N zeros in place of @N@
one_line() { python3 -c 'import re, sys; print(re.sub("@(.*?)@", lambda it: "0" * int(it[1]), sys.stdin.read().replace("\n", "")))' < wanted > joined; mv joined wanted; }
one_line
prints wanted dump 7 d.img -i 24 --json
prints wanted dump --json 7 d.img /a
cat > wanted << 'JSON'
{"block":5,"format":1,"role":{"ino":2,"level":0,"logical":0,"use":"directory"},"rows":[
{"count":1,"field":"i-number","hex":"0200","index":0,"ino":null,"meaning":"directory","offset":0,"value":2},
{"count":1,"field":"name","hex":"2e@26@","index":0,"ino":null,"meaning":null,"offset":2,"value":"."},
{"count":1,"field":"i-number","hex":"0200","index":1,"ino":null,"meaning":"directory","offset":16,"value":2},
{"count":1,"field":"name","hex":"2e2e@24@","index":1,"ino":null,"meaning":null,"offset":18,"value":".."},
{"count":1,"field":"i-number","hex":"1800","index":2,"ino":null,"meaning":"file","offset":32,"value":24},
{"count":1,"field":"name","hex":"61@26@","index":2,"ino":null,"meaning":null,"offset":34,"value":"a"},
{"count":1,"field":"slack","hex":"@928@","index":0,"ino":null,"meaning":null,"offset":48,"value":null}]}
JSON
one_line
prints wanted dump 7 d.img 5 --json
cat > wanted << 'JSON'
{"block":6,"format":1,"role":{"ino":24,"level":0,"logical":0,"use":"file"},"rows":[
{"count":1,"field":"bytes","hex":"68656c6c6f","index":0,"ino":null,"meaning":null,"offset":0,"value":null},
{"count":1,"field":"slack","hex":"@1014@","index":0,"ino":null,"meaning":null,"offset":5,"value":null}]}
JSON
one_line
prints wanted dump 7 d.img 6 --json

# whole FILE EDITION: the bytes of the lines of each block of the image, in order, are the image; so are those of the objects
whole() {
    local last
    last=$(($(wc -c < "$1") / 512 - 1))
    for block in $(seq 0 "$last"); do "$program" dump "$2" "$1" "$block" --json; done > objects
    python3 -c '
import json, sys
found = b""
for line in open("objects"):
    for row in json.loads(line)["rows"]:
        if row["offset"] != len(found) % 512:
            sys.exit("a row has a wrong place: %s" % row)
        found += bytes.fromhex(row["hex"])
sys.exit(0 if found == open(sys.argv[1], "rb").read() else "other bytes")' "$1"
    has "the bytes of the objects of $1" 0 $?
    for block in $(seq 0 "$last"); do "$program" dump "$2" "$1" "$block"; done > lines
    python3 - "$1" << 'PYTHON'
import re, sys
found = bytearray()
for line in open("lines", encoding="latin-1"):
    zeros = re.match(r" *\d+ 00 \.\. \((\d+) bytes\)", line)
    some = re.match(r" *(\d+)((?: [0-9a-f]{2})+)(?: |$)", line)
    if line[0] != " ":
        continue
    if int(line[:5]) != len(found) % 512:
        sys.exit("a line has a wrong place: " + line)
    found += bytes(int(zeros[1])) if zeros else bytes.fromhex(some[2])
sys.exit(0 if found == open(sys.argv[1], "rb").read() else "other bytes")
PYTHON
    has "the bytes of the lines of $1" 0 $?
}
whole d.img 7
"$program" mkfs 6 s.img 40 3 0 0 1000
"$program" mkdir 6 s.img /d 1500
"$program" put 6 s.img /d/a hello 2000
whole s.img 6

# Blocks and i-nodes that aren't there, images that break rule 1 or 2, and wrong words.
answers() { runs "${@:3}"; printf '%s\n' "$2" > told; wants "${*:3}" "$1" none told; }
answers 1 'unixvol: 2 NoEntry' dump 7 d.img 40
answers 1 'unixvol: 2 NoEntry' dump 7 d.img 4294967295
answers 1 'unixvol: 2 NoEntry' dump 7 d.img -i 0
answers 1 'unixvol: 2 NoEntry' dump 7 d.img -i 25
answers 1 'unixvol: 2 NoEntry' dump 7 d.img -i 65560
answers 1 'unixvol: 2 NoEntry' dump 7 d.img /b
answers 1 'unixvol: 20 NotDirectory' dump 7 d.img /a/b
head -c 1023 d.img > short.img
answers 1 'unixvol: unsound, rule 1' dump 7 short.img 0
changed d.img bounds.img 512 ffff
answers 1 'unixvol: unsound, rule 2' dump 7 bounds.img 0
misread "error: invalid value 'a'" dump 7 d.img a
misread "error: invalid value '4294967296'" dump 7 d.img 4294967296
misread 'error: the following required arguments were not provided' dump 7 d.img -i
answers 1 'unixvol: 2 NoEntry' dump 7 d.img 40 --json
answers 1 'unixvol: unsound, rule 1' dump 7 short.img 0 --json
misread "error: the argument '--octal' cannot be used with '--json'" dump 7 d.img 0 --octal --json

# Two images: what a file's removal changed.
cp d.img e.img
"$program" rm 7 e.img /a 3000
cat > wanted << 'LINES'
block 6: data of i-node 24, logical 0 -> free
super-block nfree 34 -> 35
super-block ninode 21 -> 22
super-block time 2000 -> 3000
i-node 2 mtime 2000 -> 3000
i-node 2 ctime 2000 -> 3000
i-node 24 mode 0100644 -> 0
i-node 24 nlink 1 -> 0
i-node 24 size 5 -> 0
i-node 24 addr[0] 6 -> 0
i-node 24 atime 2000 -> 0
i-node 24 mtime 2000 -> 0
i-node 24 ctime 2000 -> 0
directory 2 slot 2 i-number 24 -> 0
LINES
tells() { runs "${@:2}"; wants "${*:2}" 1 "$1" none; }
tells wanted diff 7 d.img e.img --fields
# again WORD..: with --json the comparison has the same status, and an object for each line, from which the line can be made again
again() {
    local wanted_status
    "$program" "$@" > lines_wanted
    wanted_status=$?
    runs "$@" --json
    python3 "$rows/fields/as_lines.py" < output > lines_made
    cmp -s lines_wanted lines_made
    has "the lines of $* --json" "0 $wanted_status 1" "$? $(cat status) $(wc -l < output)"
}
again diff 7 d.img e.img --fields
again diff 7 e.img d.img --fields
cat > wanted << 'JSON'
{"format":1,"lines":[{"block":6,"count":1,"line":"role","new":{"use":"free"},"old":{"ino":24,"level":0,"logical":0,"use":"file"}},
{"block":1,"field":"nfree","index":0,"ino":null,"line":"field","new":35,"offset":6,"old":34,"role":{"use":"system"},"was":null},
{"block":1,"field":"ninode","index":0,"ino":null,"line":"field","new":22,"offset":208,"old":21,"role":{"use":"system"},"was":null},
{"block":1,"field":"time","index":0,"ino":null,"line":"field","new":3000,"offset":414,"old":2000,"role":{"use":"system"},"was":null},
{"block":2,"field":"mtime","index":0,"ino":2,"line":"field","new":3000,"offset":120,"old":2000,"role":{"use":"system"},"was":null},
{"block":2,"field":"ctime","index":0,"ino":2,"line":"field","new":3000,"offset":124,"old":2000,"role":{"use":"system"},"was":null},
{"block":4,"field":"mode","index":0,"ino":24,"line":"field","new":"00","offset":448,"old":"0100644","role":{"use":"system"},"was":null},
{"block":4,"field":"nlink","index":0,"ino":24,"line":"field","new":0,"offset":450,"old":1,"role":{"use":"system"},"was":null},
{"block":4,"field":"size","index":0,"ino":24,"line":"field","new":0,"offset":456,"old":5,"role":{"use":"system"},"was":null},
{"block":4,"field":"addr","index":0,"ino":24,"line":"field","new":0,"offset":460,"old":6,"role":{"use":"system"},"was":null},
{"block":4,"field":"atime","index":0,"ino":24,"line":"field","new":0,"offset":500,"old":2000,"role":{"use":"system"},"was":null},
{"block":4,"field":"mtime","index":0,"ino":24,"line":"field","new":0,"offset":504,"old":2000,"role":{"use":"system"},"was":null},
{"block":4,"field":"ctime","index":0,"ino":24,"line":"field","new":0,"offset":508,"old":2000,"role":{"use":"system"},"was":null},
{"block":5,"field":"i-number","index":2,"ino":null,"line":"field","new":0,"offset":32,"old":24,"role":{"ino":2,"level":0,"logical":0,"use":"directory"},"was":null}]}
JSON
one_line
tells wanted diff 7 d.img e.img --fields --json
echo '{"format":1,"lines":[]}' > wanted
prints wanted diff 7 d.img d.img --fields --json
"$program" diff 7 d.img e.img --fields > wanted
tells wanted diff --fields --all 7 d.img e.img
prints none diff 7 d.img d.img --fields
prints none diff 6 s.img s.img --fields

# A larger volume, whose last bytes are compared with nothing; bytes after a volume, which aren't compared; and fields that only the new image has.
"$program" mkfs 7 long.img 50 3 0 0 1000
runs diff 7 d.img long.img --fields
has "a larger volume" 'image: 20480 -> 25600 bytes' "$(head -n 1 output)"
has "a block that only it has" 'blocks 40 to 49: no data block -> free' "$(grep '^blocks 40' output)"
runs diff 7 long.img d.img --fields
has "a smaller volume" 'image: 25600 -> 20480 bytes' "$(head -n 1 output)"
cp d.img tail.img
printf more >> tail.img
prints none diff 7 d.img tail.img --fields
again diff 7 d.img long.img --fields
again diff 7 long.img d.img --fields --all
again diff 7 d.img tail.img --fields
cp s.img t.img
"$program" mkdir 6 t.img /d/e 3000
runs diff 6 s.img t.img --fields
has "a block that is a directory now" 1 "$(grep -c '^block [0-9]*: free -> directory [0-9]*, logical 0$' output)"
has "a slot that was free before" 1 "$(grep -c '^directory [0-9]* slot 0 i-number (was free) -> [0-9]*$' output)"
has "a slot after the old end" 1 "$(grep -c '^directory [0-9]* slot 3 i-number (was slack) -> [0-9]*$' output)"
has "a name" 1 "$(grep -c '^directory [0-9]* slot 3 name (was slack) -> "e"$' output)"

again diff 6 s.img t.img --fields
again diff 6 t.img s.img --fields

# Fields of an array, and blocks that changed alike: a line for all, or a line each.
"$program" mkfs 7 f.img 200 3 0 0 1000
head -c 20000 /dev/zero | tr '\0' x > large
cp f.img g.img
"$program" put 7 g.img /a large 2000
cp g.img h.img
"$program" rm 7 h.img /a 3000
"$program" diff 7 g.img h.img --fields > lines
"$program" diff 7 g.img h.img --fields --all > all
again diff 7 g.img h.img --fields
again diff 7 g.img h.img --fields --all
again diff 7 h.img g.img --fields
has "blocks that changed alike" 1 "$(grep -c '^blocks [0-9]* to [0-9]*: data of i-node [0-9]*, logical 0 -> free$' lines)"
has "each block" 40 "$(grep -c '^block [0-9]*: data of i-node [0-9]*, logical [0-9]* -> ' all)"
has "addresses" 1 "$(grep -c '^i-node [0-9]* addr\[0\.\.10\]: 11 differ$' lines)"
has "each address" 11 "$(grep -c '^i-node [0-9]* addr\[[0-9]*\] [0-9]* -> 0$' all)"

# Each byte of an image, changed alone, is in the one field that has a line.
flipped() {
    python3 - "$program" "$1" "$2" << 'PYTHON'
import re, subprocess, sys
program, edition, name = sys.argv[1:]
old = open(name, "rb").read()
for at in range(3, len(old), 509):
    new = bytearray(old)
    new[at] ^= 0xFF
    open("flip.img", "wb").write(new)
    run = subprocess.run([program, "diff", edition, name, "flip.img", "--fields", "--all"], capture_output=True, text=True)
    if run.stderr.startswith("unixvol: unsound, rule"):
        continue
    lines = [line for line in run.stdout.splitlines() if not re.match(r"block \d+: .* -> ", line)]
    if run.returncode != 1 or len(lines) != 1:
        sys.exit("byte %d: status %d, %s" % (at, run.returncode, lines))
    place = re.search(r": 1 byte differs, (\d+)$", lines[0])
    if place and int(place[1]) != at % 512 and not (1024 <= at < 2560):
        sys.exit("byte %d: %s" % (at, lines[0]))
PYTHON
    has "each byte of $2, changed alone" 0 $?
}
flipped 7 d.img
flipped 6 s.img

# Images that break rule 1 or 2: the line names the file. Wrong words.
answers 1 'unixvol: unsound, rule 1: short.img' diff 7 short.img d.img --fields
answers 1 'unixvol: unsound, rule 2: bounds.img' diff 7 d.img bounds.img --fields
answers 1 'unixvol: unsound, rule 2: bounds.img' diff 7 d.img bounds.img --fields --json
answers 3 'unixvol: cannot read absent.img' diff 7 d.img absent.img --fields

# The keys of the objects are those of docs/JSON.md: of each block and i-node, and of each comparison.
for block in $(seq 0 39); do "$program" dump 7 g.img "$block" --json; done > printed
"$program" dump 7 g.img -i 2 --json >> printed
has 'the keys of dump --json' '' "$(python3 "$rows/looks/keys.py" "$samples/../docs/JSON.md" dump < printed)"
for two in 'd.img e.img' 'd.img long.img' 'g.img h.img' 'h.img g.img'; do
    # shellcheck disable=SC2086
    "$program" diff 7 $two --fields --json
done > printed
has 'the keys of diff --fields --json' '' "$(python3 "$rows/looks/keys.py" "$samples/../docs/JSON.md" 'diff --fields' < printed)"
misread 'error: the following required arguments were not provided' diff 7 d.img --fields

echo "$passed passed, $failed failed"
[ "$failed" = 0 ]
