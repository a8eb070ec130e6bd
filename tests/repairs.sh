#!/usr/bin/env bash
# Runs `repair` of the built program on damaged volumes: the lessons, other damage with all lines, and volumes of both editions with damage at random
# places. Then its words, and what it leaves of files.
# Usage: tests/repairs.sh PROGRAM. It prints a line for each row that fails, and ends with 'N passed, N failed'.
. "$(dirname "$0")/rows.sh"
linux="$samples/linux_made.v7"
now=173750400

# repairs EDITION IMAGE LINE..: `repair` prints these lines, with and without -n. With -n it makes no file, without it NEW, which is sound and has no line.
# The image stays as it is
repairs() {
    cp "$2" before
    rm -f new
    : > wanted
    [ $# = 2 ] || printf '%s\n' "${@:3}" > wanted
    prints wanted repair "$1" "$2" -n
    has "the copy of $2, with -n" none "$([ -e new ] && echo some || echo none)"
    prints wanted repair "$1" "$2" new "$now"
    runs check "$1" new
    has "the rules that a repaired copy of $2 keeps" '0 12' "$(cat status) $(grep -c ': holds$' output)"
    prints none repair "$1" new -n
    saves "$2, repaired to a copy" "$2" before
}

# refused LINE WORD..: `repair` refuses these words with status 1 and this line, makes no file, and leaves the image as it is
refused() {
    cp "$3" before
    rm -f new
    refuses 1 "$1" repair "$2" "$3" new "$now"
    refuses 1 "$1" repair "$2" "$3" -n
    has "the copy of $3, refused" none "$([ -e new ] && echo some || echo none)"
    saves "$3, not repaired" "$3" before
}

# The lessons: each but those of rules 1 and 2, whose sizes aren't known.
repairs 6 "$samples/lessons/rule_03.v6" 'i-node 15: links 1 -> 0' 'i-node 15: cleared' 'i-node 16: contents or fields changed' \
    'directory 16, slot 2: 15 motd -> empty' 'free list: rebuilt'
repairs 7 "$samples/lessons/rule_03.v7" 'i-node 2: contents or fields changed' 'directory 2, slot 4: 7 welcome -> empty' 'i-node 7: links 2 -> 0' 'i-node 7: cleared' \
    'i-node 8: contents or fields changed' 'directory 8, slot 2: 7 motd -> empty' 'free list: rebuilt'
repairs 6 "$samples/lessons/rule_04.v6" 'i-node 14: size 4893 -> 4096' 'free list: rebuilt'
repairs 7 "$samples/lessons/rule_04.v7" 'i-node 5: size 2147484340 -> 1082201088'
repairs 7 "$samples/lessons/rule_05.v7" 'i-node 5: contents or fields changed' 'free list: rebuilt'
repairs 7 "$samples/lessons/rule_06.v7" 'free list: rebuilt'
repairs 7 "$samples/lessons/rule_07.v7" 'i-node 7: contents or fields changed'
repairs 7 "$samples/lessons/rule_08.v7" 'free list: rebuilt'
repairs 7 "$samples/lessons/rule_09.v7" 'i-node 2: contents or fields changed' 'directory 2, slot 5: 4 draft -> empty'
repairs 7 "$samples/lessons/rule_10.v7" 'i-node 6: contents or fields changed' 'directory 6, slot 1: 8 .. -> 2 ..'
repairs 7 "$samples/lessons/rule_11.v7" 'i-node 2: contents or fields changed' 'directory 2, slot 5: 6 draft -> empty'
repairs 7 "$samples/lessons/rule_12.v7" 'i-node 7: links 1 -> 2'
for edition in 6 7; do repairs $edition "$samples/lessons/sound.v$edition"; done
refused 'unixvol: unsound, rule 1' 7 "$samples/lessons/rule_01.v7"
refused 'unixvol: unsound, rule 2' 7 "$samples/lessons/rule_02.v7"
refused 'unixvol: unsound, rule 1' 6 none

# A sound volume's copy is the same, and bytes after the volume aren't in it.
repairs 7 "$linux"
saves 'the copy of a sound volume' new "$linux"
{ cat "$linux"; echo more; } > longer
repairs 7 longer
saves 'the copy of a sound volume in a longer file' new "$linux"

# A bad number in a chain block of the free list: the super-block of the copy is the same.
"$program" mkfs 7 whole 60 2 0 0 1
changed whole chained $((512 * 10 + 6)) 'FF FF'
repairs 7 chained 'free list: rebuilt'
saves 'the copy of a volume whose chain block was damaged' new whole

# A file whose entry is gone, and a root that is gone: directories and files are in /lost+found, and what they hold is the same.
changed "$linux" nameless 8752 '00 00'
repairs 7 nameless 'i-node 2: links 4 -> 5' 'i-node 2: contents or fields changed' 'directory 2, slot 4: empty -> 3 lost+found' 'i-node 3: links 0 -> 2' \
    'i-node 3: made' 'directory 3, slot 0: empty -> 3 .' 'directory 3, slot 1: empty -> 2 ..' 'directory 3, slot 2: empty -> 92 #92' 'free list: rebuilt'
"$program" get 7 "$linux" /etc/motd > wanted
prints wanted get 7 new '/lost+found/#92'
"$program" inode 7 new /lost+found > report
has 'the time of a directory that was made' "mode 040755 directory 0755 mtime $now" "$(grep -e ^mode -e ^mtime report | paste -s -d ' ')"
changed "$linux" rootless 1088 "$(repeated 64 00)"
repairs 7 rootless 'i-node 2: links 0 -> 3' 'i-node 2: made' 'directory 2, slot 0: empty -> 3 lost+found' 'directory 2, slot 1: empty -> 2 .' \
    'directory 2, slot 2: empty -> 2 ..' 'i-node 3: links 0 -> 4' 'i-node 3: made' 'directory 3, slot 0: empty -> 3 .' 'directory 3, slot 1: empty -> 2 ..' \
    'directory 3, slot 2: empty -> 94 #94' 'directory 3, slot 3: empty -> 96 #96' 'i-node 94: contents or fields changed' 'directory 94, slot 1: 2 .. -> 3 ..' \
    'i-node 96: contents or fields changed' 'directory 96, slot 1: 2 .. -> 3 ..' 'free list: rebuilt'
for path in motd passwd; do
    "$program" get 7 "$linux" "/etc/$path" > wanted
    prints wanted get 7 new "/lost+found/#94/$path"
done

# Names that can't be: with a slash, empty, and one that was there before. Their files are found again, and what is shown of them is escaped.
"$program" mkfs 7 named 30 2 0 0 1
printf a > file
for name in one two six; do prints none put 7 named "/$name" file 2; done
put named $((512 * 4 + 34)) '2F 1B' # the root has block 4
put named $((512 * 4 + 50)) '00 00 00'
put named $((512 * 4 + 66)) '2E 00 00'
repairs 7 named 'i-node 2: links 2 -> 3' 'i-node 2: contents or fields changed' 'directory 2, slot 2: 16 /\033e -> 3 lost+found' \
    'directory 2, slot 3: 15  -> empty' 'directory 2, slot 4: 14 . -> empty' 'i-node 3: links 0 -> 2' 'i-node 3: made' 'directory 3, slot 0: empty -> 3 .' \
    'directory 3, slot 1: empty -> 2 ..' 'directory 3, slot 2: empty -> 14 #14' 'directory 3, slot 3: empty -> 15 #15' 'directory 3, slot 4: empty -> 16 #16' \
    'free list: rebuilt'

# Two files of one block: the one with the higher i-number gets a copy of it, and both have their bytes.
"$program" mkfs 6 twice 20 2 0 0 1
for name in a b; do
    printf '%s' "$name" > file
    prints none put 6 twice "/$name" file 2
done
put twice $((1024 + 32 * 30 + 8)) '05 00'
repairs 6 twice 'i-node 32: contents or fields changed'
printf a > wanted
for name in a b; do prints wanted get 6 new "/$name"; done

# A full volume whose file has lost its name: there is no room for /lost+found. With a further block there is.
for edition in 6 7; do
    "$program" mkfs $edition full 7 1 0 0 1
    head -c 1500 /dev/zero | tr '\0' x > file
    prints none put $edition full /file file 2
    put full $((512 * 3 + 32)) '00 00'
    refused 'unixvol: 28 NoSpace' $edition full
    cp full before
    refuses 1 'unixvol: 28 NoSpace' repair $edition full new --blocks 7
    runs repair $edition full -n --blocks 8
    cp output wanted
    prints wanted repair $edition full new $now --blocks 8
    saves "a full volume of edition $edition, repaired to a larger copy" full before
    runs check $edition new
    has "the rules that a larger copy of edition $edition keeps" '0 12' "$(cat status) $(grep -c ': holds$' output)"
    has "the blocks of a larger copy of edition $edition" 4096 "$(wc -c < new)"
    number=$([ $edition = 6 ] && echo 16 || echo 8)
    prints file get $edition new "/lost+found/#$number"
done
has 'the lines of a larger copy' "i-node 2: links 2 -> 3 i-node 3: made directory 3, slot 2: empty -> 8 #8 free list: rebuilt" \
    "$(grep -e 'links 2 ' -e made -e '#8' -e free wanted | paste -s -d ' ')"
cp "$linux" sound
echo 'free list: rebuilt' > wanted
prints wanted repair 7 sound new --blocks 241
"$program" resize 7 sound 241
saves 'a sound volume repaired to a larger copy, which resize makes too' new sound
prints none repair 7 sound new --blocks 100
saves 'a sound volume whose copy need not be larger' new sound
for edition in 6 7; do
    refuses 1 'unixvol: bounds' repair $edition "$samples/lessons/sound.v$edition" new --blocks $((edition == 6 ? 65536 : 16777217))
done
has 'the second line where there is no room' "unixvol: full: a directory or an entry that the repair needs has no free block or i-node; --blocks N makes more blocks, and no more i-nodes" \
    "$(UNIXVOL_EXPLAIN=1 "$program" repair 7 full -n 2>&1 | tail -n 1)"

# The words, and the files. NEW is replaced, but never the image, and with --new nothing is.
cp "$samples/lessons/rule_12.v7" disk
cp disk before
echo 'i-node 7: links 1 -> 2' > wanted
"$program" repair 7 disk > output 2> error
has 'repair without a file' 2 $?
has 'what repair without a file says' 1 "$(grep -c 'name a file for the copy, or add -n' error)"
misread 'error: the following required arguments were not provided' repair 7
misread "error: invalid value 'x'" repair 7 disk new x
misread "error: invalid value 'x'" repair 7 disk new --blocks x
misread 'error: unexpected argument' repair 7 disk new 1 2
misread "error: invalid value '8'" repair 8 disk new
rm -f new
prints wanted repair 7 disk new -n
prints wanted repair 7 disk new 5 -n --new
has 'the file that is named with -n' none "$([ -e new ] && echo some || echo none)"
prints wanted repair 7 disk new 5 --new
cp new repaired
refuses 3 'unixvol: cannot write new' repair 7 disk new 5 --new
echo something > new
chmod 640 new
refuses 3 'unixvol: cannot write new' repair 7 disk new 5 --new
has 'a file that was there, with --new' something "$(cat new)"
prints wanted repair 7 disk new 5
saves 'a file that a repaired copy replaced' new repaired
has 'the permissions of a file that a repaired copy replaced' 640 "$(stat -c %a new)"
ln -s disk leads
ln disk second
for path in disk ./disk "$folder/disk" leads second; do
    refuses 3 "unixvol: cannot write $path" repair 7 disk "$path"
    refuses 3 'unixvol: cannot write disk' repair 7 "$path" disk
done
rm leads second
refuses 3 'unixvol: cannot read missing' repair 7 missing new
refuses 3 'unixvol: cannot write no/folder' repair 7 disk no/folder
refuses 3 'unixvol: cannot write /dev/full' repair 7 disk /dev/full
"$program" repair 7 disk new > /dev/full 2> error
has 'repair to a full device' '3 unixvol: cannot write -' "$? $(cat error)"
saves 'a copy that was saved without a report' new repaired
"$program" repair 7 disk /dev/stdout 2> error | cat > copied
saves 'a copy that goes to standard output' copied repaired
has 'the report beside a copy on standard output' "$(cat wanted)" "$(cat error)"
{ head -c 5120 /dev/zero | tr '\0' y; cat disk; head -c 5120 /dev/zero | tr '\0' z; } > pack
prints wanted repair 7 pack new --at 10
saves 'a copy of a volume in a pack' new repaired
saves 'a volume that was repaired to copies' disk before

# Volumes of both editions with damage at random places: each comes out sound, with no line for a second repair, or is refused by name and nothing is
# saved; the image stays as it is. Each file that fits has the same i-node but for its links, and the same bytes.
python3 - "$program" << 'PYTHON' > error
import os, random, subprocess, sys

program = sys.argv[1]
random.seed(1975)

def run(*words):
    return subprocess.run([program, *words], stdin=subprocess.DEVNULL, capture_output=True)

def word(image, at):
    return image[at] | image[at + 1] << 8

class Volume:
    """The i-nodes and block maps of an image, by the manuals."""
    def __init__(self, edition, image):
        self.old, self.image = edition == "6", image
        size, self.end = word(image, 512), word(image, 514) if self.old else word(image, 514) << 16 | word(image, 516)
        self.start = size + 2 if self.old else size
        self.bytes, self.root = (32, 1) if self.old else (64, 2)
        self.last = (self.start - 2) * 512 // self.bytes

    def inode(self, i):
        at = 1024 + self.bytes * (i - 1)
        return self.image[at:at + self.bytes]

    def pointers(self, block):
        """The block numbers in an indirect block; zeros if it is none of the data zone's."""
        data = self.image[512 * block:512 * block + 512] if self.start <= block < self.end else bytes(512)
        if self.old:
            return [word(data, k) for k in range(0, 512, 2)]
        return [word(data, k) << 16 | word(data, k + 2) for k in range(0, 512, 4)]

    def below(self, block, depth):
        if block:
            yield block
            if depth:
                for number in self.pointers(block):
                    yield from self.below(number, depth - 1)

    def blocks(self, i):
        """All block numbers in the block map of an i-node, with those of indirect blocks."""
        inode = self.inode(i)
        if self.old:
            large = word(inode, 0) & 0o10000
            for k in range(8):
                yield from self.below(word(inode, 8 + 2 * k), (1 + (k == 7)) if large else 0)
        else:
            for k in range(13):
                number = inode[12 + 3 * k] << 16 | inode[14 + 3 * k] << 8 | inode[13 + 3 * k]
                yield from self.below(number, max(0, k - 9))

    def is_regular(self, i):
        mode = word(self.inode(i), 0)
        return mode & 0o160000 == 0o100000 if self.old else mode & 0o170000 == 0o100000

    def size(self, i):
        inode = self.inode(i)
        return inode[5] << 16 | word(inode, 6) if self.old else word(inode, 8) << 16 | word(inode, 10)

    def fitting(self):
        """The files that fit: all of their blocks are of the data zone, and each is named once."""
        maps = {i: list(self.blocks(i)) for i in range(1, self.last + 1) if word(self.inode(i), 0)}
        uses = {}
        for numbers in maps.values():
            for number in numbers:
                uses[number] = uses.get(number, 0) + 1
        limit = 1082201088
        for i, numbers in maps.items():
            is_small = self.old and not word(self.inode(i), 0) & 0o10000
            if self.is_regular(i) and i != self.root and self.size(i) <= (4096 if is_small else limit):
                if all(self.start <= number < self.end and uses[number] == 1 for number in numbers):
                    yield i, numbers

    def kept(self, i, numbers):
        """What must stay of a file: its i-node but for its links, and its blocks."""
        inode = bytearray(self.inode(i))
        inode[2] = 0
        if not self.old:
            inode[3] = 0
        return bytes(inode), [self.image[512 * number:512 * number + 512] for number in numbers]

def made(edition):
    """Makes r.img, a sound volume with some directories, files and links."""
    run("mkfs", edition, "r.img", str(random.randint(250, 500)), "6", "0", "0", "1")
    for d in range(random.randint(1, 4)):
        run("mkdir", edition, "r.img", f"/d{d}", "2")
        run("mkdir", edition, "r.img", f"/d{d}/below", "2")
        for f in range(random.randint(1, 6)):
            with open("r.file", "wb") as file:
                file.write(random.randbytes(random.choice((0, 5, 512, 3000, 6000, 20000))))
            run("put", edition, "r.img", f"/d{d}/f{f}", "r.file", "3")
            if random.random() < 0.3:
                run("ln", edition, "r.img", f"/d{d}/f{f}", f"/d{d}/below/l{f}", "4")
    return open("r.img", "rb").read()

def damaged(edition, image):
    """The image with other bytes in a few places: i-nodes, their blocks or the super-block, but not the sizes."""
    volume, image = Volume(edition, image), bytearray(image)
    inodes = [i for i in range(1, volume.last + 1) if word(volume.inode(i), 0)]
    for _ in range(random.choice((1, 1, 2, 4, 10))):
        kind, count = random.random(), random.choice((1, 1, 2, 16, 64))
        if kind < 0.5:
            at = 1024 + volume.bytes * (random.choice(inodes) - 1) + random.randrange(volume.bytes)
        elif kind < 0.9:
            at = 512 * random.choice(list(volume.blocks(random.choice(inodes))) or [volume.start]) + random.randrange(64)
        else:
            at = random.randrange(520, 1024)
        more = random.choice((bytes(count), random.randbytes(count), bytes([random.randrange(64)]) * count))
        image[at:at + count] = more[:len(image) - at]
    return bytes(image)

endings = {}
for round in range(400 * int(os.environ.get('TIMES', 1))):
    edition = "67"[round % 2]
    if round % 40 < 2:
        bases = dict(bases, **{edition: made(edition)}) if round else {edition: made(edition)}
    old = damaged(edition, bases[edition])
    with open("r.img", "wb") as file:
        file.write(old)
    if os.path.exists("r.new"):
        os.remove("r.new")
    done = run("repair", edition, "r.img", "r.new", "5")
    ending = done.stderr.decode() or ("lines" if done.stdout else "no line")
    endings[ending] = endings.get(ending, 0) + 1
    if open("r.img", "rb").read() != old:
        print(round, "the image was changed")
    if done.returncode == 1 and ending in ("unixvol: 28 NoSpace\n", "unixvol: 112 NotRepaired\n"):
        if os.path.exists("r.new") or done.stdout:
            print(round, "refused, but not in silence")
        continue
    if done.returncode != 0 or done.stderr:
        print(round, "status", done.returncode, done.stderr)
        continue
    check, again = run("check", edition, "r.new"), run("repair", edition, "r.new", "-n")
    if check.returncode != 0 or check.stdout.count(b": holds\n") != 12 or again.returncode != 0 or again.stdout:
        print(round, "the copy isn't sound:", check.stdout.decode(), again.stdout.decode())
    new = Volume(edition, open("r.new", "rb").read())
    for i, numbers in Volume(edition, old).fitting():
        if list(new.blocks(i)) != numbers or Volume(edition, old).kept(i, numbers) != new.kept(i, numbers):
            print(round, "a file that fits was changed:", i)
        if f"i-node {i}: " in done.stdout.decode().replace(f"i-node {i}: links", ""):
            print(round, "a line about a file that fits:", i)
print(endings.get("lines", 0) > 200)
PYTHON
has 'volumes with damage at random places' True "$(cat error)"

echo "$passed passed, $failed failed"
[ "$failed" = 0 ]
