#!/usr/bin/env bash
# Runs `build` of the built program: lists with a line of each kind, in both editions; the same bytes each time, and as other commands make them; and
# lists, files and volumes that are refused. And of `build --list`, which writes the list of a volume.
# Usage: tests/builds.sh PROGRAM. It prints each row that fails, and ends with 'N passed, N failed'.
. "$(dirname "$0")/rows.sh"

mkdir -p lists/files volumes
echo hello > lists/files/hello
seq 3000 > lists/files/large
printf '\005\000' > lists/reset
echo outside > outside

# archive FILE: the members of the list below, as another program writes them
archive() {
    python3 - "$1" << 'PYTHON'
import io, sys, tarfile
when = 173750400
def member(name, kind, mode=0, uid=0, gid=0, mtime=when, link="", major=0, minor=0, body=b""):
    one = tarfile.TarInfo(name)
    one.type, one.mode, one.uid, one.gid, one.mtime, one.size = kind, mode, uid, gid, mtime, len(body)
    one.linkname, one.devmajor, one.devminor = link, major, minor
    tar.addfile(one, io.BytesIO(body))
def read(name):
    return open(name, "rb").read()
with tarfile.open(sys.argv[1], "w", format=tarfile.USTAR_FORMAT) as tar:
    member("d", tarfile.DIRTYPE, 0o751, 3, 1, 1000)
    member("d/e", tarfile.DIRTYPE, 0o700)
    member("d/hello", tarfile.REGTYPE, 0o4644, 3, 1, 2000, body=read("lists/files/hello"))
    member("d/e/large", tarfile.REGTYPE, 0o600, 7, 8, body=read("lists/files/large"))
    member("also", tarfile.LNKTYPE, link="d/hello")
    member("dev/tty", tarfile.CHRTYPE, 0o622, 0, 5, major=3, minor=255)
    member("dev/rk0", tarfile.BLKTYPE, 0o640, 3, 1, 3000, major=0, minor=1)
    member("spaced", tarfile.REGTYPE, 0o644, body=read("outside"))
PYTHON
}

for edition in 6 7; do
    built=volumes/built.$edition
    cat > lists/disk.list << END
# a comment, and an empty line

volume $edition 200 10
time 173750400
boot reset
dir /d 751 3:1 1000
dir /d/e 700 0:0
file /d/hello 4644 3:1 files/hello 2000
file /d/e/large 600 7:8 $PWD/lists/files/large
link /also /d/hello
char /dev/tty 622 0:5 3 255
block /dev/rk0 640 3:1 0 1 3000
  file   /spaced   0644 0:0  ../outside
END
    prints none build lists/disk.list "$built"
    prints none build --new lists/disk.list volumes/again
    saves 'the same list, once more' volumes/again "$built"
    (cd lists && "$program" build disk.list ../volumes/again)
    saves 'the same list, from its own folder' volumes/again "$built"
    archive members.tar
    "$program" mkfs "$edition" wanted 200 10 0 0 173750400
    "$program" boot "$edition" wanted lists/reset
    "$program" import "$edition" wanted / 173750400 < members.tar
    saves 'a volume as mkfs, boot and import make it' "$built" wanted
    holds 'the program in the boot block' "$built" 0 '05 00 00 00'
    prints lists/files/hello get "$edition" "$built" /also
    prints lists/files/large get "$edition" "$built" /d/e/large
    prints outside get "$edition" "$built" /spaced
    runs ls -l "$edition" "$built" /dev
    awk '{ print $2, $3, $4, $5, $6 (NF > 9 ? $7 : ""), $NF }' output > listed
    has 'devices with their numbers and owners' 'brw-r----- 1 3 1 0,1 rk0 crw--w--w- 1 0 5 3,255 tty' "$(tail -n 2 listed | paste -s -d ' ' -)"
    has 'what check says of it' 0 "$("$program" check "$edition" "$built" > output; echo $?)"

    # An export of it is what went in.
    mkdir "out.$edition"
    "$program" export "$edition" "$built" > built.tar
    tar -xf built.tar -C "out.$edition" --exclude='dev/*' --no-same-owner
    saves 'a file of an export' "out.$edition/d/e/large" lists/files/large
    saves 'a file of an export, by its other name' "out.$edition/also" lists/files/hello
    "$program" mkfs "$edition" copy.img 200 10 0 0 173750400
    "$program" import "$edition" copy.img / 173750400 < built.tar
    prints none diff "$edition" "$built" copy.img
    rm volumes/again
done

# The permissions and the owner of the root, and a member below it.
for edition in 6 7; do
    printf 'volume %s 100 4\ntime 5\nfile /f 644 0:0 files/hello\nroot 1751 3:1\n' "$edition" > lists/root.list
    prints none build lists/root.list volumes/root
    "$program" mkfs "$edition" wanted 100 4 3 1 5
    "$program" chmod "$edition" wanted / 1751 5
    "$program" export "$edition" volumes/root > built.tar
    "$program" import "$edition" wanted / 5 < built.tar
    saves 'a root as mkfs and chmod make it' volumes/root wanted
    has 'what check says of it' 0 "$("$program" check "$edition" volumes/root > output; echo $?)"
    rm volumes/root
done

# The list of a volume, with its files beside it, and the volume of that list: the same tree, and the same list again.
for edition in 6 7; do
    built=volumes/built.$edition
    listed=listed.$edition
    mkdir "$listed" "$listed.any" "$listed.again"
    prints none build --list "$edition" "$built" "$listed/root.list"
    has 'the files beside a list' 'root.list root.list.boot root.list.files' "$(ls "$listed" | paste -s -d ' ' -)"
    has 'the folders beside a list' 'd d/e dev' "$(cd "$listed/root.list.files" && find . -mindepth 1 -type d -printf '%P\n' | sort | paste -s -d ' ' -)"
    saves 'a file beside a list' "$listed/root.list.files/d/e/large" lists/files/large
    saves 'a file of two names, by the first' "$listed/root.list.files/also" lists/files/hello
    has 'a file of two names, by the other' no "$([ -e "$listed/root.list.files/d/hello" ] || echo no)"
    saves 'the boot block beside a list' "$listed/root.list.boot" <(head -c 512 "$built")
    cat > lists/wanted << END
volume $edition 200 10
time 173750400
boot root.list.boot
root 777 0:0
file /also 4644 3:1 root.list.files/also 2000
dir /d 751 3:1 1000
dir /d/e 700 0:0 173750400
file /d/e/large 600 7:8 root.list.files/d/e/large 173750400
link /d/hello /also
dir /dev 755 0:0 3000
block /dev/rk0 640 3:1 0 1 3000
char /dev/tty 622 0:5 3 255 173750400
file /spaced 644 0:0 root.list.files/spaced 173750400
END
    saves 'the list of a volume' "$listed/root.list" lists/wanted
    prints none build "$listed/root.list" again.img
    prints none diff "$edition" "$built" again.img
    "$program" export "$edition" "$built" > built.tar
    "$program" export "$edition" again.img > again.tar
    saves 'the archive of the volume of a list' again.tar built.tar
    prints none build --list "$edition" again.img "$listed.again/root.list"
    saves 'the list of the volume of a list' "$listed.again/root.list" lists/wanted
    prints none build --list any "$built" "$listed.any/root.list"
    saves 'the list of a volume of an edition to be found' "$listed.any/root.list" lists/wanted
    rm again.img
done

# A list that can't be written: nothing is.
"$program" mkfs 7 spaced.img 100 4 0 0 5
prints none build --list 7 spaced.img empty.list
saves 'the list of an empty volume' empty.list <(printf 'volume 7 100 4\ntime 5\nroot 777 0:0\n')
has 'no boot block of zeros' no "$([ -e empty.list.boot ] || echo no)"
"$program" mkdir 7 spaced.img '/a b' 5
refuses 1 'unixvol: /a b: a list has no place for a space or a newline in a path' build --list 7 spaced.img none.list
refuses 1 'unixvol: a list: a list has no place for a space or a newline in a path' build --list 7 volumes/built.7 'a list'
refuses 3 'unixvol: cannot write empty.list' build --list --new 7 volumes/built.7 empty.list
refuses 3 'unixvol: cannot read none.img' build --list 7 none.img none.list
has 'nothing of lists that are not written' 'empty.list empty.list.files' "$(ls -d none.list* 'a list'* empty.list* 2> /dev/null | paste -s -d ' ' -)"
mkdir own
cp volumes/built.7 own/volume
refuses 3 'unixvol: cannot write own/volume' build --list 7 own/volume own/volume
for name in own own/ .. /; do refuses 3 "unixvol: cannot write $name" build --list 7 own/volume "$name"; done
has 'nothing beside a list that has no place' 'own own/volume' "$(find own own.* -print 2> /dev/null | paste -s -d ' ' -)"
saves 'a volume over which no list is written' own/volume volumes/built.7
# A multiplexor, and a special file whose i-node has more than a number
"$program" mkfs 7 odd.img 100 4 0 0 5
"$program" mknod 7 odd.img /mpx c 1 2 5
inode=$("$program" ls -d 7 odd.img /mpx | awk '{ print $1 }')
for edit in 1:31 15:01; do
    cp odd.img device.img
    put device.img $((1024 + 64 * (inode - 1) + ${edit%:*})) "${edit#*:}"
    refuses 1 'unixvol: /mpx: a list has no place for such a special file' build --list 7 device.img device.list
done
prints none build --list 7 odd.img odd.list
has 'nothing of a list of a multiplexor' no "$([ -e device.list ] || [ -e device.list.files ] || echo no)"
# A file that a list names isn't replaced.
mkdir kept
printf 'volume 7 100\ntime 1\nboot program\nfile /x 644 0:0 text\n' > kept/list
echo boot > kept/program
echo text > kept/text
cp -r kept before.kept
for name in list program text; do refuses 3 "unixvol: cannot write kept/$name" build kept/list "kept/$name"; done
diff -r kept before.kept > differences
has 'the files of a list that is not built' 0 $?
misread "error: invalid value 'c' for '<MORE>': three words" build 7 b c
misread "error: invalid value '8' for '<EDITION>'" build --list 8 volumes/built.7 none.list
misread "error: invalid value '5' for '--at <BLOCK>'" build --at 5 lists/empty.list volumes/none

# Sizes by the name of a disk, with the default of mkfs; no member.
printf 'volume 6 RK05\ntime 1\n' > lists/empty.list
prints none build lists/empty.list volumes/rk05
"$program" mkfs 6 wanted 4872 103 0 0 1
saves 'an empty pack' volumes/rk05 wanted

# Lines that can't be read: the first is named, with the word. LINE N, LINES (apart by `;`), WHY.
while IFS='|' read -r number lines why; do
    tr ';' '\n' <<< "$lines" > lists/bad.list
    refuses 2 "unixvol: lists/bad.list: line $number: $why" build lists/bad.list volumes/none
done << 'END'
1|volumes 7 100|`volumes` isn't `volume`
1|volume 8 100|`8` isn't an edition, 6 or 7
1|volume 7 rk99|`rk99` isn't a number of blocks, or the name of a disk
1|volume 7 100 65536|`65536` isn't a number of blocks up to 65535
1|volume 7|it ends where a number of blocks, or the name of a disk is wanted
3|# sizes;volume 7 100;dir /d 755 0:0|`dir` isn't `time`
2|volume 7 100;time -1|`-1` isn't a number of seconds up to 4294967295
3|volume 7 100;time 1;fifo /p 644 0:0|`fifo` isn't `boot`, `root`, `dir`, `file`, `link`, `char` or `block`
4|volume 7 100;time 1;boot reset;boot reset|`boot` isn't `root`, `dir`, `file`, `link`, `char` or `block`
4|volume 7 100;time 1;root 755 0:0;root 755 0:0|`root` isn't `boot`, `dir`, `file`, `link`, `char` or `block`
5|volume 7 100;time 1;root 755 0:0;boot reset;root 755 0:0|`root` isn't `dir`, `file`, `link`, `char` or `block`
3|volume 7 100;time 1;root 10000 0:0|`10000` isn't an octal number up to 7777
3|volume 7 100;time 1;root 755 root|`root` isn't a user and a group, as 3:1
3|volume 7 100;time 1;root 755 3:1 4|`4` is one too many
3|volume 7 100;time 1;root 755|it ends where a user and a group, as 3:1 is wanted
3|volume 7 100;time 1;dir d 755 0:0|`d` isn't a path with a slash before each name
3|volume 7 100;time 1;dir /d/ 755 0:0|`/d/` isn't a path with a slash before each name
3|volume 7 100;time 1;dir /d 758 0:0|`758` isn't an octal number up to 7777
3|volume 7 100;time 1;dir /d 755 3|`3` isn't a user and a group, as 3:1
3|volume 7 100;time 1;dir /d 755 3:65536|`3:65536` isn't a user and a group, as 3:1
3|volume 7 100;time 1;dir /d 755 3:1 4 5|`5` is one too many
3|volume 7 100;time 1;file /f 644 0:0|it ends where a path in UTF-8 is wanted
3|volume 7 100;time 1;link /l|it ends where a path with a slash before each name is wanted
3|volume 7 100;time 1;char /c 644 0:0 256 1|`256` isn't a number up to 255
3|volume 7 100;time 1;a_word_of_forty_bytes_is_shown_up_to_here_:no_more|`a_word_of_forty_bytes_is_shown_up_to_her..` isn't `boot`, `root`, `dir`, `file`, `link`, `char` or `block`
END
printf '\n# nothing\n' > lists/bad.list
refuses 2 "unixvol: lists/bad.list: it ends where \`volume\` is wanted" build lists/bad.list volumes/none
echo 'volume 7 100' > lists/bad.list
refuses 2 "unixvol: lists/bad.list: it ends where \`time\` is wanted" build lists/bad.list volumes/none
printf 'volume 7 100\ntime 1\nfile /f 644 0:0 \377\n' > lists/bad.list
refuses 2 "unixvol: lists/bad.list: line 3: \`\\377\` isn't a path in UTF-8" build lists/bad.list volumes/none

# Lists that can be read, but not built. The first reason is named.
head -c 513 lists/files/large > lists/long
echo kept > volumes/kept
while IFS='|' read -r status lines why; do
    tr ';' '\n' <<< "$lines" > lists/bad.list
    refuses "$status" "unixvol: $why" build lists/bad.list volumes/kept
done << 'END'
1|volume 6 65536 10;time 1;root 755 256:0;dir /a_name_of_fifteen 755 0:0|bounds
1|volume 6 100;time 1;root 755 256:0;boot long|104 BadId
1|volume 6 100;time 1;boot long;dir /a_name_of_fifteen 755 0:0|27 TooBig
1|volume 7 100;time 1;dir /a_name_of_fifteen 755 0:0|/a_name_of_fifteen: a name above 14 bytes
1|volume 7 100;time 1;dir /d/../e 755 0:0|/d/../e: a name ..
1|volume 6 100;time 1;dir /d 755 256:0|/d: an owner or a group above the edition's highest
1|volume 7 100;time 1;file /f 644 0:0 files/hello;dir /f 755 0:0|17 Exists: /f
1|volume 7 100;time 1;link /l /none|2 NoEntry: /l
1|volume 7 20 2;time 1;file /f 644 0:0 files/large|28 NoSpace: /f
3|volume 7 100;time 1;boot none|cannot read lists/none
3|volume 7 100;time 1;file /f 644 0:0 files/none|cannot read lists/files/none
3|volume 7 100;time 1;file /f 644 0:0 /none|cannot read /none
END
refuses 3 'unixvol: cannot read lists/none.list' build lists/none.list volumes/kept
refuses 3 'unixvol: cannot write volumes/kept' build --new lists/empty.list volumes/kept
refuses 3 'unixvol: cannot write lists/empty.list' build lists/empty.list lists/empty.list
saves 'a file where no volume was built' volumes/kept <(echo kept)
has 'the files after all that' 'built.6 built.7 kept rk05' "$(ls volumes | paste -s -d ' ' -)"
prints none build lists/empty.list volumes/kept
saves 'a file that is replaced' volumes/kept volumes/rk05
misread 'error: the following required arguments were not provided' build lists/empty.list

echo "$passed passed, $failed failed"
[ "$failed" = 0 ]
