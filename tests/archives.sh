#!/usr/bin/env bash
# Runs `import` and `export` of the built program on archives of GNU tar and Python, and on images that aren't sound: checks what is made, the bytes
# that are written, and the refusals. `archives/README.md` says where the archives come from.
# Usage: tests/archives.sh PROGRAM. It prints a line for each row that fails, and ends with 'N passed, N failed'.
archives=$(realpath "$(dirname "$0")/archives")
. "$(dirname "$0")/rows.sh"

# imports EDITION IMAGE ARCHIVE [PATH]: the program imports the archive at time 2000, below the root or PATH, and prints nothing
imports() {
    "$program" import "$1" "$2" "${4-/}" 2000 < "$archives/$3.tar" > output 2> error
    echo $? > status
    wants "import of $3.tar into edition $1" 0 none none
}

# unimported LINE EDITION ARCHIVE [PATH]: the program refuses to import the archive in this file into `disk.img`, for the reason in LINE
unimported() {
    printf '%s\n' "$1" > line
    "$program" import "$2" disk.img "${4-/}" 2000 < "$3" > output 2> error
    echo $? > status
    wants "import of ${3##*/} into edition $2" 1 none line
}

# ends ARCHIVE: the program imports the archive in this file, and makes the same with two blocks of zeros after the archive
ends() {
    cat "$1" end.tar > ended.tar
    for name in "$1" ended.tar; do
        cp blank.v7 "$name.img"
        "$program" import 7 "$name.img" / 2000 < "$name" > output 2> error
        echo $? > status
        wants "import of $1, in $name" 0 none none
    done
    saves "the image of $1" "$1.img" ended.tar.img
}

# exports LABEL STATUS ERROR EDITION IMAGE: the program writes an archive to `output`, and this text to standard error
exports() {
    runs export "$4" "$5" ''
    has "the status of an export of $1" "$2" "$(cat status)"
    has "what is said of an export of $1" "$3" "$(cat error)"
}

# played EDITION IMAGE LINE..: IMAGE is the blank volume after the calls in the lines, `NOW UID GID CALL` each; all are accepted
played() {
    cp "blank.v$1" "$2"
    printf "%b\n" "${@:3}" > script
    "$program" play "$1" "$2" script > output 2> error
    has "the status of a play in edition $1" 0 "$?$(cat error)"
}

# number EDITION IMAGE PATH: the i-number at a path
number() { "$program" ls -d "$1" "$2" "$3" | awk 'NR == 1 { print $1 }'; }

# listed EDITION IMAGE [PATH]: everything below the root or PATH, without i-numbers and without `.` and `..`
listed() { "$program" ls -lR "$1" "$2" "${3:-/}" | sed -E 's/^ *[0-9]+ //; s/ +/ /g' | grep -v ' \.\.*$'; }

# lists LABEL FILE EDITION IMAGE [PATH]: this listing is the one in FILE
lists() {
    listed "${@:3}" > output
    cmp -s output "$2"
    has "$1" 0 $?
}

# volume_time EDITION IMAGE: the time of the super-block
volume_time() { "$program" super "$1" "$2" | awk '$1 == "time" { print $2 }'; }

# node_at EDITION I: the offset of i-node I
node_at() { echo $((1024 + ($1 == 6 ? 32 : 64) * ($2 - 1))); }

# digits BYTES: escapes of bytes as hexadecimal digits, as in a script
digits() { printf '%b' "$1" | od -An -v -tx1 | tr -d ' \n'; }

# entry_for IMAGE NAME I: the first entry with this name is for i-number I
entry_for() {
    local at
    at=$(LC_ALL=C grep -abo "$2" "$1" | head -n 1 | cut -d : -f 1)
    put "$1" $((at - 2)) "$(printf '%02x%02x' $(($3 % 256)) $(($3 / 256)))"
}

for edition in 6 7; do
    "$program" mkfs "$edition" "blank.v$edition" 300 8 0 0 1000
done
nested=p23456789abcde
eight=$(printf "/$nested%.0s" 1 2 3 4 5 6 7 8)

# `export` writes a tree byte for byte as GNU tar does. The calls are made as user 3 and group 5, except those for the bytes, which user 0 writes.
mapfile -t nest < <(path=; for _ in 1 2 3 4 5 6 7 8; do path=$path/$nested; echo "1000 3 5 mkdir $path 755"; done)
tree=(
    '1000 3 5 create /\xff\xfe 4755'
    "1000 0 0 write /\\xff\\xfe 0 $(printf '7a%.0s' $(seq 513))"
    '1000 3 5 mkdir /d 755'
    '1000 3 5 create /d/abcdefghijklmn 644'
    "1000 0 0 write /d/abcdefghijklmn 0 $(digits fourteen)"
    '1000 3 5 create /d/e 644'
    '1000 3 5 create /big 644'
    "1000 0 0 write /big 5000 $(digits x)"
    '1000 3 5 create /a.txt 644'
    "1000 0 0 write /a.txt 0 $(digits 'hello\n')"
    '1000 3 5 link /a.txt /d/link'
    '1000 3 5 create /null 666'
    '1000 3 5 create /disk 600'
    "${nest[@]}"
    "1000 3 5 create $eight/deep 644"
    "1000 0 0 write $eight/deep 0 $(digits 'deep\n')"
)
for edition in 6 7; do
    played "$edition" "tree.v$edition" "${tree[@]}"
    # The special files: character device 2, 3 and block device 1, 7.
    null=$(node_at "$edition" "$(number "$edition" "tree.v$edition" /null)")
    disk=$(node_at "$edition" "$(number "$edition" "tree.v$edition" /disk)")
    if [ "$edition" = 6 ]; then
        put tree.v6 "$null" 'B6 A1'
        put tree.v6 $((null + 8)) '03 02'
        put tree.v6 "$disk" '80 E1'
        put tree.v6 $((disk + 8)) '07 01'
    else
        put tree.v7 "$null" 'B6 21'
        put tree.v7 $((null + 12)) '00 03 02'
        put tree.v7 "$disk" '80 61'
        put tree.v7 $((disk + 12)) '00 07 01'
    fi
    prints "$archives/tree.tar" export "$edition" "tree.v$edition" ''
done

# An output that fails has a prefix of the archive, up to the failure.
for limit in 0 1 511 512 518 6000 17408 17919; do
    said=$(trap '' XFSZ; prlimit --fsize="$limit" "$program" export 7 tree.v7 / 2>&1 > front; echo $?)
    cmp -s -n "$limit" front "$archives/tree.tar"
    has "an archive whose output fails after $limit bytes" "unixvol: cannot write - 3 $limit 0" "${said//$'\n'/ } $(stat -c %s front) $?"
done
(sleep 0.3; "$program" export 7 tree.v7 / 2> error; echo $? > status) | true
has 'an archive to a pipe that nobody reads' '3 unixvol: cannot write -' "$(cat status error | paste -s -d ' ' -)"

# Paths that lead to no directory.
refuses 1 'unixvol: 20 NotDirectory' export 6 tree.v6 /a.txt
refuses 1 'unixvol: 2 NoEntry' export 6 tree.v6 /x
refuses 1 'unixvol: unsound, rule 1' export 6 none ''

# Images that aren't sound: a directory that contains itself and the root, an entry for a free i-node, and one past the last.
for edition in 6 7; do
    played "$edition" ring.img '1000 3 5 mkdir /d 755' '1000 3 5 create /d/ring_itself 644' '1000 3 5 create /d/ring_root 644' \
        '1000 3 5 create /d/the_last 644' '1000 3 5 create /d/free 644' '1000 3 5 create /kept 644'
    free=$(number "$edition" ring.img /d/free)
    lost=$(for name in ring_itself ring_root the_last; do
        echo "unixvol: i-node $(number "$edition" ring.img "/d/$name"): a file of 0 bytes, which nothing names"
    done | sort -V)
    entry_for ring.img ring_itself "$("$program" ls "$edition" ring.img / | awk '$2 == "d" { print $1 }')"
    entry_for ring.img ring_root $((edition - 5))
    entry_for ring.img the_last 60000
    put ring.img "$(node_at "$edition" "$free")" '00 00'
    exports 'a ring' 1 'unixvol: d/free: no i-node
unixvol: d/ring_itself: a directory that was met before
unixvol: d/ring_root: a directory that was met before
unixvol: d/the_last: no i-node
'"$lost"'
unixvol: unsound, rule 9' "$edition" ring.img
    has 'the members beside a ring' 'drwxr-xr-x d/ -rw-r--r-- kept' "$(tar -tvf output | awk '{ print $1, $6 }' | paste -s -d ' ' -)"
done

# Paths that don't fit in a header: sixteen nested directories fit, and the next two don't. Links to such paths, which come before and after them.
path=
lines=()
for _ in $(seq 18); do
    path=$path/$nested
    lines+=("1000 3 5 mkdir $path 755")
done
played 7 deep.img "${lines[@]}" "1000 3 5 create $path/deep 644" "1000 0 0 write $path/deep 0 $(digits 'deep\n')" \
    "1000 0 0 link $path/deep /zdeep" "1000 0 0 link $path/deep $path/deeper"
exports 'a long path' 0 '' 7 deep.img
cp output deep.tar
has 'the members of long paths' 21 "$(tar -tf deep.tar | wc -l)"
has 'the members of long paths, as Python reads them' 21 "$(python3 -c 'import sys, tarfile; print(len(tarfile.open(sys.argv[1]).getnames()))' deep.tar)"
has 'the bytes at a long path' deep "$(tar -xOf deep.tar "${path#/}/deep")"
has 'a link to a long path' "h ${path#/}/deep" "$(tar -tvf deep.tar zdeep | sed 's/^\(.\).* link to /\1 /')"
has 'the headers of pax' 5 "$(LC_ALL=C grep -abo '././@PaxHeader' deep.tar | wc -l)"
tar -tf deep.tar | sed 's,/$,,; s,^,/,' > deep_names
for edition in 6 7; do
    cp "blank.v$edition" deep_again.img
    "$program" import "$edition" deep_again.img / 2000 < deep.tar > output 2> error
    has "an import of long paths into edition $edition" 0 "$?$(cat error)"
    exports 'long paths that were imported' 0 '' "$edition" deep_again.img
    saves 'an archive of long paths, imported and exported' output deep.tar
    prints deep_names find "$edition" deep_again.img
done

# A path above 4,096 bytes isn't followed: 273 nested directories fit, and the next doesn't.
"$program" mkfs 7 far.img 600 40 0 0 1000
path=
for _ in $(seq 274); do
    path=$path/$nested
    echo "1000 3 5 mkdir $path 755"
done > script
"$program" play 7 far.img script > output 2> error
has 'a volume with a path above 4,096 bytes' 0 "$?$(cat error)"
echo "unixvol: ${path#/}: a path above 4096 bytes" > line
"$program" find 7 far.img > output 2> error
has 'the status of find where a path is too long' 5 $?
cmp -s error line
has 'what find says of a path that is too long' 0 $?
has 'the paths up to one that is too long' 274 "$(wc -l < output)"
exports 'a path that is too long' 1 "$(cat line)" 7 far.img
has 'the members above a path that is too long' 273 "$(tar -tf output | wc -l)"
"$program" export --status 7 far.img > output 2> error
has 'the graded status where a path is too long' 5 $?
"$program" sums 7 far.img > output 2> error
has 'the status of a manifest where a path is too long' 1 $?
cmp -s error line
has 'what sums says of a path that is too long' 0 $?

# An i-node with a mode that is none of the edition's.
played 7 odd.img '1000 3 5 create /odd 644'
put odd.img "$(node_at 7 "$(number 7 odd.img /odd)")" 'A4 11'
exports 'an i-node of no kind' 1 'unixvol: odd: an i-node of no known kind
unixvol: unsound, rule 3' 7 odd.img

# A root whose i-node is free, or a file's: with --lost everything that is left is exported, with the names that directories give, and the root's bytes
# if it is a file.
for edition in 6 7; do
    played "$edition" rooted.img '1000 3 5 mkdir /d 755' '1000 3 5 create /d/file 644' "1000 0 0 write /d/file 0 $(digits 'rescued\n')" \
        '1000 3 5 mkdir /d/in 755' '1000 3 5 create /d/in/deep 644' '1000 3 5 create /top 644'
    root=$((edition - 5))
    d=$(number "$edition" rooted.img /d)
    top=$(number "$edition" rooted.img /top)
    for mode in '00 00' 'A4 81'; do
        cp rooted.img rootless.img
        put rootless.img "$(node_at "$edition" "$root")" "$mode"
        left="lost+found/#$top lost+found/#$d/ lost+found/#$d/file lost+found/#$d/in/ lost+found/#$d/in/deep"
        lines="unixvol: i-node $top: a file of 0 bytes, which nothing names, rescued as lost+found/#$top
unixvol: i-node $d: a directory with 4 entries, which nothing names, rescued as lost+found/#$d"
        if [ "$mode" = 'A4 81' ]; then
            left="$left lost+found/#$root"
            lines="$lines
unixvol: i-node $root: a file of 64 bytes, which is out of reach, rescued as lost+found/#$root"
        fi
        refuses 1 'unixvol: 20 NotDirectory' export "$edition" rootless.img ''
        "$program" export --lost "$edition" rootless.img > output 2> error
        has 'the status of what is left without a root' 1 $?
        has 'what is left without a root' "$left" "$(tar -tf output | paste -s -d ' ' -)"
        has 'the bytes of a file that is left without a root' rescued "$(tar -xOf output "lost+found/#$d/file")"
        if [ "$mode" = 'A4 81' ]; then
            tar -xOf output "lost+found/#$root" > bytes
            at=$((512 * $("$program" inode "$edition" rooted.img "$root" | awk '$1 == "addr" { print $2 }')))
            dd if=rooted.img bs=1 skip="$at" count=64 status=none | cmp -s - bytes
            has 'the bytes of a root that is a file' 0 $?
        fi
        has 'what is said of it' "$lines" "$(head -n -1 error)"
        has 'the rule that it breaks' 'unixvol: unsound, rule' "$(tail -n 1 error | sed 's/ [0-9]*$//')"
        cp error told
        for command in sums find; do refuses 1 'unixvol: 20 NotDirectory' "$command" "$edition" rootless.img; done
        "$program" sums --lost "$edition" rootless.img > output 2> error
        has 'the status of a manifest of what is left' 1 $?
        cmp -s error told
        has 'what is said of it with a manifest' 0 $?
        has 'a manifest of what is left' "$(echo "$left" | sed 's,/\( \|$\),\1,g')" "$(awk '{ print $NF }' output | paste -s -d ' ' -)"
        has 'the sum of a file that is left' "$(echo rescued | sha256sum | cut -c 1-64)" "$(sed -n 3p output | cut -c 1-64)"
        "$program" find --lost "$edition" rootless.img > output 2> error
        has 'the status and the errors of find of what is left' '0 0' "$? $(wc -c < error)"
        has 'what find finds of what is left' "$(echo "$left" | sed 's,/\( \|$\),\1,g; s,lost,/lost,g')" "$(paste -s -d ' ' output)"
    done
done

# A ring of directories to which nothing leads from the root, of two directories or one: /p/q/up is /p, and the root's entry for /p is empty.
# slot EDITION IMAGE PATH SLOT: the position of this slot of a directory that has one block
slot() { echo $((512 * $("$program" inode "$1" "$2" "$3" | awk '$1 == "addr" { print $2 }') + 16 * $4)); }
# rescues LABEL EDITION IMAGE PATHS MEMBERS LINES: with --lost these members are in the archive, these paths are found, and these lines are told
rescues() {
    "$program" export --lost "$2" "$3" > rescued.tar 2> error
    has "the status of an export of $1" 1 $?
    has "the members of $1" "$5" "$(tar -tf rescued.tar | paste -s -d ' ' -)"
    has "what is told of $1" "$6" "$(grep -v 'unsound, rule' error)"
    has "the rule that $1 breaks" 1 "$(grep -c 'unsound, rule' error)"
    cp error told
    "$program" sums --lost "$2" "$3" > manifest 2> error
    has "the status of a manifest of $1" 1 $?
    cmp -s error told
    has "what is told of a manifest of $1" 0 $?
    has "the paths in a manifest of $1" "$(echo "$5" | sed 's,lost+found/ ,lost+found ,; s,/\( \|$\),\1,g')" "$(awk '{ print $NF }' manifest | paste -s -d ' ' -)"
    "$program" find --lost "$2" "$3" > output 2> error
    has "the status and the errors of find of $1" '0 0' "$? $(wc -c < error)"
    has "what find finds of $1" "$4" "$(paste -s -d ' ' output)"
}
for edition in 6 7; do
    played "$edition" ring.img '1000 3 5 mkdir /p 755' '1000 3 5 mkdir /p/q 755' '1000 3 5 create /p/q/file 644' \
        "1000 0 0 write /p/q/file 0 $(digits 'in a ring\n')" '1000 0 0 link /p/q/file /p/q/up'
    p=$(number "$edition" ring.img /p) q=$(number "$edition" ring.img /p/q) f=$(number "$edition" ring.img /p/q/file)
    put ring.img "$(slot "$edition" ring.img /p/q 3)" "$(printf '%02X 00' "$p")"
    put ring.img "$(slot "$edition" ring.img / 2)" '00 00'
    # The least i-number comes first: the file, then /p/q, which has the file as a further name, and /p as `up`.
    at="lost+found/#$q"
    rescues 'a ring of two directories' "$edition" ring.img "/lost+found /lost+found/#$f /$at /$at/file /$at/up /$at/up/q" \
        "lost+found/ lost+found/#$f $at/ $at/file $at/up/" \
        "unixvol: $at/up/q: a directory that was met before
unixvol: i-node $f: a file of 10 bytes, which is out of reach, rescued as lost+found/#$f
unixvol: i-node $q: a directory with 4 entries, which is out of reach, rescued as $at"
    has 'the bytes of a file in a ring' 'in a ring' "$(tar -xOf rescued.tar "lost+found/#$f")"
    has 'a further name of a file in a ring' "$at/file link to lost+found/#$f" "$(tar -tvf rescued.tar | grep -o "$at/file link.*")"
    has 'the sum of a file in a ring' "$(echo 'in a ring' | sha256sum | cut -c 1-64)" "$(awk -v name="lost+found/#$f" '$NF == name { print $1 }' manifest)"

    played "$edition" ring.img '1000 3 5 mkdir /s 755' '1000 3 5 create /s/me 644' '1000 3 5 create /s/file 644' '1000 0 0 link /s/file /kept' \
        '1000 0 0 unlink /s/me' '1000 0 0 link /s/file /s/me'
    s=$(number "$edition" ring.img /s)
    put ring.img "$(slot "$edition" ring.img /s 2)" "$(printf '%02X 00' "$s")"
    put ring.img "$(slot "$edition" ring.img / 2)" '00 00'
    at="lost+found/#$s"
    rescues 'a directory that only it names' "$edition" ring.img "/kept /lost+found /$at /$at/file /$at/me" "kept lost+found/ $at/ $at/file" \
        "unixvol: $at/me: a directory that was met before
unixvol: i-node $s: a directory with 4 entries, which is out of reach, rescued as $at"
done

# A name with a slash.
played 6 slash.img '1000 3 5 create /up_and_over 644'
put slash.img "$(LC_ALL=C grep -abo up_and_over slash.img | head -n 1 | cut -d : -f 1)" "$(digits ../..)"
exports 'a name with a slash' 1 'unixvol: ../..d_over: the name is empty or has a slash
unixvol: unsound, rule 9' 6 slash.img
image end.tar 1024
saves 'an archive without members' output end.tar

# A first member `n/./`, as GNU tar writes it of `.` under another name, is the same as `n/`.
mkdir -p dots/in
echo one > dots/in/one
chmod 750 dots
for names in 's,^,n/,' 's,^\.,n,'; do
    tar --owner=3 --group=5 --mtime=@1000000000 --sort=name --transform "$names" -cf named.tar -C dots .
    for edition in 6 7; do
        cp "blank.v$edition" named.img
        "$program" import "$edition" named.img / 2000 < named.tar > output 2> error
        has "an import of names by $names into edition $edition" 0 "$?$(cat error)"
        listed "$edition" named.img > "named.$edition"
        [ "$names" = 's,^,n/,' ] && cp "named.$edition" "dotted.$edition"
    done
done
for edition in 6 7; do
    cmp -s "named.$edition" "dotted.$edition"
    has "a tree from n/./ in edition $edition" 0 $?
    has "a directory from n/./ in edition $edition" drwxr-x--- "$(awk '$NF == "n" { print $1 }' "dotted.$edition")"
done

# Archives of GNU tar in three formats, imported. The ustar one is exported again byte for byte; the others make the same image.
mkdir wanted
{ printf x; head -c 598 /dev/zero; printf y; } > wanted/big
printf 'hello\n' > wanted/hello.txt
printf 'deep\n' > wanted/deep
printf 'far\n' > wanted/far
: > wanted/empty
for edition in 6 7; do
    for format in plain gnu extended; do
        list=$archives/gnu.ls
        [ "$format" = plain ] && list=$archives/plain.ls
        cp "blank.v$edition" "$format.img"
        imports "$edition" "$format.img" "$format"
        lists "the tree of $format.tar in edition $edition" "$list" "$edition" "$format.img"
        has "the second name in $format.tar" "$(number "$edition" "$format.img" /dir/link)" "$(number "$edition" "$format.img" /hello.txt)"
        # The i-node and the root have the times of the links.
        [ "$edition" = 7 ] && has "the moment of a link in $format.tar" '"ctime":1000000000' \
            "$("$program" inode --json 7 "$format.img" "$(number 7 "$format.img" /hello.txt)" | grep -o '"ctime":[0-9]*')"
        has "the moment of the root after $format.tar" '2001-09-09 01:46:40' "$("$program" ls -l "$edition" "$format.img" / | awk '$NF == "." { print $7, $8 }')"
        rm -rf got
        mkdir got
        prints none get -o got "$edition" "$format.img" /dir/big /hello.txt /dir/sub/deep /empty "$eight/far"
        has "the files of $format.tar" '' "$(diff -r got wanted)"
        if [ "$format" != plain ]; then
            has "the second name by a long path in $format.tar" "$(number "$edition" "$format.img" "$eight/far")" "$(number "$edition" "$format.img" /zfar)"
            prints wanted/far get "$edition" "$format.img" /zfar
        fi
    done
    saves 'the image of an archive with headers of pax' extended.img gnu.img
    prints "$archives/plain.tar" export "$edition" plain.img ''
done

# Headers of files in both formats, and blocks that aren't headers.
for format in posix gnu; do
    cp blank.v7 disk.img
    imports 7 disk.img "${format}_file"
    printf '/:\n-rw-r----- 1 3 5 6 2001-09-09 01:46:40 readme\n' > list
    lists "the file of ${format}_file.tar" list 7 disk.img
done
cp blank.v7 disk.img
while read -r fault place bytes; do
    changed "$archives/gnu_file.tar" edited.tar "$place" "$(digits "$bytes")"
    case $fault in
        checksum) text='archive, byte 0: a header with a wrong checksum' ;;
        magic) text='archive, byte 0: no header of tar' ;;
        number) text='readme: a header with a field that is no number' ;;
    esac
    unimported "unixvol: $text" 7 edited.tar
done << 'ROWS'
checksum 0 R
checksum 148 010573
checksum 148 01057x
magic 263 00
magic 257 \x00\x00\x00\x00\x00\x00
checksum 257 \x00\x00\x00\x00\x00\x00\x00
number 124 0000000000x\x0007346545000\x00010674\x00\x20
ROWS
saves 'an image into which no header was imported' disk.img blank.v7

# Records of pax on sparse files, by hand: a path after the file's own, which doesn't replace it; and a map for all later members.
cat > sparse.py << 'PYTHON'
import tarfile

def records(pairs):
    return b"".join(tarfile.TarInfo._create_pax_generic_header({key: value}, tarfile.XHDTYPE, "utf-8")[512:].rstrip(b"\0") for key, value in pairs)

def archive(name, kind, pairs):
    """Writes an archive of a header of pax with these records, in this order, and an empty file `ok`."""
    body = records(pairs)
    head = tarfile.TarInfo("pax")
    head.type, head.size = kind, len(body)
    with open(name, "wb") as file:
        file.write(head.tobuf(tarfile.USTAR_FORMAT) + body.ljust(-(-len(body) // 512) * 512, b"\0"))
        file.write(tarfile.TarInfo("ok").tobuf(tarfile.USTAR_FORMAT) + bytes(1024))

archive("named.tar", tarfile.XHDTYPE, [("GNU.sparse.name", "own"), ("path", "GNUSparseFile.1/own")])
archive("all.tar", tarfile.XGLTYPE, [("GNU.sparse.major", "1")])
PYTHON

for edition in 6 7; do
    # Directories that aren't members, and members that occur twice.
    cp "blank.v$edition" disk.img
    imports "$edition" disk.img ways
    cat > list << 'LIST'
/:
drwxr-xr-x 3 0 0 64 1970-01-01 00:16:40 src

/src:
-rw-r--r-- 1 0 0 2 1970-01-01 00:16:40 a.c
drwxr-xr-x 2 0 0 48 1970-01-01 00:16:40 lib

/src/lib:
-rw-r--r-- 1 0 0 2 1970-01-01 00:16:40 b.c
LIST
    lists 'directories on the way' list "$edition" disk.img
    printf 'a\n' > a.c
    printf 'b\n' > b.c
    prints a.c get "$edition" disk.img /src/a.c
    prints b.c get "$edition" disk.img /src/lib/b.c
    cp "blank.v$edition" disk.img
    imports "$edition" disk.img twice
    cat > list << 'LIST'
/:
drwxr-x--- 3 0 0 48 1970-01-01 00:16:40 src

/src:
drwx------ 2 0 0 48 1970-01-01 00:16:40 lib

/src/lib:
-rw-r--r-- 1 0 0 2 1970-01-01 00:16:40 b.c
LIST
    lists 'directories that come twice' list "$edition" disk.img
    prints b.c get "$edition" disk.img /src/lib/b.c
    # An existing directory stays; an existing file blocks a directory on the way.
    played "$edition" disk.img '1000 0 0 mkdir /src 711'
    imports "$edition" disk.img twice
    sed 's/^drwxr-x---/drwx--x--x/' list > stays
    lists 'a directory that stays' stays "$edition" disk.img
    played "$edition" disk.img '1000 0 0 create /src 644'
    cp disk.img before.img
    unimported 'unixvol: 17 Exists: /src' "$edition" "$archives/ways.tar"
    saves 'an image with a file in the place of a directory' disk.img before.img

    # Members that can't be made, archives that can't be read, and refusals of the calls.
    cp "blank.v$edition" disk.img
    while IFS='|' read -r name line; do
        unimported "unixvol: $line" "$edition" "$archives/$name.tar"
    done << 'ROWS'
symbolic|b: neither a file, a directory, a hard link nor a device
fifo|fifo: neither a file, a directory, a hard link nor a device
long|abcdefghijklmno: a name above 14 bytes
parent|../ok: a name ..
owner|ok: an owner or a group above the edition's highest
long_link|b: a link to a path with a name above 14 bytes
parent_link|b: a link to a path with a name ..
broken|archive, byte 0: records of pax that can't be read
given_owner|ok: an owner or a group above the edition's highest
great_owner|ok: an owner or a group above the edition's highest
given_owners|archive, byte 0: records of pax that can't be followed
given_paths|archive, byte 0: records of pax that can't be followed
ROWS
    # Sparse files, by the formats of GNU tar and bsdtar: each is told by its own path.
    for name in gnu pax_1 bsd; do unimported 'unixvol: dir/holes: a sparse file' "$edition" "$archives/sparse_$name.tar"; done
    for name in long pax pax_0; do unimported "unixvol: ${eight#/}/holes: a sparse file" "$edition" "$archives/sparse_$name.tar"; done
    python3 sparse.py
    unimported 'unixvol: own: a sparse file' "$edition" named.tar
    unimported "unixvol: archive, byte 0: records of pax that can't be followed" "$edition" all.tar
    changed "$archives/given_owner.tar" odd_owner.tar 519 78
    unimported "unixvol: archive, byte 0: records of pax that can't be read" "$edition" odd_owner.tar
    unimported 'unixvol: 2 NoEntry: /x/ok' "$edition" "$archives/ok.tar" /x
    saves 'an image into which nothing was imported' disk.img "blank.v$edition"
    imports "$edition" disk.img ok
    cp disk.img before.img
    unimported 'unixvol: 17 Exists: /ok' "$edition" "$archives/ok.tar"
    saves 'an image with a file of the same path' disk.img before.img
    # Headers without magic, as V7's tar writes them.
    for name in old spaced; do
        cp "blank.v$edition" disk.img
        imports "$edition" disk.img "$name"
        saves "the image of $name.tar" disk.img before.img
    done
    cp "blank.v$edition" disk.img
    imports "$edition" disk.img old_tree
    grep -v 'p23456789abcde\| far$' "$archives/plain.ls" | sed '/^$/d' > list
    listed "$edition" disk.img | sed '/^$/d' > output
    saves 'the tree of old_tree.tar' output list
    has 'the second name in old_tree.tar' "$(number "$edition" disk.img /dir/link)" "$(number "$edition" disk.img /hello.txt)"
    rm -rf got
    mkdir got
    prints none get -o got "$edition" disk.img /dir/big /hello.txt /dir/sub/deep /empty
    has 'the files of old_tree.tar' 'Only in wanted: far' "$(diff -r got wanted)"
    # Pax records of an owner and a group: the last of each counts, and an empty one keeps the header's.
    cp "blank.v$edition" disk.img
    imports "$edition" disk.img given_guest
    printf '/:\n-rw-r--r-- 1 3 0 0 1970-01-01 00:16:40 ok\n' > list
    lists 'an owner given by a record' list "$edition" disk.img
    # The label of an archive isn't a member, and a long name before it is the label's.
    for name in labelled label_named; do
        cp "blank.v$edition" disk.img
        imports "$edition" disk.img "$name"
        saves "the image of $name.tar" disk.img before.img
    done
    # A comment on all later members is skipped.
    cp "blank.v$edition" disk.img
    imports "$edition" disk.img commented
    printf 'x\n' > ok
    prints ok get "$edition" disk.img /ok
done

# Paths of members, made with Python: of 4,096 bytes and of one more, and with more directories on the way than the volume has i-nodes.
cat > make.py << 'PYTHON'
import sys, tarfile

def add(name, kind=tarfile.REGTYPE, link="", mode=0o755, numbers=(0, 0)):
    """Appends a member without bytes."""
    it = tarfile.TarInfo(name)
    it.type, it.linkname, it.mode = kind, link, mode
    it.devmajor, it.devminor = numbers
    archive.addfile(it)

with tarfile.open(sys.argv[1], "w", format=tarfile.PAX_FORMAT) as archive:
    what, last = sys.argv[2:]
    if what == "path":
        add("./" * 2047 + last)
    elif what == "link":
        add("first")
        add("second", tarfile.LNKTYPE, "./" * 2045 + last)
    elif what == "way":
        add("a/" * 2047 + last)
    elif what == "ways":
        for number in range(int(last)):
            add(f"d{number}/f")
    elif what == "directories":
        for number in range(int(last)):
            add(f"d{number}", tarfile.DIRTYPE)
    elif what == "base":
        add("/", tarfile.DIRTYPE)
        add(last, tarfile.DIRTYPE, mode=0o1711)
        add("f")
    elif what == "device":
        add("dev/tty", tarfile.CHRTYPE, mode=0o622, numbers=tuple(int(number) for number in last.split(",")))
        add("dev/rk", tarfile.BLKTYPE, mode=0o640, numbers=(0, 255))
    elif what == "name":
        add(last, tarfile.CHRTYPE, mode=0o622, numbers=(3, 5))
PYTHON

# damaged FILE AT BYTES: puts these eight bytes, as printf writes them, into the header of FILE's first member, whose checksum is made anew
damaged() {
    printf "$3" | dd of="$1" bs=1 seek="$2" conv=notrunc status=none
    python3 - "$1" << 'PYTHON'
import sys
data = bytearray(open(sys.argv[1], "rb").read())
data[148:156] = b" " * 8
data[148:156] = b"%06o\0 " % sum(data[:512])
open(sys.argv[1], "wb").write(data)
PYTHON
}

dots=$(printf './%.0s' $(seq 2045))
for edition in 6 7; do
    inodes=$((edition == 6 ? 128 : 64))
    cp "blank.v$edition" disk.img
    python3 make.py longest.tar path ok
    python3 make.py linked.tar link /first
    for name in longest linked; do
        "$program" import "$edition" disk.img / 2000 < "$name.tar" > output 2> error
        echo $? > status
        wants "import of a path of 4096 bytes, $name.tar, into edition $edition" 0 none none
    done
    has 'what paths of 4096 bytes make' 'first ok second' "$("$program" ls "$edition" disk.img / | awk '$2 !~ /^\./ { print $NF }' | sort | paste -s -d ' ' -)"
    cp "blank.v$edition" disk.img
    python3 make.py longer.tar path okk
    unimported "unixvol: $dots././okk: a path above 4096 bytes" "$edition" longer.tar
    python3 make.py linked.tar link ././first
    unimported 'unixvol: second: a link to a path above 4096 bytes' "$edition" linked.tar
    python3 make.py way.tar way ab
    unimported "unixvol: 103 NoInode: /${dots//./a}a/a/ab" "$edition" way.tar
    python3 make.py ways.tar ways 1000
    unimported "unixvol: 103 NoInode: /d$inodes/f" "$edition" ways.tar
    python3 make.py directories.tar directories 1000
    unimported "unixvol: 103 NoInode: /d$((inodes + 1))/" "$edition" directories.tar
    # With fewer, the calls report what is missing: i-nodes, or links of the root, of which the sixth edition has 127 at most.
    python3 make.py directories.tar directories "$inodes"
    refusal='103 NoInode: /d62/'
    [ "$edition" = 6 ] && refusal='31 TooManyLinks: /d125/'
    unimported "unixvol: $refusal" "$edition" directories.tar
    saves 'an image without a member whose path is too long' disk.img "blank.v$edition"
done

# Directories that come after their contents, as `find -depth` lists them: they get their permissions and owner; the last member for one counts.
mkdir -p dd/sub
printf 'f\n' > dd/sub/f
touch -d @1500 dd/sub/f
touch -d @1600 dd/sub
touch -d @1700 dd
chmod 640 dd/sub/f
chmod 2751 dd/sub
chmod 700 dd
find dd -depth | tar --format=ustar --owner=3 --group=4 --numeric-owner --no-recursion -T - -cf depth.tar
cp depth.tar again.tar
chmod 1755 dd
tar --format=ustar --owner=0 --group=0 --numeric-owner --no-recursion -rf again.tar dd
for edition in 6 7; do
    cat > list << 'LIST'
/:
drwx------ 3 3 4 48 dd

/dd:
drwxr-s--x 2 3 4 48 sub

/dd/sub:
-rw-r----- 1 3 4 2 f
LIST
    played "$edition" there.img '1000 5 6 mkdir /dd 711'
    for name in depth again there; do
        archive=depth
        [ "$name" = again ] && archive=again
        [ "$name" = there ] || cp "blank.v$edition" "$name.img"
        "$program" import "$edition" "$name.img" / 2000 < "$archive.tar" > output 2> error
        echo $? > status
        wants "import of $archive.tar into $name.img of edition $edition" 0 none none
        case $name in
            again) sed -i 's/^drwx------ 3 3 4/drwxr-xr-t 3 0 0/' list ;;
            there) sed -i 's/^drwxr-xr-t 3 0 0/drwx--x--x 3 5 6/' list ;;
        esac
        has "directories after their contents, $name.img of edition $edition" "$(cat list)" "$(listed "$edition" "$name.img" | sed -E 's/ [-0-9]{10} [0-9:]{8}//')"
    done
done

# An import sets the volume's time, by a call that keeps the permissions of the directory below which it works.
for edition in 6 7; do
    played "$edition" disk.img '1000 5 6 mkdir /d 1751'
    "$program" import "$edition" disk.img /d 2000 < depth.tar > output 2> error
    echo $? > status
    wants "import of depth.tar into /d of edition $edition" 0 none none
    has "the time of a volume of edition $edition after an import" 2000 "$(volume_time "$edition" disk.img)"
    has "the directory of an import into edition $edition" 'drwxr-x--t 3 5 6' "$("$program" ls -l "$edition" disk.img / | awk '$NF == "d" { print $2, $3, $4, $5 }')"
    cp disk.img before.img
    "$program" import "$edition" disk.img /d 3000 < end.tar > output 2> error
    echo $? > status
    wants "import of an archive without members into edition $edition" 0 none none
    saves 'an image into which no member was imported' disk.img before.img
    # The directory doesn't exist, and members for it make it.
    python3 make.py base.tar base ./
    "$program" import "$edition" disk.img /new 3000 < base.tar > output 2> error
    echo $? > status
    wants "import of base.tar into /new of edition $edition" 0 none none
    has "the time of a volume of edition $edition after an import with its directory" 3000 "$(volume_time "$edition" disk.img)"
    has "the directory of an import into edition $edition that it makes" 'drwx--x--t 2 0 0' "$("$program" ls -l "$edition" disk.img / | awk '$NF == "new" { print $2, $3, $4, $5 }')"
done

# special EDITION IMAGE PATH: the mode, the links, the owner, the numbers and the time of a special file, its first address, and the sum of the others
special() {
    "$program" ls -l "$1" "$2" "$3" | sed 's/, */,/' | awk '{ print $2, $3, $4, $5, $6, $7, $8 }'
    "$program" inode "$1" "$2" "$3" | awk '$1 == "addr" { for (k = 3; k <= NF; k++) rest += $k; print $2, rest + 0 }'
}

# Special files are made with their numbers, and links to them; an export and an import into either edition keep them. With the option they are left out, in the
# order of the archive, and the rest is made.
for edition in 6 7; do
    cp "tree.v$edition" pack.img
    played_on() { printf '%b\n' "${@:3}" > script; "$program" play "$1" "$2" script > output 2> error; has "the status of a play on $2" 0 "$?$(cat error)"; }
    played_on "$edition" pack.img '1000 3 5 mkdir /dev 755' '1000 3 5 link /null /dev/null'
    "$program" export "$edition" pack.img > pack.tar
    for other in 6 7; do
        cp "blank.v$other" disk.img
        "$program" import "$other" disk.img / 2000 < pack.tar > output 2> error
        echo $? > status
        wants "import of a pack of edition $edition with special files into edition $other" 0 none none
        "$program" export "$other" disk.img > again.tar
        saves "the archive of a pack of edition $edition that went into edition $other" again.tar pack.tar
        "$program" check "$other" disk.img > output
        has "a sound volume of edition $other with special files" 0 $?
        for path in /null /dev/null /disk; do
            has "$path of edition $edition in edition $other" "$(special "$edition" pack.img "$path")" "$(special "$other" disk.img "$path")"
        done
        has "another name of a special file in edition $other" "$(number "$other" disk.img /null)" "$(number "$other" disk.img /dev/null)"
    done
    # The greatest numbers, and greater ones.
    cp "blank.v$edition" disk.img
    python3 make.py device.tar device 255,255
    "$program" import "$edition" disk.img / 2000 < device.tar > output 2> error
    echo $? > status
    wants "import of devices into edition $edition" 0 none none
    has "the devices of edition $edition" 'crw--w--w- 255,255 brw-r----- 0,255' \
        "$(for path in /dev/tty /dev/rk; do "$program" ls -l "$edition" disk.img "$path" | sed 's/, */,/' | awk '{ print $2, $6 }'; done | paste -s -d ' ' -)"
    cp "blank.v$edition" disk.img
    for numbers in 256,0 0,256; do
        python3 make.py device.tar device "$numbers"
        unimported 'unixvol: dev/tty: a major or minor number above 255' "$edition" device.tar
    done
    # Numbers that are none are refused, also if special files are left out; numbers of base 256 are read. A name isn't cut, and what is there stays.
    for field in 'xxxxxxxx' '\377\377\377\377\377\377\377\377'; do
        python3 make.py device.tar device 3,5
        damaged device.tar 329 "$field"
        unimported 'unixvol: dev/tty: a header with a field that is no number' "$edition" device.tar
    done
    "$program" import --skip-special "$edition" disk.img / 2000 < device.tar > output 2> error
    has "unreadable numbers of a device that is left out, edition $edition" '1 unixvol: dev/tty: a header with a field that is no number' "$? $(cat error)"
    python3 make.py device.tar name fifteen_bytes_1
    unimported 'unixvol: fifteen_bytes_1: a name above 14 bytes' "$edition" device.tar
    saves 'an image into which no device was imported' disk.img "blank.v$edition"
    python3 make.py device.tar device 3,5
    damaged device.tar 329 '\200\0\0\0\0\0\0\7'
    damaged device.tar 337 '\0\0\0\0\0\0\0\0'
    "$program" import "$edition" disk.img / 2000 < device.tar
    has "a number of base 256, and an empty field, edition $edition" '7,0' "$("$program" ls -l "$edition" disk.img /dev/tty | sed 's/, */,/' | awk '{ print $6 }')"
    cp disk.img taken.img
    "$program" import "$edition" taken.img / 2000 < device.tar > output 2> error
    has "a device where one is, edition $edition" '1 unixvol: 17 Exists: /dev/tty' "$? $(cat error)"
    python3 make.py device.tar name dev
    "$program" import "$edition" taken.img / 2000 < device.tar > output 2> error
    has "a device where a directory is, edition $edition" '1 unixvol: 17 Exists: /dev' "$? $(cat error)"
    saves "a volume whose names are taken" taken.img disk.img
    cp "blank.v$edition" disk.img
    cp disk.img copy.img
    "$program" import --skip-special "$edition" copy.img / 2000 < pack.tar > output 2> error
    echo $? > status
    printf '%s\n' 'unixvol: dev/null: a special file, left out' 'unixvol: disk: a special file, left out' 'unixvol: null: a special file, left out' > line
    wants "import of a pack with special files into edition $edition" 0 none line
    "$program" rm "$edition" pack.img /null 2000
    "$program" rm "$edition" pack.img /dev/null 2000
    "$program" rm "$edition" pack.img /disk 2000
    "$program" export "$edition" pack.img > wanted.tar
    "$program" export "$edition" copy.img > output.tar
    python3 - << 'PYTHON' > output
import tarfile
def of(name):
    return [(m.name, m.type, m.mode, m.uid, m.gid, m.size, m.linkname, a.extractfile(m).read() if m.isreg() else b"") for a in [tarfile.open(name)] for m in a]
print(of("wanted.tar") == of("output.tar"))
PYTHON
    has "the copy of a pack without its special files, edition $edition" True "$(cat output)"
    # A FIFO alone: the volume stays as it is, byte for byte.
    cp "blank.v$edition" copy.img
    "$program" import --skip-special "$edition" copy.img < "$archives/fifo.tar" > output 2> error
    echo $? > status
    echo 'unixvol: fifo: a special file, left out' > line
    wants "import of fifo.tar into edition $edition" 0 none line
    saves 'an image into which no FIFO was imported' copy.img "blank.v$edition"
    # A symbolic link stays a fault, and then nothing is told of what would be left out.
    cp "blank.v$edition" copy.img
    { head -c 512 "$archives/fifo.tar"; cat "$archives/symbolic.tar"; } > both.tar
    "$program" import --skip-special "$edition" copy.img < both.tar > output 2> error
    echo $? > status
    echo 'unixvol: b: neither a file, a directory, a hard link nor a device' > line
    wants "import of a FIFO and a symbolic link into edition $edition" 1 none line
    saves 'an image into which no symbolic link was imported' copy.img "blank.v$edition"
    # Without special files the option changes nothing.
    cp "blank.v$edition" disk.img
    cp "blank.v$edition" copy.img
    imports "$edition" disk.img plain
    "$program" import --skip-special "$edition" copy.img / 2000 < "$archives/plain.tar" > output 2> error
    echo $? > status
    wants "import of plain.tar into edition $edition, without special files" 0 none none
    saves 'an image into which no special file could be imported' copy.img disk.img
    # All members are one owner's; a directory that exists keeps its own.
    played "$edition" copy.img '1000 9 9 mkdir /dir 700'
    "$program" import --owner 3:255 "$edition" copy.img / 2000 < "$archives/old_tree.tar" > output 2> error
    echo $? > status
    wants "import of old_tree.tar with an owner into edition $edition" 0 none none
    has "the owners of all members, edition $edition" '1 9 9
6 3 255' "$(listed "$edition" copy.img | awk 'NF > 7 { print $3, $4 }' | sort | uniq -c | sed 's/^ *//' | sort)"
    # An owner above the edition's highest is a fault of the first member.
    cp "blank.v$edition" disk.img
    cp "blank.v$edition" before.img
    "$program" import --owner 65535:0 "$edition" disk.img / 2000 < "$archives/ok.tar" > output 2> error
    echo $? > status
    echo "unixvol: ok: an owner or a group above the edition's highest" > line
    wants "import with too high an owner into edition $edition" 1 none line
    saves 'an image into which nothing was imported for an owner' disk.img before.img
done
for owner in '' : 3 3: :3 3:x x:3 65536:3 3:65536 3:3:3 +3:3 -3:3 3,3 ' 3:3'; do
    "$program" import 7 disk.img "--owner=$owner" < "$archives/ok.tar" > output 2> error
    has "the owner '$owner' of an import" "2 error: invalid value '$owner' for '--owner <UID:GID>': not two numbers from 0 to 65535 with a colon between them" "$? $(head -n 1 error)"
done

# An owner of the seventh edition that the sixth can't have.
cp blank.v7 disk.img
imports 7 disk.img guest
printf '/:\n-rw-r--r-- 1 1000 0 0 1970-01-01 00:16:40 ok\n' > list
lists 'an owner of the seventh edition' list 7 disk.img
cp blank.v6 disk.img
unimported "unixvol: ok: an owner or a group above the edition's highest" 6 "$archives/guest.tar"
saves 'an image of the sixth edition without the owner' disk.img blank.v6
: > disk.img
unimported 'unixvol: unsound, rule 1' 6 "$archives/ok.tar"
saves 'an image without bytes' disk.img none

# A truncated archive, with its length: the line names the first header that is missing with all that follows it, or a first block of the end with
# half a second one. Truncated before a header, or after the first block of the end, it counts as complete.
cp blank.v7 disk.img
for length in $(seq 0 256 11520) 1100; do
    for at in 10752 9728 9216 8704 8192 7680 7168 6656 6144 5632 5120 4608 3584 3072 2048 512 0; do
        [ "$at" -le "$length" ] && break
    done
    head -c "$length" "$archives/plain.tar" > "$length.tar"
    case $length in
        0) unimported 'unixvol: archive, byte 0: cut off' 7 0.tar ;;
        "$at" | 11264) ends "$length.tar" ;;
        11520) unimported "unixvol: archive, byte $at: a lone block of zeros" 7 11520.tar ;;
        *) unimported "unixvol: archive, byte $at: cut off" 7 "$length.tar" ;;
    esac
done
image 512.tar 512
ends 512.tar

# A name, or a record of times, without its member.
while read -r name length; do
    head -c "$length" "$archives/$name.tar" > front.tar
    unimported "unixvol: archive, byte $length: cut off" 7 front.tar
    cat front.tar end.tar > ended.tar
    unimported "unixvol: archive, byte $length: cut off" 7 ended.tar
done << 'ROWS'
given_owner 1024
gnu 9728
gnu 14848
extended 1024
extended 23040
extended 28160
ROWS
saves 'an image into which no front of an archive was imported' disk.img blank.v7

# Endless input: bytes that aren't an archive are refused, bytes after an archive are left, and a header with too great a size is refused.
# endless LABEL STATUS LINE IMAGE WORD..: the output of the command is imported into IMAGE, with this status and line within a minute
endless() {
    "${@:5}" 2> /dev/null | timeout 60 "$program" import 7 "$4" / 2000 > output 2> error
    echo "${PIPESTATUS[1]}" > status
    printf '%s' "$3" > line
    wants "$1" "$2" none line
}
cp blank.v7 disk.img
endless 'an import of lines without end' 1 'unixvol: archive, byte 0: no header of tar
' disk.img yes
endless 'an import of a header that claims 8 GB' 3 'unixvol: cannot read -
' disk.img python3 -c 'import os, tarfile
it = tarfile.TarInfo("great")
it.size = 2**33 - 1
os.write(1, it.tobuf(tarfile.USTAR_FORMAT))
while True: os.write(1, bytes(65536))'
endless 'an import of members without end' 3 'unixvol: cannot read -
' disk.img python3 -c 'import os, tarfile
member = tarfile.TarInfo("small").tobuf(tarfile.USTAR_FORMAT)
while True: os.write(1, 128 * member)'
saves 'an image into which no input without end was imported' disk.img blank.v7
cp blank.v7 whole.img
imports 7 whole.img plain
endless 'an import of an archive with zeros behind it that do not end' 0 '' disk.img cat "$archives/plain.tar" /dev/zero
saves 'an image into which an archive was imported with zeros behind it that do not end' disk.img whole.img
cp blank.v7 disk.img
endless 'an import of zeros without end' 0 '' disk.img cat /dev/zero
saves 'an image into which zeros were imported' disk.img blank.v7
(set -o pipefail; cat "$archives/plain.tar" <(head -c 1000000 /dev/zero) | "$program" import 7 disk.img / 2000)
has 'a pipe that an archive came from with a long last record' 0 $?

# Trees whose export, imported and exported again, is the same: an empty one, directories, files.
for edition in 6 7; do
    played "$edition" directories.img '1000 0 7 mkdir /b 700' '1000 0 7 mkdir /b/b 1777' '1000 0 7 mkdir /b/a 0' '1000 0 7 mkdir /a 755' \
        '1000 0 7 mkdir /a/\xff 755' '1000 0 0 chown /a 0 0' '1000 0 0 create /b/b/none 444'
    played "$edition" files.img '1000 0 0 create /one 6711' "1000 0 0 write /one 0 $(printf '31%.0s' $(seq 512))" '1000 0 0 create /two 644' \
        "1000 0 0 write /two 20000 $(digits end)" '1000 0 0 chown /two 255 254' '1000 0 7 mkdir /abcdefghijklmn 755' \
        '1000 0 0 link /two /abcdefghijklmn/2' '1000 0 0 link /one /abcdefghijklmn/1' '1000 0 0 link /one /abcdefghijklmn/0'
    cp "blank.v$edition" empty.img
    for tree in empty directories files; do
        "$program" export "$edition" "$tree.img" > first.tar
        cp "blank.v$edition" disk.img
        "$program" import "$edition" disk.img / 2000 < first.tar > output 2> error
        echo $? > status
        wants "import of $tree in edition $edition" 0 none none
        prints first.tar export "$edition" disk.img ''
    done
done

echo "$passed passed, $failed failed"
[ "$failed" = 0 ]
