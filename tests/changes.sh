#!/usr/bin/env bash
# Runs the commands of the built program that change a volume by several calls, and checks their lines and the volume: imported archives, directories,
# moves, files that are put and got, and removed trees.
# Usage: tests/changes.sh PROGRAM. It prints a line for each row that fails, and ends with 'N passed, N failed'.
. "$(dirname "$0")/rows.sh"
data=$samples/../tests/changes

# answers IMAGE: standard input has queries, each followed by a colon and its answer: each is run as user 0, on a copy of the image. In an answer * is
# any text.
answers() {
    local number=0 query answer printed
    : > queries
    : > wanted
    while IFS=: read -r query answer; do
        echo "1 0 0 $query" >> queries
        echo "$answer" >> wanted
    done
    cp "$1" asked.img
    runs play "$edition" asked.img queries
    has "the answers about $1" "records 0 confirmed $(wc -l < queries)" "$(tail -n 2 output | cat - error | paste -s -d ' ' -)"
    while read -r answer <&3 && read -r printed <&4; do
        number=$((number + 1))
        # shellcheck disable=SC2053
        [[ $printed == 1.$number\ $answer ]] && printed=$answer
        has "$1: $(sed -n "${number}s/^1 0 0 //p" queries)" "$answer" "$printed"
    done 3< wanted 4< output
}

# imports STATUS LINE ARCHIVE IMAGE [PATH]: the program imports the archive, with this status, and prints the line, if any
imports() {
    "$program" import "$edition" "$4" "${5-/}" 2000 < "$3" > output 2> error
    echo $? > status
    if [ -n "$2" ]; then echo "$2" > line; else : > line; fi
    wants "import of $3 into $4" "$1" none line
}

# plays IMAGE FILE..: makes the calls in some files on the volume, one after another; none is refused
plays() {
    cat "${@:2}" > calls
    runs play "$edition" "$1" calls
    has "the calls that make $1" "0 $(wc -l < calls)" "$(cat status) $(grep -c ' ok ' output)"
}

# at_node I: the offset of i-node I
at_node() { echo $((1024 + (edition == 6 ? 32 : 64) * ($1 - 1))); }

pieces "$data/archives"
head -c 1100 tree.tar > cut.tar
{ head -c 2048 tree.tar; head -c 512 tree.tar; } > lone.tar
changed tree.tar sum.tar 0 65
changed tree.tar other.tar 769 78
echo hello > hello
: > empty
mkdir in
printf other > in/f
: > in/g
printf x > in/fourteen.bytes
printf run > in/run
: > in/bare
printf user > in/user
printf plain > in/plain
: > in/old
: > in/late
chmod 7751 in/run
chmod 0 in/bare
chmod 744 in/user
chmod 640 in/plain
touch -d @1000000000.9 in/run
touch -d @0 in/bare
touch -d @4294967295 in/plain
touch -d @-1 in/old
touch -d @4294967296 in/late

# A directory and a file in it, of another user; and below /d nested directories, a large file, files with further names, one of them outside the
# tree, and two that become special files.
nest=/d
cat > keep << 'END'
1000 0 0 mkdir /keep 100
1000 0 0 chown /keep 3 5
1000 0 0 create /keep/file 400
1000 0 0 write /keep/file 0 6b657074
END
{
    for path in /d /d/b /d/b/none; do printf '1000 0 0 mkdir %s 100\n1000 0 0 chown %s 3 5\n' "$path" "$path"; done
    cat << 'END'
1000 0 0 create /d/b/far 400
1000 0 0 write /d/b/far 30000 78
1000 0 0 create /d/twice 400
1000 0 0 write /d/twice 0 74776f206e616d6573
1000 0 0 link /d/twice /d/b/two
END
    printf '1000 0 0 link /keep/file /d/b/\xff\n'
    printf '1000 0 0 create %s 400\n' /d/disk /d/null
    for ((number = 0; number < 20; number++)); do
        nest+=/p23456789abcde
        printf '1000 0 0 mkdir %s 100\n1000 0 0 chown %s 3 5\n' "$nest" "$nest"
    done
    printf '1000 0 0 create %s/deep 400\n1000 0 0 write %s/deep 0 646565700a\n' "$nest" "$nest"
} > grow
cat > names << 'END'
1000 0 0 create /one 400
1000 0 0 write /one 0 6279746573
1000 0 0 link /one /other
END

# shown IMAGE: a volume's rules, its free blocks and i-nodes, the names in / and /keep, and the i-numbers and links of these and of /keep/file
shown() {
    cp "$1" asked.img
    printf '1 0 0 stat %s\n' / /keep /keep/file > queries
    "$program" check "$edition" "$1" 2>&1
    "$program" super "$edition" "$1" 2>&1 | tail -n 2
    "$program" ls "$edition" "$1" / 2>&1
    "$program" ls "$edition" "$1" /keep 2>&1
    "$program" play "$edition" asked.img queries 2>&1 | awk '{ print $1, $2, $3, $4, $5, $6, $7, $8 }'
}

# is_as_before IMAGE: it shows the same as before the tree was made
is_as_before() {
    shown "$1" > now
    cmp -s now before && [ "$(grep -c ': holds$' before)" = 12 ]
    has "what $1 has once all was removed" 0 $?
}

for edition in 6 7; do
    # Archives that are imported, and archives that are refused.
    "$program" mkfs "$edition" blank.img 40 2 0 0 1000
    for name in tree odd ways unread; do cp blank.img "$name.img"; done
    imports 0 '' tree.tar tree.img
    for name in twice left moved1 moved2 moved3 moved4 removed put; do cp tree.img "$name.img"; done
    imports 0 '' tree.tar twice.img /d
    answers twice.img << 'END'
stat /d:stat * dir 0755 * 0 0 *
stat /d/d:stat * dir 0755 * 0 0 *
stat /d/f:stat * file 0644 * 0 0 *
read /d/f 0 100000:read 68656c6c6f0a
read /d/d/f 0 100000:read 68656c6c6f0a
stat /f:2 NoEntry
END
    imports 1 'unixvol: abcdefghijklmno: a name above 14 bytes' long.tar unread.img
    imports 1 'unixvol: archive, byte 512: cut off' cut.tar unread.img
    imports 1 'unixvol: archive, byte 1536: a lone block of zeros' lone.tar unread.img
    imports 1 'unixvol: archive, byte 0: a header with a wrong checksum' sum.tar unread.img
    imports 1 'unixvol: archive, byte 512: no header of tar' other.tar unread.img
    saves 'a volume into which no archive was imported' unread.img blank.img
    imports 0 '' odd.tar odd.img
    cp odd.img odd_before.img
    imports 1 'unixvol: 17 Exists: /odd\012name' odd.tar odd.img
    saves 'a volume that has the file already' odd.img odd_before.img
    "$program" mkfs "$edition" five.img 5 2 0 0 1000
    cp five.img five_before.img
    imports 1 'unixvol: 28 NoSpace: /d/' tree.tar five.img
    saves 'a volume without room for an archive' five.img five_before.img
    imports 1 'unixvol: unsound, rule 1' tree.tar empty

    # Directories, moves, removals and copies, from the lines of a file; then the volumes are compared.
    "$program" mkfs "$edition" six.img 6 2 0 0 1000
    cp six.img six_before.img
    "$program" mkfs "$edition" before.img 400 12 0 0 1000
    cp before.img grown.img
    cp before.img named.img
    plays before.img keep
    cp before.img kept.img
    rm -rf out1 out2 out3
    mkdir out1 out2 out3
    follows "$data/rows"
    refuses 1 'unixvol: 2 NoEntry: /x\012' get "$edition" tree.img -o out3 $'/x\n' /d
    has 'files that were not got' '' "$(ls out3)"
    answers ways.img << 'END'
stat /a:stat * dir 0755 * 0 0 *
stat /a/b/c:stat * dir 0755 * 0 0 *
stat /a/b/d:stat * dir 0755 * 0 0 *
stat /x/y:stat * dir 0755 * 0 0 *
stat /p/q:stat * dir 0755 * 0 0 *
stat /p/r:stat * dir 0755 * 0 0 *
stat /b:2 NoEntry
stat /r:2 NoEntry
END
    for row in 1:/g 2:/d/g 3:/f 4:/f; do
        answers "moved${row%:*}.img" << END
read ${row#*:} 0 100000:read 68656c6c6f0a
stat ${row#*:}:stat * file * 1 * * *
stat /d/f:2 NoEntry
END
    done
    answers removed.img << 'END'
stat /d:2 NoEntry
stat /:stat * dir * 2 * * *
END
    answers put.img << 'END'
read /d/f 0 100000:read 6f74686572
read /d/g 0 100000:read -
read /d/fourteen.bytes 0 100000:read 78
stat /d/g:stat * file 0644 * 0 0 *
stat /g:2 NoEntry
END

    # What is kept of files outside: permissions and the time of modification, or the execute bits alone; and what files outside get.
    cp tree.img marks.img
    prints none put -p "$edition" marks.img /all in/run 3000
    prints none put "$edition" marks.img -x /executable in/run 3000
    prints none put "$edition" marks.img /plain in/run 3000
    prints none put -p -x "$edition" marks.img -t /d in/run in/bare 3000
    prints none chmod "$edition" marks.img /d/f 6640 3000
    prints none put -x "$edition" marks.img /d/f in/user 3000
    prints none put "$edition" marks.img /d/g in/user 3000
    prints none put --executable "$edition" marks.img --target-directory /d in/g 3000
    prints none put --preserve "$edition" marks.img /plain in/bare 4000
    prints none put -p "$edition" marks.img /plain in/plain 4000
    answers marks.img << 'END'
stat /all:stat * file 7751 1 0 0 3
read /all 0 9:read 72756e
stat /executable:stat * file 0755 1 0 0 3
stat /d/run:stat * file 7751 1 0 0 3
stat /d/bare:stat * file 0000 1 0 0 0
stat /d/f:stat * file 6740 1 0 0 4
read /d/f 0 9:read 75736572
stat /d/g:stat * file 0644 1 0 0 0
stat /plain:stat * file 0640 1 0 0 5
END
    for row in /all:3000:1000000000 /executable:3000:3000 /d/run:3000:1000000000 /d/bare:3000:0 /d/f:3000:3000 /plain:4000:4294967295; do
        IFS=: read -r path atime mtime <<< "$row"
        found=$("$program" inode "$edition" marks.img "$path" | grep time)
        has "the time of modification of $path" "mtime $mtime" "$(grep mtime <<< "$found")"
        case $path in /all | /d/run | /d/bare | /plain) has "the time of access of $path" "atime $atime" "$(grep atime <<< "$found")" ;; esac
    done
    cp marks.img marked.img
    for words in '/new in/old' '-t /d in/run in/old' '-t / in/late'; do
        # shellcheck disable=SC2086
        refuses 3 "unixvol: cannot read ${words##* }" put -p "$edition" marks.img $words 5000
    done
    refuses 1 'unixvol: 21 IsDirectory' put -p "$edition" marks.img /d in/run 5000
    refuses 1 'unixvol: 2 NoEntry: /x/run' put -x "$edition" marks.img -t /x in/run 5000
    saves 'files that were not put with their marks' marks.img marked.img
    prints none put -x "$edition" marks.img /new in/old 5000
    rm -rf given
    mkdir given
    : > given/executable
    chmod 400 given/executable
    prints none get -p "$edition" marked.img -o given /all executable d/f
    prints none get --preserve "$edition" marked.img /plain --output given
    has 'the marks of files that were got' '751 1000000000 755 3000 740 3000 640 4294967295' \
        "$(cd given && stat -c '%a %Y' all executable f plain | paste -s -d ' ' -)"
    has 'the bytes of files that were got' 'run run user plain' "$(cd given && paste -d ' ' all executable f plain)"
    (umask 027 && "$program" get "$edition" marked.img -o given /d/run)
    has 'a file that was got without its marks' '640 yes' "$(stat -c %a given/run) $([ "$(stat -c %Y given/run)" -gt 1000000000 ] && echo yes)"

    # Owners of what is put and made; a directory that is there keeps its own. Permissions stay, and the times that are kept come last.
    cp tree.img owners.img
    prints none chmod "$edition" owners.img /d/f 6750 2000
    prints none put "$edition" owners.img /d/f in/user 3000 --owner 3:5
    prints none put -p "$edition" owners.img -t / in/run in/bare 3000 -o 0:255
    prints none mkdir "$edition" owners.img /e 3000 --owner 255:0
    prints none mkdir -p "$edition" owners.img /e/./x/y/ 3000 --owner 3:5
    cp owners.img owned.img
    prints none mkdir -p "$edition" owners.img /e/x 3000 --owner 7:7
    saves 'a directory that keeps its owner' owners.img owned.img
    refuses 1 'unixvol: 17 Exists' mkdir -p "$edition" owners.img /run 3000 --owner 7:7
    saves 'a file that keeps its owner' owners.img owned.img
    answers owners.img << 'END'
stat /d/f:stat * file 6750 1 3 5 4
read /d/f 0 9:read 75736572
stat /run:stat * file 7751 1 0 255 3
stat /bare:stat * file 0000 1 0 255 0
stat /e:stat * dir 0755 3 255 0 48
stat /e/x:stat * dir 0755 3 3 5 48
stat /e/x/y:stat * dir 0755 2 3 5 32
END
    for row in /run:1000000000 /bare:0; do
        has "the times of ${row%:*}" "3000 ${row#*:}" "$("$program" inode "$edition" owners.img "${row%:*}" | awk '/^[am]time/ { print $2 }' | paste -s -d ' ' -)"
    done
    has 'the rows of what has an owner' '-rwsr-s--- 1 3 5 4 /d/f|drwxr-xr-x 2 3 5 32 /e/x/y' \
        "$(for path in /d/f /e/x/y; do "$program" ls -l -d "$edition" owners.img "$path"; done | awk '{ print $2, $3, $4, $5, $6, $9 }' | paste -s -d '|' -)"

    # Changes of permissions in letters are those of the host's chmod without a umask.
    prints none mkfs "$edition" letters.img 100 2 0 0 1000
    prints none put "$edition" letters.img /f in/run 1001
    for old in 0 644 2750 4711 7777; do
        prints none chmod "$edition" letters.img /f "$old" 1002
        while read -r change; do
            (umask 0 && : > outside && chmod "$old" outside && chmod "$change" outside)
            cp letters.img changed.img
            prints none chmod "$edition" changed.img /f "$change" 1003
            mode=$(od -An -tu2 -j "$(at_node $((edition == 6 ? 32 : 16)))" -N 2 changed.img)
            has "the permissions after $old and $change" "$(stat -c %a outside)" "$(printf %o $((mode & 07777)))"
        done << 'END'
u+x
+rw
go-w
a-rx
a=rx
u=rwx,g=rx,o=
ug+s,o+t
u-s,g=s,+t
o=t
g+t,o+s
a+x,u-x,go=,g+
=
END
    done

    # A tree is removed at once or part by part, and all of its blocks and i-nodes are free.
    shown before.img > before
    plays grown.img keep grow
    "$program" ls "$edition" grown.img /d > listed
    disk=$(at_node "$(sed -n 's/ disk$//p' listed)")
    null=$(at_node "$(sed -n 's/ null$//p' listed)")
    if [ "$edition" = 6 ]; then
        put grown.img "$disk" '80 E1'
        put grown.img "$null" '80 A1'
        for at in "$disk" "$null"; do put grown.img $((at + 8)) '07 01'; done
    else
        put grown.img "$disk" '80 61'
        put grown.img "$null" '80 21'
        for at in "$disk" "$null"; do put grown.img $((at + 12)) '00 07 01'; done
    fi
    cp grown.img parts.img
    prints none rm -r "$edition" grown.img /d 2000
    is_as_before grown.img
    answers grown.img <<< 'stat /d:2 NoEntry'
    has 'when the root was changed' 'mtime 2000' "$("$program" inode "$edition" grown.img $((edition == 6 ? 1 : 2)) | grep mtime)"
    for path in d/b /d/p23456789abcde /d/../d//null /d/; do prints none rm -r "$edition" parts.img "$path" 2000; done
    is_as_before parts.img

    # A file loses one name, and then the other.
    plays named.img keep names
    prints none rm -r "$edition" named.img /one 2000
    answers named.img << 'END'
stat /other:stat * file * 1 * * 5
stat /one:2 NoEntry
END
    prints none rm -r "$edition" named.img other 2000
    is_as_before named.img

    # A boot block: the program, and zeros after it; all other bytes stay.
    "$program" mkfs "$edition" start.img 40 3 0 0 1000
    put start.img 0 "$(repeated 512 EE)"
    tail -c +513 start.img > rest
    head -c 4096 /dev/urandom > whole.pack
    prints none boot "$edition" start.img hello
    { cat hello; head -c 506 /dev/zero; cat rest; } > wanted
    saves 'a boot block' start.img wanted
    { head -c 4096 whole.pack; cat start.img; } > pack.img
    { head -c 4096 whole.pack; cat hello; head -c 506 /dev/zero; cat rest; } > wanted
    prints none boot any pack.img hello --at 8
    saves 'the boot block of a volume in a pack' pack.img wanted
    : > empty
    prints none boot "$edition" start.img empty
    { head -c 512 /dev/zero; cat rest; } > wanted
    saves 'an empty boot block' start.img wanted
    put whole 0 "$(repeated 512 A7)"
    prints none boot "$edition" start.img whole
    cat whole rest > wanted
    saves 'a boot block that is full' start.img wanted
    { cat whole; printf x; } > longer
    refuses 1 'unixvol: 27 TooBig' boot "$edition" start.img longer
    refuses 1 $'unixvol: 27 TooBig\nunixvol: longer: a boot block has 512 bytes, and the program more' --explain boot "$edition" start.img longer
    refuses 3 'unixvol: cannot read missing' boot "$edition" start.img missing
    changed start.img cut.img 514 '00 00 00 00'
    refuses 1 'unixvol: unsound, rule 2' boot "$edition" cut.img hello
    head -c 511 start.img > cut.img
    refuses 1 'unixvol: unsound, rule 1' boot "$edition" cut.img hello
    saves 'a volume whose boot block was refused' start.img wanted

    # Special files: their modes, times and first addresses, byte by byte, in the i-nodes that a new volume gives out first.
    "$program" mkfs "$edition" devices.img 200 10 0 0 0
    prints none mknod "$edition" devices.img /tty c 3 5 620 1000
    prints none mknod "$edition" devices.img rk0 b 255 0 u+x,go= 1000 --owner 3:4
    if [ "$edition" = 6 ]; then
        holds 'a character device' devices.img 4224 '90 A1 01 00 00 00 00 00 05 03 00 00 00 00 00 00 00 00 00 00 00 00 00 00 00 00 E8 03 00 00 E8 03'
        holds 'a block device' devices.img 4192 'C0 E1 01 03 04 00 00 00 00 FF 00 00'
    else
        holds 'a character device' devices.img 6080 '90 21 01 00 00 00 00 00 00 00 00 00 00 05 03 00 00 00'
        holds 'the times of a character device' devices.img 6132 '00 00 E8 03 00 00 E8 03 00 00 E8 03'
        holds 'a block device' devices.img 6016 'C0 61 01 00 03 00 04 00 00 00 00 00 00 00 FF 00 00 00'
    fi
    "$program" ls -l "$edition" devices.img | awk '{ print $2, $3, $4, $5, $6 $7, $NF }' > output
    has 'the special files in a listing' 'brwx------ 1 3 4 255,0 rk0 crw--w---- 1 0 0 3,5 tty' "$(tail -n 2 output | paste -s -d ' ' -)"
    has 'the device of a special file' '"major":3 "minor":5' "$("$program" ls "$edition" devices.img /tty --json | grep -o '"major":3\|"minor":5' | paste -s -d ' ' -)"
    has 'what check says of a volume with devices' 0 "$("$program" check "$edition" devices.img > output; echo $?)"
    cp devices.img wanted
    for path in / /. /.. /tty /tty/; do
        refuses 1 'unixvol: 17 Exists' mknod "$edition" devices.img "$path" c 3 5 620 1000
    done
    refuses 1 'unixvol: 2 NoEntry' mknod "$edition" devices.img /no/x c 3 5 620 1000
    refuses 1 'unixvol: 20 NotDirectory' mknod "$edition" devices.img /tty/x c 3 5 620 1000
    refuses 1 'unixvol: 104 BadId' mknod "$edition" devices.img /x c 3 5 620 1000 --owner 65535:0
    misread "error: invalid value 'p' for '<KIND>': c for a character device, b for a block device" mknod "$edition" devices.img /x p 3 5
    misread "error: invalid value '256' for '<MAJOR>': not a decimal number from 0 to 255" mknod "$edition" devices.img /x c 256 5
    misread "error: invalid value '256' for '<MINOR>': not a decimal number from 0 to 255" mknod "$edition" devices.img /x c 3 256
    misread "error: invalid value '8' for '<PERM>': not an octal number from 0 to 7777" mknod "$edition" devices.img /x c 3 5 8
    misread "error: invalid value '' for '<PERM>'" mknod "$edition" devices.img /x c 3 5 ''
    misread "error: invalid value '+2' for '<MINOR>': not a decimal number from 0 to 255" mknod "$edition" devices.img /x c 3 +2
    misread "error: invalid value '-1' for '<MINOR>': not a decimal number from 0 to 255" mknod "$edition" devices.img -- /x c 3 -1
    saves 'a volume whose special files stay' devices.img wanted
    # A name is cut to 14 bytes, and a slash after it makes no difference. The word after MINOR is PERM.
    prints none mknod "$edition" devices.img /fourteen_bytes_and_more/ b 0 1 0010 1000
    refuses 1 'unixvol: 17 Exists' mknod "$edition" devices.img /fourteen_bytes_or_less b 0 1
    has 'a name that was cut' 'b-----x--- 0,1 fourteen_bytes' \
        "$("$program" ls -l "$edition" devices.img | sed 's/, */,/' | awk '$NF ~ /^fourteen/ { print $2, $6, $NF }')"
    "$program" mknod "$edition" devices.img /owned c 1 2 600 1000 --owner 3:4 --trace > output
    has 'the calls of mknod with an owner' 2 "$(grep -c '^1000 0 0 ' output)"
    # The last i-node, and none.
    "$program" mkfs "$edition" few.img 40 1 0 0 1
    made=0
    while [ "$made" -lt 40 ] && "$program" mknod "$edition" few.img "/n$made" c 0 0 600 1 2> error; do made=$((made + 1)); done
    has 'as many special files as there are i-nodes' "$((edition == 6 ? 15 : 6)) unixvol: 103 NoInode" "$made $(cat error)"
    cp wanted devices.img
    prints none rm "$edition" devices.img /rk0 2000
    has 'what is left' 'tty' "$("$program" ls "$edition" devices.img | awk '{ print $NF }' | grep -v '^\.')"
done

echo "$passed passed, $failed failed"
[ "$failed" = 0 ]
