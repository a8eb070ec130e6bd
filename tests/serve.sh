#!/usr/bin/env bash
# Runs `serve` of the built program under a simulated kernel (serves/kernel.py), which needs no rights and no /dev/fuse: names, attributes and bytes
# are those that the other commands print, for both editions and for images that aren't sound, and each request that wants a reply gets one.
# tests/mount.sh mounts volumes. Usage: tests/serve.sh PROGRAM. It prints a line for each row that fails, and ends with 'N passed, N failed'.
kernel=$(realpath "$(dirname "$0")/serves/kernel.py")
changes=$(realpath "$(dirname "$0")/serves/changes.py")
session=$(realpath "$(dirname "$0")/serves/session.txt")
. "$(dirname "$0")/rows.sh"
linux="$samples/linux_made.v7"

# The words, and images that aren't served.
misread 'error: the following required arguments were not provided' serve --read-only 7
misread "error: invalid value '8' for '<EDITION>'" serve --read-only 8 "$linux"
helps serve --help
refuses 3 'unixvol: cannot read none.img' serve --read-only 7 none.img
refuses 1 'unixvol: unsound, rule 2' serve --read-only 6 "$linux"
head -c 5000 "$linux" > short.img
refuses 1 'unixvol: unsound, rule 1' serve --read-only 7 short.img
printf '%s\n' 'unixvol: unsound, rule 1' "unixvol: short.img: it breaks rule 1, that the image has all blocks of the volume: it has 9 blocks, its super-block says 240" > line
runs serve --read-only 7 short.img --explain
wants 'serve of a short image, explained' 1 none line

# Input that ends at once.
prints none serve --read-only 7 "$linux"

# With changes an image must be sound, and is locked; without one it stays as it is.
refuses 1 'unixvol: unsound, rule 2' serve 6 "$linux"
refuses 1 'unixvol: unsound, rule 1' serve 7 short.img
refuses 3 'unixvol: cannot read none.img' serve --mine 7 none.img
mkfifo pipe
refuses 3 'unixvol: cannot write pipe' serve 7 pipe
cp "$linux" served
prints none serve 7 served
prints none serve --mine 7 served
saves 'a server without a change' served "$linux"

# The file for a rescue must not exist, and isn't made without need.
refuses 3 'unixvol: cannot write none' serve --rescue none 7 served
misread "error: invalid value '' for '--rescue <FILE>': it is empty, and names no file" serve --rescue '' 7 served
misread "error: invalid value '' for '--rescue <FILE>': it is empty, and names no file" serve --read-only --rescue '' 7 served
prints none serve --rescue rescued 7 served
prints none serve --read-only --rescue none 7 served
has 'a rescue without need' 1 "$([ -e rescued ]; echo $?)"

# node_at I: the offset of i-node I in an image of the edition
node_at() { echo $((1024 + (edition == 6 ? 32 : 64) * ($1 - 1))); }

# number PATH: the i-number at a path of the volume
number() { "$program" ls -d "$edition" volume "$1" | awk 'NR == 1 { print $1 }'; }

# changes KIND WORD..: a server with changes, by serves/changes.py
changes() { has "changes: $*" '' "$(timeout 60 python3 "$changes" "$1" "$program" "$edition" "${@:2}" 2>&1)"; }

# breaks RULE IMAGE: this is the first rule that the image breaks; a server says so, and ends with its input
breaks() {
    printf 'unixvol: unsound, rule %s\n' "$1" > line
    runs serve --read-only "$edition" "$2"
    wants "serve of $2" 0 none line
}

# serves LABEL FILES LINE EDITION IMAGE: FILES files are served as the other commands print them, and the server prints LINE
serves() {
    has "$1" "$2 files; $3" "$(timeout 60 python3 "$kernel" tree "$program" "$4" "$5" 2>&1)"
}

# answers SEED EDITION IMAGE [OPTION]: random requests get replies
answers() { has "random requests $1 to $3" '' "$(timeout 60 python3 "$kernel" random "$program" "$2" "$3" "$1" 1500 "${@:4}" 2>&1)"; }

if ! command -v python3 > /dev/null; then
    echo 'skipped: the pretended kernel, since there is no python3'
    echo "$passed passed, $failed failed"
    [ "$failed" = 0 ]
    exit
fi

# A file with one request, and one with fewer bytes than a request has.
python3 "$kernel" request > request
"$program" serve --read-only 7 "$linux" < request > output 2> error
has 'the reply to a request in a file' '0 80 50000000000000000200000000000000 ' "$? $(stat -c %s output) $(od -An -v -tx1 -N 16 output | tr -d ' \n') $(cat error)"
head -c 39 request > short
"$program" serve --read-only 7 "$linux" < short > output 2> error
echo $? > status
wants 'a file with less than a request' 0 none none
"$program" serve --read-only 7 "$linux" < request > /dev/full 2> error
has 'a reply that cannot be written' '3 unixvol: cannot write -' "$? $(cat error)"
"$program" serve --explain --read-only 7 "$linux" < . > output 2> error
has 'an input that is a folder' '3 unixvol: cannot read - unixvol: standard input: Is a directory (os error 21)' "$? $(paste -s -d ' ' error)"

# A volume of the seventh edition, of ten blocks: i-node 2 is the root, with an empty slot; 3 is the file `hello`, and 4 the block special file `disk`.
head -c 5120 /dev/zero > small
put small 512 '04000000 0a00'
put small 1088 'ed41 0200 0000 0000 00005000 000400'
put small 1152 'a481 0100 0300 0500 00000600 000500'
put small 1216 '8061 0100 0000 0000 00000000 000701'
put small 2048 '0200 2e'
put small 2080 '0300 68656c6c6f'
put small 2096 '0400 6469736b'
put small 2560 68656c6c6f0a
has 'each request and its reply, byte for byte' '' "$(timeout 60 python3 "$kernel" messages "$program" 7 small "$session" 2>&1)"

# From the reply to this READDIR, `ls` of Linux 6.18 listed both entries.
head -c 2560 /dev/zero > sixth
put sixth 512 '0100 0500'
put sixth 1024 'edc1 0200 0000 2000 0300'
put sixth 1152 'a481 0100'
put sixth 1536 '0100 2e'
put sixth 1552 '0500 657463'
cat > messages << 'end'
# READDIR
> 50000000 1c000000 0c000000 00000000 01000000 00x20 00x16 00100000 00x20
< 50000000 00000000 0c000000 00000000 01000000 00000000 01000000 00000000 01000000 04000000 2e000000 00000000 05000000 00000000 02000000 00000000 03000000 08000000 65746300 00000000
end
has 'a listing that Linux took' '' "$(timeout 60 python3 "$kernel" messages "$program" 6 sixth messages 2>&1)"

serves 'a volume that Linux wrote' 37 '' 7 "$linux"
for edition in 6 7; do
    # Names of 1 and 14 bytes and of bytes above 127, further names, holes, an empty file, each kind of block map, special files, permissions, owners.
    "$program" mkfs "$edition" volume 6000 40 0 0 1000
    printf '1001 0 0 %s\n' 'mkdir /d 755' 'mkdir /d/fourteen-bytes 700' 'create /d/fourteen-bytes/abcdefghijklmn 644' 'link /d/fourteen-bytes/abcdefghijklmn /x' \
        'create /empty 4755' 'create /hole 600' 'write /hole 5000 6161' 'create /holes 644' 'write /holes 70000 62' 'write /holes 0 63' \
        $'create /\xff\xfe 644' 'create /null 666' 'create /disk 600' 'chown /empty 7 3' 'write /x 0 68656c6c6f' > script
    "$program" play "$edition" volume script > played
    has 'the calls of a tree' 0 "$?"
    head -c 1200000 /dev/urandom > random
    "$program" put "$edition" volume /d/random random 1002
    for ((n = 0; n < 70; n++)); do echo "1003 0 0 create /d/file$n 644"; done > script
    "$program" play "$edition" volume script > played
    for name in /null /disk; do
        if [ "$edition" = 6 ]; then
            put volume "$(node_at "$(number $name)")" "$([ $name = /null ] && echo B6A1 || echo 80E1)"
        else
            put volume "$(node_at "$(number $name)")" "$([ $name = /null ] && echo B621 || echo 8061)"
        fi
    done
    serves "a volume of edition $edition" 81 '' "$edition" volume
    for seed in 1 2; do answers "$edition$seed" "$edition" volume; done

    # Images that aren't sound are served as far as entries lead, with one line.
    root=$((edition == 6 ? 1 : 2))
    changed volume links.img "$(($(node_at "$(number /x)") + 2))" "$([ "$edition" = 6 ] && echo 09 || echo 0900)"
    breaks 12 links.img
    serves "a wrong link count in edition $edition" 81 'unixvol: unsound, rule 12' "$edition" links.img
    d=$(number /d)
    at=$(LC_ALL=C grep -abo fourteen-bytes volume | head -n 1 | cut -d : -f 1)
    changed volume circle.img $((at - 2)) "$(printf '%02x%02x' $((root % 256)) $((root / 256)))"
    serves "a directory that has the root in edition $edition" 80 "$(runs serve --read-only "$edition" circle.img; cat error)" "$edition" circle.img
    changed volume free.img $((at - 2)) 2C01
    serves "an entry without a file in edition $edition" 80 "$(runs serve --read-only "$edition" free.img; cat error)" "$edition" free.img

    # Changes. Random ones leave a sound image.
    rm -rf temporary
    mkdir temporary
    for kind in session linux mine full known devices replaced rescued gone lost; do
        rm -f empty.*
        "$program" mkfs "$edition" empty 6000 40 0 0 1000
        changes $kind empty
    done
    for seed in 5 6; do
        cp volume changed.img
        answers "$edition$seed" "$edition" changed.img --mine
        "$program" check "$edition" changed.img > output
        has "a sound image after random requests $edition$seed" 0 $?
        has "random requests $edition$seed change the image" 1 "$(cmp -s volume changed.img; echo $?)"
    done
    answers 3 "$edition" circle.img
    answers 4 "$edition" free.img
done

echo "$passed passed, $failed failed"
[ "$failed" = 0 ]
