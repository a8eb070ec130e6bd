#!/usr/bin/env bash
# Runs the built program on images that can't be read or saved: pipes, links, full devices, endless input, locks, many commands at once, and other programs
# that write the image meanwhile.
# Usage: tests/saving.sh PROGRAM. It prints each row that fails, and ends with 'N passed, N failed'.
. "$(dirname "$0")/rows.sh"

printf hello > hello
# A new volume of twenty blocks of the sixth edition, two of them the i-list; tests/mkfs.sh compares its bytes.
"$program" mkfs 6 made 20 2 0 0 168496141
mkdir volumes
cp made volumes/a
ln -s linked volumes/link
# A volume with a file and a directory.
"$program" mkfs 6 volumes/tree6 100 2 0 0 1000
"$program" mkdir 6 volumes/tree6 /d 1016
mkfifo pipe

# Volumes that aren't sound, and files that can't be read or written.
cp volumes/a unsound
put unsound 1026 '05'
refuses 1 'unixvol: unsound, rule 12' ls 6 unsound /
refuses 1 'unixvol: unsound, rule 12' put 6 unsound /a hello 1
refuses 1 'unixvol: unsound, rule 12' chmod 6 unsound / 644 1
refuses 1 'unixvol: unsound, rule 12' chown 6 unsound / 1 2 1
refuses 1 'unixvol: unsound, rule 1' get 6 none /
refuses 3 'unixvol: cannot read missing' ls 6 missing /
refuses 3 'unixvol: cannot read .' rm 6 . / 1
refuses 3 'unixvol: cannot read missing' put 6 missing / nothing 1
refuses 3 'unixvol: cannot read nothing' put 6 unsound /a nothing 1
refuses 3 'unixvol: cannot read .' put 6 volumes/a /a . 1
saves 'a volume into which nothing was put' volumes/a made
"$program" ls 6 volumes/a / > /dev/full 2> error
echo $? > status
: > output
echo 'unixvol: cannot write -' > line
wants 'ls to a full device' 3 none line
"$program" get 6 volumes/tree6 /d >&- 2> error
echo $? > status
echo 'unixvol: 21 IsDirectory' > line
wants 'get of a directory to a closed output' 1 none line
# A change that can't be saved leaves the old volume; otherwise it is saved at the end of a link.
cp volumes/tree6 before
(ulimit -f 40; trap '' XFSZ; runs put 6 volumes/tree6 /more hello 2000)
echo 'unixvol: cannot write volumes/tree6' > line
wants 'put where the new file finds no room' 3 none line
saves 'a volume whose new file found no room' volumes/tree6 before
ln -s tree6 volumes/leads
prints none put 6 volumes/leads /more hello 2000
has 'a link to a volume that was changed' tree6 "$(readlink volumes/leads)"
prints hello get 6 volumes/tree6 /more
truncate -s 400M volumes/great
(ulimit -v 300000; runs put 6 volumes/great /a hello 1)
echo 'unixvol: unsound, rule 2' > line
wants 'put into a file that is longer than its volume and the memory' 1 none line
# The super-block records 819,200 blocks.
printf '\144\000\014\000\000\200' | dd of=volumes/great bs=1 seek=512 conv=notrunc status=none
(ulimit -v 300000; runs put 7 volumes/great /a hello 1)
echo 'unixvol: 12 NoMemory' > line
wants 'put in less memory than the volume takes' 4 none line
rm volumes/great

# Saving the changed volume: a link is followed, and a full disk leaves the old file.
cp volumes/a volumes/linked
prints none put 6 volumes/link /a hello 1
has 'a symbolic link to a volume' linked "$(readlink volumes/link)"
prints hello get 6 volumes/linked /a
cp volumes/linked before
(ulimit -f 8; trap '' XFSZ; runs rm 6 volumes/linked /a 1)
echo 'unixvol: cannot write volumes/linked' > line
wants 'rm where the new file finds no room' 3 none line
saves 'a volume whose new file found no room' volumes/linked before

# Zeros of a file that stores fewer blocks than its size takes are saved as holes; a file without holes is saved without.
# stored FILE: the KiB that a file takes on its disk
stored() { du -k "$1" | cut -f 1; }
# On a disk that stores a file of zeros as a hole there is no file without holes.
head -c 1000000 /dev/zero > zeros
sync zeros
prints none mkfs 7 full 20000 100 0 0 1
cp --sparse=always full holed
holed=$(stored holed)
for image in full holed; do prints none mkdir 7 "$image" /d 2; done
saves 'a volume with holes that was changed' holed full
[ "$(stored zeros)" -lt 900 ] \
    || has 'the room of a volume that had no holes' yes "$([ "$(stored full)" -ge 10000 ] && echo yes || stored full)"
has 'the room of a volume with holes' yes "$([ "$(stored holed)" -le $((holed + 64)) ] && echo yes || stored holed)"
cp --sparse=always holed before
(ulimit -f 4000; trap '' XFSZ; runs mkdir 7 holed /e 2)
echo 'unixvol: cannot write holed' > line
wants 'mkdir where a new file with holes finds no room' 3 none line
saves 'a volume with holes whose new file found no room' holed before
truncate -s +2M holed
printf x | dd of=holed bs=1 seek=12000000 conv=notrunc status=none
cp --sparse=always holed before
prints none mkdir 7 holed /e 3
prints none rmdir 7 holed /e 3
has 'the bytes after a volume with holes' yes "$(cmp -s -i 10240000 holed before && echo yes)"
has 'the size of a volume with holes after it' "$(wc -c < before)" "$(wc -c < holed)"
has 'the room of a volume with holes after it' yes "$([ "$(stored holed)" -le $((holed + 64)) ] && echo yes || stored holed)"
rm full holed before zeros

# An image that is a pipe, a socket or a terminal isn't changed, and isn't read for it either; it can be shown.
for command in 'put /a hello 1' 'rm /a 1' 'rmdir /a 1' 'mkdir /a 1' 'ln /a /b 1' 'chmod /a 644 1' 'chown /a 1 2 1' 'mknod /a c 3 5 644 1'; do
    read -r -a given <<< "$command"
    refuses 3 'unixvol: cannot write pipe' "${given[0]}" 6 pipe "${given[@]:1}"
    { cat volumes/linked; echo more; } | { "$program" "${given[0]}" 6 /dev/stdin "${given[@]:1}" > output 2> error; echo $? > status; cat > rest; }
    echo 'unixvol: cannot write /dev/stdin' > line
    wants "${given[0]} of an image from a pipe" 3 none line
    has "what ${given[0]} leaves of a pipe" 10245 "$(wc -c < rest)"
done
body great 10000000
{ cat great 2> /dev/null; } | { "$program" put 6 /dev/stdin /a hello 1 > output 2> error; echo $? > status; }
wants 'put into a great image from a pipe' 3 none line
cat volumes/linked > pipe &
edition=6
ls_prints pipe / '    1 .' '    1 ..' '   32 a'
wait
"$program" get 6 <(cat volumes/linked) /a > output 2> error < /dev/null
echo $? > status
wants 'get from a pipe' 0 hello none
if command -v python3 > /dev/null; then
    python3 -c 'import socket; socket.socket(socket.AF_UNIX).bind("socket")'
    refuses 3 'unixvol: cannot write socket' rm 6 socket /a 1
else
    echo 'skipped: a socket, since there is no python3'
fi
if script -qec true /dev/null > /dev/null 2>&1 < /dev/null; then
    script -qec "'$program' rm 6 /dev/tty /a 1 2> error; echo \$? > status" /dev/null > /dev/null 2>&1 < /dev/null
    : > output
    echo 'unixvol: cannot write /dev/tty' > line
    wants 'rm of a name in a terminal' 3 none line
else
    echo 'skipped: a terminal, since there is no script'
fi
refuses 1 'unixvol: unsound, rule 1' rm 6 /dev/null /a 1
cp volumes/linked copied
"$program" rm 6 /dev/stdin /a 1 > output 2> error < copied
echo $? > status
wants 'rm in a file on standard input' 0 none none
ls_prints copied / '    1 .' '    1 ..'

# Files by absolute paths.
cp volumes/a absolute
prints none put 6 "$folder/absolute" /a "$folder/hello" 1
prints hello get 6 "$folder/absolute" /a
prints hello cat 6 "$folder/absolute" 32
has 'no new file beside an image by its absolute path' '' "$(find . -maxdepth 1 -name '.unixvol-*')"
refuses 3 "unixvol: cannot read $folder/missing" put 6 "$folder/absolute" /b "$folder/missing" 1
refuses 3 "unixvol: cannot read $folder/missing" rm 6 "$folder/missing" /b 1

# A full device, with more bytes than any buffer takes.
prints none mkfs 7 large 4000 4 0 0 1
body great 1900000
prints none put 7 large /great great 1
for command in 'get large /great' 'cat large 32'; do
    read -r -a given <<< "$command"
    "$program" "${given[0]}" 7 "${given[@]:1}" > /dev/full 2> error
    echo $? > status
    : > output
    echo 'unixvol: cannot write -' > line
    wants "${given[0]} of a great file to a full device" 3 none line
done

# A file of 100,000,000 bytes, of which no two blocks are equal, into a volume that it nearly fills, and out again.
seq -w 12000000 | head -c 100000000 > great
prints none mkfs 7 large 196880 4 0 0 1
prints none put 7 large /great great 1
has 'the size of a volume with a great file' 100802560 "$(wc -c < large)"
gives great get 7 large /great
gives great cat 7 large 32
refuses 1 'unixvol: 28 NoSpace' put 7 large /more great 1
prints none put 7 large /great great 2 # into the blocks that it gave back
gives great get 7 large /great
prints none rm 7 large /great 1
rm great large

# A refused command leaves the image with its i-number and its time of modification.
touch -d '2001-02-03 04:05:06.789' absolute
stood=$(stat -c '%i %y' absolute)
refuses 1 'unixvol: 2 NoEntry' rm 6 absolute /none 1
refuses 1 'unixvol: 17 Exists' mkdir 6 absolute /a 1
refuses 3 'unixvol: cannot read missing' put 6 absolute /a missing 1
refuses 1 'unixvol: bounds' mkfs 6 absolute 4 2 0 0 0
misread 'error: invalid value' rm 6 absolute /a one
has 'an image that commands were refused on' "$stood" "$(stat -c '%i %y' absolute)"

# Many commands at once on an image: each that ends with status 0 has made its change, and any other one reports that it hasn't.
prints none mkfs 7 shared_image 500 20 0 0 1
for number in $(seq 60); do
    { "$program" put 7 shared_image "/f$number" hello 1 > "output$number" 2> "error$number"; echo $? > "status$number"; } &
done
wait
printf 'unixvol: cannot write shared_image\n' > line
done_count=0
for number in $(seq 60); do
    cp "output$number" output
    cp "error$number" error
    cp "status$number" status
    if [ "$(cat status)" = 0 ]; then
        done_count=$((done_count + 1))
        wants "put $number of many" 0 none none
        prints hello get 7 shared_image "/f$number"
    else
        wants "put $number of many" 3 none line
        refuses 1 'unixvol: 2 NoEntry' get 7 shared_image "/f$number"
        printf 'unixvol: cannot write shared_image\n' > line
    fi
done
has 'more than one put of many' yes "$([ "$done_count" -gt 1 ] && echo yes || echo "no: $done_count")"
has 'the names that many puts made' "$done_count" "$("$program" ls 7 shared_image / | grep -c ' f')"
has 'no new file of many puts' '' "$(find . -maxdepth 1 -name '.unixvol-*')"
rm -f output[0-9]* error[0-9]* status[0-9]*

# A command waits for a program that has locked the image.
if command -v flock > /dev/null; then
    for command in 'put shared_image /waiting hello 1' 'mkfs shared_image 500 20 0 0 1'; do
        read -r -a given <<< "$command"
        exec 9< shared_image
        flock 9
        "$program" "${given[0]}" 7 "${given[@]:1}" > output 2> error < /dev/null 9<&- &
        sleep 0.3
        stat -c %i shared_image > stood
        exec 9<&-
        wait $!
        echo $? > status
        wants "${given[0]} of an image that was locked" 0 none none
        has "${given[0]} of an image that was locked, once it isn't" no "$([ "$(stat -c %i shared_image)" = "$(cat stood)" ] && echo yes || echo no)"
    done
else
    echo 'skipped: images that are locked, since there is no flock'
fi

# A command that waits for its other input leaves the image to others meanwhile, and then changes the result.
# waits LABEL FED NAMES WORD..: runs the program on an image with the pipe as its standard input, makes a directory in the image meanwhile, and then
# feeds the file FED into the pipe: the root then has these names
waits() {
    prints none mkfs 7 image 100 4 0 0 1
    timeout 60 "$program" "${@:4}" > fed_output 2> fed_error < pipe &
    exec 9> pipe
    sleep 0.3
    runs_within 20 mkdir 7 image /meanwhile 2 9>&-
    wants "mkdir while $1 waits" 0 none none
    cat "$2" >&9
    exec 9>&-
    wait $!
    has "$1 that has waited" '0 ' "$? $(cat fed_error)"
    runs ls 7 image /
    has "the names after $1" "$3" "$(awk '{ print $2 }' output | paste -s -d ' ' -)"
}
"$program" mkfs 7 packed 100 4 0 0 1
"$program" put 7 packed /a hello 1
"$program" export 7 packed > packed.tar
waits put hello '. .. a meanwhile' put 7 image /a /dev/stdin 3
waits import packed.tar '. .. a meanwhile' import 7 image / 3
waits 'put -t' hello '. .. meanwhile stdin' put -t / 7 image /dev/stdin 3
echo '3 0 0 create /a 0644' > one_call
waits play one_call '. .. a meanwhile' play 7 image /dev/stdin

# Faults of the image that need no lock are reported before anything is waited for.
# tells LINE IMAGE: a change that would wait for its archive prints this line for an image at once, with status 3
tells() {
    sleep 30 > pipe &
    timeout 20 "$program" import 7 "$2" / 3 > output 2> error < pipe
    echo $? > status
    kill $!
    wait $! 2> /dev/null
    echo "$1" > line
    wants "import into $2, whose archive has to be waited for" 3 none line
}
tells 'unixvol: cannot read missing' missing
mkfifo unread
tells 'unixvol: cannot write unread' unread

# Endless input is read as far as its volume extends, in little memory.
# limited STATUS OUTPUT LINE WORD..: the program prints OUTPUT, and LINE on standard error, if any
limited() {
    if [ -n "$3" ]; then echo "$3" > line; else : > line; fi
    (ulimit -v 200000; exec timeout 120 "$program" "${@:4}" > output 2> error)
    echo $? > status
    wants "${*:4}, of what may have no end" "$1" "$2" line
}
limited 1 none 'unixvol: unsound, rule 2' ls 7 /dev/zero /
limited 1 none 'unixvol: unsound, rule 2' cat 6 /dev/zero 1
echo 'rule 2' > broken
limited 1 broken '' icheck 6 /dev/zero 1
limited 1 none 'unixvol: unsound, rule 2' rm 7 /dev/zero /a 1
runs ls 7 "$samples/linux_made.v7" /
cp output listed
limited 0 listed '' ls 7 /dev/stdin / < <(cat "$samples/linux_made.v7" /dev/zero)
image lying 4096
put lying 512 '05 00 00 01 01 00' # 16,777,217 blocks
limited 1 none 'unixvol: unsound, rule 1' ls 7 lying /
limited 1 none 'unixvol: unsound, rule 1' ls 7 /dev/stdin / < <(cat lying)
limited 3 none $'unixvol: cannot read /dev/stdin\nunixvol: /dev/stdin: it has more blocks than any volume, and its super-block says so' \
    ls 7 /dev/stdin / --explain < <(cat lying /dev/zero)

# A full disk: a volume of 500 blocks on a disk of 400 KB, which has no room for a second one, stays as it is, and nothing is left beside it.
mkdir disk
if mount -t tmpfs -o size=400k none disk 2> error; then
    trap 'umount "$folder/disk"; rm -rf "$folder"' EXIT
    prints none mkfs 7 disk/image 500 4 0 0 1
    cp disk/image before
    for command in 'mkdir /d 2' 'put /a hello 2' 'touch / 2'; do
        read -r -a given <<< "$command"
        refuses 3 $'unixvol: cannot write disk/image\nunixvol: disk/image: No space left on device (os error 28)' \
            --explain "${given[0]}" 7 disk/image "${given[@]:1}"
        saves "a volume on a full disk after ${given[0]}" disk/image before
        has "the files on a full disk after ${given[0]}" image "$(ls -A disk)"
    done
    mount -o remount,size=800k disk
    prints none mkdir 7 disk/image /d 2
    has 'the files on a disk that has room again' image "$(ls -A disk)"
    umount disk
    trap 'rm -rf "$folder"' EXIT
else
    echo 'skipped: a full disk, since no disk can be mounted here'
fi

# What a save asks the system for, in this order: a new file, its bytes, that they are on the disk, its lock, where both names lead, the rename; and then that
# the folder is on the disk.
# acts NEW OLD: reads a trace, and prints each act of a save once, the new file's descriptor and both names left out
acts() {
    awk -v new="\"$1\"" -v old="\"$2\"" '
        function act(name) { if (name != last) printf "%s%s", (last == "" ? "" : " "), name; last = name }
        /^openat/ && index($0, new) { fd = $NF; act(/O_CREAT\|O_EXCL/ ? "create" : "open") }
        fd == "" { next }
        /^write\(/ && $0 ~ "^write\\(" fd "," { act("fill") }
        /^(fsync|fdatasync)\(/ { act($0 ~ "\\(" fd "\\)" ? "sync" : "sync-folder") }
        /^flock\(/ && $0 ~ "^flock\\(" fd ",.*= 0$" { act("lock") }
        /^statx\(AT_FDCWD/ && last != "fill" && (index($0, new) || index($0, old)) { seen = seen (index($0, new) ? "new" : "old"); if (last == "lock") act("compare") }
        /^rename/ { act(seen ~ /old/ && seen ~ /new/ && index($0, new) < index($0, old) && / = 0$/ ? "rename" : "other-rename") }
        /^unlink/ { act("remove") }'
}
if strace -qq -o trace true 2> error; then
    prints none mkfs 7 image 100 4 0 0 1
    for command in 'mkdir /a 2' 'put /b hello 2' 'rm /b 2'; do
        read -r -a given <<< "$command"
        strace -qq -s 0 -o trace "$program" "${given[0]}" 7 image "${given[@]:1}" > output 2> error
        has "the status of ${given[0]} under strace" 0 $?
        has "what ${given[0]} asks the system for" 'create fill sync lock compare rename sync-folder' "$(acts .unixvol-0 image < trace)"
    done
else
    echo 'skipped: the order of a save, since strace traces nothing here'
fi

# Another program that writes the image, or replaces it, after a command has read it and before it saves: nothing is saved.
# meddled LABEL SHELL-COMMAND: runs the command once `play` has read the image, and before it has printed everything
meddled() {
    prints none mkfs 7 image 100 4 0 0 1
    touch -d '2001-02-03 04:05:06.789' image
    "$program" play 7 image long_script > pipe 2> error < /dev/null &
    # `play` prints more than a pipe holds. So once one byte of that has come, it waits until the others are read, and only then saves.
    exec 9< pipe
    head -c 1 <&9 > begun
    eval "$2"
    if [ -e image ]; then cp image stood; fi
    cat <&9 > rest
    exec 9<&-
    wait $!
    echo $? > status
    : > output
    echo 'unixvol: cannot write image' > line
    wants "play on an image $1" 3 none line
}
{ echo '3 0 0 create /a 644'; echo "3 0 0 write /a 0 $(head -c 512 /dev/zero | od -An -v -tx1 | tr -d ' \n')"; yes '4 0 0 read /a 0 512' | head -n 100; } > long_script
meddled 'that was written meanwhile' 'printf x | dd of=image bs=1 seek=600 conv=notrunc status=none'
saves 'an image that was written meanwhile' image stood
meddled 'that grew meanwhile' 'printf x >> image; touch -d "2001-02-03 04:05:06.789" image'
saves 'an image that grew meanwhile' image stood
meddled 'in whose place another one was put meanwhile' 'cp -p image other; mv other image'
saves 'an image in whose place another one was put meanwhile' image stood
meddled 'that was removed meanwhile' 'rm image'
has 'an image that was removed meanwhile' '' "$(find . -maxdepth 1 \( -name image -o -name '.unixvol-*' \))"
has 'what play has printed by then' 'records 2 confirmed 102' "$(tail -n 2 rest | paste -s -d ' ' -)"

echo "$passed passed, $failed failed"
[ "$failed" = 0 ]
