#!/usr/bin/env bash
# Mounts volumes of both editions with bin/unixvol-mount, by both its names, and the built program, and compares them, as the kernel shows them, with what
# `export` writes. Volumes mounted with changes are compared with a folder of the host in which the same calls were made at random (serves/walk.py): WALKS
# walks of STEPS calls for each edition, 2 of 400 unless they say otherwise.
# It needs root and /dev/fuse, and otherwise says that it is skipped. It has a mount namespace of its own, so that no other program's keeps what it mounts.
# Usage: tests/mount.sh PROGRAM. It prints a line for each row that fails, and ends with 'N passed, N failed'.
[ -n "${ALONE:-}" ] || ! unshare -m true 2> /dev/null || ALONE=yes exec unshare -m -- bash "$0" "$@"
walk=$(realpath "$(dirname "$0")/serves/walk.py")
mount=$(realpath "$(dirname "$0")/../bin/unixvol-mount")
. "$(dirname "$0")/rows.sh"
export UNIXVOL=$program
umount=$PWD/unixvol-umount
ln -s "$mount" "$umount"
linux="$samples/linux_made.v7"

# refuses_mount STATUS LINE WORD..: nothing is mounted, and the wrapper prints this line
refuses_mount() {
    printf '%s\n' "$2" > line
    "$mount" "${@:3}" > output 2> error < /dev/null
    echo $? > status
    wants "unixvol-mount ${*:3}" "$1" none line
}

# Refusals before anything is mounted.
mkdir mnt
usage='unixvol-mount: usage: unixvol-mount [--read-only] [--mine] [--allow-other] [--background] [--rescue FILE] [--at BLOCK] EDITION IMAGE FOLDER'
refuses_mount 2 "$usage"
refuses_mount 2 "$usage" --read-only 7 "$linux"
refuses_mount 2 "$usage" --rescue
refuses_mount 2 "$usage" --at
refuses_mount 2 "$usage" --rescue '' 7 "$linux" mnt
refuses_mount 2 "$usage" 7 "$linux" mnt --background
refuses_mount 1 'unixvol: unsound, rule 2' --read-only 6 "$linux" mnt
refuses_mount 1 'unixvol: unsound, rule 2' --background 6 "$linux" mnt
refuses_mount 3 "unixvol: cannot read $PWD/none.img" --read-only 7 none.img mnt
refuses_mount 3 "unixvol-mount: $PWD/none is no folder: make it by mkdir, or, if a server died there, unmount it by umount -l" --read-only 7 "$linux" none
refuses_mount 3 "unixvol-mount: $PWD/no\\c\\ne is no folder: make it by mkdir, or, if a server died there, unmount it by umount -l" --read-only 7 "$linux" 'no\c\ne'
changed "$linux" links.img $((1024 + 64 * 93 + 2)) 09
refuses_mount 1 'unixvol: unsound, rule 12' 7 links.img mnt
UNIXVOL=nothing refuses_mount 3 'unixvol-mount: there is no program nothing: install unixvol, or set UNIXVOL to where it is' --read-only 7 "$linux" mnt
mkdir gone
has 'a path from a folder that is gone' 'unixvol: cannot read ./none.img' "$(mnt=$PWD/mnt && cd gone && rmdir ../gone && "$mount" 7 none.img "$mnt" 2>&1 | tail -n 1)"
mkdir bare
has 'a mount without a tool that it needs' '3 unixvol-mount: there is no program find, which is needed: install it' \
    "$(PATH=$PWD/bare "$mount" 7 "$linux" mnt 2> error; echo $?) $(cat error)"
# The volume would hide its own image.
mkdir -p holder/below
cp "$linux" holder/below/image
refuses_mount 3 "unixvol-mount: $PWD/holder/below/image is in $PWD/holder, where the volume would hide it: take another folder" 7 holder/below/image holder
refuses_mount 3 "unixvol-mount: $PWD/holder/rescued is in $PWD/holder, where the volume would hide it: take another folder" --rescue holder/rescued 7 "$linux" holder

# as_umount STATUS LINE WORD..: unixvol-umount prints this line, if it isn't empty, and ends with this status
as_umount() {
    : > line
    [ -z "$2" ] || printf '%s\n' "$2" > line
    timeout 20 "$umount" "${@:3}" > output 2> error < /dev/null
    echo $? > status
    wants "unixvol-umount ${*:3}" "$1" none line
}

as_umount 2 'unixvol-umount: usage: unixvol-umount FOLDER'
as_umount 2 'unixvol-umount: usage: unixvol-umount FOLDER' --read-only mnt
as_umount 3 "unixvol-umount: nothing is mounted on $PWD/mnt" mnt
as_umount 3 "unixvol-umount: nothing is mounted on $PWD/none" none
for wrapper in "$mount" "$umount"; do
    has "the help of $wrapper" "usage: ${wrapper##*/} FOLDER" "$("$wrapper" --help 2> error | sed 's/-mount .*FOLDER/-mount FOLDER/')"
done

# called_with WORDS WORD..: the wrapper calls the program with these words, and shows what it says. (For a user who isn't root it adds --mine.)
printf '%s\n' '#!/bin/sh' 'echo "$GLIBC_TUNABLES" "$@" >&2' 'exit 9' > words
chmod +x words
called_with() {
    has "the words of unixvol-mount ${*:2}" "$1
9" "$(UNIXVOL=./words "$mount" "${@:2}" 2>&1 | sed 's/ --mine / /'; echo "${PIPESTATUS[0]}")"
}
called_with "glibc.malloc.hugetlb=1 serve -- 7 $linux" 7 "$linux" mnt
called_with "glibc.malloc.hugetlb=1 serve --read-only -- 6 $PWD/an image" --read-only --rescue file 6 'an image' mnt
called_with "glibc.malloc.hugetlb=1 serve --at 18000 -- 7 $PWD/x" --at 18000 7 x mnt
called_with "glibc.malloc.hugetlb=1 serve --rescue $PWD/a file -- 7 $PWD/x" --background --rescue 'a file' 7 x mnt
GLIBC_TUNABLES=glibc.malloc.check=1 called_with 'glibc.malloc.check=1:glibc.malloc.hugetlb=1 serve --rescue /file -- 7 /x' --rescue /file 7 /x mnt

# mounted EDITION IMAGE [OPTION..]: mounts the image on `mnt`, and waits until it is mounted; `wrapper` is the process
mounted() {
    "$mount" "${@:3}" "$1" "$2" mnt > said 2> told &
    wrapper=$!
    for _ in {1..100}; do
        mountpoint -q mnt && return
        kill -0 $wrapper 2> /dev/null || break
        sleep 0.1
    done
    has "a mount of $2" '' "$(cat told)"
}

# ended: waits until the wrapper has ended, and reads its status
ended() {
    timeout 20 tail --pid=$wrapper -f /dev/null || kill -KILL $wrapper $(pgrep -P $wrapper)
    wait $wrapper
}

# server: the process that serves the volume
server() { pgrep -P $wrapper -x "$(basename "$program")"; }

# unmounted LABEL STATUS LINE: the wrapper ends with this status and line, and nothing is mounted
unmounted() {
    ended
    has "$1" "$2 $3" "$? $(cat said told)"
    mountpoint -q mnt
    has "nothing is mounted after $1" 32 $?
}

skipped=
[ "$(id -u)" = 0 ] || skipped='only root mounts here'
[ -n "$skipped" ] || { [ -c /dev/fuse ] && (: <> /dev/fuse) 2> /dev/null; } || skipped='there is no /dev/fuse'
[ -n "$skipped" ] || unshare -m true 2> /dev/null || skipped='mounting is not allowed here'
if [ -n "$skipped" ]; then
    echo "skipped: mounts, since $skipped"
    echo "$passed passed, $failed failed"
    [ "$failed" = 0 ]
    exit
fi
trap 'umount -l mnt room 2> /dev/null; rm -rf "$folder"' EXIT

# same EDITION IMAGE: find, diff, grep, cp and stat find the same in `mnt` as the archive of the image has
same() {
    rm -rf out copy
    mkdir out
    "$program" export "$1" "$2" 2> /dev/null | tar -xpf - -C out 2> error
    has "what tar says of $2" '' "$(cat error)"
    has "diff of $2" '' "$(diff -r out mnt 2>&1 | head -n 5)"
    has "paths of $2" "$(cd out && find . | LC_ALL=C sort)" "$(cd mnt && find . | LC_ALL=C sort)"
    # The root of an archive has no member of its own.
    has "attributes of $2" "$(cd out && find . -mindepth 1 -type f -printf '%p %y %m %n %U %G %s %T@\n' | LC_ALL=C sort)" \
        "$(cd mnt && find . -mindepth 1 -type f -printf '%p %y %m %n %U %G %s %T@\n' | LC_ALL=C sort)"
    has "a search in $2" "$(cd out && grep -rl hello . | LC_ALL=C sort)" "$(cd mnt && grep -rl hello . | LC_ALL=C sort)"
    cp -a mnt copy
    has "a copy of $2" '' "$(diff -r out copy 2>&1 | head -n 5)"
    has "i-numbers of $2" "$("$program" ls -R "$1" "$2" | awk '/^ *[0-9]+ / && $2 != "." && $2 != ".." { print $1 }' | sort -n)" \
        "$(find mnt -mindepth 1 -printf '%i\n' | sort -n)"
}

mounted 7 "$linux" --read-only
same 7 "$linux"
has 'bytes from the middle of a file' "$("$program" get 7 "$linux" /usr/numbers | tail -c +4000 | md5sum)" "$(tail -c +4000 mnt/usr/numbers | md5sum)"
has 'a name that is not there' 1 "$(test -e mnt/none; echo $?)"
has 'a name of 15 bytes' 'File name too long' "$(LC_ALL=C cat mnt/usr/fifteen-bytes.. 2>&1 | sed 's/.*: //')"
has 'a file that is made' 'Read-only file system' "$(LC_ALL=C touch mnt/new 2>&1 | sed 's/.*: //')"
refuses_mount 3 "unixvol-mount: something is mounted on $PWD/mnt: unmount it, or take another folder" --read-only 7 "$linux" mnt
umount mnt
unmounted 'umount' 0 ''

for edition in 6 7; do
    "$program" mkfs "$edition" volume 6000 40 0 0 1000
    printf '1001 0 0 %s\n' 'mkdir /d 755' 'mkdir /d/fourteen-bytes 700' 'create /d/fourteen-bytes/abcdefghijklmn 644' 'link /d/fourteen-bytes/abcdefghijklmn /x' \
        'create /empty 4755' 'create /hole 600' 'write /hole 5000 6161' 'write /x 0 68656c6c6f' 'chown /empty 7 3' > script
    "$program" play "$edition" volume script > played
    head -c 1200000 /dev/urandom > random
    "$program" put "$edition" volume /d/random random 1002
    mounted "$edition" volume --read-only
    same "$edition" volume
    # Several readers at once.
    for _ in 1 2 3 4; do (cp -r mnt "copy.$BASHPID" && diff -r out "copy.$BASHPID" > "diff.$BASHPID" 2>&1) & pids+=($!); done
    wait "${pids[@]}"
    has "four copies at once in edition $edition" '4 0' "$(ls diff.* | wc -l) $(cat diff.* | wc -c)"
    rm -rf copy.* diff.*
    pids=()
    # A shell without job control lets background processes ignore INT.
    kill -TERM $wrapper
    unmounted "a signal in edition $edition" 0 ''
done

# A volume that isn't sound is mounted with a line.
mounted 7 links.img --read-only
has 'a file of a volume that is not sound' welcome "$(cat mnt/etc/motd)"
umount mnt
unmounted 'umount of a volume that is not sound' 0 'unixvol: unsound, rule 12'

# Open files: a plain umount is refused, a lazy one leaves them.
mounted 7 "$linux" --read-only
exec 9< mnt/etc/motd
kill -TERM $wrapper
sleep 0.3
has 'a signal while a file is open' "unixvol-mount: $PWD/mnt is in use: end what uses it, and unmount it" "$(cat told)"
umount -l mnt
has 'a file that was open' welcome "$(cat <&9)"
exec 9<&-
unmounted 'umount -l' 0 "unixvol-mount: $PWD/mnt is in use: end what uses it, and unmount it"

# The server dies, and nobody waits for ever.
killed="3 unixvol-mount: the server was killed, so $PWD/mnt is unmounted, and what came after its last save is lost"
mounted 7 "$linux" --read-only
exec 9< mnt/usr/numbers
for signal in INT TERM HUP KILL; do
    has "a file before $signal" welcome "$(timeout 10 cat mnt/etc/motd)"
    kill -$signal "$(server)"
done
ended 2> none.txt
has 'the wrapper of a server that was killed' "$killed" "$? $(grep unixvol-mount: told)"
has 'a file of a server that was killed' 'Transport endpoint is not connected' "$(LC_ALL=C timeout 10 cat <&9 2>&1 | sed 's/.*: //')"
exec 9<&-
mountpoint -q mnt
has 'nothing is mounted after a server was killed' 32 $?

# exported EDITION IMAGE: `out` has the files of the image
exported() {
    rm -rf out
    mkdir out
    "$program" export "$1" "$2" | tar -xpf - -C out
}

# sound EDITION IMAGE: the image keeps all rules
sound() {
    "$program" check "$1" "$2" > output 2>&1
    has "a sound image, $2 of edition $1" 0 $?
}

# Changes. The archive has what goes in: names of 14 bytes at most, directories, a second name.
exported 7 "$linux"
mv out given
tar -cf given.tar -C given .
for edition in 6 7; do
    "$program" mkfs "$edition" volume 40000 200 0 0 1000
    mounted "$edition" volume
    rm -rf host
    mkdir host
    for ((seed = 1; seed <= ${WALKS:-2}; seed++)); do
        command -v python3 > /dev/null || { echo 'skipped: walks, since there is no python3'; break; }
        mkdir "mnt/walk$seed" "host/walk$seed"
        has "walk $seed in edition $edition" '' "$(python3 "$walk" walk "mnt/walk$seed" "host/walk$seed" "$edition$seed" "${STEPS:-400}" 2>&1)"
    done
    mkdir mnt/tar host/tar
    tar -xpf given.tar -C mnt/tar && tar -xpf given.tar -C host/tar
    cp -a given mnt/copy && cp -a given host/copy
    for n in 1 2 3 4; do (cp -r given "mnt/copy$n" && cp -r given "host/copy$n") & pids+=($!); done
    wait "${pids[@]}"
    pids=()
    mv mnt/copy1 mnt/moved && mv host/copy1 host/moved
    rm -r mnt/copy2 host/copy2
    has "all files in edition $edition" '' "$(diff -r host mnt 2>&1 | head -n 5)"
    has "a lock in edition $edition" 1 "$(flock -n volume true; echo $?)"
    sync mnt
    exported "$edition" volume
    has "what sync saves in edition $edition" '' "$(diff -r host out 2>&1 | head -n 5)"
    has "a lock after sync in edition $edition" 1 "$(flock -n volume true; echo $?)"
    echo last > mnt/last
    cp mnt/last host/last
    if [ "$edition" = 6 ]; then umount mnt; else kill -TERM $wrapper; fi
    unmounted "changes in edition $edition" 0 ''
    sound "$edition" volume
    mounted "$edition" volume
    has "all files, mounted anew, in edition $edition" '' "$(python3 "$walk" same mnt host 2>&1)"
    umount mnt
    unmounted "no changes in edition $edition" 0 ''
done

# A volume that is full.
"$program" mkfs 7 small 400 10 0 0 1000
mounted 7 small
has 'a volume that is full' 'No space left on device' "$(LC_ALL=C dd if=/dev/zero of=mnt/big bs=64k count=16 2>&1 | sed -n '1s/.*: //p')"
has 'what fitted' 131072 "$(stat -c %s mnt/big)"
umount mnt
unmounted 'a volume that is full' 0 ''
sound 7 small

# Special files are made, copied and saved with their numbers.
for edition in 6 7; do
    "$program" mkfs "$edition" special 400 10 0 0 1000
    mounted "$edition" special
    mknod -m 620 mnt/tty c 3 5
    mknod -m 640 mnt/rk b 0 255
    cp -a mnt/tty mnt/copy
    has "numbers that are too great, in edition $edition" 'Operation not permitted' "$(LC_ALL=C mknod mnt/no c 256 0 2>&1 | sed 's/.*: //')"
    has "a FIFO in edition $edition" 'Operation not permitted' "$(LC_ALL=C mkfifo mnt/no 2>&1 | sed 's/.*: //')"
    has "special files in edition $edition" 'copy c 3 5 620 rk b 0 ff 640 tty c 3 5 620' \
        "$(cd mnt && stat -c '%n %F %t %T %a' copy rk tty | sed 's/ character special file / c /; s/ block special file / b /' | paste -s -d ' ')"
    umount mnt
    unmounted "special files in edition $edition" 0 ''
    sound "$edition" special
    has "special files that are saved in edition $edition" 'crw--w---- 3,5 copy brw-r----- 0,255 rk crw--w---- 3,5 tty' \
        "$("$program" ls -l "$edition" special / | sed 's/, */,/' | awk '$NF !~ /^\./ { print $2, $6, $NF }' | paste -s -d ' ')"
done

# The server dies: the image is the old one, or that of the last save.
cp volume old
mounted 7 volume
echo new > mnt/new
kill -KILL "$(server)"
ended 2> none.txt
has 'the wrapper of a changing server that was killed' "$killed" "$? $(grep unixvol-mount: told)"
saves 'a server that was killed' volume old
mounted 7 volume
echo saved > mnt/saved
sync mnt
echo new > mnt/new
kill -KILL "$(server)"
ended 2> none.txt
has 'the wrapper of a server that was killed after a save' "$killed" "$? $(grep unixvol-mount: told)"
has 'what was saved' 'saved 1' "$("$program" get 7 volume /saved) $("$program" get 7 volume /new > none.txt 2>&1; echo $?)"
sound 7 volume

# in_background LINE EDITION IMAGE [OPTION..]: when the wrapper ends, the image is mounted on `mnt`, and it has printed this line, if it isn't empty. It
# doesn't keep who reads that waiting.
in_background() {
    has "a mount of $3 in the background" "${1:+$1
}0" "$(timeout 20 "$mount" --background "${@:4}" "$2" "$3" mnt 2>&1; echo $?)"
    mountpoint -q mnt
    has "$3 is mounted" 0 $?
    server=$(pgrep -n -f "serve .*-- $2 $PWD/$3")
}

# all_saved LABEL IMAGE PATH: unixvol-umount saves the volume, and when it ends, nothing is mounted, the image isn't locked, and has a file
all_saved() {
    as_umount 0 '' mnt
    has "$1: the image isn't locked" 0 "$(flock -n "$2" true; echo $?)"
    mountpoint -q mnt
    has "$1: nothing is mounted" 32 $?
    has "$1: the file" new "$("$program" get 7 "$2" "/$3")"
}

in_background '' 7 volume
echo new > mnt/first
all_saved 'a mount in the background' volume first
mounted 7 volume
echo new > mnt/second
all_saved 'a mount in the foreground' volume second
unmounted 'unixvol-umount' 0 ''

# By itself it goes on when the shell ends that began it; TERM unmounts.
in_background '' 7 volume
keeper=$(($(ps -o ppid= -p "$server")))
kill -INT $keeper
kill -HUP $keeper
sleep 0.3
has 'a file after INT and HUP' new "$(cat mnt/second)"
echo new > mnt/third
kill -TERM $keeper
timeout 20 tail --pid=$keeper -f /dev/null
mountpoint -q mnt
has 'nothing is mounted after TERM' 32 $?
has 'what TERM saved' new "$("$program" get 7 volume /third)"

# A volume that is used stays mounted, and is saved.
in_background '' 7 volume
exec 9< mnt/third
echo new > mnt/fourth
LC_ALL=C as_umount 3 "unixvol-umount: $PWD/mnt is saved, but stays mounted: umount: $PWD/mnt: target is busy." mnt
has 'what was saved while it is used' new "$("$program" get 7 volume /fourth)"
exec 9<&-
all_saved 'a volume that was used' volume fourth

# A volume that can't be saved stays mounted, and can be saved later. What the server said is in a file, or is told by unixvol-umount.
cp volume other
unsaved="unixvol-umount: $PWD/mnt can't be saved, so it stays mounted: Input/output error"
in_background '' 7 volume
echo new > mnt/fifth
mv volume aside
cp other volume
LC_ALL=C as_umount 3 "unixvol: cannot write $PWD/volume
$unsaved" mnt
mv aside volume
as_umount 0 "unixvol: cannot write $PWD/volume" mnt
has 'what was saved later' new "$("$program" get 7 volume /fifth)"
timeout 20 "$mount" --background 7 volume mnt 2> told
echo new > mnt/sixth
mv volume aside
cp other volume
LC_ALL=C as_umount 3 "$unsaved" mnt
has 'what the server said' "unixvol: cannot write $PWD/volume" "$(cat told)"
mv aside volume
all_saved 'a volume with lines in a file' volume sixth

# Each save needs room for the image once more.
mkdir room
mount -t tmpfs -o size=1m none room
cat "$linux" /dev/zero | head -c 614400 > room/volume
room=$(df -B 1 --output=avail room | tail -n 1)
in_background "unixvol-mount: each save needs room for the image once more, 614400 bytes, but $PWD/room/ has $room" 7 room/volume
echo new > mnt/new
LC_ALL=C as_umount 3 "unixvol: cannot write $PWD/room/volume
$unsaved" mnt
mount -o remount,size=2m room
as_umount 0 "unixvol: cannot write $PWD/room/volume" mnt
has 'what was saved once there was room' new "$("$program" get 7 room/volume /new)"
mount -o remount,size=1m room
in_background '' 7 room/volume --read-only
as_umount 0 '' mnt
# If nothing can be written there, that is reported at once.
mount -o remount,ro room
in_background "unixvol-mount: no save can be made, since $PWD/room/volume can't be written" 7 room/volume
as_umount 0 '' mnt
umount room

# Once it has ended, the file system in which it was called can be unmounted.
mount -t tmpfs none room
(cd room && exec "$mount" 7 ../volume ../mnt > ../said 2> ../told) &
wrapper=$!
for _ in {1..100}; do ! mountpoint -q mnt || break; sleep 0.1; done
sleep 0.3
umount mnt
unmounted 'a mount that was called in a file system' 0 ''
has 'the file system in which it was called' 0 "$(umount room 2>&1; echo $?)"

# A last save that fails goes into the file of --rescue.
if "$program" serve --help | grep -q -e --rescue; then
    "$program" mkfs 7 lost 400 10 0 0 1000
    in_background '' 7 lost --rescue 'a rescue'
    echo new > mnt/new
    mv lost aside
    cp other lost
    umount mnt
    timeout 20 tail --pid="$server" -f /dev/null
    has 'what was rescued' new "$("$program" get 7 'a rescue' /new)"
else
    echo "skipped: --rescue, since this program's serve has none"
fi

# A volume that isn't sound; files and folders with spaces.
in_background 'unixvol: unsound, rule 12' 7 links.img --read-only
as_umount 0 '' mnt
mkdir 'a folder'
cp volume 'an image'
has 'names with spaces' 0 "$("$mount" --background 7 'an image' 'a folder' 2>&1; echo $?)"
echo new > 'a folder/seventh'
as_umount 0 '' 'a folder'
has 'what was saved in a file with a space' new "$("$program" get 7 'an image' /seventh)"
mkdir $'folder\n'
cp volume $'image\n'
has 'names with newlines at their ends' 0 "$("$mount" --background 7 $'image\n' $'folder\n' 2>&1; echo $?)"
echo new > $'folder\n/line'
as_umount 0 '' $'folder\n'
has 'what was saved in a file with a newline at its end' new "$("$program" get 7 $'image\n' /line)"

# An image to which the given path leads through the folder.
cd mnt
timeout 20 "$mount" --background --allow-other 7 ../volume . > ../told 2>&1
has 'the status of a mount by a path through the folder' '0 ' "$? $(cat ../told)"
cd ..
echo new > mnt/through
all_saved 'a mount by a path through the folder' volume through

# Without standard output; and with a program in a folder of PATH that isn't absolute.
"$mount" --background 7 volume mnt >&-
has 'the status of a mount without standard output' 0 $?
echo new > mnt/eighth
all_saved 'a mount without standard output' volume eighth
mkdir programs
ln -s "$program" programs/unixvol
UNIXVOL='' PATH=programs:$PATH in_background '' 7 volume
echo new > mnt/ninth
all_saved 'a mount by a program in PATH' volume ninth

# A volume that another namespace has mounted too is served until that ends.
in_background '' 7 volume
unshare -m sh -c 'echo ready; exec sleep 7' > pipe.txt &
until [ -s pipe.txt ]; do sleep 0.1; done
as_umount 0 "unixvol-umount: waiting for the server: it saves, or the volume is mounted in another namespace too, such as a container's" mnt
wait $!

# What no wrapper serves.
mount -t tmpfs none mnt
as_umount 3 "unixvol-umount: no unixvol-mount serves $PWD/mnt: unmount it by umount" mnt
umount mnt

# The server's own status, and servers that end before they serve: with /dev/null as standard input, all is well with these.
serving='case $(readlink /proc/self/fd/0) in /dev/null) exit ;; esac'
printf '%s\n' '#!/bin/sh' "$serving" "\"$program\" \"\$@\"" 'echo "unixvol: cannot write x" >&2' 'exit 3' > failing
printf '%s\n' '#!/bin/sh' "$serving" 'echo "unixvol: 12 NoMemory" >&2' 'exit 4' > ending
chmod +x failing ending
UNIXVOL=./failing in_background '' 7 volume
as_umount 3 'unixvol: cannot write x' mnt
export UNIXVOL=$PWD/failing
mounted 7 volume
as_umount 3 "unixvol-umount: the server of $PWD/mnt ended with status 3, and said why where it was begun" mnt
unmounted 'a server with a status' 3 'unixvol: cannot write x'
export UNIXVOL=$PWD/ending
refuses_mount 4 'unixvol: 12 NoMemory' 7 volume mnt
refuses_mount 4 'unixvol: 12 NoMemory' --background 7 volume mnt
export UNIXVOL=$program
mkdir refusing
printf '%s\n' '#!/bin/sh' 'echo "mount: not today" >&2' 'exit 32' > refusing/mount
chmod +x refusing/mount
PATH=$PWD/refusing:$PATH refuses_mount 3 "unixvol-mount: the volume can't be mounted: mount: not today" 7 volume mnt
PATH=$PWD/refusing:$PATH refuses_mount 3 "unixvol-mount: the volume can't be mounted: mount: not today" --background 7 volume mnt
mountpoint -q mnt
has 'nothing is mounted after refusals' 32 $?

# The server, or what waits for it, dies.
in_background '' 7 volume
keeper=$(($(ps -o ppid= -p "$server")))
kill -KILL "$server"
timeout 20 tail --pid=$keeper -f /dev/null
as_umount 3 "unixvol-umount: nothing is mounted on $PWD/mnt" mnt
in_background '' 7 volume
kill -KILL $(ps -o ppid= -p "$server")
as_umount 3 "unixvol-umount: no unixvol-mount serves $PWD/mnt: unmount it by umount" mnt
umount mnt
timeout 20 tail --pid="$server" -f /dev/null
sound 7 volume

# Another file in the image's place isn't replaced.
mounted 7 small
cp old put-there
mv put-there small
touch mnt/touched
umount mnt
unmounted 'an image that was replaced' 3 "unixvol: cannot write $PWD/small
unixvol: $PWD/small: not saved; the volume is in $PWD/small.unixvol-rescue-0"
has 'what was rescued' 'touched' "$("$program" ls 7 small.unixvol-rescue-0 | awk '$2 == "touched" { print $2 }')"
has 'the file that replaced it' '' "$(cmp old small 2>&1)"

# A user who mounts by fusermount3 gets no Python module from the folder in which he calls.
mkdir -m 777 called
printf '%s\n' '#!/bin/sh' 'echo "fusermount3: not on $4 today" >&2' 'exit 1' > called/fusermount3
printf '%s\n' 'import sys' 'sys.exit("a module of the folder")' > called/socket.py
chmod +x called/fusermount3
cp "$mount" "$program" called
ln -s unixvol-mount called/unixvol-umount
"$program" mkfs 7 called/volume 400 10 0 0 1000
chmod 666 called/volume
chmod 711 .
mknod -m 666 fuse c 10 229
# as_user COMMAND: runs it as another user in that folder
as_user() { (cd called && PATH=$PWD:/usr/bin:/bin UNIXVOL=./${program##*/} setpriv --reuid=65534 --regid=65534 --clear-groups sh -c "$1") 2>&1; }
if as_user 'python3 -I -c "import socket"' > said && mount --bind fuse /dev/fuse; then
    mkdir called/mnt
    ln -s mnt called/led
    for name in mnt led mnt/.; do
        has "a mount on $name by fusermount3" "fusermount3: not on $PWD/called/mnt today 3" "$(as_user "unixvol-mount 7 volume $name; echo \$?" | paste -s -d ' ')"
    done
    mkdir called/kept
    mv called/volume called/kept
    if as_user 'unshare -rm true' > said; then
        has 'a mount of a file in a folder that is kept' "unixvol-mount: no save can be made, since no file can be made in $PWD/called/kept/
0" "$(as_user 'unshare -rm sh -c "unixvol-mount --background 7 kept/volume mnt && unixvol-umount mnt; echo \$?"')"
    else
        echo 'skipped: a folder that is kept, since no other user makes a namespace here'
    fi
    umount /dev/fuse
else
    echo 'skipped: mounts by fusermount3, since no other user runs Python here'
fi

# Within a user's namespace all files are his.
if unshare -rm true 2> /dev/null; then
    "$program" mkfs 7 volume 400 10 0 0 1000
    printf '1001 0 0 %s\n' 'create /his 600' 'chown /his 7 3' > script
    "$program" play 7 volume script > played
    unshare -rm sh -c '"$0" 7 volume mnt > said 2> told & until mountpoint -q mnt; do sleep 0.1; done
        stat -c "%u %g" mnt/his; echo more >> mnt/his; echo new > mnt/new; umount mnt; wait' "$mount" > output 2> error
    has 'all files in a namespace' '0 0' "$(cat output error told)"
    has 'files of a namespace' 'more new 7 3 0 0' "$("$program" get 7 volume /his) $("$program" get 7 volume /new) $(
        "$program" ls -l 7 volume | awk '/ his$/ { his = $4 " " $5 } / new$/ { print his, $4, $5 }')"
else
    echo "skipped: a user's namespace, since none can be made here"
fi

echo "$passed passed, $failed failed"
[ "$failed" = 0 ]
