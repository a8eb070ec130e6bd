#!/usr/bin/env bash
# Makes the images for lessons: a small sound volume of each edition, and copies of it in each of which one rule of soundness is broken. Beside each
# image, in IMAGE.txt, are the commands that made it and what the checkers print: `check` always, `icheck`, `dcheck` and `ncheck` if they print
# something else than of the sound volume. The same program makes the same bytes each time.
# Usage: samples/lessons/make.sh PROGRAM FOLDER
set -euo pipefail
program=$(realpath "${1:?usage: $0 PROGRAM FOLDER}")
folder=$(realpath "${2:?usage: $0 PROGRAM FOLDER}")
room=$(mktemp -d)
trap 'rm -rf "$room"' EXIT
cd "$room"
unixvol() { "$program" "$@" 2>&1; }

# shows COMMAND..: each command after a prompt, and what it prints
shows() {
    local command
    for command in "$@"; do
        echo "\$ $command"
        eval "$command" || true
    done
}

# checked IMAGE SOUND: what `check` prints of an image, and of the other checkers those that print something else than of the image SOUND
checked() {
    local edition=${1##*.v} checker
    shows "unixvol check $edition $1"
    for checker in icheck dcheck ncheck; do
        [ "$(unixvol $checker "$edition" "$1" 1)" = "$(unixvol $checker "$edition" "$2" 1)" ] || shows "unixvol $checker $edition $1 1"
    done
}

# sound IMAGE SENTENCE COMMAND..: makes a sound volume by the commands, and its text, with what all checkers print
sound() {
    printf '%s\n\n' "$2"
    shows "${@:3}"
    checked "$1" missing
} > "$1.txt"

# broken IMAGE SENTENCE COMMAND..: makes an image from the sound volume of its edition by the commands, and its text
broken() {
    printf '%s\n\n' "$2"
    shows "${@:3}"
    checked "$1" "sound.${1##*.}"
} > "$1.txt"

# byte IMAGE AT OCTAL SENTENCE: makes an image from the sound volume of its edition by another byte at this place, and its text
byte() {
    broken "$1" "Byte $2: $4" "cp sound.${1##*.} $1" "printf '\\$3' | dd of=$1 bs=1 seek=$2 conv=notrunc status=none"
}

# i_node EDITION INO: the place of an i-node
i_node() { echo $((1024 + ($1 == 6 ? 32 : 64) * ($2 - 1))); }

sound sound.v7 'A sound volume of the seventh edition: 16 blocks, one of them i-list, with 8 i-nodes.' \
    'day=1979-01-10T12:00:00Z' \
    "echo 'hello, disk' > motd" \
    'seq 200 > letter' \
    'unixvol mkfs 7 sound.v7 16 1 0 0 $day' \
    'unixvol mkdir 7 sound.v7 /etc $day' \
    'unixvol put 7 sound.v7 /etc/motd motd $day' \
    'unixvol mkdir 7 sound.v7 /usr $day' \
    'unixvol put 7 sound.v7 /usr/letter letter $day' \
    'unixvol ln 7 sound.v7 /etc/motd /welcome $day' \
    'unixvol put 7 sound.v7 /draft motd $day' \
    'unixvol rm 7 sound.v7 /draft $day'
sound sound.v6 'A sound volume of the sixth edition: 24 blocks, one of them i-list, with 16 i-nodes. The file /numbers is a large one.' \
    'day=1979-01-10T12:00:00Z' \
    "echo 'hello, disk' > motd" \
    'seq 1200 > numbers' \
    'unixvol mkfs 6 sound.v6 24 1 0 0 $day' \
    'unixvol mkdir 6 sound.v6 /etc $day' \
    'unixvol put 6 sound.v6 /etc/motd motd $day' \
    'unixvol put 6 sound.v6 /numbers numbers $day'

broken rule_01.v7 'Bytes 7680 to 8191: the last of the 16 blocks is missing, while `fsize` in the super-block, at byte 514, still says 16.' \
    'head -c 7680 sound.v7 > rule_01.v7'
byte rule_02.v7 512 002 \
    '`isize` in the super-block is 2 in place of 3, so that no block is left for the i-list.'
byte rule_03.v7 $(($(i_node 7 7) + 1)) 241 \
    'the mode of i-node 7, /etc/motd, is 0120644 in place of 0100644: a symbolic link in later systems, and nothing in the seventh edition.'
byte rule_03.v6 $(($(i_node 6 15) + 1)) 001 \
    'the mode of i-node 15, /etc/motd, is 0644 in place of 0100644, without the bit that says that an i-node is allocated.'
byte rule_04.v7 $(($(i_node 7 5) + 9)) 200 \
    'the size of i-node 5, /usr/letter, has its highest bit set, so that the system itself would take it for negative.'
byte rule_04.v6 $(($(i_node 6 14) + 1)) 201 \
    'the mode of i-node 14, /numbers, is 0100644 in place of 0110644, without the bit for a large file, so that its indirect block is taken for data.'
byte rule_05.v7 $(($(i_node 7 5) + 16)) 002 \
    '`addr[1]` of i-node 5, /usr/letter, names block 2 in place of block 8, so that a write to the file would destroy the i-list.'
byte rule_06.v7 546 011 \
    '`free[6]` in the super-block is 9 in place of 10, as `free[7]` is, so that block 9 would be given to two files.'
byte rule_07.v7 $(($(i_node 7 7) + 13)) 007 \
    '`addr[0]` of i-node 7, /etc/motd, names block 7 in place of block 5, as that of /usr/letter does, so that a write to one file changes the other.'
byte rule_08.v7 518 007 \
    '`nfree` in the super-block is 7 in place of 8, so that block 9, the next to be given out, is forgotten.'
byte rule_09.v7 1616 004 \
    'the i-number in slot 5 of the root, that of the removed file /draft, is 4 in place of 0, though i-node 4 is free.'
byte rule_10.v7 3088 010 \
    'the i-number of `..` in /usr is 8 in place of 2, so that it leads to /etc and not to the root.'
byte rule_11.v7 1616 006 \
    'the i-number in slot 5 of the root is 6 in place of 0, so that the directory /usr has a second name, /draft.'
byte rule_12.v7 $(($(i_node 7 7) + 2)) 001 \
    'the link count of i-node 7, /etc/motd and /welcome, is 1 in place of 2, so that removing one name would free the file that the other leads to.'

cp sound.* rule_* "$folder"
