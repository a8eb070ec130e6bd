#!/usr/bin/env bash
# Times a mounted volume against fuse2fs, which mounts an ext2 image with the same files: 100,000,000 bytes of one file, and a stat of each of 5,000
# files in one directory. Both are mounted again for each run, so that nothing is cached, and the bytes read are compared. Then it times changes of
# an empty volume: as many bytes written, 5,000 files made, 10,000 writes of a byte, all removed, and what unmounting takes until all is saved.
# Usage: bench/mounted.sh PROGRAM. It needs root, /dev/fuse and 600 MB of disk. Times are the best of five alternating runs. Without fuse2fs its column says so.
# FOLDER names another folder for the files than bench/out.
set -uo pipefail
export LC_ALL=C
program=$(realpath "${1:?usage: bench/mounted.sh PROGRAM}")
bench=$(dirname "$(realpath "$0")")
export UNIXVOL=$program
mkdir -p "${FOLDER:=$bench/out}"
cd "$FOLDER" || exit 1
trap 'umount -l mounted 2> /dev/null; rm -rf files mounted seven.img ext2.img empty.seven empty.ext2 changed.img output wanted told' EXIT
[ -c /dev/fuse ] && (: <> /dev/fuse) && mkdir -p mounted files/many || exit 1

# mount_ours, mount_theirs: mounts an image on `mounted`, to be read; change_ours, change_theirs: a copy of an empty one, to be changed
mount_ours() { "$bench/../bin/unixvol-mount" --read-only 7 seven.img mounted > told 2>&1 & }
mount_theirs() { fuse2fs -f -o ro ext2.img mounted > told 2>&1 & }
change_ours() {
    cp empty.seven changed.img
    "$bench/../bin/unixvol-mount" 7 changed.img mounted > told 2>&1 &
}
change_theirs() {
    cp empty.ext2 changed.img
    fuse2fs -f changed.img mounted > told 2>&1 &
}
up() {
    until mountpoint -q mounted; do sleep 0.05; done
    sleep 0.2
}

# unmount: unmounts, and waits until all is saved
unmount() {
    umount mounted
    wait
}

# microseconds WORD..: runs a command, with its output in `output`, and leaves its microseconds in `taken`
microseconds() {
    local begin=${EPOCHREALTIME/./}
    "$@" > output || exit 1
    taken=$((${EPOCHREALTIME/./} - begin))
}

# quickest MOUNT WORD..: mounts five times, and leaves the microseconds of the command's quickest run in `best`
quickest() {
    local mount=$1
    shift
    best=999999999
    for _ in 1 2 3 4 5; do
        $mount
        up
        microseconds "$@"
        [ "$taken" -lt "$best" ] && best=$taken
        unmount
    done
}

# The changes, in their order, and their labels.
labels=('write 100,000,000 bytes' 'make 5,000 files' 'write 10,000 times a byte' 'remove all' 'unmount and save')
changes=('cat files/big > mounted/big' 'mkdir mounted/many; for ((n = 0; n < 5000; n++)); do : > mounted/many/f$n; done'
    'dd if=files/big of=mounted/bytes bs=1 count=10000 status=none' 'rm -r mounted/many mounted/big mounted/bytes')

# quickest_changes MOUNT: mounts an empty volume five times, and leaves the microseconds of the quickest run of each change in `times`
quickest_changes() {
    times=(999999999 999999999 999999999 999999999 999999999)
    for _ in 1 2 3 4 5; do
        $1
        up
        for n in "${!labels[@]}"; do
            if [ "$n" = 4 ]; then microseconds unmount; else microseconds bash -c "${changes[n]}"; fi
            [ "$taken" -lt "${times[n]}" ] && times[n]=$taken
        done
    done
}

# print_row LABEL OURS THEIRS: a row, from microseconds; fuse2fs has none where it isn't installed
print_row() {
    awk -v label="$1" -v ours="$2" -v theirs="$3" 'BEGIN {
        if (theirs) printf "%-38s %9.1f %9.1f %6.2f\n", label, ours / 1000, theirs / 1000, ours / theirs
        else printf "%-38s %9.1f %9s\n", label, ours / 1000, "not installed"
    }'
}

# row LABEL WORD..: a row of the table; both must read the same bytes
row() {
    local label=$1 ours
    shift
    quickest mount_ours "$@"
    ours=$best
    mv output wanted
    if ! command -v fuse2fs > /dev/null; then
        print_row "$label" "$ours" ''
        return
    fi
    quickest mount_theirs "$@"
    cmp output wanted || exit 1
    print_row "$label" "$ours" "$best"
}

head -c 100000000 /dev/urandom > files/big || exit 1
for number in $(seq 5000); do echo "$number" > "files/many/f$number"; done
"$program" mkfs 7 seven.img 215000 700 0 0 173750400 || exit 1
tar -cf - --owner=0 --group=0 -C files . | "$program" import 7 seven.img / 173750500 || exit 1
! command -v fuse2fs > /dev/null || mke2fs -q -t ext2 -d files ext2.img 150M || exit 1
echo "load before: $(cut -d ' ' -f 1-3 /proc/loadavg)"
printf '%-38s %9s %9s %6s\n' job 'ms' 'fuse2fs' ratio
row 'read 100,000,000 bytes, mounted' cat mounted/big
row 'stat of 5,000 files, mounted' bash -c "find mounted/many -type f -printf '%f %s\n' | sort"
"$program" mkfs 7 empty.seven 215000 700 0 0 173750400 || exit 1
quickest_changes change_ours
ours=("${times[@]}")
times=()
if command -v fuse2fs > /dev/null; then
    mke2fs -q -t ext2 empty.ext2 150M || exit 1
    quickest_changes change_theirs
fi
for n in "${!labels[@]}"; do print_row "${labels[n]}" "${ours[n]}" "${times[n]:-}"; done
