#!/usr/bin/env bash
# Runs the built program when memory, the stack, the disk or a descriptor fails, and when a signal ends it, and checks what is left.
# Usage: tests/faults.sh PROGRAM [RUNS]. Each kind of fault is tried RUNS times, 1,000 by default, over all commands in turn.
# After each run the status is 0 to 4 or, if a signal ended it, that signal's own; the image is the old one or the new one, complete, and the new one
# if the status is 0; standard output has a prefix of its output, and all of it if the status is 0; standard error has one line if the status is 1 to
# 4, and otherwise none; only a signal leaves a file `.unixvol-N`. A play that runs to its end reports on standard output which lines had no memory,
# and is saved.
# It prints a line for each run that breaks this, one for each kind of fault, and ends with 'N passed, N failed'.
set -uo pipefail
export LC_ALL=C
program=$(realpath "${1:?usage: tests/faults.sh PROGRAM [RUNS]}")
runs=${2:-1000}
tests=$(realpath "$(dirname "$0")")
folder=$(mktemp -d)
passed=0
failed=0
mounted=
# A shell that a signal ends before it becomes the program runs this too, and must leave the files alone.
clear_up() {
    [ "$BASHPID" = "$$" ] || return
    cd /
    [ -n "$mounted" ] && umount "$mounted"
    rm -rf "$folder"
}
trap clear_up EXIT
cd "$folder" || exit 1
mkdir wanted work

# The image that all commands start from: a volume of 4 MB with some directories and files, and an unsound one that can be repaired.
"$program" mkfs 7 wanted/old 8000 100 0 0 1 || exit 1
head -c 300000 /dev/urandom > body
for number in 1 2 3 4 5 6 7 8; do
    "$program" mkdir 7 wanted/old "/d$number" 2 || exit 1
    "$program" put 7 wanted/old "/d$number/file" body 3 || exit 1
done
"$program" mkfs 6 wanted/old_six 8000 100 0 0 1 || exit 1
"$program" put 6 wanted/old_six /file body 2 || exit 1
cp wanted/old damaged
printf '\0\0' | dd of=damaged bs=1 seek=518 conv=notrunc status=none
printf '5 0 0 create /a 644\n5 0 0 write /a 0 616263\n5 0 0 stat /a\n' > script
printf 'view\n6 0 0 stat /d1\n7 0 0 list /d1\n' > watcher

# The archive to import: standard input of each run.
"$program" export 7 wanted/old /d1 > archive || exit 1
"$program" mkdir 7 wanted/old /d7/new 4 || exit 1

# A pack: the same volume from block 100 on, and other bytes around it. And a volume whose links are wrong.
{ head -c 51200 /dev/zero && cat wanted/old && head -c 25600 /dev/urandom; } > wanted/pack
cp wanted/old wanted/broken
printf '\7' | dd of=wanted/broken bs=1 seek=$((1024 + 64 + 2)) conv=notrunc status=none

# commands: the words of each command; `image` is a copy of the volume that its label names before the colon
commands=(
    'old: ls 7 image /d1'
    'old: get 7 image /d1/file'
    'old: cat 7 image 2'
    'old: icheck 7 image 2'
    'old: put 7 image /d1/more body 5'
    'old: put 7 image /d2/file script 5'
    'old: put 7 image -t /d7 body script 5'
    'old: rm 7 image /d3/file 5'
    'old: mkdir 7 image /d1/d 5'
    'old: ln 7 image /d1/file /d2/other 5'
    'old: chmod 7 image /d1/file 600 5'
    'old: touch 7 image /d1/file 5'
    'old: mkfs 7 image 6000 50 0 0 5'
    'old: mkfs 6 image 6000 50 0 0 5'
    'old: ls -l -R 7 image'
    'old: export 7 image'
    'old: inode 7 image 2'
    'old: super 7 image'
    'old: map 7 image'
    'old: check 7 image'
    'old: import 7 image /d7/new 5'
    'old: mkdir -p 7 image /d1/a/b 5'
    'old: mv 7 image /d5/file /d1/moved 5'
    'old: rm -r 7 image /d6 5'
    'damaged: salvage 7 image'
    'pack: ls 7 image /d1 --at 100'
    'pack: put 7 image /d1/more body 5 --at 100'
    'pack: rm -r 7 image /d6 5 --at 100'
    'broken: repair 7 image -n'
    'broken: repair 7 image copy 5'
)
for optional in 'old: dcheck 7 image 2' 'old: ncheck 7 image 2' 'old: play 7 image script' 'old: play 7 image script watcher' 'old_six: migrate six image 9000 200 5'; do
    read -r _ name _ <<< "$optional"
    if "$program" "$name" --help > /dev/null 2>&1; then
        commands+=("$optional")
    fi
done
cp damaged wanted/damaged
cp wanted/old_six six

# The results of each command without a fault: wanted/N.image and wanted/N.output.
for number in "${!commands[@]}"; do
    read -r label words <<< "${commands[number]}"
    cp "wanted/${label%:}" image
    # shellcheck disable=SC2086
    "$program" $words > "wanted/$number.output" 2> error < archive
    status=$?
    if [ "$status" != 0 ]; then
        echo "faults: $words ends with $status where nothing fails it: $(head -c 200 error)" >&2
        exit 1
    fi
    cp image "wanted/$number.image"
done

# is_front: true if the file `output` is a prefix of the wanted one, and all of it if the status is 0
is_front() {
    local length
    if [ "$2" = 0 ]; then
        cmp -s output "wanted/$1.output"
    else
        length=$(stat -c %s output)
        [ "$length" -le "$(stat -c %s "wanted/$1.output")" ] && cmp -s -n "$length" output "wanted/$1.output"
    fi
}

# is_played: true if a play ran to its end although some lines had no memory or weren't confirmed for lack of it: it says so on standard output, as
# many calls were accepted as there are records, and the image is a sound volume
is_played() {
    [ ! -s error ] && tail -n 1 output | grep -qE '^confirmed [0-5]$' &&
        ! grep -qvE '^(1\.[123] (ok [0-9]+|12 NoMemory|2 NoEntry|stat [0-9]+ file 0644 1 0 0 [03])|2\.[23] (12 NoMemory|stat [0-9]+ dir 0755 2 0 0 48|list 3)|(records|confirmed) [0-5])$' output &&
        [ "$(grep -c ' ok ' output)" = "$(sed -n 's/^records //p' output)" ] && "$program" ls 7 "$place/image" / > /dev/null 2>&1 &&
        [ -z "$(find "$place" -name '.unixvol-*')" ]
}

# judge LABEL NUMBER STATUS SIGNAL SAYS: checks what the run of a command left in the folder `place`; SIGNAL is the status of the signal that may have
# ended it (0 for none), and SAYS the number of lines on standard error if the status is 1 to 4
judge() {
    local label=$1 number=$2 status=$3 signal=$4 says=$5 fault= before words
    read -r before words <<< "${commands[number]}"
    before=wanted/${before%:}
    if [ "$status" = 4 ] && [ "${words%% *}" = play ] && is_played; then
        passed=$((passed + 1))
        return
    fi
    if [ "$status" -gt 4 ] && [ "$status" != "$signal" ]; then fault="status $status"; fi
    if [ "$status" = 0 ]; then
        cmp -s "$place/image" "wanted/$number.image" || fault='the image is not the new one'
        says=0
    else
        cmp -s "$place/image" "$before" || cmp -s "$place/image" "wanted/$number.image" || fault='the image is neither the old nor the new one'
    fi
    if [ "$status" -gt 4 ]; then
        says=0
        rm -f "$place"/.unixvol-*
    fi
    [ "$(wc -l < error)" = "$says" ] || fault="standard error has $(wc -l < error) lines"
    is_front "$number" "$status" || fault='standard output has something else'
    [ -z "$(find "$place" -name '.unixvol-*')" ] || fault='a file is left'
    rm -f "$place"/.unixvol-*
    if [ -z "$fault" ]; then
        passed=$((passed + 1))
    else
        failed=$((failed + 1))
        echo "failed: $label: $words: status $status: $fault; standard error: $(head -c 200 error)"
    fi
}

# lay NUMBER: puts the image of a command, and the files that it reads, into the folder `place`, and leaves its words in `words`
lay() {
    local before rest
    read -r before rest <<< "${commands[$1]}"
    cp "wanted/${before%:}" "$place/image"
    read -r -a words <<< "$rest"
    true > output
    true > error
}

# limited LABEL FLAG LEAST MOST SIGNAL FIRST: runs the commands in turn under `ulimit FLAG`, with limits from LEAST to MOST KB, after the shell's
# command FIRST. The program may also end with the status SIGNAL. A limit under which it can't print its version is too low to start with.
limited() {
    local label=$1 flag=$2 limit=$3 step signal=$5 first=$6 run=0 number status too_little=0 ended=0
    step=$((($4 - $3) * ${#commands[@]} / runs + 1))
    place=work
    while [ "$run" -lt "$runs" ]; do
        if ! bash -c "ulimit $flag $limit; exec \"\$@\"" limited "$program" --version > /dev/null 2>&1; then
            too_little=$((too_little + 1))
            limit=$((limit + step))
            [ "$too_little" -gt 10000 ] && break
            continue
        fi
        for number in "${!commands[@]}"; do
            lay "$number"
            (cd work && exec bash -c "$first; ulimit $flag $limit; exec \"\$@\"" limited "$program" "${words[@]}") > output 2> error < archive
            status=$?
            [ "$status" -gt 4 ] && ended=$((ended + 1))
            judge "$label $limit KB" "$number" "$status" "$signal" 1
            run=$((run + 1))
        done
        limit=$((limit + step))
    done
    echo "$label: $run runs, up to $limit KB; $too_little limits too little to begin; $ended ended by a signal"
}

# signalled NAME STATUS: runs the commands in turn, each ended by a signal after part of its time
signalled() {
    local name=$1 signal=$2 run=0 number status child
    place=work
    while [ "$run" -lt "$runs" ]; do
        number=$((run % ${#commands[@]}))
        lay "$number"
        (cd work && exec "$program" "${words[@]}") > output 2> error < archive &
        child=$!
        sleep "0.0$(printf '%03d' $((RANDOM % 300)))"
        kill -s "$name" "$child" 2> /dev/null
        wait "$child" 2> /dev/null
        status=$?
        judge "signal $name" "$number" "$status" "$signal" 1
        run=$((run + 1))
    done
    echo "signal $name: $run runs"
}

# closed: runs the commands in turn with closed descriptors
closed() {
    local run=0 number status
    place=work
    while [ "$run" -lt "$runs" ]; do
        number=$((run % ${#commands[@]}))
        lay "$number"
        case $((run / ${#commands[@]} % 4)) in
            0) (cd work && exec "$program" "${words[@]}" > ../output 2> ../error <&-) ;;
            1) (cd work && exec "$program" "${words[@]}" >&- 2> ../error < ../archive) ;;
            2) (cd work && exec "$program" "${words[@]}" > ../output 2>&- < ../archive) ;;
            3) (cd work && exec "$program" "${words[@]}" >&- 2>&- <&-) ;;
        esac
        status=$?
        case $((run / ${#commands[@]} % 4)) in
            0) judge 'standard input closed' "$number" "$status" 0 1 ;;
            1) [ "$status" = 0 ] && cp "wanted/$number.output" output
                judge 'standard output closed' "$number" "$status" 0 1 ;;
            2) judge 'standard error closed' "$number" "$status" 0 0 ;;
            3) [ "$status" = 0 ] && cp "wanted/$number.output" output
                judge 'all closed' "$number" "$status" 0 0 ;;
        esac
        run=$((run + 1))
    done
    echo "closed descriptors: $run runs"
}

# full: runs the commands in turn on a disk with less and less room
full() {
    local run=0 number status spare
    mkdir full
    if ! mount -t tmpfs -o size=20m none full 2> /dev/null; then
        echo 'full disk: not tried, since no disk can be mounted here'
        return
    fi
    mounted=$folder/full
    place=full
    cp body script watcher six full
    while [ "$run" -lt "$runs" ]; do
        number=$((run % ${#commands[@]}))
        lay "$number"
        spare=$((run * 5 * 1024 * 1024 / runs / 4096 * 4096))
        rm -f full/ballast
        head -c "$((20 * 1024 * 1024))" /dev/zero > full/ballast 2> /dev/null
        truncate -s "$(($(stat -c %s full/ballast) - spare))" full/ballast
        (cd full && exec "$program" "${words[@]}") > output 2> error < archive
        status=$?
        rm -f full/ballast
        judge "a disk with $spare bytes left" "$number" "$status" 0 1
        run=$((run + 1))
    done
    umount full && mounted=
    echo "full disk: $run runs"
}

# refused: runs each command with each of its allocations refused in turn, until none is refused
refused() {
    local run=0 number allocation status
    if ! command -v rustc > /dev/null || ! rustc -O --edition 2021 --crate-type cdylib -C panic=abort "$tests/refusing.rs" -o refusing.so; then
        echo 'refused memory: not tried, since rustc is not there'
        return
    fi
    place=work
    for number in "${!commands[@]}"; do
        allocation=0
        true > met
        while [ "$allocation" = 0 ] || [ -s met ]; do
            allocation=$((allocation + 1))
            lay "$number"
            (cd work && exec timeout 20 env REFUSED="$allocation" LD_PRELOAD="$folder/refusing.so" "$program" "${words[@]}") > output 2> error < archive 9> met
            status=$?
            judge "refused allocation $allocation" "$number" "$status" 0 1
            run=$((run + 1))
            # If a refused allocation is reported, it is reported as one.
            if [ -s met ] && [ "$status" != 0 ] && { [ "$status" != 4 ] || [ -s error ] && [ "$(cat error)" != 'unixvol: 12 NoMemory' ]; }; then
                failed=$((failed + 1))
                echo "failed: refused allocation $allocation: ${words[*]}: status $status: $(head -c 200 error)"
            fi
        done
        if [ "$allocation" = 1 ]; then
            failed=$((failed + 1))
            echo "failed: ${words[*]}: nothing is refused of this program"
        fi
    done
    echo "refused memory: $run runs"
}

# shut: runs the commands in turn, as a user who may not write into the folder
shut() {
    local run=0 number status by=()
    if [ "$(id -u)" = 0 ]; then
        by=(setpriv --reuid 65534 --regid 65534 --clear-groups)
        if ! "${by[@]}" true 2> /dev/null; then
            echo 'a folder that can not be written: not tried, since there is no other user here'
            return
        fi
        chmod 755 "$folder"
        if ! "${by[@]}" "$program" --version > /dev/null 2>&1; then
            echo 'a folder that can not be written: not tried, since another user can not run the program here'
            return
        fi
    fi
    place=work
    while [ "$run" -lt "$runs" ]; do
        number=$((run % ${#commands[@]}))
        chmod 755 work
        lay "$number"
        chmod 644 work/*
        chmod 555 work
        (cd work && exec "${by[@]}" "$program" "${words[@]}") > output 2> error < archive
        status=$?
        judge 'a folder that can not be written' "$number" "$status" 0 1
        run=$((run + 1))
    done
    chmod 755 work
    echo "a folder that can not be written: $run runs"
}

cp body script watcher six work
# If the stack can't grow, the system ends the program with SIGSEGV, and if a file can't, with SIGXFSZ, unless that is ignored.
limited memory -v 2500 40000 139 true 2> /dev/null
limited stack -s 256 8192 0 true 2> /dev/null
limited 'greatest file' -f 1 4500 0 "trap '' XFSZ" 2> /dev/null
limited 'greatest file, and a signal' -f 1 4500 153 true 2> /dev/null
closed
refused
full
shut
signalled TERM 143
signalled INT 130
signalled KILL 137
echo "$passed passed, $failed failed"
[ "$failed" = 0 ]
