#!/usr/bin/env bash
# Times the program against bench/plain, which does the same jobs in plain Rust, and compares their results byte by byte.
# Usage: bench/run.sh PROGRAM LIBRARY, where LIBRARY is the built crates/library_runs.
# It needs rustc, some 900 MB of disk, and an otherwise idle machine.
# Times are the best of five alternating runs of the whole command; memory is the greatest resident size of a run.
# The last column, if a row has it, is that memory divided by two copies of the image and one of the file that is put; for the shared volume, the number of
# images' worth of memory that a view adds.
# A row ends with a note if it is above its limit.
# With INSTRUCTIONS=1, valgrind counts the instructions of rows that run one thread too: three more columns, in millions, and there the limit of TIMES holds
# for these and not for the times. A count hardly depends on what else the machine does; it says nothing of the system's part.
# FOLDER names another folder for the files than bench/out: one in memory shows the programs without the disk.
set -uo pipefail
export LC_ALL=C
usage='usage: bench/run.sh PROGRAM LIBRARY'
program=$(realpath "${1:?$usage}")
library=$(realpath "${2:?$usage}")
bench=$(dirname "$(realpath "$0")")
if ! command -v rustc > /dev/null; then
    echo 'bench: rustc is not there, which builds the plain program' >&2
    exit 1
fi
mkdir -p "$bench/out" "${FOLDER:=$bench/out}"
plain=$bench/out/plain
rustc -O --edition 2021 "$bench/plain/main.rs" -o "$plain" || exit 1
cd "$FOLDER" || exit 1
trap 'rm -f ours theirs output counts counting made.img work.img full.img six.img seven.img sparse.img plain.img wide.img big script.* archive.tar' EXIT

# reset: restores the files that a command changes; `base` names the image that it gets a copy of, if any
base=
reset() {
    rm -f made.img work.img
    if [ -n "$base" ]; then
        cp --reflink=auto "$base" work.img && sync work.img || exit 1
    fi
}

# microseconds FILE WORD..: runs a command, with its output in FILE, and leaves its microseconds in `taken`; its standard input is the file `input`, from the
# beginning in each run, and its status may be at most `highest`
input=/dev/null
highest=0
microseconds() {
    local file=$1 begin end status
    shift
    begin=${EPOCHREALTIME/./}
    "$@" < "$input" > "$file"
    status=$?
    end=${EPOCHREALTIME/./}
    [ "$status" -le "$highest" ] || exit 1
    taken=$((end - begin))
}

# instructions WORD..: counts the instructions of a command, with the file `input` as standard input, and leaves the count in `counted`; 0 if none are
# counted. Memory is copied and cleared without string instructions, of which valgrind counts one for each byte.
counting=
if [ "${INSTRUCTIONS:-0}" = 1 ]; then
    if command -v valgrind > /dev/null; then
        counting=yes
    else
        echo 'bench: valgrind is not there, which counts instructions' >&2
    fi
fi
instructions() {
    counted=0
    [ -n "$counting" ] || return 0
    GLIBC_TUNABLES=glibc.cpu.x86_rep_movsb_threshold=1000000000:glibc.cpu.x86_rep_stosb_threshold=1000000000 \
        valgrind --tool=callgrind --callgrind-out-file=/dev/null --log-file=counts "$@" < "$input" > counting
    [ $? -le "$highest" ] || exit 1
    counted=$(awk '/Collected/ { print $NF }' counts)
}

# kilobytes WORD..: runs a command, with the file `input` as standard input, and leaves its greatest resident size, in kilobytes, in `resident`
kilobytes() {
    if [ -x /usr/bin/time ]; then
        resident=$(/usr/bin/time -f %M "$@" 2>&1 < "$input" > /dev/null | tail -n 1)
    else
        resident=$(python3 -c 'import os, sys
null = os.open(os.devnull, os.O_WRONLY)
child = os.posix_spawn(sys.argv[1], sys.argv[1:], os.environ, file_actions=[(os.POSIX_SPAWN_DUP2, null, 1)])
print(os.wait4(child, 0)[2].ru_maxrss)' "$@" < "$input")
    fi
}

# compare LABEL TIMES COPIES RESULT WORD..: both programs do a job, whose result is in the file RESULT; a row of the table. The limits are TIMES plain Rust's
# time, or its instructions, and memory for COPIES bytes plus a tenth (0 for no limit).
compare() {
    local label=$1 times=$2 copies=$3 result=$4 ours=999999999 theirs=999999999 ours_resident ours_counted
    shift 4
    for _ in 1 2 3 4 5; do
        reset
        microseconds output "$program" "$@"
        [ "$taken" -lt "$ours" ] && ours=$taken
        mv "$result" ours
        reset
        microseconds output "$plain" "$@"
        [ "$taken" -lt "$theirs" ] && theirs=$taken
        mv "$result" theirs
        if ! cmp ours theirs; then
            echo "bench: $label: the two programs differ" >&2
            exit 1
        fi
    done
    reset
    kilobytes "$program" "$@"
    ours_resident=$resident
    reset
    kilobytes "$plain" "$@"
    reset
    instructions "$program" "$@"
    ours_counted=$counted
    reset
    instructions "$plain" "$@"
    awk -v label="$label" -v times="$times" -v copies="$copies" -v ours="$ours" -v theirs="$theirs" \
        -v a="$ours_resident" -v b="$resident" -v c="$ours_counted" -v d="$counted" 'BEGIN {
        printf "%-38s %9.1f %9.1f %6.2f", label, ours / 1000, theirs / 1000, ours / theirs
        if (d > 0) printf " %9.1f %9.1f %6.2f", c / 1000000, d / 1000000, c / d
        printf " %9.1f %9.1f %6.2f", a / 1024, b / 1024, a / b
        if (copies > 0) printf " %6.2f", a * 1024 / copies
        if (times > 0 && d > 0 && c > times * d) printf "  instructions above %s", times
        if (times > 0 && !d && ours > times * theirs) printf "  time above %s", times
        if (copies > 0 && a * 1024 > 1.1 * copies) printf "  memory above 1.1"
        printf "\n" }'
}

# row LABEL TIMES FIRST SECOND [COUNT COUNT]: a row of the table, for two times in microseconds, and two numbers of instructions if they were counted; the
# second is printed in plain Rust's column. The limit of the first is TIMES the second.
row() {
    awk -v label="$1" -v times="$2" -v first="$3" -v second="$4" -v c="${5:-0}" -v d="${6:-0}" 'BEGIN {
        printf "%-38s %9.1f %9.1f %6.2f", label, first / 1000, second / 1000, first / second
        if (d > 0) printf " %9.1f %9.1f %6.2f", c / 1000000, d / 1000000, c / d
        if (d > 0 && c > times * d) printf "  instructions above %s", times
        if (!d && first > times * second) printf "  time above %s", times
        printf "\n" }'
}

# side_by_side LABEL TIMES WORD.. -- WORD..: two of the program's own jobs; a row of the table. A job that changes `work.img` gets a new copy. Instructions
# are counted if both run one thread, which `threads` says.
threads=1
side_by_side() {
    local label=$1 times=$2 first=999999999 second=999999999 first_counted=0 one=()
    shift 2
    while [ "$1" != -- ]; do
        one+=("$1")
        shift
    done
    shift
    for _ in 1 2 3 4 5; do
        reset
        microseconds output "$program" "${one[@]}"
        [ "$taken" -lt "$first" ] && first=$taken
        reset
        microseconds output "$program" "$@"
        [ "$taken" -lt "$second" ] && second=$taken
    done
    counted=0
    if [ "$threads" = 1 ]; then
        reset
        instructions "$program" "${one[@]}"
        first_counted=$counted
        reset
        instructions "$program" "$@"
    fi
    row "$label" "$times" "$first" "$second" "$first_counted" "$counted"
}

# quickest WORD..: runs a command five times, and leaves the microseconds of its quickest run in `best`
quickest() {
    best=999999999
    for _ in 1 2 3 4 5; do
        microseconds output "$@"
        [ "$taken" -lt "$best" ] && best=$taken
    done
}

# checking CHECKER WORKERS IMAGE: leaves the microseconds of ten checks of an image in memory, with WORKERS threads, in `best`
checking() {
    local once
    input=$3
    quickest "$library" checks 7 "$1" "$2" 1
    once=$best
    quickest "$library" checks 7 "$1" "$2" 11
    best=$((best - once))
    input=/dev/null
}

# asking JOB COUNT VIEWS BYTES: leaves the microseconds of COUNT queries or calls on a shared volume in memory in `best`; each call writes BYTES bytes
asking() {
    local none
    quickest "$library" views "$1" 0 "$3" 400 "$4"
    none=$best
    quickest "$library" views "$1" "$2" "$3" 400 "$4"
    best=$((best - none))
}

# many DIRECTORIES NAMES: makes DIRECTORIES directories with NAMES files each, and then writes a byte into each file; two rows of the table. Both programs leave
# the same volume.
many() {
    local directories=$1 names=$2 none theirs_none created theirs_created written theirs_written counts=()
    "$library" calls "$directories" "$names" write image > ours || exit 1
    "$plain" calls "$directories" "$names" write image > theirs || exit 1
    if ! cmp ours theirs; then
        echo "bench: $directories directories of $names names: the two programs differ" >&2
        exit 1
    fi
    quickest "$library" calls 0 0 create
    none=$best
    quickest "$plain" calls 0 0 create
    theirs_none=$best
    quickest "$library" calls "$directories" "$names" create
    created=$best
    quickest "$plain" calls "$directories" "$names" create
    theirs_created=$best
    quickest "$library" calls "$directories" "$names" write
    written=$best
    quickest "$plain" calls "$directories" "$names" write
    theirs_written=$best
    for words in '0 0 create' "$directories $names create" "$directories $names write"; do
        # shellcheck disable=SC2086
        instructions "$library" calls $words
        counts+=("$counted")
        # shellcheck disable=SC2086
        instructions "$plain" calls $words
        counts+=("$counted")
    done
    row "10,000 Creates, $names names each" 1.3 $((created - none)) $((theirs_created - theirs_none)) \
        $((counts[2] - counts[0])) $((counts[3] - counts[1]))
    row "10,000 Writes, $names names each" 1.3 $((written - created)) $((theirs_written - theirs_created)) \
        $((counts[4] - counts[2])) $((counts[5] - counts[3]))
}

echo "load before: $(cut -d ' ' -f 1-3 /proc/loadavg)"
printf '%-38s %9s %9s %6s%s %9s %9s %6s %6s\n' job 'ms' 'plain ms' ratio "${counting:+ 10^6 instr     plain  ratio}" 'MiB' 'plain MiB' ratio copies

# Calls on files in directories of 100 and of 5,000 names.
many 100 100
many 2 5000
rm -f ours theirs

# A file of 16,000,000 bytes in a volume of the sixth edition, and one of 200,000,000 in one of the seventh.
"$plain" sample 6 six.img 33000 100 16000000 || exit 1
"$plain" sample 7 seven.img 400000 100 200000000 || exit 1
compare 'cat 16,000,000 bytes, edition 6' 0 0 output cat 6 six.img 2
compare 'cat 200,000,000 bytes, edition 7' 0 0 output cat 7 seven.img 3
compare 'mkfs 340,670 blocks, edition 7' 0 0 made.img mkfs 7 made.img 340670 2000 0 0 173750400
rm -f ours theirs six.img seven.img

# Directories of the greatest size that consist mostly of holes, against an ordinary volume of as many bytes.
sparse() {
    local label=$1 edition=$2 blocks=$3 list_blocks=$4 directories=$5 files=$6
    "$plain" sparse "$edition" sparse.img "$blocks" "$list_blocks" "$directories" || exit 1
    "$plain" fill "$edition" plain.img "$blocks" "$list_blocks" "$files" || exit 1
    side_by_side "$label" 5 ls "$edition" sparse.img / -- ls "$edition" plain.img /
}
sparse 'ls /, 1 GB of holes in 62 KB' 7 124 10 20 0
sparse 'ls /, 340 GB of holes in 722 KB' 7 1444 50 340 100
sparse 'ls /, 18 TB of holes in 38 MB' 7 76000 2300 18000 5000
sparse 'ls /, 2 GB of holes in 9 MB' 6 18000 50 120 400
rm -f sparse.img plain.img

# A volume of 340,670 blocks with 10,000 files, and 100,000,000 bytes that are put into it as a further file.
"$plain" fill 7 full.img 340670 1263 10000 || exit 1
head -c 100000000 /dev/urandom > big || exit 1
image=$(stat -c %s full.img)
compare 'ls /, among 10,000 files' 2 $((2 * image)) output ls 7 full.img /
compare 'ls /many, 5,002 names' 2 $((2 * image)) output ls 7 full.img /many
base=full.img
compare 'put 100,000,000 bytes' 1.5 $((2 * image + 100000000)) work.img put 7 work.img /big big 173750500
mv theirs full.img
compare 'rm 100,000,000 bytes' 1.5 $((2 * image)) work.img rm 7 work.img /big 173750600
mv theirs full.img

# The checkers with one worker, and rebuilding the free list, on the volume with 10,000 files.
base=
compare 'icheck, 10,000 files' 1.5 0 output icheck 7 full.img 1
compare 'dcheck, 10,000 files' 1.5 0 output dcheck 7 full.img 1
compare 'ncheck, 10,000 files' 1.5 0 output ncheck 7 full.img 1
base=full.img
compare 'salvage, 10,000 files' 1.5 0 work.img salvage 7 work.img
base=
rm -f full.img ours theirs

# An archive of 100 directories, each with 100 files of 10,000 bytes, which fills an empty volume; and all of that volume as an archive again.
"$plain" mkfs 7 wide.img 230000 1300 0 0 173750400 || exit 1
"$plain" archive 100 100 10000 > archive.tar || exit 1
base=wide.img
input=archive.tar
compare 'import 10,000 files, 100,000,000 bytes' 1.5 0 work.img import 7 work.img / 173750500
input=/dev/null
base=
mv theirs wide.img
compare 'export 10,000 files, 100,000,000 bytes' 1.15 0 output export 7 wide.img /
rm -f wide.img archive.tar ours theirs

# Paths through 10,000 nested directories, and a directory of 60,000 names.
"$plain" deep 7 wide.img 20000 2000 10000 || exit 1
compare 'ncheck, 10,000 directories deep' 1.5 0 output ncheck 7 wide.img 1
"$plain" names 7 wide.img 20000 200 60000 || exit 1
compare 'dcheck, 60,000 names' 1.5 0 output dcheck 7 wide.img 1
compare 'ncheck, 60,000 names' 1.5 0 output ncheck 7 wide.img 1

# Images of 1 MB that were made to keep a command busy, each against an ordinary one of as many bytes. One run of each, which is ended after 300 seconds.
# Only rows whose time follows from the specification are above 50: icheck takes a step for each i-node and block that it names, and dcheck one for each 64
# logical blocks.
"$plain" fill 7 plain.img 2048 20 100 || exit 1
highest=124
# hostile PATTERN COMMAND WORD..: a row of the table; the words follow the image
hostile() {
    local pattern=$1 command=$2 first
    shift 2
    "$plain" hostile 7 sparse.img 2048 20 "$pattern" || exit 1
    microseconds output timeout 300 "$program" "$command" 7 sparse.img "$@" 2> /dev/null
    first=$taken
    microseconds output timeout 300 "$program" "$command" 7 plain.img "$@"
    row "$command${*:+ $*}, $pattern" 50 "$first" "$taken"
}
for workers in 1 4; do
    hostile file_rings icheck "$workers"
    hostile file_fans icheck "$workers"
    hostile directory_zeros dcheck "$workers"
    hostile directory_entries dcheck "$workers"
    hostile directory_entries ncheck "$workers"
done
for pattern in directory_zeros directory_names directory_fans; do hostile "$pattern" export; done
hostile directory_zeros check
for command in map super; do
    hostile file_rings "$command"
    hostile file_fans "$command"
done
hostile file_rings inode 3
highest=0
rm -f sparse.img plain.img

# Four workers against one, on a volume whose files name 300,000 blocks: the whole command, and ten checks in memory.
"$plain" fill 7 wide.img 380000 4500 28000 || exit 1
threads=4
side_by_side 'icheck, 300,000 blocks, 4 workers' 1 icheck 7 wide.img 4 -- icheck 7 wide.img 1
threads=1
checking icheck 1 wide.img
one=$best
checking icheck 4 wide.img
row 'the same 10 times, without loading' 0.45 "$best" "$one"

# A full volume of the sixth edition becomes one of the seventh.
"$plain" fill 6 six.img 65535 700 5900 || exit 1
compare 'migrate, 65,535 blocks' 1.5 0 made.img migrate six.img made.img 70000 1500 173750700
rm -f six.img ours theirs

# Scripts of calls: one of 100,000, as many in 4 and in 64 scripts, and one with half its calls refused or answered.
"$plain" mkfs 7 wide.img 60000 6000 0 0 173750400 || exit 1
base=wide.img
"$plain" script all 100000 whole > script.all
compare 'play, 100,000 calls' 1.5 0 work.img play 7 work.img script.all
compare 'play, 100,000 calls, its lines' 1.5 0 output play 7 work.img script.all
for number in $(seq 4); do "$plain" script "four$number" 25000 whole > "script.four$number"; done
for number in $(seq 64); do "$plain" script "many$number" 1562 whole > "script.many$number"; done
threads=64
side_by_side 'play, 4 scripts against one' 1.5 play 7 work.img script.four* -- play 7 work.img script.all
side_by_side 'play, 64 scripts against one' 1.5 play 7 work.img script.many* -- play 7 work.img script.all
threads=1
"$plain" script half 100000 half > script.half
highest=1
compare 'play, half of it refused or asked' 3 0 output play 7 work.img script.half
side_by_side 'the same against 100,000 calls' 3 play 7 work.img script.half -- play 7 work.img script.all
highest=0
base=

# A volume that threads share: ten queries by a view against one by a session through the lock, while another session writes 4,096 bytes at a time; as many
# queries by each of four views as by one alone; calls with a view against calls without one.
asking view 1000000 1 4096
one=$best
asking lock 100000 1 4096
row '10 Stats by a view to 1 locked' 1 "$one" "$best"
asking views 1000000 1 5
one=$best
asking views 1000000 4 5
row '1,000,000 Stats each of 4 views' 1.6 "$best" "$one"
asking calls 20000 1 5
one=$best
asking calls 20000 0 5
row '20,000 Writes, with a view' 3.5 "$one" "$best"

# The memory of a shared volume of 200,000 blocks with and without a view, and the difference in images.
kilobytes "$library" views calls 1 1 200000 5
one=$resident
kilobytes "$library" views calls 1 0 200000 5
awk -v with="$one" -v without="$resident" 'BEGIN {
    more = (with - without) * 1024 / (200000 * 512)
    printf "%-38s %36.1f %9.1f %6.2f %6.2f", "a shared volume, with a view", with / 1024, without / 1024, with / without, more
    if (more > 2.1) printf "  images above 2.1"
    printf "\n" }'
echo "load after: $(cut -d ' ' -f 1-3 /proc/loadavg)"
