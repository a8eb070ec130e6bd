#!/usr/bin/env bash
# Plays calls on new volumes, and checks the output of each, and the bytes of the images.
# Usage: tests/volumes.sh PROGRAM. It prints a line for each row that fails, and ends with 'N passed, N failed'.
#
# The files tests/volumes/*.rows have one row per line; lines that begin with # are comments.
#   volume 6 20 2          a new volume of this edition, with this many blocks, and blocks of i-list
#   by 16909060 0 0        time, user and group of the steps that follow; this is the default after each `volume`
#   > create /f 644        a step, as in a script of `play`
#   = ok 32                its output
#   at 516 0D 00           bytes of the image, from this offset on
#   all 2024 16 00         16 bytes of the image, all with this value
#   stays 718 202          202 bytes of the image, which no step up to the next `volume` or `put` changes
#   put 1024 41 ED         puts bytes into the image
#   ls /d: 32 . 1 .. 31 f  the output of `ls`
#   {41*512}               in any row: these digits 512 times; {} is nothing
# A path has \0NNN, in octal digits, for a byte that can't be written. The steps up to a row of the image are one run of the program; those between
# two rows `volume` or `put` are played again in one run, which leaves the same image.
rows=$(realpath "$(dirname "$0")/volumes")
. "$(dirname "$0")/rows.sh"
export LC_ALL=C

# expand ROW: writes the row with its repeated digits into `expanded`
expand() {
    local rest=$1 once many
    expanded=
    while [[ $rest = *\{* ]]; do
        expanded+=${rest%%\{*}
        rest=${rest#*\{}
        once=${rest%%\}*}
        rest=${rest#*\}}
        [ -n "$once" ] || continue
        printf -v many '%*s' "${once#*\*}" ''
        expanded+=${many// /${once%\**}}
    done
    expanded+=$rest
}

# shown AT COUNT: puts COUNT bytes of the image into `found`, as hexadecimal digits
shown() {
    local end=$(($1 + $2))
    if [ "$end" -gt "$known" ]; then
        known=$((end > 8192 ? end : 8192))
        hex=$(od -An -v -tx1 -w"$known" -N "$known" disk)
    fi
    found=${hex:3 * $1:3 * $2}
    found=${found// /}
    found=${found^^}
}

# compare LABEL WANTED FOUND: like `has`, for texts that may be long
compare() {
    local same=0
    if [ "$2" = "$3" ]; then
        passes
    else
        fails "${1:0:100}"
        while [ "${2:same:10}" = "${3:same:10}" ]; do same=$((same + 10)); done
        printf '    %s\n' "wanted: ${2:same:60}" "came:   ${3:same:60}" "from character $same on"
    fi
}

# run WORD..: runs the program; leaves its output in `lines`, its standard error in `errors`, and its status in `status`
run() {
    status=0
    "$program" "$@" > output 2> error < /dev/null || status=$?
    mapfile -t lines < output
    mapfile -t errors < error
}

# plays LABEL IMAGE STEP..: plays these steps; `wanted` has the expected output of each
plays() {
    local label=$1 volume=$2 accepted=0 refused=0 number
    shift 2
    played=("$@")
    printf '%b\n' "$@" > script
    run play "$edition" "$volume" script
    for number in "${!wanted[@]}"; do
        case ${wanted[number]} in
            ok*) accepted=$((accepted + 1)) ;;
            stat* | read* | list*) ;;
            *) refused=1 ;;
        esac
        compare "$label, ${played[number]:0:60}" "1.$((number + 1)) ${wanted[number]}" "${lines[number]-}"
    done
    compare "$label, the end" "$# records $accepted confirmed $# $refused" "${#wanted[@]} ${lines[*]:$#} $status${errors[*]}"
}

# play_steps: plays the pending steps, and checks the bytes that must stay
play_steps() {
    local stay at count kept
    [ ${#steps[@]} = 0 ] && return
    wanted=("${answers[@]}")
    plays "$place" disk "${steps[@]}"
    all_steps+=("${steps[@]}")
    all_answers+=("${answers[@]}")
    runs=$((runs + 1))
    steps=()
    answers=()
    known=0
    for stay in "${stays[@]}"; do
        read -r at count kept <<< "$stay"
        shown "$at" "$count"
        compare "$place: bytes that stay from $at on" "$kept" "$found"
    done
}

# play_again: plays all steps since the last row `volume` or `put` again: in one run, or, if they were played in one, each in a run of its own
play_again() {
    local step
    play_steps
    if [ "$runs" -gt 1 ]; then
        wanted=("${all_answers[@]}")
        plays "$place: all in one run" base "${all_steps[@]}"
        saves "$place: all in one run" base disk
    elif [ "$runs" = 1 ]; then
        for step in "${!all_steps[@]}"; do
            wanted=("${all_answers[step]}")
            plays "$place: each in a run of its own" base "${all_steps[step]}"
        done
        saves "$place: each in a run of its own" base disk
    fi
    all_steps=()
    all_answers=()
    stays=()
    runs=0
}

# take_row WORD REST: carries out a row
take_row() {
    local word=$1 rest=$2 at count digits path
    case $word in
        volume)
            play_again
            edition=${rest%% *}
            "$program" mkfs "$edition" disk ${rest#* } 0 0 168496141
            cp disk base
            by='16909060 0 0'
            known=0
            ;;
        by) by=$rest ;;
        '>') steps+=("$by $rest") ;;
        '=')
            answers+=("$rest")
            [ ${#stays[@]} = 0 ] || play_steps
            ;;
        at)
            play_steps
            digits=${rest#* }
            digits=${digits// /}
            shown "${rest%% *}" $((${#digits} / 2))
            compare "$place: $word $rest" "$digits" "$found"
            ;;
        all)
            play_steps
            read -r at count digits <<< "$rest"
            expand "{$digits*$count}"
            shown "$at" "$count"
            compare "$place: $word $rest" "$expanded" "$found"
            ;;
        stays)
            play_steps
            shown "${rest% *}" "${rest#* }"
            stays+=("$rest $found")
            ;;
        put)
            play_again
            put disk "${rest%% *}" "${rest#* }"
            cp disk base
            known=0
            ;;
        ls)
            play_steps
            path=${rest%%:*}
            printf '%5d %s\n' ${rest#*: } > lines
            prints lines ls "$edition" disk "$path"
            ;;
        *) compare "$place" 'a row' "$word" ;;
    esac
}

# play_rows FILE: carries out the rows of a file
play_rows() {
    local row number=0
    steps=()
    answers=()
    all_steps=()
    all_answers=()
    stays=()
    runs=0
    while IFS= read -r row; do
        number=$((number + 1))
        place="${1##*/} $number"
        row_at=$(called "$1"):$number
        case $row in
            '' | '#'*) ;;
            *)
                expand "$row"
                take_row "${expanded%% *}" "${expanded#* }"
                ;;
        esac
    done < "$1"
    play_again
    row_at=
}

compare 'the files of rows' 9 "$(ls "$rows"/*.rows | wc -l)"
for file in "$rows"/*.rows; do
    before=$passed
    play_rows "$file"
    [ "$passed" -gt $((before + 10)) ] || compare "rows in $file" some none
done

# new FILE EDITION BLOCKS LIST: a new volume of user 0 and group 0
new() { "$program" mkfs "$2" "$1" "$3" "$4" 0 0 168496141; }

# The rules of soundness. Each image of tests/volumes/rules is listed with `ls`, mounted by `play`, and checked by `check` and `salvage`.
# finds LABEL RULE WORD..: the program finds this rule broken, and reports only that; `-` is for none
finds() {
    local line='0 '
    [ "$2" = - ] || line="1 unixvol: unsound, rule $2"
    run "${@:3}"
    compare "$1" "$line" "$status ${errors[*]}"
}

# `play` leaves an image as it was if nothing in it is changed, and so does every refusal.
echo '1 0 0 stat /' > script
new sound6 6 20 2
new sound7 7 100 2
while IFS='|' read -r edition label least without pieces; do
    case $edition in '' | '#'*) continue ;; esac
    cp "sound$edition" disk
    while read -r -d , piece; do
        [ -z "$piece" ] || put disk "${piece%% *}" "${piece#* }"
    done <<< "$pieces,"
    cp disk same
    finds "ls: $label" "$least" ls "$edition" disk /
    finds "play: $label" "$least" play "$edition" disk script
    run check "$edition" disk
    found=-
    for row in "${lines[@]}"; do
        case $row in *': holds') ;; *) found=${row%% *} && break ;; esac
    done
    [ "$least" = - ] || status=$((status - 1))
    compare "check: $label" "$least 12 0" "$found ${#lines[@]} $status"
    [ "$without" = - ] && saves "play: $label" disk same
    finds "salvage: $label" "$without" salvage "$edition" disk
    [ "$without" = - ] || saves "salvage: $label" disk same
done < "$rows/rules"

# Images that are too short, or longer than the volume.
for size in 0 511 1023 1024 10239; do
    head -c "$size" sound6 > short
    refuses 1 'unixvol: unsound, rule 1' ls 6 short /
done
image zeros 1024
refuses 1 'unixvol: unsound, rule 2' ls 6 zeros /
{ cat sound6; printf '\1\2\3'; } > longer
printf '%5d %s\n' 1 . 1 .. > lines
prints lines ls 6 longer /
printf '%s\n' '1.1 stat 1 dir 0777 2 0 0 32' 'records 0' 'confirmed 1' > lines
cp longer same
prints lines play 6 longer script
saves 'an image with bytes behind the volume' longer same
printf '%5d %s\n' 2 . 2 .. > lines
prints lines ls 7 sound7 /
head -c $((99 * 512)) sound7 > short
refuses 1 'unixvol: unsound, rule 1' ls 7 short /

# A seventh edition volume of 1010 blocks. Each of 8000 files names a triply indirect block whose entries, and theirs, all name one block: there are
# some 17 thousand million of them.
node="\xA4\x81$(printf '\\0%.0s' {1..47})\xEA\x03$(printf '\\0%.0s' {1..13})"
{
    head -c 512 /dev/zero
    printf '\xEA\x03\0\0\xF2\x03'
    head -c 506 /dev/zero
    printf "$node%.0s" {1..8000}
    for entry in '\xEB' '\xEC' '\xED'; do printf "\\0\\0$entry\\x03%.0s" {1..128}; done
    head -c $((5 * 512)) /dev/zero
} > ways
put ways 1088 'ED 41'
has 'the size of an image with many ways' $((1010 * 512)) "$(stat -c %s ways)"
echo 'unixvol: unsound, rule 7' > line
runs_within 10 salvage 7 ways
wants 'an image with many ways' 1 none line

# New volumes of sizes around those that fill an array of either edition: `mkfs` leaves the same as freeing each block, from the last down, and so
# does a file that had them all.
# give BLOCK: puts a block on the free list in `count` and `list`; `chain` collects the bytes to write into blocks
give() {
    if [ "$count" = "$most" ]; then
        chain[$1]="$(word "$count")$(numbers "${list[@]}")"
        list[0]=$1
        count=1
    elif [ "$count" = 0 ]; then
        list[0]=0
        list[1]=$1
        count=2
    else
        list[count]=$1
        count=$((count + 1))
    fi
}

# word N, numbers N..: a 16-bit word, and block numbers of the edition, as hexadecimal digits
word() { printf '%02X%02X' $(($1 % 256)) $(($1 / 256)); }
numbers() {
    local number
    for number in "$@"; do
        [ "$edition" = 6 ] || printf '0000'
        printf '%02X%02X' $((number % 256)) $((number / 256))
    done
}

# zeros_in FILE COUNT: puts lines into `script` that write COUNT blocks of zeros into a new file
zeros_in() {
    printf '1 0 0 create %s 644\n' "$1" >> script
    case $2 in
        0) printf '1 0 0 write %s 0 -\n' "$1" >> script ;;
        *) printf '1 0 0 write %s 0 %0*d\n' "$1" $((1024 * $2)) 0 >> script ;;
    esac
}

# room EDITION FREE: `whole` is the number of blocks that a file can have with FREE free ones, and `left` the number that is then still free
room() {
    local names
    for ((whole = $2; ; whole--)); do
        case $1 in
            6) names=$((whole <= 8 ? 0 : (whole + 255) / 256)) ;;
            7) names=$((whole <= 10 ? 0 : whole <= 138 ? 1 : 2 + (whole - 138 + 127) / 128)) ;;
        esac
        left=$(($2 - whole - names))
        [ "$left" -lt 0 ] || return
    done
}

for size in '4 1' '5 1' '53 1' '54 1' '55 2' '103 1' '104 1' '105 2' '128 3' '129 3' '257 5' '404 2'; do
    for edition in 6 7; do
        read -r blocks list_blocks <<< "$size"
        first=$((list_blocks + 2))
        most=$([ "$edition" = 6 ] && echo 100 || echo 50)
        list=()
        chain=()
        count=0
        for ((block = 0; block < most; block++)); do list[block]=0; done
        for ((block = blocks - 1; block > first; block--)); do give "$block"; done
        # The super-block with its time, the root's i-node, its slots, and the bytes written into blocks.
        if [ "$edition" = 6 ]; then
            head="$(word "$list_blocks")$(word "$blocks")$(word "$count")$(numbers "${list[@]}"){00*206}0B0A0D0C{00*96}"
            root="FFC1020709002000$(word "$first"){00*14}0B0A0D0C0B0A0D0C{00*4}"
            slots="01002E{00*13}01002E2E"
        else
            head="$(word "$first")0000$(word "$blocks")$(word "$count")$(numbers "${list[@]}"){00*206}0B0A0D0C{00*94}"
            root="{00*64}FF410200070009000000200000$(word "$first"){00*37}0B0A0D0C0B0A0D0C0B0A0D0C"
            slots="02002E{00*13}02002E2E"
        fi
        image made $((512 * blocks))
        expand "$head$root"
        put made 512 "$expanded"
        expand "$slots"
        put made $((512 * first)) "$expanded"
        for block in "${!chain[@]}"; do put made $((512 * block)) "${chain[block]}"; done
        prints none mkfs "$edition" new "$blocks" "$list_blocks" 7 9 168496141
        saves "a new volume of edition $edition with $size blocks" new made
        # One file takes all blocks, with a second one for the rest if one more block would need two; both are freed from the last block down.
        room "$edition" $((blocks - first - 1))
        : > script
        zeros_in /f "$whole"
        zeros_in /g "$left"
        printf '%s\n' '1 0 0 create /h 644' '1 0 0 write /h 0 00' '1 0 0 unlink /g' '1 0 0 unlink /f' >> script
        top=$((list_blocks * (edition == 6 ? 16 : 8)))
        printf '%s\n' "1.1 ok $top" "1.2 ok $((512 * whole))" "1.3 ok $((top - 1))" "1.4 ok $((512 * left))" "1.5 ok $((top - 2))" '1.6 28 NoSpace' \
            '1.7 ok 0' '1.8 ok 0' 'records 7' 'confirmed 8' > lines
        runs play "$edition" new script
        wants "all blocks of a volume of edition $edition with $size blocks" 1 lines none
        head=$((edition == 6 ? 516 : 518))
        cmp -s -i "$head" -n $((2 + count * (edition == 6 ? 2 : 4))) new made
        has "the free list of a volume of edition $edition with $size blocks that were given back" 0 $?
        for block in "${!chain[@]}"; do
            cmp -s -i $((512 * block)) -n 202 new made
            has "block $block of the free list of a volume of edition $edition with $size blocks" 0 $?
        done
    done
done

# Owners at their limits, which are no faults; tests/calls.sh has the others.
prints none mkfs 6 new 20 2 255 255 168496141
prints none mkfs 7 new 100 2 256 32767 168496141

# Each field of an i-node of either edition, with all bytes different.
image fields 2560
put fields 512 '01 00 05 00'
put fields 1056 "$(printf '%02X' {1..32})"
runs inode --json 6 fields 2
sed -i 's/"extents":\[\],//' output
echo "{\"addr\":[$((0x0A09)),$((0x0C0B)),$((0x0E0D)),$((0x100F)),$((0x1211)),$((0x1413)),$((0x1615)),$((0x1817))],\
\"atime\":$((0x1A191C1B)),\"ctime\":null,\"format\":1,\"gid\":5,\"ino\":2,\"kind\":\"odd\",\"links\":3,\"mode\":\"01001\",\"mtime\":$((0x1E1D201F)),\
\"permissions\":\"01001\",\"size\":$((0x060807)),\"uid\":4}" > line
wants 'the fields of the sixth edition' 0 line none
image fields 2560
put fields 512 '03 00 00 00 05 00'
put fields 1088 "$(printf '%02X' {1..64})"
runs inode --json 7 fields 2
sed -i 's/"extents":\[\],//' output
echo "{\"addr\":[$((0x0D0F0E)),$((0x101211)),$((0x131514)),$((0x161817)),$((0x191B1A)),$((0x1C1E1D)),$((0x1F2120)),$((0x222423)),$((0x252726)),\
$((0x282A29)),$((0x2B2D2C)),$((0x2E302F)),$((0x313332))],\"atime\":$((0x36353837)),\"ctime\":$((0x3E3D403F)),\"format\":1,\"gid\":$((0x0807)),\"ino\":2,\
\"kind\":\"odd\",\"links\":$((0x0403)),\"mode\":\"01001\",\"mtime\":$((0x3A393C3B)),\"permissions\":\"01001\",\"size\":$((0x0A090C0B)),\
\"uid\":$((0x0605))}" > line
wants 'the fields of the seventh edition' 0 line none

# Each node of the volume that Linux wrote is as Linux listed it: path, i-number, kind and permissions, links, user, group and size.
awk '/^\..*:$/ { folder = substr($0, 2, length($0) - 2); next } NF == 10 { print folder "/" $10, $1, $2, $3, $4, $5, $6 }' "$samples/linux_made.txt" |
    sort > lines
has 'how many nodes Linux told of' 37 "$(wc -l < lines)"
runs ls -l -R 7 "$samples/linux_made.v7"
awk '/:$/ { folder = substr($0, 1, length($0) - 1); if (folder == "/") folder = ""; next }
    NF == 9 && $9 != "." && $9 != ".." { print folder "/" $9, $1, $2, $3, $4, $5, $6 }' output | sort > told
cp told output
wants 'the nodes of the volume that Linux wrote' 0 lines none

# Out of memory isn't reported when there is enough, however much is asked for.
new disk 7 100 2
{ echo '16909060 0 0 create /f 644' && seq -f '16909060 0 0 write /f %.0f 78' 4999; } > script
{ echo '1.1 ok 16' && seq -f '1.%.0f ok 1' 2 5000 && printf '%s\n' 'records 5000' 'confirmed 5000'; } > lines
prints lines play 7 disk script
new disk 7 300 2
expand '{78*100000}'
printf '16909060 0 0 %s\n' 'create /f 644' "write /f 0 $expanded" 'read /f 0 100000' > script
printf '%s\n' '1.1 ok 16' '1.2 ok 100000' "1.3 read $expanded" 'records 2' 'confirmed 3' > lines
prints lines play 7 disk script
for numbers in '6 1' '7 2'; do
    read -r edition top <<< "$numbers"
    new disk "$edition" 16000 1000
    has 'the size of a volume of several megabytes' 8192000 "$(stat -c %s disk)"
    printf '%5d %s\n' "$top" . "$top" .. > lines
    prints lines ls "$edition" disk /
done

# A journal can be cut before and after each of its calls: the calls leave the same image, and the records are numbered on. All calls of
# tests/volumes/accepted are accepted.
steps=()
while IFS= read -r row; do
    expand "$row"
    steps+=("16909060 0 0 $expanded")
done < "$rows/accepted"
cut='16909060 0 0 cut'
# plays_whole EDITION STEP..: plays these steps on a new volume; `told` is the whole output
plays_whole() {
    new disk "$1" 20 2
    printf '%s\n' "${@:2}" > script
    run play "$1" disk script
    told="${lines[*]} $status"
}
for edition in 6 7; do
    plays_whole "$edition" "${steps[@]}"
    answers=()
    for number in {1..24}; do
        answer=${lines[number - 1]#"1.$number "}
        [[ $answer =~ ^ok\ [0-9]+$ ]]
        has "call $number is accepted in edition $edition" 0 $?
        answers+=("$answer")
    done
    has "a journal of edition $edition that is not cut" '26 records 24 0' "${#lines[@]} ${lines[24]} $status"
    mv disk "whole$edition"
    for ((place = 0; place <= 24; place++)); do
        plays_whole "$edition" "${steps[@]:0:place}" "$cut" "${steps[@]:place}"
        number=0
        text=
        for answer in "${answers[@]:0:place}" "cut $place" "${answers[@]:place}"; do
            number=$((number + 1))
            text+="1.$number $answer "
        done
        compare "calls of edition $edition that are cut before call $place" \
            "${text}records $((24 - place)) confirmed $((24 - place)) gone $place 0" "$told"
        saves "calls of edition $edition that are cut before call $place" disk "whole$edition"
    done
done
plays_whole 7 "${steps[@]:0:9}" "$cut" "$cut" "${steps[@]:9:9}" "$cut" "$cut" "${steps[@]:18}" "$cut" "$cut"
has 'the numbers of records of a journal that is cut twice at a time' \
    '1.10 cut 9 1.11 cut 9 1.21 cut 18 1.22 cut 18 1.29 cut 24 1.30 cut 24 records 0 confirmed 0 gone 24' "$(grep -v ' ok ' output | paste -s -d ' ' -)"
saves 'calls that are cut three times' disk whole7
# A refusal after a cut changes nothing.
expand '{01*9000}'
refused=('create /d 644' 'mkdir /x/y 755' 'unlink /a' 'rmdir /d' "write /i/j 0 $expanded" 'truncate /i 0')
plays_whole 6 "${steps[@]}" "$cut" "${refused[@]/#/16909060 0 0 }"
has 'calls that are refused after a cut' \
    '1.25 cut 24 1.26 17 Exists 1.27 2 NoEntry 1.28 2 NoEntry 1.29 101 NotEmpty 1.30 28 NoSpace 1.31 21 IsDirectory records 0 confirmed 6 gone 24 1' \
    "${lines[*]:24} $status"
saves 'calls that are refused after a cut' disk whole6

echo "$passed passed, $failed failed"
[ "$failed" = 0 ]
