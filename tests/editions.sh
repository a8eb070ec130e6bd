#!/usr/bin/env bash
# Runs the built program with `any` for the edition: what it does is compared with what it does with the edition by its number.
# Usage: tests/editions.sh PROGRAM. It prints each row that fails, and ends with 'N passed, N failed'.
. "$(dirname "$0")/rows.sh"
: > none

printf 'hello\n' > hello
printf '5 0 0 create /played 644\n' > script
for edition in 6 7; do
    "$program" mkfs "$edition" "disk$edition" 200 6 0 0 1000
    "$program" mkdir "$edition" "disk$edition" /d 1001
    "$program" put "$edition" "disk$edition" /d/hello hello 1002
done
# The volume of the sixth edition begins at block 300 of a pack.
body pack $((512 * 600))
dd if=disk7 of=pack conv=notrunc status=none
dd if=disk6 of=pack seek=300 conv=notrunc status=none

# looks_same EDITION COMMAND [WORD..] IMAGE WORD..: the command shows the same with `any` as with the edition
looks_same() {
    runs "$2" "$1" "${@:3}"
    cp output wanted
    cp error line
    local status
    status=$(cat status)
    runs "$2" any "${@:3}"
    wants "${*:2} of any edition" "$status" wanted line
}
for edition in 6 7; do
    cp "disk$edition" before
    for words in 'cat' 'ls' 'get' 'find' 'export' 'sums' 'inode' 'super' 'free' 'block' 'dump' 'df' 'map' 'check' 'icheck' 'dcheck' 'ncheck' 'salvage' 'repair'; do
        case $words in
            cat | inode | get) more=/d/hello ;;
            block | dump) more=1 ;;
            icheck | dcheck | ncheck) more=2 ;;
            salvage | repair) more=-n ;;
            *) more= ;;
        esac
        looks_same "$edition" "$words" "disk$edition" $more
    done
    looks_same "$edition" ls "disk$edition" /none
    looks_same "$edition" diff "disk$edition" "disk$edition" --fields
    looks_same "$edition" check "disk$edition" --status
    saves "a volume of edition $edition that was only looked at" "disk$edition" before
done
for words in 'ls' 'get /d/hello' 'check' 'super' 'export'; do
    read -r -a given <<< "$words"
    looks_same 7 "${given[0]}" pack "${given[@]:1}"
    looks_same 6 "${given[0]}" pack "${given[@]:1}" --at 300
done

# changes COMMAND WORD..: the command changes a volume of each edition, by itself and in a pack, as with the edition
changes() {
    local edition
    for edition in 6 7; do
        cp "disk$edition" one
        cp "disk$edition" other
        "$program" "$1" "$edition" one "${@:2}" > wanted 2> line < given
        "$program" "$1" any other "${@:2}" > output 2> error < given
        echo $? > status
        wants "$* of any edition $edition" 0 wanted line
        saves "a volume of edition $edition after $*" other one
    done
    cp pack packed
    "$program" "$1" any packed "${@:2}" --at 300 > output 2> error < given
    echo $? > status
    cp disk6 one
    "$program" "$1" 6 one "${@:2}" > wanted 2> line < given
    wants "$* of any edition in a pack" 0 wanted line
    cp pack wanted
    dd if=one of=wanted seek=300 conv=notrunc status=none
    saves "a pack after $*" packed wanted
}
"$program" export 7 disk7 /d > given
changes mkdir /new 2000
changes put /new hello 2000
changes put -t /d script 2000
changes put /x hello 2000 -x
changes ln /d/hello /l 2000
changes mv /d/hello /moved 2000
changes chmod /d 700 2000
changes chown /d 3 4 2000
changes touch /d 2000
changes rm /d/hello 2000
changes rm -r /d 2000
changes import / 2000
changes play script
changes salvage
changes resize 180

# What is sound as neither is refused, with the first rules that are broken, and nothing is done.
changed disk7 damaged 1090 '05'
cp damaged before
for words in 'ls' 'check' 'export' 'mkdir /new 2000' 'salvage' 'serve' 'icheck 1'; do
    read -r -a given <<< "$words"
    refuses 1 'unixvol: sound as neither edition' "${given[0]}" any damaged "${given[@]:1}"
done
sixth=$("$program" ls 6 damaged 2>&1)
refuses 1 $'unixvol: sound as neither edition\nunixvol: damaged: it breaks rule '"${sixth##* } as one of the sixth edition, and rule 12 as one of the seventh: write 6 or 7 for any; \`unixvol identify damaged\` guesses which" \
    --explain ls any damaged
saves 'a volume that is sound as neither' damaged before
: > empty
refuses 1 'unixvol: sound as neither edition' ls any empty
refuses 1 'unixvol: sound as neither edition' ls any hello
refuses 1 'unixvol: sound as neither edition' ls any pack --at 1
refuses 3 'unixvol: cannot read absent' ls any absent
refuses 3 'unixvol: cannot read absent' mkdir any absent /a 1
refuses 3 'unixvol: cannot read pack' ls any pack --at 601
refuses 3 $'unixvol: cannot read pack\nunixvol: pack: it ends before block 601' --explain ls any pack --at 601

# A pipe can be read only once.
mkfifo pipe
refuses 3 'unixvol: cannot read pipe' ls any pipe
refuses 3 $'unixvol: cannot read pipe\nunixvol: pipe: it can be read only once: write 6 or 7 for any' --explain ls any pipe
cat disk7 | { "$program" ls any /dev/stdin > output 2> error; echo $? > status; cat > /dev/null; }
echo 'unixvol: cannot read /dev/stdin' > line
wants 'ls of any edition through a pipe' 3 none line
"$program" ls any /dev/stdin < disk7 > output 2> error
echo $? > status
"$program" ls 7 disk7 > wanted
wants 'ls of any edition of a file on standard input' 0 wanted none

# Where a volume is made, its edition has to be said; and `any` is no file's name.
misread "error: invalid value 'any' for '<EDITION>': 6 for the Sixth, 7 for the Seventh" mkfs any new 100
has 'a volume that is not made' no "$([ -e new ] && echo yes || echo no)"
misread "error: invalid value 'all' for '<EDITION>'" ls all disk7
misread "error: invalid value 'Any' for '<EDITION>'" ls Any disk7
misread "error: a value is required for '<EDITION>'" ls '' disk7
misread 'error: ' ls any

echo "$passed passed, $failed failed"
[ "$failed" = 0 ]
