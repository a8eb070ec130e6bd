#!/usr/bin/env bash
# Compares the manual page and the completions in manual/ with the program's help, and tries the completion for bash.
# Usage: tests/manual.sh PROGRAM. It prints a line for each row that fails, and ends with 'N passed, N failed'.
. "$(dirname "$0")/rows.sh"
manual=${samples%/*}/manual

# unixvol WORD..: the program, as the completion calls it
unixvol() { "$program" "$@"; }

# completes WANTED WORD..: the last word is completed to the words in WANTED
completes() {
    local wanted=$1
    shift
    COMP_WORDS=(unixvol "$@")
    COMP_CWORD=$#
    _unixvol
    has "completion of 'unixvol $*'" "$wanted" "${COMPREPLY[*]}"
}

"$manual/make.sh" "$program" "$folder"
for file in unixvol.1 unixvol.bash _unixvol; do saves "manual/$file, as \`make manual\` makes it of the program's help" "$file" "$manual/$file"; done

# mentions FILE TEXT: FILE has TEXT, as the manual page writes it if FILE is the page
mentions() {
    local text=$2
    [ "$1" = unixvol.1 ] && text=${text//-/\\-}
    has "$2 in manual/$1" yes "$(grep -qF -- "$text" "$manual/$1" && echo yes)"
}

# listed NAME WORD..: the first word of each line in a section of the help
listed() {
    "$program" "${@:2}" --help | awk -v name="$1:" '$0 == name { on = 1; next } /^$/ { on = 0 } on { sub(/^ +/, ""); sub(/  .*/, ""); print }'
}

# Nothing that the help lists is missing.
for command in '' $(listed Commands | grep -v help); do
    for option in $(listed Options $command | sed -E -e 's/,//g' -e 's/<[A-Z:]+>//'); do
        for file in unixvol.1 unixvol.bash _unixvol; do mentions $file "$option"; done
    done
done
for command in $(listed Commands); do
    mentions unixvol.1 ".SS $command"
    mentions unixvol.bash "$command"
    mentions _unixvol "'$command:"
done

# The completion for zsh knows each option's value, and has other words for a command only if an option of its usage gives it others.
branches=
for command in $(listed Commands | grep -v help); do
    for value in $(listed Options "$command" | sed -n 's/.*<\(.*\)>$/\1/p' | sort -u); do mentions _unixvol "]:${value//:/\\:}:"; done
    [ "$("$program" "$command" --help | sed -n '/^Usage:/,/^$/p' | wc -l)" -le 2 ] || branches+="$command "
done
found=$(awk -F ')' '/^    [a-z]+\)$/ { sub(/ +/, ""); name = $1 } /words\[\(I\)/ { printf "%s ", name }' "$manual/_unixvol")
has 'commands with other words in manual/_unixvol' "$branches" "$found"

source "$manual/unixvol.bash"
cp "$samples/linux_made.v7" disk.img
mkdir away
completes 'mkfs mkdir mknod' mk
completes '6 7 any' ls ''
completes '6 7' mkfs ''
completes 'disk.img' ls 7 disk
completes '/etc/motd' get 7 disk.img /etc/m
completes 'etc/empty etc/motd etc/passwd' get 7 disk.img etc/
# A name in a volume can't be a command of the shell. (A name with `$` or a backquote gets neither a backslash nor quotes when it is completed.)
"$program" mkfs 7 odd.img 400 10 0 0 1000
for name in '$(reboot)' '`reboot`' 'plain name'; do "$program" mkdir 7 odd.img "/$name"; done
completes '/plain name' get 7 odd.img /
completes '' get 7 odd.img '/`'
completes '--help' rm --he
completes '--recursive' rm --re
completes '--svg' map --sv
completes '--read-only' serve --rea
completes '--read-only --rescue' serve --re
completes '' rm 7 disk.img /etc/motd 1
completes '/etc' put 7 disk.img -t /et
completes 'disk.img' put 7 disk.img -t /etc disk
completes 'disk.img' put 7 disk.img -t /etc one two disk
completes 'away' get 7 disk.img -o aw
completes '/etc/motd' get -o away 7 disk.img /etc/m
completes 'etc/motd' get 7 disk.img -o away /etc/passwd etc/m
completes '--target-directory --trace' put 7 disk.img --t
completes 'disk.img' put --target-directory = /etc 7 disk.img dis
completes '/etc' put 7 disk.img --target-directory = /et
completes '/etc/motd' get 7 '"disk.img"' /etc/m
completes '/etc/motd' get 7 'disk\.img' /etc/m
HOME=$folder completes '/etc/motd' get 7 '~/disk.img' /etc/m
completes '--explain' --ex
completes '--explain' rm 7 --ex
completes 'mkfs mkdir mknod' --explain mk
completes '/etc/motd' --explain get 7 disk.img /etc/m

# With an option that has a value a command's words are the same, except those of `put -t` and `get -o`.
image pack.img 4608
cat disk.img >> pack.img
completes '6 7 any' ls --at 0 ''
completes '/usr' ls 7 disk.img --at 0 /u
completes 'disk.img' build dis
completes 'disk.img' build away/list dis
completes '6 7 any' build --list ''
completes 'disk.img' build --list 7 dis
completes 'away' build --list 7 disk.img aw
completes 'check chmod chown' help ch
completes '/usr' mkdir 7 disk.img --at 0 /u
completes 'disk.img' repair --blocks 300 7 dis
completes 'disk.img' map --file /etc 7 dis
completes 'disk.img' salvage -o x 7 dis
completes 'disk.img' find -g '*.c' 7 dis
completes 'disk.img' import -o 3 : 4 7 dis
completes '' import -o 3 : 6
completes 'disk.img' play 7 disk.img --at = 0 pack.img dis
completes 'disk.img' put --at 0 -t /etc 7 disk.img dis
completes '/etc/motd' get 7 pack.img --at 9 /etc/m
completes '/etc/motd' get -o away --at = 9 7 pack.img /etc/passwd /etc/m
completes '/etc' map 7 pack.img --at 9 --file /e
completes '' find --sizes ''
completes '6 7 any' export --sizes 240,12 ''
completes 'disk.img' export --sizes = 240,12 7 dis
completes 'rk05 rk06 rk07' find --like rk
completes 'rm03' find --like = rm
completes 'rk05 rk06 rk07 rl01 rl02 rm03 rp03 rp04 rp06 rx01 rx02' export --like =
completes 'rx01 rx02' mkfs 6 new.img rx
completes 'disk.img' find --bad dis
completes 'disk.img' diff 7 pack.img dis

echo "$passed passed, $failed failed"
[ "$failed" -eq 0 ]
