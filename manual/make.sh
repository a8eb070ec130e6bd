#!/usr/bin/env bash
# Writes the manual page and the completions for bash and zsh from what the program prints: each command, word and option comes from `--help`. Text on all
# commands comes from sections.man. Usage: manual/make.sh PROGRAM FOLDER. It writes FOLDER/unixvol.1, FOLDER/unixvol.bash and FOLDER/_unixvol.
set -euo pipefail
# Texts are bytes, whatever the system's language.
export LC_ALL=C
[ $# = 2 ] || { echo "usage: manual/make.sh PROGRAM FOLDER" >&2; exit 2; }
program=$(realpath "$1")
folder=$(realpath "$2")
sections=$(realpath "$(dirname "$0")")/sections.man

# help WORD..: the help of the program, or of the command named
help() { "$program" "$@" --help; }

# commands: the name of each command except `help`, one per line
commands() { help | awk '/^Commands:/ { on = 1; next } /^$/ { on = 0 } on && $1 != "help" { print $1 }'; }

# about_help: the program's text on its command `help`
about_help() { help | awk '/^Commands:/ { on = 1 } /^$/ { on = 0 } on && $1 == "help" { sub(/^ *help +/, ""); print }'; }

# about WORD..: the first line of the help
about() { help "$@" | head -n 1; }

# usage WORD..: the lines of the usage, without the word `Usage:`, in which the program has its own name
usage() { help "$@" | awk '/^Usage:/ { on = 1; sub(/^Usage:/, "") } /^$/ { on = 0 } on { sub(/^ *[^ ]*/, "unixvol"); print }'; }

# section NAME WORD..: the lines of a section of the help, from after its heading to the next empty line
section() {
    local name=$1
    shift
    help "$@" | awk -v name="$name:" '$0 == name { on = 1; next } /^$/ { on = 0 } on'
}

# rest WORD..: the text of the help after the options
rest() { help "$@" | awk 'past { print; next } /^Options:/ { on = 1; next } on && /^$/ { past = 1 }'; }

# escaped: standard input as text of a manual page
escaped() { sed -e 's/\\/\\e/g' -e 's/-/\\-/g' -e 's/`/\\(ga/g' -e "s/'/\\\\(aq/g" -e 's/^\./\\\&./'; }

# table: lines of a section of the help as a list of a manual page: the text before two spaces, and the text after them
table() {
    sed -E -e 's/^ +//' -e 's/  +/\t/' | escaped | awk -F '\t' '{ print ".TP"; print ".B " $1; print $2 }'
}

# verbatim: standard input unchanged, in a manual page
verbatim() {
    echo .nf
    escaped
    echo .fi
}

manual_page() {
    echo '.\" Made by manual/make.sh.'
    echo ".TH UNIXVOL 1 \"\" \"unixvol $("$program" --version | awk '{ print $2 }')\""
    echo .SH NAME
    echo "unixvol \\- $(about | sed -e 's/\.$//' | escaped)"
    echo .SH SYNOPSIS
    for command in $(commands); do
        usage "$command" | escaped | sed 's/^/.br\n/'
    done
    echo .br
    echo "unixvol help [COMMAND]"
    echo .SH OPTIONS
    section Options | table
    echo .SH COMMANDS
    for command in $(commands); do
        echo ".SS $command"
        about "$command" | escaped
        section Arguments "$command" | table
        section Options "$command" | table
        echo .PP
        rest "$command" | verbatim
    done
    echo ".SS help"
    about_help | escaped
    echo ".SH EXIT STATUS"
    rest | verbatim
    cat "$sections"
}

# disks: the names of the disks whose sizes the program knows, with commas between, from the text `4,872 for rk05`
disks=$(rest mkfs | tr '\n' ' ' | grep -oE '[0-9] for [a-z]+[0-9]+' | sed 's/.* //' | paste -s -d , -)

# arguments COMMAND: the words of the command, one per line: the name, with dots if the word may be repeated, a tab, and the text
arguments() { section Arguments "$1" | sed -E -e 's/^ +[[<]([^]>]*)[]>]/\1/' -e 's/  +/\t/'; }

# options [COMMAND]: the options of the command, or of the program, one per line: the name, that of the value or a hyphen, and the text, with tabs between.
# An option with two names has two lines.
options() {
    section Options "$@" | sed -E -e 's/^ +//' -e 's/  +/\t/' | awk -F '\t' -v OFS='\t' '
        { value = "-"; if (match($1, / <[^>]*>/)) { value = substr($1, RSTART + 2, RLENGTH - 3); $1 = substr($1, 1, RSTART - 1) } }
        { count = split($1, names, ", "); for (i = 1; i <= count; i++) print names[i], value, $2 }'
}

# kind NAME TEXT: the kind of a word or value by its name and text: what it can be, with commas between, a file, a path in the volume, or anything
kind() {
    local values=${2#*'[possible values: '}
    case $1:$2 in
        *'[possible values: '*) values=${values%%]*} && echo "${values//, /,}" ;;
        EDITION:*) echo 6,7 ;;
        DISK:* | FSIZE:*'the name of a disk'*) echo "$disks" ;;
        IMAGE:* | OTHER:* | FILE:* | LIST:'The list of what'* | SCRIPT:* | OLD:* | NEW:* | FOLDER:* | COPY:* | MAPFILE:*) echo file ;;
        PATH:* | FROM:* | TO:* | DIR:*) echo path ;;
        *) echo any ;;
    esac
}

# kinds: the kinds of words that standard input has as `arguments` prints them, in order; the last is followed by dots if it may be repeated
kinds() {
    local name text
    while IFS=$'\t' read -r name text; do
        echo "$(kind "${name%...}" "$text")${name#"${name%...}"}"
    done
}

# valued COMMAND: the options of the command that take a value, each with the value's kind
valued() {
    local option name text
    options "$1" | while IFS=$'\t' read -r option name text; do
        [ "$name" = - ] || echo "$option=$(kind "$name" "$text")"
    done
}

# other_usage COMMAND: the second line of the usage, which names the option with a value that gives the command other words, if there is one
other_usage() { usage "$1" | sed -n '2 s/ \[OPTIONS\]//p'; }

# naming COMMAND: the option that gives the command other words, as its usage names it
naming() { other_usage "$1" | sed -E 's/.* (--?[a-z-]+) <.*/\1/'; }

# changing COMMAND: the names of the option that gives the command other words
changing() {
    # Both names of an option have the same text.
    options "$1" | awk -F '\t' -v named="$(naming "$1")" '{ names[$3] = names[$3] $1 "\n" } $1 == named { text = $3 } END { printf "%s", names[text] }'
}

# other_arguments COMMAND: the words that a command has with this option, as `arguments` prints those without it; none follows one that may be repeated
other_arguments() {
    local name text named option
    local -A texts=()
    while IFS=$'\t' read -r name text; do texts[${name%...}]=$text; done < <(arguments ls && arguments "$1")
    named=$(naming "$1")
    option=" $named"
    # Only its value is none of the words.
    options "$1" | grep -q "^$named"$'\t-\t' || option="$option <[^>]*>"
    for name in $(other_usage "$1" | sed -E -e "s/$option//" -e 's/[][<>]//g' | cut -d ' ' -f 3-); do
        printf '%s\t%s\n' "$name" "${texts[${name%...}]:-}"
        [[ $name != *... ]] || break
    done
}

# one_line: standard input in one line
one_line() { paste -s -d ' ' -; }

# with_values COMMAND: the part of the completion for bash on options that take a value, and on the one that gives the command other words, if there are any
with_values() {
    [ -z "$(valued "$1")" ] || echo -n " valued='$(valued "$1" | one_line)'"
    [ -z "$(changing "$1")" ] || echo -n " changing='$(changing "$1" | one_line)' others='$(other_arguments "$1" | kinds | one_line)'"
}

# of_volume: the options with a value that tell `ls` which volume to read; other commands may have them too
of_volume() { valued ls | sed -n 's/^\(--[^=]*\)=.*/\1/p'; }

bash_completion() {
    cat << 'END'
# Completion for bash. Made by manual/make.sh.

# Completes a path in the volume with the names in its directory: the first word is the path, the others are those of `ls` for the volume.
_unixvol_paths() {
    local folder=${1%/*} name
    local -a volume=()
    [[ $1 == */* ]] || folder=
    for name in "${@:2}"; do volume+=("$(_unixvol_plain "$name")"); done
    while IFS= read -r name; do
        name=${name:6}
        # bash would leave these two characters to be carried out.
        [[ $name == . || $name == .. || $name == *[\$\`]* ]] || COMPREPLY+=("$folder/$name")
    done < <(unixvol ls "${volume[@]}" "$folder/" 2> /dev/null)
    [[ $1 == /* ]] || COMPREPLY=("${COMPREPLY[@]#/}")
    mapfile -t COMPREPLY < <(compgen -W "$(printf '%q ' "${COMPREPLY[@]}")" -- "$1")
    # After a directory the path goes on.
    compopt -o nospace 2> /dev/null
}

# Prints a word of the line without quotes, and with the home directory for a tilde.
_unixvol_plain() {
    local word=${1//[\"\'\\]/}
    printf '%s' "${word/#\~\//"$HOME"/}"
}

_unixvol() {
    local current=${COMP_WORDS[COMP_CWORD]} command='' options='' kinds='' valued='' changing='' others='' word previous='' expected=''
    local -a before=("${COMP_WORDS[@]:1:COMP_CWORD-1}") given=() volume=()
    COMPREPLY=()
    # To bash an equals sign between an option and its value is a word.
    [[ $current != = ]] || current=
    # Options of the program come before the command.
    while [[ ${before[0]:-} == -* ]]; do before=("${before[@]:1}"); done
    command=${before[0]:-}
    if [ -z "$command" ]; then
END
    echo "        mapfile -t COMPREPLY < <(compgen -W '$(commands | one_line) help $(options | cut -f 1 | one_line)' -- \"\$current\")"
    cat << 'END'
        return
    fi
    case $command in
END
    for command in $(commands); do
        echo "        $command) kinds='$(arguments "$command" | kinds | one_line)' options='$(options "$command" | cut -f 1 | one_line)'$(with_values "$command") ;;"
    done
    echo "        help) kinds='$(commands | paste -s -d , -)' ;;"
    cat << 'END'
    esac
    if [[ $current == -* ]]; then
        mapfile -t COMPREPLY < <(compgen -W "$options" -- "$current")
        return
    fi
    for word in "${before[@]:1}"; do
        [[ $word != = ]] || continue
        # So is a colon, as in UID:GID; it and the next word belong to the word before.
        if [[ $word == : || $previous == : ]]; then
            [[ $previous == : ]] && previous='' || previous=:
            continue
        fi
        # The value of an option isn't one of the words.
        if [[ " $valued " == *" $previous="* ]]; then
END
    echo "            [[ ' $(of_volume | one_line) ' != *\" \$previous \"* ]] || volume+=(\"\$previous\" \"\$word\")"
    cat << 'END'
            previous=''
            continue
        fi
        [[ " $changing " != *" $word "* ]] || kinds=$others
        previous=$word
        [[ $word == -* ]] || given+=("$word")
    done
    read -r -a kinds <<< "$kinds"
    expected=${kinds[${#given[@]}]:-}
    [[ -z $expected && ${#kinds[@]} -gt 0 && ${kinds[-1]} == *... ]] && expected=${kinds[-1]}
    if [[ " $valued " == *" $previous="* ]]; then
        expected=${valued#*"$previous="}
        expected=${expected%% *}
    fi
    [[ $previous != : ]] || expected=''
    case ${expected%...} in
        any) ;;
        file) mapfile -t COMPREPLY < <(compgen -f -- "$current") ;;
        path) _unixvol_paths "$current" "${volume[@]}" -- "${given[@]:0:2}" ;;
        *) mapfile -t COMPREPLY < <(compgen -W "${expected//,/ }" -- "$current") ;;
    esac
}

complete -o filenames -F _unixvol unixvol
END
}

# completer KIND: zsh's way to complete a word of this kind
completer() {
    case $1 in
        any) echo ' ' ;;
        file) echo _files ;;
        path) echo _unixvol_paths ;;
        *) echo "(${1//,/ })" ;;
    esac
}

# quoted: standard input as the text within an argument of zsh's `_arguments`
quoted() { sed -e "s/'/'\\\\''/g" -e 's/\[/(/g' -e 's/\]/)/g' -e 's/:/\\:/g'; }

# option_arguments COMMAND: the options of a command for zsh's `_arguments`, one per line. A value is the next word, or is in the option's word: after an
# equals sign, or after one letter.
option_arguments() {
    local option name text
    options "$1" | while IFS=$'\t' read -r option name text; do
        case $option:$name in
            *:-) echo "'${option}[$(quoted <<< "$text")]'" ;;
            --*) echo "'$option=[$(quoted <<< "$text")]:${name//:/\\:}:$(completer "$(kind "$name" "$text")")'" ;;
            *) echo "'$option+[$(quoted <<< "$text")]:${name//:/\\:}:$(completer "$(kind "$name" "$text")")'" ;;
        esac
    done
}

# word_arguments: the words that standard input has as `arguments` prints them, for zsh's `_arguments`, one per line
word_arguments() {
    local name text count=1 place
    while IFS=$'\t' read -r name text; do
        count=$((count + 1))
        place=$count
        [[ $name != *... ]] || place='*'
        name=${name%...}
        echo "'$place:$name -- $(quoted <<< "$text"):$(completer "$(kind "$name" "$text")")'"
    done
}

# own_options: the options of the program for zsh's `_describe`, one per line
own_options() {
    local option name text
    options | while IFS=$'\t' read -r option name text; do echo "    '$option:$(quoted <<< "$text")'"; done
}

# zsh_arguments COMMAND: zsh's way to complete the words of a command
zsh_arguments() {
    local options words given
    options="_arguments '1: :' $(option_arguments "$1" | one_line)"
    words=$(arguments "$1" | word_arguments | one_line)
    # The value may be in the same word.
    given=$(changing "$1" | sed -E -e 's/^--.*/&(|=*)/' -e 's/^-[^-]$/&*/' | paste -s -d '|' -)
    if [ -z "$given" ]; then
        echo "        $options $words"
        return
    fi
    echo "        if (( \$words[(I)($given)] )); then"
    echo "            $options $(other_arguments "$1" | word_arguments | one_line)"
    echo "        else"
    # Only with the option may a word be repeated.
    echo "            $options $(arguments "$1" | grep -v '^[^\t]*\.\.\.' | word_arguments | one_line)"
    echo "        fi"
}

zsh_completion() {
    cat << 'END'
#compdef unixvol
# Completion for zsh. Made by manual/make.sh.

# Completes a path in the volume with the names in its directory.
_unixvol_paths() {
    local given=${(Q)PREFIX} folder= name
    local -a paths volume
    [[ $given == */* ]] && folder=${given%/*}
END
    echo "    for name in $(of_volume | one_line); do"
    cat << 'END'
        (( $+opt_args[$name] )) && volume+=("$name" "${(Q)opt_args[$name]}")
    done
    for name in "${(@f)$(unixvol ls $volume -- "${(Q)line[2]}" "${(Q)line[3]}" "$folder/" 2> /dev/null)}"; do
        name=${name[7,-1]}
        [[ -z $name || $name == (.|..) ]] || paths+=("$folder/$name")
    done
    [[ $given == /* ]] || paths=("${(@)paths#/}")
    compadd -S '' -a paths
}

END
    echo 'local -a commands'
    echo 'commands=('
    for command in $(commands); do
        echo "    '$command:$(about "$command" | quoted)'"
    done
    echo "    'help:$(about_help | quoted)'"
    echo ')'
    echo 'local -a own_options'
    echo 'own_options=('
    own_options
    cat << 'END'
)
# The option of all commands may come before the command.
if (( CURRENT > 2 )) && [[ $words[2] == --explain ]]; then
    words=("$words[1]" "${(@)words[3,-1]}")
    (( CURRENT -= 1 ))
fi
if (( CURRENT == 2 )); then
    if [[ $PREFIX == -* ]]; then
        _describe -o option own_options
    else
        _describe command commands
    fi
    return
fi
case $words[2] in
END
    for command in $(commands); do
        echo "    $command)"
        zsh_arguments "$command"
        echo "        ;;"
    done
    echo 'esac'
}

manual_page > "$folder/unixvol.1"
bash_completion > "$folder/unixvol.bash"
zsh_completion > "$folder/_unixvol"
