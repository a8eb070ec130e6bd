# Completion for bash. Made by manual/make.sh.

# Completes a path in the volume with the names in its directory: the first word is the path, the others are those of `ls` for the volume.
_unixvol_paths() {
    local folder=${1%/*} name
    local -a volume=()
    [[ $1 == */* ]] || folder=
    for name in "${@:2}"; do volume+=("$(_unixvol_plain "$name")"); done
    while IFS= read -r name; do
        name=${name:6}
        # bash would leave these two characters to be carried out.
        [[ $name == . || $name == .. || $name == *[\$\`]* ]] || COMPREPLY+=("$folder/$name")
    done < <(unixvol ls "${volume[@]}" "$folder/" 2> /dev/null)
    [[ $1 == /* ]] || COMPREPLY=("${COMPREPLY[@]#/}")
    mapfile -t COMPREPLY < <(compgen -W "$(printf '%q ' "${COMPREPLY[@]}")" -- "$1")
    # After a directory the path goes on.
    compopt -o nospace 2> /dev/null
}

# Prints a word of the line without quotes, and with the home directory for a tilde.
_unixvol_plain() {
    local word=${1//[\"\'\\]/}
    printf '%s' "${word/#\~\//"$HOME"/}"
}

_unixvol() {
    local current=${COMP_WORDS[COMP_CWORD]} command='' options='' kinds='' valued='' changing='' others='' word previous='' expected=''
    local -a before=("${COMP_WORDS[@]:1:COMP_CWORD-1}") given=() volume=()
    COMPREPLY=()
    # To bash an equals sign between an option and its value is a word.
    [[ $current != = ]] || current=
    # Options of the program come before the command.
    while [[ ${before[0]:-} == -* ]]; do before=("${before[@]:1}"); done
    command=${before[0]:-}
    if [ -z "$command" ]; then
        mapfile -t COMPREPLY < <(compgen -W 'cat ls get find export sums inode super free block dump diff df map check icheck dcheck ncheck mkfs build put sync import rm rmdir mkdir ln mv chmod chown touch mknod boot salvage repair resize play migrate serve identify help --explain -h --help -V --version' -- "$current")
        return
    fi
    case $command in
        cat) kinds='6,7,any file any' options='--at --cut --bad --bad-blocks --sizes --like --damaged --explain -h --help' valued='--at=any --bad=file --bad-blocks=any --sizes=any --like=rk05,rk06,rk07,rl01,rl02,rm03,rp03,rp04,rp06,rx01,rx02' ;;
        ls) kinds='6,7,any file path' options='--at -l --long -R --recursive -d --directory --json --slots --unsound --cut --bad --bad-blocks --sizes --like --explain -h --help' valued='--at=any --bad=file --bad-blocks=any --sizes=any --like=rk05,rk06,rk07,rl01,rl02,rm03,rp03,rp04,rp06,rx01,rx02' ;;
        get) kinds='6,7,any file path any...' options='--at -o --output -p --preserve -r --recursive --unsound --cut --bad --bad-blocks --sizes --like --damaged --explain -h --help' valued='--at=any -o=file --output=file --bad=file --bad-blocks=any --sizes=any --like=rk05,rk06,rk07,rl01,rl02,rm03,rp03,rp04,rp06,rx01,rx02' changing='-o --output' others='6,7,any file path...' ;;
        find) kinds='6,7,any file path' options='--at -g --name --lost --cut --bad --bad-blocks --sizes --like --json --explain -h --help' valued='--at=any -g=any --name=any --bad=file --bad-blocks=any --sizes=any --like=rk05,rk06,rk07,rl01,rl02,rm03,rp03,rp04,rp06,rx01,rx02' ;;
        export) kinds='6,7,any file path' options='--at --lost --cut --bad --bad-blocks --sizes --like --damaged --status --explain -h --help' valued='--at=any --bad=file --bad-blocks=any --sizes=any --like=rk05,rk06,rk07,rl01,rl02,rm03,rp03,rp04,rp06,rx01,rx02' ;;
        sums) kinds='6,7,any file path' options='--at --lost --cut --bad --bad-blocks --sizes --like --json --explain -h --help' valued='--at=any --bad=file --bad-blocks=any --sizes=any --like=rk05,rk06,rk07,rl01,rl02,rm03,rp03,rp04,rp06,rx01,rx02' ;;
        inode) kinds='6,7,any file any' options='--at --json --explain -h --help' valued='--at=any' ;;
        super) kinds='6,7,any file' options='--at --json --explain -h --help' valued='--at=any' ;;
        free) kinds='6,7,any file' options='--at --json --explain -h --help' valued='--at=any' ;;
        block) kinds='6,7,any file any' options='--at --cut --bad --bad-blocks --sizes --like --json --explain -h --help' valued='--at=any --bad=file --bad-blocks=any --sizes=any --like=rk05,rk06,rk07,rl01,rl02,rm03,rp03,rp04,rp06,rx01,rx02' ;;
        dump) kinds='6,7,any file any' options='--at -i --inode --octal --json --explain -h --help' valued='--at=any' ;;
        diff) kinds='6,7,any file file' options='--at --times --fields --all --json --explain -h --help' valued='--at=any' ;;
        df) kinds='6,7,any file' options='--at --json --explain -h --help' valued='--at=any' ;;
        map) kinds='6,7,any file' options='--at --svg --cut --bad --bad-blocks --sizes --like --json --file --explain -h --help' valued='--at=any --bad=file --bad-blocks=any --sizes=any --like=rk05,rk06,rk07,rl01,rl02,rm03,rp03,rp04,rp06,rx01,rx02 --file=path' ;;
        check) kinds='6,7,any file' options='--at --status --cut --bad --bad-blocks --sizes --like --json --explain -h --help' valued='--at=any --bad=file --bad-blocks=any --sizes=any --like=rk05,rk06,rk07,rl01,rl02,rm03,rp03,rp04,rp06,rx01,rx02' ;;
        icheck) kinds='6,7,any file any' options='--at --json --explain -h --help' valued='--at=any' ;;
        dcheck) kinds='6,7,any file any' options='--at --json --explain -h --help' valued='--at=any' ;;
        ncheck) kinds='6,7,any file any' options='--at --json --explain -h --help' valued='--at=any' ;;
        mkfs) kinds='6,7 file rk05,rk06,rk07,rl01,rl02,rm03,rp03,rp04,rp06,rx01,rx02 any any any any' options='--new --at --explain -h --help' valued='--at=any' ;;
        build) kinds='file file any' options='--list --new --at --explain -h --help' valued='--at=any' changing='--list' others='6,7,any file file' ;;
        put) kinds='6,7,any file path file any any...' options='--at -t --target-directory -r --recursive -p --preserve -x --executable -o --owner --trace --explain -h --help' valued='--at=any -t=path --target-directory=path -o=any --owner=any' changing='-t --target-directory' others='6,7,any file file...' ;;
        sync) kinds='6,7,any file path file any' options='--at -n --dry-run --delete -o --owner --explain -h --help' valued='--at=any -o=any --owner=any' ;;
        import) kinds='6,7,any file path any' options='--at --skip-special -o --owner --trace --explain -h --help' valued='--at=any -o=any --owner=any' ;;
        rm) kinds='6,7,any file path any' options='--at -r --recursive --trace --explain -h --help' valued='--at=any' ;;
        rmdir) kinds='6,7,any file path any' options='--at --trace --explain -h --help' valued='--at=any' ;;
        mkdir) kinds='6,7,any file path any' options='--at -p --parents -o --owner --trace --explain -h --help' valued='--at=any -o=any --owner=any' ;;
        ln) kinds='6,7,any file path path any' options='--at --trace --explain -h --help' valued='--at=any' ;;
        mv) kinds='6,7,any file path path any' options='--at --trace --explain -h --help' valued='--at=any' ;;
        chmod) kinds='6,7,any file path any any' options='--at --trace --explain -h --help' valued='--at=any' ;;
        chown) kinds='6,7,any file path any any any' options='--at --trace --explain -h --help' valued='--at=any' ;;
        touch) kinds='6,7,any file path any' options='--at --trace --explain -h --help' valued='--at=any' ;;
        mknod) kinds='6,7,any file path any any any any any' options='--at -o --owner --trace --explain -h --help' valued='--at=any -o=any --owner=any' ;;
        boot) kinds='6,7,any file file' options='--at --explain -h --help' valued='--at=any' ;;
        salvage) kinds='6,7,any file' options='--at -o --output -n --dry-run --explain -h --help' valued='--at=any -o=file --output=file' ;;
        repair) kinds='6,7,any file file any' options='--at --new -n --dry-run --blocks --cut --bad --bad-blocks --sizes --like --explain -h --help' valued='--at=any --blocks=any --bad=file --bad-blocks=any --sizes=any --like=rk05,rk06,rk07,rl01,rl02,rm03,rp03,rp04,rp06,rx01,rx02' ;;
        resize) kinds='6,7,any file any' options='--at -n --dry-run --explain -h --help' valued='--at=any' ;;
        play) kinds='6,7,any file file...' options='--at --journal --trace --json --explain -h --help' valued='--at=any' ;;
        migrate) kinds='file file any any any' options='--new --at --devices --explain -h --help' valued='--at=any' ;;
        serve) kinds='6,7,any file' options='--at --read-only --mine -r --rescue --explain -h --help' valued='--at=any -r=file --rescue=file' ;;
        identify) kinds='file...' options='--json --csv -r --recursive --explain -h --help' ;;
        help) kinds='cat,ls,get,find,export,sums,inode,super,free,block,dump,diff,df,map,check,icheck,dcheck,ncheck,mkfs,build,put,sync,import,rm,rmdir,mkdir,ln,mv,chmod,chown,touch,mknod,boot,salvage,repair,resize,play,migrate,serve,identify' ;;
    esac
    if [[ $current == -* ]]; then
        mapfile -t COMPREPLY < <(compgen -W "$options" -- "$current")
        return
    fi
    for word in "${before[@]:1}"; do
        [[ $word != = ]] || continue
        # So is a colon, as in UID:GID; it and the next word belong to the word before.
        if [[ $word == : || $previous == : ]]; then
            [[ $previous == : ]] && previous='' || previous=:
            continue
        fi
        # The value of an option isn't one of the words.
        if [[ " $valued " == *" $previous="* ]]; then
            [[ ' --at --bad --bad-blocks --sizes --like ' != *" $previous "* ]] || volume+=("$previous" "$word")
            previous=''
            continue
        fi
        [[ " $changing " != *" $word "* ]] || kinds=$others
        previous=$word
        [[ $word == -* ]] || given+=("$word")
    done
    read -r -a kinds <<< "$kinds"
    expected=${kinds[${#given[@]}]:-}
    [[ -z $expected && ${#kinds[@]} -gt 0 && ${kinds[-1]} == *... ]] && expected=${kinds[-1]}
    if [[ " $valued " == *" $previous="* ]]; then
        expected=${valued#*"$previous="}
        expected=${expected%% *}
    fi
    [[ $previous != : ]] || expected=''
    case ${expected%...} in
        any) ;;
        file) mapfile -t COMPREPLY < <(compgen -f -- "$current") ;;
        path) _unixvol_paths "$current" "${volume[@]}" -- "${given[@]:0:2}" ;;
        *) mapfile -t COMPREPLY < <(compgen -W "${expected//,/ }" -- "$current") ;;
    esac
}

complete -o filenames -F _unixvol unixvol
