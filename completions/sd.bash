# Completions of sd for bash.
_sd() {
    local word=${COMP_WORDS[COMP_CWORD]} before=${COMP_WORDS[COMP_CWORD - 1]}
    local no_files= plain= words=0 i
    COMPREPLY=()

    # What stands before this word: whether no word is a file, whether options have ended, and how many words there are.
    for ((i = 1; i < COMP_CWORD; i++)); do
        if [[ -z $plain ]]; then
            case ${COMP_WORDS[i]} in
                --) plain=1; continue ;;
                --root | --demo | --apply) no_files=1; ((i++)); continue ;;
                --ignore | -n | --max-replacements | -f | --flags) ((i++)); continue ;;
                --root=* | --demo=* | --apply=*) no_files=1; continue ;;
                -?*) continue ;;
            esac
        fi
        ((words++))
    done

    if [[ -z $plain ]]; then
        case $before in
            --root)
                compopt -o filenames 2>/dev/null
                mapfile -t COMPREPLY < <(compgen -d -- "$word")
                return
                ;;
            --apply | --ignore)
                compopt -o filenames 2>/dev/null
                mapfile -t COMPREPLY < <(compgen -f -- "$word")
                return
                ;;
            -f | --flags)
                mapfile -t COMPREPLY < <(compgen -W 'i c w s e m' -- "$word")
                return
                ;;
            -n | --max-replacements | --demo)
                return
                ;;
        esac
        if [[ $word == -* ]]; then
            mapfile -t COMPREPLY < <(compgen -W '-p --preview -F --fixed-strings -s --string-mode -l --line-mode
                -n --max-replacements -f --flags --root --ignore --demo --apply -h --help --' -- "$word")
            return
        fi
    fi

    # FIND and REPLACE_WITH come first. Then come files, or globs, which are the user's, or nothing where a plan is applied.
    if [[ -z $no_files ]] && ((words >= 2)); then
        compopt -o filenames 2>/dev/null
        mapfile -t COMPREPLY < <(compgen -f -- "$word")
    fi
}
complete -F _sd sd
