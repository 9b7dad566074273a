# Completions of sd_journal for bash.
_sd_journal() {
    local word=${COMP_WORDS[COMP_CWORD]} before=${COMP_WORDS[COMP_CWORD - 1]} i
    COMPREPLY=()

    # behind `--` the words are FIND, REPLACE_WITH and globs, which are the user's
    for ((i = 1; i < COMP_CWORD; i++)); do
        [[ ${COMP_WORDS[i]} == -- ]] && return
    done
    case $before in
        --root | --recover)
            compopt -o filenames 2>/dev/null
            mapfile -t COMPREPLY < <(compgen -d -- "$word")
            return
            ;;
        -f | --flags)
            mapfile -t COMPREPLY < <(compgen -W 'i c w s e m' -- "$word")
            return
            ;;
        -n | --max-replacements)
            return
            ;;
    esac
    if [[ $word == -* ]]; then
        mapfile -t COMPREPLY < <(compgen -W '-F --fixed-strings -s --string-mode -l --line-mode
            -n --max-replacements -f --flags --root --recover -h --help --' -- "$word")
    fi
}
complete -F _sd_journal sd_journal
