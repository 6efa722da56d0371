# Completion of safl-look's words for bash.

_safl_look() {
    local word=${COMP_WORDS[COMP_CWORD]} before=${COMP_WORDS[COMP_CWORD - 1]} file
    COMPREPLY=()
    case "$before" in
        --cycles | --signals | --waves) return ;; # a word of one's own
        -o | --page | --chart | --safl) compopt -o filenames 2>/dev/null; mapfile -t COMPREPLY < <(compgen -f -- "$word"); return ;;
    esac
    if [[ $word == -* ]]; then
        mapfile -t COMPREPLY < <(compgen -W "-o --page --chart --cycles --signals --waves --safl --version --help" -- "$word")
        return
    fi
    compopt -o filenames 2>/dev/null
    while IFS= read -r file; do
        [[ -d $file || $file == *.safl ]] && COMPREPLY+=("$file")
    done < <(compgen -f -- "$word")
}

complete -F _safl_look safl-look
