# Completion of safl-waves's words for bash.

_safl_waves() {
    local word=${COMP_WORDS[COMP_CWORD]} before=${COMP_WORDS[COMP_CWORD - 1]} file
    COMPREPLY=()
    case "$before" in
        --signals | --cycles | --period | --at) return ;; # a word of one's own
        -o | --out) compopt -o filenames 2>/dev/null; mapfile -t COMPREPLY < <(compgen -f -- "$word"); return ;;
    esac
    if [[ $word == -* ]]; then
        mapfile -t COMPREPLY < <(compgen -W "-o --out --text --signals --cycles --period --at --version --help" -- "$word")
        return
    fi
    compopt -o filenames 2>/dev/null
    while IFS= read -r file; do
        [[ -d $file || $file == *.vcd ]] && COMPREPLY+=("$file")
    done < <(compgen -f -- "$word")
}

complete -F _safl_waves safl-waves
