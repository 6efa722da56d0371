# Completion of safl-bench's words for bash.

_safl_bench() {
    local word=${COMP_WORDS[COMP_CWORD]} before=${COMP_WORDS[COMP_CWORD - 1]} file
    COMPREPLY=()
    case "$before" in
        --cycles) return ;; # a number
        --dump | -o | --out) compopt -o filenames 2>/dev/null; mapfile -t COMPREPLY < <(compgen -f -- "$word"); return ;;
    esac
    if [[ $word == -* ]]; then
        mapfile -t COMPREPLY < <(compgen -W "--cycles --dump -o --out --version --help" -- "$word")
        return
    fi
    compopt -o filenames 2>/dev/null
    while IFS= read -r file; do
        [[ -d $file || $file == *.v ]] && COMPREPLY+=("$file")
    done < <(compgen -f -- "$word")
}

complete -F _safl_bench safl-bench
