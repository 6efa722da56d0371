# Completion of safl-time's words for bash.

_safl_time() {
    local word=${COMP_WORDS[COMP_CWORD]} file
    COMPREPLY=()
    if ((COMP_CWORD == 2)) && [[ $word == -* ]]; then
        mapfile -t COMPREPLY < <(compgen -W "--secret --public" -- "$word")
    fi
    ((COMP_CWORD > 1)) && return # an argument of main, or names
    compopt -o filenames 2>/dev/null
    while IFS= read -r file; do
        [[ -d $file || $file == *.safl ]] && COMPREPLY+=("$file")
    done < <(compgen -f -- "$word")
}

complete -F _safl_time safl-time
