# Completion of safl-explain's words for bash: those of safl, after options of its own.

_safl_explain() {
    local word=${COMP_WORDS[COMP_CWORD]} folder rules
    if [ "$COMP_CWORD" -gt 1 ]; then
        folder=$(dirname "${BASH_SOURCE[0]}")
        # shellcheck disable=SC1090,SC1091
        declare -F _safl >/dev/null || . "$folder/safl" 2>/dev/null || . "$folder/safl.bash"
        _safl
        return
    fi
    rules="$(printf 'E%02d ' {1..16})$(printf 'V%02d ' {1..10})"
    mapfile -t COMPREPLY < <(compgen -W "check build sim run walk report gen bench reshape session aig aigstat $rules --safl --language-server --version --help" -- "$word")
}

complete -F _safl_explain safl-explain
