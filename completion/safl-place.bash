# Completion of safl-place's words for bash.

_safl_place() {
    local word=${COMP_WORDS[COMP_CWORD]} before=${COMP_WORDS[COMP_CWORD - 1]} file
    COMPREPLY=()
    case "$before" in
        --package | --top | --cycles | --seed | --seeds | --freq) return ;; # a word of one's own
        --device) mapfile -t COMPREPLY < <(compgen -W "lp1k lp8k hx1k hx4k hx8k up5k u4k ecp5 ecp5-25k ecp5-45k ecp5-85k" -- "$word"); return ;;
        --pins | --bits | --safl) compopt -o filenames 2>/dev/null; mapfile -t COMPREPLY < <(compgen -f -- "$word"); return ;;
    esac
    if [[ $word == -* ]]; then
        mapfile -t COMPREPLY < <(compgen -W "--device --package --top --cycles --seed --seeds --freq --counts --dsp --pins --bits --safl --version --help" -- "$word")
        return
    fi
    compopt -o filenames 2>/dev/null
    while IFS= read -r file; do
        [[ -d $file || $file == *.v || $file == *.safl ]] && COMPREPLY+=("$file")
    done < <(compgen -f -- "$word")
}

complete -F _safl_place safl-place
