# Completion of safl-explore's words for bash.

_safl_explore() {
    local word=${COMP_WORDS[COMP_CWORD]} before=${COMP_WORDS[COMP_CWORD - 1]} file
    COMPREPLY=()
    case "$before" in
        --cycles | --points | --seconds | --jobs | --seed | --seeds | --scheduler | --inline | --inline-below) return ;; # a word of one's own
        --device) mapfile -t COMPREPLY < <(compgen -W "lp1k lp8k hx1k hx4k hx8k up5k u4k ecp5 ecp5-25k ecp5-45k ecp5-85k" -- "$word"); return ;;
        --out) compopt -o filenames 2>/dev/null; mapfile -t COMPREPLY < <(compgen -d -- "$word"); return ;;
        --calls | --known | --plot | --source | --safl) compopt -o filenames 2>/dev/null; mapfile -t COMPREPLY < <(compgen -f -- "$word"); return ;;
    esac
    if [[ $word == -* ]]; then
        mapfile -t COMPREPLY < <(compgen -W "--calls --cycles --points --seconds --jobs --scheduler --keep --known --luts --place --front --device --dsp --seed --seeds --out --plot --inline --inline-below --source --safl --version --help" -- "$word")
        return
    fi
    compopt -o filenames 2>/dev/null
    while IFS= read -r file; do
        [[ -d $file || $file == *.safl ]] && COMPREPLY+=("$file")
    done < <(compgen -f -- "$word")
}

complete -F _safl_explore safl-explore
