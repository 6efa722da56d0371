# Completion of safl-wrap's words for bash.

_safl_wrap() {
    local word=${COMP_WORDS[COMP_CWORD]} before=${COMP_WORDS[COMP_CWORD - 1]} ending=v file
    COMPREPLY=()
    case "$before" in
        --module | --core | --width | --cycles | --seed | --stalls) return ;; # a word of one's own
        --bench) mapfile -t COMPREPLY < <(compgen -W "verilog cpp" -- "$word"); return ;;
        --solver) mapfile -t COMPREPLY < <(compgen -W "z3 cvc4 cvc5 yices" -- "$word"); return ;;
        --script | --safl) compopt -o filenames 2>/dev/null; mapfile -t COMPREPLY < <(compgen -f -- "$word"); return ;;
        --source) ending=safl ;;
        --bench-out) ending='@(v|cpp)' ;;
        --header) ending=h ;;
        --formal) ending=sv ;;
        *)
            if [[ $word == -* ]]; then
                mapfile -t COMPREPLY < <(compgen -W "--out --module --core --width --axi --last --axi-lite --header --formal --solver --bench --bench-out --source --script --cycles --seed --stalls --run --safl --version --help" -- "$word")
                return
            fi ;;
    esac
    compopt -o filenames 2>/dev/null
    while IFS= read -r file; do
        # shellcheck disable=SC2053
        [[ -d $file || $file == *.$ending ]] && COMPREPLY+=("$file")
    done < <(compgen -f -- "$word")
}

complete -F _safl_wrap safl-wrap
