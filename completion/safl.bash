# Completion of safl's words for bash.

_safl_files() {
    # files of one kind, and folders
    local kind=$1 word=$2 file
    compopt -o filenames 2>/dev/null
    COMPREPLY=()
    while IFS= read -r file; do
        [[ -d $file || $file == *."$kind" ]] && COMPREPLY+=("$file")
    done < <(compgen -f -- "$word")
}

_safl_new() {
    # files that may be written over: none that is a source
    local word=$1 file
    compopt -o filenames 2>/dev/null
    COMPREPLY=()
    while IFS= read -r file; do
        [[ $file == *.safl ]] || COMPREPLY+=("$file")
    done < <(compgen -f -- "$word")
}

_safl_options() {
    # the options of a command
    case "$1" in
        build) echo --opt ;;
        sim) echo --cycles --vcd --starts --toggles ;;
        run | bench | session) echo --cycles ;;
        walk) echo --order --steps ;;
        reshape) echo --copy --unfold ;;
    esac
}

_safl() {
    local word=${COMP_WORDS[COMP_CWORD]} verb=${COMP_WORDS[1]} before=${COMP_WORDS[COMP_CWORD - 1]} place=0 i
    COMPREPLY=()
    if [ "$COMP_CWORD" -eq 1 ]; then
        mapfile -t COMPREPLY < <(compgen -W "check build sim run walk report gen bench reshape session aig aigstat" -- "$word")
        return
    fi
    if [ "$word" = = ]; then # --vcd=
        before=$before= word=
    elif [ "$before" = = ]; then # --vcd=NAME
        before=${COMP_WORDS[COMP_CWORD - 2]}=
    fi
    case "$before" in
        --vcd | --vcd=) _safl_files vcd "$word"; return ;;
        --starts | --toggles | --starts= | --toggles=) _safl_new "$word"; return ;;
        *= | --cycles | --order | --steps | --copy | --unfold) return ;; # a number
    esac
    # how many names and arguments there are up to this word, options and their values aside
    for ((i = 2; i <= COMP_CWORD; i++)); do
        case "${COMP_WORDS[i - 1]}:${COMP_WORDS[i]}" in
            --opt:-* | --opt:=) ;;
            --opt:*) place=$((place + 1)) ;;
            *:-?* | *:= | =:* | --*:*) ;;
            *) place=$((place + 1)) ;;
        esac
    done
    case "$verb:$place:$word" in
        *:-*) mapfile -t COMPREPLY < <(compgen -W "$(_safl_options "$verb")" -- "$word") ;;
        run:1:* | build:2:* | aig:1:*) _safl_files v "$word" ;;
        aig:2:* | aigstat:1:*) _safl_files aag "$word" ;;
        session:2:*) mapfile -t COMPREPLY < <(compgen -f -- "$word") ;;
        reshape:2:*) mapfile -t COMPREPLY < <(compgen -d -- "$word") ;;
        check:1:* | build:1:* | sim:1:* | walk:1:* | report:1:* | reshape:1:* | session:1:*) _safl_files safl "$word" ;;
        build:3:* | sim:2:* | run:2:* | walk:2:* | bench:3:* | reshape:3:* | session:3:*)
            mapfile -t COMPREPLY < <(compgen -W "$(_safl_options "$verb")" -- "$word") ;;
    esac
}

complete -F _safl safl
