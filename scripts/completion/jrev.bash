# Completion of the words of jrev for bash: `. scripts/completion/jrev.bash` in a shell, or in its ~/.bashrc.

# Offers those of the words that begin as the word that is being written, quoted.
_jrev_offer() {
    local word
    for word in "$@"; do
        [[ $word != "${COMP_WORDS[COMP_CWORD]}"* ]] || COMPREPLY+=("$(printf %q "$word")")
    done
}

# The names of the classes in a folder, as their files are named, without those inside another class.
_jrev_classes() {
    local file
    for file in "$1"/*.class; do
        file=${file##*/}
        [[ $file == *[\$*]* ]] || _jrev_offer "${file%.class}"
    done
}

# Those of the options that aren't given yet; a `=` is at the end of one that has a value.
_jrev_options() {
    local option word
    for option in "$@"; do
        for word in "${COMP_WORDS[@]:4:COMP_CWORD - 4}"; do
            [ "$word" != "${option%=}" ] || continue 2
        done
        _jrev_offer "$option"
    done
}

# The word at place 1 is a command, at place 2 a folder, at place 3 a class, and each after these an option.
_jrev() {
    COMPREPLY=()
    case $COMP_CWORD:${COMP_WORDS[1]} in
    1:*) _jrev_offer pick run trace check load make migrate stress --help --version ;;
    2:pick | 2:run | 2:trace | 2:check | 2:load)
        compopt -o filenames 2>/dev/null
        mapfile -t COMPREPLY < <(compgen -d -- "${COMP_WORDS[2]}")
        ;;
    3:pick | 3:run | 3:trace | 3:check | 3:load) _jrev_classes "${COMP_WORDS[2]}" ;;
    *:pick | *:run | *:trace)
        # Bash makes a word of its own of `=`, after which comes a value.
        [ "${COMP_WORDS[COMP_CWORD]}" != = ] && [ "${COMP_WORDS[COMP_CWORD - 1]}" != = ] || return
        set -- --turns= --heap= --sections=
        case ${COMP_WORDS[1]} in
        pick) set -- "$@" --order= --seed= --counts ;;
        run) set -- "$@" --workers= --slice= --counts ;;
        trace) set -- "$@" --order= --seed= ;;
        esac
        compopt -o nospace 2>/dev/null
        _jrev_options "$@"
        ;;
    esac
}

complete -F _jrev jrev
