# Completion of spv's command line in bash. Source it, or put it where bash-completion looks, as
# /usr/share/bash-completion/completions/spv.

_spv_commands="check explain show annotate graph asm trace rules grammar help"

# _spv_options COMMAND: the options of a command, or of spv itself where it is empty.
_spv_options() {
    case $1 in
        "") echo "-h --help -V --version" ;;
        check)
            echo "-h --help --as-1.6 --extended --grammar -H --json --with-filename --no-filename --opencl --quiet" \
                "--verbose"
            ;;
        explain)
            echo "-h --help --as-1.6 --extended --full --grammar -H --json --with-filename --no-filename --opencl" \
                "--quiet --verbose"
            ;;
        show) echo "-h --help --as-1.6 --grammar --opencl --verbose" ;;
        annotate) echo "-h --help --as-1.6 --color --function --grammar --html --opencl --verbose" ;;
        graph) echo "-h --help --as-1.6 --function --grammar --opencl --verbose" ;;
        asm) echo "-h --help --big --explain --grammar --opencl --out --verbose" ;;
        trace) echo "-h --help --as-1.6 --choices --extended --function --grammar --limit --opencl --verbose" ;;
        rules) echo "-h --help --json --verbose" ;;
        grammar) echo "-h --help --verbose" ;;
    esac
}

# _spv_codes PROGRAM: the codes that the program knows, none where it cannot be run.
_spv_codes() {
    "$1" rules 2>/dev/null | while IFS=: read -r code _; do echo "$code"; done
}

_spv_files() {
    compopt -o filenames 2>/dev/null
    mapfile -t COMPREPLY < <(compgen -f -- "$1")
}

_spv_words() {
    mapfile -t COMPREPLY < <(compgen -W "$1" -- "$2")
}

_spv() {
    local current=${COMP_WORDS[COMP_CWORD]} previous=${COMP_WORDS[COMP_CWORD - 1]} command=""
    COMPREPLY=()
    [ "$COMP_CWORD" -gt 1 ] && command=${COMP_WORDS[1]}
    # bash parts --grammar=FILE at the sign.
    if [ "$current" = = ]; then
        current=""
    elif [ "$previous" = = ] && [ "$COMP_CWORD" -gt 2 ]; then
        previous=${COMP_WORDS[COMP_CWORD - 2]}
    fi
    case $previous in
        --grammar | --out)
            _spv_files "$current"
            return
            ;;
        --choices | --function | --limit) return ;;
        --color)
            _spv_words "auto always never" "$current"
            return
            ;;
    esac
    case $command:$current in
        *:-*) _spv_words "$(_spv_options "$command")" "$current" ;;
        :* | help:*) _spv_words "$_spv_commands" "$current" ;;
        rules:*) _spv_words "$(_spv_codes "${COMP_WORDS[0]}")" "$current" ;;
        *) _spv_files "$current" ;;
    esac
}

complete -F _spv spv
