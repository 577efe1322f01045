# Completion of flowvault for bash: put it into /usr/share/bash-completion/completions/flowvault, or read it by
# `. flowvault.bash`. judge/completions.py holds it against the program's help.

_flowvault() {
    local commands='measure dump inspect create check totals flows records export templates feed shell roll merge explain help'
    local current=${COMP_WORDS[COMP_CWORD]} previous=${COMP_WORDS[COMP_CWORD - 1]} words= paths=
    COMPREPLY=()
    if [ "$COMP_CWORD" -eq 1 ]; then
        words="$commands -h --help -V --version"
    else
        case $previous in
        --limit | --wide | --keep | --merge | --from | --to | --since | --until | --workers) return ;;
        esac
        [ "${COMP_WORDS[1]} $previous" = 'records --csv' ] && return
        case ${COMP_WORDS[1]} in
        measure) words='--csv --json --utc --warn' ;;
        dump) ;;
        inspect) words='--csv --json --utc' paths=-f ;;
        create) words='--limit --wide' paths=-d ;;
        check) words='--files' paths=-d ;;
        totals) words='--since --until --csv --json --utc --workers --each' paths=-d ;;
        flows) words='--since --until --csv --json --utc' paths=-d ;;
        records) words='--since --until --csv --json --utc' paths=-d ;;
        export) words='--from --to --since --until' paths=-d ;;
        templates) paths=-d ;;
        feed) words='--keep --merge --from --warn --datagrams --end-on' paths=-f ;;
        shell) words='--keep --merge' paths=-d ;;
        roll | merge) paths=-d ;;
        explain) ;;
        help)
            COMPREPLY=($(compgen -W "$commands" -- "$current"))
            return
            ;;
        *) return ;;
        esac
        words="$words -h --help"
        # (a path is what a word may be that isn't an option)
        case $current in
        -*) paths= ;;
        *) words= ;;
        esac
    fi
    if [ -n "$paths" ]; then
        compopt -o filenames 2>/dev/null
        local IFS=$'\n'
        COMPREPLY=($(compgen "$paths" -- "$current"))
    else
        COMPREPLY=($(compgen -W "$words" -- "$current"))
    fi
}

complete -F _flowvault flowvault
