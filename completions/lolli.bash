# Completion of lolli for bash: forms, options, and names of files.
_lolli() {
    local word=${COMP_WORDS[COMP_CWORD]} before=${COMP_WORDS[COMP_CWORD - 1]} options
    COMPREPLY=()
    if [ "$COMP_CWORD" -eq 1 ]; then
        mapfile -t COMPREPLY < <(compgen -W 'run session deepen check cover convert print make help --help --version' -- "$word")
        return
    fi
    case $before in --bound | --workers | --first | --from | --by | --to) return ;; esac
    case ${COMP_WORDS[1]} in
    run) options='--bound --workers --proofs --first' ;;
    session) options='--bound --workers --proofs' ;;
    deepen) options='--from --by --to --workers --proofs' ;;
    cover) options='--bound' ;;
    convert) options='--to' ;;
    make)
        options='--bound --workers'
        if [ "$COMP_CWORD" -eq 2 ]; then
            mapfile -t COMPREPLY < <(compgen -W 'perm choice chain' -- "$word")
            return
        fi
        ;;
    check | print) options='' ;;
    *) return ;;
    esac
    case ${COMP_WORDS[1]}:$word in
    *:-* | make:*) mapfile -t COMPREPLY < <(compgen -W "$options" -- "$word") ;;
    *)
        compopt -o filenames 2>/dev/null
        mapfile -t COMPREPLY < <(compgen -f -- "$word")
        ;;
    esac
}
complete -F _lolli lolli
