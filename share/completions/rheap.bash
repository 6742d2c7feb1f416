# Completions of rheap for bash. Made by share/make of what the program says of itself.
_rheap() {
    local word=${COMP_WORDS[COMP_CWORD]} before=${COMP_WORDS[COMP_CWORD - 1]} options= valued=
    COMPREPLY=()
    if [ "$COMP_CWORD" = 1 ]; then
        mapfile -t COMPREPLY < <(compgen -W 'run threads replay dump draw shell lisp completions help -h --help -V --version' -- "$word")
        return
    fi
    case ${COMP_WORDS[1]} in
    run) options='--explain --paced --mark --grow --cycles --trace-events --history --echo --json -h --help' valued='--mark --grow' ;;
    threads) options='--explain --replicators --idle -h --help' valued='--replicators --idle' ;;
    replay) options='--explain --echo --json -h --help' valued='' ;;
    dump) options='--explain --dot --heapsnapshot --why --json -h --help' valued='--why' ;;
    draw) options='--explain --line -h --help' valued='--line' ;;
    shell) options='-h --help' valued='' ;;
    lisp) options='--heap --grow --steps --cycles --trace-events --explain -h --help' valued='--heap --grow --steps' ;;
    completions) options='-h --help' valued='' ;;
    help)
        mapfile -t COMPREPLY < <(compgen -W 'run threads replay dump draw shell lisp completions' -- "$word")
        return
        ;;
    *) return ;;
    esac
    case " $valued " in
    *" $before "*) return ;;
    esac
    case ${COMP_WORDS[1]}:$word in
    completions:[!-]* | completions:)
        mapfile -t COMPREPLY < <(compgen -W 'bash zsh fish' -- "$word")
        return
        ;;
    shell:[!-]* | shell:) return ;;
    esac
    case $word in
    -*) mapfile -t COMPREPLY < <(compgen -W "$options" -- "$word") ;;
    *) mapfile -t COMPREPLY < <(compgen -f -- "$word") ;;
    esac
}
complete -o filenames -F _rheap rheap
