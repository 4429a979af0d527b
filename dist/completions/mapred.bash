# Completions of mapred for bash, made from the help of its parser.
_mapred() {
    local word=${COMP_WORDS[COMP_CWORD]} before=${COMP_WORDS[COMP_CWORD - 1]}
    COMPREPLY=()
    if [ "$COMP_CWORD" = 1 ]; then
        mapfile -t COMPREPLY < <(compgen -W 'seq run picture check merge verify explain help --help --version' -- "$word")
        return
    fi
    case "${COMP_WORDS[1]} $before" in
    'seq --job') mapfile -t COMPREPLY < <(compgen -W 'words grep url index field' -- "$word") && return ;;
    'seq --literal') return ;;
    'seq --field') return ;;
    'seq --separator') return ;;
    'seq --parts') return ;;
    'seq --split') return ;;
    'seq --max-skips') return ;;
    'seq --from') return ;;
    'seq --to') return ;;
    'seq --out') mapfile -t COMPREPLY < <(compgen -d -- "$word") && return ;;
    'seq --skips') mapfile -t COMPREPLY < <(compgen -f -- "$word") && return ;;
    'seq --cert') return ;;
    'seq --report') mapfile -t COMPREPLY < <(compgen -f -- "$word") && return ;;
    'seq --hints') mapfile -t COMPREPLY < <(compgen -W 'auto always never' -- "$word") && return ;;
    'run --job') mapfile -t COMPREPLY < <(compgen -W 'words grep url index field' -- "$word") && return ;;
    'run --literal') return ;;
    'run --field') return ;;
    'run --separator') return ;;
    'run --parts') return ;;
    'run --split') return ;;
    'run --max-skips') return ;;
    'run --from') return ;;
    'run --to') return ;;
    'run --out') mapfile -t COMPREPLY < <(compgen -d -- "$word") && return ;;
    'run --workers') return ;;
    'run --attempts') return ;;
    'run --script') mapfile -t COMPREPLY < <(compgen -f -- "$word") && return ;;
    'run --history') mapfile -t COMPREPLY < <(compgen -f -- "$word") && return ;;
    'run --picture') mapfile -t COMPREPLY < <(compgen -f -- "$word") && return ;;
    'run --scratch') mapfile -t COMPREPLY < <(compgen -d -- "$word") && return ;;
    'run --cert') return ;;
    'run --report') mapfile -t COMPREPLY < <(compgen -f -- "$word") && return ;;
    'run --hints') mapfile -t COMPREPLY < <(compgen -W 'auto always never' -- "$word") && return ;;
    'picture --out') mapfile -t COMPREPLY < <(compgen -f -- "$word") && return ;;
    'picture --hints') mapfile -t COMPREPLY < <(compgen -W 'auto always never' -- "$word") && return ;;
    'check --job') mapfile -t COMPREPLY < <(compgen -W 'words grep url index field' -- "$word") && return ;;
    'check --literal') return ;;
    'check --field') return ;;
    'check --separator') return ;;
    'check --parts') return ;;
    'check --split') return ;;
    'check --max-skips') return ;;
    'check --from') return ;;
    'check --to') return ;;
    'check --out') mapfile -t COMPREPLY < <(compgen -d -- "$word") && return ;;
    'check --threads') return ;;
    'check --verdict') mapfile -t COMPREPLY < <(compgen -f -- "$word") && return ;;
    'check --report') mapfile -t COMPREPLY < <(compgen -f -- "$word") && return ;;
    'check --hints') mapfile -t COMPREPLY < <(compgen -W 'auto always never' -- "$word") && return ;;
    'merge --out') mapfile -t COMPREPLY < <(compgen -d -- "$word") && return ;;
    'merge --inputs') mapfile -t COMPREPLY < <(compgen -f -- "$word") && return ;;
    'merge --report') mapfile -t COMPREPLY < <(compgen -f -- "$word") && return ;;
    'merge --hints') mapfile -t COMPREPLY < <(compgen -W 'auto always never' -- "$word") && return ;;
    'verify --out') mapfile -t COMPREPLY < <(compgen -d -- "$word") && return ;;
    'verify --report') mapfile -t COMPREPLY < <(compgen -f -- "$word") && return ;;
    'verify --hints') mapfile -t COMPREPLY < <(compgen -W 'auto always never' -- "$word") && return ;;
    'explain --job') mapfile -t COMPREPLY < <(compgen -W 'words grep url index field' -- "$word") && return ;;
    'explain --literal') return ;;
    'explain --field') return ;;
    'explain --separator') return ;;
    'explain --parts') return ;;
    'explain --split') return ;;
    'explain --max-skips') return ;;
    'explain --from') return ;;
    'explain --to') return ;;
    'explain --key') return ;;
    'explain --limit') return ;;
    'explain --out') mapfile -t COMPREPLY < <(compgen -d -- "$word") && return ;;
    'explain --skips') mapfile -t COMPREPLY < <(compgen -f -- "$word") && return ;;
    'explain --report') mapfile -t COMPREPLY < <(compgen -f -- "$word") && return ;;
    'explain --hints') mapfile -t COMPREPLY < <(compgen -W 'auto always never' -- "$word") && return ;;
    esac
    case "${COMP_WORDS[1]} $word" in
    'seq -'*) mapfile -t COMPREPLY < <(compgen -W '--job --keep-case --literal --fold --by-host --field --separator --parts --split --max-skips --from --to --out --fresh --need-pairs --skips --cert --report --hints --help' -- "$word") ;;
    'run -'*) mapfile -t COMPREPLY < <(compgen -W '--job --keep-case --literal --fold --by-host --field --separator --parts --split --max-skips --from --to --out --fresh --need-pairs --workers --attempts --script --history --picture --scratch --cert --report --hints --help' -- "$word") ;;
    'picture -'*) mapfile -t COMPREPLY < <(compgen -W '--out --hints --help' -- "$word") ;;
    'check -'*) mapfile -t COMPREPLY < <(compgen -W '--job --keep-case --literal --fold --by-host --field --separator --parts --split --max-skips --from --to --out --threads --verdict --report --hints --help' -- "$word") ;;
    'merge -'*) mapfile -t COMPREPLY < <(compgen -W '--out --fresh --inputs --partial --report --hints --help' -- "$word") ;;
    'verify -'*) mapfile -t COMPREPLY < <(compgen -W '--out --with-inputs --report --hints --help' -- "$word") ;;
    'explain -'*) mapfile -t COMPREPLY < <(compgen -W '--job --keep-case --literal --fold --by-host --field --separator --parts --split --max-skips --from --to --key --none --limit --out --skips --report --hints --help' -- "$word") ;;
    *) mapfile -t COMPREPLY < <(compgen -f -- "$word") ;;
    esac
}
complete -o filenames -F _mapred mapred
