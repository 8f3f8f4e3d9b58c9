# Made by scripts/man of scripts/help: change the help, and run it.
_dap() {
    local word=${COMP_WORDS[COMP_CWORD]} before=${COMP_WORDS[COMP_CWORD - 1]} command=${COMP_WORDS[1]} options
    COMPREPLY=()
    if ((COMP_CWORD == 1)); then
        COMPREPLY=($(compgen -W 'serve show wrap unwrap check drive host help -h --help -V --version' -- "$word"))
        return
    fi
    # The words that a value may be come after a sign of equality, which is a word of its own here.
    local option=
    if [[ $word == = ]]; then option=$before word=; elif [[ $before == = ]]; then option=${COMP_WORDS[COMP_CWORD - 2]}; fi
    case $option in
        --any-seq) COMPREPLY=($(compgen -W 'client adapter both' -- "$word")); return ;;
    esac
    # A number comes after these, as a word of its own or after a sign of equality.
    case $before in --max-body | --max-breakpoints | --max-header | --max-line | --max-reference | --max-references | --max-requests | --max-seq | =) return ;; esac
    case $command in
        serve) options='--explain --max-header --max-body --max-requests --max-references --max-breakpoints --max-seq --max-reference -h --help' ;;
        show) options='--json --reasons --keep-going --explain --max-header --max-body -h --help' ;;
        wrap) options='--explain --max-body -h --help' ;;
        unwrap) options='--explain --max-header --max-body -h --help' ;;
        check) options='--all --any-seq --bodies --explain --open -h --help' ;;
        drive) options='--check --explain --max-header --max-body --max-requests --max-references --max-breakpoints --max-seq --max-reference -h --help' ;;
        host) options='--explain --max-header --max-body --max-requests --max-references --max-breakpoints --max-seq --max-reference --max-line -h --help' ;;
        help)
            if ((COMP_CWORD == 2)); then COMPREPLY=($(compgen -W 'serve show wrap unwrap check drive host' -- "$word")); fi
            return
            ;;
        *) return ;;
    esac
    if [[ $word == -* ]]; then
        COMPREPLY=($(compgen -W "$options" -- "$word"))
    else
        compopt -o default
    fi
}
complete -F _dap dap
