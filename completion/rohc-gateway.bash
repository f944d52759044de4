# Completion of rohc-gateway in bash. tools/make_completion.py writes this from the help of rohc-gateway.
# shellcheck shell=bash

_rohc_gateway() {
    local word=${COMP_WORDS[COMP_CWORD]} before=${COMP_WORDS[COMP_CWORD - 1]} at=1
    local options='--help --version' plain='' files='' takes_files=''
    COMPREPLY=()
    case $before in
    --log-format)
        mapfile -t COMPREPLY < <(compgen -W 'text json' -- "$word")
        return
        ;;
    esac
    if [[ $at -eq $COMP_CWORD && $word != -* ]]; then
        mapfile -t COMPREPLY < <(compgen -W 'run check' -- "$word")
        return
    fi
    case ${COMP_WORDS[at]} in
    run)
        options='--links --port --timed-port --state --save-seconds --control --metrics-port --log-format --fresh --help'
        plain='--port --timed-port --save-seconds --metrics-port' files='--links --state --control' takes_files='yes'
        ;;
    check)
        options='--links --port --timed-port --state --save-seconds --control --metrics-port --log-format --help'
        plain='--port --timed-port --save-seconds --metrics-port' files='--links --state --control' takes_files='yes'
        ;;
    esac
    if [[ " $plain " == *" $before "* ]]; then
        return
    elif [[ $word == -* ]]; then
        mapfile -t COMPREPLY < <(compgen -W "$options" -- "$word")
    elif [[ -n $takes_files || " $files " == *" $before "* ]]; then
        compopt -o filenames 2>/dev/null
        mapfile -t COMPREPLY < <(compgen -f -- "$word")
    fi
}

complete -F _rohc_gateway rohc-gateway
