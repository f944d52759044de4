# Completion of rohcd's words in bash.
# shellcheck shell=bash

_rohcd() {
    local word=${COMP_WORDS[COMP_CWORD]} before=${COMP_WORDS[COMP_CWORD - 1]} command=${COMP_WORDS[1]:-}
    local front='' options used option
    COMPREPLY=()
    if [ "$COMP_CWORD" -eq 1 ]; then
        mapfile -t COMPREPLY < <(compgen -W 'replay serve' -- "$word")
        return
    fi
    # Bash makes --links, = and FILE of --links=FILE, or one word if = isn't in COMP_WORDBREAKS.
    if [ "$word" = '=' ]; then
        word=''
    elif [ "$before" = '=' ]; then
        before=${COMP_WORDS[COMP_CWORD - 2]}
    elif [[ $word == --*=* ]]; then
        before=${word%%=*} front=${word%%=*}= word=${word#*=}
    fi
    case $before in
    --links)
        compopt -o filenames 2>/dev/null
        mapfile -t COMPREPLY < <(compgen -f -P "$front" -- "$word")
        return
        ;;
    --port | --count) return ;;
    esac
    case $command in
    replay) options='--links' ;;
    serve) options='--links --port --count' ;;
    *) return ;;
    esac
    used=" ${COMP_WORDS[*]:2} "
    for option in $options; do
        if [[ $used != *" $option"[\ =]* || $option == "$word" ]] && [[ $option == "$word"* ]]; then
            COMPREPLY+=("$option")
        fi
    done
}

complete -F _rohcd rohcd
