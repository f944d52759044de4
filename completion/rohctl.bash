# Completion of rohctl in bash. tools/make_completion.py writes this from the help of rohctl.
# shellcheck shell=bash

_rohctl() {
    local word=${COMP_WORDS[COMP_CWORD]} before=${COMP_WORDS[COMP_CWORD - 1]} at=1
    local options='--color --help --version' plain='' files='' takes_files=''
    COMPREPLY=()
    case $before in
    --color)
        mapfile -t COMPREPLY < <(compgen -W 'auto always never' -- "$word")
        return
        ;;
    esac
    # The command comes behind the program's own options.
    while [[ ${COMP_WORDS[at]} == @(--color) && $at -lt $COMP_CWORD ]]; do at=$((at + 2)); done
    if [[ $at -eq $COMP_CWORD && $word != -* ]]; then
        mapfile -t COMPREPLY < <(compgen -W 'totals run trace links diff explain plan decompress script feed report survey find spread verify status stop save drain resume top reload reset watch record contexts hold export import keep calls' -- "$word")
        return
    fi
    case ${COMP_WORDS[at]} in
    totals)
        options='--json --prometheus --follow --color --help'
        plain='' files='' takes_files='yes'
        ;;
    run)
        options='--links --state --color --help'
        plain='' files='--links --state' takes_files='yes'
        ;;
    trace)
        options='--links --color --help'
        plain='' files='--links' takes_files='yes'
        ;;
    links)
        options='--json --new --color --help'
        plain='' files='' takes_files='yes'
        ;;
    diff)
        options='--json --color --help'
        plain='' files='' takes_files='yes'
        ;;
    explain)
        options='--link --vlan --port --ethertype --linktype --offset --links --line --lines --frame --frames --payload --call --since --until --state --large --brief --json --color --help'
        plain='--link --vlan --port --ethertype --linktype --offset --line --lines --frame --frames --payload --call --since --until' files='--links --state' takes_files='yes'
        ;;
    plan)
        options='--damage --packet-ms --window --calls --split --links --json --color --help'
        plain='--damage --packet-ms --window --calls --split' files='--links' takes_files=''
        ;;
    decompress)
        options='--link --vlan --port --ethertype --linktype --offset --links --padded --payload --feedback --pcapng --stats --call --since --until --color --help'
        plain='--link --vlan --port --ethertype --linktype --offset --payload --call --since --until' files='--links --feedback' takes_files='yes'
        ;;
    script)
        options='--link --vlan --port --ethertype --linktype --offset --from --other --lines --back --pcapng --links --payload --call --since --until --color --help'
        plain='--link --vlan --port --ethertype --linktype --offset --from --payload --call --since --until' files='--other --lines --links' takes_files='yes'
        ;;
    feed)
        options='--link --vlan --port --ethertype --linktype --offset --to --from --pace --now --color --help'
        plain='--link --vlan --port --ethertype --linktype --offset --to --from --pace' files='' takes_files='yes'
        ;;
    report)
        options='--link --vlan --port --ethertype --linktype --offset --links --output --payload --call --since --until --state --color --help'
        plain='--link --vlan --port --ethertype --linktype --offset --payload --call --since --until' files='--links -o --output --state' takes_files='yes'
        ;;
    survey)
        options='--link --vlan --port --ethertype --linktype --offset --links --json --color --help'
        plain='--link --vlan --port --ethertype --linktype --offset' files='--links' takes_files='yes'
        ;;
    find)
        options='--link --vlan --port --ethertype --linktype --offset --links --state --input --control --name --json --color --help'
        plain='--link --vlan --port --ethertype --linktype --offset --name' files='--links --state -i --input --control' takes_files=''
        ;;
    spread)
        options='--hosts --nginx --out --feedback --color --help'
        plain='--feedback' files='--hosts --out' takes_files='yes'
        ;;
    verify)
        options='--root --color --help'
        plain='' files='--root' takes_files='yes'
        ;;
    status)
        options='--control --name --color --help'
        plain='--name' files='--control' takes_files=''
        ;;
    stop)
        options='--control --name --color --help'
        plain='--name' files='--control' takes_files=''
        ;;
    save)
        options='--control --name --color --help'
        plain='--name' files='--control' takes_files=''
        ;;
    drain)
        options='--control --name --color --help'
        plain='--name' files='--control' takes_files=''
        ;;
    resume)
        options='--control --name --color --help'
        plain='--name' files='--control' takes_files=''
        ;;
    top)
        options='--control --name --color --help'
        plain='--name' files='--control' takes_files=''
        ;;
    reload)
        options='--control --name --dry-run --color --help'
        plain='--name' files='--control' takes_files=''
        ;;
    reset)
        options='--control --name --link --cid --color --help'
        plain='--name --link --cid' files='--control' takes_files=''
        ;;
    watch)
        options='--control --name --color --help'
        plain='--name' files='--control' takes_files=''
        ;;
    record)
        options='--control --name --seconds --link --output --color --help'
        plain='--name --seconds --link -o --output' files='--control' takes_files=''
        ;;
    contexts)
        options='--control --name --link --color --help'
        plain='--name --link' files='--control' takes_files=''
        ;;
    hold)
        options='--control --name --link --off --color --help'
        plain='--name --link' files='--control' takes_files=''
        ;;
    export)
        options='--control --name --link --off --color --help'
        plain='--name --link' files='--control' takes_files=''
        ;;
    import)
        options='--control --name --link --color --help'
        plain='--name --link' files='--control' takes_files='yes'
        ;;
    keep)
        options='--control --name --every --color --help'
        plain='--name --every' files='--control' takes_files=''
        ;;
    calls)
        options='--control --name --link --json --color --help'
        plain='--name --link' files='--control' takes_files=''
        ;;
    esac
    if [[ " $plain " == *" $before "* ]]; then
        return
    elif [[ $word == -* ]]; then
        mapfile -t COMPREPLY < <(compgen -W "$options" -- "$word")
    elif [[ -n $takes_files || " $files " == *" $before "* ]]; then
        compopt -o filenames 2>/dev/null
        mapfile -t COMPREPLY < <(compgen -f -- "$word")
    fi
}

complete -F _rohctl rohctl
