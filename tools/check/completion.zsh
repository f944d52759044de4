# Prints what zsh completes at the end of a line, one match per line, between two lines that end with <mark>.
#
# usage: zsh -f completion.zsh FOLDER LINE       FOLDER has the completion functions
#
# Only an interactive shell completes, so one runs on a terminal of its own. There compadd, which adds the matches, prints
# them too, unless it only sorts them into arrays.
zmodload zsh/zpty
begin='
PROMPT= RPROMPT=
fpath=("'$1'" $fpath)
autoload -Uz compinit && compinit -u -D
bindkey "^I" complete-word
mark() { print -r - "<mark>" }
compprefuncs=(mark)
comppostfuncs=(mark)
compadd() {
    local -a hits
    if [[ ${@[1,(i)(-|--)]} != *-(O|A|D)\ * ]]; then
        builtin compadd -A hits "$@"
        (($#hits)) && print -rl - $hits
    fi
    builtin compadd "$@"
}
print "<ready>"
'
zpty inner zsh -f -i
zpty -w inner "$begin"
zpty -r inner answer '*<ready>*'
zpty -w -n inner "$2"$'\t'
zpty -r -m inner answer '*<mark>*<mark>*'
print -r -- "$answer"
zpty -d inner
