# Prints what zsh completes each line to: a line `of LINE`, and below it its words. Usage: zsh -f complete.zsh FOLDER
# LINE.., where FOLDER has the completions.
zmodload zsh/zpty
zpty shell zsh -f -i
send() { zpty -w shell "$1" }
send 'PROMPT=; unsetopt zle_bracketed_paste; zstyle ":completion:*" list-prompt ""; LISTMAX=1000'
send "fpath=($1 \$fpath); autoload -Uz compinit; compinit -u -D"
# Files, or folders alone: zsh would offer all files if it keeps no folder.
send '_files() { [[ $1 == -/ ]] && compadd -- *(/N:t) || compadd -- *(N:t) }'
# Each match is printed in place of being shown, and then the line is thrown away.
send 'compadd() {
    if [[ ${@[1,(i)(-|--)]} == *-(O|A|D)\ * ]]; then builtin compadd "$@"; return; fi
    local -a hits; builtin compadd -A hits "$@"
    local hit; for hit in $hits; do print -r -- "match:$hit"; done
}'
send 'finish() { zle complete-word; print end:; zle kill-buffer }; zle -N finish; bindkey "^I" finish'
send 'zle -C complete-word complete-word _main_complete; print ready:'
zpty -r shell text '*ready:?*ready:*'
for line in "${@[2,-1]}"; do
    print -r -- "of $line"
    zpty -w -n shell "$line"$'\t'
    zpty -r shell text '*end:*'
    print -r -- $text | tr -d '\r' | sed -n 's/.*match:\([^ ]*\).*/\1/p'
done
zpty -d shell
