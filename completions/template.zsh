#compdef @names@
# Completion of @program@ for zsh, which completions/make.py made.

local current=$PREFIX tool word ended=no
local -i at=0
local -a before kinds repeats options value offered
before=("${(@)words[1,CURRENT-1]}")
@walk@
case $value in
    OPTION) _describe -o option options; return ;;
    FILE) _files; return ;;
    FOLDER) _files -/; return ;;
    @kinds@
    *) return 1 ;;
esac
_describe -V word offered
