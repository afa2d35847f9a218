# Completion of @program@ for bash, which completions/make.py made.

_@program@() {
    local current tool word at=0 ended=no
    local -a before kinds repeats options value offered
    # Splits words only at spaces: bash itself would split addresses at their colon.
    read -ra before <<<"${COMP_LINE:0:COMP_POINT}"
    [[ ${COMP_LINE:0:COMP_POINT} == *[[:space:]] ]] && before+=("")
    current=${before[-1]}
    before=("${before[@]:0:${#before[@]}-1}")
    @walk@
    case $value in
        OPTION) offered=("${options[@]}") ;;
        FILE) compopt -o default 2>/dev/null ;;
        FOLDER) compopt -o dirnames 2>/dev/null ;;
        @kinds@
    esac
    COMPREPLY=($(compgen -W "${offered[*]}" -- "$current"))
}

complete -F _@program@ @names@
