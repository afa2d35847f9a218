# Prints what bash completes each line to: a line `of LINE`, and below it its words. Usage: bash complete.bash FOLDER
# LINE.., where FOLDER has the completions.
compopt() {
    case "$*" in
        "-o default") offered=($(compgen -f -- "$current")) ;;
        "-o dirnames") offered=($(compgen -d -- "$current")) ;;
        *) offered=("compopt $*") ;;
    esac
}
for line in "${@:2}"; do
    tool=${line%% *}; [[ $tool == bacsite ]] || tool=bactool
    source "$1/$tool.bash"
    COMP_LINE=$line COMP_POINT=${#line}; "_$tool"
    printf "%s\n" "of $line" "${COMPREPLY[@]}"
done
