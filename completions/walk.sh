tool=${before[@]:0:1}
tool=${tool##*/}
before=("${before[@]:1}")
if [[ $tool == @program@ && ${#before[@]} != 0 ]]; then
    tool=${before[@]:0:1}
    before=("${before[@]:1}")
fi
case $tool in
    @tools@
esac
for word in "${before[@]}"; do
    if [[ -n $value ]]; then
        value=()
        continue
    fi
    case "$ended $tool $word" in
        "no $tool --") ended=yes ;;
        @values@
        "no $tool --"*) ;;
        *) ((at += 1)) ;;
    esac
done
if [[ -z $value && $ended == no && $current == -* ]]; then
    value=(OPTION)
elif [[ -z $value ]]; then
    ((at < ${#kinds[@]} || !repeats)) || ((at = ${#kinds[@]} - 2 + (at - ${#kinds[@]}) % 2))
    value=("${kinds[@]:$at:1}")
fi
