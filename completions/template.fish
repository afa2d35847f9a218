# Completion of @program@ for fish, which completions/make.py made.

# Prints the words that may follow those before the cursor.
function __@program@_words
    set -l current (commandline -ct)
    set -l words (commandline -opc)
    set -l tool (string replace -r '.*/' '' -- $words[1])
    set -e words[1]
    if test "$tool" = @program@ -a (count $words) != 0
        set tool $words[1]
        set -e words[1]
    end
    set -l kinds
    set -l options
    set -l repeats
    switch "$tool"
        @tools@
    end
    set -l at 1
    set -l value
    set -l ended no
    for word in $words
        if test -n "$value"
            set value
            continue
        end
        switch "$ended $tool $word"
            case "no $tool --"
                set ended yes
            @values@
            case "no $tool --*"
            case '*'
                set at (math $at + 1)
        end
    end
    if test "$repeats" = 1 -a $at -gt (count $kinds)
        set at (math (count $kinds) - 1 + "($at - $(count $kinds) - 1)" % 2)
    end
    test -n "$value"; or set value $kinds[$at]
    string match -q -- '-*' "$current"; and test $ended = no; and set value OPTION
    set -l offered
    switch "$value"
        case OPTION
            set offered $options
        case FILE
            __fish_complete_path "$current"
        case FOLDER
            __fish_complete_directories "$current"
        @kinds@
    end
    printf '%s\n' $offered
end

for name in @names@
    complete -c $name -f -k -a '(__@program@_words)'
end
