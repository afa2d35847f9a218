# Prints what fish completes each line to: a line `of LINE`, and below it its words. Usage: fish complete.fish FOLDER
# LINE.., where FOLDER has the completions.
for name in $argv[1]/*.fish; source $name; end
for line in $argv[2..-1]; echo "of $line"; complete -C $line; end
