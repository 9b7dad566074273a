# Completions of sd for fish.

# The words after the options: no files where they are globs, where a plan is applied, or where FIND or REPLACE_WITH is being written.
function __sd_takes_files
    set -l words 0
    set -l plain
    set -l skip
    for word in (commandline -opc)[2..-1]
        if set -q skip[1]
            set -e skip
        else if set -q plain[1]
            set words (math $words + 1)
        else
            switch $word
                case --
                    set plain yes
                case --root --demo --apply '--root=*' '--demo=*' '--apply=*'
                    return 1
                case --ignore -n --max-replacements -f --flags
                    set skip yes
                case '-*'
                case '*'
                    set words (math $words + 1)
            end
        end
    end
    test $words -ge 2
end

complete -c sd -f
complete -c sd -n __sd_takes_files -F
complete -c sd -s p -l preview -d 'Write what would change, and change nothing'
complete -c sd -s F -l fixed-strings -d 'Take FIND and REPLACE_WITH as they stand'
complete -c sd -s s -l string-mode -d 'The same as --fixed-strings'
complete -c sd -s l -l line-mode -d 'Search each line by itself'
complete -c sd -s n -l max-replacements -x -d 'Replace at most so many matches, 0 for all'
complete -c sd -s f -l flags -x -d 'Flags of the search' -a 'i\t"Either case" c\t"As it is written" w\t"Whole words" s\t". takes line feeds" e\t"^ and \$ are of the whole text" m\t"^ and \$ are of each line"'
complete -c sd -l root -x -a '(__fish_complete_directories)' -d 'Change the files below a folder that fit a glob'
complete -c sd -l ignore -r -F -d 'Leave out what the rules in a file ignore'
complete -c sd -l demo -x -d 'Change a tree of so many files in memory'
complete -c sd -l apply -r -F -d 'Carry out the plan that a file holds'
complete -c sd -s h -l help -d 'Print help'
