# Completions of sd_journal for fish.
complete -c sd_journal -f
complete -c sd_journal -s F -l fixed-strings -d 'Take FIND and REPLACE_WITH as they stand'
complete -c sd_journal -s s -l string-mode -d 'The same as --fixed-strings'
complete -c sd_journal -s l -l line-mode -d 'Search each line by itself'
complete -c sd_journal -s n -l max-replacements -x -d 'Replace at most so many matches, 0 for all'
complete -c sd_journal -s f -l flags -x -d 'Flags of the search' -a 'i\t"Either case" c\t"As it is written" w\t"Whole words" s\t". takes line feeds" e\t"^ and \$ are of the whole text" m\t"^ and \$ are of each line"'
complete -c sd_journal -l root -x -a '(__fish_complete_directories)' -d 'Change the files below a folder that fit a glob'
complete -c sd_journal -l recover -x -a '(__fish_complete_directories)' -d 'Go on with a run that was cut off'
complete -c sd_journal -s h -l help -d 'Print help'
