# Completions of xw for fish. ./build install puts this file where fish looks for it.

complete -c xw -f
set -l first 'test (count (commandline -opc)) -eq 1'
set -l edit '__fish_seen_subcommand_from edit; and not __fish_seen_subcommand_from help'
set -l convert '__fish_seen_subcommand_from convert; and not __fish_seen_subcommand_from help'
set -l check '__fish_seen_subcommand_from check; and not __fish_seen_subcommand_from help'
# of all files those with this ending come first
set -l puzzles '(__fish_complete_suffix .puz)'

for at in $first 'test (count (commandline -opc)) -eq 2; and __fish_seen_subcommand_from help'
    complete -c xw -n $at -a edit -d 'Answer commands from standard input, one per line'
    complete -c xw -n $at -a convert -d 'Convert a puzzle file to another format'
    complete -c xw -n $at -a check -d 'Read puzzle files and print their format, size and number of lights'
    complete -c xw -n $at -a help -d 'Print this message or the help of the given subcommand(s)'
end
complete -c xw -n $first -s V -l version -d 'Print version'
for at in $first $edit $convert $check
    complete -c xw -n $at -s h -l help -d 'Print help'
end
for at in $edit $convert $check
    complete -c xw -n $at -l explain -d 'Say in more lines where a fault of a file is, and what it means'
end

complete -c xw -n $edit -l dict -r -F -d 'Load a word list, one word per line'
complete -c xw -n $edit -l from -r -k -a $puzzles -d 'Start with this puzzle, .puz or text [default: an empty grid of 15 by 15]'
complete -c xw -n $edit -l resume -r -F -d 'Run the commands of this file first, without answers, as --save wrote them'
complete -c xw -n $edit -l to -r -k -a $puzzles -d 'Write the puzzle here at the end: as .puz if the name ends in .puz, otherwise as text'
complete -c xw -n $edit -l save -r -F -d 'Write the session here at the end, as commands for --resume'
complete -c xw -n $edit -l journal -r -F -d 'Append every change here, and resume from it'
complete -c xw -n $edit -l sync -d 'Sync each line of the journal to the device before its answer'
complete -c xw -n $edit -l progress -d 'Say on standard error how far a long search is, as on a terminal'
complete -c xw -n $convert -k -a $puzzles
complete -c xw -n $check -k -a $puzzles
