# Completion of lex for fish: the flags of each of its three forms, and files. scripts/install.sh writes the program's name into each line.

set -l makes 'not __fish_contains_opt scan-spec scan-table'
set -l reads 'not __fish_contains_opt scan-table'

complete -c lex -n $makes -s t -d 'Write the table file to standard output'
complete -c lex -n $makes -s n -d 'Write no statistics'
complete -c lex -n $makes -s v -d 'Write statistics'
complete -c lex -n $makes -s b -d 'Write a report of the states that back up to lex.backup'
complete -c lex -n $makes -s o -r -F -d 'Write the table file to this file'
complete -c lex -n $makes -l scan-spec -r -F -d 'Scan standard input by a specification'
complete -c lex -n $makes -l scan-table -r -F -d 'Scan standard input by a table file'
complete -c lex -n $reads -s i -d 'Letters in patterns stand for both cases'
complete -c lex -n $reads -s X -d 'An interval applies to the whole series to its left'
complete -c lex -n $reads -s w -d 'Write no warnings'
