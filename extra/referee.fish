# Completions of referee for fish: put this file into ~/.config/fish/completions under its name.
# extra/completions.py makes this file of the program's help. Do not change it by hand.

# The words of the command line that are neither options nor their values, without the name of the program.
function __referee_words
    set -l passed
    for word in (commandline -opc)[2..-1]
        if test -n "$passed"
            set passed
        else if contains -- $word --rules --names --skip --pages --corrected --number --repaired --merged --top --before
            set passed yes
        else if not string match -qr -- '^-.' $word
            echo $word
        end
    end
end

# Whether no command is named yet.
function __referee_none
    test (count (__referee_words)) -eq 0
end

# Whether a command is this one.
function __referee_command
    set -l words (__referee_words)
    test "$words[1]" = $argv[1]
end

# Whether the word at the cursor is an argument of a command by its number, or one of more from there on.
function __referee_argument
    set -l number (count (__referee_words))
    __referee_command $argv[1]; and begin
        test $number -eq $argv[2]; or test -n "$argv[3]" -a $number -gt $argv[2]
    end
end

complete -c referee -n __referee_none -f -a judge -d 'Judges a game, and prints the best play of each turn'
complete -c referee -n __referee_none -f -a archive -d 'Judges many games as judge --settle does, one line for each'
complete -c referee -n __referee_none -f -a index -d 'Writes the index of the pages of one run of archive, or of many'
complete -c referee -n __referee_none -f -a audit -d 'Prints every wrong score and sum of a sheet, and can write the corrected record'
complete -c referee -n __referee_none -f -a fill -d 'Puts the scores and totals that are missing into a draft of a record, and writes the record'
complete -c referee -n __referee_none -f -a explain -d 'Explains the verdict on a game, or one of its lines, in plain words'
complete -c referee -n __referee_none -f -a repair -d 'Lists the single changes of a faulty record after which it is a game, the likeliest first'
complete -c referee -n __referee_none -f -a compare -d 'Compares two players'\'' sheets of one game, and says which lines the rules support where they differ'
complete -c referee -n __referee_none -f -a page -d 'Writes a game as a web page: its verdict, its board and its sheet'
complete -c referee -n __referee_none -f -a annotate -d 'Writes a record with a note after each turn: the best play, and how many points more it gives'
complete -c referee -n __referee_none -f -a build -d 'Writes the compiled lexicon of a word list'
complete -c referee -n __referee_none -f -a check -d 'Says whether a file is exactly the lexicon of a word list'
complete -c referee -n __referee_none -f -a word -d 'Says whether words that are challenged are acceptable: whether all of them are in the list'
complete -c referee -n __referee_none -f -a convert -d 'Writes a lexicon in the format gad1 or gad2'
complete -c referee -n __referee_none -f -a top -d 'Prints the best plays with RACK after the last event of a record, or before one of its lines'
complete -c referee -n __referee_none -f -a tidy -d 'Prints the players and events of a record in one normal form'
complete -c referee -n __referee_none -f -a board -d 'Shows the board after the last event of a record, or before one of its lines'
complete -c referee -n __referee_none -f -a serve -d 'Answers the requests of a program, one JSON object a line, until standard input ends'
complete -c referee -n __referee_none -f -a rules -d 'Prints the English rules as a rules text, from which others can be made'
complete -c referee -n __referee_none -f -a help -d 'Print this message or the help of the given subcommand(s)'
complete -c referee -n '__referee_none' -s h -l help -d 'Print help'
complete -c referee -n '__referee_none' -s V -l version -d 'Print version'
complete -c referee -n '__referee_command judge' -l settle -d 'search for a deal, or a proof that there is none, if the game would otherwise be unsettled'
complete -c referee -n '__referee_command judge' -l json -d 'write the answer as a JSON object'
complete -c referee -n '__referee_command judge' -l first-field -d 'read the first field of each line of WORDS, and ignore lines that begin with #'
complete -c referee -n '__referee_command judge' -l skip-others -d 'pass over the lines of WORDS that are not words of 2 to 15 letters'
complete -c referee -n '__referee_command judge' -l rules -r -F -d 'the rules text; without it the rules are the English ones'
complete -c referee -n '__referee_command judge' -s h -l help -d 'Print help'
complete -c referee -n '__referee_command archive' -l names -r -F -d 'the names of the records, one a line; - is standard input'
complete -c referee -n '__referee_command archive' -s 0 -l null -d 'names of FILE end in a NUL and not in an LF'
complete -c referee -n '__referee_command archive' -l skip -r -F -d 'pass over names that have a line in this file of lines; - is standard input'
complete -c referee -n '__referee_command archive' -l json -d 'write each line as a JSON object'
complete -c referee -n '__referee_command archive' -l pages -x -a '(__fish_complete_directories)' -d 'write a page of each game, and their index, to this folder'
complete -c referee -n '__referee_command archive' -l repairs -d 'end each line with the likely repair of an illegal game, and how many numbers are right with it'
complete -c referee -n '__referee_command archive' -l progress -d 'show on standard error how many games are done'
complete -c referee -n '__referee_command archive' -l quiet -d 'do not show how many games are done'
complete -c referee -n '__referee_command archive' -l first-field -d 'read the first field of each line of WORDS, and ignore lines that begin with #'
complete -c referee -n '__referee_command archive' -l skip-others -d 'pass over the lines of WORDS that are not words of 2 to 15 letters'
complete -c referee -n '__referee_command archive' -l rules -r -F -d 'the rules text; without it the rules are the English ones'
complete -c referee -n '__referee_command archive' -s h -l help -d 'Print help'
complete -c referee -n '__referee_command index' -s h -l help -d 'Print help'
complete -c referee -n '__referee_command audit' -l corrected -r -F -d 'write the corrected record to this file, if nothing else is wrong; - is standard output'
complete -c referee -n '__referee_command audit' -l json -d 'write the answer as a JSON object'
complete -c referee -n '__referee_command audit' -l first-field -d 'read the first field of each line of WORDS, and ignore lines that begin with #'
complete -c referee -n '__referee_command audit' -l skip-others -d 'pass over the lines of WORDS that are not words of 2 to 15 letters'
complete -c referee -n '__referee_command audit' -l rules -r -F -d 'the rules text; without it the rules are the English ones'
complete -c referee -n '__referee_command audit' -s h -l help -d 'Print help'
complete -c referee -n '__referee_command fill' -l next -d 'say what the next line is about: whose turn it is, the totals, the tiles on the racks and in the bag'
complete -c referee -n '__referee_command fill' -l json -d 'write the answer as a JSON object'
complete -c referee -n '__referee_command fill' -l first-field -d 'read the first field of each line of WORDS, and ignore lines that begin with #'
complete -c referee -n '__referee_command fill' -l skip-others -d 'pass over the lines of WORDS that are not words of 2 to 15 letters'
complete -c referee -n '__referee_command fill' -l rules -r -F -d 'the rules text; without it the rules are the English ones'
complete -c referee -n '__referee_command fill' -s h -l help -d 'Print help'
complete -c referee -n '__referee_command explain' -l draft -d 'read GAME as a draft, whose event lines may lack the total, or the score and the total'
complete -c referee -n '__referee_command explain' -l json -d 'write the answer as a JSON object'
complete -c referee -n '__referee_command explain' -l first-field -d 'read the first field of each line of WORDS, and ignore lines that begin with #'
complete -c referee -n '__referee_command explain' -l skip-others -d 'pass over the lines of WORDS that are not words of 2 to 15 letters'
complete -c referee -n '__referee_command explain' -l rules -r -F -d 'the rules text; without it the rules are the English ones'
complete -c referee -n '__referee_command explain' -s h -l help -d 'Print help'
complete -c referee -n '__referee_argument explain 4' -f -d 'LINE'
complete -c referee -n '__referee_command repair' -l number -x -d 'how many repairs are listed, 1 to 100; 10 without it'
complete -c referee -n '__referee_command repair' -l repaired -r -F -d 'write the sheet with the first repair to this file, if it is ahead of the second by a number; - is standard output'
complete -c referee -n '__referee_command repair' -l draft -d 'read GAME as a draft, whose event lines may lack the total, or the score and the total'
complete -c referee -n '__referee_command repair' -l json -d 'write the answer as a JSON object'
complete -c referee -n '__referee_command repair' -l first-field -d 'read the first field of each line of WORDS, and ignore lines that begin with #'
complete -c referee -n '__referee_command repair' -l skip-others -d 'pass over the lines of WORDS that are not words of 2 to 15 letters'
complete -c referee -n '__referee_command repair' -l rules -r -F -d 'the rules text; without it the rules are the English ones'
complete -c referee -n '__referee_command repair' -s h -l help -d 'Print help'
complete -c referee -n '__referee_command compare' -l merged -r -F -d 'write the merged record to this file, if one choice of the lines is ahead of all others; - is standard output'
complete -c referee -n '__referee_command compare' -l draft -d 'read SHEET1 and SHEET2 as drafts, whose event lines may lack the total, or the score and the total'
complete -c referee -n '__referee_command compare' -l json -d 'write the answer as a JSON object'
complete -c referee -n '__referee_command compare' -l first-field -d 'read the first field of each line of WORDS, and ignore lines that begin with #'
complete -c referee -n '__referee_command compare' -l skip-others -d 'pass over the lines of WORDS that are not words of 2 to 15 letters'
complete -c referee -n '__referee_command compare' -l rules -r -F -d 'the rules text; without it the rules are the English ones'
complete -c referee -n '__referee_command compare' -s h -l help -d 'Print help'
complete -c referee -n '__referee_command page' -l first-field -d 'read the first field of each line of WORDS, and ignore lines that begin with #'
complete -c referee -n '__referee_command page' -l skip-others -d 'pass over the lines of WORDS that are not words of 2 to 15 letters'
complete -c referee -n '__referee_command page' -l rules -r -F -d 'the rules text; without it the rules are the English ones'
complete -c referee -n '__referee_command page' -s h -l help -d 'Print help'
complete -c referee -n '__referee_command annotate' -l top -x -d 'how many best plays a note has, 1 to 100; 1 without it'
complete -c referee -n '__referee_command annotate' -l first-field -d 'read the first field of each line of WORDS, and ignore lines that begin with #'
complete -c referee -n '__referee_command annotate' -l skip-others -d 'pass over the lines of WORDS that are not words of 2 to 15 letters'
complete -c referee -n '__referee_command annotate' -l rules -r -F -d 'the rules text; without it the rules are the English ones'
complete -c referee -n '__referee_command annotate' -s h -l help -d 'Print help'
complete -c referee -n '__referee_command build' -l first-field -d 'read the first field of each line of WORDS, and ignore lines that begin with #'
complete -c referee -n '__referee_command build' -l skip-others -d 'pass over the lines of WORDS that are not words of 2 to 15 letters'
complete -c referee -n '__referee_command build' -s h -l help -d 'Print help'
complete -c referee -n '__referee_command check' -l json -d 'write the answer as a JSON object'
complete -c referee -n '__referee_command check' -l first-field -d 'read the first field of each line of WORDS, and ignore lines that begin with #'
complete -c referee -n '__referee_command check' -l skip-others -d 'pass over the lines of WORDS that are not words of 2 to 15 letters'
complete -c referee -n '__referee_command check' -s h -l help -d 'Print help'
complete -c referee -n '__referee_command word' -l each -d 'print a line for each word'
complete -c referee -n '__referee_command word' -l first-field -d 'read the first field of each line of WORDS, and ignore lines that begin with #'
complete -c referee -n '__referee_command word' -l skip-others -d 'pass over the lines of WORDS that are not words of 2 to 15 letters'
complete -c referee -n '__referee_command word' -s h -l help -d 'Print help'
complete -c referee -n '__referee_argument word 3 more' -f -d 'WORD'
complete -c referee -n '__referee_command convert' -s h -l help -d 'Print help'
complete -c referee -n '__referee_argument convert 1' -f -a 'gad1 gad2' -d 'FORMAT'
complete -c referee -n '__referee_command top' -l number -x -d 'how many plays are printed at most, 1 to 100; 10 without it'
complete -c referee -n '__referee_command top' -l before -x -d 'the line of the record before which the board is taken, counted from 1'
complete -c referee -n '__referee_command top' -l json -d 'write the answer as a JSON object'
complete -c referee -n '__referee_command top' -l first-field -d 'read the first field of each line of WORDS, and ignore lines that begin with #'
complete -c referee -n '__referee_command top' -l skip-others -d 'pass over the lines of WORDS that are not words of 2 to 15 letters'
complete -c referee -n '__referee_command top' -l rules -r -F -d 'the rules text; without it the rules are the English ones'
complete -c referee -n '__referee_command top' -s h -l help -d 'Print help'
complete -c referee -n '__referee_argument top 4' -f -d 'RACK'
complete -c referee -n '__referee_command tidy' -s h -l help -d 'Print help'
complete -c referee -n '__referee_command board' -l before -x -d 'the line of the record before which the board is taken, counted from 1'
complete -c referee -n '__referee_command board' -l draft -d 'read GAME as a draft, whose event lines may lack the total, or the score and the total'
complete -c referee -n '__referee_command board' -l json -d 'write the answer as a JSON object'
complete -c referee -n '__referee_command board' -l rules -r -F -d 'the rules text; without it the rules are the English ones'
complete -c referee -n '__referee_command board' -s h -l help -d 'Print help'
complete -c referee -n '__referee_command serve' -l first-field -d 'read the first field of each line of WORDS, and ignore lines that begin with #'
complete -c referee -n '__referee_command serve' -l skip-others -d 'pass over the lines of WORDS that are not words of 2 to 15 letters'
complete -c referee -n '__referee_command serve' -l rules -r -F -d 'the rules text; without it the rules are the English ones'
complete -c referee -n '__referee_command serve' -s h -l help -d 'Print help'
complete -c referee -n '__referee_command rules' -s h -l help -d 'Print help'
complete -c referee -n '__referee_command rules' -f
complete -c referee -n '__referee_argument help 1 more' -f -a 'judge archive index audit fill explain repair compare page annotate build check word convert top tidy board serve rules help' -d 'COMMAND'
