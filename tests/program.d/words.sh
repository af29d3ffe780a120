# The words of the command line: mistakes in them, the version and the help. It is sourced by tests/program.

check_mistakes() {
    local unexpected="unexpected argument" flags="[[]OPTIONS[]]" file="[[]FILE[]]"
    mistaken "'gedtool' requires a subcommand" "<COMMAND>"
    mistaken "unrecognized subcommand 'family.ged'" "<COMMAND>" family.ged
    mistaken "$unexpected '--none' found" "<COMMAND>" --none
    mistaken "$unexpected 'b' found" "lines $flags $file" lines a b
    mistaken "$unexpected 'bU+001B[[]3mU+202Ec' found" "lines $flags $file" lines a $'b\e[3m\xe2\x80\xaec'
    mistaken "$unexpected '--none' found" "lines $flags $file" lines --none a
    mistaken "$unexpected '--strict' found" "lines $flags $file" lines --strict a
    mistaken "$unexpected '--second' found" "lines $flags $file" lines --second a
    mistaken "$unexpected 'b' found" "check $flags $file" check a b
    mistaken "$unexpected '--second' found" "check $flags $file" check --second a
    mistaken "$unexpected '--keep-names' found" "check $flags $file" check --keep-names a
    mistaken "$unexpected '--none' found" "show $flags $file" show --none a
    mistaken "$unexpected '--second' found" "show $flags $file" show --second a
    mistaken "$unexpected 'b' found" "canon $flags $file" canon a b
    mistaken "the following required arguments were not provided:*<A>" "same " same
    mistaken "$unexpected 'c' found" "same " same a b c
    mistaken "only one of <A> and [[]B[]] can be standard input" "same $flags <A> [[]B[]]" same - -
    mistaken "only one of <A> and [[]B[]] can be standard input" "same $flags <A> [[]B[]]" same -
    mistaken "only one of <A> and [[]B[]] can be standard input" "same $flags <A> [[]B[]]" same --strict -- -
    report "a mistake reads nothing" "$smallest" "$(from "$room/smallest.ged" sh -c './gedtool same - - 2>/dev/null; cat' \
        | sed 's/$/\\n/' | tr -d '\n')"
    report "a mistake with - is told with the usage of same" "$(./gedtool same --help | grep ^Usage)" \
        "$(./gedtool same - - 2>&1 | grep ^Usage)"
    says "a mistake under another name" 2 "" "error: $unexpected 'b' found*Usage: gedtool lines [[]OPTIONS[]] $file*" by_another_name lines a b
    says "no command under another name" 2 "" "error: 'gedtool' requires a subcommand*Usage: gedtool <COMMAND>*" by_another_name
    expect "a word that isn't text" 2 "" "error: an argument is not UTF-8 text; a file with such a name can be read from standard input" ./gedtool lines $'\xff'
}

check_version() {
    local version
    here "the version" rt || return
    version="gedtool $(<VERSION)\ncanonical form: editions 1 and 2\nproved by Rattle, logic $(rt --version | sed 's/.* logic //')"
    expect "the version" 0 "$version\n" "" ./gedtool --version
    expect "the version by a letter" 0 "$version\n" "" ./gedtool -V
    expect "the version under another name" 0 "$version\n" "" by_another_name --version
    expect "the version on a full disk" 3 "" "$unwritten" on_a_full_disk ./gedtool --version
    mistaken "unexpected argument '--version' found" "lines [[]OPTIONS[]] [[]FILE[]]" lines --version
}

check_help() {
    local whole="Read FamilySearch GEDCOM 7.0 files*Usage: gedtool <COMMAND>*" flags="[[]OPTIONS[]]" file="[[]FILE[]]"
    local lines="Write the lines of a file*Usage: gedtool lines $flags $file*" ends="*Exit status:*Examples:*  gedtool"
    says "help" 0 "$whole$ends check*" "" ./gedtool --help
    says "help by a letter" 0 "$whole" "" ./gedtool -h
    report "help by a letter is short" "" "$(./gedtool -h | grep -E '^(Exit status|Examples):')"
    says "help by a word" 0 "$whole" "" ./gedtool help
    says "help under another name" 0 "$whole" "" by_another_name --help
    says "help on lines" 0 "$lines" "" ./gedtool lines --help
    says "help on lines by a word" 0 "$lines" "" ./gedtool help lines
    says "help on lines under another name" 0 "$lines" "" by_another_name help lines
    says "short help on lines" 0 "$lines" "" ./gedtool lines -h
    says "help on check" 0 "Judge a file:*Usage: gedtool check $flags $file*Profiles:$ends check*" "" ./gedtool check --help
    says "help on show" 0 "Judge a file*Usage: gedtool show $flags $file*Profiles:$ends show*" "" ./gedtool show --help
    says "help on canon" 0 "Judge a file*Usage: gedtool canon $flags $file*Profiles:*Editions:$ends canon*" "" ./gedtool canon --help
    says "help on same" 0 "Judge two files*Usage: gedtool same $flags <A> [[]B[]]*Profiles:*Editions:$ends same*" "" \
        ./gedtool same --help
    says "the file of a command" 0 "*[[]FILE[]]  The file to read; standard input if it is left out or '-'*" "" ./gedtool check -h
    says "the files of same" 0 \
        "*<A>  The first file to read; standard input if it is '-'*[[]B[]]  The second file to read; standard input if it is left out or '-'*" "" \
        ./gedtool same -h
    says "the files of digest" 0 "*<FILE>...  The files to read, one after the other; standard input for '-'*" "" ./gedtool digest -h
    says "the fault of explain" 0 "*[[]FAULT[]]  The number or the name of a fault; all faults if it is left out*" "" ./gedtool explain -h
    says "help on digest" 0 "Judge each file*Usage: gedtool digest $flags <FILE>...*Profiles:*Editions:$ends digest*" "" \
        ./gedtool digest --help
    says "help on explain" 0 "Say what a fault means*Usage: gedtool explain [[]FAULT[]]*$ends explain*" "" ./gedtool explain --help
    says "short help on explain" 0 "Explain a fault*Usage: gedtool explain [[]FAULT[]]*" "" ./gedtool explain -h
}

# What help says of the statuses of each command, and that the flags in its examples are the command's.
check_statuses() {
    local command statuses flag usage="2 A usage error." unread="3 A file cannot be read or is too long, the answer cannot be written,"
    local unmade="3 A file cannot be read or written or is too long, or there is not enough memory." memory="or there is not enough memory"
    while IFS='|' read -r command statuses; do
        report "the statuses in the help of $command" "$statuses" \
            "$(./gedtool ${command#gedtool} --help | sed -n '/^Exit status:$/,/^$/{/^ /p}' | tr -s ' \n' ' ' | sed 's/^ //; s/ $//')"
        for flag in $(./gedtool ${command#gedtool} --help | sed -n '/^Examples:$/,${/^  gedtool/p}' | sed 's/ -- .*//' | grep -oE ' --?[a-z][a-z-]*' | sort -u); do
            [[ $command == gedtool ]] ||
                report "$flag in an example of the help of $command" yes "$(./gedtool "$command" -h | grep -qE -- "(^|[ ,])$flag([ ,]|$)" && echo yes)"
        done
    done <<END
gedtool|0 The answer was written; of same: the files are the same. 1 A file has a fault; of same also: the files differ. $usage 3 A file cannot be read or written, is longer than 1,073,741,824 bytes, $memory.
lines|0 The answer was written. 1 A line has a fault. $usage $unmade
check|0 The file is accepted. 1 It has a fault. $usage 3 It cannot be read or is too long, the answer cannot be written, $memory.
show|0 The answer was written. 1 The file has a fault. $usage $unmade
canon|0 The answer was written. 1 The file has a fault. $usage $unmade
same|0 The files are the same. 1 They differ, or one has a fault. $usage $unread $memory.
digest|0 All digests were written. 1 A file has a fault. $usage $unread $memory, even if another file has a fault.
explain|0 The explanation was written. 2 A usage error, such as a number that no fault has. 3 The answer cannot be written, $memory.
END
}
