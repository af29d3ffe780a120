# The faults of files. It is sourced by tests/program.

# faulty FAULT LINES: what check tells of a file with these lines behind its header, and before its trailer.
faulty() {
    expect "$1" 1 "" "$1" given "${header}$2${end}" ./gedtool check
}

# broken FAULT TEXT: what lines and check tell of a file of these bytes.
broken() {
    expect "$1, by lines" 1 "" "$1" given "$2" ./gedtool lines
    expect "$1, by check" 1 "" "$1" given "$2" ./gedtool check
}

# unbuilt FAULT TEXT: what check tells of a file of these bytes, whose lines are no document.
unbuilt() {
    expect "$1" 1 "" "$1" given "$2" ./gedtool check
}

check_faults() {
    local levels level
    broken "fault 1 at line 1: NotUtf8" '\xef\xbb'
    broken "fault 2 at line 4: BannedCharacter" "${header}1 NOTE a\\x00\n${end}"
    broken "fault 3 at line 1: EmptyLine" '\n'
    broken "fault 3 at line 5: EmptyLine" "$smallest\n"
    broken "fault 4 at line 4: BadLevel" "${header}01 INDI\n${end}"
    expect "fault 5 by lines" 1 "" "fault 5 at line 4: LevelTooLarge" given "${header}100 _A\n${end}" ./gedtool lines
    for ((level = 0; level <= 100; level++)); do
        levels+="$level _A\n"
    done
    broken "fault 5 at line 104: LevelTooLarge" "$header$levels$end"
    broken "fault 6 at line 4: BadXref" "${header}0 @VOID@ INDI\n${end}"
    broken "fault 7 at line 4: BadTag" "${header}0 indi\n${end}"
    broken "fault 8 at line 4: BadValue" "${header}1 NOTE @x\n${end}"
    unbuilt "fault 9 at line 2: LevelJump" "0 HEAD\n2 GEDC\n${end}"
    unbuilt "fault 10 at line 4: XrefNotAllowed" "${header}1 @A@ NOTE x\n${end}"
    unbuilt "fault 11 at line 4: MisplacedCont" "${header}1 CONT x\n${end}"
    unbuilt "fault 12 at line 1: NoHeader" "$end"
    unbuilt "fault 13 at line 4: SecondHeader" "${header}0 HEAD\n${end}"
    unbuilt "fault 14 at line 4: TrailerNotEmpty" "${header}0 TRLR x\n"
    unbuilt "fault 15 at line 5: AfterTrailer" "$smallest$person"
    unbuilt "fault 16 at line 4: NoTrailer" "$header"
    faulty "fault 17 at line 5: DuplicateXref" '0 @A@ INDI\n0 @A@ INDI\n'
    faulty "fault 17 at line 7: DuplicateXref" '0 @I1@ INDI\n0 @I01@ INDI\n0 @IA@ INDI\n0 @I01@ INDI\n'
    faulty "fault 18 at line 5: DanglingPointer" '0 @I@ INDI\n1 FAMS @F@\n'
    faulty "fault 18 at line 7: DanglingPointer" '0 @PERSON_ONE@ INDI\n1 ALIA @PERSON_TWO@\n1 ALIA @PERSON_THREE@\n1 ALIA @PERSON_FOUR@\n'\
'0 @PERSON_TWO@ INDI\n0 @PERSON_THREE@ INDI\n0 @PERSON_FIVE@ INDI\n'
    unbuilt "fault 19 at line 3: WrongVersion" "0 HEAD\n1 GEDC\n2 VERS 5.5\n${end}"
    faulty "fault 20 at line 5: BadPayload" "${person}1 NMR x\n"
    faulty "fault 21 at line 5: WrongTarget" '0 @I@ INDI\n1 FAMS @I@\n'
    faulty "fault 22 at line 6: TooMany" "${person}1 SEX F\n1 SEX M\n"
    unbuilt "fault 23 at line 1: Missing" "0 HEAD\n${end}"
    expect "a faulty example, by lines" 1 "" "fault 5 at line 6: LevelTooLarge" ./gedtool lines examples/faulty.ged
    expect "a faulty example, by check" 1 "" "fault 5 at line 6: LevelTooLarge" ./gedtool check examples/faulty.ged
    expect "a faulty example, by canon" 1 "" "fault 5 at line 6: LevelTooLarge" ./gedtool canon examples/faulty.ged
    expect "show of a file without a trailer" 1 "" "fault 16 at line 4: NoTrailer" given "$header" ./gedtool show
    expect "show of a person with two sexes" 1 "" "fault 22 at line 9: TooMany" ./gedtool show examples/two-sexes.ged
    expect "check of a person with two sexes" 1 "" "fault 22 at line 9: TooMany" ./gedtool check examples/two-sexes.ged
    expect "canon of a file without a trailer" 1 "" "fault 16 at line 4: NoTrailer" given "$header" ./gedtool canon
}

# A record with a long tag, to which a person has many links. A program that reads the tag again for each of them takes far longer.
check_long_target() {
    local at=$room/long-target.ged
    {
        printf "$header"
        printf '0 @F@ _%0400000d\n0 INDI\n' 0
        printf '1 FAMS @F@\n%.0s' {1..60000}
        printf "$end"
    } >"$at"
    expect "many links to a record with a long tag" 1 "" "fault 21 at line 6: WrongTarget" timeout 5 ./gedtool check "$at"
    rm -- "$at"
}

# A record with a long identifier behind two records that many pointers name. A program that reads the identifier again for each of them takes
# far longer.
check_long_identifier() {
    local at=$room/long-identifier.ged
    {
        printf "$header"
        printf '0 @PERSON_ONE@ INDI\n'
        printf '1 ALIA @PERSON_ONE@\n1 ALIA @PERSON_TWO@\n%.0s' {1..60000}
        printf '0 @PERSON_TWO@ INDI\n0 @%04000000d@ INDI\n' 0
        printf "$end"
    } >"$at"
    expect "many pointers to the two records before a long identifier" 0 "accepted\n" "" timeout 5 ./gedtool check "$at"
    rm -- "$at"
}

# A family with very many children. A program that goes through them for each child takes far longer.
check_large_family() {
    local at=$room/large-family.ged
    {
        printf "$header"
        echo '0 @F@ FAM'
        seq -f '1 CHIL @I%.0f@' 400000
        seq 400000 | sed 's/.*/0 @I&@ INDI\n1 FAMC @F@/'
        printf "$end"
    } >"$at"
    expect "a family with very many children" 0 "accepted\n" "" timeout 20 ./gedtool check "$at"
    rm -- "$at"
}
