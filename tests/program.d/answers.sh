# What check, show and canon answer where a file has no fault. It is sourced by tests/program.

check_notices() {
    expect "check of the smallest file" 0 "accepted\n" "" ./gedtool check "$room/smallest.ged"
    expect "check of it under the strict profile" 0 "accepted\n" "" ./gedtool check --strict "$room/smallest.ged"
    expect "check of a link in one direction" 0 "line 5: one-way link\naccepted\n" "" given "$linked" ./gedtool check
    expect "check of -" 0 "line 5: one-way link\naccepted\n" "" through_a_pipe "$room/linked.ged" ./gedtool check -
    expect "a flag behind -" 1 "" "fault 28 at line 5: OneWayLink" given "$linked" ./gedtool check - --strict
    expect "show of -" 0 "$shown_header" "" through_a_pipe "$room/smallest.ged" ./gedtool show -
    expect "check of unlisted tags" 0 "line 5: unlisted tag\nline 8: unlisted tag\naccepted\n" "" given "$unlisted" ./gedtool check
    expect "a link under the strict profile" 1 "" "fault 28 at line 5: OneWayLink" given "$linked" ./gedtool check --strict
    expect "tags under the strict profile" 1 "" "fault 29 at line 5: UnlistedTag" given "$unlisted" ./gedtool check --strict
    expect "show of a link under the strict profile" 1 "" "fault 28 at line 5: OneWayLink" given "$linked" ./gedtool show --strict
    expect "a flag before a file" 1 "" "fault 28 at line 5: OneWayLink" ./gedtool check --strict "$room/linked.ged"
    expect "a flag behind a file" 1 "" "fault 28 at line 5: OneWayLink" ./gedtool check "$room/linked.ged" --strict
    expect "show of the smallest file" 0 "$shown_header" "" ./gedtool show "$room/smallest.ged"
    expect "show of it under the strict profile" 0 "$shown_header" "" ./gedtool show --strict "$room/smallest.ged"
    expect "show of unlisted tags" 0 "${shown_header}0 INDI Nothing\n1 FOOD -\n2 _BAR -\n1 BIRT EventFlag\n2 CHIL -\n" "" \
        given "$unlisted" ./gedtool show
}

check_examples() {
    local shown="${shown_header}1 SOUR Text\n2 NAME Text\n2 VERS Text\n"
    shown+='0 INDI Nothing\n1 NAME Name\n2 GIVN Text\n2 SURN Text\n1 SEX SexEnum\n'
    shown+='1 BIRT EventFlag\n2 DATE DateValue\n2 PLAC Text\n1 FAMS ToFam\n'
    shown+='0 INDI Nothing\n1 NAME Name\n1 SEX SexEnum\n1 DEAT EventFlag\n1 AFN -\n1 FAMS ToFam\n'
    shown+='0 INDI Nothing\n1 NAME Name\n1 SEX SexEnum\n1 FAMC ToFam\n'
    shown+='0 FAM Nothing\n1 HUSB ToIndi\n1 WIFE ToIndi\n1 MARR EventFlag\n2 DATE DateValue\n1 NOTE Text\n'
    expect "check of a family with two notices" 0 "line 20: unlisted tag\nline 25: one-way link\naccepted\n" "" \
        ./gedtool check examples/notices.ged
    expect "show of that family" 0 "$shown" "" ./gedtool show examples/notices.ged
}

# respells NAME LINES ANSWER: what canon writes in the second edition of a file with these lines behind its header.
respells() {
    expect "$1 in the second edition" 0 "$mark${header}$3${end}" "" given "${header}$2${end}" ./gedtool canon --second
}

# Pointers that name records one behind the other, and then others, get the new names of the records that they name.
check_named_in_order() {
    local others='0 @PERSON_TWO@ INDI\n0 @PERSON_THREE@ INDI\n0 @PERSON_FOUR@ INDI\n' pointers= written= name number
    while read -r name number; do
        pointers+="1 ALIA @PERSON_$name@\n"
        written+="1 ALIA @X$number@\n"
    done <<<$'TWO 2\nTHREE 3\nFOUR 4\nTWO 2\nTHREE 3\nONE 1\nTWO 2\nFOUR 4'
    expect "canon of pointers that name records in order" 0 \
        "$mark${header}0 @X1@ INDI\n${written}0 @X2@ INDI\n0 @X3@ INDI\n0 @X4@ INDI\n$end" "" \
        given "${header}0 @PERSON_ONE@ INDI\n$pointers$others$end" ./gedtool canon
}

# A child more is four lines more in the form that keeps names, wherever its record stands.
check_grown() {
    local family=examples/family-by-one-program.ged
    sed -e 's|^0 @I1@ INDI|0 @I9@ INDI\n1 NAME Emil /Braun/\n1 FAMC @F1@\n&|' -e 's|^1 MARR|1 CHIL @I9@\n&|' "$family" >"$room/grown.ged"
    ./gedtool canon --keep-names "$family" >"$room/kept.ged"
    ./gedtool canon --keep-names "$room/grown.ged" >"$room/kept-grown.ged"
    report "a child more, with names" $'> 0 @I9@ INDI\n> 1 CHIL @I9@\n> 1 FAMC @F1@\n> 1 NAME Emil /Braun/' \
        "$(diff "$room/kept.ged" "$room/kept-grown.ged" | grep '^[<>]' | sort)"
    report "canon of what keeps names" "$(./gedtool canon "$room/grown.ged")" "$(./gedtool canon "$room/kept-grown.ged")"
}

# in_turn LEVEL TAG..: 600 structures of these tags in turn, with their numbers.
in_turn() {
    local level=$1
    shift
    awk -v level="$level" -v tags="$*" 'BEGIN { count = split(tags, tag, " "); for (n = 1; n <= 600; n++) print level, tag[n % count + 1], n }'
}

# put_in_order NAME TAG..: canon puts many records of these tags in their order, and many structures below one record; those of one tag
# stay in the order of the file.
put_in_order() {
    local name=$1 lines
    shift
    lines=$(in_turn 0 "$@")
    report "canon of many records in turn, $name" "$(printf "$mark$header" && sort -s -k 2,2 <<<"$lines" && printf "$end")" \
        "$({ printf "$header" && cat <<<"$lines" && printf "$end"; } | ./gedtool canon)"
    lines=$(in_turn 1 "$@")
    report "canon of many structures in turn, $name" "$(printf "$mark$header$person" && sort -s -k 2,2 <<<"$lines" && printf "$end")" \
        "$({ printf "$header$person" && cat <<<"$lines" && printf "$end"; } | ./gedtool canon)"
}

check_long_runs() {
    put_in_order "of three tags" _C _A _BBBBBB
    put_in_order "of sixteen tags" _P _O _N _M _L _K _J _I _H _G _F _E _D _C _B _A
    put_in_order "of seventeen tags" _Q _P _O _N _M _L _K _J _I _H _G _F _E _D _C _B _A
    put_in_order "of tags that differ behind seven letters" _LONGESTB _B _LONGESTA _LONGES
    put_in_order "of three tags and a stretch of one" _C _C _C _C _C _C _A _B
}

check_canonical() {
    local family="${mark}${header}1 COPR The Braun family\n0 @X1@ FAM\n1 HUSB @X3@\n1 MARR\n2 DATE BEF 1895\n"
    family+='1 NOTE The register was lost.\n2 CONT A copy is in Stuttgart.\n1 WIFE @X2@\n0 @X2@ INDI\n1 BIRT\n'
    family+='2 DATE 3 MAY 1871\n2 PLAC Ulm\n1 FAMS @X1@\n1 NAME Anna /Weber/\n2 GIVN Anna\n2 SURN Weber\n1 SEX F\n'
    family+='0 @X3@ INDI\n1 FAMS @X1@\n1 NAME Karl /Braun/\n1 SEX M\n0 TRLR\n'
    local swapped="${header}0 @X1@ INDI\n1 FAMS @X2@\n0 @X2@ FAM\n1 HUSB @X1@\n${end}"
    expect "canon of a family by one program" 0 "$family" "" ./gedtool canon examples/family-by-one-program.ged
    expect "canon of it by another" 0 "$family" "" from examples/family-by-another-program.ged ./gedtool canon
    expect "canon of -" 0 "$family" "" through_a_pipe examples/family-by-another-program.ged ./gedtool canon -
    expect "canon of the smallest file" 0 "$mark$smallest" "" ./gedtool canon "$room/smallest.ged"
    expect "canon of it under both flags" 0 "$mark$smallest" "" ./gedtool canon --strict --second "$room/smallest.ged"
    expect "canon of records in another order" 0 "$mark${header}0 @X1@ FAM\n1 HUSB @X2@\n0 @X2@ INDI\n1 FAMS @X1@\n${end}" "" \
        given "$swapped" ./gedtool canon --strict
    expect "canon of a name that no pointer has" 0 "$mark${header}0 @X1@ FAM\n0 INDI\n1 FAMS @X1@\n${end}" "" \
        given "$linked" ./gedtool canon
    expect "canon of names whose digits say the same" 0 \
        "$mark${header}0 @X1@ INDI\n1 ALIA @X3@\n0 @X2@ INDI\n1 ALIA @X1@\n0 @X3@ INDI\n1 ALIA @X2@\n${end}" "" \
        given "${header}0 @I1@ INDI\n1 ALIA @IA@\n0 @I01@ INDI\n1 ALIA @I1@\n0 @IA@ INDI\n1 ALIA @I01@\n${end}" ./gedtool canon
    expect "canon in the first edition" 0 "$mark${header}${person}1 NMR 007\n${end}" "" ./gedtool canon "$room/zeros.ged"
    expect "canon in the second edition" 0 "$mark${header}${person}1 NMR 7\n${end}" "" ./gedtool canon --second "$room/zeros.ged"
    expect "canon of records in another order, with their names" 0 "$mark${header}0 @X2@ FAM\n1 HUSB @X1@\n0 @X1@ INDI\n1 FAMS @X2@\n${end}" "" \
        given "$swapped" ./gedtool canon --strict --keep-names
    expect "canon with a name that no pointer has" 0 "$mark${header}0 @F@ FAM\n0 @I@ INDI\n1 FAMS @F@\n${end}" "" \
        given "$linked" ./gedtool canon --keep-names
    expect "canon in the second edition, with names" 0 "$mark${header}${person}1 NMR 7\n${end}" "" \
        ./gedtool canon --second --keep-names "$room/zeros.ged"
    check_grown
    check_named_in_order
    check_long_runs
    respells "a range of dates" "${person}1 BIRT\n2 DATE BET 01 AND 000\n" "${person}1 BIRT\n2 DATE BET 1 AND 0\n"
    respells "the date of a file" "1 DATE 01 JAN 1900\n" "1 DATE 1 JAN 1900\n"
    respells "a count of 0" "${person}1 NMR 0\n" "${person}1 NMR 0\n"
    respells "a payload that is no number" "${person}1 NO 00\n" "${person}1 NO 00\n"
    expect "canon under the strict profile" 1 "" "fault 29 at line 5: UnlistedTag" given "$unlisted" ./gedtool canon --strict
    expect "canon under both flags" 1 "" "fault 28 at line 5: OneWayLink" given "$linked" ./gedtool canon --second --strict
}
