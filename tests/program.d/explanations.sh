# What --explain adds to a fault, and what explain says of one. It is sourced by tests/program.

check_explanations() {
    check_explained_lines
    check_explained_devices
    check_explained_notices
}

# A fault of a line, in each way to the file.
check_explained_lines() {
    local dated fault="fault 20 at line 6: BadPayload" command
    dated="  file: $room/dated.ged
  line 6: 2 DATE 3 Mai 1871
  place: INDI @I7@ > BIRT > DATE
  wrong: a date such as 3 MAY 1871 belongs here; found \"3 Mai 1871\"
  cause: $(part_of 20 cause)"
    put dated.ged "${header}0 @I7@ INDI\n1 BIRT\n2 DATE 3 Mai 1871\n${end}"
    for command in check show canon; do
        explained "a date, by $command" 1 "" "$fault" "$dated" ./gedtool "$command" --explain "$room/dated.ged"
    done
    explained "a date, by strict" 1 "" "$fault" "$dated" ./gedtool check --strict --explain "$room/dated.ged"
    explained "a date on standard input" 1 "" "$fault" "${dated/$room\/dated.ged/standard input}" \
        from "$room/dated.ged" ./gedtool check --explain
    explained "a date in the first file" 1 "" "first file: $fault" "$dated" \
        ./gedtool same --explain "$room/dated.ged" "$room/smallest.ged"
    explained "a date in the second file" 1 "" "second file: $fault" "$dated" \
        ./gedtool same --explain "$room/smallest.ged" "$room/dated.ged"
    explained "a date in standard input as the first file" 1 "" "first file: $fault" "${dated/$room\/dated.ged/standard input}" \
        from "$room/dated.ged" ./gedtool same --explain - "$room/smallest.ged"
    expect "an explanation that can't be told" 1 "" "" with_deaf_errors ./gedtool check --explain "$room/dated.ged"
}

check_explained_devices() {
    local device disk
    device="  file: $room/missing.ged
  reason: no such file or folder
  cause: $(part_of 25 cause)"
    disk="  file: standard output
  reason: no space left
  cause: $(part_of 26 cause)"
    explained "a missing file" 3 "" "$unread" "$device" ./gedtool lines --explain "$room/missing.ged"
    explained "a missing second file" 3 "" "second file: $unread" "$device" \
        ./gedtool same --explain "$room/smallest.ged" "$room/missing.ged"
    explained "a full disk" 3 "" "$unwritten" "$disk" on_a_full_disk ./gedtool lines --explain "$room/smallest.ged"
}

# Notices, and answers that have nothing to explain.
check_explained_notices() {
    expect "notices that can't be explained" 0 "line 20: unlisted tag\nline 25: one-way link\naccepted\n" "" \
        with_deaf_errors ./gedtool check --explain examples/notices.ged
    says "notices" 0 $'line 20: unlisted tag\nline 25: one-way link\naccepted' \
        "  file: *line 20: 1 AFN 1A2B-3C*wrong: AFN is not listed*  file: *line 25: 1 FAMC @F1@*wrong: the FAM record of line 26 has no CHIL @I3@*" \
        ./gedtool check --explain examples/notices.ged
    expect "no notices" 0 "accepted\n" "" ./gedtool check --explain "$room/smallest.ged"
    expect "notices that are not told" 0 "$("./gedtool" canon examples/notices.ged | sed 's/$/\\n/' | tr -d '\n')" "" \
        ./gedtool canon --explain examples/notices.ged
    expect "files that differ" 1 "different\n" "" ./gedtool same --explain "$room/smallest.ged" "$room/linked.ged"
}

check_meanings() {
    local sexes none fault words="[[]FAULT[]]" number
    sexes="fault 22: TooMany
  meaning: $(part_of 22 title)
  cause: $(part_of 22 cause)
  example:
1 SEX F
1 SEX U    <- here
"
    none="*tip: *as in 'TooMany'*Usage: gedtool explain $words*"
    expect "a fault by its number" 0 "$sexes" "" ./gedtool explain 22
    expect "a fault by its name" 0 "$sexes" "" ./gedtool explain TooMany
    expect "explain reads nothing" 0 "$sexes" "" from_nothing ./gedtool explain 22
    report "all faults are explained, each as by its number" \
        "$(./gedtool explain 1 && for number in {2..29}; do echo && ./gedtool explain "$number"; done)" "$(./gedtool explain)"
    for fault in 0 30 022 +22 toomany - ""; do
        says "explain '$fault'" 2 "" "error: no fault has the number or the name '$fault'$none" ./gedtool explain "$fault"
    done
    says "explain two lines" 2 "" "error: no fault has the number or the name 'aU+000AbU+001B'$none" ./gedtool explain $'a\nb\e'
    expect "explain on a full disk" 3 "" "$unwritten" on_a_full_disk ./gedtool explain 22
    expect "explain with deaf errors" 0 "$sexes" "" with_deaf_errors ./gedtool explain 22
    mistaken "unexpected argument 'b' found" "explain $words" explain 22 b
    mistaken "unexpected argument '--explain' found" "explain $words" explain --explain
}
