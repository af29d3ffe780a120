# The commands that take several files, same and digest. It is sourced by tests/program.

check_same() {
    check_equals
    check_forms
    check_fronts
    check_names_of_records
    check_both_read
    check_both_judged
}

# What is the same, and what differs.
check_equals() {
    local one=examples/family-by-one-program.ged another=examples/family-by-another-program.ged
    local small=$room/smallest.ged marked=$room/marked.ged ann=$room/ann.ged bea=$room/bea.ged
    put marked.ged "$mark$with_both"
    put ann.ged "${header}${person}1 NAME Ann\n1 NAME Bea\n${end}"
    put bea.ged "${header}${person}1 NAME Bea\n1 NAME Ann\n${end}"
    expect "the same family" 0 "same\n" "" ./gedtool same "$one" "$another"
    expect "the same family, on standard input" 0 "same\n" "" from "$another" ./gedtool same "$one"
    expect "the same family, as -" 0 "same\n" "" through_a_pipe "$another" ./gedtool same "$one" -
    expect "the same family, as - in the first place" 0 "same\n" "" through_a_pipe "$another" ./gedtool same - "$one"
    expect "another file as - in the first place" 1 "different\n" "" given "${header}${person}${end}" ./gedtool same - "$small"
    expect "another file on standard input" 1 "different\n" "" given "${header}${person}${end}" ./gedtool same "$small"
    expect "another family" 1 "different\n" "" ./gedtool same "$one" examples/notices.ged
    expect "one file with other line ends" 0 "same\n" "" given "$with_returns" ./gedtool same "$marked"
    expect "the same under both flags" 0 "same\n" "" ./gedtool same --strict --second "$small" "$marked"
    expect "names in another order" 1 "different\n" "" ./gedtool same "$ann" "$bea"
    expect "leading zeros in the first edition" 1 "different\n" "" ./gedtool same "$room/zeros.ged" "$room/trimmed.ged"
    expect "leading zeros in the second edition" 0 "same\n" "" ./gedtool same --second "$room/zeros.ged" "$room/trimmed.ged"
    expect "the flag behind the files" 0 "same\n" "" ./gedtool same "$room/zeros.ged" "$room/trimmed.ged" --second
    expect "same on a full disk" 3 "" "$unwritten" on_a_full_disk ./gedtool same "$small" "$small"
    expect "different on a full disk" 3 "" "$unwritten" on_a_full_disk ./gedtool same "$ann" "$bea"
}

# A file is compared with its form, whichever comes first, with what is nearly its form, and with the form of another.
check_forms() {
    local one=examples/family-by-one-program.ged another=examples/notices.ged form=$room/form.ged tidy=$room/tidy.ged behind
    ./gedtool canon "$one" >"$form"
    ./gedtool canon --keep-names "$one" >"$tidy"
    head -c -1 "$form" >"$room/form-without-end.ged"
    sed 's/$/\r/' "$form" >"$room/form-with-returns.ged"
    { cat "$form"; echo '1 NOTE'; } >"$room/form-and-more.ged"
    { printf "$mark"; cat "$one"; } >"$room/one-with-mark.ged"
    put marked-open.ged "${mark}0 HEAD\n"
    behind=$(($(wc -l <"$form") + 1))
    expect "a file and its canonical form" 0 "same\n" "" ./gedtool same "$one" "$form"
    expect "a canonical form and its file" 0 "same\n" "" ./gedtool same "$form" "$one"
    expect "a canonical form under both flags" 0 "same\n" "" ./gedtool same --strict --second "$form" "$one"
    expect "a canonical form without its last line end" 0 "same\n" "" ./gedtool same "$one" "$room/form-without-end.ged"
    expect "a canonical form with other line ends" 0 "same\n" "" ./gedtool same "$room/form-with-returns.ged" "$one"
    expect "a file and its tidy form" 0 "same\n" "" ./gedtool same "$one" "$tidy"
    expect "a file and its tidy form, where names count" 0 "same\n" "" ./gedtool same --keep-names "$one" "$tidy"
    expect "a tidy form and its file, where names count" 0 "same\n" "" ./gedtool same --keep-names "$tidy" "$one"
    expect "a file with a mark and its canonical form" 0 "same\n" "" ./gedtool same "$room/one-with-mark.ged" "$form"
    expect "a canonical form and its file with a mark" 0 "same\n" "" ./gedtool same "$form" "$room/one-with-mark.ged"
    expect "a file with a mark and its tidy form, where names count" 0 "same\n" "" \
        ./gedtool same --keep-names "$room/one-with-mark.ged" "$tidy"
    expect "a file and another's canonical form" 1 "different\n" "" ./gedtool same "$another" "$form"
    expect "a canonical form and another file" 1 "different\n" "" ./gedtool same "$form" "$another"
    expect "a canonical form with a line more" 1 "" "second file: fault 14 at line $behind: TrailerNotEmpty" \
        ./gedtool same "$one" "$room/form-and-more.ged"
    expect "a canonical form with a line more, in the first place" 1 "" "first file: fault 14 at line $behind: TrailerNotEmpty" \
        ./gedtool same "$room/form-and-more.ged" "$one"
    expect "a canonical form and a faulty file" 1 "" "second file: fault 5 at line 6: LevelTooLarge" ./gedtool same "$form" examples/faulty.ged
    expect "a faulty file with a mark, and one without a fault" 1 "" "first file: fault 16 at line 2: NoTrailer" \
        ./gedtool same "$room/marked-open.ged" "$one"
    expect "a faulty file with a mark, and another faulty one" 1 "" "first file: fault 16 at line 2: NoTrailer" \
        ./gedtool same "$room/marked-open.ged" examples/faulty.ged
}

# One of two files is the front of the other, or they part behind more than is read at once.
check_fronts() {
    local records=20000 long=$room/long.ged
    # put_long NAME LINES: a file of so many persons, of whom the last has these lines.
    put_long() {
        { printf "$header"; yes '0 INDI' | head -n "$records"; printf "$2$end"; } >"$room/$1"
    }
    put_long long.ged '1 NAME Ann\n1 SEX F\n'
    put_long moved.ged '1 SEX F\n1 NAME Ann\n'
    put_long other.ged '1 NAME Ann\n1 SEX M\n'
    put_long twice.ged '1 NAME Ann\n1 SEX F\n1 SEX F\n'
    head -c -1 "$long" >"$room/unended.ged"
    head -n -1 "$long" >"$room/open.ged"
    expect "a long file and itself" 0 "same\n" "" ./gedtool same "$long" "$long"
    expect "a long file and its front" 0 "same\n" "" ./gedtool same "$long" "$room/unended.ged"
    expect "the front of a long file and the file" 0 "same\n" "" ./gedtool same "$room/unended.ged" "$long"
    expect "two files that part in the order of two lines" 0 "same\n" "" ./gedtool same "$long" "$room/moved.ged"
    expect "two files that part in a value" 1 "different\n" "" ./gedtool same "$long" "$room/other.ged"
    expect "a second file that goes on with a fault" 1 "" "second file: fault 22 at line $((records + 6)): TooMany" \
        ./gedtool same "$long" "$room/twice.ged"
    expect "a front without the trailer" 1 "" "second file: fault 16 at line $((records + 6)): NoTrailer" \
        ./gedtool same "$long" "$room/open.ged"
    expect "a file and its front without the trailer" 1 "" "first file: fault 16 at line $((records + 6)): NoTrailer" \
        ./gedtool same "$room/open.ged" "$long"
}

# What --keep-names makes of records under other identifiers, and in another order.
check_names_of_records() {
    put kept.ged "${header}0 @A@ FAM\n1 HUSB @B@\n0 @B@ INDI\n1 FAMS @A@\n${end}"
    put moved.ged "${header}0 @B@ INDI\n1 FAMS @A@\n0 @A@ FAM\n1 HUSB @B@\n${end}"
    put renamed.ged "${header}0 @A@ FAM\n1 HUSB @C@\n0 @C@ INDI\n1 FAMS @A@\n${end}"
    expect "another identifier" 0 "same\n" "" ./gedtool same "$room/kept.ged" "$room/renamed.ged"
    expect "another identifier, where names count" 1 "different\n" "" ./gedtool same --keep-names "$room/kept.ged" "$room/renamed.ged"
    expect "records in another order, where names count" 0 "same\n" "" ./gedtool same --keep-names "$room/kept.ged" "$room/moved.ged"
}

# Both files are read before one is judged.
check_both_read() {
    local one=examples/family-by-one-program.ged small=$room/smallest.ged
    put open.ged '0 HEAD\n'
    expect "an input in the first place that can't be read" 3 "" "first file: $unread" from "$room" ./gedtool same - "$small"
    expect "a second file that is missing, behind -" 3 "" "second file: $unread" \
        given "0 HEAD\n" ./gedtool same - "$room/missing.ged"
    expect "a first file that is missing" 3 "" "first file: $unread" ./gedtool same "$room/missing.ged" "$one"
    expect "a second file that is missing" 3 "" "second file: $unread" ./gedtool same "$one" "$room/missing.ged"
    expect "two files that are missing" 3 "" "first file: $unread" ./gedtool same "$room/missing.ged" "$room/missing.ged"
    expect "a missing file beside a faulty one" 3 "" "second file: $unread" ./gedtool same "$room/open.ged" "$room/missing.ged"
    expect "two files that can't be read" 3 "" "first file: $unread" ./gedtool same "$room" "$room"
    expect "both are read before one is judged" 3 "" "second file: $unread" ./gedtool same "$room/open.ged" "$room"
    expect "an input that can't be read" 3 "" "second file: $unread" from "$room" ./gedtool same "$small"
}

# The first file that has a fault is told.
check_both_judged() {
    local one=examples/family-by-one-program.ged small=$room/smallest.ged
    put open.ged '0 HEAD\n'
    put empty.ged ''
    expect "a faulty input in the first place" 1 "" "first file: fault 16 at line 2: NoTrailer" \
        given "0 HEAD\n" ./gedtool same - "$small"
    expect "a faulty second file" 1 "" "second file: fault 5 at line 6: LevelTooLarge" ./gedtool same "$one" examples/faulty.ged
    expect "a faulty input" 1 "" "second file: fault 16 at line 2: NoTrailer" given "0 HEAD\n" ./gedtool same "$small"
    expect "two faulty files" 1 "" "first file: fault 22 at line 9: TooMany" \
        ./gedtool same examples/two-sexes.ged examples/faulty.ged
    expect "a file that isn't whole beside an empty one" 1 "" "first file: fault 16 at line 2: NoTrailer" \
        ./gedtool same "$room/open.ged" "$room/empty.ged"
    expect "a first file under the strict profile" 1 "" "first file: fault 28 at line 5: OneWayLink" \
        ./gedtool same --strict "$room/linked.ged" "$small"
}

# The digests are what sha256sum says of canonical files that were written by hand.
check_digest() {
    local digest=5cacae0e09e7df567ff2141fa92e4ad7c507de890f049b090e8f1867904ad16d tool=$root/gedtool
    local first=285b1d4f1014aaf4d210487e3b4e0d94f85cf5eecce50b78f814e05ff24e2e74
    local second=7e6620326e61a5e4cdc5cb4aba493b106b17ccce17ccff46691954b142ea6c56
    local fault='fault 16 at line 4: NoTrailer'
    fill a.ged "$with_returns" b.ged "$header" c.ged "$smallest" d.ged "${header}0 INDI\n1 BIRT\n2 DATE 01 JAN 0900\n$end"
    expect "digest of a file" 0 "$digest  a.ged\n" "" in_folder "$tool" digest a.ged
    expect "digests in the order of the files" 0 "$digest  c.ged\n$first  d.ged\n$digest  a.ged\n" "" \
        in_folder "$tool" digest c.ged d.ged a.ged
    expect "digest in the second edition" 0 "$second  d.ged\n" "" in_folder "$tool" digest --second d.ged
    expect "sorted digests put equal records side by side" 0 "$first  d.ged\n$digest  a.ged\n$digest  c.ged\n" "" \
        in_folder bash -c '"$0" digest a.ged d.ged c.ged | sort' "$tool"
    expect "a faulty file between two good ones" 1 "$digest  a.ged\n$digest  c.ged\n" "b.ged: $fault" \
        in_folder "$tool" digest a.ged b.ged c.ged
    expect "a missing file between two good ones" 3 "$digest  a.ged\n$digest  c.ged\n" "none.ged: $unread" \
        in_folder "$tool" digest a.ged none.ged c.ged
    expect "a missing file, and then a faulty one" 3 "$digest  c.ged\n" "none.ged: $unread"$'\n'"b.ged: $fault" \
        in_folder "$tool" digest none.ged b.ged c.ged
    expect "a directory before a file" 3 "$digest  c.ged\n" ".: $unread" in_folder "$tool" digest . c.ged
    report "digest as sha256sum tells of what canon writes" "$(./gedtool canon examples/notices.ged | sha256sum | cut -d ' ' -f 1)" \
        "$(./gedtool digest examples/notices.ged | cut -d ' ' -f 1)"
    expect "digest of -" 0 "$digest  -\n" "" from "$room/folder/a.ged" ./gedtool digest -
    expect "digest of - among files" 0 "$digest  c.ged\n$first  -\n$digest  a.ged\n" "" \
        from "$room/folder/d.ged" in_folder "$tool" digest c.ged - a.ged
    expect "a faulty -" 1 "$digest  a.ged\n" "-: $fault" from "$room/folder/b.ged" in_folder "$tool" digest - a.ged
    expect "a closed input before a file" 3 "$digest  a.ged\n" "-: $unread" from_nothing in_folder "$tool" digest - a.ged
    expect "a closed input after a file" 3 "$digest  a.ged\n" "-: $unread" from_nothing in_folder "$tool" digest a.ged -
    put 'folder/e\f'$'\n.ged' "$smallest"
    expect "a name that a line can't have" 0 "\\\\$digest  e\\\\\\\\f\\\\n.ged\n" "" in_folder "$tool" digest 'e\f'$'\n.ged'
    expect "such a name before a fault" 3 "" "noU+000AU+001B[31mU+202E.ged: $unread" in_folder "$tool" digest $'no\n\e[31m\xe2\x80\xae.ged'
    expect "digest on a full disk" 3 "" "$unwritten" on_a_full_disk ./gedtool digest "$room/folder/a.ged" "$room/folder/b.ged"
    expect "digest into a closed pipe" 3 "" "$unwritten" into_a_closed_pipe ./gedtool digest "$room/folder/a.ged" "$room/folder/b.ged"
    expect "a faulty file before a full disk" 3 "" "$room/folder/b.ged: $fault"$'\n'"$unwritten" \
        on_a_full_disk ./gedtool digest "$room/folder/b.ged" "$room/folder/a.ged"
    says "a fault of one of the files, explained" 1 "$digest  a.ged" "b.ged: $fault*  file: b.ged*" \
        in_folder "$tool" digest --explain b.ged a.ged
    mistaken "the following required arguments were not provided:*<FILE>..." "digest <FILE>..." digest
    mistaken "only one <FILE> can be standard input" "digest [[]OPTIONS[]] <FILE>..." digest - a.ged -
}
