# The files and devices that are too long, missing, closed or full. It is sourced by tests/program.

check_devices() {
    local long=$room/long.ged exact=$room/exact.ged note
    truncate -s 1073741824 -- "$exact"
    truncate -s 1073741825 -- "$long"
    expect "as many bytes as the limit" 1 "" "fault 2 at line 1: BannedCharacter" ./gedtool lines "$exact"
    explained "one byte more than the limit" 3 "" "fault 24: TooLong" "  file: $long
  cause: $(part_of 24 cause)" ./gedtool lines --explain "$long"
    expect "one byte more on standard input" 3 "" "fault 24: TooLong" from "$long" ./gedtool check
    expect "two files of as many bytes as the limit" 1 "" "first file: fault 2 at line 1: BannedCharacter" \
        ./gedtool same "$exact" "$exact"
    expect "a second file with one byte more" 3 "" "second file: fault 24: TooLong" \
        ./gedtool same "$room/smallest.ged" "$long"
    expect "a first file with one byte more" 3 "" "first file: fault 24: TooLong" \
        ./gedtool same "$long" "$room/smallest.ged"
    expect "want of memory" 3 "" "fault 27: Memory" with_little_memory ./gedtool lines "$long"
    # too much to be thought to come
    truncate -s 1T -- "$long"
    expect "a terabyte" 3 "" "fault 24: TooLong" ./gedtool lines "$long"
    rm -- "$exact" "$long"
    expect "a missing file" 3 "" "$unread" ./gedtool lines "$room/missing.ged"
    expect "a directory" 3 "" "$unread" ./gedtool lines "$room"
    expect "a directory as the input" 3 "" "$unread" from "$room" ./gedtool check
    expect "a closed input" 3 "" "$unread" from_nothing ./gedtool lines
    explained "a closed input, explained" 3 "" "$unread" "  file: standard input
  reason: standard input is closed
  cause: $(part_of 25 cause)" from_nothing ./gedtool lines --explain
    expect "a closed input by a name of its own" 3 "" "$unread" from_nothing ./gedtool lines /dev/stdin
    expect "a closed input by such a name as the first file" 3 "" "first file: $unread" from_nothing ./gedtool same /dev/stdin "$room/smallest.ged"
    expect "a closed input as the second file" 3 "" "second file: $unread" from_nothing ./gedtool same "$room/smallest.ged" -
    expect "a closed input as the first file" 3 "" "first file: $unread" from_nothing ./gedtool same - "$room/smallest.ged"
    expect "two files beside a closed input" 0 "same\n" "" from_nothing ./gedtool same "$room/smallest.ged" "$room/smallest.ged"
    expect "a full disk" 3 "" "$unwritten" on_a_full_disk ./gedtool lines "$room/smallest.ged"
    expect "canon on a full disk" 3 "" "$unwritten" on_a_full_disk ./gedtool canon "$room/smallest.ged"
    expect "help on a full disk" 3 "" "$unwritten" on_a_full_disk ./gedtool --help
    expect "a closed pipe" 3 "" "$unwritten" into_a_closed_pipe ./gedtool lines "$room/smallest.ged"
    printf -v note '%1989s' ''
    note=${note// /x}
    put noted.ged "${header}1 NOTE $note\n${end}"
    expect "an output that fails midway" 3 "$mark${header}1 NOTE ${note:0:989}" "$unwritten" \
        with_room_for_a_block ./gedtool lines "$room/noted.ged"
    expect "errors that can't be told" 1 "" "" with_deaf_errors ./gedtool lines examples/faulty.ged
    expect "a mistake that can't be told" 2 "" "" with_deaf_errors ./gedtool lines --none
    expect "a missing file that can't be told" 3 "" "" with_deaf_errors ./gedtool lines "$room/missing.ged"
    expect "help that can't be written or told" 3 "" "" with_deaf_errors on_a_full_disk ./gedtool --help
}
