# The lines of a file in their canonical spelling, by each way to it. It is sourced by tests/program.

check_lines() {
    local text=examples/carriage-returns.ged wanted=$mark$smallest row
    expect "lines of an example" 0 "$wanted" "" ./gedtool lines "$text"
    expect "lines of standard input" 0 "$wanted" "" from "$text" ./gedtool lines
    expect "lines of the smallest file" 0 "$wanted" "" ./gedtool lines "$room/smallest.ged"
    expect "a named file is read in place of the input" 0 "$wanted" "" given "0 INPUT\n" ./gedtool lines "$room/smallest.ged"
    expect "a relative name, through a link" 0 "$wanted" "" through_a_link_elsewhere lines smallest.ged
    expect "an empty input" 0 "$mark" "" ./gedtool lines
    expect "lines of -" 0 "$wanted" "" from "$text" ./gedtool lines -
    expect "lines of - from a pipe" 0 "$wanted" "" through_a_pipe "$text" ./gedtool lines -
    put - "$smallest"
    expect "lines of a file that is called -" 0 "$wanted" "" through_a_link_elsewhere lines ./-
    expect "a file that is called - is not read for the word" 0 "$mark" "" through_a_link_elsewhere lines -
    for row in "$smallest" "$mark$smallest" "$with_returns" "$mark$with_both"; do
        expect "lines of $row" 0 "$wanted" "" given "$row" ./gedtool lines
    done
    expect "lines of a mark" 0 "$mark" "" given "$mark" ./gedtool lines
}
