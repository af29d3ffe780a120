# How a test counts what it checks, and tells what it skips. It is sourced by the tests, which end with `tell_counts`.
passed=0
failed=0

# report NAME WANTED GOT: counts a check, which passes where both are the same.
report() {
    if [[ $2 == "$3" ]]; then
        passed=$((passed + 1))
        echo "ok: $1"
    else
        failed=$((failed + 1))
        printf 'FAILED: %s\n  wanted: %s\n  got:    %s\n' "$1" "$2" "$3"
        return 1
    fi
}

# here NAME TOOL: whether a tool is here; what wants it is told as skipped where it is not.
here() {
    command -v "$2" >/dev/null && return
    echo "skipped: $1: $2 is not here"
    return 1
}

# Tells how many checks have passed, in the test's last line. The status is 0 if all have, and there was at least one.
tell_counts() {
    echo "$passed passed, $failed failed"
    ((passed > 0 && failed == 0))
}
