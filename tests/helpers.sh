# How several tests run a command: on an input, with an output that fails, as another user, or with memory refused. It is sourced by
# the tests, which are in the repository's folder, and have one of their own in `room`.

# The bytes of standard input, as hexadecimal numbers.
bytes_of() {
    od -An -v -tx1 | tr -d '\n'
}

# ended COMMAND..: the status of a command and all that it writes.
ended() {
    local told
    told=$("$@" 2>&1)
    echo "$?: $told"
}

# from FILE COMMAND..: runs a command with this file as its standard input.
from() {
    local input=$1
    shift
    "$@" <"$input"
}

on_a_full_disk() {
    "$@" >/dev/full
}

into_a_closed_pipe() {
    [[ -p $room/pipe ]] || mkfifo -- "$room/pipe"
    # the reader has left before the program writes
    (exec 3<>"$room/pipe" 4>"$room/pipe" 3<&- && "$@" >&4)
}

# as_a_guest COMMAND..: runs a command as a user who has no rights of their own. Only root, whom rights forbid nothing, has to
# become another one for that.
as_a_guest() {
    if ((EUID == 0)); then
        setpriv --reuid=65534 --regid=65534 --clear-groups -- "$@"
    else
        "$@"
    fi
}

# with_room_for_a_block COMMAND..: runs a command that may write no file longer than a block, whose writes fail beyond that.
with_room_for_a_block() {
    (trap '' XFSZ && ulimit -f 1 && "$@")
}

# The C compiler that is here: the one that CC names or cc, or else that of the Rattle toolchain.
c_compiler() {
    command -v "${CC:-cc}" && return
    command -v rt >/dev/null && command -v "$(dirname -- "$(rt doc)")/toolchain/bin/clang"
}

# build_library [NAME]: makes the library NAME.so of tests/NAME.c; by default the one that refuses memory, refuse.so.
build_library() {
    local compiler name=${1:-refuse}
    compiler=$(c_compiler) && "$compiler" -shared -fPIC -O1 -nostdlib -o "$room/$name.so" "tests/$name.c"
}

# with_library NAME COMMAND..: runs a command with this library before the C library. The folder is given apart from the name, since
# LD_PRELOAD takes a blank for the end of a name.
with_library() {
    local name=$1
    shift
    LD_LIBRARY_PATH=$room${LD_LIBRARY_PATH:+:$LD_LIBRARY_PATH} LD_PRELOAD=$name.so "$@"
}

# with_refusals COMMAND..: runs a command that the library refuse.so refuses memory.
with_refusals() {
    with_library refuse "$@"
}
