# The answers that -o puts into a file, whole or not at all. It is sourced by tests/program.

# puts NAME STATUS TOLD LEFT COMMAND..: how a command ends that writes nothing to standard output, the line that it tells, if any,
# and what the folder then holds: each name, a colon and the file, in printf's notation, in the order of the names.
puts() {
    local name=$1 status=$2 told=$3 left=$4
    shift 4
    expect "$name" "$status" "" "$told" "$@"
    report "$name: the folder" "$(printf "$left" | bytes_of)" "$(held | bytes_of)"
}

# told_why NAME FILE REASON COMMAND..: a command cannot write this file of the room, and tells why.
told_why() {
    local name=$1 file=$2 reason=$3
    shift 3
    explained "$name, explained" 3 "" "$unwritten" "  file: $room/$file
  reason: $reason
  cause: $(part_of 26 cause)" "$@"
}

# What the folder holds.
held() {
    local file
    for file in "$room/folder"/* "$room/folder"/.[!.]*; do
        [[ -e $file || -L $file ]] || continue
        printf '%s:' "${file##*/}"
        [[ -f $file ]] && cat -- "$file"
    done
}

check_output() {
    local at=$room/folder/a.ged into=$room/folder/into.ged tool=$root/gedtool canonical=$mark$smallest command
    fill a.ged "$with_returns"
    puts "canon into a new file" 0 "" "a.ged:${with_returns}into.ged:$canonical" ./gedtool canon -o "$into" "$at"
    puts "canon into the file again" 0 "" "a.ged:${with_returns}into.ged:$canonical" ./gedtool canon --output "$into" "$at"
    puts "canon of a file into itself" 0 "" "a.ged:${canonical}into.ged:$canonical" ./gedtool canon -o "$at" "$at"
    fill a.ged "$with_returns"
    puts "lines of standard input into a file" 0 "" "a.ged:$canonical" from "$at" ./gedtool lines "-o$at"
    puts "show into a file" 0 "" "a.ged:${canonical}into.ged:$shown_header" ./gedtool show --output="$into" --strict "$at"
    puts "a name without a folder" 0 "" "a.ged:${canonical}b.ged:${canonical}into.ged:$shown_header" in_folder "$tool" canon a.ged -o b.ged
    fill a.ged "$smallest"
    puts "lines, of which all but the mark are the file's, into a file" 0 "" "a.ged:${smallest}into.ged:$canonical" ./gedtool lines -o "$into" "$at"
    check_long_answer
    fill a.ged "$with_returns"
    expect "canon into -" 0 "$canonical" "" ./gedtool canon -o - "$at"
    fill a.ged "$header" into.ged old
    for command in show canon; do
        puts "a faulty file into another, by $command" 1 "fault 16 at line 4: NoTrailer" "a.ged:${header}into.ged:old" \
            ./gedtool "$command" -o "$into" "$at"
    done
    puts "a faulty file into itself" 1 "fault 16 at line 4: NoTrailer" "a.ged:${header}into.ged:old" ./gedtool canon -o "$at" "$at"
    puts "a faulty file into a new one" 1 "fault 16 at line 4: NoTrailer" "a.ged:${header}into.ged:old" \
        ./gedtool canon -o "$room/folder/new.ged" "$at"
    puts "a missing file into another" 3 "$unread" "a.ged:${header}into.ged:old" ./gedtool canon -o "$into" "$room/missing.ged"
    puts "want of memory" 3 "fault 27: Memory" "a.ged:${header}into.ged:old" with_little_memory ./gedtool lines -o "$into" /dev/zero
    check_places
    check_kept
    check_taken_names
    check_rights
    check_synced
    check_full_disk
    mistaken "unexpected argument '-o' found" "check [[]OPTIONS[]] [[]FILE[]]" check -o a b
    says "no file behind -o" 2 "" "error: a value is required for '--output <FILE>'*" ./gedtool canon -o
    mistaken "the argument '--output <FILE>' cannot be used multiple times" "canon" canon -o a -o b
}

# An answer that is written in several pieces.
check_long_answer() {
    local at=$room/folder/a.ged into=$room/folder/into.ged
    {
        printf "$header"
        seq -f '0 @I%.0f@ INDI' 20000
        printf "$end"
    } >"$at"
    report "a long answer into a file" "0: $(./gedtool canon "$at" | md5sum)" "$(./gedtool canon -o "$into" "$at"; echo "$?: $(md5sum <"$into")")"
}

# What can't be replaced, and what is through a link.
check_places() {
    local at=$room/folder/a.ged canonical=$mark$smallest
    fill a.ged "$smallest"
    puts "a file in a folder that is missing" 3 "$unwritten" "a.ged:$smallest" ./gedtool canon -o "$room/folder/none/b.ged" "$at"
    fill a.ged "$header"
    puts "a folder that is missing, before the file is read" 3 "$unwritten" "a.ged:$header" ./gedtool canon -o "$room/folder/none/b.ged" "$at"
    puts "a file without a name, before the file is read" 3 "$unwritten" "a.ged:$header" ./gedtool canon -o "" "$at"
    puts "a folder that is none" 3 "$unwritten" "a.ged:$header" ./gedtool canon -o "$at/b.ged" "$at"
    fill a.ged "$smallest"
    check_open_files
    puts "a file without a name" 3 "$unwritten" "a.ged:$smallest" ./gedtool canon -o "" "$at"
    mkdir -- "$room/folder/b"
    puts "a folder" 3 "$unwritten" "a.ged:${smallest}b:" ./gedtool canon -o "$room/folder/b" "$at"
    rmdir -- "$room/folder/b" && mkfifo -- "$room/folder/b"
    puts "a pipe" 3 "$unwritten" "a.ged:${smallest}b:" ./gedtool canon -o "$room/folder/b" "$at"
    fill a.ged "$smallest" b.ged old
    ln -s -- b.ged "$room/folder/c.ged"
    puts "a link to a file" 0 "" "a.ged:${smallest}b.ged:${canonical}c.ged:$canonical" ./gedtool canon -o "$room/folder/c.ged" "$at"
    report "the link still leads there" b.ged "$(readlink -- "$room/folder/c.ged")"
    rm -- "$room/folder/b.ged"
    puts "a link that leads nowhere" 3 "$unwritten" "a.ged:${smallest}c.ged:" ./gedtool canon -o "$room/folder/c.ged" "$at"
    told_why "a link that leads nowhere" folder/c.ged "no such file or folder" ./gedtool canon --explain -o "$room/folder/c.ged" "$at"
}

# Names under which the system shows a file that is open: that file stays.
check_open_files() {
    local name at=$room/folder/a.ged
    ln -sf -- /dev/stdout "$room/leads-to-output"
    for name in /dev/stdout /dev/fd/1 /proc/self/fd/1 //dev/stdout /dev/../dev/stdout "$room/leads-to-output" "$room/log"; do
        printf 'old\n' >"$room/log"
        report "$name, where standard output is a file" "3: $unwritten: old" \
            "$(./gedtool canon -o "$name" "$at" >>"$room/log" 2>"$room/told"; echo "$?: $(cat -- "$room/told"): $(cat -- "$room/log")")"
    done
    printf 'old\n' >"$room/log"
    report "a file that standard error goes to" "3: old
$unwritten" "$(./gedtool canon -o "$room/log" "$at" 2>>"$room/log"; echo "$?: $(cat -- "$room/log")")"
    explained "a name of an open file, explained" 3 "" "$unwritten" "  file: /dev/stdout
  reason: a name of an open file
  cause: $(part_of 26 cause)" ./gedtool canon --explain -o /dev/stdout "$at"
}

# What is kept of a file that is replaced.
check_kept() {
    local at=$room/folder/a.ged canonical=$mark$smallest
    fill a.ged "$smallest" b.ged old
    chmod 640 -- "$room/folder/b.ged"
    puts "a file with its permissions" 0 "" "a.ged:${smallest}b.ged:$canonical" ./gedtool canon -o "$room/folder/b.ged" "$at"
    report "the permissions stay" 640 "$(stat -c %a -- "$room/folder/b.ged")"
    chmod 6755 -- "$room/folder/b.ged"
    ./gedtool canon -o "$room/folder/b.ged" "$at"
    report "but not the bits for setting the user and the group" 755 "$(stat -c %a -- "$room/folder/b.ged")"
    if ((UID == 0)) && chgrp 12345 -- "$room/folder/b.ged" 2>/dev/null; then
        chmod 765 -- "$room/folder/b.ged"
        ./gedtool canon -o "$room/folder/b.ged" "$at"
        report "another group gets none, and the others only what its members had" 704 "$(stat -c %a -- "$room/folder/b.ged")"
    else
        echo "skipped: a file of another group: only root may give it one"
    fi
    rm -- "$room/folder/b.ged"
    (umask 027 && ./gedtool canon -o "$room/folder/b.ged" "$at")
    report "the permissions of a new file" 640 "$(stat -c %a -- "$room/folder/b.ged")"
}

# Names that a new file can't have, since there are files of these names.
check_taken_names() {
    local at=$room/folder/a.ged canonical=$mark$smallest number names=
    fill a.ged "$smallest" .gedtool-0.new mine
    puts "a name that is taken" 0 "" "a.ged:${smallest}b.ged:$canonical.gedtool-0.new:mine" ./gedtool canon -o "$room/folder/b.ged" "$at"
    fill a.ged "$smallest"
    for ((number = 0; number < 99; number++)); do
        put "folder/.gedtool-$number.new" ""
    done
    for number in "$room/folder"/.*.new; do
        names+=${number##*/}:
    done
    puts "all names but the last are taken" 0 "" "a.ged:${smallest}b.ged:$canonical$names" ./gedtool canon -o "$room/folder/b.ged" "$at"
    rm -- "$room/folder/b.ged"
    put folder/.gedtool-99.new ""
    names+=.gedtool-99.new:
    puts "no name that is not taken" 3 "$unwritten" "a.ged:$smallest$names" ./gedtool canon -o "$room/folder/b.ged" "$at"
    explained "no name that is not taken, explained" 3 "" "$unwritten" "  file: $room/folder/b.ged
  reason: all names for a new file are taken: remove .gedtool-0.new to .gedtool-99.new
  cause: $(part_of 26 cause)" ./gedtool canon --explain -o "$room/folder/b.ged" "$at"
}

# What the rights of a user forbid. They forbid root nothing, who can be another user.
check_rights() {
    local at=$room/folder/a.ged program=$root/crates/gedtool/out/gedtool
    if ((UID == 0)); then
        cp -- "$program" "$room/program" && program=$room/program
        chmod 755 -- "$room"
        if ! as_a_guest "$program" --version >/dev/null 2>&1; then
            echo "skipped: what the rights of a user forbid: root can't be another user here"
            return
        fi
    fi
    fill a.ged "$smallest" b.ged old
    chmod 755 -- "$room/folder" && chmod 666 -- "$room/folder/b.ged"
    ((UID == 0)) || chmod 555 -- "$room/folder"
    puts "a folder without the right to write" 3 "$unwritten" "a.ged:${smallest}b.ged:old" \
        as_a_guest "$program" canon -o "$room/folder/b.ged" "$at"
    chmod 777 -- "$room/folder" && chmod 444 -- "$room/folder/b.ged"
    puts "a file without the right to write" 3 "$unwritten" "a.ged:${smallest}b.ged:old" \
        as_a_guest "$program" canon -o "$room/folder/b.ged" "$at"
    told_why "a file without the right to write" folder/b.ged "permission denied" \
        as_a_guest "$program" canon --explain -o "$room/folder/b.ged" "$at"
    if ((UID == 0)); then
        # in such a folder only the owner of a file may put another in its place
        chmod 1777 -- "$room/folder" && chmod 666 -- "$room/folder/b.ged"
        puts "another's file in a folder that all may write" 3 "$unwritten" "a.ged:${smallest}b.ged:old" \
            as_a_guest "$program" canon -o "$room/folder/b.ged" "$at"
        told_why "another's file in a folder that all may write" folder/b.ged "permission denied" \
            as_a_guest "$program" canon --explain -o "$room/folder/b.ged" "$at"
        chmod 777 -- "$room/folder"
    else
        echo "skipped: a file of another user: only root can be two users"
    fi
    fill a.ged "$smallest" b.ged "$smallest"
    chmod 755 -- "$room/folder" && chmod 644 -- "$room/folder/b.ged" && chmod 000 -- "$at"
    expect "digest of a file without the right to read" 3 \
        "5cacae0e09e7df567ff2141fa92e4ad7c507de890f049b090e8f1867904ad16d  b.ged\n" "a.ged: $unread" \
        in_folder as_a_guest "$program" digest a.ged b.ged
    chmod 700 -- "$room"
}

# A file that only its owner can read until it has the permissions of the one whose place it takes; it is on the disk before it does.
check_synced() {
    local at=$room/folder/a.ged into=$room/folder/b.ged canonical=$mark$smallest program=crates/gedtool/out/gedtool fails
    if ! build_library sync; then
        echo "skipped: the order of syncs and renamings: there is no C compiler here"
        return
    fi
    fill a.ged "$smallest" b.ged old
    chmod 640 -- "$into"
    puts "a file that is synced" 0 "" "a.ged:${smallest}b.ged:$canonical" in_order with_library sync "$program" canon -o "$into" "$at"
    report "it is created for its owner alone, gets its permissions, is synced once, and is then renamed" c600m640sr "$(cat -- "$room/order")"
    for fails in SYNC_FAILS:c600m640s CHMOD_FAILS:c600m640; do
        fill a.ged "$smallest" b.ged old
        chmod 640 -- "$into"
        puts "a file for which ${fails%:*}" 3 "$unwritten" "a.ged:${smallest}b.ged:old" \
            in_order env "${fails%:*}=1" LD_LIBRARY_PATH="$room" LD_PRELOAD=sync.so "$program" canon -o "$into" "$at"
        report "where ${fails%:*} nothing is done behind that" "${fails#*:}" "$(cat -- "$room/order")"
    done
}

# in_order COMMAND..: runs a command, and keeps what it writes to file descriptor 9.
in_order() {
    "$@" 9>"$room/order"
}

# The file that is written in vain leaves the other one as it was.
check_full_disk() {
    local at=$room/noted.ged into=$room/folder/b.ged note
    printf -v note '%1989s' ''
    put noted.ged "${header}1 NOTE ${note// /x}\n${end}"
    fill b.ged old
    puts "a file with room for a part of the answer" 3 "$unwritten" "b.ged:old" with_room_for_a_block ./gedtool canon -o "$into" "$at"
    fill
    puts "a new file with room for a part of it" 3 "$unwritten" "" with_room_for_a_block ./gedtool lines -o "$into" "$at"
    if ! mount -t tmpfs -o size=4k gedtool "$room/folder" 2>/dev/null; then
        echo "skipped: a disk that is full: none can be mounted here"
        return
    fi
    put folder/b.ged old
    puts "a full disk" 3 "$unwritten" "b.ged:old" ./gedtool canon -o "$into" "$at"
    puts "a full disk, for a new file" 3 "$unwritten" "b.ged:old" ./gedtool canon -o "$room/folder/c.ged" "$at"
    report "the full disk is given back" 0 "$(umount -- "$room/folder"; echo $?)"
}
