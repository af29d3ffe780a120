// Asks the library for its texts about faults, for tests/c. Each text is requested with an empty buffer, with a byte too few, with
// exactly enough and with more.
//
//   texts name NUMBER          writes the name of a fault
//   texts part NUMBER PART     writes a part of what it means
//   texts all                  tries the names and parts of all numbers
//
// The status is 9 if something is not as gedtool.h says.
#include "rooms.h"

// A text about a fault, for a room of this length, which is given marked; the name where the part is below 0.
static uint32_t text_once(uint32_t fault, int part, struct bytes room, size_t *length) {
    *length = 77;
    requests = 0;
    uint32_t status = part < 0 ? gedtool_fault_name(fault, room.at, room.length, length)
                               : gedtool_explain(fault, (uint32_t)part, room.at, room.length, length);
    expect(requests == 0, "a text about a fault takes no memory");
    size_t written = status == GEDTOOL_OK ? *length : 0;
    expect(written <= room.length, "a text is no longer than its room");
    expect(is_marked(room.at + written, room.length + 1 - written), "behind a text, and without one, the room is as it was");
    expect(status != GEDTOOL_ROOM_TOO_SMALL || *length > room.length, "the told length is more than the room's");
    expect(status <= GEDTOOL_ROOM_TOO_SMALL || *length == 0, "without a text there is no length");
    return status;
}

// A text about a fault with no room, with a byte too little, with just enough and with more. The caller frees it.
static uint32_t text_all(uint32_t fault, int part, struct bytes *text) {
    size_t length, again;
    struct bytes room = with_room(0);
    uint32_t status = text_once(fault, part, room, &length);
    __real_free(room.at);
    *text = with_room(length);
    if (status != GEDTOOL_ROOM_TOO_SMALL) {
        expect(status == GEDTOOL_NOT_FOUND, "each text has a byte");
        return status;
    }
    room = with_room(length - 1);
    expect(text_once(fault, part, room, &again) == GEDTOOL_ROOM_TOO_SMALL && again == length, "a byte too little");
    __real_free(room.at);
    expect(text_once(fault, part, *text, &again) == GEDTOOL_OK && again == length, "just enough room");
    room = with_room(length + BEHIND);
    expect(text_once(fault, part, room, &again) == GEDTOOL_OK && again == length, "more room");
    expect(!memcmp(room.at, text->at, length), "the same text in more room");
    __real_free(room.at);
    return GEDTOOL_OK;
}

static int is_text(struct bytes text, const char *wanted) {
    return text.length == strlen(wanted) && !memcmp(text.at, wanted, text.length);
}

static int write_text(uint32_t fault, int part) {
    struct bytes text;
    uint32_t status = text_all(fault, part, &text);
    fwrite(text.at, 1, text.length, stdout);
    __real_free(text.at);
    return status != GEDTOOL_OK;
}

// Numbers that a fault has have a name and all parts, and others have none of them.
static void try_numbers(void) {
    static const uint32_t far[] = {255, 256, 257, 265, 256 * 256 + 9, UINT32_MAX};
    struct bytes text;
    for (uint32_t fault = 0; fault < 300 + sizeof far / sizeof *far; fault++) {
        uint32_t number = fault < 300 ? fault : far[fault - 300];
        uint32_t wanted = number >= 1 && number <= 29 ? GEDTOOL_OK : GEDTOOL_NOT_FOUND;
        for (int part = -1; part < 3; part++) {
            expect(text_all(number, part, &text) == wanted, "faults 1 to 29 have texts");
            __real_free(text.at);
        }
        expect(text_all(number, 3, &text) == GEDTOOL_NOT_FOUND, "there is no part 3");
        __real_free(text.at);
        expect(text_all(number, 256, &text) == GEDTOOL_NOT_FOUND, "and no part 256");
        __real_free(text.at);
    }
    text_all(GEDTOOL_LEVEL_JUMP, -1, &text);
    expect(is_text(text, "LevelJump"), "the name of fault 9");
    __real_free(text.at);
    text_all(GEDTOOL_LEVEL_JUMP, GEDTOOL_MEANING, &text);
    expect(is_text(text, "The level is two or more above that of the line before, or the first line's is not 0."), "what fault 9 means");
    __real_free(text.at);
    text_all(GEDTOOL_LEVEL_JUMP, GEDTOOL_EXAMPLE, &text);
    expect(is_text(text, "1 BIRT\n3 DATE 1871    <- here"), "an example of fault 9");
    __real_free(text.at);
    size_t length = 77;
    expect(gedtool_fault_name(9, NULL, 0, &length) == GEDTOOL_ROOM_TOO_SMALL && length == 9, "null with length 0");
    expect(gedtool_explain(9, 0, NULL, 0, &length) == GEDTOOL_ROOM_TOO_SMALL && length == 85, "null with length 0");
}

int main(int count, char **words) {
    const char *mode = count > 1 ? words[1] : "";
    if (!strcmp(mode, "name") && count == 3) {
        return write_text((uint32_t)strtoul(words[2], NULL, 10), -1);
    }
    if (!strcmp(mode, "part") && count == 4) {
        return write_text((uint32_t)strtoul(words[2], NULL, 10), atoi(words[3]));
    }
    if (!strcmp(mode, "all")) {
        try_numbers();
        return 0;
    }
    fputs("texts: see the head of tests/texts.c\n", stderr);
    return 9;
}
