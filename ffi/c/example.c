/* Writes the canonical form of a file to standard output, or tells on standard error why it has none, and what that means:
 *
 *     example FILE
 *
 * The status is 0 where it was written, 1 where the file has a fault, and 2 for all else. */
#include "gedtool.h"

#include <inttypes.h>
#include <stdio.h>
#include <stdlib.h>

/* Reads a whole file. Answers its bytes, which the caller frees, or null. */
static uint8_t *read_file(const char *name, size_t *length) {
    FILE *file = fopen(name, "rb");
    uint8_t *bytes = NULL, *larger;
    size_t room = 0, count;
    int failed = 0;
    *length = 0;
    if (!file) {
        return NULL;
    }
    do {
        if (*length == room) {
            room = room ? 2 * room : 65536;
            larger = realloc(bytes, room);
            if (!larger) {
                failed = 1;
                break;
            }
            bytes = larger;
        }
        count = fread(bytes + *length, 1, room - *length, file);
        *length += count;
    } while (count);
    if (failed || ferror(file)) {
        free(bytes);
        bytes = NULL;
    }
    fclose(file);
    return bytes;
}

/* The canonical form of a file, which the caller frees. The first room is a guess; where it is too small, the call has told how
 * much it wants. Answers null where *status is not GEDTOOL_OK. */
static uint8_t *canon(const uint8_t *file, size_t file_length, size_t *length, uint32_t *status, uint64_t *line) {
    size_t room_length = file_length + file_length / 8 + 64;
    for (;;) {
        uint8_t *room = malloc(room_length);
        *status = room ? gedtool_canon(0, file, file_length, room, room_length, length, line) : GEDTOOL_MEMORY;
        if (*status == GEDTOOL_OK) {
            return room;
        }
        free(room);
        if (*status != GEDTOOL_ROOM_TOO_SMALL) {
            return NULL;
        }
        room_length = *length;
    }
}

/* Tells a fault as the program does, and what it means. */
static void tell(uint32_t status, uint64_t line) {
    uint8_t name[32], meaning[128];
    size_t name_length = 0, meaning_length = 0;
    if (gedtool_fault_name(status, name, sizeof name, &name_length) != GEDTOOL_OK ||
        gedtool_explain(status, GEDTOOL_MEANING, meaning, sizeof meaning, &meaning_length) != GEDTOOL_OK) {
        fprintf(stderr, "status %" PRIu32 "\n", status);
        return;
    }
    fprintf(stderr, "fault %" PRIu32, status);
    if (line) {
        fprintf(stderr, " at line %" PRIu64, line);
    }
    fprintf(stderr, ": %.*s\n%.*s\n", (int)name_length, (const char *)name, (int)meaning_length, (const char *)meaning);
}

int main(int count, char **words) {
    size_t file_length, length = 0;
    uint64_t line = 0;
    uint32_t status;
    uint8_t *file, *text;
    if (count != 2) {
        fputs("usage: example FILE\n", stderr);
        return 2;
    }
    file = read_file(words[1], &file_length);
    if (!file) {
        perror(words[1]);
        return 2;
    }
    text = canon(file, file_length, &length, &status, &line);
    free(file);
    if (!text) {
        tell(status, line);
        return line ? 1 : 2;
    }
    count = fwrite(text, 1, length, stdout) == length && !fflush(stdout);
    free(text);
    return count ? 0 : 2;
}
