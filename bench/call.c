/* Makes one call of the library on a file that it has read, and tells the processor time of the call:
 *
 *     call COMMAND FILE
 *
 * COMMAND is canon, check, digest or lines. One line is written: user seconds of the call, and by how many KiB the peak of memory
 * grew in it, which counts the room that the answer is written into. */
#include "../ffi/c/gedtool.h"

#include <stdio.h>
#include <stdlib.h>
#include <string.h>
#include <sys/resource.h>

typedef uint32_t one_file(uint32_t, const uint8_t *, size_t, uint8_t *, size_t, size_t *, uint64_t *);

static one_file *const calls[] = {gedtool_canon, gedtool_check, gedtool_lines};
static const char *const names[] = {"canon", "check", "lines"};

static struct rusage used(void) {
    struct rusage used;
    getrusage(RUSAGE_SELF, &used);
    return used;
}

static double seconds(struct timeval time) {
    return (double)time.tv_sec + (double)time.tv_usec / 1e6;
}

int main(int count, char **words) {
    FILE *stream = count == 3 ? fopen(words[2], "rb") : NULL;
    if (!stream || fseek(stream, 0, SEEK_END)) {
        return 2;
    }
    size_t length = (size_t)ftell(stream), room_length = length + length / 8 + 4096, answered;
    uint8_t *file = malloc(length + 1), *room = malloc(room_length), digest[32];
    uint64_t line;
    rewind(stream);
    if (!file || !room || fread(file, 1, length, stream) != length) {
        return 2;
    }
    struct rusage before = used();
    uint32_t status = GEDTOOL_NOT_FOUND;
    if (!strcmp(words[1], "digest")) {
        status = gedtool_digest(0, file, length, digest, sizeof digest, &line);
    }
    for (int i = 0; i < 3; i++) {
        if (!strcmp(words[1], names[i])) {
            status = calls[i](0, file, length, room, room_length, &answered, &line);
        }
    }
    struct rusage behind = used();
    if (status != GEDTOOL_OK) {
        return 1;
    }
    printf("%.6f %ld\n", seconds(behind.ru_utime) - seconds(before.ru_utime), behind.ru_maxrss - before.ru_maxrss);
    return 0;
}
