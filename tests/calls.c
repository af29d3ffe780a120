// Calls the library as C programs do, for tests/c. Each answer is requested with an empty buffer, with a byte too few, with exactly
// enough and with more, and it is checked that nothing else in the buffer is touched.
//
//   calls answer COMMAND SETTINGS FILE..    writes the answer, or reports the fault as the program does, without its name
//   calls spoil SEED FILE                   writes the file with a few bytes changed, removed or inserted
//   calls spoiled COUNT FILE..              makes all calls on this many such files, and checks that their answers agree
//   calls refuse FILE..                     makes all calls, with each request for memory refused in turn
//   calls bounds                            tries lengths of 0 and above the limit, and numbers without a meaning
//   calls threads FILE                      makes all calls from four threads on the same bytes
//
// The status is 9 if something is not as gedtool.h says.
#define _GNU_SOURCE
#include "rooms.h"

#include <inttypes.h>
#include <pthread.h>
#include <sys/mman.h>

typedef uint32_t one_file(uint32_t, const uint8_t *, size_t, uint8_t *, size_t, size_t *, uint64_t *);

static one_file *const calls[] = {gedtool_lines, gedtool_check, gedtool_show, gedtool_canon};
static const char *const names[] = {"lines", "check", "show", "canon"};

static struct bytes read_file(const char *name) {
    struct bytes file = {NULL, 0};
    FILE *stream = fopen(name, "rb");
    expect(stream && !fseek(stream, 0, SEEK_END), name);
    long length = ftell(stream);
    rewind(stream);
    file = with_room((size_t)length);
    expect(fread(file.at, 1, file.length, stream) == file.length, name);
    fclose(stream);
    return file;
}

// A call with a room of this length; `room` is given marked, and what the status says of it is seen.
static uint32_t call_once(one_file *call, uint32_t settings, struct bytes file, struct bytes room, size_t *length, uint64_t *line) {
    *length = 77;
    *line = 77;
    uint32_t status = call(settings, file.at, file.length, room.at, room.length, length, line);
    expect(held == 0, "all memory is given back");
    expect(room.at[room.length] == MARK, "nothing is written behind the room");
    if (status == GEDTOOL_OK) {
        expect(*length <= room.length && *line == 0, "an answer is no longer than its room, and has no line");
        expect(is_marked(room.at + *length, room.length - *length), "behind an answer the room is as it was");
        return status;
    }
    expect(is_marked(room.at, room.length), "without an answer the room is as it was");
    if (status == GEDTOOL_ROOM_TOO_SMALL) {
        expect(*length > room.length && *line == 0, "the told length is more than the room's");
        return status;
    }
    expect(*length == 0, "without an answer there is no length");
    int is_of_file = status <= GEDTOOL_MISSING || status == GEDTOOL_ONE_WAY_LINK || status == GEDTOOL_UNLISTED_TAG;
    expect(is_of_file == (*line > 0), "a fault of the file has a line, and no other");
    return status;
}

// All rooms, and the answer where there is one, which the caller frees.
static uint32_t call_all(one_file *call, uint32_t settings, struct bytes file, struct bytes *answer, uint64_t *line) {
    size_t length, again;
    struct bytes room = with_room(0);
    uint32_t status = call_once(call, settings, file, room, &length, line);
    __real_free(room.at);
    *answer = with_room(0);
    if (status != GEDTOOL_ROOM_TOO_SMALL) {
        expect(status != GEDTOOL_OK, "each answer has a byte");
        return status;
    }
    room = with_room(length - 1);
    expect(call_once(call, settings, file, room, &again, line) == GEDTOOL_ROOM_TOO_SMALL, "a byte too little");
    expect(again == length, "the length is told again");
    __real_free(room.at);
    __real_free(answer->at);
    *answer = with_room(length);
    expect(call_once(call, settings, file, *answer, &again, line) == GEDTOOL_OK && again == length, "just enough room");
    room = with_room(length + BEHIND);
    expect(call_once(call, settings, file, room, &again, line) == GEDTOOL_OK && again == length, "more room");
    expect(!memcmp(room.at, answer->at, length), "the same answer in more room");
    __real_free(room.at);
    return GEDTOOL_OK;
}

static uint32_t call_same(uint32_t settings, struct bytes one, struct bytes two, uint32_t *same, uint32_t *which, uint64_t *line) {
    *same = *which = 77;
    *line = 77;
    uint32_t status = gedtool_same(settings, one.at, one.length, two.at, two.length, same, which, line);
    expect(held == 0, "all memory is given back");
    int is_numbered = status != GEDTOOL_OK && status != GEDTOOL_BAD_SETTINGS;
    expect(is_numbered == (*which == 1 || *which == 2), "a fault is that of a file");
    expect(*which <= 2 && *same <= (status == GEDTOOL_OK), "the numbers are in their bounds");
    return status;
}

static uint32_t call_digest(uint32_t settings, struct bytes file, uint8_t *digest, uint64_t *line) {
    struct bytes room = with_room(32 + BEHIND);
    *line = 77;
    expect(gedtool_digest(settings, file.at, file.length, room.at, 31, line) == (settings > 3 ? GEDTOOL_BAD_SETTINGS : GEDTOOL_ROOM_TOO_SMALL),
           "a digest wants 32 bytes");
    expect(*line == 0 && is_marked(room.at, room.length), "without a digest the room is as it was");
    *line = 77;
    uint32_t status = gedtool_digest(settings, file.at, file.length, room.at, room.length, line);
    expect(held == 0, "all memory is given back");
    expect(is_marked(room.at + 32, room.length - 32), "behind a digest the room is as it was");
    expect(status == GEDTOOL_OK || is_marked(room.at, 32), "without a digest the room is as it was");
    memcpy(digest, room.at, 32);
    __real_free(room.at);
    return status;
}

// What is told of a fault, and the program's status for it.
static int tell(const char *of, uint32_t status, uint64_t line) {
    if (line) {
        fprintf(stderr, "%sfault %" PRIu32 " at line %" PRIu64 "\n", of, status, line);
        return 1;
    }
    fprintf(stderr, "%sfault %" PRIu32 "\n", of, status);
    return 3;
}

static int do_answer(const char *command, uint32_t settings, struct bytes *files) {
    uint32_t same, which;
    uint64_t line;
    if (!strcmp(command, "digest")) {
        uint8_t digest[32];
        uint32_t status = call_digest(settings, files[0], digest, &line);
        for (int i = 0; !status && i < 32; i++) {
            printf("%02x", digest[i]);
        }
        return status ? tell("", status, line) : 0;
    }
    if (!strcmp(command, "same")) {
        uint32_t status = call_same(settings, files[0], files[1], &same, &which, &line);
        if (status) {
            return tell(which == 1 ? "first file: " : "second file: ", status, line);
        }
        puts(same ? "same" : "different");
        return !same;
    }
    for (int i = 0; i < 4; i++) {
        if (!strcmp(command, names[i])) {
            struct bytes answer;
            uint32_t status = call_all(calls[i], settings, files[0], &answer, &line);
            fwrite(answer.at, 1, answer.length, stdout);
            __real_free(answer.at);
            return status ? tell("", status, line) : 0;
        }
    }
    return 9;
}

static uint64_t state;

static uint64_t random_below(uint64_t bound) {
    state ^= state << 13;
    state ^= state >> 7;
    state ^= state << 17;
    return state % bound;
}

// A copy of a file with one to three changes.
static struct bytes spoil(struct bytes file) {
    static const char others[] = "0123 @_X\n\r\xEF\xBB\xBF\xFF\x7F" "ACDINTV/.";
    struct bytes spoiled = with_room(file.length + 3);
    memcpy(spoiled.at, file.at, file.length);
    spoiled.length = file.length;
    for (uint64_t left = 1 + random_below(3); left; left--) {
        size_t at = random_below(spoiled.length);
        uint8_t other = (uint8_t)others[random_below(sizeof others - 1)];
        size_t behind = spoiled.length - at;
        switch (random_below(3)) {
        case 0:
            spoiled.at[at] = other;
            break;
        case 1:
            memmove(spoiled.at + at, spoiled.at + at + 1, behind - 1);
            spoiled.length -= spoiled.length > 1;
            break;
        default:
            memmove(spoiled.at + at + 1, spoiled.at + at, behind);
            spoiled.at[at] = other;
            spoiled.length++;
        }
    }
    spoiled.at[spoiled.length] = MARK;
    return spoiled;
}

// That the answers about a file agree with one another.
static void agree(uint32_t settings, struct bytes file) {
    struct bytes canon, again, lines, other;
    uint32_t same, which;
    uint64_t line, further;
    uint32_t status = call_all(gedtool_canon, settings, file, &canon, &line);
    expect(call_same(settings, file, canon, &same, &which, &further) == status, "same judges as canon does");
    expect(status ? which == 1 && further == line : same == 1, "a file is the same as its canonical form");
    uint8_t digest[32], of_canon[32];
    expect(call_digest(settings, file, digest, &further) == status && further == line, "digest judges as canon does");
    if (!status) {
        expect(call_digest(settings, canon, of_canon, &further) == GEDTOOL_OK, "canonical bytes have a digest");
        expect(!memcmp(digest, of_canon, 32), "a file has the digest of its canonical form");
        expect(call_all(gedtool_canon, settings, canon, &again, &further) == GEDTOOL_OK, "canonical bytes are accepted");
        expect(again.length == canon.length && !memcmp(again.at, canon.at, again.length), "they stay as they are");
        __real_free(again.at);
    }
    for (int i = 1; i < 3; i++) {
        expect(call_all(calls[i], settings, file, &other, &further) == status && further == line, "check and show judge as canon does");
        __real_free(other.at);
    }
    uint32_t of_lines = call_all(gedtool_lines, settings, file, &lines, &further);
    expect(of_lines <= GEDTOOL_BAD_VALUE, "lines tells faults of lines alone");
    if (!of_lines) {
        expect(call_all(gedtool_canon, settings, lines, &other, &further) == status && further == line, "lines keeps the fault");
        expect(other.length == canon.length && !memcmp(other.at, canon.at, canon.length), "lines keeps the canonical form");
        __real_free(other.at);
    }
    __real_free(lines.at);
    __real_free(canon.at);
}

static void do_spoiled(long count, int files, char **given) {
    struct bytes *all = __real_malloc((size_t)files * sizeof *all);
    expect(all != NULL, "the test has memory");
    for (int i = 0; i < files; i++) {
        all[i] = read_file(given[i]);
    }
    for (long i = 0; i < count; i++) {
        struct bytes spoiled = spoil(all[i % files]);
        // A block of the very length, so that a byte read behind it is seen.
        struct bytes exact = {__real_malloc(spoiled.length), spoiled.length};
        memcpy(exact.at, spoiled.at, exact.length);
        agree((uint32_t)random_below(4), exact);
        __real_free(exact.at);
        __real_free(spoiled.at);
    }
    for (int i = 0; i < files; i++) {
        __real_free(all[i].at);
    }
    __real_free(all);
    printf("%ld\n", count);
}

// Refuses each request of the calls in turn. Answers how many requests there were.
static long refuse_each(uint32_t settings, struct bytes file) {
    long all = 0;
    for (int i = 0; i < 6; i++) {
        uint8_t digest[32];
        uint32_t status, wanted = 99, same, which;
        uint64_t line;
        size_t length;
        for (long at = 0;; at++) {
            struct bytes room = with_room(2 * file.length + 4096);
            requests = 0;
            refused_at = at;
            status = i < 4 ? call_once(calls[i], settings, file, room, &length, &line)
                     : i < 5 ? call_same(settings, file, file, &same, &which, &line)
                             : gedtool_digest(settings, file.at, file.length, digest, 32, &line);
            refused_at = 0;
            __real_free(room.at);
            if (at == 0) {
                wanted = status;
            } else if (requests < at) {
                break;
            } else {
                expect(status == GEDTOOL_MEMORY, "a refused request is told");
                all++;
            }
        }
        expect(status == wanted, "where none is refused the answer is the same");
    }
    return all;
}

static void do_bounds(void) {
    struct bytes empty = with_room(0), room = with_room(32);
    size_t length = 77, far = (size_t)GEDTOOL_LIMIT + 1;
    uint64_t line = 77;
    uint32_t same, which;
    expect(gedtool_lines(0, NULL, 0, NULL, 0, &length, &line) == GEDTOOL_ROOM_TOO_SMALL && length == 3, "null with length 0");
    expect(gedtool_canon(0, NULL, 0, NULL, 0, &length, &line) == GEDTOOL_NO_HEADER && line == 1 && length == 0, "an empty file");
    expect(gedtool_check(0, NULL, 0, NULL, 0, &length, &line) == GEDTOOL_NO_HEADER && line == 1, "an empty file");
    expect(gedtool_show(0, NULL, 0, NULL, 0, &length, &line) == GEDTOOL_NO_HEADER && line == 1, "an empty file");
    expect(gedtool_same(0, NULL, 0, NULL, 0, &same, &which, &line) == GEDTOOL_NO_HEADER && which == 1 && line == 1, "two of them");
    for (int i = 0; i < 4; i++) {
        expect(call_once(calls[i], 4, empty, room, &length, &line) == GEDTOOL_BAD_SETTINGS, "settings without a meaning");
        expect(call_once(calls[i], UINT32_MAX, empty, room, &length, &line) == GEDTOOL_BAD_SETTINGS, "settings without a meaning");
    }
    expect(gedtool_digest(0, NULL, 0, room.at, 32, &line) == GEDTOOL_NO_HEADER && line == 1, "an empty file");
    expect(gedtool_digest(0, NULL, 0, NULL, 0, &line) == GEDTOOL_ROOM_TOO_SMALL && line == 0, "no room for a digest");
    expect(gedtool_digest(4, NULL, 0, NULL, 0, &line) == GEDTOOL_BAD_SETTINGS && line == 0, "settings without a meaning");
    expect(call_same(4, empty, empty, &same, &which, &line) == GEDTOOL_BAD_SETTINGS && line == 0, "settings without a meaning");
    // Memory that is promised, and of which no byte is touched.
    struct bytes large = {mmap(NULL, far, PROT_NONE, MAP_PRIVATE | MAP_ANONYMOUS | MAP_NORESERVE, -1, 0), far};
    expect(large.at != MAP_FAILED, "there is room for a mapping");
    for (int i = 0; i < 4; i++) {
        expect(call_once(calls[i], 0, large, room, &length, &line) == GEDTOOL_TOO_LONG, "a file above the limit");
    }
    expect(gedtool_digest(0, large.at, large.length, room.at, 32, &line) == GEDTOOL_TOO_LONG && line == 0, "a file above the limit");
    expect(call_same(0, large, empty, &same, &which, &line) == GEDTOOL_TOO_LONG && which == 1, "the first is too long");
    expect(call_same(0, empty, large, &same, &which, &line) == GEDTOOL_TOO_LONG && which == 2, "the second is too long");
}

static struct bytes shared;

static void *agree_often(void *unused) {
    for (uint32_t i = 0; i < 200; i++) {
        agree(i % 4, shared);
    }
    return unused;
}

static void do_threads(void) {
    pthread_t threads[4];
    for (int i = 0; i < 4; i++) {
        expect(!pthread_create(&threads[i], NULL, agree_often, NULL), "a thread starts");
    }
    for (int i = 0; i < 4; i++) {
        expect(!pthread_join(threads[i], NULL), "a thread ends");
    }
}

int main(int count, char **words) {
    const char *mode = count > 1 ? words[1] : "";
    state = 88172645463325252u;
    if (!strcmp(mode, "answer") && count >= 5) {
        struct bytes files[2] = {read_file(words[4]), count > 5 ? read_file(words[5]) : (struct bytes){NULL, 0}};
        return do_answer(words[2], (uint32_t)strtoul(words[3], NULL, 10), files);
    }
    if (!strcmp(mode, "spoil") && count == 4) {
        state += 2654435761u * strtoul(words[2], NULL, 10);
        struct bytes spoiled = spoil(read_file(words[3]));
        return fwrite(spoiled.at, 1, spoiled.length, stdout) != spoiled.length;
    }
    if (!strcmp(mode, "spoiled") && count > 3) {
        do_spoiled(strtol(words[2], NULL, 10), count - 3, words + 3);
        return 0;
    }
    if (!strcmp(mode, "refuse")) {
        for (int i = 2; i < count; i++) {
            for (uint32_t settings = 0; settings < 4; settings++) {
                expect(refuse_each(settings, read_file(words[i])) > 0, "there are requests");
            }
        }
        return 0;
    }
    if (!strcmp(mode, "bounds")) {
        do_bounds();
        return 0;
    }
    if (!strcmp(mode, "threads") && count == 3) {
        shared = read_file(words[2]);
        do_threads();
        return 0;
    }
    fputs("calls: see the head of tests/calls.c\n", stderr);
    return 9;
}
