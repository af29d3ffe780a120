/* gedtool: judge, canonicalise and compare FamilySearch GEDCOM 7.0 files.
 *
 * Each call takes the bytes of whole files, or the number of a fault, and returns a status: GEDTOOL_OK, or the reason why there is no
 * answer. What the calls answer is proved; docs/C.md says how far.
 *
 * Memory. The caller owns every file, every buffer and every number that a call fills in, before the call and after it. No call keeps
 * a pointer, and each gives back what it takes of the C library's memory before it returns. A file is only read, and may be shared. As
 * many bytes must be there as a length says; where it is 0 the pointer may be null. A buffer must not overlap a file. A pointer to a
 * number must not be null, and the number must be in no file, in no buffer, and apart from every other number.
 *
 * Buffers. `lines`, `check`, `show`, `canon`, `fault_name` and `explain` write their answer into the buffer `room`, with no zero byte
 * after it.
 * - GEDTOOL_OK: the answer is the first *length bytes of the buffer; the bytes after them are unchanged.
 * - GEDTOOL_ROOM_TOO_SMALL: there is an answer, but it is longer than the buffer. *length is its length, and the buffer is unchanged:
 *   call again with a buffer of that length.
 * - Any other status: *length is 0, and the buffer is unchanged.
 *
 * Line. For a fault of the file *line is its line, counted from 1. For anything else it is 0.
 *
 * Threads. The calls are independent: any number may run at the same time, on the same file too, if each has its own buffers and
 * numbers. No call may be made in a signal handler, or in the child that a process with threads has forked. */
#ifndef GEDTOOL_H
#define GEDTOOL_H

#include <stddef.h>
#include <stdint.h>

#ifdef __cplusplus
extern "C" {
#endif

/* The version of this header, as gedtool_version returns it, and the ABI that programs built with it rely on. */
#define GEDTOOL_VERSION 100
#define GEDTOOL_ABI 1

/* The greatest length of a file, in bytes. */
#define GEDTOOL_LIMIT 1073741824

/* Settings: 0, one of these, or both combined with `|`. Any other number gives GEDTOOL_BAD_SETTINGS. */
enum {
    GEDTOOL_STRICT = 1, /* each notice is a fault */
    GEDTOOL_SECOND = 2  /* the second edition of the canonical form, without leading zeros in dates, ages and counts */
};

/* Statuses. 1 to 23, 28 and 29 are faults of the file; only the first is reported. docs/FORMAT.md says what each means. */
enum {
    GEDTOOL_OK = 0,
    GEDTOOL_NOT_UTF8 = 1,
    GEDTOOL_BANNED_CHARACTER = 2,
    GEDTOOL_EMPTY_LINE = 3,
    GEDTOOL_BAD_LEVEL = 4,
    GEDTOOL_LEVEL_TOO_LARGE = 5,
    GEDTOOL_BAD_XREF = 6,
    GEDTOOL_BAD_TAG = 7,
    GEDTOOL_BAD_VALUE = 8,
    GEDTOOL_LEVEL_JUMP = 9,
    GEDTOOL_XREF_NOT_ALLOWED = 10,
    GEDTOOL_MISPLACED_CONT = 11,
    GEDTOOL_NO_HEADER = 12,
    GEDTOOL_SECOND_HEADER = 13,
    GEDTOOL_TRAILER_NOT_EMPTY = 14,
    GEDTOOL_AFTER_TRAILER = 15,
    GEDTOOL_NO_TRAILER = 16,
    GEDTOOL_DUPLICATE_XREF = 17,
    GEDTOOL_DANGLING_POINTER = 18,
    GEDTOOL_WRONG_VERSION = 19,
    GEDTOOL_BAD_PAYLOAD = 20,
    GEDTOOL_WRONG_TARGET = 21,
    GEDTOOL_TOO_MANY = 22,
    GEDTOOL_MISSING = 23,
    GEDTOOL_TOO_LONG = 24,      /* the file has more than GEDTOOL_LIMIT bytes */
    GEDTOOL_MEMORY = 27,        /* an allocation failed; the call may be made again */
    GEDTOOL_ONE_WAY_LINK = 28,  /* GEDTOOL_STRICT only */
    GEDTOOL_UNLISTED_TAG = 29,  /* GEDTOOL_STRICT only */
    GEDTOOL_ROOM_TOO_SMALL = 64,
    GEDTOOL_BAD_SETTINGS = 65,
    GEDTOOL_NOT_FOUND = 66      /* no fault has this number, or no part of its meaning has */
};

/* Parts of the meaning of a fault. */
enum {
    GEDTOOL_MEANING = 0, /* what is wrong, in a sentence */
    GEDTOOL_CAUSE = 1,   /* the usual cause, and what helps, in a few sentences */
    GEDTOOL_EXAMPLE = 2  /* lines of a file that has it, with line feeds between them; for 24 to 27, a command that runs into it */
};

/* A byte order mark and the file's lines in their canonical spelling, at most 4 bytes more than the file. Of the faults of a file only 1
 * to 8 are reported. The settings have to be valid, and change nothing. */
uint32_t gedtool_lines(uint32_t settings, const uint8_t *file, size_t file_length,
                       uint8_t *room, size_t room_length, size_t *length, uint64_t *line);

/* A line `line N: NOTICE` for each notice of an accepted file, and then the line `accepted`. */
uint32_t gedtool_check(uint32_t settings, const uint8_t *file, size_t file_length,
                       uint8_t *room, size_t room_length, size_t *length, uint64_t *line);

/* A line for each structure of an accepted file: its level, its tag, and what the tables require of its payload. */
uint32_t gedtool_show(uint32_t settings, const uint8_t *file, size_t file_length,
                      uint8_t *room, size_t room_length, size_t *length, uint64_t *line);

/* The canonical form of an accepted file. */
uint32_t gedtool_canon(uint32_t settings, const uint8_t *file, size_t file_length,
                       uint8_t *room, size_t room_length, size_t *length, uint64_t *line);

/* The digest of an accepted file: the SHA-256 of its canonical form, 32 bytes. Files that `gedtool_same` calls the same have the
 * same digest. It is written to the front of `digest`; if that has fewer than 32 bytes, the status is GEDTOOL_ROOM_TOO_SMALL, and the
 * file is not judged. */
uint32_t gedtool_digest(uint32_t settings, const uint8_t *file, size_t file_length,
                        uint8_t *digest, size_t digest_length, uint64_t *line);

/* Whether two accepted files have the same canonical form: *same is 1 if they have, else 0. For a fault of a file, a file that is too
 * long, or an allocation that failed, *which is 1 or 2 for the file concerned; otherwise it is 0. */
uint32_t gedtool_same(uint32_t settings, const uint8_t *first, size_t first_length,
                      const uint8_t *second, size_t second_length,
                      uint32_t *same, uint32_t *which, uint64_t *line);

/* The name of a fault, such as `LevelJump`, and a part of its meaning, by the fault's number, 1 to 29. Both are English, in UTF-8. For a
 * fault that a call reported, the number is the call's status. The parts are what `gedtool explain NUMBER` prints. Neither call takes
 * memory. */
uint32_t gedtool_fault_name(uint32_t fault, uint8_t *room, size_t room_length, size_t *length);
uint32_t gedtool_explain(uint32_t fault, uint32_t part, uint8_t *room, size_t room_length, size_t *length);

/* GEDTOOL_ABI and GEDTOOL_VERSION of the library: major * 10000 + minor * 100 + patch. */
uint32_t gedtool_abi(void);
uint32_t gedtool_version(void);

/* The library itself requires a pointer that is not null, even where a length is 0. In C and C++ it gets one here; a call from another
 * language, or through dlsym, must pass one of its own, to any byte. */
static inline const uint8_t *gedtool_file_(const uint8_t *file) {
    static const uint8_t none = 0;
    return file ? file : &none;
}

static inline uint8_t *gedtool_room_(uint8_t *room) {
    static uint8_t none;
    return room ? room : &none;
}

#define gedtool_lines(settings, file, file_length, room, room_length, length, line) \
    gedtool_lines(settings, gedtool_file_(file), file_length, gedtool_room_(room), room_length, length, line)
#define gedtool_check(settings, file, file_length, room, room_length, length, line) \
    gedtool_check(settings, gedtool_file_(file), file_length, gedtool_room_(room), room_length, length, line)
#define gedtool_show(settings, file, file_length, room, room_length, length, line) \
    gedtool_show(settings, gedtool_file_(file), file_length, gedtool_room_(room), room_length, length, line)
#define gedtool_canon(settings, file, file_length, room, room_length, length, line) \
    gedtool_canon(settings, gedtool_file_(file), file_length, gedtool_room_(room), room_length, length, line)
#define gedtool_digest(settings, file, file_length, digest, digest_length, line) \
    gedtool_digest(settings, gedtool_file_(file), file_length, gedtool_room_(digest), digest_length, line)
#define gedtool_same(settings, first, first_length, second, second_length, same, which, line) \
    gedtool_same(settings, gedtool_file_(first), first_length, gedtool_file_(second), second_length, same, which, line)
#define gedtool_fault_name(fault, room, room_length, length) \
    gedtool_fault_name(fault, gedtool_room_(room), room_length, length)
#define gedtool_explain(fault, part, room, room_length, length) \
    gedtool_explain(fault, part, gedtool_room_(room), room_length, length)

#ifdef __cplusplus
}
#endif

#endif
