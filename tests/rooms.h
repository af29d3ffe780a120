// Buffers for the library's answers, which show what was written, and requests for memory, which are counted and refused: the
// linker redirects the library's calls of `malloc`, `realloc` and `free` (--wrap).
#ifndef ROOMS_H
#define ROOMS_H

#include "../ffi/c/gedtool.h"

#include <stdio.h>
#include <stdlib.h>
#include <string.h>

struct bytes {
    uint8_t *at;
    size_t length;
};

enum { MARK = 0xA5, BEHIND = 16 };

static _Thread_local long requests, refused_at, held;

void *__real_malloc(size_t size);
void *__real_realloc(void *block, size_t size);
void __real_free(void *block);

void *__wrap_malloc(size_t size) {
    void *block = ++requests == refused_at ? NULL : __real_malloc(size);
    held += block != NULL;
    return block;
}

void *__wrap_realloc(void *block, size_t size) {
    return ++requests == refused_at ? NULL : __real_realloc(block, size);
}

void __wrap_free(void *block) {
    held -= block != NULL;
    __real_free(block);
}

static inline void expect(int holds, const char *what) {
    if (!holds) {
        fprintf(stderr, "not so: %s\n", what);
        exit(9);
    }
}

static inline struct bytes with_room(size_t length) {
    struct bytes room = {__real_malloc(length + 1), length};
    expect(room.at != NULL, "the test has memory");
    memset(room.at, MARK, length + 1);
    return room;
}

static inline int is_marked(const uint8_t *at, size_t length) {
    for (size_t i = 0; i < length; i++) {
        if (at[i] != MARK) {
            return 0;
        }
    }
    return 1;
}

#endif
