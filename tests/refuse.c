// Refuses requests for memory. A program that is run with this library before the C library (LD_PRELOAD) makes its requests here:
// they are counted from 1, and those from the number REFUSE_FROM to the number REFUSE_TO are answered with no memory. At the first
// of them one byte is written to file descriptor 9, so that whoever ran the program knows that it got so far.
//
// A program may also say itself which requests are meant, by marks: lines that it writes to standard error, each in one write.
// `refuse growth N` counts anew from 1, and refuses the request N, or none if N is 0; `refuse growths` refuses all. `growths end`
// ends the refusals. In its place the line `growths M, refused R` is written, where M requests came since the other mark and R of
// them were refused; nothing is written in place of the other marks.
//
// No header is included, so that a compiler without the C library's headers can build it too.

typedef __SIZE_TYPE__ size_t;

// The C library's own calls, under the names that no library before it takes.
void *__libc_malloc(size_t size);
void *__libc_calloc(size_t count, size_t size);
void *__libc_realloc(void *block, size_t size);
void *__libc_memalign(size_t alignment, size_t size);

int *__errno_location(void);
char *getenv(const char *name);
unsigned long strtoul(const char *text, char **end, int base);
size_t strlen(const char *text);
int memcmp(const void *one, const void *other, size_t count);

struct iovec {
    void *base;
    size_t length;
};

long writev(int descriptor, const struct iovec *parts, int count);

enum { NO_MEMORY = 12, ERRORS = 2, TOLD = 9 };

static unsigned long requests, refused, first, last;
static int marked;

// Runs before the program's own code, and counts from there. Without numbers nothing is refused.
__attribute__((constructor)) static void start(void) {
    const char *from = getenv("REFUSE_FROM"), *to = getenv("REFUSE_TO");
    requests = 0;
    first = from ? strtoul(from, 0, 10) : 0;
    last = to ? strtoul(to, 0, 10) : 0;
}

static long put(int descriptor, const void *bytes, size_t count) {
    struct iovec part = {(void *)bytes, count};
    return writev(descriptor, &part, 1);
}

// Counts a request, and says whether it is refused.
static int is_refused(void) {
    requests++;
    if (requests < first || requests > last) {
        return 0;
    }
    refused++;
    if (requests == first && !marked) {
        put(TOLD, "!", 1);
    }
    *__errno_location() = NO_MEMORY;
    return 1;
}

// Counts anew, and refuses the requests between two numbers.
static void count_anew(unsigned long from, unsigned long to) {
    marked = 1;
    requests = refused = 0;
    first = from;
    last = to;
}

// Puts a number at the end of a text, and answers the text's length.
static size_t add_number(char *text, size_t length, unsigned long number) {
    char digits[24];
    size_t count = 0;
    do {
        digits[count++] = '0' + number % 10;
        number /= 10;
    } while (number);
    while (count) {
        text[length++] = digits[--count];
    }
    return length;
}

static size_t add_words(char *text, size_t length, const char *words) {
    while (*words) {
        text[length++] = *words++;
    }
    return length;
}

// Tells how many requests came since the mark, and how many were refused.
static void tell_counts(void) {
    char line[80];
    size_t length = add_words(line, 0, "growths ");
    length = add_number(line, length, requests);
    length = add_words(line, length, ", refused ");
    length = add_number(line, length, refused);
    length = add_words(line, length, "\n");
    count_anew(0, 0);
    put(ERRORS, line, length);
}

static int begins_with(const char *bytes, size_t count, const char *words) {
    return count >= strlen(words) && !memcmp(bytes, words, strlen(words));
}

// Whether some bytes are a mark, which is then done.
static int is_mark(const char *bytes, size_t count) {
    if (begins_with(bytes, count, "refuse growth ")) {
        unsigned long number = strtoul(bytes + strlen("refuse growth "), 0, 10);
        count_anew(number, number);
    } else if (begins_with(bytes, count, "refuse growths\n")) {
        count_anew(1, -1UL);
    } else if (begins_with(bytes, count, "growths end\n")) {
        tell_counts();
    } else {
        return 0;
    }
    return 1;
}

long write(int descriptor, const void *bytes, size_t count) {
    return descriptor == ERRORS && is_mark(bytes, count) ? (long)count : put(descriptor, bytes, count);
}

long __write(int descriptor, const void *bytes, size_t count) {
    return write(descriptor, bytes, count);
}

void *malloc(size_t size) {
    return is_refused() ? 0 : __libc_malloc(size);
}

void *calloc(size_t count, size_t size) {
    return is_refused() ? 0 : __libc_calloc(count, size);
}

void *realloc(void *block, size_t size) {
    return is_refused() ? 0 : __libc_realloc(block, size);
}

void *memalign(size_t alignment, size_t size) {
    return is_refused() ? 0 : __libc_memalign(alignment, size);
}

void *aligned_alloc(size_t alignment, size_t size) {
    return memalign(alignment, size);
}

int posix_memalign(void **block, size_t alignment, size_t size) {
    void *found = memalign(alignment, size);
    if (!found) {
        return NO_MEMORY;
    }
    *block = found;
    return 0;
}
