// Tells in which order a program creates, syncs and renames files, and with which permissions. A program that is run with this library
// before the C library (LD_PRELOAD) makes these calls here, and each is told on file descriptor 9: a c and the permissions, as three
// octal digits, for a file that may be created; an m and the permissions for those that a file is given; an s for a sync; and an r for a
// renaming. Where SYNC_FAILS is set, a sync is answered with an error, and nothing is synced; where CHMOD_FAILS is, no file is given
// permissions.
//
// No header is included, so that a compiler without the C library's headers can build it too. The numbers of the system's calls are
// those of x86-64, for which the program is built.

int *__errno_location(void);
char *getenv(const char *name);
long syscall(long number, ...);

enum { NOT_PERMITTED = 1, INPUT_OUTPUT_ERROR = 5, TOLD = 9, CREATES = 0100, WRITE = 1, OPEN = 2, FSYNC = 74, RENAME = 82, FCHMOD = 91 };

static void tell(char what, unsigned mode) {
    char told[4] = {what, '0' + mode / 64 % 8, '0' + mode / 8 % 8, '0' + mode % 8};
    syscall(WRITE, TOLD, told, what == 'c' || what == 'm' ? 4 : 1);
}

static int refuse(int error) {
    *__errno_location() = error;
    return -1;
}

// The C library's has more parameters only where a file may be created; the system has one, which it does not look at otherwise.
int open(const char *path, int flags, unsigned mode) {
    if (flags & CREATES) {
        tell('c', mode);
    }
    return syscall(OPEN, path, flags, mode);
}

int fchmod(int descriptor, unsigned mode) {
    tell('m', mode);
    return getenv("CHMOD_FAILS") ? refuse(NOT_PERMITTED) : syscall(FCHMOD, descriptor, mode);
}

int fsync(int descriptor) {
    tell('s', 0);
    return getenv("SYNC_FAILS") ? refuse(INPUT_OUTPUT_ERROR) : syscall(FSYNC, descriptor);
}

int rename(const char *from, const char *to) {
    tell('r', 0);
    return syscall(RENAME, from, to);
}
