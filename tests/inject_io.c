// Breaks a device of a program that it is loaded into by LD_PRELOAD. BREAK has four numbers: which
// kind of call (as below), the number of the call, counted from 1, what it does, and whether later
// ones do so too. What it does: an `errno` from 1 on, 0 for a count of zero, or one of `how`. GRAIN
// is how many bytes a read gives at most. Into the file CALLS goes a line for each call: its kind,
// and how many bytes the calls of its kind moved before.

#define _GNU_SOURCE
#include <errno.h>
#include <fcntl.h>
#include <stdarg.h>
#include <stdio.h>
#include <stdlib.h>
#include <sys/syscall.h>
#include <time.h>
#include <unistd.h>

enum kind { READ, WRITE, TELL, OPEN, SEEK, KINDS };
enum how { SHORT = -1, SLOW = -2, GROWS = -3, ORDINARY = -4 };

static long broken = KINDS, number, done = ORDINARY, goes_on;
static size_t grain = (size_t)-1;
static int calls = -1;
static long made[KINDS];
static long moved[KINDS];

__attribute__((constructor)) static void begin(void) {
    const char *words = getenv("BREAK"), *most = getenv("GRAIN"), *path = getenv("CALLS");
    if (words != NULL) {
        sscanf(words, "%ld %ld %ld %ld", &broken, &number, &done, &goes_on);
    }
    if (most != NULL) {
        grain = strtoul(most, NULL, 10);
    }
    if (path != NULL) {
        int file = (int)syscall(SYS_open, path, O_WRONLY | O_CREAT | O_TRUNC, 0600);
        calls = fcntl(file, F_DUPFD, 100);
        close(file);
    }
}

// The file GROWN gets the bytes of the file REST.
static void grow(void) {
    char bytes[65536];
    int rest = (int)syscall(SYS_open, getenv("REST"), O_RDONLY);
    int grown = (int)syscall(SYS_open, getenv("GROWN"), O_WRONLY | O_APPEND);
    long count;
    while ((count = syscall(SYS_read, rest, bytes, sizeof bytes)) > 0) {
        syscall(SYS_write, grown, bytes, count);
    }
    close(rest);
    close(grown);
}

// Counts a call, and answers what it does.
static long next(enum kind kind) {
    made[kind]++;
    if (calls >= 0) {
        char line[32];
        int length = snprintf(line, sizeof line, "%d %ld\n", kind, moved[kind]);
        syscall(SYS_write, calls, line, length);
    }
    int is_broken = kind == broken && (made[kind] == number || (goes_on && made[kind] > number));
    if (is_broken && done == SLOW) {
        nanosleep(&(struct timespec){0, 2000000}, NULL);
    }
    if (is_broken && done == GROWS) {
        grow();
    }
    return is_broken ? done : ORDINARY;
}

static ssize_t move(enum kind kind, long call, int file, void *bytes, size_t room) {
    long does = next(kind);
    if (does > 0) {
        errno = (int)does;
        return -1;
    }
    if (does == 0) {
        return 0;
    }
    ssize_t count = syscall(call, file, bytes, does == SHORT && room > 0 ? 1 : room);
    moved[kind] += count > 0 ? count : 0;
    return count;
}

ssize_t read(int file, void *bytes, size_t room) {
    return move(READ, SYS_read, file, bytes, room < grain ? room : grain);
}

ssize_t write(int file, const void *bytes, size_t count) {
    return move(file == 2 ? TELL : WRITE, SYS_write, file, (void *)bytes, count);
}

ssize_t __write(int file, const void *bytes, size_t count) { return write(file, bytes, count); }

int open(const char *path, int flags, ...) {
    va_list more;
    va_start(more, flags);
    int mode = flags & O_CREAT ? va_arg(more, int) : 0;
    va_end(more);
    long does = next(OPEN);
    if (does > 0) {
        errno = (int)does;
        return -1;
    }
    return (int)syscall(SYS_open, path, flags, mode);
}

off_t lseek(int file, off_t offset, int from) {
    long does = next(SEEK);
    if (does > 0) {
        errno = (int)does;
        return -1;
    }
    return syscall(SYS_lseek, file, offset, from);
}
