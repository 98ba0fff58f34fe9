// Refuses memory to a program that it is loaded into by LD_PRELOAD: of its requests to the C
// library the one whose number REFUSED has, counted from 1, and those from number REFUSED_FROM on.
// Writes to the file ALLOCATIONS, if there is such a name, how many requests there were.

#include <errno.h>
#include <fcntl.h>
#include <stdio.h>
#include <stdlib.h>
#include <unistd.h>

extern void *__libc_malloc(size_t size);
extern void *__libc_calloc(size_t count, size_t size);
extern void *__libc_realloc(void *block, size_t size);

static unsigned long refused;
static unsigned long refused_from;
static unsigned long requests;

static unsigned long number_of(const char *name) {
    const char *number = getenv(name);
    return number == NULL ? 0 : strtoul(number, NULL, 10);
}

__attribute__((constructor)) static void begin(void) {
    refused = number_of("REFUSED");
    refused_from = number_of("REFUSED_FROM");
    requests = 0;
}

__attribute__((destructor)) static void end(void) {
    const char *path = getenv("ALLOCATIONS");
    int file = path == NULL ? -1 : open(path, O_WRONLY | O_CREAT | O_TRUNC, 0600);
    if (file >= 0) {
        dprintf(file, "%lu\n", requests);
        close(file);
    }
}

static int is_refused(void) {
    requests++;
    if (requests != refused && (refused_from == 0 || requests < refused_from)) {
        return 0;
    }
    errno = ENOMEM;
    return 1;
}

void *malloc(size_t size) { return is_refused() ? NULL : __libc_malloc(size); }

void *calloc(size_t count, size_t size) {
    return is_refused() ? NULL : __libc_calloc(count, size);
}

void *realloc(void *block, size_t size) {
    return is_refused() ? NULL : __libc_realloc(block, size);
}
