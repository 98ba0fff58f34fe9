/* What a program asks of the system beside the C library: its words, its environment and errno. The kit
 * has these calls compiled for x86-64 alone, so they stand here for another processor. */
#include <errno.h>
#include <stddef.h>
#include <stdlib.h>
#include <string.h>

extern char **environ;

enum { NONE = -1, NO_ROOM = -2 };

size_t rattle_arg_count(void);
ptrdiff_t rattle_arg(size_t place, char *room, size_t size);
ptrdiff_t rattle_env(const char *name, char *room, size_t size);
ptrdiff_t rattle_env_at(size_t place, char *room, size_t size);
int rattle_errno(void);
void rattle_set_errno(int error);

static size_t count;
static char **words;

/* The C library hands these to what runs before main. */
__attribute__((constructor)) static void keep(int argc, char **argv) {
    count = (size_t)argc;
    words = argv;
}

/* Puts a text at the start of the room, as far as it goes, and answers its length. */
static ptrdiff_t put(const char *text, char *room, size_t size) {
    size_t length;
    if (!text) return NONE;
    length = strlen(text);
    memcpy(room, text, length < size ? length : size);
    return length <= size ? (ptrdiff_t)length : NO_ROOM;
}

size_t rattle_arg_count(void) { return count; }

ptrdiff_t rattle_arg(size_t place, char *room, size_t size) {
    return put(place < count ? words[place] : NULL, room, size);
}

ptrdiff_t rattle_env(const char *name, char *room, size_t size) {
    return put(getenv(name), room, size);
}

ptrdiff_t rattle_env_at(size_t place, char *room, size_t size) {
    char **entry = environ;
    while (entry && *entry && place > 0) {
        entry++;
        place--;
    }
    return put(entry ? *entry : NULL, room, size);
}

int rattle_errno(void) { return errno; }

void rattle_set_errno(int error) { errno = error; }
