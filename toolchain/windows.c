/* What the program asks of the system beside itself, on Windows: memory, its words and environment, and files.
 * Its module was made for Linux, and so calls these functions as is done there. Texts are in UTF-8, and files
 * are read and written as they stand. */
#include <errno.h>
#include <fcntl.h>
#include <io.h>
#include <stdint.h>
#include <stdio.h>
#include <string.h>
#include <windows.h>
/* behind windows.h, whose types it needs */
#include <shellapi.h>

#include "../c/irig_heap.c"

#define AS_ON_LINUX __attribute__((sysv_abi))

enum { NONE = -1, NO_ROOM = -2, STREAMS = 3 };

AS_ON_LINUX tried linux_rattle_alloc(size_t size, size_t align) { return rattle_alloc(size, align); }

AS_ON_LINUX tried linux_rattle_realloc(void *block, size_t kept, size_t size, size_t align) {
    return rattle_realloc(block, kept, size, align);
}

AS_ON_LINUX void linux_rattle_dealloc(void *block) { rattle_dealloc(block); }

/* ---- words and environment */

/* A text in UTF-8 in memory of its own; null without memory. */
static char *narrow(const wchar_t *wide) {
    int size = WideCharToMultiByte(CP_UTF8, 0, wide, -1, NULL, 0, NULL, NULL);
    char *text = malloc((size_t)size);
    if (text) WideCharToMultiByte(CP_UTF8, 0, wide, -1, text, size, NULL, NULL);
    return text;
}

/* The opposite. */
static wchar_t *widen(const char *text) {
    int size = MultiByteToWideChar(CP_UTF8, 0, text, -1, NULL, 0);
    wchar_t *wide = malloc((size_t)size * sizeof *wide);
    if (wide) MultiByteToWideChar(CP_UTF8, 0, text, -1, wide, size);
    return wide;
}

/* Puts a text at the start of the room, as far as it goes, frees it, and answers its length. */
static ptrdiff_t put(char *text, char *room, size_t size) {
    size_t length = text ? strlen(text) : 0;
    if (!text) return NONE;
    memcpy(room, text, length < size ? length : size);
    free(text);
    return length <= size ? (ptrdiff_t)length : NO_ROOM;
}

static wchar_t **words(int *count) {
    static wchar_t **all;
    static int found;
    if (!all) all = CommandLineToArgvW(GetCommandLineW(), &found);
    *count = all ? found : 0;
    return all;
}

AS_ON_LINUX size_t linux_rattle_arg_count(void) {
    int count;
    words(&count);
    return (size_t)count;
}

AS_ON_LINUX ptrdiff_t linux_rattle_arg(size_t place, char *room, size_t size) {
    int count;
    wchar_t **all = words(&count);
    return put(place < (size_t)count ? narrow(all[place]) : NULL, room, size);
}

AS_ON_LINUX ptrdiff_t linux_rattle_env(const char *name, char *room, size_t size) {
    const char *value = getenv(name);
    return put(value ? _strdup(value) : NULL, room, size);
}

AS_ON_LINUX ptrdiff_t linux_rattle_env_at(size_t place, char *room, size_t size) {
    char **entry = _environ;
    while (entry && *entry && place > 0) {
        entry++;
        place--;
    }
    return put(entry && *entry ? _strdup(*entry) : NULL, room, size);
}

/* ---- errors: those that the program tells apart have the numbers that they have on Linux */

AS_ON_LINUX int linux_rattle_errno(void) { return errno; }

AS_ON_LINUX void linux_rattle_set_errno(int error) { errno = error; }

AS_ON_LINUX int linux___xpg_strerror_r(int error, char *room, size_t size) {
    return snprintf(room, size, "%s", strerror(error)) < (int)size ? 0 : ERANGE;
}

/* ---- files */

/* The standard streams would change the ends of lines. */
static int as_it_stands(int file) {
    static bool is_set[STREAMS];
    if (file >= 0 && file < STREAMS && !is_set[file]) {
        is_set[file] = true;
        _setmode(file, _O_BINARY);
    }
    return file;
}

static unsigned int most(size_t count) { return count < INT_MAX ? (unsigned int)count : INT_MAX; }

AS_ON_LINUX ptrdiff_t linux_read(int file, void *bytes, size_t count) {
    return _read(as_it_stands(file), bytes, most(count));
}

AS_ON_LINUX ptrdiff_t linux_write(int file, const void *bytes, size_t count) {
    return _write(as_it_stands(file), bytes, most(count));
}

AS_ON_LINUX int64_t linux_lseek(int file, int64_t by, int from) { return _lseeki64(file, by, from); }

/* The program opens files to read them alone. */
AS_ON_LINUX int linux_open(const char *path, int how, ...) {
    wchar_t *wide = widen(path);
    int file;
    (void)how;
    if (!wide) {
        errno = ENOMEM;
        return NONE;
    }
    file = _wopen(wide, _O_RDONLY | _O_BINARY | _O_NOINHERIT);
    free(wide);
    return file;
}

AS_ON_LINUX int linux_close(int file) { return _close(file); }

AS_ON_LINUX int linux_isatty(int file) { return _isatty(file) != 0; }

/* A pipe without a reader sends no signal here. */
AS_ON_LINUX int64_t linux___sysv_signal(int number, int64_t handler) {
    (void)number;
    (void)handler;
    return 0;
}
