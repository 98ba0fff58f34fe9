/* The three functions by which libc_scenario.a asks for memory, over those of the C library. */
#include <stdbool.h>
#include <stddef.h>
#include <stdlib.h>

/* Whether there is memory, and where; where there is none, some other place than null. */
typedef struct tried {
    bool ok;
    void *place;
} tried;

static tried answer(void *block) {
    static max_align_t none;
    return block ? (tried){true, block} : (tried){false, &none};
}

tried rattle_alloc(size_t size, size_t align);
tried rattle_realloc(void *block, size_t kept, size_t size, size_t align);
void rattle_dealloc(void *block);

/* The alignment is 16 at most, which `malloc` gives. For a size of 0 it asks for as many bytes. */
tried rattle_alloc(size_t size, size_t align) { return answer(malloc(size ? size : align)); }

tried rattle_realloc(void *block, size_t kept, size_t size, size_t align) {
    (void)kept; /* `realloc` keeps all */
    return answer(realloc(block, size ? size : align));
}

void rattle_dealloc(void *block) { free(block); }
