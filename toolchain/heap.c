/* A heap for a module with one thread, as WebAssembly has no C library to ask. Each block has its size
 * before it: below 64 KiB a power of two, else whole pages. */

typedef unsigned long word; /* 64 bits */

enum { HEAD = 16, PAGE = 65536, LEAST = 4, LARGE = 16, CLASSES = 42, PIECE = 16 * PAGE };

typedef struct block {
    struct block *next; /* of a free block, the next one of its class */
} block;

extern unsigned char __heap_base;

static block *free_blocks[CLASSES]; /* those of class k have 2^k bytes at least */
static word top, limit;             /* the memory that was never used */
/* A piece of it for small blocks: a large one that came last stays last, and grows where it is. */
static word small_top, small_limit;

/* Tells the page how many bytes a block is to have that grows: the log, in a long run. */
__attribute__((import_module("page"), import_name("grows"))) void page_grows(word bytes);

static word *size_of(void *place) { return (word *)((char *)place - HEAD); }

/* The least k for which 2^k bytes hold these, CLASSES if there is none. */
static unsigned class_of(word bytes) {
    unsigned class = LEAST;
    while (class < CLASSES && 1ul << class < bytes) class++;
    return class;
}

static word whole_pages(word bytes) { return (bytes + PAGE - 1) / PAGE * PAGE; }

/* A refusal is -1: of 64 bits, or of 32 in a module whose memory was lowered to that. */
static int did_grow(word pages) { return __builtin_wasm_memory_grow(0, pages) < 0xffffffff; }

/* Makes sure of so many bytes above the top. It asks for a sixteenth of the memory at least, so
 * that the requests are few. */
static int reserve(word bytes) {
    word pages, more;
    if (!top) {
        top = ((word)&__heap_base + HEAD - 1) / HEAD * HEAD;
        limit = __builtin_wasm_memory_size(0) * PAGE;
    }
    if (bytes <= limit - top) return 1;
    pages = whole_pages(bytes - (limit - top)) / PAGE;
    more = limit / PAGE / 16;
    if (more > pages && did_grow(more)) {
        pages = more;
    } else if (!did_grow(pages)) {
        return 0;
    }
    limit += pages * PAGE;
    return 1;
}

/* Cuts a block of so many bytes off the memory from `*from` on. */
static void *cut(word *from, word bytes) {
    char *place = (char *)*from + HEAD;
    *from += HEAD + bytes;
    *size_of(place) = bytes;
    return place;
}

static void *small_block(word bytes) {
    if (small_limit - small_top < HEAD + bytes) {
        if (!reserve(PIECE)) return 0;
        small_top = top;
        top += PIECE;
        small_limit = top;
    }
    return cut(&small_top, bytes);
}

static void *large_block(word bytes) { return reserve(HEAD + bytes) ? cut(&top, bytes) : 0; }

__attribute__((export_name("heap_give"))) void *heap_give(word bytes) {
    unsigned class = class_of(bytes);
    block *found;
    if (class == CLASSES) return 0;
    found = free_blocks[class];
    if (!found) return class < LARGE ? small_block(1ul << class) : large_block(whole_pages(bytes));
    free_blocks[class] = found->next;
    return found;
}

__attribute__((export_name("heap_take"))) void heap_take(void *place) {
    block *freed = place;
    unsigned class;
    if (!place) return;
    class = 63 - __builtin_clzl(*size_of(place));
    freed->next = free_blocks[class];
    free_blocks[class] = freed;
}

/* Whether a large block has grown where it is, at the end of all. */
static int did_stretch(void *place, word bytes) {
    word size = *size_of(place), wanted = whole_pages(bytes);
    if (size < 1ul << LARGE || (word)place + size != top || !reserve(wanted - size)) return 0;
    top += wanted - size;
    *size_of(place) = wanted;
    return 1;
}

__attribute__((export_name("heap_resize"))) void *heap_resize(void *place, word bytes) {
    word size = *size_of(place);
    void *moved;
    if (bytes <= size) return place;
    if (class_of(bytes) == CLASSES) return 0;
    page_grows(bytes);
    if (did_stretch(place, bytes)) return place;
    moved = heap_give(bytes);
    if (moved) {
        __builtin_memcpy(moved, place, size);
        heap_take(place);
    }
    return moved;
}
