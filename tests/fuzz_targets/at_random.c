/* Inputs of pseudo-random bytes to calls.c, the same on every processor. The word is how many. A
 * run that announces nothing fails. */
#include "calls.c"

enum { LONGEST = 600 };

/* xorshift of 32 bits. */
static uint32_t next(void) {
    static uint32_t state = 1;
    state ^= state << 13;
    state ^= state >> 17;
    state ^= state << 5;
    return state >> 8;
}

int main(int count, char **words) {
    static uint8_t bytes[LONGEST];
    long inputs = count > 1 ? atol(words[1]) : 1000;
    for (long i = 0; i < inputs; i++) {
        size_t size = 1 + next() % LONGEST;
        uint32_t repeats = next() % 4; /* so many of four bytes are those before */
        for (size_t at = 0; at < size; at++)
            bytes[at] = next() % 4 < repeats && at > 0 ? bytes[at - 1] : (uint8_t)next();
        LLVMFuzzerTestOneInput(bytes, size);
    }
    printf("%ld inputs, %lu seconds announced\n", inputs, announced);
    return announced == 0;
}
