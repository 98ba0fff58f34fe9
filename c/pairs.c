/* Each two bits of a reader and of a timekeeper, flipped at once by something else than a call, in the
 * states of c/flips.c: how many such pairs the next tick takes for a call's work, of how many of these
 * anything else is told in the seconds behind it, and of how many a false second. One flipped bit is
 * always refused, or lies between numbers. The word, if there is one, is to try each so-many-th pair
 * alone, and a second one prints those that are taken. The status is 1 if there is a false second. */
#define main flips
#include "flips.c"
#undef main

typedef struct counts {
    unsigned long tried, taken, otherwise, falsely;
} counts;

static device flipped_of(const device *at, int bit, int other) {
    device d = *at;
    d.bytes[bit / 8] ^= (unsigned char)(1 << bit % 8);
    d.bytes[other / 8] ^= (unsigned char)(1 << other % 8);
    return d;
}

/* Whether a tick at once takes both flips. */
static bool is_taken(const kind *of, device d, int first) {
    told t = {0, false};
    return !of->tick(&d, (uint32_t)first * 10000 - 2000, &t);
}

static unsigned long try_pairs(const kind *of, int story, device at, unsigned long every, bool is_loud) {
    int first = stories[story].element, end = (int)(8 * of->size);
    unsigned long number = 0;
    counts c = {0, 0, 0, 0};
    told undisturbed = stand(of, story, &at);
    for (int bit = 0; bit < end; bit++) {
        for (int other = bit + 1; other < end && !of->is_padding((size_t)bit / 8); other++) {
            if (of->is_padding((size_t)other / 8) || number++ % every != 0) continue;
            device d = flipped_of(&at, bit, other);
            c.tried++;
            if (!is_taken(of, d, first)) continue;
            told t = {0, false};
            int refused_now = play(of, &d, first, first + of->ahead, &t);
            bool is_otherwise = refused_now > 0 || t.sum != undisturbed.sum;
            c.taken++;
            c.otherwise += is_otherwise;
            c.falsely += t.is_false;
            if (is_loud)
                printf("  bit %d of byte %d, bit %d of byte %d%s%s\n", bit % 8, bit / 8, other % 8,
                       other / 8, is_otherwise ? ", otherwise" : "", t.is_false ? ", false" : "");
        }
    }
    printf("%s, %s: %lu pairs, %lu taken, %lu of them tell otherwise, %lu a false second\n", of->name,
           stories[story].name, c.tried, c.taken, c.otherwise, c.falsely);
    fflush(stdout);
    return c.falsely;
}

int main(int count, char **words) {
    static device fresh[KINDS];
    unsigned long every = begin(count, words, fresh), falsely = 0;
    for (int of = 0; of < KINDS; of++)
        for (int story = 0; story < STORIES; story++)
            falsely += try_pairs(&kinds[of], story, fresh[of], every, count > 2);
    return falsely > 0;
}
