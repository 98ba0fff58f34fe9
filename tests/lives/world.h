/* The world of one life: days and frames, chance, when seconds begin by the device's counter, and by
 * the clocks that send on its lines, and which they are. */
#ifndef WORLD_H
#define WORLD_H

#include "irig.h"

enum { DAY_S = 86400, LAST_DAY = 36523, ELEMENTS = 100, HALF = 50, MOST_OFFSET = 31 };

/* A second of UTC: the day from 2000-01-01, and the second of the day. */
typedef struct utc {
    int64_t day, second;
} utc;

bool is_month_end(int64_t day);

/* The month's end at or before a day. */
int64_t month_end_before(int64_t day);

/* A bit for each element that is a one, fifty in each word. */
typedef struct frame {
    uint64_t ones[2];
} frame;

static inline bool is_marker(unsigned element) { return element == 0 || element % 10 == 9; }

static inline bool is_one(const frame *f, unsigned element) {
    return f->ones[element / HALF] >> (element % HALF) & 1;
}

/* What a frame says, and how: the time of a zone, in half hours ahead of UTC. */
typedef struct content {
    utc at;
    int32_t zone;
    bool pending, is_delete, dst;
    bool turns; /* daylight saving begins or ends at the end of the minute */
    int32_t offset_more; /* the offset that is sent is so many half hours more than the zone's */
    uint32_t quality;
} content;

/* No code of the library makes it. */
frame encode(const content *what, bool is_odd, bool is_subtracted);

enum {
    SECOND_US = 1000000,
    ELEMENT_US = 10000,
    MOST_LINES = 5,
    MOST_SECONDS = 500500,
    MOST_DELAY_US = 4000,
    HANDED_ON_US = 1200000 /* between the lies of one line and those of another */
};

/* ---- chance: splitmix64, so that a seed gives the same lives everywhere */

typedef struct chance {
    uint64_t state;
} chance;

static inline uint64_t draw(chance *luck) {
    uint64_t x = luck->state += UINT64_C(0x9e3779b97f4a7c15);
    x = (x ^ x >> 30) * UINT64_C(0xbf58476d1ce4e5b9);
    x = (x ^ x >> 27) * UINT64_C(0x94d049bb133111eb);
    return x ^ x >> 31;
}

/* A number below a bound that is not 0. */
static inline uint32_t below(chance *luck, uint32_t bound) {
    return (uint32_t)((draw(luck) >> 32) * bound >> 32);
}

static inline int32_t between(chance *luck, int32_t low, int32_t high) {
    return low + (int32_t)below(luck, (uint32_t)(high - low) + 1);
}

static inline bool is_once_in(chance *luck, uint32_t times) { return below(luck, times) == 0; }

/* One of some numbers. */
#define ONE_OF(luck, ...)                                                                          \
    ((const int32_t[]){__VA_ARGS__})[below(luck, sizeof((const int32_t[]){__VA_ARGS__}) / 4)]

/* ---- a world */

/* How far the device's counter goes in a second of the world, beside 1,000,000. The last two are at one
 * end up to an edge and at the other end from there on, or come there little by little. */
typedef enum walk { WALK, FAST, SLOW, STEPS, ALTERNATING, TURNING, PARTING, RAMP, WALKS } walk;

typedef struct world {
    uint64_t
        edge_us[MOST_SECONDS + 3]; /* edge n, where T(n) begins, by a counter that does not wrap */
    uint32_t seconds;              /* the edges 0 to `seconds` + 2 are there */
    uint32_t drift_us;
    uint32_t wander_ppb; /* by so many ns any two seconds differ at most; 0 if by any number */
    uint32_t parts_at;   /* the edge of PARTING */
    uint32_t within_us;  /* true pulses rise less than so many us from their time, */
    int32_t delay_us[MOST_LINES]; /* and reach the device so much later, on each line */
    /* The seconds of each line's clock begin so many us behind those of UTC. */
    int16_t clock_us[MOST_LINES][MOST_SECONDS + 3];
    utc first;                  /* T(0) */
    int64_t leap_day;           /* at whose end a leap comes, or none */
    int leap;                   /* 1 inserted, -1 deleted, 0 none */
    bool is_odd, is_subtracted; /* parity and sense */
    uint32_t poor_from;         /* the quality from which a frame has no vote */
    bool prefers_frames;        /* to its table, on leap seconds: what a device is told */
} world;

/* Makes edges, and clocks that are right. */
void make_edges(world *w, uint64_t start_us, walk kind, chance *luck);

/* Makes a line's clock that is at most so far off, and often as far: always the same, or its seconds
 * are longer and shorter than those of UTC, as far as they may be by the device's counter. Two that walk
 * may have last elements that differ by 1 us. */
void make_clock(world *w, unsigned line, int32_t most_us, bool walks, chance *luck);

/* How far off a clock may be that says this quality. */
static inline int32_t quality_us(uint32_t quality) {
    static const int32_t OFF_US[] = {0, 1, 1, 1, 1, 10, 100, 1000};
    return OFF_US[quality];
}

/* When a second begins by a line's clock. */
static inline uint64_t clock_edge_us(const world *w, unsigned line, uint32_t second) {
    return w->edge_us[second] + (uint64_t)(int64_t)w->clock_us[line][second];
}

/* When an element of that second's frame begins: so many hundredths of the way from edge to edge. */
static inline uint64_t element_us(const world *w, unsigned line, uint32_t second, unsigned element) {
    uint64_t edge_us = clock_edge_us(w, line, second);
    return edge_us + (clock_edge_us(w, line, second + 1) - edge_us) * element / ELEMENTS;
}

/* How far from its time a true pulse rises at most. */
static inline int32_t jitter_us(const world *w) { return (int32_t)w->within_us - 1; }

/* How far a frame's end may lie from its edge, if it says this quality. */
static inline int32_t half_of(const world *w, uint32_t quality) {
    return jitter_us(w) + quality_us(quality);
}

/* That of the worst quality that has a vote. */
static inline int32_t widest_us(const world *w) { return half_of(w, w->poor_from - 1); }

/* A quality by which a frame has no vote. */
static inline uint32_t poor_quality(const world *w, chance *luck) {
    return w->poor_from + below(luck, 16 - w->poor_from);
}

/* The last edge at or before a time, or 0. */
uint32_t edge_before(const world *w, uint64_t time_us);

/* T(n), also of a negative n, if days have 86,400 seconds there. */
utc second_at(const world *w, int64_t n);

/* Whether a second is one of the timeline, and which. */
bool find_second(const world *w, utc at, int64_t *n);

/* What a true frame of a second says, by a clock in this zone. */
content true_content(const world *w, utc at, int32_t zone);

/* What a device is told of it. */
static inline irig_wires wires_of(const world *w) {
    irig_wires wires = {.within_us = (uint16_t)w->within_us, .drift_us = (uint16_t)w->drift_us,
                        .prefers_frames = w->prefers_frames, .wander_ppb = w->wander_ppb};
    for (int i = 0; i < MOST_LINES; i++) wires.delay_us[i] = (int16_t)w->delay_us[i];
    return wires;
}

#endif
