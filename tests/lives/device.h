/* A device in its world: what calls it makes, and when. */
#ifndef DEVICE_H
#define DEVICE_H

#include "judge.h"

/* When ticks come. */
typedef enum pace {
    BY_WAIT, /* when `wait` says */
    BY_POLLS,
    AT_RANDOM,
    BEFORE_PULSES, /* before each pulse is told */
    WITH_GAPS,     /* when `wait` says, but none for some seconds, or minutes */
    AROUND_EDGES,  /* one in each second, early or late */
    BY_QUEUES,     /* by polls and behind pauses, when the queue of each line was emptied */
    PACES
} pace;

typedef struct device {
    pace pace;
    uint32_t poll_us;        /* the longest time between polls */
    uint32_t late_us;        /* how late a tick is at most that `wait` asked for, */
    uint32_t always_us;      /* and at least */
    uint32_t gap_one_in;     /* ticks of WITH_GAPS */
    uint32_t restart_one_in; /* ticks; 0 none */
    chance luck;
    /* where it stands */
    uint64_t now_us, tick_us, due_us;
    bool is_asked; /* `wait` asked for the next tick, and no frame has ended since */
    bool is_asleep;
    uint64_t sleep_us, wake_us; /* between these there is no tick */
    uint64_t flip_us;           /* behind this a bit of its numbers flips; 0 none */
    uint32_t flipped_bit;
    uint32_t edge;              /* of AROUND_EDGES */
} device;

/* What was told, and when. */
typedef struct entry {
    uint64_t now_us, edge_us;
    irig_second second;
} entry;

enum { MOST_ENTRIES = 10000 };

typedef struct life {
    world world;
    sky sky;
    irig_setup setup;
    irig_table table;
    device device;
    judge judge;
    uint64_t kinds;           /* what kinds of settings, lines, lies and ticks it has, a bit for each, */
    uint32_t clocks;          /* and of lines and clocks, by how far off they may be */
    bool is_told_aloud;       /* each second is printed */
    uint32_t only_within_us;  /* how exact lines are in each that is planned; 0 any */
    entry told[MOST_ENTRIES]; /* the first of them */
    int tolds;
} life;

/* A tick at this time, and what comes of it. */
void tick(life *l, uint64_t now_us);

/* Plays a life up to its last edge, or until something is wrong. */
void play(life *l, const subject *s);

/* ---- lives. Of plan.c: by chance, all of them within what is promised for. */

/* Makes the life of this number; the seed is that of a whole run. */
void plan(life *l, uint64_t seed, uint64_t number);

enum { KINDS = 64, CLOCKS = 8 };

/* Makes edges, and lines that send nominal frames at their time, of a life that has its settings,
 * first second, leap and length. */
void begin_lines(life *l, uint64_t start_us, walk kind, chance *luck);

/* Of rows.c: small worlds with what has to come of each, those in which earlier designs failed, and
 * those in which more is asked than any device can do. */

/* Plays all rows that a subject can be asked; says which fail, if it is loud; and adds up. */
void play_rows(life *l, const subject *s, bool is_loud, unsigned long *passed,
               unsigned long *failed);

/* Flips each bit of the line of a device of one line, behind each third element of a frame. */
bool play_flips(life *l, const subject *s);

#endif
