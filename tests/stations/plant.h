/* A plant of devices: what it is made of and what happens in it (docs/SCENARIOS.md), and the log that
 * comes of it (docs/OUTPUT.md). Its devices are the timekeepers of tests/lives, and its frames are
 * encoded there: no code of the product has a part in it. */
#ifndef PLANT_H
#define PLANT_H

#include <stdio.h>

#include "rule.h"
#include "subject.h"

enum {
    MOST_LEAPS = 4,
    MOST_CHANGES = 3,
    MOST_DEVICES = 3,
    MOST_EVENTS = 4000,
    MOST_SECONDS_PLAYED = 4000,
    NAME_LETTERS = 16
};

/* ---- what it is made of */

/* At the end of the day, 1 for an inserted second, -1 for a deleted one. */
typedef struct leap {
    int64_t day;
    int kind;
} leap;

/* Half hours ahead of UTC. */
typedef struct zone {
    int32_t local;
    bool dst;
} zone;

typedef struct change {
    utc at;
    zone zone;
} change;

typedef struct generator {
    zone zone;
    change change[MOST_CHANGES]; /* in order */
    int changes;
} generator;

typedef struct device {
    char name[NAME_LETTERS + 1];
    uint32_t lock_after, holdover, drift, counter;
    int32_t gain;
    uint32_t late[MOST_LINES];
    bool has_poll;
    uint32_t poll;
    bool has_table;
    irig_table table;
} device;

/* ---- what happens in it */

typedef enum fault_kind {
    NO_FAULT,
    SILENT,
    STUCK,
    SKEW,
    NO_PENDING,
    FALSE_PENDING,
    POOR_QUALITY,
    WRONG_OFFSET,
    FAULTS
} fault_kind;

typedef struct fault {
    fault_kind kind;
    int32_t by; /* of SKEW and WRONG_OFFSET; the quality; of FALSE_PENDING 1 for a deleted second */
} fault;

typedef enum what { PASS, SECONDS, FAULT, PULL, PLUG, LATE, PULSE, TICK, RESTART, STAMP } what;

typedef struct event {
    what what;
    uint32_t g, r;   /* a device above those that there are has a name that none has */
    uint32_t number; /* microseconds, seconds, a lateness, a width, or how long ago */
    fault fault;     /* of FAULT; NO_FAULT is a repair */
} event;

typedef struct plant {
    utc start;
    leap leap[MOST_LEAPS];
    int leaps;
    bool is_odd, is_subtracted, ignores_sbs;
    generator generator[MOST_LINES];
    uint32_t generators;
    device device[MOST_DEVICES];
    uint32_t devices;
    event event[MOST_EVENTS];
    int events;
} plant;

/* What true time passes by an event, in microseconds. */
uint64_t us_of(const event *e);

/* Makes the plant of this number, and all that happens in it; the seed is that of a whole run. */
void plan(plant *p, uint64_t seed, uint64_t number);

/* Why an event is refused, or that none is. */
typedef struct refusal {
    int event;       /* `events` if none is, -1 if the plant is */
    uint32_t number; /* of docs/FAULTS.md, or 0 */
} refusal;

refusal refusal_of(const plant *p);

/* Ends a run whose world is wrong in itself. */
_Noreturn void give_up(const char *why);

/* ---- seconds and frames */

/* T(n), if it is served. */
bool find_time(const plant *p, int64_t n, utc *at);

/* How many seconds there are, up to a number. */
int64_t seconds_up_to(const plant *p, int64_t most);

/* The leap at the end of a day, or 0. */
int leap_of(const plant *p, int64_t day);

/* Whether a table says of each day from the start on what the plant has, as far as it speaks. */
bool is_table_true(const plant *p, const irig_table *table);

/* What a generator sends in a second, and what the line of it carries if that is true. */
typedef struct sent {
    bool is_sent;
    uint8_t symbol[ELEMENTS], truth[ELEMENTS];
} sent;

/* The frame that a generator sends without fault at an edge, if there is a second. */
bool make_plain(const plant *p, uint32_t g, int64_t n, uint8_t symbol[ELEMENTS]);

/* By all generators, in as many seconds as are played. */
extern sent sent_in[MOST_SECONDS_PLAYED][MOST_LINES];
void make_sent(const plant *p, int64_t seconds);

/* ---- what comes of it */

/* Events and faults are in the order of `what` and of `fault_kind`. */
#define EACH_COUNTED(X)                                                                            \
    X(PLAYED, "scenarios")                                                                         \
    X(OF_FIVE, "with five lines")                                                                  \
    X(OF_THREE_DEVICES, "with three devices")                                                      \
    X(TRUE_S, "seconds of true time")                                                              \
    X(DEVICE_S, "seconds of devices")                                                              \
    X(POLLED_S, "of those that are polled")                                                        \
    X(BY_HAND_S, "of those that are ticked by hand")                                               \
    X(PASSES, "passes of time")                                                                    \
    X(PASSES_OF_S, "passes of seconds")                                                            \
    X(FAULTS_SET, "faults and repairs")                                                            \
    X(PULLED, "cables pulled")                                                                     \
    X(PLUGGED, "cables plugged in")                                                                \
    X(MADE_LATE, "lines made late")                                                                \
    X(BY_HAND, "pulses by hand")                                                                   \
    X(TICKED, "ticks by hand")                                                                     \
    X(RESTARTED, "restarts")                                                                       \
    X(ASKED, "stamps asked for")                                                                   \
    X(REPAIRED, "generators repaired")                                                             \
    X(SILENCED, "silent")                                                                          \
    X(STOPPED, "stuck")                                                                            \
    X(SKEWED, "skewed")                                                                            \
    X(NOT_PENDING, "without a pending leap")                                                       \
    X(PENDING, "with a false one")                                                                 \
    X(QUALIFIED, "of a quality")                                                                   \
    X(OFFSET_WRONG, "with a wrong offset")                                                         \
    X(PULSES, "pulses")                                                                            \
    X(TICKS, "ticks")                                                                              \
    X(TOLD, "seconds told")                                                                        \
    X(VOTED, "announced by a vote")                                                                \
    X(HELD, "announced in holdover")                                                               \
    X(ACQUIRED, "told while it acquires")                                                          \
    X(EXPIRED, "ends of a holdover")                                                               \
    X(GUARDED, "leap guards")                                                                      \
    X(JUMPED, "jumps")                                                                             \
    X(INSERTED, "inserted ones announced")                                                         \
    X(DELETED, "those behind a deleted one")                                                       \
    X(STAMPED, "stamps")                                                                           \
    X(UNSTAMPED, "instants without a stamp")                                                       \
    X(WRAPPED, "turns of counters")                                                                \
    X(LOST, "pulses that found their line busy")                                                   \
    X(UNTRUE, "lines untrue at a tick")                                                            \
    X(KEPT, "premises kept")                                                                       \
    X(FALSE_TABLE, "broken by a table")                                                            \
    X(DRIFTS, "broken by a drift")                                                                 \
    X(BROKEN, "broken at an edge")                                                                 \
    X(BROKEN_BY_GAP, "by a tick or a stamp that came too late")                                    \
    X(NO_DEVICE, "refused as 19")                                                                  \
    X(NO_GENERATOR, "refused as 20")                                                               \
    X(NO_SECOND, "refused as 22")                                                                  \
    X(TOO_LONG, "refused as 35")                                                                   \
    X(TOO_EARLY, "refused as 37")

#define COUNTER_OF(name, said) name,
enum { EACH_COUNTED(COUNTER_OF) COUNTED };

extern const char *const COUNTED_SAID[COUNTED];
extern uint64_t counts[COUNTED];

/* What may be wrong with a world, so that the test is tried. */
#define EACH_MISTAKE(X)                                                                            \
    X(NO_MISTAKE)                                                                                  \
    X(FORGETS_SOON)      /* the audit forgets a pulse after 1.0 s, */                              \
    X(FORGETS_SHARPLY)   /* or a microsecond too early */                                          \
    X(COUNTS_LATE)       /* a pulse that is 450 us late is true, */                                \
    X(COUNTS_VERY_LATE)  /* or one that is a millisecond late, */                                  \
    X(COUNTS_ANY_SYMBOL) /* or of another symbol, */                                               \
    X(COUNTS_TWO)        /* or a second one of its element */                                      \
    X(COUNTS_WIDE)       /* what is as wide as half a second is a pulse */                         \
    X(BELIEVES_SENT)     /* what is sent is true, */                                               \
    X(BELIEVES_PLAIN)    /* or what is sent without fault */                                       \
    X(LETS_ONE_MORE)     /* one line more may be untrue */                                         \
    X(IGNORES_DRIFT)     /* any counter is as its setting says */                                  \
    X(ASKS_FOR_TABLE)    /* a table is asked for whatever the holdover is, */                      \
    X(NEEDS_NO_TABLE)   /* or never */                                                            \
    X(LETS_GAPS)         /* a tick may come as late as it will */                                  \
    X(LETS_STAMPS)       /* or a stamp */                                                          \
    X(NAMES_NEXT_EDGE)   /* the edge of a broken premise is that at the end of its part */         \
    X(KEEPS_OLD_PULSES)  /* a restart does not forget what has ended before, */                    \
    X(FORGETS_FLIGHTS)   /* or forgets what is on its way */                                       \
    X(STAMPS_BEFORE)     /* a stamp is by the second before */                                     \
    X(BOUND_STAYS)       /* a bound does not grow in holdover */                                   \
    X(TICKS_BY_TIME)     /* a device waits by true time, and not by its counter, */                \
    X(PUTS_OFF_TICKS)    /* or for longer than 2 s */                                              \
    X(ROUNDS_UP)         /* a counter shows what comes next */                                     \
    X(FAULTS_AT_ONCE)    /* a fault within a second begins with that frame */                      \
    X(STICKS_BEFORE)     /* a generator that is stuck repeats the frame before */                  \
    X(TURNS_NEVER)       /* no frame says that daylight saving changes */                          \
    X(JOINS_PULSES)      /* a pulse that finds its line busy is in place of the other */           \
    X(LOSES_FLIGHTS)     /* a cable that is pulled loses what is on its way */                     \
    X(SENDS_FIRST)       /* at one time generators send before pulses end, */                      \
    X(TICKS_FIRST)       /* or ticks come before, */                                               \
    X(EVENTS_LAST)       /* or events come last */                                                 \
    X(RESTART_CLEARS)    /* a restart empties the lines, */                                        \
    X(RESTART_TICKS_ON)  /* or leaves the next tick where it is */                                 \
    X(POLLS_ON)          /* a tick by an event does not shift the next one */                      \
    X(CUTS_NOTHING)      /* a stretch of time is not cut at edges */

#define MISTAKE_OF(name) name,
typedef enum mistake { EACH_MISTAKE(MISTAKE_OF) MISTAKES } mistake;

extern const char *const MISTAKE_NAMES[MISTAKES];
extern mistake mistaken;

static inline bool has_mistake(mistake one) { return mistaken == one; }

/* Plays it all, and adds to the counts; then its log can be written. */
void play_plant(const plant *p);

/* ---- texts */

/* The lines of the scenario. */
void write_scenario(const plant *p, FILE *to);

/* The log that is expected, with all seconds or the announced ones alone. */
void write_log(const plant *p, bool has_all, FILE *to);

/* YYYY-MM-DDTHH:MM:SSZ and YYYY-MM-DD, in more room than they need. */
enum { TIME_LETTERS = 48 };
void put_time(char text[TIME_LETTERS], utc at);
void put_day(char text[TIME_LETTERS], int64_t day);

#endif
