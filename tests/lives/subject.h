/* What is tried: a timekeeper by its calls, as irig.h has them. */
#ifndef SUBJECT_H
#define SUBJECT_H

#include "irig.h"

typedef struct subject {
    const char *name;
    uint32_t (*begin)(const irig_setup *, const irig_table *, const irig_wires *, uint32_t now_us);
    uint8_t (*hear)(uint8_t line, uint32_t rise_us, uint32_t width_us);
    uint32_t (*tick)(uint32_t now_us, irig_second *);
    uint32_t (*wait)(uint32_t now_us);
    void (*restart)(void);
    uint32_t (*stamp)(uint32_t time_us, irig_stamp *); /* or null */
    uint32_t (*rate)(irig_rate *);                     /* or null */
    uint32_t (*line)(uint8_t line, irig_line_said *);  /* or null */
    void (*flip)(uint32_t bit); /* a bit of one that then begins afresh, or null */
    bool is_by_wait;            /* it has no other ticks */
    bool ticks_anyway;          /* if wait puts the tick off for long, though it has nothing to do */
} subject;

enum { DIFFERS = 200 }; /* what a subject answers where two have to answer alike, and do not */

/* What the design says, and what it is with one thing wrong. */
#define EACH_WRONG(X)                                                                              \
    X(NOTHING_WRONG)                                                                               \
    X(COUNTS_EARLY)    /* half a second behind its edge it counts the next one, with no vote */    \
    X(CALL_IS_EDGE)    /* the edge is when the tick came */                                        \
    X(COUNTS_TO_CALL)  /* it counts seconds up to the tick, and not to the lines' edge */          \
    X(ANY_CLAIM)       /* lines agree that end together, whatever they tell */                     \
    X(IGNORES_MARKS)   /* they agree whatever they tell of a leap */                               \
    X(EMPTIES_PORTS)   /* a tick empties a port in which a frame is being heard */                 \
    X(TAKES_STALE)     /* a frame is kept until the next one, over a turn of the counter too */    \
    X(ONE_IS_ENOUGH)   /* one line sets the edge, and has a vote */                                \
    X(AGREES_WIDELY)   /* ends agree that lie 2 ms further apart */                                \
    X(AGREES_SHORTLY)  /* those that lie as far apart as they may do not */                        \
    X(IGNORES_QUALITY) /* what a frame says of its clock is not in how far off its edge may be, */ \
    X(TAKES_WORST)     /* or all say the worst that has a vote */                                  \
    X(LEAVES_OUT_MORE) /* what ends a millisecond before others has no part in a vote */           \
    X(HAS_NO_PATIENCE) /* its own edge is counted before the lines', */                            \
    X(HAS_LESS_PATIENCE) /* or before those of clocks that are a millisecond off */                \
    X(MOVES_NEVER)     /* an edge of the lines behind its own tick is another second */            \
    X(MISSES_NONE)     /* seconds that no tick came for are one */                                 \
    X(FORGETS_FAST)    /* a frame is kept for 8 ms */                                              \
    X(FORGETS_CAUGHT)  /* the frame that is kept goes when the next one begins */                  \
    X(KEEPS_ENDS)      /* frames that had their vote have another one */                           \
    X(ROUNDS_LOW)      /* an edge 400 ms early is the next one */                                  \
    X(KEEPS_ITS_EDGE)  /* a restart does not forget the edge */                                    \
    X(HOLDS_LONG)      /* its holdover is longer than it is told */                                \
    X(WAITS_LONG)      /* it waits a millisecond too long */                                       \
    X(TAKES_AHEAD)     /* a tick need not wait for the edge on which lines agree */                \
    X(TAKES_EARLIEST)  /* the edge is the earliest end of all lines that lie within 11 ms */       \
    X(IDLES_NOT)       /* a line is never put out of step, however long it sends nothing */        \
    X(IDLES_BY_OTHERS) /* one is by a pulse of another line, too */                                \
    X(GUARDS_NOT)      /* a call whose time lies before the edge is one of a turn later */         \
    X(TAKES_FIRST)     /* the edge is the end of the first frame on which lines agree */           \
    X(BOUNDS_LITTLE)   /* its bound leaves out how far the ends lie apart, */                      \
    X(BOUNDS_STEADILY) /* or the drift in an element, */                                           \
    X(BOUNDS_FOREVER)  /* or that of the seconds since a vote */                                   \
    X(SERVES_ON)       /* what was announced before a jump is still stamped by, */                 \
    X(SERVES_MISSED)   /* or what was, behind which seconds were missed */                         \
    X(LEAVES_HOLES)    /* an event just before the edge told last may have no stamp */             \
    X(CUTS_NEVER)      /* what it knows by all votes is not cut by the next one, */                \
    X(KNOWS_THE_LAST)  /* or is forgotten at the next one, */                                      \
    X(KNOWS_STEADILY)  /* or does not grow by the drift */                                         \
    X(STRAYS_FOREVER)  /* or does not begin anew with a vote that contradicts it */                \
    X(HOLDS_IN_DOUBT)  /* it holds over behind votes that contradict one another */                \
    X(TRUSTS_COUNTER)  /* however long frames last, it trusts its counter */                       \
    X(LETS_UNEVEN)     /* a frame votes however long it lasts, */                                  \
    X(LETS_FEWER)      /* or one that is as short or long as it may be does not */                 \
    X(IGNORES_TABLE)   /* frames' word on a leap second goes before the table's */                 \
    X(KEEPS_DELAYS)    /* the delays of lines are not taken off */                                 \
    X(JUDGES_CLOSELY)  /* a line is apart from an edge by what the edge alone may be off, */       \
    X(JUDGES_ALIKE)    /* or by how exact lines are, whatever they say of their clocks, */         \
    X(JUDGES_BY_THE_LAST) /* or differs if its frame is of the edge before, */                     \
    X(JUDGES_UNKNOWN)  /* or of one that was not told */                                           \
    X(LEARNS_STEADILY) /* what it learns of its counter leaves out that this wanders, */           \
    X(LEARNS_BACKWARDS) /* or takes a fast counter for a slow one, */                              \
    X(LEARNS_SOON)     /* or is learned a second too soon, */                                      \
    X(LEARNS_LITTLE)   /* or if the drift says almost as much, */                                  \
    X(LEARNS_ON)       /* or is kept when votes contradict one another, or frames the counter, */  \
    X(LEARNS_LONG)     /* or when a holdover ends */                                               \
    X(HOLDS_SHARPLY)   /* a second that is held by it has a bound 1 us less, */                    \
    X(HOLDS_WHEN_SPENT) /* or it holds on where its edge could lie half a second off, */           \
    X(FORGETS_REST)    /* or its edge is cut to whole microseconds, and counted on from there, */  \
    X(COUNTS_MILLIONS) /* or it is one of all seconds of a million that were missed, */           \
    X(WALKS_UNSEEN)    /* or a vote is compared with the one before by the drift */

#define NUMBER_OF(wrong) wrong,
typedef enum wrong { EACH_WRONG(NUMBER_OF) WRONGS } wrong;

extern const char *const WRONG_NAMES[WRONGS];
extern wrong model_wrong;

/* The library's; it and the model, which have to answer alike; c/examples/capture.c and poll.c. */
extern const subject model_subject, library_subject, both_subject, capture_subject, poll_subject;

/* For poll_device.c, beside the library's. */
void flip_library(uint32_t bit);
bool are_alike(const irig_second *, const irig_second *);

#endif
