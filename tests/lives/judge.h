/* Judges what a timekeeper answers, by the world and by what the lines sent: without code of the
 * library, and without anything that the timekeeper says of itself but its reports. */
#ifndef JUDGE_H
#define JUDGE_H

#include "lines.h"
#include "subject.h"

/* What a line has sent. */
typedef struct sent {
    pulse last;
    bool is_any;        /* since the device began, or was restarted */
    uint64_t false_us;  /* when its last false pulse rose */
    uint32_t run_frame; /* the frame of the pulses that came last, from its first one on, */
    unsigned run;       /* and how many with nothing between; 0 none */
    int64_t whole;      /* the last frame that it sent whole, and that tells a claim */
} sent;

#define EACH_COUNTED(X)                                                                            \
    X(LIT, "seconds in which a line sends")                                                        \
    X(PULSES, "pulses")                                                                            \
    X(TICKS, "ticks")                                                                              \
    X(TOLD, "seconds told")                                                                        \
    X(VOTED, "announced by a vote")                                                                \
    X(HELD, "announced in holdover")                                                               \
    X(LEAPS, "inserted ones announced")                                                            \
    X(WHOLE, "seconds that had to have a vote")                                                    \
    X(MOVED, "of them, moved the edge")                                                            \
    X(STAMPS, "stamps")                                                                            \
    X(EXPIRED, "ends of a holdover")                                                               \
    X(GUARDED, "leap guards")                                                                      \
    X(ENDED, "ends of the range")                                                                  \
    X(AGREED, "of lines, agreed")                                                                  \
    X(APART, "apart")                                                                              \
    X(MEASURED, "rates of the counter")                                                            \
    X(LEARNED, "held by what was learned of it")

#define COUNTER_OF(name, said) name,
enum { EACH_COUNTED(COUNTER_OF) COUNTED };

extern const char *const COUNTED_SAID[COUNTED];

typedef struct judge {
    const world *world;
    const subject *subject;
    irig_setup setup;
    irig_table table;
    uint8_t lines;
    bool is_beyond;  /* more lines lie than may: order alone is judged, */
    bool is_overrun; /* or all, so that something is found */
    sent sent[MOST_LINES];
    uint64_t now_us; /* all that was told has ended by now */
    uint64_t tick_us, lit_us;
    uint32_t come;    /* the last edge that has come */
    bool has_told;    /* a second, since it began or was restarted: of the last one */
    uint64_t edge_us; /* its edge, */
    uint64_t before_us; /* that of the one before, if both announce, or the same, */
    bool is_row;        /* whether no second was missed between these, */
    uint32_t bound_us; /* how far off that may be, as it is told, */
    uint32_t strays;   /* how many votes contradicted others, as it is told, */
    irig_report report;
    int64_t announced; /* the last second announced, or -1 */
    int64_t voted;     /* the edge of the last second with a vote, or -1, */
    uint32_t voted_us; /* and its bound, or 0 if it is not told any more */
    uint32_t row;      /* seconds with a vote that followed one another */
    int64_t asked;     /* the last edge whose vote was asked for */
    int64_t moved;     /* the last such edge to which its own was moved instead, */
    uint32_t moves;    /* and how many there were since a second was told */
    bool is_failed;
    char text[240]; /* why */
    uint64_t counts[COUNTED];
    int64_t earliest, latest; /* edges of votes against the true ones, in us */
} judge;

void judge_begins(judge *j, uint64_t now_us);
void judge_restart(judge *j);

/* A pulse that is told once its end has reached the device, in order on its line, and before any later
 * tick. */
void judge_pulse(judge *j, uint8_t line, const pulse *p, uint64_t told_us);

/* What a tick answered. `is_due`: `wait` asked for it, and no frame has ended since. */
void judge_tick(judge *j, uint64_t now_us, uint32_t answer, const irig_second *s, bool is_due);

/* Time goes on, of a device that ticks as `wait` says. */
void judge_time(judge *j, uint64_t now_us);

/* What `wait` answered. */
void judge_wait(judge *j, uint32_t wait_us, bool is_behind_tick);

/* What a stamp of this time says, which lies some seconds off now at most. */
void judge_stamp(judge *j, uint64_t time_us);

void fail(judge *j, const char *form, ...);

#endif
