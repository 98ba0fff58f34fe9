/* irig.h: an IRIG-B codec, reader and timekeeper, for C99, C11 and C++11: proved on x86-64 and
 * aarch64, elsewhere only tested (docs/C.md).
 *
 * IRIG Standard 200-16, format B, code B004, with the control bits of IEEE 1344-1995. Link with
 * libirig (`make -C c`; docs/C.md). It asks for no memory, keeps nothing between calls, and needs
 * `memcpy`, `memmove` and `memset` of the C library and, of what compilers bring along, what
 * docs/C.md lists. A call takes less than 4 KB of stack.
 *
 * Pointers. A pointer must lead to one whole, aligned object that no other call reads or writes
 * meanwhile, and no two pointers of one call into the same object: also not into a part of it. A null
 * pointer is answered with IRIG_FAULT_VALUE; by `irig_has_parity` with no, by `irig_sync_pulse` and
 * `irig_timekeeper_wait` with 0, by `irig_reader_hear` and `irig_timekeeper_hear` with IRIG_NO_PORT;
 * and a call without an answer then does nothing. What a structure holds is no duty of the caller:
 * any numbers may lie in it, each call returns, and what is announced is a valid second. A reader or
 * a timekeeper of which anything but these calls changed one number is refused (`irig_reader`).
 *
 * Answers. 0 is done. Any other answer is the number of a fault, and nothing was changed, but that
 * the report of a refused tick is silent; those of a frame have more beside it: `IRIG_FAULT(answer)`
 * is the number, `IRIG_DETAIL(answer)` what it says beside, `irig_fault_text` what it means
 * (docs/FAULTS.md has all; `irig explain NUMBER` prints them). A number that has named values below
 * takes these alone, and any other is IRIG_FAULT_VALUE; but a symbol may be any byte.
 *
 * Threads and interrupts. Calls on different objects may run at the same time, and may interrupt
 * one another. Calls on one object must not: give the interrupts that call for one reader or one
 * timekeeper (its lines and its tick) one priority, or keep the others away meanwhile. No call
 * waits, locks, or turns interrupts off. Those of a single pulse are short (irig_reader_hear,
 * irig_timekeeper_hear, irig_reader_pulse, irig_sync_pulse, irig_sync_idle); those of a frame or an
 * edge take many times as long. docs/SAFETY.md bounds the instructions and the stack of each.
 *
 * Days are counted from 2000-01-01 as day 0; `sod` is the second of the day, and 86400 is 23:59:60.
 */
#ifndef IRIG_H
#define IRIG_H

#include <stdbool.h>
#include <stddef.h>
#include <stdint.h>

#ifdef __cplusplus
extern "C" {
#define IRIG_ASSERT(fact) static_assert(fact, "the layout that the library was built for")
#elif defined(__STDC_VERSION__) && (__STDC_VERSION__ >= 201112L)
#define IRIG_ASSERT(fact) _Static_assert(fact, "the layout that the library was built for")
#else /* C99 has no such word: an array of -1 is refused */
#define IRIG_ASSERT(fact) extern char irig_asserted[(fact) ? 1 : -1]
#endif

/* How many of something: 64 bits on every machine, as the library counts. */
#if SIZE_MAX > UINT32_MAX
typedef size_t irig_count;
#else
typedef uint64_t irig_count;
#endif
IRIG_ASSERT(sizeof(irig_count) == 8u);

/* The version that this header is of; irig_version() says that of the library. */
#define IRIG_VERSION_MAJOR 3
#define IRIG_VERSION_MINOR 0
#define IRIG_VERSION_PATCH 0
#define IRIG_VERSION "3.0.0"

/* The number of the layout: of the structures, and of what calls take and answer. The linker finds it
 * in the name of each call but irig_version, so that no program is linked with a library of another
 * layout. `undefined reference to irig_reader_init_layout_7` says that this header and the library
 * are of different ones: take both of one version, and compile all that includes the header. */
#define IRIG_LAYOUT 7
#define IRIG_JOINED(name, number) name##_layout_##number
#define IRIG_NAME(name, number) IRIG_JOINED(name, number)

/* ---- answers */

#define IRIG_FAULT(answer) ((answer) & 255u)
#define IRIG_DETAIL(answer) ((answer) >> 8)

enum {
    IRIG_DONE = 0,
    IRIG_FAULT_SHORT = 1,           /* fewer than 100 symbols; beside it, how many */
    IRIG_FAULT_LONG = 2,            /* more than 100 symbols */
    IRIG_FAULT_PULSE = 3,           /* a bad pulse; beside it, the element */
    IRIG_FAULT_MARKER = 4,          /* a marker for data, or data for a marker; the element */
    IRIG_FAULT_DIGIT = 5,           /* a decimal digit above 9; the field, IRIG_FIELD_SECOND .. */
    IRIG_FAULT_RANGE = 6,           /* a field out of its range; the field */
    IRIG_FAULT_NO_SUCH_DAY = 7,     /* day 366 of a year that has 365 */
    IRIG_FAULT_OUT_OF_YEARS = 8,    /* before 2000-01-02 or after 2099-12-30 */
    IRIG_FAULT_SECOND_60 = 9,       /* second 60 elsewhere than at the end of a month */
    IRIG_FAULT_DELETED_SECOND = 10, /* the second that the frame says is deleted */
    IRIG_FAULT_PARITY = 17,         /* not the parity of the setup */
    IRIG_FAULT_SBS = 18,            /* the straight binary seconds are another second's */
    IRIG_FAULT_VALUE = 26,          /* a value is out of its range, or there is no such port */
    IRIG_FAULT_TABLE_END = 31,      /* a table goes beyond 2099-12-30 */
    IRIG_FAULT_TABLE_LONG = 32,     /* a table with more than 64 leaps */
    IRIG_FAULT_TABLE_DAY = 33,      /* a leap on a day that is no month's last, or after `until` */
    IRIG_FAULT_TABLE_TWICE = 34,    /* a day is listed twice */
    IRIG_FAULT_DRIFT = 35,          /* a holdover longer than a timekeeper's counter can count */
    IRIG_FAULT_EARLY = 36           /* a second before the setup's `not_before` */
};

/* The field of IRIG_FAULT_DIGIT and IRIG_FAULT_RANGE. */
enum {
    IRIG_FIELD_SECOND = 0,
    IRIG_FIELD_MINUTE = 1,
    IRIG_FIELD_HOUR = 2,
    IRIG_FIELD_DAY = 3,
    IRIG_FIELD_YEAR = 4
};

/* ---- frames */

/* A symbol is a byte; any other than these counts as IRIG_SYMBOL_BAD. */
enum { IRIG_SYMBOL_ZERO = 0, IRIG_SYMBOL_ONE = 1, IRIG_SYMBOL_MARKER = 2, IRIG_SYMBOL_BAD = 3 };

/* What a frame codes. */
typedef struct irig_coded {
    uint8_t second;   /* 0 to 60; 60 is an inserted leap second */
    uint8_t minute;   /* 0 to 59 */
    uint8_t hour;     /* 0 to 23 */
    uint16_t day;     /* day of the year, 1 to 366 */
    uint8_t year;     /* of the century, 0 to 99, for 2000 to 2099 */
    uint32_t control; /* the 18 control bits, bit 0 from element 60 */
    uint32_t sbs;     /* the straight binary seconds, below 2^17 */
} irig_coded;
IRIG_ASSERT((sizeof(irig_coded) == 16u) && (offsetof(irig_coded, day) == 4u) &&
            (offsetof(irig_coded, year) == 6u) && (offsetof(irig_coded, control) == 8u) &&
            (offsetof(irig_coded, sbs) == 12u));

/* What control bits say. Of a flag 0 is no, any other yes. */
typedef struct irig_control {
    uint8_t leap_pending;
    uint8_t leap_delete; /* the pending leap second is deleted, not inserted */
    uint8_t dst_pending;
    uint8_t dst;
    int8_t offset_half_hours; /* -31 to 31 */
    uint8_t quality;          /* 0, locked, to 15, failed */
} irig_control;
IRIG_ASSERT(sizeof(irig_control) == 6u);

/* ---- seconds */

typedef struct irig_utc {
    uint32_t day; /* 1 to 36523, 2000-01-02 to 2099-12-30 */
    uint32_t sod; /* 0 to 86399; 86400 at the end of a month */
} irig_utc;
IRIG_ASSERT((sizeof(irig_utc) == 8u) && (offsetof(irig_utc, sod) == 4u));

/* What is said of the leap at the end of a day. */
enum { IRIG_MARK_UNSPOKEN = 0, IRIG_MARK_NO_LEAP = 1, IRIG_MARK_INSERT = 2, IRIG_MARK_DELETE = 3 };

typedef struct irig_claim {
    irig_utc at;  /* the second that begins with the frame */
    uint8_t mark; /* IRIG_MARK_UNSPOKEN but in seconds 1 to 59 of the last minute of a month */
} irig_claim;
IRIG_ASSERT((sizeof(irig_claim) == 12u) && (offsetof(irig_claim, mark) == 8u));

/* ---- readers */

enum { IRIG_PARITY_EVEN = 0, IRIG_PARITY_ODD = 1 };
enum { IRIG_SENSE_ADD = 0, IRIG_SENSE_SUBTRACT = 1 };
enum { IRIG_SBS_CHECK = 0, IRIG_SBS_IGNORE = 1 };
enum { IRIG_PORTS_THREE = 0, IRIG_PORTS_FIVE = 1, IRIG_PORTS_ONE = 2 };
enum { IRIG_LEAP_INSERT = 0, IRIG_LEAP_DELETE = 1 };

/* Of several ports a vote is what more than half of them tell. A reader of one port votes what that
 * port tells, so that it follows a clock that lies. docs/EXACTLY_WHEN.md says how to choose
 * `lock_after` and `holdover`. */
typedef struct irig_setup {
    uint8_t parity;     /* IRIG_PARITY_EVEN .. */
    uint8_t sense;      /* IRIG_SENSE_ADD: UTC is the coded time plus its offset; or minus it */
    uint8_t sbs;        /* IRIG_SBS_CHECK: the straight binary seconds are compared; or ignored */
    uint8_t redundancy; /* IRIG_PORTS_THREE .. */
    uint8_t lock_after; /* votes before it announces, 1 to 60 */
    uint32_t holdover;  /* edges without a vote at which it goes on, 0 to 1,000,000 */
    uint16_t not_before; /* the first day that a frame may claim, 36,523 at most: an earlier claim is
                          * IRIG_FAULT_EARLY. With the day of a firmware's making, no clock that
                          * sends no year has a vote and, for 19 years, none whose count of GPS
                          * weeks began anew */
    uint8_t poor_from;   /* the quality from which a frame has no vote. Of a reader it is 1 to 10, and
                          * 0 is 10. Of a timekeeper it is 1 to 8, and 0 is 7: by 7 a clock has none
                          * that says of itself that it may be 1 ms off, by 8 one that may be 10 ms;
                          * what those that have one say of themselves is in the bound of a vote */
} irig_setup;
IRIG_ASSERT((sizeof(irig_setup) == 16u) && (offsetof(irig_setup, holdover) == 8u) &&
            (offsetof(irig_setup, not_before) == 12u) && (offsetof(irig_setup, poor_from) == 14u));

typedef struct irig_leap {
    uint32_t day;  /* a month's last day */
    uint32_t kind; /* IRIG_LEAP_INSERT or IRIG_LEAP_DELETE */
} irig_leap;

/* All leaps at the ends of months up to the day `until`: at an end up to then that is not listed
 * there is none. A table of zeros says nothing. In a reader, what voted frames say of a day's end
 * overrides the table. In a timekeeper the table guards it: irig_timekeeper_tick. `tools/leaps`
 * prints the dates, and irig_second_read of a date's first second gives its day. */
typedef struct irig_table {
    uint32_t until; /* the last day of which it speaks */
    uint32_t len;   /* how many leaps count, 64 at most */
    irig_leap leaps[64];
} irig_table;
IRIG_ASSERT((sizeof(irig_table) == 520u) && (offsetof(irig_table, leaps) == 8u));

enum { IRIG_STATE_IDLE = 0, IRIG_STATE_ACQUIRING = 1, IRIG_STATE_LOCKED = 2 };

/* Where a reader stands between two edges. */
typedef struct irig_state {
    uint8_t kind;  /* IRIG_STATE_IDLE .. */
    uint8_t count; /* votes so far */
    uint8_t heard; /* IRIG_MARK_UNSPOKEN .. */
    uint32_t day;
    uint32_t sod;
    uint32_t age; /* edges since the last vote */
} irig_state;
IRIG_ASSERT((sizeof(irig_state) == 16u) && (offsetof(irig_state, day) == 4u));

/* What a port heard since the last edge: a bit for each symbol. */
typedef struct irig_tally {
    uint32_t count;     /* how many symbols, 101 at most */
    uint8_t wrong_kind;    /* 0 none, IRIG_FAULT_PULSE, or any other for IRIG_FAULT_MARKER */
    uint8_t wrong_element; /* the lowest wrong one */
    uint64_t time;    /* bit i is a one at element i, 0 to 59 */
    uint64_t control; /* bit i is a one at element 60 + i */
} irig_tally;
IRIG_ASSERT((sizeof(irig_tally) == 24u) && (offsetof(irig_tally, wrong_kind) == 4u) &&
            (offsetof(irig_tally, time) == 8u) && (offsetof(irig_tally, control) == 16u));

/* A reader. It may be copied, kept as its bytes, and taken up again by a machine of the same byte
 * order for which these assertions hold, with the same IRIG_LAYOUT: no field has that, so keep it
 * beside. Its fields are there to be looked at, between calls and not while one runs, as from another
 * task; the calls alone may change them. Compare two by their fields: what lies between these means
 * nothing. `check` is made of all numbers before it, and each call renews it. If any one number was
 * changed by anything else, the next tick, and each one after it, answers IRIG_FAULT_VALUE. */
typedef struct irig_reader {
    irig_setup setup;
    irig_table table;
    irig_state state;
    irig_tally ports[5]; /* those that it does not have are fed nothing */
    uint64_t check;
} irig_reader;
IRIG_ASSERT((sizeof(irig_reader) == 680u) && (offsetof(irig_reader, table) == 16u) &&
            (offsetof(irig_reader, state) == 536u) && (offsetof(irig_reader, ports) == 552u) &&
            (offsetof(irig_reader, check) == 672u));

/* Where a line stands in its frame: one for each line. It has no check word, so nothing tells if
 * anything else changes it. Whatever lies in it, on a line of true frames each pulse from the 101st
 * on has its place. */
typedef struct irig_sync {
    uint32_t rise_us;   /* the leading edge of its last pulse */
    uint8_t place;      /* of that pulse in its frame, 1 to 100; any other is out of step */
    uint8_t was_marker; /* 0 no; any other: that pulse was a marker, or the line is idle */
} irig_sync;
IRIG_ASSERT((sizeof(irig_sync) == 8u) && (offsetof(irig_sync, place) == 4u) &&
            (offsetof(irig_sync, was_marker) == 5u));

/* What irig_reader_hear answers if there is no such port; any place is below. */
enum { IRIG_NO_PORT = 255 };

enum {
    IRIG_LOCK_UNLOCKED = 0,
    IRIG_LOCK_ACQUIRING = 1,
    IRIG_LOCK_LOCKED = 2,
    IRIG_LOCK_HOLDOVER = 3
};
enum {
    IRIG_CAUSE_VOTED = 0,
    IRIG_CAUSE_HELD = 1,
    IRIG_CAUSE_ACQUIRING = 2,
    IRIG_CAUSE_NO_VOTE = 3,
    IRIG_CAUSE_EXPIRED = 4,
    IRIG_CAUSE_LEAP_GUARD = 5,
    IRIG_CAUSE_JUMP = 6,
    IRIG_CAUSE_RANGE_END = 7
};

/* What a reader says at an edge. Of `agreed`, `differed`, `faulty` and `poor` bit p is port p; a port
 * in none of them was silent. If `agreed` is 0, a port in `differed` need not lie. From `quality` to
 * `dst` it speaks of the second that was voted, the one before that which is announced, and says
 * nothing if nothing was voted: keep the last zone. irig_coded_of makes local time of a second and a
 * zone. Enough are two of three ports, three of five, one of one. */
typedef struct irig_report {
    uint8_t announces;       /* 1 if it announces the second that begins, 0 if it is silent */
    uint8_t lock;            /* IRIG_LOCK_UNLOCKED .. */
    uint8_t cause;           /* IRIG_CAUSE_VOTED .. */
    uint8_t agreed;          /* the ports that told the claim that was voted */
    uint32_t lock_count;     /* votes while acquiring, edges in holdover */
    uint32_t day;            /* the second, or zeros */
    uint32_t sod;
    uint8_t differed;        /* those that told another claim; any claim, if none was voted */
    uint8_t faulty;          /* those that told a fault */
    uint8_t poor;            /* those that told a quality that has no vote */
    uint8_t quality;         /* the worst of those that agreed, 0 to 9; 15 if nothing was voted */
    uint8_t has_local;       /* 1 if enough of those that agreed send one zone, else 0 to `dst` */
    int8_t local_half_hours; /* of this zone: local time minus UTC */
    uint8_t dst;             /* 1 if daylight saving is in force there, else 0 */
    uint8_t against_hold;    /* those that told another second than the one to which the reader had
                              * come, voted or not; 0 if it had nothing to go on, or missed a second */
} irig_report;
IRIG_ASSERT((sizeof(irig_report) == 24u) && (offsetof(irig_report, agreed) == 3u) &&
            (offsetof(irig_report, lock_count) == 4u) && (offsetof(irig_report, differed) == 16u) &&
            (offsetof(irig_report, quality) == 19u) && (offsetof(irig_report, dst) == 22u) &&
            (offsetof(irig_report, against_hold) == 23u));

enum { IRIG_TOLD_SILENCE = 0, IRIG_TOLD_FAULT = 1, IRIG_TOLD_POOR = 2, IRIG_TOLD_CLAIM = 3 };

/* What a port tells. */
typedef struct irig_told {
    uint8_t kind;     /* IRIG_TOLD_SILENCE .. */
    uint8_t quality;  /* `poor_from` to 15 of IRIG_TOLD_POOR, else 0 */
    uint32_t fault;   /* of IRIG_TOLD_FAULT, as a call answers it, else 0 */
    irig_claim claim; /* of IRIG_TOLD_CLAIM, else zeros */
} irig_told;
IRIG_ASSERT((sizeof(irig_told) == 20u) && (offsetof(irig_told, fault) == 4u) &&
            (offsetof(irig_told, claim) == 8u));

/* ---- timekeepers */

/* A timekeeper is a device that hears lines by its own free-running counter of microseconds, which
 * wraps at 2^32, and says which UTC second begins at which count. A tick may come at any time,
 * early, late, often or seldom, but at least once in 29 minutes.
 *
 * What is easily got wrong: a tick has to be told the time up to which pulses were told, and no
 * later one. While pulses wait in a queue, that is a time up to the end of the next one; after the
 * last of them it is the time at which the loop looked into the queue. Only the time that a tick is
 * told counts, not when it is called. So a loop that stood still ticks afterwards, between the
 * pulses, at each time that irig_timekeeper_wait names or each 95 ms, and misses no second
 * (c/examples/poll.c). It leaves out a time that lies before the one told last
 * (`t - told > UINT32_MAX / 2`). Otherwise the timekeeper counts on through 71 minutes that have
 * not been. If ticks run ahead of pulses by more than 4 ms, seconds may be counted by the counter
 * alone, which `moved` and `missed` show if it happens again and again; if by some 100 ms, nothing
 * is ever voted. After sleep, or if the counter stood still or was set, call
 * irig_timekeeper_restart. */

/* How exact a timekeeper's lines and its counter are. What it tells is as exact as these
 * (irig_timekeeper_tick). A line whose pulses are further off counts as untrue. docs/EXACTNESS.md
 * says how to choose the numbers. */
typedef struct irig_wires {
    uint16_t within_us; /* 1 to 450: each pulse of a true line rises less than so many us from its
                         * place by the counter. That of pulse k, 0 to 99, lies k hundredths of the
                         * way from the edge at which its frame begins to the next */
    uint16_t drift_us;  /* 0 to 100: the most us by which the counter is wrong in a second */
    int16_t delay_us[5]; /* -4,000 to 4,000: how many us later each line's pulses rise here than at
                          * its clock, by a cable, a converter or an input; below 0 if they rise
                          * earlier. It is taken off, so that a constant delay does not make a line
                          * untrue */
    uint8_t prefers_frames; /* 0: where the lines and the table lead to different seconds at a
                             * month's end, none is announced (IRIG_CAUSE_LEAP_GUARD). Any other:
                             * what the lines say is followed */
    uint32_t wander_ppb; /* 0 to 100,000: how many ns the length of one second by the oscillator,
                          * before the counter cuts it to microseconds, may differ from that of any
                          * other one that lies no more than the holdover and 4,000 s from it
                          * (docs/COUNTER.md). By 0 nothing is learned of the counter */
} irig_wires;
IRIG_ASSERT((sizeof(irig_wires) == 20u) && (offsetof(irig_wires, drift_us) == 2u) &&
            (offsetof(irig_wires, delay_us) == 4u) &&
            (offsetof(irig_wires, prefers_frames) == 14u) &&
            (offsetof(irig_wires, wander_ppb) == 16u));

/* A line of a timekeeper. */
typedef struct irig_line {
    irig_sync sync;     /* where it stands in its frame */
    irig_tally port;    /* what it heard of its frame */
    irig_tally frame;   /* its last whole frame */
    uint32_t begin_us;  /* when the frame begins in which it stands, by the counter */
    uint32_t end_us;    /* when its last whole frame ends, by the counter */
    uint8_t is_uneven;  /* 0 if the first and the last pulse of that rose 990 ms apart */
    uint8_t has_frame;  /* 0 if that was taken, or is late */
    uint8_t is_seen;    /* 0 if that is more than 1.5 s old */
    uint8_t is_heard;   /* 0 if no pulse came within a second */
} irig_line;
IRIG_ASSERT((sizeof(irig_line) == 72u) && (offsetof(irig_line, port) == 8u) &&
            (offsetof(irig_line, frame) == 32u) && (offsetof(irig_line, begin_us) == 56u) &&
            (offsetof(irig_line, end_us) == 60u) && (offsetof(irig_line, is_uneven) == 64u) &&
            (offsetof(irig_line, is_heard) == 67u));

/* A second that was announced. */
typedef struct irig_announced {
    uint32_t day;
    uint32_t sod;
    uint32_t edge_us;  /* when it begins, by the counter */
    uint32_t bound_us; /* how many us from its true edge that may lie */
    uint8_t is_told;   /* 0 if there is none */
} irig_announced;
IRIG_ASSERT((sizeof(irig_announced) == 20u) && (offsetof(irig_announced, is_told) == 16u));

/* The interval in which the true edge of a voted second lay: from there the length of a second is
 * measured. */
typedef struct irig_anchor {
    uint32_t begin_us; /* when it begins, by the counter */
    uint32_t long_us;  /* how many us long it is */
    uint32_t seconds;  /* the seconds that were counted since, 2,000 at most */
} irig_anchor;
IRIG_ASSERT((sizeof(irig_anchor) == 12u) && (offsetof(irig_anchor, seconds) == 8u));

typedef struct irig_anchors {
    irig_anchor old;   /* the one that serves, of 1,000 seconds ago or more */
    irig_anchor young; /* the one that takes its place, and serves as long as there is no old one */
    uint8_t has_old;   /* 0 if there is none */
    uint8_t has_young; /* 0 if there is none */
} irig_anchors;
IRIG_ASSERT((sizeof(irig_anchors) == 28u) && (offsetof(irig_anchors, young) == 12u) &&
            (offsetof(irig_anchors, has_old) == 24u) && (offsetof(irig_anchors, has_young) == 25u));

/* How long the next seconds are by the counter, as votes have taught it. */
typedef struct irig_pace {
    uint32_t second_ns; /* in ns of the counter. 0 if nothing is learned */
    uint32_t within_ns; /* how much longer or shorter than that one may be */
    uint32_t rest_ns;   /* how far behind its us the last edge lies that was counted, 0 to 999 */
} irig_pace;
IRIG_ASSERT((sizeof(irig_pace) == 12u) && (offsetof(irig_pace, rest_ns) == 8u));

/* A timekeeper. All that is said of an irig_reader is true of it: its fields are there to be looked
 * at between calls, it may be copied and kept, and `check` is made of all numbers before it. */
typedef struct irig_timekeeper {
    irig_setup setup;
    irig_table table;
    irig_state state;
    irig_line lines[5];    /* those that it does not have hear nothing */
    irig_wires wires;      /* how exact they are, and its counter */
    uint32_t edge_us;      /* when the last second began that was counted */
    uint32_t moved;        /* how often lines moved that edge since */
    uint8_t has_edge;      /* 0 if none was counted */
    uint8_t has_interval;  /* 0 if there is no such interval as begins at `begin_us` */
    uint16_t bound_us;     /* how many us the edge of the last vote may lie from the true one,
                            * 2,899 at most */
    irig_announced last;   /* that second, if it was announced */
    irig_announced before; /* the one counted before it, if it was */
    irig_announced ended;  /* the second that ended at the last edge, if it was voted or held */
    irig_announced ended_before; /* the one that ended at the edge before, if that was told */
    uint32_t begin_us;     /* where the interval begins in which the true edge lies by all votes, */
    uint32_t long_us;      /* and how long it is, 980,000 at most */
    uint32_t strays;       /* how many votes contradicted those before them */
    uint32_t doubt;        /* seconds to be voted yet before one is held again */
    irig_anchors anchors;  /* from where the length of a second is measured */
    irig_pace pace;        /* what is learned of it: by that seconds are held over */
    uint64_t check;
} irig_timekeeper;
IRIG_ASSERT((sizeof(irig_timekeeper) == 1088u) && (offsetof(irig_timekeeper, state) == 536u) &&
            (offsetof(irig_timekeeper, lines) == 552u) &&
            (offsetof(irig_timekeeper, wires) == 912u) &&
            (offsetof(irig_timekeeper, has_edge) == 940u) &&
            (offsetof(irig_timekeeper, has_interval) == 941u) &&
            (offsetof(irig_timekeeper, bound_us) == 942u) &&
            (offsetof(irig_timekeeper, last) == 944u) &&
            (offsetof(irig_timekeeper, before) == 964u) &&
            (offsetof(irig_timekeeper, ended) == 984u) &&
            (offsetof(irig_timekeeper, begin_us) == 1024u) &&
            (offsetof(irig_timekeeper, doubt) == 1036u) &&
            (offsetof(irig_timekeeper, anchors) == 1040u) &&
            (offsetof(irig_timekeeper, pace) == 1068u) &&
            (offsetof(irig_timekeeper, check) == 1080u));

/* What each line of a timekeeper is: bit p of a mask is line p. Each line is in exactly one. */
typedef struct irig_masks {
    uint8_t agreed;   /* they claim the second that ended at the told edge, and end there */
    uint8_t apart;    /* they claim it, but end further from that edge than a true line's frame can */
    uint8_t differed; /* they claim another second */
    uint8_t faulty;   /* their last frame is at fault, or does not last as long as a frame does */
    uint8_t poor;     /* their clock is too inexact to vote, as it says itself */
    uint8_t broken;   /* pulses come, but no whole frame came within 1.5 s */
    uint8_t silent;   /* no pulse came within a second */
    uint8_t unjudged; /* they claim a second, and none is told yet to which it could be compared */
} irig_masks;
IRIG_ASSERT((sizeof(irig_masks) == 8u) && (offsetof(irig_masks, unjudged) == 7u));

/* What a tick of a timekeeper says. */
typedef struct irig_second {
    uint8_t is_told;    /* 1 if a second was counted; 0 if there is nothing to tell, then all zeros */
    uint8_t against_table; /* 1 if the lines that have the vote speak of a leap at the end of their
                            * day, and the table says otherwise; else 0 */
    uint32_t edge_us;   /* when it begins by the counter, never ahead of the tick */
    uint32_t bound_us;  /* how many us from its true edge that may lie, if the second is announced:
                         * what irig_timekeeper_tick says, 492,899 at most */
    uint32_t missed;    /* seconds that passed untold before it, as no tick came */
    uint32_t moved;     /* how often lines moved the edge since the second that was told before */
    uint32_t strays;    /* how many votes contradicted those before them, since the timekeeper was
                         * made or restarted. Above 0 something is not as it was set up
                         * (irig_timekeeper_tick) */
    uint32_t doubt;     /* how many seconds have to be voted yet before one is held again: until
                         * then a second with the cause IRIG_CAUSE_HELD is not announced */
    irig_masks lines;   /* what each line is */
    irig_report report; /* masks, quality and zone by the frames that could vote at this edge */
} irig_second;
IRIG_ASSERT((sizeof(irig_second) == 60u) && (offsetof(irig_second, against_table) == 1u) &&
            (offsetof(irig_second, edge_us) == 4u) &&
            (offsetof(irig_second, bound_us) == 8u) && (offsetof(irig_second, strays) == 20u) &&
            (offsetof(irig_second, doubt) == 24u) && (offsetof(irig_second, lines) == 28u) &&
            (offsetof(irig_second, report) == 36u));

/* What a line is, by a number. */
enum {
    IRIG_LINE_SILENT = 0,   /* no pulse came within a second */
    IRIG_LINE_BROKEN = 1,   /* pulses come, but no whole frame came within 1.5 s */
    IRIG_LINE_FAULTY = 2,   /* its last frame is at fault: `told` says which */
    IRIG_LINE_UNEVEN = 3,   /* that claims a second, but its first and last pulse did not rise 990 ms
                             * apart: it has no vote */
    IRIG_LINE_POOR = 4,     /* its clock is too inexact to vote, as it says itself */
    IRIG_LINE_UNJUDGED = 5, /* it claims a second, and none is told yet to compare it with */
    IRIG_LINE_AGREED = 6,   /* it claims the second that ended at the told edge, and ends there */
    IRIG_LINE_APART = 7,    /* it claims it, but ends further off than a true line's frame of its
                             * quality */
    IRIG_LINE_DIFFERED = 8  /* it claims another second */
};

/* What is said of a line of a timekeeper. */
typedef struct irig_line_said {
    uint8_t state;   /* IRIG_LINE_SILENT .. */
    irig_told told;  /* what its last whole frame tells, silence if there is none within 1.5 s */
    uint32_t end_us; /* when that frame ends, by the counter, or 0 */
    int32_t off_us;  /* how many us after the told edge at which its second ended, or below 0 before
                      * it. As long as no edge was told: how long after the end of the first other
                      * line's frame of that second. 0 if there is neither within two seconds, as
                      * between a frame's last pulse and the tick at its edge */
} irig_line_said;
IRIG_ASSERT((sizeof(irig_line_said) == 32u) && (offsetof(irig_line_said, told) == 4u) &&
            (offsetof(irig_line_said, end_us) == 24u) && (offsetof(irig_line_said, off_us) == 28u));

/* The time of an event: a second, and how long after its beginning the event came. As the told
 * edges of this second and of the next one may be off by their bounds, the offset may reach
 * 1,000,000 and more, though less than 1,500,000: so do not print it as a decimal fraction of the
 * second. */
typedef struct irig_stamp {
    uint32_t day;
    uint32_t sod;
    uint32_t offset_us; /* from where the second begins to the event, by the counter */
    uint32_t bound_us;  /* how far from the true instant the two may lie, by the counter: that of the
                         * second's edge, 492,899 at most */
} irig_stamp;
IRIG_ASSERT((sizeof(irig_stamp) == 16u) && (offsetof(irig_stamp, bound_us) == 12u));

/* How long a second is by the device's own counter: the mean of the last `seconds`, up to the one
 * counted last. It is 1,000,000,000 ns by a perfect counter, and 1,000,037,000 ns by one that is 37
 * ppm fast (docs/COUNTER.md). */
typedef struct irig_rate {
    uint32_t seconds;  /* of how many seconds it is the mean, 1 to 2,000 */
    uint32_t least_ns; /* what it is at least, in nanoseconds of the counter */
    uint32_t most_ns;  /* what it is at most */
} irig_rate;
IRIG_ASSERT((sizeof(irig_rate) == 12u) && (offsetof(irig_rate, most_ns) == 8u));

/* ---- calls */

/* Their names for the linker. */
#define irig_fault_name IRIG_NAME(irig_fault_name, IRIG_LAYOUT)
#define irig_fault_text IRIG_NAME(irig_fault_text, IRIG_LAYOUT)
#define irig_lock_name IRIG_NAME(irig_lock_name, IRIG_LAYOUT)
#define irig_lock_text IRIG_NAME(irig_lock_text, IRIG_LAYOUT)
#define irig_cause_name IRIG_NAME(irig_cause_name, IRIG_LAYOUT)
#define irig_cause_text IRIG_NAME(irig_cause_text, IRIG_LAYOUT)
#define irig_classify IRIG_NAME(irig_classify, IRIG_LAYOUT)
#define irig_width_us IRIG_NAME(irig_width_us, IRIG_LAYOUT)
#define irig_widths_us IRIG_NAME(irig_widths_us, IRIG_LAYOUT)
#define irig_frame_of IRIG_NAME(irig_frame_of, IRIG_LAYOUT)
#define irig_encode IRIG_NAME(irig_encode, IRIG_LAYOUT)
#define irig_decode IRIG_NAME(irig_decode, IRIG_LAYOUT)
#define irig_has_parity IRIG_NAME(irig_has_parity, IRIG_LAYOUT)
#define irig_set_parity IRIG_NAME(irig_set_parity, IRIG_LAYOUT)
#define irig_control_pack IRIG_NAME(irig_control_pack, IRIG_LAYOUT)
#define irig_control_unpack IRIG_NAME(irig_control_unpack, IRIG_LAYOUT)
#define irig_second_next IRIG_NAME(irig_second_next, IRIG_LAYOUT)
#define irig_second_write IRIG_NAME(irig_second_write, IRIG_LAYOUT)
#define irig_second_read IRIG_NAME(irig_second_read, IRIG_LAYOUT)
#define irig_coded_of IRIG_NAME(irig_coded_of, IRIG_LAYOUT)
#define irig_claim_of IRIG_NAME(irig_claim_of, IRIG_LAYOUT)
#define irig_reader_init IRIG_NAME(irig_reader_init, IRIG_LAYOUT)
#define irig_reader_pulse IRIG_NAME(irig_reader_pulse, IRIG_LAYOUT)
#define irig_reader_pulses IRIG_NAME(irig_reader_pulses, IRIG_LAYOUT)
#define irig_sync_init IRIG_NAME(irig_sync_init, IRIG_LAYOUT)
#define irig_sync_pulse IRIG_NAME(irig_sync_pulse, IRIG_LAYOUT)
#define irig_sync_idle IRIG_NAME(irig_sync_idle, IRIG_LAYOUT)
#define irig_reader_hear IRIG_NAME(irig_reader_hear, IRIG_LAYOUT)
#define irig_reader_tick IRIG_NAME(irig_reader_tick, IRIG_LAYOUT)
#define irig_reader_restart IRIG_NAME(irig_reader_restart, IRIG_LAYOUT)
#define irig_reader_port IRIG_NAME(irig_reader_port, IRIG_LAYOUT)
#define irig_timekeeper_init IRIG_NAME(irig_timekeeper_init, IRIG_LAYOUT)
#define irig_timekeeper_hear IRIG_NAME(irig_timekeeper_hear, IRIG_LAYOUT)
#define irig_timekeeper_tick IRIG_NAME(irig_timekeeper_tick, IRIG_LAYOUT)
#define irig_timekeeper_wait IRIG_NAME(irig_timekeeper_wait, IRIG_LAYOUT)
#define irig_timekeeper_stamp IRIG_NAME(irig_timekeeper_stamp, IRIG_LAYOUT)
#define irig_timekeeper_rate IRIG_NAME(irig_timekeeper_rate, IRIG_LAYOUT)
#define irig_timekeeper_line IRIG_NAME(irig_timekeeper_line, IRIG_LAYOUT)
#define irig_timekeeper_restart IRIG_NAME(irig_timekeeper_restart, IRIG_LAYOUT)
#define irig_quality_of IRIG_NAME(irig_quality_of, IRIG_LAYOUT)

/* The version of the library, as IRIG_VERSION. */
const char *irig_version(void);

/* The name of an answer's fault, as a log has it (`Pulse`), and what it means. These texts and
 * those below are never null, and stay as they are; that of a number that is none is empty. */
const char *irig_fault_name(uint32_t answer);
const char *irig_fault_text(uint32_t answer);

/* The word of a log for a lock (`holdover`) and for a cause (`no-vote`), and what they mean. */
const char *irig_lock_name(uint8_t lock);
const char *irig_lock_text(uint8_t lock);
const char *irig_cause_name(uint8_t cause);
const char *irig_cause_text(uint8_t cause);

/* The symbol of a pulse of this width in microseconds. */
uint8_t irig_classify(uint32_t width_us);

/* The nominal width in microseconds of a symbol's pulse: 2000, 5000 or 8000. 0 of a bad pulse and
 * of any number above it. */
uint32_t irig_width_us(uint8_t symbol);

/* Gives the nominal width of each symbol, 0 of a bad one. */
void irig_widths_us(const uint8_t symbols[100], uint32_t widths_us[100]);

/* Makes the frame of a second in a zone, -31 to 31 half hours from UTC, with these control bits and
 * this parity: what irig_coded_of, irig_control_pack, irig_encode and irig_set_parity make in four
 * calls. The offset of the control bits is the caller's: of a clock 5:30 ahead of UTC it is -11 if it
 * is to be added, and 11 if subtracted. IRIG_FAULT_VALUE. */
uint32_t irig_frame_of(const irig_utc *second, int8_t local_half_hours, const irig_control *control,
                       uint8_t parity, uint8_t symbols[100]);

/* Writes the frame of a coded time, the elements without a field 0. IRIG_FAULT_VALUE. */
uint32_t irig_encode(const irig_coded *coded, uint8_t symbols[100]);

/* Reads `count` symbols as a frame. IRIG_FAULT_SHORT to IRIG_FAULT_RANGE, the first that applies;
 * parity and straight binary seconds are not compared. IRIG_FAULT_VALUE of null pointers alone. */
uint32_t irig_decode(const uint8_t *symbols, irig_count count, irig_coded *coded);

/* Whether the ones at elements 1 to 75 have the parity. No, if it is none. */
bool irig_has_parity(const uint8_t symbols[100], uint8_t parity);

/* Gives them the parity, by element 75. IRIG_FAULT_VALUE. */
uint32_t irig_set_parity(uint8_t symbols[100], uint8_t parity);

/* Makes the number of the control bits. IRIG_FAULT_VALUE. */
uint32_t irig_control_pack(const irig_control *control, uint32_t *word);

/* Says what a number below 2^18 of control bits means. IRIG_FAULT_VALUE. */
uint32_t irig_control_unpack(uint32_t word, irig_control *control);

/* Gives the second after a second, by what is said of the leap. IRIG_FAULT_VALUE, also if none is
 * known to follow. */
uint32_t irig_second_next(const irig_utc *second, uint8_t mark, irig_utc *following);

/* Writes YYYY-MM-DDTHH:MM:SSZ, 20 characters and no 0 behind them. IRIG_FAULT_VALUE. */
uint32_t irig_second_write(const irig_utc *second, char text[20]);

/* Reads such a text of `count` characters. IRIG_FAULT_VALUE. */
uint32_t irig_second_read(const char *text, irig_count count, irig_utc *second);

/* Gives the coded time of a second, -31 to 31 half hours from UTC, control bits 0.
 * IRIG_FAULT_VALUE. */
uint32_t irig_coded_of(const irig_utc *second, int8_t local_half_hours, irig_coded *coded);

/* Says which second a coded time claims with these control bits. IRIG_FAULT_VALUE,
 * IRIG_FAULT_NO_SUCH_DAY to IRIG_FAULT_DELETED_SECOND. */
uint32_t irig_claim_of(const irig_coded *coded, const irig_control *control, uint8_t sense,
                       irig_claim *claim);

/* Makes a reader to which nothing has happened. Setup and table must not be those in the reader: to
 * begin afresh keep both elsewhere. IRIG_FAULT_VALUE, IRIG_FAULT_TABLE_END to
 * IRIG_FAULT_TABLE_TWICE. */
uint32_t irig_reader_init(irig_reader *reader, const irig_setup *setup, const irig_table *table);

/* A pulse at port 0 to 2 of three, 0 to 4 of five, 0 of one. IRIG_FAULT_VALUE. */
uint32_t irig_reader_pulse(irig_reader *reader, uint8_t port, uint32_t width_us);

/* Pulses at a port, one after another, as many as `count` says. IRIG_FAULT_VALUE. */
uint32_t irig_reader_pulses(irig_reader *reader, uint8_t port, const uint32_t *widths_us,
                            irig_count count);

/* Begins with a line on which nothing came. */
void irig_sync_init(irig_sync *sync);

/* The place in its frame of the next pulse of a line, once it has ended:
 *
 *     0           out of step: it belongs to no frame that is known
 *     1           the first of a frame, element 0: it rose at a second's edge, and is too late for
 *                 the tick of that edge, since irig_reader_hear has emptied the port. Take 100
 *     2 to 99
 *     100         the last, element 99: an edge comes 10 ms after it rose. A reader's tick belongs
 *                 after this pulse of all lines that come (docs/WIRES.md)
 *
 * `rise_us` is the time of its leading edge, by a clock of microseconds that wraps at 2^32, and
 * `width_us` its width. A pulse is on time if it rises 9,000 to 10,999 us after the one before. A
 * marker that comes after a marker, or not on time, is the first of a frame, and so is a pulse on
 * time after the hundredth. Any other pulse that is not on time (after a lost one, a glitch) is out
 * of step, and so are those after it until a frame begins. */
uint8_t irig_sync_pulse(irig_sync *sync, uint32_t rise_us, uint32_t width_us);

/* Puts a line out of step that has been idle for a second. To be called at each tick, before or after
 * it, and at least once in half an hour: without it a pulse that comes 71 minutes late could be taken
 * for one on time, since the clock wraps. */
void irig_sync_idle(irig_sync *sync, uint32_t now_us);

/* A pulse of the line at a port, 0 to 2 of three, 0 to 4 of five, 0 of one: its place, as
 * irig_sync_pulse answers it. The port is emptied where a frame begins, and fed what has a place; so
 * what it claims at a tick is carried by the last hundred pulses in step before it, each on time
 * after the one before. IRIG_NO_PORT. Calls for several lines of one reader, and its tick, must not
 * interrupt one another. docs/WIRES.md says when to tick, and what a fault on the line does. */
uint8_t irig_reader_hear(irig_reader *reader, irig_sync *sync, uint8_t port, uint32_t rise_us,
                         uint32_t width_us);

/* An edge: what the reader says by what its ports heard; they are then empty. IRIG_FAULT_VALUE if
 * its numbers are none that these calls leave behind: the check word is not that of the others, the
 * second at which it stands is none, its votes are too many, or a number is out of its range. Then
 * the report is silent, and irig_reader_init begins afresh.
 *
 * If it answers 0, a second that is announced with the cause IRIG_CAUSE_VOTED is the true one,
 * provided that the tick comes as that second begins and no two of three ports (three of five; not
 * the one port) then tell one and the same wrong time or leap. Nothing of the past is needed for
 * that, and any numbers may lie in the reader. In a reader that irig_reader_init made, a second
 * with the cause IRIG_CAUSE_HELD is true if the last vote was, each second since was one tick, and
 * the table is right, which up to a `holdover` of 57 it need not be; that vote lies `lock_count`
 * ticks back. So call it exactly once for each second. */
uint32_t irig_reader_tick(irig_reader *reader, irig_report *report);

/* Clears the ports, and forgets what was voted. A reader that a tick refuses stays so. */
void irig_reader_restart(irig_reader *reader);

/* Says what a port would tell if the edge came now. IRIG_FAULT_VALUE, also if a number of the setup
 * is none. It does not test the check word. */
uint32_t irig_reader_port(const irig_reader *reader, uint8_t port, irig_told *told);

/* Makes a timekeeper to which nothing has happened, with such wires. Setup, table and wires must not
 * be those in it. IRIG_FAULT_VALUE, also if `poor_from` is above 8, or a number of the wires is out
 * of its range; IRIG_FAULT_TABLE_END to IRIG_FAULT_TABLE_TWICE; IRIG_FAULT_DRIFT if
 * (holdover + 2) * drift_us is above 490,000 and `wander_ppb` is 0, as the counter could be half a
 * second wrong by then. At 100 us a holdover may be 4,898 seconds, at 10 us 48,998, at 1 us 489,998.
 * By a `wander_ppb` above 0 it may be any: it ends by itself before that (docs/COUNTER.md). */
uint32_t irig_timekeeper_init(irig_timekeeper *timekeeper, const irig_setup *setup,
                              const irig_table *table, const irig_wires *wires);

/* A pulse on a line, once it has ended: its place, as irig_sync_pulse answers it. Lines are 0 to 2
 * of three, 0 to 4 of five, 0 of one. Each line's pulses are told in order, and each before any
 * tick of half a second or more after it rose. The line's `delay_us` is taken off `rise_us` here;
 * what is said elsewhere of when a pulse rose is said of that time. A width of 500,000 us or more
 * is no pulse, since the line is stuck: then the answer is 0, and nothing changes. IRIG_NO_PORT.
 * After a place of 100 there may be less to wait: ask irig_timekeeper_wait again. */
uint8_t irig_timekeeper_hear(irig_timekeeper *timekeeper, uint8_t line, uint32_t rise_us,
                             uint32_t width_us);

/* Says which second begins, if one has begun since the last call. The edge of a true line lies at
 * most within_us - 1 from the end of its frame, and as much more as the frame says by its time
 * quality that its clock may be off: 0 us by quality 0, 1 by 1 to 4, 10 by 5, 100 by 6 and 1,000 by
 * 7. Frames have the vote if enough of them claim one second and these intervals have a time in
 * common. If there is no vote, the counter alone counts a second, 6 ms after its edge. `now_us` is
 * the time up to which pulses were told (above): it is not before the last tick's, nor more than
 * 4 ms before the rise of a pulse that was told. IRIG_FAULT_VALUE as irig_reader_tick answers it;
 * then the second is silent, and irig_timekeeper_init begins afresh.
 *
 * The edge that a vote tells lies in the middle between two times: that from which on the intervals
 * of enough frames of that claim begin, and that by which enough end (docs/EXACTNESS.md). A call
 * takes the vote from that edge on, for 94 ms at least. `bound_us` is half the distance between
 * these two times, rounded up, and 1 more if drift_us is not 0. By clocks of one quality, and with
 * a drift, it is within_us and what the quality says, if all lines claim that second and none ends
 * more than 3 ms before the others, since then both times are by the middle one of their ends.
 * Otherwise it may be almost twice as much. So by clocks that say quality 0 it is 450 to 899 at a
 * within_us of 450, and 10 to 19 at 10. At 450 it is 1,099 at most by clocks of any quality below
 * 7, and 2,899 at most with a `poor_from` of 8.
 *
 * If it answers 0, a second that is announced with the cause IRIG_CAUSE_VOTED is the true one, and
 * its true edge lies no more than `bound_us` from `edge_us`, provided that the counter is at most
 * `drift_us` a second wrong, no two of three lines (three of five; not the one line) were untrue in
 * the last 1.2 s, and each line that keeps a frame has heard it. That holds whenever the call
 * comes, whatever came before, and whatever other numbers lie in the timekeeper.
 *
 * In a timekeeper that irig_timekeeper_init made, a second with the cause IRIG_CAUSE_HELD is true
 * too, if at each tick since then, or since the last irig_timekeeper_restart, no two of three lines
 * (three of five; not the one line) were untrue in the last 1.2 s, the counter is as steady as
 * `drift_us` says and, if that is above 0, `wander_ppb`, calls were in order, and the table is
 * right, which it need not be at a `holdover` of up to 57. Its `bound_us` is that of the last vote,
 * and `drift_us` more for each of `lock_count` seconds, or less once the counter is learned, and
 * never above 492,899: a holdover ends before that, with the cause IRIG_CAUSE_EXPIRED. Its true edge
 * lies no further than that from `edge_us`. On these conditions each second that is announced is later than the one before, and no cause is IRIG_CAUSE_JUMP.
 *
 * If lines were untrue before, and `wander_ppb` is 0, all this holds again once a tick has told a second with
 * `report.agreed` above 0, provided that no two of three lines were untrue at that tick and at each
 * later one. That tick itself may have the cause IRIG_CAUSE_JUMP, or tell a second that is not
 * later than a false one before it.
 *
 * The last two paragraphs hold, too, if a line counts as true whose clock is off UTC, but by no
 * more than the time quality of its frames says. If `wander_ppb` is 0, they do if one counts as
 * true that had one fault of any kind in each hundred pulses (docs/WIRES.md): edges may then lie
 * 2 * (within_us - 1) + 2 * drift_us further off than `bound_us`, which is less than 1.1 ms.
 * Whatever lines carry, told edges lie at least half a second apart if calls were in order.
 * docs/WIRES.md also says when it announces.
 *
 * Where the frames and the table lead to different seconds at a month's end, none is announced
 * there, with the cause IRIG_CAUSE_LEAP_GUARD, unless the wires prefer frames. `against_table` is 1
 * at each vote that contradicts the table on how the month ends (docs/LINES.md).
 *
 * `strays` counts the votes that contradict those before them: their edges differ from whole
 * seconds by more than the sum of both bounds and the drift of the seconds between, or one second
 * apart by more than what was learned of the counter allows. A step of whole
 * seconds is none. Frames whose first and last pulses are not 990 ms apart may count, too
 * (docs/EXACTNESS.md has the rule). As long as at each tick no two of three lines (three of five;
 * not the one line) were untrue in the last 1.2 s, the counter is as steady as `drift_us` says and,
 * if that is above 0, `wander_ppb`, and calls were in order, `strays` stays 0. If it rises, look at the device: its lines, their delays,
 * or the drift of its counter are not what it was told. Seconds with a vote are announced as
 * before. Seconds without one are not, since nobody knows how far off they are, until as many
 * seconds were voted without another stray as `holdover` says, 1,000 at most and one at least.
 * `doubt` says how many of these are still to come. Until then a second without a vote has the
 * cause IRIG_CAUSE_HELD and is not announced.
 *
 * `lines` says what each line is (docs/LINES.md). A line that was true for the last 2.7 s is
 * neither `apart` nor `differed`, as long as at each tick no two of three lines (three of five; not
 * the one line) are untrue. */
uint32_t irig_timekeeper_tick(irig_timekeeper *timekeeper, uint32_t now_us, irig_second *second);

/* How long it is until a tick has something to do, in microseconds, if no call comes before it: 0
 * if it has now. If lines agree, it is the time until the edge of their vote. In a timekeeper that
 * irig_timekeeper_init made it is at most 1,006,000 at a time at which a tick may come, and above 0
 * if no frames agree and no second is due. It is 0, too, where a tick would be refused: a loop that
 * goes by it then has to begin afresh. */
uint32_t irig_timekeeper_wait(const irig_timekeeper *timekeeper, uint32_t now_us);

/* The time of an event. It is told by the second that was told last, if the event lies after its
 * told edge, else by the second told before that one. That second has to be announced. The event
 * comes at most a second and the bound after its edge; or before the edge that was told last, if
 * that lies less than 1.5 s after the one before. Where a vote announces nothing, as at a jump, the
 * second before is forgotten, since it may be false. Ask 6 ms to half a second after the event,
 * when all ticks that were due have come: then its own second is told, and no two after it.
 * IRIG_FAULT_VALUE if it has no stamp, and where a tick would be refused.
 *
 * In a timekeeper of which irig_timekeeper_tick's held seconds are true, each event between the two
 * edges that were told last has a stamp, if both seconds were announced and none was missed
 * between. So has one up to a second and the bound of its edge after the last.
 *
 * In a timekeeper of which irig_timekeeper_tick's held seconds are true the second began
 * `offset_us` before the event, to within `bound_us`, if a tick may come now and the event lies at
 * most half an hour back. If only ticks since a vote were true, the event has to come at that
 * vote's edge or later, unless that tick announced nothing. If lines with faults count as true, it
 * is to within `bound_us` and as much more as edges may lie further off. Stamps of one instant by
 * two devices, each to within its `bound_us`, differ by no more than the sum of both and the drift
 * of two seconds of each device. */
uint32_t irig_timekeeper_stamp(const irig_timekeeper *timekeeper, uint32_t time_us,
                               irig_stamp *stamp);

/* Says how long seconds are by the device's own counter: IRIG_DONE, or IRIG_FAULT_VALUE if nothing
 * is measured, or where a tick would be refused. Nothing is measured as long as no second was
 * counted after the first vote, or after one that strayed (`strays`), nor if votes lie too far back
 * (docs/COUNTER.md). As long as all lines but f are true, the counter drifts no more than `drift_us`
 * and, if that is above 0, wanders no more than `wander_ppb`, the mean of the last `seconds` lies between the least and the most. These differ by
 * at most 2 ns and the lengths of two intervals in which votes left a true edge, divided by the
 * seconds. */
uint32_t irig_timekeeper_rate(const irig_timekeeper *timekeeper, irig_rate *rate);

/* What a line is, as of the last tick and the pulses since. It is told from the first pulse on,
 * whether seconds are told or not: look at it while a device is installed, or when it tells
 * nothing. IRIG_FAULT_VALUE, also if there is no such line, or where a tick would be refused.
 *
 * In a timekeeper of which irig_timekeeper_tick's held seconds are true, a line that was true for
 * the last 2.7 s is never IRIG_LINE_UNEVEN, IRIG_LINE_APART or IRIG_LINE_DIFFERED. So a line was
 * untrue of which this is said. */
uint32_t irig_timekeeper_line(const irig_timekeeper *timekeeper, uint8_t line,
                              irig_line_said *said);

/* Forgets all that was heard and counted. A timekeeper that a tick refuses stays so. */
void irig_timekeeper_restart(irig_timekeeper *timekeeper);

/* The time quality that a device may send on, as IEEE 1344 and C37.118 number it, of a time that is
 * wrong by at most so many microseconds: the `bound_us` of a second that is announced, or of a
 * stamp. It is 4 up to 1 us, 5 up to 10, 6 up to 100, 7 up to 1,000, 8 up to 10,000, 9 up to
 * 100,000, 10 up to 1,000,000, and 15 above. It is never 0 to 3: 0 says that a clock is locked to
 * its source, which nobody knows by lines (docs/EXACTNESS.md). */
uint8_t irig_quality_of(uint32_t bound_us);

#ifdef __cplusplus
}
#endif

#endif
