/* irig_scene.h: the proved runner of scenarios, and the texts of frames, for C99, C11 and C++.
 *
 * From the text of a scenario to the text of its log, both in memory: byte for byte what `irig run`
 * writes to standard output. docs/SCENARIOS.md says how a scenario is written, docs/OUTPUT.md what
 * a log says. Link with libirig_scene (`make -C c`; docs/C.md). A run asks `malloc`, `realloc` and
 * `free` for memory (irig_heap.c), gives all of it back, and keeps nothing between calls. It needs
 * `memcpy`, `memmove` and `memset` of the C library and `__udivti3`, which compilers bring along.
 * The library is for machines with pointers of 64 bits; compilers for others refuse this header.
 *
 * Pointers. `text` leads to `count` bytes that no other call writes meanwhile, `log` to `room`
 * bytes, `entries`, `stretches` and `lanes` to `room` of these, `reason` to `reason_room` bytes,
 * `whole`, `verdict` and `refusal` each to one object; no other call reads or writes these meanwhile,
 * and none of them overlap. Of no bytes a pointer may be null; any other null pointer is answered with IRIG_RUN_NULL.
 * What the text says is no duty of the caller: any bytes are a scenario, or are refused.
 *
 * Threads. Calls on different objects may run at the same time, as `malloc` lets them. A line whose
 * JSON is nested as deep as is read, 127, takes up to 170 KB of stack: give a thread 256 KB.
 */
#ifndef IRIG_SCENE_H
#define IRIG_SCENE_H

#include "irig.h"

#include <stdbool.h>
#include <stddef.h>
#include <stdint.h>

#ifdef __cplusplus
extern "C" {
#endif

/* The names of the calls for the linker, as irig.h says. */
#define irig_run IRIG_NAME(irig_run, IRIG_LAYOUT)
#define irig_run_shown IRIG_NAME(irig_run_shown, IRIG_LAYOUT)
#define irig_run_entries IRIG_NAME(irig_run_entries, IRIG_LAYOUT)
#define irig_run_stretches IRIG_NAME(irig_run_stretches, IRIG_LAYOUT)
#define irig_run_lanes IRIG_NAME(irig_run_lanes, IRIG_LAYOUT)
#define irig_run_told IRIG_NAME(irig_run_told, IRIG_LAYOUT)
#define irig_frame_text IRIG_NAME(irig_frame_text, IRIG_LAYOUT)
#define irig_frame_lines IRIG_NAME(irig_frame_lines, IRIG_LAYOUT)

enum {
    IRIG_RUN_DONE = 0,     /* the log's last line is the audit */
    IRIG_RUN_NULL = 2,     /* a null pointer where bytes belong; nothing was run or written */
    IRIG_RUN_REFUSED = 3,  /* a line is refused, and the log's last line says which */
    IRIG_RUN_NO_LOG = 5,   /* no memory for the log */
    IRIG_RUN_NO_MEMORY = 6 /* no memory for the run */
};

/* Runs a scenario of `count` bytes, and writes as much of its log to `log` as `room` bytes hold, with
 * no 0 behind it; the bytes of `log` after that stay as they were. `*whole` is how many bytes the log
 * has. If that is more than `room`, nothing is lost but time: call again with so many bytes. A `room`
 * of 0 only asks how many they are.
 *
 * The plant may have readers or devices. With `all` the log has the silent edges of readers too, or
 * all seconds that devices told, announced or not.
 *
 * After IRIG_RUN_NO_LOG and IRIG_RUN_NO_MEMORY `*whole` is how many bytes there were until then,
 * and these are the first of the log. A run holds its log in memory of its own too, up to three
 * times as much while it grows. */
uint8_t irig_run(const uint8_t *text, size_t count, bool all, uint8_t *log, size_t room,
                 size_t *whole);

/* Bytes of a text, from `start` up to before `end`; none if the two are the same. */
typedef struct irig_span {
    size_t start;
    size_t end;
} irig_span;
IRIG_ASSERT((sizeof(irig_span) == 16u) && (offsetof(irig_span, end) == 8u));

/* Why a scenario is refused: zeros if it is not. The spans lie in the reason. */
typedef struct irig_refusal {
    uint64_t line;     /* the line, from 1 */
    size_t whole;      /* how many bytes the reason has; 0 if there was no memory for it */
    irig_span place;   /* the object, as `readers[0]`, or the byte behind which the line is no
                        * JSON, as `byte 12`; empty for the line's own object */
    irig_span key;     /* the key in that object, in quotes */
    irig_span value;   /* what stands there */
    irig_span allowed; /* what may stand there */
    uint8_t number;    /* of the refusal: 11 to 16, 19 to 35, 37; docs/FAULTS.md has them */
} irig_refusal;
IRIG_ASSERT((sizeof(irig_refusal) == 88u) && (offsetof(irig_refusal, whole) == 8u) &&
            (offsetof(irig_refusal, place) == 16u) && (offsetof(irig_refusal, key) == 32u) &&
            (offsetof(irig_refusal, value) == 48u) && (offsetof(irig_refusal, allowed) == 64u) &&
            (offsetof(irig_refusal, number) == 80u));

/* The same run; with `ports` the log has after each tick what its ports told, as with `irig run
 * --ports`; that of devices has no such lines. If a line is refused, `refusal` says which and as what,
 * and as much of the reason is written to `reason` as `reason_room` bytes hold, with no 0 behind it:
 * one line of text, without a newline, as the program writes it to standard error. Of a plant of
 * devices the reason is what the refusal means, and the spans are empty. */
uint8_t irig_run_shown(const uint8_t *text, size_t count, bool all, bool ports, uint8_t *log,
                       size_t room, size_t *whole, uint8_t *reason, size_t reason_room,
                       irig_refusal *refusal);

/* One entry of a log: what a reader said at an edge, what its ports told, and the line that asked
 * for it. */
typedef struct irig_entry {
    uint64_t edge;       /* a reader's n-th tick is at edge n */
    uint64_t line;       /* the line of the scenario that asked for the tick, from 1 */
    irig_claim truth;    /* what a port tells there of a true frame, or zeros */
    irig_told told[5];   /* what its ports told; zeros of those that it does not have */
    uint32_t lock_count; /* votes while acquiring, edges in holdover, else 0 */
    uint32_t day;        /* the second that it announces, or zeros */
    uint32_t sod;
    uint8_t reader;      /* its place in the plant line, 0 to 15 */
    uint8_t announces;   /* 1, or 0 if it is silent */
    uint8_t lock;        /* IRIG_LOCK_UNLOCKED .. */
    uint8_t cause;       /* IRIG_CAUSE_VOTED .. */
    uint8_t ports;       /* how many ports it has, 3 or 5 */
    uint8_t has_truth;   /* 0 if no second is true there */
} irig_entry;
IRIG_ASSERT((sizeof(irig_entry) == 152u) && (offsetof(irig_entry, line) == 8u) &&
            (offsetof(irig_entry, truth) == 16u) && (offsetof(irig_entry, told) == 28u) &&
            (offsetof(irig_entry, lock_count) == 128u) && (offsetof(irig_entry, sod) == 136u) &&
            (offsetof(irig_entry, reader) == 140u) && (offsetof(irig_entry, has_truth) == 145u));

enum {
    IRIG_VERDICT_NONE = 0,       /* a line is refused, or the run failed */
    IRIG_VERDICT_KEPT = 1,       /* the premises held: each second that is announced is true */
    IRIG_VERDICT_BROKEN = 2,     /* they were broken first at this edge of this reader: each second that
                                  * is announced before its entry is true */
    IRIG_VERDICT_FALSE_TABLE = 3, /* the leap table of this reader is false */
    IRIG_VERDICT_DRIFT = 4       /* the counter of this device drifts more than its setting says */
};

/* Whether the premises of a run held. */
typedef struct irig_verdict {
    uint64_t edge;  /* of IRIG_VERDICT_BROKEN, else 0 */
    uint8_t kind;   /* IRIG_VERDICT_NONE .. */
    uint8_t reader; /* its place in the plant line, or 0 */
} irig_verdict;
IRIG_ASSERT((sizeof(irig_verdict) == 16u) && (offsetof(irig_verdict, kind) == 8u) &&
            (offsetof(irig_verdict, reader) == 9u));

/* The same run, whose log is written as numbers, silent edges too. A plant of devices is refused here,
 * by number 27: `irig_run_told` is of devices. As many of the entries are written as `room` holds; those
 * of `entries` after that stay as they were. `*whole` is how many entries the log has. If that is more
 * than `room`, call again with so many. `verdict`, `refusal` and `reason` are always written. After
 * IRIG_RUN_NO_LOG (here: no memory for the text of a refusal) and IRIG_RUN_NO_MEMORY `*whole` is 0,
 * and no entry is written. */
uint8_t irig_run_entries(const uint8_t *text, size_t count, irig_entry *entries, size_t room,
                         size_t *whole, irig_verdict *verdict, uint8_t *reason,
                         size_t reason_room, irig_refusal *refusal);

/* How many seconds one second was after the true one, or before it; zeros if one of them is not
 * known. */
typedef struct irig_offset {
    uint64_t ahead;
    uint64_t behind;
} irig_offset;
IRIG_ASSERT((sizeof(irig_offset) == 16u) && (offsetof(irig_offset, behind) == 8u));

enum {
    IRIG_STRETCH_SILENT = 1,         /* a port told nothing */
    IRIG_STRETCH_FAULTY = 2,         /* it told what is no right frame */
    IRIG_STRETCH_POOR = 3,           /* a frame of poor time quality */
    IRIG_STRETCH_ANOTHER_SECOND = 4, /* another second than the true one */
    IRIG_STRETCH_ANOTHER_MARK = 5,   /* the true second with another mark */
    IRIG_STRETCH_NOTHING = 6,        /* the reader announced nothing, for one cause */
    IRIG_STRETCH_UNTRUE = 7          /* it announced untrue seconds */
};

/* A longest run of a reader's edges at which one of its ports told no truth in one way, or at which
 * the reader announced nothing for one cause, or untrue seconds: what `irig blame` has a line of.
 * What is of another kind of stretch is 0.
 *
 * Of a plant of devices a device is the reader, its lines are the ports, and its edges are the true
 * ones to which those of the seconds that it told lie nearest. Edges that it did not tell may lie
 * between two that follow one another, and behind a restart one may come again. So it is with lanes. */
typedef struct irig_stretch {
    uint64_t first_edge;
    uint64_t last_edge;
    uint64_t announced;       /* of a port's: how many seconds the reader announced meanwhile */
    uint64_t untrue;          /* of a port's: how many of those were untrue */
    uint64_t vote_edge;       /* of IRIG_STRETCH_UNTRUE: the edge of the vote that the seconds rest
                               * on, or 0 */
    irig_offset first_offset; /* how far what was told, or announced, was from the true second */
    irig_offset last_offset;
    irig_utc first_second;    /* the true second at the first edge, or zeros: of a port's that of the
                               * frame that ended, of the reader's own that which began */
    irig_utc last_second;
    irig_told told;           /* of a port's: what it told at the first edge */
    uint8_t kind;             /* IRIG_STRETCH_SILENT .. */
    uint8_t reader;           /* its place in the plant line, 0 to 15 */
    uint8_t port;             /* of a port's: 0 to 4 */
    uint8_t cause;            /* of IRIG_STRETCH_NOTHING: IRIG_CAUSE_VOTED .. */
    uint8_t is_steady;        /* 1 if it was as far from the true second at each edge */
    uint8_t vote_is_true;     /* 1 if the vote was true: then the seconds are held by the reader's
                               * leap table */
    uint8_t carriers[5];      /* 1 of each port that told what was voted */
} irig_stretch;
IRIG_ASSERT((sizeof(irig_stretch) == 120u) && (offsetof(irig_stretch, first_offset) == 40u) &&
            (offsetof(irig_stretch, first_second) == 72u) &&
            (offsetof(irig_stretch, told) == 88u) && (offsetof(irig_stretch, kind) == 108u) &&
            (offsetof(irig_stretch, carriers) == 114u));

/* A run of readers or of devices, of which the stretches are written, in the order of the lines of
 * `irig blame`: as many
 * as `room` holds; those of `stretches` after that stay as they were. `*whole` is how many there are.
 * If that is more than `room`, call again with so many. All else is as with `irig_run_entries`. */
uint8_t irig_run_stretches(const uint8_t *text, size_t count, irig_stretch *stretches, size_t room,
                           size_t *whole, irig_verdict *verdict, uint8_t *reason,
                           size_t reason_room, irig_refusal *refusal);

enum {
    IRIG_LANE_STOOD = 1, /* how the reader stood: its lock, and why */
    IRIG_LANE_TOLD = 2,  /* what one of its ports told */
    IRIG_LANE_MARK = 3   /* what came at the edge, by the true seconds */
};

enum {
    IRIG_LANE_MARK_LEAP = 1,    /* a leap second begins, 23:59:60 */
    IRIG_LANE_MARK_DELETED = 2, /* a month begins, whose last second, 23:59:59, was left out */
    IRIG_LANE_MARK_MONTH = 3    /* a month begins */
};

/* A longest run of a reader's edges at which it stood alike, or one of its ports told alike; or a mark,
 * of one edge: what a picture of a run shows. What is of another kind of lane is 0. */
typedef struct irig_lane {
    uint64_t first_edge;
    uint64_t last_edge;
    uint8_t kind;   /* IRIG_LANE_STOOD .. */
    uint8_t reader; /* its place in the plant line, 0 to 15 */
    uint8_t port;   /* of IRIG_LANE_TOLD: 0 to 4 */
    uint8_t state;  /* IRIG_LOCK_UNLOCKED ..; of IRIG_LANE_TOLD 0 if it told the truth, and else
                     * IRIG_STRETCH_SILENT ..; IRIG_LANE_MARK_LEAP .. */
    uint8_t cause;  /* of IRIG_LANE_STOOD: IRIG_CAUSE_VOTED .. */
} irig_lane;
IRIG_ASSERT((sizeof(irig_lane) == 24u) && (offsetof(irig_lane, kind) == 16u) &&
            (offsetof(irig_lane, reader) == 17u) && (offsetof(irig_lane, port) == 18u) &&
            (offsetof(irig_lane, state) == 19u) && (offsetof(irig_lane, cause) == 20u));

/* The same run, of which the lanes are written: each lane where its reader's next edge ends it, first
 * that of the reader and then those of its ports, each mark behind these, and at the end the lanes that
 * are open, reader by reader. As many are written as `room` holds; those of `lanes` after that stay as
 * they were. `*whole` is how many there are. If that is more than `room`, call again with so many. All
 * else is as with `irig_run_entries`. */
uint8_t irig_run_lanes(const uint8_t *text, size_t count, irig_lane *lanes, size_t room,
                       size_t *whole, irig_verdict *verdict, uint8_t *reason, size_t reason_room,
                       irig_refusal *refusal);

enum {
    IRIG_DEVICE_TOLD = 1, /* a second that a device told */
    IRIG_DEVICE_STAMP = 2 /* an instant of which it was asked for a stamp */
};

/* What a device told of a second, or of an instant. What is of the other kind is 0. */
typedef struct irig_device_entry {
    uint64_t edge;       /* the true edge to which the told one lies nearest, by the device's counter */
    uint64_t instant_us; /* of IRIG_DEVICE_STAMP: the instant, in true time behind edge 0 */
    uint64_t behind_us;  /* how far the told edge lies behind that true edge, by the counter */
    uint64_t before_us;  /* or how far before it */
    uint32_t lock_count; /* votes while acquiring, edges in holdover, else 0 */
    uint32_t day;        /* the second that is announced, or that of the stamp, or zeros */
    uint32_t sod;
    uint32_t offset_us;  /* of a stamp that is given: how long behind the told edge, by the counter */
    uint32_t bound_us;   /* how far off the announced edge, or the stamp, may lie; 0 without one */
    uint8_t device;      /* its place in the plant line, 0 to 15 */
    uint8_t kind;        /* IRIG_DEVICE_TOLD .. */
    uint8_t names;       /* 1 if a second is announced, or a stamp given; else 0 */
    uint8_t lock;        /* IRIG_LOCK_UNLOCKED .. */
    uint8_t cause;       /* IRIG_CAUSE_VOTED .. */
} irig_device_entry;
IRIG_ASSERT((sizeof(irig_device_entry) == 64u) && (offsetof(irig_device_entry, instant_us) == 8u) &&
            (offsetof(irig_device_entry, before_us) == 24u) &&
            (offsetof(irig_device_entry, lock_count) == 32u) &&
            (offsetof(irig_device_entry, offset_us) == 44u) &&
            (offsetof(irig_device_entry, device) == 52u) &&
            (offsetof(irig_device_entry, cause) == 56u));

/* A run of a plant of devices, whose log is written as numbers: what they told, in its order, silent
 * seconds too. A plant of readers is refused, by number 27. As many are written as `room` holds; those
 * of `entries` after that stay as they were. `*whole` is how many there are. If that is more than
 * `room`, call again with so many. All else is as with `irig_run_entries`. */
uint8_t irig_run_told(const uint8_t *text, size_t count, irig_device_entry *entries, size_t room,
                      size_t *whole, irig_verdict *verdict, uint8_t *reason, size_t reason_room,
                      irig_refusal *refusal);

/* ---- the texts of frames */

enum {
    IRIG_TEXT_DONE = 0,
    IRIG_TEXT_BAD = 1,      /* the text of no second of the years served, a letter of no symbol, or a
                             * number without a meaning; nothing was written */
    IRIG_TEXT_NULL = 2,     /* a null pointer where bytes belong; nothing was written */
    IRIG_TEXT_NO_MEMORY = 6 /* no memory for the lines; nothing was written */
};

/* What a frame says beside its time, and how it is made. All zeros are what `irig frame` takes
 * without options. */
typedef struct irig_frame_options {
    int8_t local_half_hours; /* how far the clock is ahead of UTC, -31 to 31 */
    uint8_t pending;         /* a leap second: 0 none, 1 an inserted one, 2 a deleted one */
    uint8_t dst;             /* 1 if daylight saving is in force, else 0 */
    uint8_t quality;         /* 0 for a locked clock to 15 for one that failed */
    uint8_t parity;          /* 0 even, 1 odd */
    uint8_t sense;           /* to give UTC the offset is 0 added, 1 subtracted */
} irig_frame_options;
IRIG_ASSERT((sizeof(irig_frame_options) == 6u) && (offsetof(irig_frame_options, sense) == 5u));

/* Writes the frame of a UTC second as `irig frame` prints it: ten groups of ten letters with a blank
 * between, and a newline; no 0 behind it. `time` are `count` letters, as 2016-12-31T23:59:59Z. */
uint8_t irig_frame_text(const char *time, size_t count, const irig_frame_options *options,
                        char text[110]);

/* Writes what a frame says, as `irig read` prints it: the line of the coded time, if it codes one, and
 * the line of what a port tells of it. `text` are `count` letters: P, 0, 1, ? and blanks. The rules of
 * the port: `parity` 0 even, 1 odd; `sense` 0 the offset is added, 1 subtracted; `sbs` 0 the binary
 * seconds are checked, 1 ignored. As much is written to `lines` as `room` bytes hold, and `*whole` is
 * how many bytes there are, at most 200; with any status but IRIG_TEXT_DONE and IRIG_TEXT_NULL it is
 * 0. It asks for memory as a run does. */
uint8_t irig_frame_lines(const char *text, size_t count, uint8_t parity, uint8_t sense, uint8_t sbs,
                         char *lines, size_t room, size_t *whole);

#ifdef __cplusplus
}
#endif

#endif
