/* The boards of capture.c and poll.c: one, three or five lines of IRIG-B, and a timer that counts
 * microseconds in 32 bits and wraps. After a sleep, or if the timer stood still, begin anew.
 * capture_bench.c is such a board. */
#ifndef CAPTURE_H
#define CAPTURE_H

#include "irig.h"

#ifndef LINES
#define LINES 3 /* or 5, or 1, for a timekeeper of as many lines */
#endif

/* ---- what the board does */

/* The timer. */
uint32_t timer_now(void);

/* Takes the second that begins at `second->edge_us`: what is said of it, and how many were missed. */
void on_second(const irig_second *second);

/* The alarm of a second, as a substation has it, the first of these that applies: `lost`, if none is
 * announced; `untrusted`, if votes contradicted one another of late, or the vote contradicts the leap
 * table; `degraded`, if the second is held, or a line neither agrees nor is unjudged; or none. */
static inline const char *alarm_of(const irig_second *second) {
    const irig_masks *lines = &second->lines;
    if (!second->report.announces) return "lost";
    if ((second->doubt > 0) || (second->against_table != 0)) return "untrusted";
    if ((second->report.cause == IRIG_CAUSE_HELD) || (lines->apart != 0) ||
        (lines->differed != 0) || (lines->faulty != 0) || (lines->poor != 0) ||
        (lines->broken != 0) || (lines->silent != 0))
        return "degraded";
    return "";
}

/* ---- for capture.c: lines at the capture channels of the timer, and one more channel that compares.
 * None of these calls may interrupt another, of whichever line, since all use the one timekeeper: give
 * their interrupts one priority. */

/* Asks for `on_compare` when the timer comes to this time, in place of any asked for before. If the
 * time has come already, up to half a turn ago, it is to be called at once: a channel that compares
 * would wait for the next turn, so set it, then look at the timer, and set the interrupt pending. */
void compare_at(uint32_t time_us);

/* Begins. IRIG_FAULT_VALUE, IRIG_FAULT_TABLE_END to IRIG_FAULT_TABLE_TWICE, IRIG_FAULT_DRIFT. */
uint32_t capture_init(const irig_setup *setup, const irig_table *table, const irig_wires *wires);

/* A change of a line, counted from 0, at a time that its channel has caught. The line's next change comes
 * 2 ms later or more, and its channel has to be free by then. By a slow clock the calls of several lines
 * take longer: take from all channels what they have caught before each call, as serve_timer of
 * ../firmware/stm32f405.c does. A line that is stuck high has no pulse; loose again whole turns of the
 * timer later, it may have one, as by a glitch. */
void on_capture(uint8_t line, bool is_high, uint32_t time_us);

/* The time that was asked for has come. Changes that were caught and not yet told come first: a tick
 * that runs ahead of pulses by more than 4 ms counts without them. */
void on_compare(void);

/* ---- for poll.c: a queue that the board's interrupts fill */

enum { EVENT = 255 };

/* A pulse that has ended, or an event, which has no width. */
typedef struct queued {
    uint8_t line; /* counted from 0, or EVENT */
    uint32_t rise_us;
    uint32_t width_us; /* what is half a second wide or wider is no pulse */
} queued;

/* Takes what ended first out of the queue, and keeps its interrupts away meanwhile. False if it is
 * empty. What a full queue loses are lost pulses, of whichever lines: nothing false comes of them, and
 * nothing has to be restarted. Seconds are held until frames come whole again. */
bool take_queued(queued *oldest);

/* Takes the time of an event, 6 ms later or more. Of events that lie closer the first alone has one. */
void on_event(const irig_stamp *stamp);

/* Begins, as `capture_init` does. */
uint32_t poll_init(const irig_setup *setup, const irig_table *table, const irig_wires *wires);

/* Does what there is to do. If the loop stood still, for half an hour at most, it tells one second
 * after another, as if it had not; after longer, begin anew. */
void poll_queue(void);

#endif
