/* A timekeeper behind lines of IRIG-B as part of a main loop, which may stand still: pulses and events
 * wait in a queue. It is ticked as by interrupts, at times up to which pulses were told. */
#include "capture.h"

/* How long behind its edge a second is told at the latest. An event waits as long for its second. */
static const uint32_t LATEST_US = 6000;

static irig_setup setup;
static irig_table table;
static irig_wires wires;
static irig_timekeeper timekeeper;
static bool has_begun;
static uint32_t told_us;   /* pulses were told up to this time */
static uint32_t ticked_us; /* the last tick */
static uint32_t due_us;    /* the next one */
static bool has_event;
static uint32_t event_us;

/* While no edge is known, each frame of a line that is heard alone names a time a second later. A tick
 * comes all the same. */
static const uint32_t LONGEST_US = 2000000;

static void ask(void) {
    uint32_t wait_us = irig_timekeeper_wait(&timekeeper, told_us);
    uint32_t left_us = ticked_us + LONGEST_US - told_us;
    due_us = told_us + (wait_us < left_us ? wait_us : left_us);
}

uint32_t poll_init(const irig_setup *wanted, const irig_table *known, const irig_wires *given) {
    setup = *wanted;
    table = *known;
    wires = *given;
    has_event = false;
    uint32_t answer = irig_timekeeper_init(&timekeeper, &setup, &table, &wires);
    has_begun = answer == IRIG_DONE;
    told_us = timer_now();
    ticked_us = told_us;
    ask();
    return answer;
}

static void tick(void) {
    irig_second second;
    /* If something else has changed its numbers, it announces nothing, and begins afresh. */
    if (irig_timekeeper_tick(&timekeeper, told_us, &second) != IRIG_DONE)
        irig_timekeeper_init(&timekeeper, &setup, &table, &wires);
    else if (second.is_told) on_second(&second);
    ticked_us = told_us;
    ask();
}

/* Pulses are told up to this time, but for those that end just then. */
static void come_to(uint32_t time_us) {
    if (time_us - told_us > UINT32_MAX / 2) return; /* a little out of order */
    while (due_us - told_us <= time_us - told_us) {
        told_us = due_us;
        tick();
    }
    told_us = time_us;
}

static void stamp_event(void) {
    irig_stamp stamp;
    come_to(event_us + LATEST_US);
    has_event = false;
    if (irig_timekeeper_stamp(&timekeeper, event_us, &stamp) == IRIG_DONE) on_event(&stamp);
}

static void take(const queued *next) {
    if (next->line == EVENT) {
        if (!has_event) event_us = next->rise_us;
        has_event = true;
        return;
    }
    /* Behind the last pulse of a frame there may be less to wait. */
    if (irig_timekeeper_hear(&timekeeper, next->line, next->rise_us, next->width_us) == 100) ask();
}

void poll_queue(void) {
    queued next;
    bool has_next = has_begun;
    while (has_next) {
        /* The timer first: what ends behind this may be missing in the queue. */
        uint32_t time_us = timer_now();
        has_next = take_queued(&next);
        if (has_next) time_us = next.rise_us + next.width_us;
        if (has_event && time_us - event_us >= LATEST_US) stamp_event();
        come_to(time_us);
        if (has_next) take(&next);
    }
}
