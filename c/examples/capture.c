/* A timekeeper behind three lines of IRIG-B, or five, or one, as the interrupts of a microcontroller:
 * pulses are measured and told, and it is ticked when it has something to do. docs/WIRES.md says what
 * it promises. */
#include "capture.h"

static irig_setup setup;
static irig_table table;
static irig_wires wires;
static irig_timekeeper timekeeper;
static uint32_t rise_us[LINES]; /* the leading edge of the pulse that a line has now */
static uint32_t ticked_us;      /* the last tick */

/* While no edge is known, each frame of a line that is heard alone names a time a second later. A tick
 * comes all the same. */
static const uint32_t LONGEST_US = 2000000;

/* Asks for the next tick. Pulses were told up to this time. */
static void ask(uint32_t now_us) {
    uint32_t wait_us = irig_timekeeper_wait(&timekeeper, now_us);
    uint32_t left_us = ticked_us + LONGEST_US - now_us;
    compare_at(now_us + (wait_us < left_us ? wait_us : left_us));
}

uint32_t capture_init(const irig_setup *wanted, const irig_table *known, const irig_wires *given) {
    setup = *wanted;
    table = *known;
    wires = *given;
    uint32_t answer = irig_timekeeper_init(&timekeeper, &setup, &table, &wires);
    ticked_us = timer_now();
    if (answer == IRIG_DONE) ask(ticked_us);
    return answer;
}

void on_capture(uint8_t line, bool is_high, uint32_t time_us) {
    if (is_high) {
        rise_us[line] = time_us;
        return;
    }
    uint32_t width_us = time_us - rise_us[line];
    /* Behind the last pulse of a frame there may be less to wait. */
    if (irig_timekeeper_hear(&timekeeper, line, rise_us[line], width_us) == 100) ask(time_us);
}

void on_compare(void) {
    irig_second second;
    uint32_t now_us = timer_now();
    /* If something else has changed its numbers, it announces nothing, and begins afresh. */
    if (irig_timekeeper_tick(&timekeeper, now_us, &second) != IRIG_DONE)
        irig_timekeeper_init(&timekeeper, &setup, &table, &wires);
    else if (second.is_told) on_second(&second);
    ticked_us = now_us;
    ask(now_us);
}
