/* c/examples/capture.c as a subject: a board whose timer is the life's counter, and whose
 * interrupts for changes of lines come late. */
#define LINES 5
#define timer_now timer_of_capture
#define on_second on_second_of_capture
#include "examples/capture.c"

#include "subject.h"

enum { LATE_US = 300 };

static uint32_t timer_us, compare_us;
static bool has_asked;
static irig_second told;

uint32_t timer_now(void) { return timer_us; }

void compare_at(uint32_t time_us) {
    compare_us = time_us;
    has_asked = true;
}

void on_second(const irig_second *second) {
    told = *second;
    told.is_told = 1;
}

static uint32_t begin(const irig_setup *wanted, const irig_table *known, const irig_wires *given,
                      uint32_t now_us) {
    timer_us = now_us;
    return capture_init(wanted, known, given);
}

/* It may ask for another time behind the last pulse of a frame alone. */
static uint8_t hear(uint8_t line, uint32_t rise_at_us, uint32_t width_us) {
    static const uint8_t COUNTS[] = {3, 5, 1};
    if (line >= COUNTS[setup.redundancy]) return IRIG_NO_PORT;
    timer_us = rise_at_us + width_us + LATE_US;
    has_asked = false;
    on_capture(line, true, rise_at_us);
    on_capture(line, false, rise_at_us + width_us);
    return has_asked ? 100 : 0;
}

static uint32_t tick(uint32_t now_us, irig_second *s) {
    told = (irig_second){0};
    timer_us = now_us;
    on_compare();
    *s = told;
    return IRIG_DONE;
}

/* What has come already, up to half a turn ago, is due at once. */
static uint32_t wait(uint32_t now_us) {
    return compare_us - now_us < UINT32_C(1) << 31 ? compare_us - now_us : 0;
}

static void restart(void) { begin(&setup, &table, &wires, timer_us); }

static void flip(uint32_t bit) { ((uint8_t *)&timekeeper)[bit / 8] ^= (uint8_t)(1u << bit % 8); }

const subject capture_subject = {"capture", begin, hear, tick, wait, restart, NULL, NULL, NULL, flip, false, true};
