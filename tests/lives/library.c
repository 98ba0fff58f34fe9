/* The library's timekeeper as a subject; and beside it the model, which has to answer alike. */
#include "subject.h"

#include <string.h>

static irig_timekeeper keeper;

static uint32_t begin(const irig_setup *setup, const irig_table *table, const irig_wires *wires,
                      uint32_t now_us) {
    (void)now_us;
    return irig_timekeeper_init(&keeper, setup, table, wires);
}

static uint8_t hear(uint8_t line, uint32_t rise_us, uint32_t width_us) {
    return irig_timekeeper_hear(&keeper, line, rise_us, width_us);
}

/* Each line is what the masks say. */
static bool are_masked(const irig_masks *m) {
    const uint8_t masks[] = {m->silent,   m->broken, m->faulty, m->faulty,  m->poor,
                             m->unjudged, m->agreed, m->apart,  m->differed};
    irig_line_said said;
    for (uint8_t i = 0; irig_timekeeper_line(&keeper, i, &said) == IRIG_DONE; i++)
        if ((masks[said.state] >> i & 1) == 0) return false;
    return true;
}

static uint32_t tick(uint32_t now_us, irig_second *s) {
    memset(s, 0, sizeof *s);
    uint32_t answer = irig_timekeeper_tick(&keeper, now_us, s);
    return s->is_told && !are_masked(&s->lines) ? DIFFERS : answer;
}

static uint32_t wait(uint32_t now_us) { return irig_timekeeper_wait(&keeper, now_us); }

static void restart(void) { irig_timekeeper_restart(&keeper); }

static uint32_t stamp(uint32_t time_us, irig_stamp *s) {
    return irig_timekeeper_stamp(&keeper, time_us, s);
}

static uint32_t rate(irig_rate *r) { return irig_timekeeper_rate(&keeper, r); }

static uint32_t line(uint8_t number, irig_line_said *said) {
    return irig_timekeeper_line(&keeper, number, said);
}

void flip_library(uint32_t bit) { ((uint8_t *)&keeper)[bit / 8] ^= (uint8_t)(1u << bit % 8); }

const subject library_subject = {"library", begin, hear, tick, wait, restart, stamp, rate, line, NULL, false, false};

/* ---- with the model */

static uint32_t begin_both(const irig_setup *setup, const irig_table *table,
                           const irig_wires *wires, uint32_t now_us) {
    uint32_t wanted = model_subject.begin(setup, table, wires, now_us);
    return begin(setup, table, wires, now_us) == wanted ? wanted : DIFFERS;
}

static uint8_t hear_both(uint8_t line, uint32_t rise_us, uint32_t width_us) {
    uint8_t wanted = model_subject.hear(line, rise_us, width_us);
    return hear(line, rise_us, width_us) == wanted ? wanted : DIFFERS;
}

/* But for bytes that belong to no number. */
bool are_alike(const irig_second *a, const irig_second *b) {
    if (!a->is_told || !b->is_told) return a->is_told == b->is_told;
    return a->edge_us == b->edge_us && a->bound_us == b->bound_us && a->missed == b->missed &&
           a->moved == b->moved && a->strays == b->strays && a->doubt == b->doubt &&
           a->against_table == b->against_table &&
           memcmp(&a->lines, &b->lines, sizeof a->lines) == 0 &&
           memcmp(&a->report, &b->report, offsetof(irig_report, dst) + 1) == 0;
}

static uint32_t tick_both(uint32_t now_us, irig_second *s) {
    irig_second other;
    uint32_t wanted = model_subject.tick(now_us, &other);
    return tick(now_us, s) == wanted && are_alike(&other, s) ? wanted : DIFFERS;
}

static uint32_t wait_both(uint32_t now_us) {
    uint32_t wanted = model_subject.wait(now_us);
    return wait(now_us) == wanted ? wanted : UINT32_MAX;
}

static uint32_t stamp_both(uint32_t time_us, irig_stamp *s) {
    irig_stamp other = {0};
    uint32_t wanted = model_subject.stamp(time_us, &other);
    if (stamp(time_us, s) != wanted) return DIFFERS;
    return wanted != IRIG_DONE || memcmp(&other, s, sizeof other) == 0 ? wanted : DIFFERS;
}

static uint32_t rate_both(irig_rate *r) {
    irig_rate other = {0};
    uint32_t wanted = model_subject.rate(&other);
    if (rate(r) != wanted) return DIFFERS;
    return wanted != IRIG_DONE || memcmp(&other, r, sizeof other) == 0 ? wanted : DIFFERS;
}

static void restart_both(void) {
    model_subject.restart();
    restart();
}

const subject both_subject = {"both", begin_both, hear_both, tick_both, wait_both, restart_both,
                              stamp_both, rate_both, line, NULL, false, false};
