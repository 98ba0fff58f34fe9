#include "device.h"

#include <stdio.h>

enum { HALF_HOUR_US = 1790000000 };
static const uint64_t NEVER = UINT64_MAX;

/* ---- when ticks come */

/* Some seconds to 29 minutes, each size as often. */
static uint64_t gap_of(chance *luck) {
    uint64_t gap_us = UINT64_C(300000) << below(luck, 13);
    gap_us += draw(luck) % gap_us;
    return gap_us < HALF_HOUR_US ? gap_us : HALF_HOUR_US - below(luck, SECOND_US);
}

static bool is_by_wait(const device *d) { return d->pace == BY_WAIT || d->pace == WITH_GAPS; }

/* Sets the compare channel by what `wait` answers. */
static void arm(life *l, bool is_behind_tick) {
    device *d = &l->device;
    uint32_t wait_us = l->judge.subject->wait((uint32_t)d->now_us);
    judge_wait(&l->judge, wait_us, is_behind_tick);
    d->due_us = d->now_us + wait_us;
    d->tick_us = d->due_us + d->always_us + below(&d->luck, d->late_us + 1);
    d->is_asked = l->judge.has_told || wait_us != SECOND_US;
}

/* Around edge after edge, the next one that lies ahead; or where something is just in time, or just
 * too late, if nothing drifts. */
static uint64_t around_edge(life *l) {
    static const uint32_t JUST_US[] = {99999,   100000,  100001,  102999,  103000,  103001,
                                       1005999, 1006000, 1006001, 1099999, 1100000, 1100001,
                                       1102999, 1103000, 1103001, 2005999, 2006000};
    device *d = &l->device;
    uint64_t just_us = l->sky.told_edge_us + JUST_US[below(&d->luck, sizeof JUST_US / sizeof *JUST_US)];
    if (is_once_in(&d->luck, 2) && just_us > d->now_us) return just_us;
    while (d->edge <= l->world.seconds) {
        uint64_t at_us =
            l->world.edge_us[d->edge++] + (uint64_t)(int64_t)between(&d->luck, -400000, 400000);
        if (at_us > d->now_us) return at_us;
    }
    return d->now_us + SECOND_US;
}

static uint64_t next_poll(device *d) {
    return d->now_us + d->poll_us - below(&d->luck, d->poll_us / 4 + 1);
}

/* About as often as a device WITH_GAPS sleeps. */
static bool is_still(device *d) {
    return is_once_in(&d->luck, d->gap_one_in * (1 + SECOND_US / d->poll_us));
}

/* A little behind one of the next edges. */
static uint64_t pause_end(life *l) {
    uint32_t edge = l->judge.come + 1 + below(&l->device.luck, 4);
    if (edge > l->world.seconds + 1) edge = l->world.seconds + 1;
    return l->world.edge_us[edge] + below(&l->device.luck, 300000);
}

static void set_next_tick(life *l) {
    device *d = &l->device;
    d->is_asked = false;
    d->due_us = NEVER;
    switch (d->pace) {
    case BY_POLLS: d->tick_us = next_poll(d); break;
    case BY_QUEUES: d->tick_us = is_still(d) ? pause_end(l) : next_poll(d); break;
    case AT_RANDOM: d->tick_us = d->now_us + 100000 + below(&d->luck, 900000); break;
    case BEFORE_PULSES: d->tick_us = d->now_us + SECOND_US; break;
    case AROUND_EDGES: d->tick_us = around_edge(l); break;
    default: arm(l, true);
    }
    d->is_asleep = d->pace == WITH_GAPS && is_once_in(&d->luck, d->gap_one_in);
    if (d->is_asleep) d->tick_us = d->now_us + gap_of(&d->luck);
    if (d->tick_us >= d->sleep_us && d->tick_us < d->wake_us) {
        d->is_asleep = true;
        d->tick_us = d->wake_us;
    }
    if (d->is_asleep) d->is_asked = false;
}

/* ---- calls */

static void say(const life *l, const irig_second *s) {
    const irig_report *r = &s->report;
    uint32_t edge = edge_before(&l->world, l->judge.edge_us + SECOND_US / 2);
    printf("  %10.6f s: edge %u %+lld us, day %u second %u, lock %u:%u, cause %u, ports %u, ",
           (double)(l->device.now_us - l->world.edge_us[0]) / 1e6, (unsigned)edge,
           (long long)(l->judge.edge_us - l->world.edge_us[edge]), (unsigned)r->day,
           (unsigned)r->sod, r->lock, (unsigned)r->lock_count, r->cause, r->agreed);
    printf("%u missed, moved %u times, within %u us, %u strays\n", (unsigned)s->missed,
           (unsigned)s->moved, (unsigned)s->bound_us, (unsigned)s->strays);
}

static void keep(life *l, const irig_second *s) {
    l->sky.told_edge_us = l->judge.edge_us;
    if (l->is_told_aloud) say(l, s);
    if (l->tolds < MOST_ENTRIES)
        l->told[l->tolds++] = (entry){l->device.now_us, l->judge.edge_us, *s};
}

/* When something came that is stamped: in the last seconds, or just at a bound of what can be. */
static uint64_t stamped_time(life *l) {
    chance *luck = &l->device.luck;
    uint64_t last_us = SECOND_US + l->judge.bound_us;
    uint64_t just_us[] = {UINT64_MAX, 0, last_us, last_us + 1}; /* the first one is -1 */
    if (!is_once_in(luck, 4) || !l->judge.has_told) return l->device.now_us - below(luck, 2500000);
    return l->judge.edge_us + just_us[below(luck, 4)];
}

void tick(life *l, uint64_t now_us) {
    device *d = &l->device;
    irig_second s = {0};
    bool is_due = d->is_asked && now_us >= d->due_us && !l->judge.subject->ticks_anyway;
    d->now_us = now_us;
    uint32_t answer = l->judge.subject->tick((uint32_t)now_us, &s);
    judge_tick(&l->judge, now_us, answer, &s, is_due);
    if (l->judge.subject->stamp && !l->judge.is_beyond && is_once_in(&d->luck, 8))
        judge_stamp(&l->judge, stamped_time(l));
    if (s.is_told) keep(l, &s);
}

static void tick_and_go_on(life *l) {
    device *d = &l->device;
    tick(l, d->tick_us);
    if (d->restart_one_in > 0 && is_once_in(&d->luck, d->restart_one_in)) {
        l->judge.subject->restart();
        judge_restart(&l->judge);
    }
    set_next_tick(l);
}

/* When the end of a line's next pulse reaches the device. */
static uint64_t reaches(const life *l, const line *from) {
    return from->next.end_us + (uint64_t)(int64_t)l->world.delay_us[from->number];
}

static void tell(life *l, line *from) {
    device *d = &l->device;
    const pulse *p = &from->next;
    uint64_t told_us = reaches(l, from);
    if (d->pace == BEFORE_PULSES) {
        tick(l, told_us);
        d->tick_us = told_us + SECOND_US;
    }
    d->now_us = told_us;
    judge_pulse(&l->judge, from->number, p, told_us);
    uint8_t place = l->judge.subject->hear(from->number, (uint32_t)(told_us - (p->end_us - p->rise_us)),
                                           (uint32_t)(p->end_us - p->rise_us));
    if (place > 100) fail(&l->judge, "a pulse of line %u answers %u", from->number, place);
    if (place == 100) d->is_asked = false;
    /* A compare that has come is not taken back. */
    if (place == 100 && is_by_wait(d) && !d->is_asleep && d->due_us > d->now_us) arm(l, false);
    go_on(from, &l->sky);
}

/* Empties a queue for each line, one behind another, up to the time of the tick. */
static void empty_queues(life *l) {
    sky *s = &l->sky;
    uint32_t first = below(&l->device.luck, s->lines);
    for (uint32_t i = 0; i < s->lines; i++) {
        line *from = &s->line[(first + i) % s->lines];
        while (!from->is_over && reaches(l, from) <= l->device.tick_us) tell(l, from);
    }
}

/* The line whose pulse ends next for the device, or none. */
static line *earliest(life *l) {
    line *best = NULL;
    for (line *one = l->sky.line; one < l->sky.line + l->sky.lines; one++)
        if (!one->is_over && (!best || reaches(l, one) < reaches(l, best))) best = one;
    return best;
}

/* ---- a life */

static void begin(life *l, const subject *s) {
    device *d = &l->device;
    judge *j = &l->judge;
    j->world = &l->world;
    j->subject = s;
    j->setup = l->setup;
    j->table = l->table;
    j->lines = l->sky.lines;
    d->now_us = l->world.edge_us[0] - 30000;
    judge_begins(j, d->now_us);
    d->edge = 0;
    l->tolds = 0;
    d->is_asleep = d->is_asked = false;
    l->sky.told_edge_us = 0;
    if (s->is_by_wait) {
        d->pace = BY_WAIT;
        d->late_us = d->always_us = 0;
    }
    irig_wires wires = wires_of(&l->world);
    uint32_t answer = s->begin(&l->setup, &l->table, &wires, (uint32_t)d->now_us);
    if (answer != IRIG_DONE) fail(j, "it does not begin: %u", answer);
    set_next_tick(l);
}

/* It begins afresh at its next tick. */
static void flip_when_due(life *l, uint64_t now_us) {
    device *d = &l->device;
    if (d->flip_us == 0 || now_us <= d->flip_us) return;
    d->flip_us = 0;
    l->judge.subject->flip(d->flipped_bit);
    judge_restart(&l->judge);
}

void play(life *l, const subject *s) {
    begin(l, s);
    uint64_t end_us = l->world.edge_us[l->world.seconds] + 120000;
    while (!l->judge.is_failed) {
        line *next = earliest(l);
        bool is_by_queues = l->device.pace == BY_QUEUES;
        uint64_t pulse_us = next && !is_by_queues ? reaches(l, next) : NEVER;
        uint64_t tick_us = l->device.tick_us;
        uint64_t now_us = pulse_us < tick_us ? pulse_us : tick_us;
        if (now_us > end_us) break;
        flip_when_due(l, now_us);
        if (l->device.pace == BY_WAIT && !l->device.is_asleep) judge_time(&l->judge, now_us);
        bool may_be_late = pulse_us == tick_us && !s->is_by_wait;
        if (is_by_queues) empty_queues(l);
        if (pulse_us < tick_us || (may_be_late && is_once_in(&l->device.luck, 2)))
            tell(l, next);
        else tick_and_go_on(l);
    }
}
