#include "judge.h"

#include <stdarg.h>
#include <stdio.h>
#include <stdlib.h>
#include <string.h>

enum {
    WAIT_MOST_US = 1006000,
    HELD_MOST_US = 490000, /* so much further off than its vote a second may be that is held */
    IN_TIME_US = 98000,
    TRUE_US = 2700000,
    OWN_LATE_US = 6000, /* so long behind its own edge it counts a second, */
    LEARNED_US = 100,   /* and so much earlier if it has learned that seconds are longer */
    ENDS_AHEAD_US = 500 /* a frame's last pulse ends at least so long before the frame */
};

#define SAID_OF(name, said) said,
const char *const COUNTED_SAID[COUNTED] = {EACH_COUNTED(SAID_OF)};

void fail(judge *j, const char *form, ...) {
    va_list values;
    if (j->is_failed) return;
    j->is_failed = true;
    double behind_us = (double)(int64_t)(j->now_us - j->world->edge_us[j->come]);
    int begun = snprintf(j->text, sizeof j->text, "%.6f s behind edge %u: ", behind_us / 1e6,
                         (unsigned)j->come);
    va_start(values, form);
    vsnprintf(j->text + begun, sizeof j->text - (size_t)begun, form, values);
    va_end(values);
}

/* How far a vote's edge may lie off: one of its ends is within reach of a true line's edge, whose clock
 * says the worst that has a vote, and the other one of another's; and the drift in the element that is
 * told before its end. */
static int64_t vote_us(const judge *j) {
    return 2 * widest_us(j->world) + (j->world->drift_us > 0);
}

static int liars_at_most(const judge *j) { return j->lines / 2; }

static void forget(judge *j) {
    for (int i = 0; i < MOST_LINES; i++) {
        j->sent[i].is_any = false;
        j->sent[i].run = 0;
        j->sent[i].whole = -1;
    }
    j->has_told = j->is_row = false;
    j->bound_us = j->strays = j->voted_us = 0;
    j->announced = j->voted = j->asked = j->moved = -1;
    j->row = j->moves = 0;
}

void judge_begins(judge *j, uint64_t now_us) {
    memset(j->sent, 0, sizeof j->sent);
    j->come = 0;
    j->now_us = j->tick_us = now_us;
    j->lit_us = 0;
    j->is_failed = false;
    forget(j);
}

void judge_restart(judge *j) { forget(j); }

/* ---- pulses */

/* Whether a frame may begin with this pulse: behind the last one of the frame before, or of nothing
 * for 11 ms. */
static bool may_begin(const sent *s, const pulse *p) {
    if (!s->is_any || p->rise_us - s->last.rise_us >= 11000) return true;
    return s->last.is_true && s->last.element == 99 && s->last.frame + 1 == p->frame;
}

static void follow_run(sent *s, const pulse *p) {
    if (p->is_true && p->element == 0 && may_begin(s, p)) {
        s->run_frame = p->frame;
        s->run = 1;
    } else if (p->is_true && s->run > 0 && p->frame == s->run_frame && p->element == s->run) {
        s->run++;
    } else {
        s->run = 0;
    }
    if (s->run == ELEMENTS && p->is_claim) s->whole = p->frame;
}

/* Whether the seconds of a line's clock are as long as the device is told, and a frame that has a vote
 * says how far off they are. */
static bool is_honest(const world *w, uint8_t line, const pulse *p) {
    uint64_t edge_us = clock_edge_us(w, line, p->frame);
    uint64_t long_us = clock_edge_us(w, line, p->frame + 1) - edge_us;
    bool is_steady = long_us - SECOND_US + w->drift_us <= 2 * w->drift_us;
    return is_steady &&
           (!p->is_claim || abs(w->clock_us[line][p->frame + 1]) <= quality_us(p->quality));
}

static void judge_true(judge *j, uint8_t line, const pulse *p) {
    uint64_t at_us = element_us(j->world, line, p->frame, p->element);
    uint64_t most_us = (uint64_t)jitter_us(j->world);
    if (p->rise_us - at_us + most_us > 2 * most_us)
        fail(j, "world: a true pulse of line %u is not at its time", line);
    if (!is_honest(j->world, line, p) && !j->is_beyond)
        fail(j, "world: the clock of line %u is further off than it says", line);
}

void judge_pulse(judge *j, uint8_t line, const pulse *p, uint64_t told_us) {
    sent *s = &j->sent[line];
    if (p->rise_us <= s->last.rise_us || p->rise_us < s->last.end_us)
        fail(j, "world: a pulse of line %u out of order", line);
    if (told_us < j->tick_us) fail(j, "world: a pulse of line %u behind a later tick", line);
    if (told_us > j->now_us) j->now_us = told_us;
    if (p->is_true) judge_true(j, line, p);
    else s->false_us = p->rise_us;
    follow_run(s, p);
    s->last = *p;
    s->is_any = true;
    j->counts[PULSES]++;
    if (j->now_us < j->lit_us) return;
    j->counts[LIT]++;
    j->lit_us = j->now_us + SECOND_US;
}

/* ---- seconds */

static void come_to(judge *j, uint64_t now_us) {
    const world *w = j->world;
    if (now_us < j->now_us) fail(j, "world: a tick out of order");
    j->now_us = now_us;
    while (j->come < w->seconds + 1 && w->edge_us[j->come + 1] <= now_us) j->come++;
}

/* The lines that may not be told from liars at a tick are as few as may lie. */
static void judge_world(judge *j) {
    int liars = 0;
    for (int i = 0; i < j->lines; i++)
        liars += j->sent[i].false_us > 0 && j->sent[i].false_us + HANDED_ON_US >= j->now_us;
    if (liars > liars_at_most(j) && !j->is_overrun) fail(j, "world: %d lines lie", liars);
}

/* The edge nearest to a time that lies some seconds behind now at most. */
static uint32_t nearest(const judge *j, uint64_t time_us) {
    uint32_t n = j->come + 1;
    while (n > 0 && j->world->edge_us[n] > time_us + SECOND_US / 2) n--;
    return n;
}

static int64_t off(const judge *j, uint64_t time_us, uint32_t n) {
    return (int64_t)(time_us - j->world->edge_us[n]);
}

/* A vote comes at an edge. */
static void judge_vote(judge *j, const irig_second *s, uint64_t edge_us) {
    uint32_t m = nearest(j, edge_us);
    int64_t off_us = off(j, edge_us, m);
    int agreed = __builtin_popcount(s->report.agreed);
    if (agreed <= liars_at_most(j)) fail(j, "a vote of %d lines", agreed);
    if (s->bound_us > vote_us(j) || llabs(off_us) > s->bound_us)
        fail(j, "a vote %lld us off edge %u, within %u us", (long long)off_us, m, s->bound_us);
    bool is_next = j->has_told && j->voted + 1 == (int64_t)m && s->missed == 0 && j->row > 0;
    j->row = is_next ? j->row + 1 : 1;
    j->voted = m;
    j->voted_us = s->bound_us;
    if (j->row >= j->setup.lock_after && !s->report.announces &&
        second_at(j->world, m).day <= LAST_DAY)
        fail(j, "%u votes in a row, and it is silent", j->row);
    if (off_us < j->earliest) j->earliest = off_us;
    if (off_us > j->latest) j->latest = off_us;
}

/* What is announced is T(m) of an edge that is near. */
static void judge_announced(judge *j, const irig_second *s, uint64_t edge_us) {
    const irig_report *r = &s->report;
    int64_t m, age = r->lock == IRIG_LOCK_HOLDOVER ? r->lock_count : 0;
    if (!find_second(j->world, (utc){r->day, r->sod}, &m) || m > (int64_t)j->come + 1) {
        fail(j, "it announces day %u, second %u, which is none", r->day, r->sod);
        return;
    }
    int64_t off_us = off(j, edge_us, (uint32_t)m);
    int64_t drift_us = age * j->world->drift_us;
    int64_t voted_us = j->voted_us > 0 ? j->voted_us : vote_us(j);
    if (s->bound_us > voted_us + drift_us || llabs(off_us) > s->bound_us)
        fail(j, "it announces T(%lld) %lld us off its edge, within %u us, %lld s behind a vote",
             (long long)m, (long long)off_us, s->bound_us, (long long)age);
    if (age > j->setup.holdover) fail(j, "it holds for %lld s", (long long)age);
    if (s->bound_us > voted_us + HELD_MOST_US) fail(j, "it holds within %u us", s->bound_us);
    if (r->cause != (age > 0 ? IRIG_CAUSE_HELD : IRIG_CAUSE_VOTED) ||
        (age > 0) != (r->agreed == 0) || age != m - j->voted)
        fail(j, "it announces T(%lld) by cause %u, %lld s behind the vote at edge %lld",
             (long long)m, r->cause, (long long)age, (long long)j->voted);
    if (m <= j->announced) fail(j, "it announces T(%lld) again", (long long)m);
    if (j->has_told && j->report.announces && m != j->announced + 1 + (int64_t)s->missed)
        fail(j, "T(%lld) behind T(%lld), and %u missed", (long long)m, (long long)j->announced,
             s->missed);
    j->announced = m;
    j->counts[LEAPS] += r->sod == DAY_S;
    j->counts[r->cause == IRIG_CAUSE_VOTED ? VOTED : HELD]++;
    j->counts[LEARNED] += j->voted_us > 0 && s->bound_us < voted_us + drift_us;
}

/* It goes silent behind an announcement only if its holdover is over, or its counter could be half a second
 * wrong, or what follows is not known. */
static void judge_silence(judge *j, const irig_second *s) {
    const irig_report *last = &j->report;
    uint64_t age = last->lock == IRIG_LOCK_HOLDOVER ? last->lock_count : 0;
    uint64_t alone = age + s->missed + (s->report.agreed == 0);
    int64_t day = last->day;
    bool may_guard = is_month_end(day) && j->table.until < day;
    bool may_guard_next = is_month_end(day + 1) && j->table.until < day + 1;
    bool is_guarded = may_guard || (may_guard_next && s->missed > 0);
    int64_t grown_us = age == 0            ? 0
                       : j->voted_us == 0 ? (int64_t)age * j->world->drift_us
                                          : (int64_t)j->bound_us - j->voted_us;
    bool is_spent = grown_us + ((int64_t)s->missed + 1) * j->world->drift_us > HELD_MOST_US;
    if (alone <= j->setup.holdover && !is_spent && !is_guarded && day < LAST_DAY)
        fail(j, "it is silent, cause %u, %u s behind a vote", s->report.cause, (unsigned)alone);
}

/* Each line is in one mask, and one that was true for longer than a frame of the edge before last is
 * old is agreed, or not judged yet, or sent no whole frame that claims a second. */
static void judge_lines(judge *j, const irig_masks *m) {
    int all = (1 << j->lines) - 1;
    int sum = m->agreed + m->apart + m->differed + m->faulty + m->poor + m->broken + m->silent + m->unjudged;
    int any = m->agreed | m->apart | m->differed | m->faulty | m->poor | m->broken | m->silent | m->unjudged;
    if (sum != all || any != all) fail(j, "a line is in no mask, or in two");
    for (int i = 0; i < j->lines; i++) {
        const sent *s = &j->sent[i];
        bool is_true = s->false_us == 0 || s->false_us + TRUE_US < j->now_us;
        bool is_over = second_at(j->world, j->come).day >= LAST_DAY; /* its frames are of no second */
        int wrong = m->apart | m->differed | (is_over ? 0 : m->faulty);
        if (is_true && (wrong >> i & 1))
            fail(j, "line %d was true: apart %u, differed %u, faulty %u", i, m->apart, m->differed,
                 m->faulty);
        j->counts[AGREED] += m->agreed >> i & 1;
        j->counts[APART] += m->apart >> i & 1;
    }
}

/* What is measured of the counter holds the true mean of these seconds. */
static void judge_rate(judge *j, uint64_t edge_us) {
    irig_rate rate = {0};
    uint32_t answer = j->subject->rate ? j->subject->rate(&rate) : IRIG_FAULT_VALUE;
    if (answer == IRIG_FAULT_VALUE) return;
    if (answer != IRIG_DONE) fail(j, "a rate answers %u", answer);
    uint32_t m = nearest(j, edge_us), n = rate.seconds;
    if (n < 1 || n > 2000 || n > m) {
        fail(j, "it measures %u s", (unsigned)n);
        return;
    }
    uint64_t long_ns = 1000 * (j->world->edge_us[m] - j->world->edge_us[m - n]);
    if ((uint64_t)rate.least_ns * n > long_ns || (uint64_t)rate.most_ns * n < long_ns)
        fail(j, "%u s of %llu ns are measured as %u to %u ns each", (unsigned)n,
             (unsigned long long)long_ns, (unsigned)rate.least_ns, (unsigned)rate.most_ns);
    j->counts[MEASURED]++;
}

static void judge_report(judge *j, const irig_second *s, uint64_t edge_us) {
    const irig_report *r = &s->report;
    judge_world(j);
    if (r->cause == IRIG_CAUSE_JUMP) fail(j, "a jump");
    j->counts[EXPIRED] += r->cause == IRIG_CAUSE_EXPIRED;
    j->counts[GUARDED] += r->cause == IRIG_CAUSE_LEAP_GUARD;
    j->counts[ENDED] += r->cause == IRIG_CAUSE_RANGE_END;
    if (!j->has_told && r->agreed == 0) fail(j, "it begins with no vote");
    if (s->moved < j->moves) fail(j, "its edge was moved, and it tells of none");
    if (s->strays > 0) fail(j, "it counts %u strays", s->strays);
    if (s->doubt > 0) fail(j, "it doubts for %u s", s->doubt);
    if (s->against_table) fail(j, "a true table is against the vote");
    if (s->moved > 0) j->voted_us = 0; /* by a vote that told no second */
    judge_rate(j, edge_us);
    judge_lines(j, &s->lines);
    if (r->agreed != 0) judge_vote(j, s, edge_us);
    else j->row = 0;
    if (r->announces) judge_announced(j, s, edge_us);
    else if (j->has_told && j->report.announces) judge_silence(j, s);
}

static void judge_told(judge *j, const irig_second *s) {
    uint32_t gone_us = (uint32_t)j->now_us - s->edge_us;
    uint64_t edge_us = j->now_us - gone_us;
    j->counts[TOLD]++;
    if (gone_us >= WAIT_MOST_US) {
        fail(j, "an edge %u us behind now, or ahead of it", gone_us);
        return;
    }
    if (j->has_told && edge_us < j->edge_us + SECOND_US / 2)
        fail(j, "an edge %lld us behind the last", (long long)(edge_us - j->edge_us));
    if (s->strays < j->strays) fail(j, "%u strays behind %u", s->strays, j->strays);
    if (!j->is_beyond) judge_report(j, s, edge_us);
    bool announce = j->has_told && j->report.announces && s->report.announces;
    j->before_us = announce ? j->edge_us : edge_us;
    j->is_row = announce && s->missed == 0;
    j->has_told = true;
    j->moves = 0;
    j->edge_us = edge_us;
    j->bound_us = s->bound_us;
    j->strays = s->strays;
    j->report = s->report;
}

/* ---- votes that have to come */

static int whole_lines(const judge *j, int64_t frame) {
    int count = 0;
    for (int i = 0; i < j->lines; i++) count += j->sent[i].whole == frame;
    return count;
}

/* The last edge had no vote: the second was told before the last pulses of the lines' frames, by an own
 * edge that was some milliseconds early. It has been moved to the lines' since. */
static void judge_moved(judge *j, uint32_t m) {
    uint32_t wait_us = j->subject->wait((uint32_t)j->now_us);
    int64_t off_us = off(j, j->now_us + wait_us - WAIT_MOST_US, m);
    int64_t told_us = widest_us(j->world) - ENDS_AHEAD_US + MOST_DELAY_US; /* behind the edge */
    int64_t late_us = OWN_LATE_US - (j->world->wander_ppb > 0 ? LEARNED_US : 0);
    bool was_early = j->has_told && off(j, j->edge_us, m) + late_us < told_us;
    if (!was_early || llabs(off_us) > vote_us(j))
        fail(j, "%d lines sent frame %u whole, and edge %u has no vote", whole_lines(j, m - 1),
             m - 1, m);
    else if (j->moved >= 0 && j->moved + 1 == (int64_t)m)
        fail(j, "its edge is moved twice in a row, to %u", m);
    j->moved = m;
    j->moves++;
    j->counts[MOVED]++;
}

/* If enough lines sent the frame before the last edge whole, the vote has come by now. */
static void judge_come(judge *j) {
    uint32_t m = j->come;
    if (j->asked == (int64_t)m || m == 0) return;
    j->asked = m;
    if (whole_lines(j, (int64_t)m - 1) <= liars_at_most(j)) return;
    j->counts[WHOLE]++;
    if (j->voted != (int64_t)m) judge_moved(j, m);
}

/* It has behind the first tick that comes in time behind the edge, */
static void judge_come_by_tick(judge *j) {
    int64_t since_us = off(j, j->now_us, j->come);
    if (since_us >= vote_us(j) && since_us <= IN_TIME_US) judge_come(j);
}

/* and whenever ticks come as `wait` says, as soon as that time is over. */
void judge_time(judge *j, uint64_t now_us) {
    come_to(j, now_us);
    int64_t since_us = off(j, now_us, j->come);
    if (since_us > IN_TIME_US && since_us < SECOND_US / 2 && !j->is_beyond) judge_come(j);
}

void judge_tick(judge *j, uint64_t now_us, uint32_t answer, const irig_second *s, bool is_due) {
    come_to(j, now_us);
    j->tick_us = now_us;
    j->counts[TICKS]++;
    if (answer != IRIG_DONE) fail(j, "a tick answers %u", answer);
    if (s->is_told) judge_told(j, s);
    if (!j->is_beyond) judge_come_by_tick(j);
    if (!is_due || s->is_told) return;
    /* It moved its edge, so the next one is most of a second away. */
    uint32_t wait_us = j->subject->wait((uint32_t)now_us);
    if (wait_us < 900000 || wait_us > WAIT_MOST_US)
        fail(j, "nothing was done at the time that wait gave, and it waits %u us", wait_us);
}

void judge_wait(judge *j, uint32_t wait_us, bool is_behind_tick) {
    if (wait_us > WAIT_MOST_US) fail(j, "it waits %u us", wait_us);
    if (is_behind_tick && wait_us == 0) fail(j, "it waits for nothing");
}

/* A stamp is right if its second's edge lies as near as it says. */
void judge_stamp(judge *j, uint64_t time_us) {
    irig_stamp s = {0};
    int64_t m, held_us = (int64_t)j->setup.holdover * j->world->drift_us;
    int64_t most_us = vote_us(j) + (held_us < HELD_MOST_US ? held_us : HELD_MOST_US);
    uint32_t answer = j->subject->stamp((uint32_t)time_us, &s);
    bool is_behind = j->has_told && j->report.announces && time_us >= j->edge_us;
    bool is_between = j->has_told && time_us >= j->before_us && time_us < j->edge_us;
    uint32_t offset_us = SECOND_US + s.bound_us;
    if (is_between && offset_us < SECOND_US + SECOND_US / 2) offset_us = SECOND_US + SECOND_US / 2 - 1;
    if (answer != IRIG_DONE) {
        if (answer != IRIG_FAULT_VALUE) fail(j, "a stamp answers %u", answer);
        if (is_behind && time_us <= j->edge_us + SECOND_US + j->bound_us)
            fail(j, "no stamp of the last second");
        if (is_between && j->is_row) fail(j, "no stamp between two seconds");
        return;
    }
    if (!find_second(j->world, (utc){s.day, s.sod}, &m) || m > (int64_t)j->come + 1 ||
        !j->has_told) {
        fail(j, "a stamp of day %u, second %u", s.day, s.sod);
        return;
    }
    int64_t off_us = off(j, time_us - s.offset_us, (uint32_t)m);
    if (off_us > s.bound_us || off_us < -(int64_t)s.bound_us || s.bound_us > most_us ||
        s.offset_us > offset_us)
        fail(j, "a stamp %u us behind T(%lld), within %u us, and %lld us off", s.offset_us,
             (long long)m, s.bound_us, (long long)off_us);
    j->counts[STAMPS]++;
}
