/* A timekeeper as irig.h means it, in plain C: what the judge has to pass, and with one thing wrong
 * what it has to find. It owes nothing to the library but the form of its settings and reports. */
#include "rule.h"
#include "subject.h"

#include <string.h>

#define NAME_OF(wrong) #wrong,
const char *const WRONG_NAMES[WRONGS] = {EACH_WRONG(NAME_OF)};
wrong model_wrong;

static const uint32_t AHEAD_US = 14000;
static const int32_t BEFORE_US = 3000; /* what ends longer before the first on which lines agree */
static const uint32_t SERVED_US = 103000; /* and so long a tick has their edge */
static const int32_t LONGEST_US = 980000; /* what is longer is not known */
static const uint32_t HALF_TURN = UINT32_C(1) << 31;
enum { NO_VOTE = MOST_LINES + 1 }; /* more than there are */
enum { LEARN_S = 1000, SECOND_NS = 1000000000 };

typedef struct heard_line {
    irig_sync sync;
    heard heard; /* of a frame, that begins then */
    uint32_t begin_us;
    bool is_heard; /* a pulse within a second */
    /* its last whole frame: whether it may vote, whether it is young, and whether it lasts as long as
     * a frame does */
    bool has_end, is_seen, is_even;
    uint32_t end_us;
    int32_t half_us; /* so far from its end its edge lies at most, if the line is true */
    voice kept;
} heard_line;

/* The second that ended at a told edge. */
typedef struct ended_second {
    bool is_known;
    uint32_t day, sod, edge_us, bound_us;
} ended_second;

/* The interval of the counter in which a voted edge lay, and how many seconds were counted since. */
typedef struct anchor {
    bool is_there;
    uint32_t first_us, last_us, seconds;
} anchor;

/* How long seconds are by the counter, how much longer or shorter one may be, and how far behind its
 * microsecond the own edge lies. All 0 if nothing is learned. */
typedef struct learned {
    uint32_t second_ns, within_ns, rest_ns;
} learned;

static struct {
    plain_reader reader;
    uint8_t lines;
    heard_line line[5];
    bool has_edge;
    uint32_t edge_us, moved, bound_us; /* the last is of the last vote */
    /* By all votes the true edge lies so far behind that one, or before it. */
    bool is_known;
    int32_t least_us, most_us;
    uint32_t strays, doubt;
    anchor old, young; /* the first one serves, or the second one if there is no first */
    learned learned;
    ended_second ended, ended_before;
    irig_wires wires;
    irig_second last, before; /* what was told last, as far as it announces */
} k;

static bool is(wrong one) { return model_wrong == one; }

/* ---- lines */

/* Whether the first and the last pulse of a frame rise 990 ms apart, but for what they may be off. */
static bool is_even(uint32_t begin_us, uint32_t rise_us) {
    int32_t more_us = (int32_t)(rise_us - begin_us - 990000);
    int32_t most_us = 2 * (k.wires.within_us - 1) + k.wires.drift_us - is(LETS_FEWER);
    return is(LETS_UNEVEN) || (more_us <= most_us && more_us >= -most_us);
}

/* How far a clock is off at most that says this quality: ten times as far by each one more, from 4, which
 * is a microsecond; less than that is one, and 0 is right. */
static int32_t clock_off_us(uint32_t quality) {
    int32_t off_us = quality > 0;
    for (uint32_t at = 4; at < quality; at++) off_us *= 10;
    return off_us;
}

/* By how exact lines are, and by what the frame says of its clock. */
static int32_t half_us(const voice *v) {
    uint32_t quality = v->kind == IRIG_TOLD_CLAIM ? bits(&v->frame, 71, 4) : 0;
    if (is(TAKES_WORST)) quality = k.reader.setup.poor_from - 1u;
    return k.wires.within_us - 1 + (is(IGNORES_QUALITY) ? 0 : clock_off_us(quality));
}

static uint8_t hear(uint8_t number, uint32_t rise_us, uint32_t width_us) {
    if (number >= k.lines) return IRIG_NO_PORT;
    if (width_us >= 500000) return 0;
    int32_t delay_us = is(KEEPS_DELAYS) ? 0 : k.wires.delay_us[number];
    rise_us -= (uint32_t)delay_us;
    for (int i = 0; i < k.lines && is(IDLES_BY_OTHERS); i++) idle(&k.line[i].sync, rise_us);
    heard_line *l = &k.line[number];
    uint8_t place = place_of(&l->sync, rise_us, width_us);
    l->is_heard = true;
    if (place == 0) return 0;
    if (place == 1) l->heard.count = 0;
    if (place == 1) l->begin_us = rise_us;
    if (place == 1 && is(FORGETS_CAUGHT)) l->has_end = false;
    hear_pulse(&l->heard, width_us);
    if (place == ELEMENTS && l->heard.count == ELEMENTS) {
        l->has_end = l->is_seen = true;
        l->is_even = is_even(l->begin_us, rise_us);
        l->end_us = rise_us + ELEMENT_US;
        l->kept = voice_of(&k.reader.setup, &l->heard);
        l->half_us = half_us(&l->kept);
    }
    return place;
}

static uint32_t late_us(void) { return is(FORGETS_FAST) ? 8000 : 100000; }

static bool is_kept(const heard_line *l, uint32_t now_us) {
    return l->has_end && now_us + AHEAD_US - l->end_us <= late_us() + AHEAD_US;
}

static bool may_vote(const heard_line *l, uint32_t now_us) {
    return is_kept(l, now_us) && l->is_even;
}

/* What each line tells by a frame that is kept. */
static void voices_at(uint32_t now_us, voice voices[MOST_LINES]) {
    for (int i = 0; i < k.lines; i++) {
        voices[i] =
            is_kept(&k.line[i], now_us) ? k.line[i].kept : (voice){.kind = IRIG_TOLD_SILENCE};
        if (is(IGNORES_MARKS)) voices[i].claim.mark = IRIG_MARK_UNSPOKEN;
    }
}

/* How many it takes. */
static int majority(void) { return is(ONE_IS_ENOUGH) ? 1 : k.lines / 2 + 1; }

/* An edge on which lines agree, and the first line whose claim it is; or none. */
typedef struct agreed_edge {
    const heard_line *first;
    uint32_t edge_us, bound_us;
} agreed_edge;

/* When the edge of a line's frame comes at last, if the line is true. */
static uint32_t last_us(const heard_line *l) { return l->end_us + (uint32_t)l->half_us; }

/* Whether both claim the same, and may vote. */
static bool are_of_one(const heard_line *a, const heard_line *b, uint32_t now_us) {
    voice voices[MOST_LINES];
    voices_at(now_us, voices);
    return may_vote(a, now_us) && may_vote(b, now_us) &&
           (are_one(&voices[a - k.line], &voices[b - k.line]) || is(ANY_CLAIM));
}

/* Whether the edge of the other one may come then, when that of the first one comes at last. */
static bool agrees(const heard_line *one, const heard_line *other, uint32_t now_us) {
    int32_t behind_us = (int32_t)(last_us(one) - other->end_us);
    int32_t more_us = is(AGREES_WIDELY) ? 2000 : 0, less_us = is(AGREES_SHORTLY);
    return are_of_one(one, other, now_us) && behind_us <= other->half_us + more_us &&
           behind_us >= less_us - other->half_us - more_us;
}

static bool agrees_with_enough(const heard_line *one, uint32_t now_us) {
    int count = 0;
    for (int i = 0; i < k.lines; i++) count += agrees(one, &k.line[i], now_us);
    return count >= majority();
}

/* The edges of all frames of a claim, but those that come too long before the last time of one: how far
 * behind that they come at last, and at first; in order. */
typedef struct edges {
    int count;
    int32_t last_us[MOST_LINES], first_us[MOST_LINES];
} edges;

static void put_in_order(int32_t *numbers, int count, int32_t number) {
    int at = count;
    for (; at > 0 && numbers[at - 1] > number; at--) numbers[at] = numbers[at - 1];
    numbers[at] = number;
}

static edges edges_behind(const heard_line *one, uint32_t now_us) {
    edges all = {0};
    int32_t before_us = is(LEAVES_OUT_MORE) ? 1000 : BEFORE_US;
    for (const heard_line *l = k.line; l < k.line + k.lines; l++) {
        int32_t behind_us = (int32_t)(last_us(l) - last_us(one));
        if (!are_of_one(one, l, now_us) || behind_us < -before_us) continue;
        put_in_order(all.last_us, all.count, behind_us);
        put_in_order(all.first_us, all.count, behind_us - 2 * l->half_us);
        all.count++;
    }
    return all;
}

/* The edge lies in the middle between the time by which enough of them come at last, and the one from
 * which on enough do at first. */
static agreed_edge middle(const heard_line *first, uint32_t now_us) {
    edges all = edges_behind(first, now_us);
    int32_t by_us = all.last_us[majority() - 1], from_us = all.first_us[all.count - majority()];
    uint32_t long_us = (uint32_t)(by_us - from_us);
    uint32_t edge_us = last_us(first) + (uint32_t)from_us + long_us / 2;
    uint32_t bound_us = is(BOUNDS_LITTLE) ? (uint32_t)first->half_us : (long_us + 1) / 2;
    bound_us += k.wires.drift_us > 0 && !is(BOUNDS_STEADILY);
    return (agreed_edge){first, is(TAKES_FIRST) ? first->end_us : edge_us, bound_us};
}

/* By the first of those on which lines agree. */
static agreed_edge agreed(uint32_t now_us) {
    const heard_line *first = NULL;
    for (const heard_line *one = k.line; one < k.line + k.lines; one++)
        if (agrees_with_enough(one, now_us) &&
            (!first || (int32_t)(last_us(one) - last_us(first)) < 0))
            first = one;
    return first ? middle(first, now_us) : (agreed_edge){0};
}

/* The earliest end of all that lie near one. */
static uint32_t earliest_near(uint32_t end_us, uint32_t now_us) {
    uint32_t most_us = 0;
    for (int i = 0; i < k.lines; i++) {
        uint32_t before_us = end_us - k.line[i].end_us;
        if (is_kept(&k.line[i], now_us) && before_us < 11000 && before_us > most_us)
            most_us = before_us;
    }
    return end_us - most_us;
}

/* ---- ticks */

static void forget_ends(void) {
    for (int i = 0; i < k.lines; i++) k.line[i].has_end = false;
}

static void drop_anchors(void) { k.old.is_there = k.young.is_there = false; }

/* One that is old is dropped. */
static void count_on(anchor *a, uint32_t seconds) {
    a->seconds += seconds;
    if (a->seconds > 2 * LEARN_S) a->is_there = false;
}

/* What is known of the edge by all votes, so many seconds later, if the true one goes on by so much more than
 * the own one, at least and at most. */
static void carry_between(uint32_t seconds, int32_t least_us, int32_t most_us) {
    if (!k.is_known) return;
    k.least_us += least_us;
    k.most_us += most_us;
    count_on(&k.old, seconds);
    count_on(&k.young, seconds);
    if (k.most_us - k.least_us <= LONGEST_US) return;
    k.is_known = false;
    drop_anchors();
}

/* The same by the drift, if the own edge goes on by seconds of a million and so much more. */
static void carry(uint32_t seconds, int32_t more_us) {
    int32_t drift_us = is(KNOWS_STEADILY) ? 0 : (int32_t)(seconds * k.wires.drift_us);
    carry_between(seconds, -drift_us - more_us, drift_us - more_us);
}

/* To a vote one second later by what is learned, if anything is. */
static void carry_to_vote(uint32_t seconds, int32_t more_us) {
    const learned *by = &k.learned;
    if (seconds != 1 || by->second_ns == 0 || is(WALKS_UNSEEN)) {
        carry(seconds, more_us);
        return;
    }
    int32_t shortest_us = (int32_t)((by->second_ns - by->within_ns) / 1000);
    int32_t longest_us = (int32_t)((by->second_ns + by->within_ns + 999) / 1000);
    int32_t own_us = (int32_t)SECOND_US + more_us;
    carry_between(seconds, shortest_us - own_us, longest_us - own_us);
}

static void doubt(void) {
    uint32_t wanted_s = k.reader.setup.holdover < 1000 ? k.reader.setup.holdover : 1000;
    k.doubt = wanted_s > 0 ? wanted_s : 1;
    k.strays++;
    drop_anchors();
}

/* A vote leaves an anchor if there is none, or the one before is old. */
static void leave_anchor(uint32_t edge_us) {
    if (k.young.is_there && k.young.seconds < LEARN_S) return;
    k.old = k.young;
    k.young = (anchor){true, edge_us + (uint32_t)k.least_us, edge_us + (uint32_t)k.most_us, 0};
}

/* A vote on this edge, to which so many seconds were counted. What is known is known beside it. */
static void know_vote(uint32_t seconds, uint32_t edge_us) {
    int32_t bound_us = (int32_t)k.bound_us;
    bool strays = k.is_known && (k.least_us > bound_us || k.most_us < -bound_us);
    if (strays) doubt();
    else k.doubt -= k.doubt < seconds ? k.doubt : seconds;
    if (k.is_known && (is(CUTS_NEVER) ? !strays : strays && is(STRAYS_FOREVER))) return;
    bool is_new = !k.is_known || strays || is(KNOWS_THE_LAST);
    k.least_us = is_new || k.least_us < -bound_us ? -bound_us : k.least_us;
    k.most_us = is_new || k.most_us > bound_us ? bound_us : k.most_us;
    k.is_known = true;
    leave_anchor(edge_us);
}

/* ---- what is learned of the counter */

/* Of all seconds since the anchor that serves. */
static uint32_t rate(irig_rate *r) {
    const anchor *since = k.old.is_there ? &k.old : &k.young;
    uint32_t seconds = since->seconds;
    if (!k.is_known || !since->is_there || seconds == 0) return IRIG_FAULT_VALUE;
    uint64_t least_us = k.edge_us + (uint32_t)k.least_us - since->last_us;
    uint64_t most_us = k.edge_us + (uint32_t)k.most_us - since->first_us;
    *r = (irig_rate){seconds, (uint32_t)(1000 * least_us / seconds),
                     (uint32_t)((1000 * most_us + seconds - 1) / seconds)};
    return IRIG_DONE;
}

/* By the mean of many seconds each one is known as far as the mean is, and as they wander. That is of use
 * if the drift is more, by a microsecond at least. */
static void learn(void) {
    irig_rate r;
    if (is(LEARNS_ON) && k.doubt > 0) return;
    k.learned = (learned){0};
    if (k.wires.wander_ppb == 0 || rate(&r) != IRIG_DONE) return;
    if (r.seconds < LEARN_S - (is(LEARNS_SOON) ? 1 : 0)) return;
    uint32_t second_ns = r.least_ns + (r.most_ns - r.least_ns) / 2;
    uint32_t within_ns = (r.most_ns - r.least_ns + 1) / 2 + 1;
    if (!is(LEARNS_STEADILY)) within_ns += k.wires.wander_ppb;
    if (within_ns + (is(LEARNS_LITTLE) ? 0 : 1000) > 1000u * k.wires.drift_us) return;
    if (second_ns < SECOND_NS - 100000 || second_ns > SECOND_NS + 100000) return;
    if (is(LEARNS_BACKWARDS)) second_ns = 2 * SECOND_NS - second_ns;
    k.learned = (learned){second_ns, within_ns, 0};
}

/* How much further off than the last vote an edge may be, so many seconds behind it. */
static uint32_t grown_us(uint32_t seconds) {
    uint64_t drift_us = is(BOUNDS_FOREVER) ? 0 : seconds * k.wires.drift_us;
    uint64_t by_ns = seconds * (uint64_t)k.learned.within_ns + (is(HOLDS_SHARPLY) ? 999 : 1999);
    bool is_sharper = k.learned.second_ns > 0 && by_ns / 1000 < drift_us;
    return (uint32_t)(is_sharper ? by_ns / 1000 : drift_us);
}

/* A holdover ends where a second that is counted could lie more than 490 ms off. */
static bool is_spent(uint32_t seconds) {
    const irig_state *held = &k.reader.state;
    uint32_t age = held->kind == IRIG_STATE_LOCKED ? held->age : 0;
    return grown_us(age) + seconds * k.wires.drift_us > 490000 && !is(HOLDS_WHEN_SPENT);
}

/* ---- what lines are */

/* How a frame's end lies to a told edge. */
static uint8_t beside(const heard_line *l, const ended_second *told) {
    int32_t off_us = (int32_t)(l->end_us - told->edge_us);
    int32_t half_us = is(JUDGES_ALIKE) ? k.wires.within_us - 1 : l->half_us;
    int32_t own_us = is(JUDGES_CLOSELY) ? 0 : half_us + (k.wires.drift_us > 0);
    int32_t most_us = own_us + (int32_t)told->bound_us;
    return off_us <= most_us && off_us >= -most_us ? IRIG_LINE_AGREED : IRIG_LINE_APART;
}

static bool claims(const heard_line *l, const ended_second *told) {
    return told->is_known && l->kept.claim.day == told->day && l->kept.claim.sod == told->sod;
}

static uint8_t judged(const heard_line *l) {
    if (!k.ended.is_known) return IRIG_LINE_UNJUDGED;
    int32_t behind_us = (int32_t)(l->end_us - k.ended.edge_us);
    if (behind_us >= SECOND_US / 2) return IRIG_LINE_UNJUDGED;
    if (claims(l, &k.ended)) return beside(l, &k.ended);
    if (claims(l, &k.ended_before) && !is(JUDGES_BY_THE_LAST)) return beside(l, &k.ended_before);
    bool is_of_one_before = behind_us <= -SECOND_US / 2;
    return is_of_one_before && !k.ended_before.is_known && !is(JUDGES_UNKNOWN) ? IRIG_LINE_UNJUDGED
                                                                        : IRIG_LINE_DIFFERED;
}

static uint8_t state_of(const heard_line *l) {
    if (!l->is_seen) return l->is_heard ? IRIG_LINE_BROKEN : IRIG_LINE_SILENT;
    if (l->kept.kind == IRIG_TOLD_FAULT) return IRIG_LINE_FAULTY;
    if (l->kept.kind == IRIG_TOLD_POOR) return IRIG_LINE_POOR;
    return l->is_even ? judged(l) : IRIG_LINE_UNEVEN;
}

static void add_state(irig_masks *m, int line) {
    uint8_t bit = (uint8_t)(1u << line);
    uint8_t *const masks[] = {&m->silent, &m->broken,   &m->faulty, &m->faulty,  &m->poor,
                              &m->unjudged, &m->agreed, &m->apart,  &m->differed};
    uint8_t *mask = masks[state_of(&k.line[line])];
    *mask = (uint8_t)(*mask | bit);
}

/* ---- seconds */

static void say_nothing(irig_report *r) { r->announces = 0, r->day = 0, r->sod = 0; }

/* The reader's rule, but that a step against the table is a stop, unless frames are preferred. */
static void go_on_by(const claim *vote, irig_report *r) {
    if (k.wires.prefers_frames || is(IGNORES_TABLE) || !goes_against_table(&k.reader, vote)) {
        step(&k.reader, vote, r);
    } else {
        memset(&k.reader.state, 0, sizeof k.reader.state);
        r->cause = IRIG_CAUSE_LEAP_GUARD;
    }
}

/* A second that begins at an edge, behind so many that were missed, by a vote of enough lines. */
static void tell(irig_second *s, uint32_t now_us, uint32_t edge_us, uint32_t missed, int enough) {
    voice voices[MOST_LINES];
    irig_report lost;
    uint32_t holdover = k.reader.setup.holdover;
    if (is_spent(missed + 1)) k.reader.setup.holdover = 0;
    for (uint32_t i = 0; i < missed && !is(MISSES_NONE); i++) go_on_by(NULL, &lost);
    voices_at(now_us, voices);
    int voted = vote(voices, k.lines, enough, k.reader.setup.sense, &s->report);
    irig_state held = k.reader.state;
    const claim *by = voted < 0 ? NULL : &k.line[voted].kept.claim;
    s->against_table = is_against_table(&k.reader, by);
    go_on_by(by, &s->report);
    k.reader.setup.holdover = holdover;
    if (voted < 0 && k.doubt > 0 && !is(HOLDS_IN_DOUBT)) say_nothing(&s->report);
    s->is_told = 1;
    s->edge_us = k.edge_us = edge_us;
    uint32_t age = s->report.lock == IRIG_LOCK_HOLDOVER ? s->report.lock_count : 0;
    s->bound_us = k.bound_us + grown_us(age);
    s->missed = missed;
    s->moved = k.moved;
    s->strays = k.strays;
    s->doubt = k.doubt;
    k.ended_before = missed == 0 ? k.ended : (ended_second){0};
    k.ended = (ended_second){voted >= 0 || (s->report.announces && missed == 0),
                             voted >= 0 ? k.line[voted].kept.claim.day : held.day,
                             voted >= 0 ? k.line[voted].kept.claim.sod : held.sod, edge_us,
                             s->bound_us};
    for (int i = 0; i < k.lines; i++) add_state(&s->lines, i);
    k.has_edge = true;
    k.moved = 0;
    bool is_over = voted >= 0 && !s->report.announces && !is(SERVES_ON);
    k.before = is_over ? (irig_second){0} : k.last;
    k.last = *s;
}

static void tell_by_lines(irig_second *s, uint32_t now_us, const agreed_edge *by) {
    uint32_t end_us = by->edge_us;
    k.bound_us = by->bound_us;
    if (is(TAKES_EARLIEST)) end_us = earliest_near(end_us, now_us);
    uint32_t to_us = is(COUNTS_TO_CALL) ? now_us : end_us;
    uint32_t half_us = is(ROUNDS_LOW) ? 400000 : 500000;
    uint32_t count = k.has_edge ? (to_us + half_us - k.edge_us) / SECOND_US : 1;
    uint32_t edge_us = is(CALL_IS_EDGE) ? now_us : end_us;
    carry_to_vote(count, (int32_t)(edge_us - k.edge_us - count * SECOND_US));
    know_vote(count, edge_us);
    if (count == 0 && is(MOVES_NEVER)) count = 1;
    if (count == 0) {
        k.edge_us = edge_us;
        k.moved++;
    } else {
        tell(s, now_us, edge_us, count - 1, majority());
    }
    learn();
    if (!is(KEEPS_ENDS)) forget_ends();
}

/* Frames of more lines than may be untrue that last too long or too short: the counter is off. */
static bool is_unsteady(uint32_t now_us) {
    int uneven = 0;
    for (int i = 0; i < k.lines; i++) uneven += is_kept(&k.line[i], now_us) && !k.line[i].is_even;
    return uneven > k.lines / 2 && !is(TRUSTS_COUNTER);
}

/* How long behind its own edge it counts a second. */
static uint32_t patience_us(void) {
    return is(HAS_NO_PATIENCE) ? 0 : is(HAS_LESS_PATIENCE) ? 5000 : 6000;
}

/* How many seconds have come by its own counter so long behind its edge. */
static uint32_t count_of(uint32_t gap_us) {
    if (k.learned.second_ns == 0 || is(COUNTS_MILLIONS)) return (gap_us - patience_us()) / SECOND_US;
    uint64_t past_ns = 1000 * (uint64_t)(gap_us - SECOND_US - patience_us()) + 999;
    return 1 + (uint32_t)(past_ns / k.learned.second_ns);
}

static void tell_alone(irig_second *s, uint32_t now_us) {
    uint32_t gap_us = now_us - k.edge_us;
    if (is(COUNTS_EARLY) && k.has_edge && gap_us < HALF_TURN) gap_us += SECOND_US / 2;
    if (!k.has_edge || gap_us < SECOND_US + patience_us()) return;
    if (gap_us >= HALF_TURN && !is(GUARDS_NOT)) return;
    if (is_unsteady(now_us)) {
        doubt();
        if (!is(LEARNS_ON)) k.learned = (learned){0};
    }
    uint32_t count = count_of(gap_us), second_ns = k.learned.second_ns;
    uint64_t ahead_ns = k.learned.rest_ns + count * (uint64_t)(second_ns > 0 ? second_ns : SECOND_NS);
    uint32_t ahead_us = (uint32_t)(ahead_ns / 1000);
    carry(count, (int32_t)(ahead_us - count * SECOND_US));
    tell(s, now_us, k.edge_us + ahead_us, count - 1, NO_VOTE);
    k.learned.rest_ns = is(FORGETS_REST) ? 0 : (uint32_t)(ahead_ns % 1000);
    bool goes_on = k.reader.state.kind == IRIG_STATE_LOCKED;
    if (!goes_on && !is(LEARNS_LONG)) k.learned = (learned){0};
}

static uint32_t tick(uint32_t now_us, irig_second *s) {
    memset(s, 0, sizeof *s);
    for (int i = 0; i < k.lines; i++) {
        uint32_t quiet_us = now_us - k.line[i].sync.rise_us;
        if (quiet_us >= SECOND_US && quiet_us < HALF_TURN) k.line[i].is_heard = false;
        if (!is(IDLES_NOT)) idle(&k.line[i].sync, now_us);
        if (!is_kept(&k.line[i], now_us) && !is(TAKES_STALE)) k.line[i].has_end = false;
        uint32_t age_us = now_us + AHEAD_US - k.line[i].end_us;
        if (age_us > 3 * (SECOND_US / 2) + AHEAD_US) k.line[i].is_seen = false;
    }
    agreed_edge by = agreed(now_us);
    uint32_t ahead_us = is(TAKES_AHEAD) ? AHEAD_US : 0;
    uint32_t served_us = is(FORGETS_FAST) ? late_us() : SERVED_US;
    if (by.first && now_us + ahead_us - by.edge_us <= served_us + ahead_us)
        tell_by_lines(s, now_us, &by);
    else tell_alone(s, now_us);
    for (int i = 0; i < k.lines && is(EMPTIES_PORTS); i++) k.line[i].heard.count = 0;
    return IRIG_DONE;
}

/* How long until a time, 0 if it has come. */
static uint32_t until(uint32_t time_us, uint32_t now_us) {
    return time_us - now_us < HALF_TURN ? time_us - now_us : 0;
}

static uint32_t wait(uint32_t now_us) {
    agreed_edge by = agreed(now_us);
    uint32_t long_us = SECOND_US + patience_us() + (is(WAITS_LONG) ? 1000 : 0);
    if (by.first) return until(by.edge_us, now_us);
    return k.has_edge ? until(k.edge_us + long_us, now_us) : SECOND_US;
}

/* A stamp by a second, of what came behind its edge, by a second and the edge's error at most, or
 * before the next edge, which lies so far behind its own, 0 if there is none. */
static bool stamp_by(const irig_second *s, uint32_t next_us, uint32_t time_us, irig_stamp *stamp) {
    const irig_report *r = &s->report;
    uint32_t offset_us = time_us - s->edge_us;
    bool is_row = next_us < SECOND_US + SECOND_US / 2 || is(SERVES_MISSED);
    bool is_between = is_row && offset_us < next_us && !is(LEAVES_HOLES);
    if (!r->announces || (!is_between && offset_us > SECOND_US + s->bound_us)) return false;
    *stamp = (irig_stamp){r->day, r->sod, offset_us, s->bound_us};
    return true;
}

static uint32_t stamp(uint32_t time_us, irig_stamp *stamp) {
    uint32_t next_us = k.last.report.announces ? k.last.edge_us - k.before.edge_us : 0;
    bool is_there =
        stamp_by(&k.last, 0, time_us, stamp) || stamp_by(&k.before, next_us, time_us, stamp);
    return is_there ? IRIG_DONE : IRIG_FAULT_VALUE;
}

/* ---- beginning */

static void restart(void) {
    memset(k.line, 0, sizeof k.line);
    memset(&k.reader.state, 0, sizeof k.reader.state);
    for (int i = 0; i < 5; i++) k.line[i].sync.was_marker = 1;
    k.has_edge = k.has_edge && is(KEEPS_ITS_EDGE);
    k.moved = k.bound_us = k.strays = k.doubt = 0;
    k.ended = k.ended_before = (ended_second){0};
    k.is_known = false;
    drop_anchors();
    k.learned = (learned){0};
    memset(&k.last, 0, sizeof k.last);
    memset(&k.before, 0, sizeof k.before);
}

static uint32_t begin(const irig_setup *setup, const irig_table *table, const irig_wires *wires,
                      uint32_t now_us) {
    (void)now_us;
    bool is_exact = wires->within_us >= 1 && wires->within_us <= 450;
    bool is_steady = wires->drift_us <= 100 && wires->wander_ppb <= 100000;
    if (!is_exact || !is_steady || setup->poor_from > 8) return IRIG_FAULT_VALUE;
    bool learns = wires->wander_ppb > 0;
    if (!learns && (uint64_t)(setup->holdover + 2) * wires->drift_us > 490000) return IRIG_FAULT_DRIFT;
    k.reader.setup = *setup;
    if (setup->poor_from == 0) k.reader.setup.poor_from = 7;
    if (is(HOLDS_LONG)) k.reader.setup.holdover += 5;
    k.wires = *wires;
    k.reader.table = *table;
    k.lines = setup->redundancy == IRIG_PORTS_ONE    ? 1
              : setup->redundancy == IRIG_PORTS_FIVE ? 5
                                                     : 3;
    k.has_edge = false;
    restart();
    return IRIG_DONE;
}

const subject model_subject = {"model", begin, hear, tick, wait, restart, stamp, rate, NULL, NULL, false, false};
