/* What comes of a plant: one device after another lives through all of it, and what each tells is then
 * put in the order of the log. */
#include "plant.h"

#include <stdarg.h>
#include <stdlib.h>
#include <string.h>

enum {
    LINE_LETTERS = 160,
    MOST_ENTRIES = 12000,
    MOST_RISEN = 2048, /* on a line, in 1.2 s */
    STUCK_US = 500000,
    LONGEST_US = 2000000, /* from tick to tick of a device that is ticked as it asks */
    GAP_US = 1799496000
};
static const uint64_t NEVER = UINT64_MAX / 8;
static const uint64_t TURN = UINT64_C(1) << 32;

uint64_t counts[COUNTED];
mistake mistaken;

#define SAID_OF(name, said) said,
const char *const COUNTED_SAID[COUNTED] = {EACH_COUNTED(SAID_OF)};
#define NAME_OF(name) #name,
const char *const MISTAKE_NAMES[MISTAKES] = {EACH_MISTAKE(NAME_OF)};

void give_up(const char *why) {
    fprintf(stderr, "stations: the world is wrong: %s\n", why);
    exit(1);
}

/* ---- what is told */

/* A step is an event, or a part of a stretch of time. */
typedef struct entry {
    uint32_t step;
    bool is_silent;
    char line[LINE_LETTERS];
} entry;

typedef struct told {
    entry entry[MOST_ENTRIES];
    int entries;
    bool is_broken; /* in this step, and the second of this edge */
    uint32_t step;
    uint64_t edge;
} told;

static told told_by[MOST_DEVICES];
static char last_line[LINE_LETTERS];

/* ---- a device */

typedef struct wire {
    bool is_out, is_busy;
    uint32_t late_us;
    uint64_t rise_us, end_us;
} wire;

/* A pulse that has ended: when it rose by the counter, and the element that it is of, or -1. */
typedef struct risen {
    uint64_t rise;
    int64_t element;
} risen;

typedef struct recent {
    risen pulse[MOST_RISEN];
    uint32_t from, to;
} recent;

static struct {
    const plant *plant;
    const device *device;
    told *told;
    uint64_t first, rate; /* of its counter */
    uint64_t now_us, tick_us, send_us;
    wire wire[MOST_LINES];
    recent recent[MOST_LINES];
    uint64_t begun;     /* when it was made or restarted, by the counter, */
    uint64_t last_tick; /* and when it was ticked since, or the same */
    bool has_ticked;
    uint32_t step;
    uint64_t step_us; /* when the step begins */
} d;

static uint64_t count_at(uint64_t time_us) {
    uint64_t past = time_us * d.rate;
    return d.first + (past + (has_mistake(ROUNDS_UP) ? SECOND_US - 1 : 0)) / SECOND_US;
}

/* When the counter shows so much at first. */
static uint64_t time_of(uint64_t count) {
    return count <= d.first ? 0 : ((count - d.first) * SECOND_US + d.rate - 1) / d.rate;
}

/* ---- the audit */

/* When an element begins by the counter. */
static uint64_t place_of_element(int64_t k) {
    uint64_t n = (uint64_t)k;
    return d.first + n / ELEMENTS * d.rate + n % ELEMENTS * d.rate / ELEMENTS;
}

static uint64_t apart(uint64_t a, uint64_t b) { return a > b ? a - b : b - a; }

/* The element of a pulse, or -1. */
static int64_t element_of(unsigned line, uint64_t rise, uint32_t width) {
    uint64_t most = has_mistake(COUNTS_LATE) ? 451 : has_mistake(COUNTS_VERY_LATE) ? 1000 : 450;
    int64_t k = (int64_t)((rise - d.first) * ELEMENTS / d.rate);
    if (apart(rise, place_of_element(k + 1)) < apart(rise, place_of_element(k))) k++;
    if (apart(rise, place_of_element(k)) >= most) return -1;
    if (has_mistake(COUNTS_ANY_SYMBOL)) return k;
    return sent_in[k / ELEMENTS][line].truth[k % ELEMENTS] == symbol_of(width) ? k : -1;
}

/* What rose longer ago than 1.2 s. */
static void forget(recent *r, uint64_t now) {
    uint64_t long_us = has_mistake(FORGETS_SOON)      ? 1000000
                       : has_mistake(FORGETS_SHARPLY) ? 1199999
                                                      : 1200000;
    while (r->from < r->to && r->pulse[r->from % MOST_RISEN].rise + long_us < now) r->from++;
}

static void remember(unsigned line, uint64_t rise, uint32_t width) {
    recent *r = &d.recent[line];
    bool is_forgotten = has_mistake(FORGETS_FLIGHTS) && rise < d.begun;
    if (is_forgotten || (width >= STUCK_US && !has_mistake(COUNTS_WIDE))) return;
    forget(r, rise + width);
    if (r->to - r->from == MOST_RISEN) give_up("too many pulses in 1.2 s");
    r->pulse[r->to++ % MOST_RISEN] = (risen){rise, element_of(line, rise, width)};
}

/* Whether what rose on a line of late makes it untrue. */
static bool is_untrue(unsigned line, uint64_t now) {
    recent *r = &d.recent[line];
    forget(r, now);
    for (uint32_t i = r->from; i < r->to; i++) {
        int64_t element = r->pulse[i % MOST_RISEN].element;
        bool is_again = i > r->from && element == r->pulse[(i - 1) % MOST_RISEN].element;
        if (element < 0 || (is_again && !has_mistake(COUNTS_TWO))) return true;
    }
    return false;
}

static void break_premises(void) {
    told *t = d.told;
    if (t->is_broken) return;
    t->is_broken = true;
    t->step = d.step;
    t->edge = d.step_us / SECOND_US;
}

/* Whether a call that comes now is in time, */
static void ask_for_time(uint64_t now) {
    if (now - d.last_tick < GAP_US) return;
    counts[BROKEN_BY_GAP] += !d.told->is_broken;
    break_premises();
}

/* and few enough lines are untrue. */
static void ask_for_truth(uint64_t now) {
    uint32_t untrue = 0;
    for (unsigned i = 0; i < d.plant->generators; i++) untrue += is_untrue(i, now);
    counts[UNTRUE] += untrue;
    if (untrue > d.plant->generators / 2 + has_mistake(LETS_ONE_MORE)) break_premises();
}

/* ---- ticks */

/* It asks how long to wait, and is never left without a tick for long. It is not ticked twice at one
 * count. */
static void ask_wait(void) {
    uint64_t now = count_at(d.now_us), latest = d.last_tick + LONGEST_US;
    uint64_t due = now + model_subject.wait((uint32_t)now);
    if (due > latest && !has_mistake(PUTS_OFF_TICKS)) due = latest;
    if (d.has_ticked && due <= d.last_tick) due = d.last_tick + 1;
    uint64_t due_us = has_mistake(TICKS_BY_TIME) ? d.now_us + (due - now) : time_of(due);
    d.tick_us = due_us > d.now_us ? due_us : d.now_us;
}

static void set_next_tick(void) {
    const device *by = d.device;
    if (!by->has_poll) ask_wait();
    else d.tick_us = by->poll > 0 ? d.now_us + by->poll : NEVER;
}

static entry *add_entry(void) {
    told *t = d.told;
    if (t->entries == MOST_ENTRIES) give_up("too many entries");
    entry *e = &t->entry[t->entries++];
    e->step = d.step;
    e->is_silent = false;
    return e;
}

static void count_second(const irig_report *r) {
    static const int OF_CAUSE[] = {VOTED,   HELD,    ACQUIRED, TOLD,
                                   EXPIRED, GUARDED, JUMPED,   TOLD};
    counts[TOLD]++;
    if (OF_CAUSE[r->cause] != TOLD) counts[OF_CAUSE[r->cause]]++;
    counts[INSERTED] += r->announces && r->sod == DAY_S;
    counts[DELETED] += r->announces && r->sod == 0 && leap_of(d.plant, (int64_t)r->day - 1) < 0;
}

/* EDGE DEVICE TIME LOCK CAUSE OFF BOUND */
static void tell(uint64_t now, const irig_second *s) {
    static const char *const LOCKS[] = {"unlocked", "acquiring", "locked", "holdover"};
    static const char *const CAUSES[] = {"voted",   "held",       "acquiring", "no-vote",
                                         "expired", "leap-guard", "jump",      "range-end"};
    const irig_report *r = &s->report;
    uint64_t edge = now - (uint32_t)((uint32_t)now - s->edge_us);
    uint64_t n = (edge - d.first + d.rate / 2) / d.rate;
    char time[TIME_LETTERS] = "-", lock[32], bound[16] = "-";
    entry *e = add_entry();
    e->is_silent = !r->announces;
    snprintf(lock, sizeof lock, "%s", LOCKS[r->lock]);
    if (r->lock == IRIG_LOCK_ACQUIRING || r->lock == IRIG_LOCK_HOLDOVER)
        snprintf(lock, sizeof lock, "%s:%u", LOCKS[r->lock], (unsigned)r->lock_count);
    if (r->announces) {
        put_time(time, (utc){r->day, r->sod});
        snprintf(bound, sizeof bound, "%u", (unsigned)s->bound_us);
    }
    snprintf(e->line, sizeof e->line, "%llu %s %s %s %s %+lld %s", (unsigned long long)n,
             d.device->name, time, lock, CAUSES[r->cause],
             (long long)(edge - d.first - n * d.rate), bound);
    count_second(r);
}

static void tick(void) {
    uint64_t now = count_at(d.now_us);
    irig_second s = {0};
    if (!has_mistake(LETS_GAPS)) ask_for_time(now);
    ask_for_truth(now);
    counts[TICKS]++;
    model_subject.tick((uint32_t)now, &s);
    d.last_tick = now;
    d.has_ticked = true;
    if (s.is_told) tell(now, &s);
}

/* ---- pulses */

/* What is on its way has ended. */
static void hear(unsigned line) {
    wire *w = &d.wire[line];
    uint64_t rise = count_at(w->rise_us), width = count_at(d.now_us) - rise;
    uint32_t width_us = width < UINT32_MAX ? (uint32_t)width : UINT32_MAX;
    w->is_busy = false;
    counts[PULSES]++;
    remember(line, rise, width_us);
    uint8_t place = model_subject.hear((uint8_t)line, (uint32_t)rise, width_us);
    if (place == 100 && !d.device->has_poll) ask_wait();
}

static void raise(wire *w, uint64_t rise_us, uint32_t width_us) {
    counts[LOST] += w->is_busy;
    if (w->is_busy && !has_mistake(JOINS_PULSES)) return;
    w->is_busy = true;
    w->rise_us = rise_us;
    w->end_us = rise_us + width_us;
}

static void send(void) {
    static const uint32_t WIDTHS_US[] = {2000, 5000, 8000};
    uint64_t k = d.now_us / ELEMENT_US;
    for (unsigned i = 0; i < d.plant->generators; i++) {
        const sent *s = &sent_in[k / ELEMENTS][i];
        wire *w = &d.wire[i];
        if (s->is_sent && !w->is_out)
            raise(w, d.now_us + w->late_us, WIDTHS_US[s->symbol[k % ELEMENTS]]);
    }
    d.send_us += ELEMENT_US;
}

/* ---- time passes */

/* The line whose pulse ends first, the lowest of those that end together, or -1. */
static int first_end(void) {
    int first = -1;
    for (unsigned i = 0; i < d.plant->generators; i++)
        if (d.wire[i].is_busy && (first < 0 || d.wire[i].end_us < d.wire[first].end_us))
            first = (int)i;
    return first;
}

/* What comes next, in the order in which it comes at one time. */
typedef enum coming { ENDS, IS_TICKED, SENDS } coming;

static uint64_t turn_of(coming one, uint64_t time_us) {
    bool is_first = (one == SENDS && has_mistake(SENDS_FIRST)) ||
                    (one == IS_TICKED && has_mistake(TICKS_FIRST));
    return 4 * time_us + (is_first ? 0 : 1 + (uint64_t)one);
}

/* Plays what falls before a time. */
static void pass_to(uint64_t to_us) {
    for (;;) {
        int line = first_end();
        uint64_t end = turn_of(ENDS, line < 0 ? NEVER : d.wire[line].end_us);
        uint64_t ticked = turn_of(IS_TICKED, d.tick_us), sends = turn_of(SENDS, d.send_us);
        uint64_t next = ticked < sends ? ticked : sends;
        if (end < next) next = end;
        if (next / 4 >= to_us + has_mistake(EVENTS_LAST)) break;
        d.now_us = next / 4;
        if (next == end) hear((unsigned)line);
        else if (next == sends) send();
        else tick(), set_next_tick();
    }
    d.now_us = to_us;
}

/* A stretch of time, cut at true edges. */
static void pass(uint64_t us, uint64_t end_us) {
    uint64_t to_us = d.now_us + us < end_us ? d.now_us + us : end_us;
    while (d.now_us < to_us) {
        uint64_t edge_us = (d.now_us / SECOND_US + 1) * SECOND_US;
        bool is_whole = edge_us > to_us || has_mistake(CUTS_NOTHING);
        d.step_us = has_mistake(NAMES_NEXT_EDGE) ? edge_us : d.now_us;
        pass_to(is_whole ? to_us : edge_us);
        d.step++;
    }
}

/* ---- events */

static void restart(void) {
    model_subject.restart();
    d.begun = d.last_tick = count_at(d.now_us);
    d.has_ticked = false;
    for (int i = 0; i < MOST_LINES; i++) {
        if (!has_mistake(KEEPS_OLD_PULSES)) d.recent[i].from = d.recent[i].to;
        if (has_mistake(RESTART_CLEARS)) d.wire[i].is_busy = false;
    }
    if (!has_mistake(RESTART_TICKS_ON)) set_next_tick();
}

/* @SECONDS.MICROSECONDS DEVICE TIME OFFSET BOUND */
static void stamp(uint32_t ago) {
    uint64_t at_us = d.now_us - ago;
    uint64_t more_us = has_mistake(STAMPS_BEFORE) ? SECOND_US : 0;
    irig_stamp s = {0};
    entry *e = add_entry();
    int begun = snprintf(e->line, sizeof e->line, "@%llu.%06llu %s ",
                         (unsigned long long)(at_us / SECOND_US),
                         (unsigned long long)(at_us % SECOND_US), d.device->name);
    char *rest = e->line + begun, time[TIME_LETTERS];
    size_t room = sizeof e->line - (size_t)begun;
    if (!has_mistake(LETS_STAMPS)) ask_for_time(count_at(d.now_us));
    bool is_given = model_subject.stamp((uint32_t)(count_at(at_us) - more_us), &s) == IRIG_DONE;
    counts[is_given ? STAMPED : UNSTAMPED]++;
    snprintf(rest, room, "- - -");
    if (!is_given) return;
    put_time(time, (utc){s.day, s.sod});
    snprintf(rest, room, "%s %u %u", time, (unsigned)(s.offset_us + more_us), (unsigned)s.bound_us);
}

static void pull(wire *w) {
    w->is_out = true;
    if (has_mistake(LOSES_FLIGHTS)) w->is_busy = false;
}

static void tick_by_hand(void) {
    tick();
    if (!has_mistake(POLLS_ON)) set_next_tick();
}

/* One that passes no time. */
static void happen(const event *e) {
    wire *w = &d.wire[e->g];
    d.step_us = d.now_us;
    switch (e->what) {
    case PULL: pull(w); break;
    case PLUG: w->is_out = false; break;
    case LATE: w->late_us = e->number; break;
    case PULSE: raise(w, d.now_us, e->number); break;
    case TICK: tick_by_hand(); break;
    case RESTART: restart(); break;
    case STAMP: stamp(e->number); break;
    default: break;
    }
}

/* ---- all of a device */

static void begin(const plant *p, uint32_t r) {
    static const uint8_t PORTS[] = {IRIG_PORTS_THREE, IRIG_PORTS_FIVE};
    const device *by = &p->device[r];
    memset(&d, 0, sizeof d);
    d.plant = p;
    d.device = by;
    d.told = &told_by[r];
    memset(d.told, 0, sizeof *d.told);
    d.first = by->counter + TURN;
    d.rate = (uint64_t)(SECOND_US + by->gain);
    for (int i = 0; i < MOST_LINES; i++) d.wire[i].late_us = by->late[i];
    irig_setup setup = {.parity = p->is_odd ? IRIG_PARITY_ODD : IRIG_PARITY_EVEN,
                        .sense = p->is_subtracted ? IRIG_SENSE_SUBTRACT : IRIG_SENSE_ADD,
                        .sbs = p->ignores_sbs ? IRIG_SBS_IGNORE : IRIG_SBS_CHECK,
                        .redundancy = PORTS[p->generators == 5],
                        .lock_after = (uint8_t)by->lock_after,
                        .holdover = by->holdover,
                        .poor_from = 7};
    irig_wires wires = {.within_us = 450, .drift_us = (uint16_t)by->drift};
    d.begun = d.last_tick = count_at(0);
    model_wrong = has_mistake(BOUND_STAYS) ? BOUNDS_FOREVER : NOTHING_WRONG;
    if (model_subject.begin(&setup, &by->table, &wires, (uint32_t)d.begun) != IRIG_DONE)
        give_up("a device does not begin");
    set_next_tick();
}

static void live(const plant *p, uint32_t r, refusal why, uint64_t end_us) {
    begin(p, r);
    for (int i = 0; i < p->events && i <= why.event; i++) {
        const event *e = &p->event[i];
        if (us_of(e) > 0) pass(us_of(e), end_us);
        else if (i < why.event && (e->what == FAULT || e->r == r)) happen(e);
        d.step++;
    }
    uint64_t seconds = d.now_us / SECOND_US;
    counts[DEVICE_S] += seconds;
    if (d.device->has_poll) counts[d.device->poll > 0 ? POLLED_S : BY_HAND_S] += seconds;
    if (r == 0) counts[TRUE_S] += seconds;
    counts[WRAPPED] += (count_at(d.now_us) >> 32) - 1;
}

/* ---- what is wrong, if anything is */

uint64_t us_of(const event *e) {
    if (e->what == PASS) return e->number;
    return e->what == SECONDS ? e->number * (uint64_t)SECOND_US : 0;
}

static uint32_t number_of(const plant *p, const event *e, uint64_t now_us) {
    bool has_device = e->what == PULL || e->what == PLUG || e->what == LATE || e->what == PULSE ||
                      e->what == TICK || e->what == RESTART || e->what == STAMP;
    bool has_generator = e->what == FAULT || e->what == PULL || e->what == PLUG || e->what == LATE ||
                         e->what == PULSE;
    if (has_device && e->r >= p->devices) return 19;
    if (has_generator && e->g >= p->generators) return 20;
    if (e->what == STAMP && e->number > now_us) return 37;
    int64_t seconds = (int64_t)((now_us + us_of(e) + SECOND_US - 1) / SECOND_US);
    return us_of(e) > 0 && seconds_up_to(p, seconds) < seconds ? 22 : 0;
}

refusal refusal_of(const plant *p) {
    uint64_t now_us = 0;
    for (uint32_t r = 0; r < p->devices; r++)
        if ((p->device[r].holdover + 2) * (uint64_t)p->device[r].drift > 490000)
            return (refusal){-1, 35};
    for (int i = 0; i < p->events; i++) {
        uint32_t number = number_of(p, &p->event[i], now_us);
        if (number != 0) return (refusal){i, number};
        now_us += us_of(&p->event[i]);
    }
    return (refusal){p->events, 0};
}

/* The first device whose table misleads it, or none. */
static const device *first_misled(const plant *p) {
    for (const device *by = p->device; by < p->device + p->devices; by++) {
        bool needs_table = by->holdover > 57 || has_mistake(ASKS_FOR_TABLE);
        if (needs_table && !has_mistake(NEEDS_NO_TABLE) && !is_table_true(p, &by->table)) return by;
    }
    return NULL;
}

/* The first one whose counter gains or loses more than its setting says. */
static const device *first_drifting(const plant *p) {
    for (const device *by = p->device; by < p->device + p->devices; by++)
        if ((uint32_t)abs(by->gain) > by->drift && !has_mistake(IGNORES_DRIFT)) return by;
    return NULL;
}

/* The device that broke the premises first in the order of the log, or -1. */
static int first_broken(const plant *p) {
    int first = -1;
    for (int r = 0; r < (int)p->devices; r++)
        if (told_by[r].is_broken && (first < 0 || told_by[r].step < told_by[first].step)) first = r;
    return first;
}

static void say(const char *form, ...) {
    va_list values;
    va_start(values, form);
    vsnprintf(last_line, sizeof last_line, form, values);
    va_end(values);
}

static void say_refused(refusal why) {
    static const struct {
        uint32_t number;
        int counted;
        const char *name;
    } NAMES[] = {{19, NO_DEVICE, "NoSuchReader"}, {20, NO_GENERATOR, "NoSuchGenerator"},
                 {22, NO_SECOND, "EndOfYears"},   {35, TOO_LONG, "Drift"},
                 {37, TOO_EARLY, "BeforeStart"}};
    for (size_t i = 0; i < sizeof NAMES / sizeof *NAMES; i++) {
        if (NAMES[i].number != why.number) continue;
        counts[NAMES[i].counted]++;
        say("refused: line %d: %u %s", why.event + 2, (unsigned)why.number, NAMES[i].name);
    }
}

static void say_last(const plant *p) {
    const device *table = first_misled(p), *drift = first_drifting(p);
    int broken = first_broken(p);
    counts[table ? FALSE_TABLE : drift ? DRIFTS : broken >= 0 ? BROKEN : KEPT]++;
    if (table) say("premises broken: table of device %s", table->name);
    else if (drift) say("premises broken: drift of device %s", drift->name);
    else if (broken >= 0)
        say("premises broken: edge %llu device %s", (unsigned long long)told_by[broken].edge,
            p->device[broken].name);
    else say("premises kept");
}

/* ---- a plant */

static void count_events(const plant *p, refusal why) {
    counts[PLAYED]++;
    counts[OF_FIVE] += p->generators == 5;
    counts[OF_THREE_DEVICES] += p->devices == 3;
    for (int i = 0; i < why.event; i++) {
        counts[PASSES + (int)p->event[i].what]++;
        if (p->event[i].what == FAULT) counts[REPAIRED + (int)p->event[i].fault.kind]++;
    }
}

void play_plant(const plant *p) {
    refusal why = refusal_of(p);
    uint64_t us = 0;
    for (int i = 0; i < p->events; i++) us += us_of(&p->event[i]);
    int64_t seconds = seconds_up_to(p, (int64_t)(us / SECOND_US + 2));
    if (seconds >= MOST_SECONDS_PLAYED) give_up("too many seconds");
    count_events(p, why);
    for (uint32_t r = 0; r < p->devices; r++) told_by[r].entries = 0;
    if (why.event >= 0) {
        make_sent(p, seconds);
        for (uint32_t r = 0; r < p->devices; r++)
            live(p, r, why, (uint64_t)seconds * SECOND_US);
    }
    if (why.number != 0) say_refused(why);
    else say_last(p);
}

void write_log(const plant *p, bool has_all, FILE *to) {
    int at[MOST_DEVICES] = {0};
    for (uint32_t step = 0, left = 1; left > 0; step++) {
        left = 0;
        for (uint32_t r = 0; r < p->devices; r++) {
            const told *t = &told_by[r];
            for (; at[r] < t->entries && t->entry[at[r]].step == step; at[r]++)
                if (has_all || !t->entry[at[r]].is_silent) fprintf(to, "%s\n", t->entry[at[r]].line);
            left += at[r] < t->entries;
        }
    }
    fprintf(to, "%s\n", last_line);
}
