/* Plants by chance, and what happens in them. */
#include "plant.h"

#include <string.h>

enum { FREE_US = 700, GLITCH_US = 300 }; /* so long before an element most lines carry nothing */

/* A plant that is planned, up to the present time. */
typedef struct planner {
    plant *p;
    chance luck;
    uint64_t now_us, until_us;
    bool is_wild; /* any line may lie, and each cable may be late; else as few as may be outvoted */
    uint32_t first_liar;
    uint32_t late[MOST_DEVICES][MOST_LINES]; /* what lines are late now */
} planner;

static uint32_t liars_at_most(const planner *pl) { return pl->p->generators / 2; }

static bool may_lie(const planner *pl, uint32_t g) {
    uint32_t count = pl->p->generators;
    return pl->is_wild || (g + count - pl->first_liar) % count < liars_at_most(pl);
}

static uint32_t any_line(planner *pl) { return below(&pl->luck, pl->p->generators); }

/* A line that may lie. */
static uint32_t any_liar(planner *pl) {
    uint32_t g = any_line(pl);
    while (!may_lie(pl, g)) g = any_line(pl);
    return g;
}

static uint32_t any_device(planner *pl) { return below(&pl->luck, pl->p->devices); }

/* ---- what a plant is made of */

static void add_leap(plant *p, int64_t day, int kind) {
    for (int i = 0; i < p->leaps; i++)
        if (p->leap[i].day == day) return;
    if (day >= 1 && is_month_end(day)) p->leap[p->leaps++] = (leap){day, kind};
}

/* It mostly begins some seconds before a month's end. */
static void plan_start(planner *pl) {
    plant *p = pl->p;
    chance *luck = &pl->luck;
    bool is_last = is_once_in(luck, 25);
    int64_t day = is_last ? LAST_DAY : month_end_before(1 + below(luck, LAST_DAY));
    int leap = !is_last && is_month_end(day) ? ONE_OF(luck, 1, 1, -1, -1, 0) : 0;
    uint32_t most_s = (uint32_t)(pl->until_us / SECOND_US) + 3;
    uint32_t before = is_once_in(luck, 6) ? below(luck, 86000) : below(luck, most_s);
    if (leap != 0) add_leap(p, day, leap);
    for (uint32_t more = below(luck, 3); more > 0; more--)
        add_leap(p, month_end_before(day - 40 * (int64_t)more), ONE_OF(luck, 1, -1));
    p->start = (utc){day, DAY_S + leap - 1 - (int64_t)before};
    p->is_odd = is_once_in(luck, 2);
    p->is_subtracted = is_once_in(luck, 2);
    p->ignores_sbs = is_once_in(luck, 3);
}

static zone plan_zone(chance *luck) {
    return (zone){is_once_in(luck, 3) ? between(luck, -31, 31) : ONE_OF(luck, 0, 0, 2, -10, 31, -31),
                  is_once_in(luck, 3)};
}

static void plan_changes(generator *from, int64_t minute, chance *luck) {
    for (uint32_t more = below(luck, MOST_CHANGES + 1); more > 0; more--) {
        minute += ONE_OF(luck, 1, 1, 2, 60);
        if (minute / 1440 > LAST_DAY) return;
        utc at = {minute / 1440, minute % 1440 * 60};
        from->change[from->changes++] = (change){at, plan_zone(luck)};
    }
}

static void plan_generators(planner *pl) {
    plant *p = pl->p;
    zone usual = plan_zone(&pl->luck);
    bool has_changes = is_once_in(&pl->luck, 2);
    int64_t minute = 1440 * p->start.day + (p->start.second < DAY_S ? p->start.second / 60 : 1439);
    p->generators = is_once_in(&pl->luck, 3) ? 5 : 3;
    pl->first_liar = any_line(pl);
    for (uint32_t g = 0; g < p->generators; g++) {
        p->generator[g].zone = is_once_in(&pl->luck, 3) ? plan_zone(&pl->luck) : usual;
        if (has_changes) plan_changes(&p->generator[g], minute - below(&pl->luck, 2), &pl->luck);
    }
}

/* What is in a table of a leap, or 0 if it is left out. Now and then it is wrong. */
static int plan_said(int leap, bool is_wrong, chance *luck) {
    return !is_wrong ? leap : is_once_in(luck, 2) ? -leap : 0;
}

static void add_said(irig_table *table, int64_t day, int kind) {
    for (uint32_t i = 0; i < table->len; i++)
        if (table->leaps[i].day == day) return;
    if (kind == 0 || day > table->until || !is_month_end(day)) return;
    table->leaps[table->len++] =
        (irig_leap){(uint32_t)day, kind > 0 ? IRIG_LEAP_INSERT : IRIG_LEAP_DELETE};
}

static void plan_table(const plant *p, device *by, chance *luck) {
    int64_t until = p->start.day + ONE_OF(luck, -40, -1, 0, 0, 1, 31, 400);
    bool is_wrong = is_once_in(luck, 4);
    by->has_table = true;
    by->table.until = (uint32_t)(until < 0 ? 0 : until > LAST_DAY ? LAST_DAY : until);
    for (int i = 0; i < p->leaps; i++)
        add_said(&by->table, p->leap[i].day, plan_said(p->leap[i].kind, is_wrong, luck));
    if (is_once_in(luck, 8)) /* one too many, or one of the past, which is not asked for */
        add_said(&by->table, month_end_before(p->start.day + ONE_OF(luck, 50, 0, -50)), 1);
}

/* So late that it matters if lines may be, or within what they may be. */
static uint32_t plan_lateness(planner *pl, bool may_matter) {
    chance *luck = &pl->luck;
    uint32_t kind = below(luck, may_matter ? 6 : 3);
    if (kind == 3) return (uint32_t)between(luck, 447, 452);
    if (kind > 3) return below(luck, 2000);
    return kind == 0 ? 0 : kind == 1 ? below(luck, 440) : (uint32_t)ONE_OF(luck, 350, 100, 448);
}

static uint32_t plan_counter(planner *pl) {
    uint32_t random = (uint32_t)(draw(&pl->luck) >> 32);
    if (is_once_in(&pl->luck, 3)) return is_once_in(&pl->luck, 2) ? 0 : random;
    return 0 - below(&pl->luck, (uint32_t)(pl->until_us < 4000000000 ? pl->until_us : 4000000000));
}

/* Seldom more than a setting says, or than may be. */
static void plan_oscillator(device *by, chance *luck) {
    int32_t drift = ONE_OF(luck, 0, 1, 10, 40, 100);
    int32_t way = is_once_in(luck, 2) ? 1 : -1;
    uint32_t most = drift > 0 ? 490000 / (uint32_t)drift - 2 : 1000000;
    by->drift = (uint32_t)drift;
    by->gain = is_once_in(luck, 2) ? way * drift : between(luck, -drift, drift);
    if (is_once_in(luck, 20)) by->gain = way * ONE_OF(luck, drift + 1, drift + 1, 2 * drift, 1000);
    by->holdover = (uint32_t)ONE_OF(luck, 0, 1, 3, 9, 57, 58, 300, -1);
    if (by->holdover > most) by->holdover = most;
    if (drift > 0 && is_once_in(luck, 60)) by->holdover = most + 1;
}

static void plan_device(planner *pl, uint32_t r) {
    static const char *const NAMES[] = {"relay", "r-1", "recorder", "meter_2", "a123456789_12345", "_"};
    chance *luck = &pl->luck;
    device *by = &pl->p->device[r];
    snprintf(by->name, sizeof by->name, "%s", NAMES[2 * r + below(luck, 2)]);
    plan_oscillator(by, luck);
    by->lock_after = (uint32_t)ONE_OF(luck, 1, 1, 1, 2, 2, 3, 5);
    by->counter = plan_counter(pl);
    by->has_poll = is_once_in(luck, 4);
    by->poll = (uint32_t)ONE_OF(luck, 0, 2000, 20000, 95000, 95000, 300000, 1100000, 3000000);
    bool is_exact = is_once_in(luck, 2);
    for (uint32_t g = 0; g < pl->p->generators; g++)
        pl->late[r][g] = by->late[g] = is_exact ? 0 : plan_lateness(pl, may_lie(pl, g));
    if (is_once_in(luck, 2)) plan_table(pl->p, by, luck);
}

/* ---- what happens: an event each */

static event *add(planner *pl, what kind, uint32_t g, uint32_t r, uint32_t number) {
    static event left_out;
    plant *p = pl->p;
    event *e = p->events < MOST_EVENTS ? &p->event[p->events++] : &left_out;
    *e = (event){.what = kind, .g = g, .r = r, .number = number};
    return e;
}

static void pass(planner *pl, uint64_t us) {
    bool is_whole = us % SECOND_US == 0 && is_once_in(&pl->luck, 2);
    if (us == 0 || pl->p->events >= MOST_EVENTS) return;
    add(pl, is_whole ? SECONDS : PASS, 0, 0, (uint32_t)(is_whole ? us / SECOND_US : us));
    pl->now_us += us;
}

static void pass_to(planner *pl, uint64_t time_us) {
    if (time_us > pl->now_us) pass(pl, time_us - pl->now_us);
}

/* When an element begins that is yet to come by so long. */
static uint64_t element_behind(const planner *pl, uint64_t us) {
    return ((pl->now_us + us) / ELEMENT_US + 1) * ELEMENT_US;
}

static void pass_some(planner *pl) {
    chance *luck = &pl->luck;
    uint64_t edge_us = (pl->now_us / SECOND_US + 1) * SECOND_US;
    uint64_t few_us = (uint64_t)(int64_t)between(luck, -3, 3);
    switch (below(luck, 6)) {
    case 0: pass(pl, 1 + below(luck, 2000)); break;
    case 1: pass_to(pl, element_behind(pl, 3) + few_us); break;
    case 2: pass_to(pl, edge_us + (uint64_t)(int64_t)between(luck, -12000, 12000)); break;
    case 3: pass_to(pl, edge_us + few_us); break;
    case 4: pass(pl, 1 + below(luck, 2000000)); break;
    default: pass(pl, SECOND_US * (uint64_t)(1 + below(luck, 3)));
    }
}

static void stamp(planner *pl, uint32_t r) {
    chance *luck = &pl->luck;
    uint64_t since_us = pl->now_us % SECOND_US + SECOND_US * (uint64_t)below(luck, 4);
    uint64_t near_us = since_us + 600 - below(luck, 1200);
    uint64_t ago = is_once_in(luck, 3)   ? below(luck, 4000001)
                   : is_once_in(luck, 4) ? (uint64_t)ONE_OF(luck, 0, 0, 1, 4000000)
                                         : near_us;
    if (ago > 4000000) ago = 4000000;
    if (ago > pl->now_us && !is_once_in(luck, 40)) ago = pl->now_us;
    add(pl, STAMP, 0, r, (uint32_t)ago);
}

/* How late the line in the middle is: at its edge a device is ticked that waits. */
static uint32_t middle_of(const planner *pl, uint32_t r) {
    uint32_t late[MOST_LINES], count = pl->p->generators;
    for (uint32_t i = 0; i < count; i++) {
        uint32_t at = i;
        for (; at > 0 && late[at - 1] > pl->late[r][i]; at--) late[at] = late[at - 1];
        late[at] = pl->late[r][i];
    }
    return late[count / 2];
}

static uint64_t next_tick(const planner *pl, uint32_t r) {
    return (pl->now_us / SECOND_US + 1) * SECOND_US + middle_of(pl, r);
}

static void stamp_at_tick(planner *pl, uint32_t r) {
    pass_to(pl, next_tick(pl, r) + (uint64_t)(int64_t)between(&pl->luck, -1, 3));
    add(pl, STAMP, 0, r, below(&pl->luck, 2));
}

/* Of a generator that may lie; or one that does no harm. */
static void set_fault(planner *pl) {
    chance *luck = &pl->luck;
    uint32_t g = any_line(pl);
    fault f = {(fault_kind)between(luck, SILENT, FAULTS - 1), 0};
    if (!may_lie(pl, g)) f.kind = is_once_in(luck, 2) ? SILENT : POOR_QUALITY;
    if (f.kind == SKEW)
        f.by = is_once_in(luck, 9) ? (int32_t)(draw(luck) >> 32) : ONE_OF(luck, 1, 1, -1, 2, 5, -70, 61);
    if (f.kind == WRONG_OFFSET) f.by = is_once_in(luck, 4) ? between(luck, -62, 62) : ONE_OF(luck, 1, -1, 2);
    if (f.kind == POOR_QUALITY) f.by = ONE_OF(luck, 1, 4, 5, 6, 7, 8, 9, 10, 15);
    if (f.kind == FALSE_PENDING) f.by = ONE_OF(luck, 0, 1);
    add(pl, FAULT, g, 0, 0)->fault = f;
}

/* ---- some events together */

static void lose_pulses(planner *pl, uint32_t r) {
    uint32_t g = any_line(pl);
    pass_to(pl, element_behind(pl, 0) - (uint64_t)ONE_OF(&pl->luck, 1, 10, 400));
    add(pl, PULL, g, r, 0);
    pass(pl, (uint64_t)ELEMENT_US * (1 + below(&pl->luck, is_once_in(&pl->luck, 2) ? 1 : 120)));
    add(pl, PLUG, g, r, 0);
}

static void go_dark(planner *pl, uint32_t r) {
    uint32_t most_s = (uint32_t)ONE_OF(&pl->luck, 2, 4, 4, 12, 12, 80);
    for (uint32_t g = 0; g < pl->p->generators; g++) add(pl, PULL, g, r, 0);
    pass(pl, SECOND_US * (uint64_t)(1 + below(&pl->luck, most_s)));
    if (is_once_in(&pl->luck, 2)) stamp(pl, r);
    for (uint32_t g = 0; g < pl->p->generators; g++) add(pl, PLUG, g, r, 0);
}

static void make_late(planner *pl, uint32_t g, uint32_t r, uint32_t us) {
    pl->late[r][g] = us;
    add(pl, LATE, g, r, us);
}

static uint32_t any_width(chance *luck) {
    return (uint32_t)ONE_OF(luck, 0, 1, 300, 300, 499, 500, 2000, 3499, 3500, 5000, 6499, 6500, 8000, 9499,
                            9500, 12000, 499999, 500000, 700000, 3000000, -1);
}

/* Somewhere; or where a line carries nothing, and then now and then just up to the next element. */
static void send_glitch(planner *pl, uint32_t r) {
    uint32_t width = any_width(&pl->luck);
    bool is_between = is_once_in(&pl->luck, 2);
    if (is_between) pass_to(pl, element_behind(pl, FREE_US) - FREE_US);
    if (is_between && is_once_in(&pl->luck, 3)) width = FREE_US;
    add(pl, PULSE, any_liar(pl), r, width);
}

/* A pulse of this width in place of one, so many us off its place. */
static void replace(planner *pl, uint32_t g, uint32_t r, uint64_t element_us, int32_t off_us,
                    uint32_t width) {
    pass_to(pl, element_us - 600);
    add(pl, PULL, g, r, 0);
    pass_to(pl, element_us + (uint64_t)(int64_t)off_us);
    add(pl, PULSE, g, r, width);
    pass_to(pl, element_us + 600);
    add(pl, PLUG, g, r, 0);
}

/* The next element behind a time that is one of these in its second. */
static uint64_t next_of(const planner *pl, unsigned first, unsigned each) {
    uint64_t us = element_behind(pl, 2000);
    while (us / ELEMENT_US % ELEMENTS % each != first) us += ELEMENT_US;
    return us;
}

/* A marker, so that its symbol is known; often as far off as it may be. */
static void replace_marker(planner *pl, uint32_t g, uint32_t r) {
    int32_t off_us = is_once_in(&pl->luck, 3) ? between(&pl->luck, -500, 500)
                                              : ONE_OF(&pl->luck, -451, -450, -449, 449, 450, 451);
    replace(pl, g, r, next_of(pl, 9, 10), off_us, (uint32_t)ONE_OF(&pl->luck, 8000, 8000, 8000, 6500, 5000));
}

/* Any element, or one of the control bits, by a symbol that it may have. */
static void replace_bit(planner *pl, uint32_t g, uint32_t r) {
    unsigned bit = (unsigned)ONE_OF(&pl->luck, 60, 61, 62, 62, 62, 63, 64, 70, 75);
    uint64_t element_us = is_once_in(&pl->luck, 4) ? element_behind(pl, 2000) : next_of(pl, bit, ELEMENTS);
    replace(pl, g, r, element_us, 0, (uint32_t)ONE_OF(&pl->luck, 2000, 5000, 5000, 8000));
}

/* Two pulses in place of one that is a zero in each frame. */
static void send_two(planner *pl, uint32_t g, uint32_t r) {
    uint64_t element_us = next_of(pl, 34, 100);
    pass_to(pl, element_us - 600);
    add(pl, PULL, g, r, 0);
    pass_to(pl, element_us - 430);
    add(pl, PULSE, g, r, 501);
    pass_to(pl, element_us + 90);
    add(pl, PULSE, g, r, 501);
    pass_to(pl, element_us + 1000);
    add(pl, PLUG, g, r, 0);
}

/* The frame of a second, pulse by pulse, on one line or alike on two, where it belongs or beside that. */
static void send_frame(planner *pl, uint32_t r) {
    chance *luck = &pl->luck;
    uint32_t g = any_liar(pl), other = is_once_in(luck, 2) ? any_liar(pl) : g;
    uint8_t symbol[ELEMENTS];
    int64_t n = (int64_t)(pl->now_us / SECOND_US) + 1;
    int64_t off_us = ONE_OF(luck, 0, 0, 100, 449, 451, 900, -300, 5000);
    uint64_t at_us = (uint64_t)(n * SECOND_US + off_us);
    if (!make_plain(pl->p, g, n + ONE_OF(luck, -1, 0, 0, 1, 1, 2, 7), symbol)) return;
    pass_to(pl, at_us - 1000);
    add(pl, PULL, g, r, 0);
    add(pl, PULL, other, r, 0);
    for (uint64_t k = 0; k < ELEMENTS; k++) {
        uint32_t width = symbol[k] == IRIG_SYMBOL_MARKER ? 8000 : symbol[k] == IRIG_SYMBOL_ONE ? 5000 : 2000;
        pass_to(pl, at_us + k * ELEMENT_US);
        add(pl, PULSE, g, r, width);
        if (other != g) add(pl, PULSE, other, r, width);
    }
    pass_to(pl, at_us + SECOND_US - 1000);
    add(pl, PLUG, g, r, 0);
    add(pl, PLUG, other, r, 0);
}

/* ---- at the bounds of what may be: as many lines are untrue as may, and then one more, or just not */

static void send_false(planner *pl, uint32_t g, uint32_t r) { add(pl, PULSE, g, r, GLITCH_US); }

/* It ends when the device is ticked; the others are forgotten at the next tick. */
static void end_at_tick(planner *pl, uint32_t g, uint32_t r) {
    pass_to(pl, next_tick(pl, r) - GLITCH_US);
    send_false(pl, g, r);
}

/* All that is false rises before a restart, and ends before it or behind it. */
static void restart_behind(planner *pl, uint32_t g, uint32_t r) {
    send_false(pl, g, r);
    pass(pl, is_once_in(&pl->luck, 2) ? GLITCH_US / 2 : GLITCH_US + 1);
    add(pl, RESTART, 0, r, 0);
}

/* When the counter has gone on so far behind a time. */
static uint64_t gone_by_counter(const planner *pl, uint32_t r, uint64_t from_us, uint64_t count) {
    uint64_t rate = (uint64_t)(SECOND_US + pl->p->device[r].gain);
    return ((from_us * rate / SECOND_US + count) * SECOND_US + rate - 1) / rate;
}

/* A tick when the first of what is false is 1.2 s old, or 1 us older or younger. */
static void tick_at_bound(planner *pl, uint32_t g, uint32_t r, uint64_t from_us) {
    uint64_t old_us = (uint64_t)(1200000 + between(&pl->luck, -1, 2));
    pass_to(pl, from_us + 900000);
    send_false(pl, g, r);
    pass_to(pl, gone_by_counter(pl, r, from_us, old_us));
    add(pl, TICK, 0, r, 0);
}

static void go_to_bound(planner *pl, uint32_t r) {
    uint32_t first = any_line(pl), count = pl->p->generators, one = (first + count / 2) % count;
    uint64_t second_us = pl->now_us / SECOND_US * SECOND_US;
    uint32_t usual_us = pl->late[r][one];
    bool is_early = is_once_in(&pl->luck, 4);
    pass_to(pl, second_us + SECOND_US + (is_early ? 110000 : 310000) - FREE_US);
    uint64_t from_us = pl->now_us;
    for (uint32_t i = 0; i < count / 2; i++) send_false(pl, (first + i) % count, r);
    switch (is_early ? 7 : below(&pl->luck, 7)) {
    case 7: end_at_tick(pl, one, r); break;
    case 6: restart_behind(pl, one, r); break;
    case 0: tick_at_bound(pl, one, r, from_us); break;
    case 1: send_two(pl, one, r); break;
    case 2: replace_marker(pl, one, r); break;
    case 3: /* what is half a second wide is no pulse */
        add(pl, PULSE, one, r, 500000 + (uint32_t)between(&pl->luck, -55, 55));
        break;
    case 4: /* one pulse is late */
        pass(pl, 50000);
        make_late(pl, one, r, (uint32_t)between(&pl->luck, 447, 453));
        pass(pl, ELEMENT_US);
        make_late(pl, one, r, usual_us);
        break;
    default: replace_bit(pl, one, r);
    }
}

/* ---- all that happens */

/* One thing that does no harm to a plant whose lines do not lie. */
static void do_little(planner *pl, uint32_t r) {
    uint32_t g = any_line(pl);
    switch (below(&pl->luck, 9)) {
    case 0: lose_pulses(pl, r); break;
    case 1: add(pl, PULL, g, r, 0); break;
    case 2:
    case 3: add(pl, PLUG, g, r, 0); break;
    case 4: make_late(pl, g, r, plan_lateness(pl, may_lie(pl, g))); break;
    case 5: go_dark(pl, r); break;
    case 6: add(pl, TICK, 0, r, 0); break;
    case 7:
        if (is_once_in(&pl->luck, 3)) add(pl, RESTART, 0, r, 0);
        break;
    default: add(pl, FAULT, g, 0, 0)->fault = (fault){NO_FAULT, 0};
    }
}

static void do_harm(planner *pl, uint32_t r) {
    switch (below(&pl->luck, 6)) {
    case 0:
    case 1: set_fault(pl); break;
    case 2: send_glitch(pl, r); break;
    case 3: replace_marker(pl, any_liar(pl), r); break;
    case 4:
        if (is_once_in(&pl->luck, 4)) send_frame(pl, r);
        break;
    default:
        if (pl->is_wild) go_to_bound(pl, r);
    }
}

static void do_something(planner *pl) {
    chance *luck = &pl->luck;
    uint32_t r = any_device(pl);
    if (is_once_in(luck, 600)) add(pl, TICK, 0, pl->p->devices, 0);
    if (is_once_in(luck, 600)) add(pl, PULL, pl->p->generators, r, 0);
    if (is_once_in(luck, 8)) stamp_at_tick(pl, r);
    else if (is_once_in(luck, 3)) stamp(pl, r);
    else if (is_once_in(luck, 2)) do_little(pl, r);
    else do_harm(pl, r);
    if (is_once_in(luck, 2)) pass_some(pl);
}

static void plan_events(planner *pl) {
    if (!is_once_in(&pl->luck, 4)) pass(pl, SECOND_US * (uint64_t)(2 + below(&pl->luck, 3)));
    while (pl->now_us < pl->until_us && pl->p->events < MOST_EVENTS - 250) do_something(pl);
    pass_some(pl);
    for (uint32_t r = 0; r < pl->p->devices; r++) stamp(pl, r);
}

/* A device that is ticked by hand alone, and then for half an hour not. */
static void plan_gap(planner *pl) {
    uint64_t gap_us = (uint64_t)(1799496000 + between(&pl->luck, -2, 1));
    pl->p->device[0].has_poll = true;
    pl->p->device[0].poll = 0;
    for (int i = 0; i < 60; i++) {
        pass(pl, 90000);
        add(pl, TICK, 0, 0, 0);
    }
    uint64_t to_us = gone_by_counter(pl, 0, pl->now_us, gap_us);
    pass(pl, 900000000);
    pass_to(pl, to_us);
    add(pl, is_once_in(&pl->luck, 2) ? TICK : STAMP, 0, 0, 1000);
    pass(pl, 3000000);
    add(pl, TICK, 0, 0, 0);
}

void plan(plant *p, uint64_t seed, uint64_t number) {
    planner pl = {.p = p, .luck = {seed * UINT64_C(0x2545f4914f6cdd1d) + number}};
    draw(&pl.luck);
    bool is_gap = number % 100 == 17;
    uint32_t most_s = is_once_in(&pl.luck, 10) ? 100 : 30;
    memset(p, 0, sizeof *p);
    pl.is_wild = is_once_in(&pl.luck, 2) && !is_gap;
    pl.until_us = SECOND_US * (uint64_t)(is_gap ? 1900 : 4 + below(&pl.luck, most_s));
    plan_start(&pl);
    plan_generators(&pl);
    p->devices = is_gap ? 1 : (uint32_t)ONE_OF(&pl.luck, 1, 1, 2, 2, 3);
    for (uint32_t r = 0; r < p->devices; r++) plan_device(&pl, r);
    if (is_gap) plan_gap(&pl);
    else plan_events(&pl);
}
