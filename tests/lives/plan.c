#include "device.h"

#include <string.h>

enum { TURN_S = 4295, AGAIN_S = 120 };

/* What a life is long for. */
typedef enum length { SHORT, LONG, TURN, LEARNING, LENGTHS } length;

/* A number up to a bound, each size as often. */
static uint32_t of_any_size(chance *luck, uint32_t most) {
    uint32_t bits = 0;
    while (bits < 31 && most >> bits > 1) bits++;
    uint32_t least = 1u << below(luck, bits + 1);
    uint32_t number = least + below(luck, least);
    return number < most ? number : most;
}

/* ---- settings */

static void plan_setup(life *l, chance *luck) {
    static const uint8_t PORTS[] = {IRIG_PORTS_THREE, IRIG_PORTS_FIVE, IRIG_PORTS_ONE};
    uint32_t kind = (uint32_t)ONE_OF(luck, 0, 0, 0, 0, 0, 0, 0, 1, 1, 2);
    l->sky.lines = kind == 0 ? 3 : kind == 1 ? 5 : 1;
    l->world.within_us = (uint32_t)ONE_OF(luck, 450, 450, 450, 50, 10, 1);
    if (is_once_in(luck, 8)) l->world.within_us = 1 + below(luck, 450);
    if (l->only_within_us > 0) l->world.within_us = l->only_within_us;
    l->world.drift_us = (uint32_t)ONE_OF(luck, 0, 1, 10, 100, 100);
    l->world.wander_ppb = 0;
    uint32_t most = l->world.drift_us ? 490000 / l->world.drift_us - 2 : 1000000;
    uint32_t holdover = (uint32_t)ONE_OF(luck, 0, 1, 5, 20, 60, 300, 1000000);
    if (holdover == 1000000) holdover = most;
    else if (holdover > 1) holdover = 1 + below(luck, holdover);
    l->setup = (irig_setup){
        .parity = (uint8_t)below(luck, 2),
        .sense = (uint8_t)below(luck, 2),
        .sbs = (uint8_t)below(luck, 2),
        .redundancy = PORTS[kind],
        .lock_after = (uint8_t)ONE_OF(luck, 1, 1, 2, 2, 3, 3, 3, 4, 5, 5, 9, 20),
        .holdover = holdover,
    };
    int32_t any = 1 + (int32_t)below(luck, 8);
    l->setup.poor_from = (uint8_t)ONE_OF(luck, 0, 0, 7, 8, 8, any);
    l->world.poor_from = l->setup.poor_from > 0 ? l->setup.poor_from : 7;
    l->world.is_odd = l->setup.parity == IRIG_PARITY_ODD;
    l->world.is_subtracted = l->setup.sense == IRIG_SENSE_SUBTRACT;
}

/* Often so little that seconds are learned well, or just so much that nothing is learned. */
static void plan_wander(world *w, chance *luck) {
    int32_t most = 1000 * ((int32_t)w->drift_us - 1) - between(luck, 0, 2 * (int32_t)w->within_us);
    int32_t wander = ONE_OF(luck, 1, 2, 10, 100, 1000, 1000, 5000, 20000, most);
    if (wander > most) wander = is_once_in(luck, 4) ? 100000 : most / 2;
    w->wander_ppb = wander > 0 ? (uint32_t)wander : 1;
}

/* A counter of which there is something to learn. */
static void plan_counter(life *l, chance *luck) {
    l->world.drift_us = (uint32_t)ONE_OF(luck, 100, 100, 50, 10, 3);
    plan_wander(&l->world, luck);
}

/* Half of the lives have no delays, else each line may be as late or as early as may be. */
static void plan_delays(world *w, chance *luck) {
    bool is_any = is_once_in(luck, 2);
    for (int i = 0; i < MOST_LINES; i++) {
        int32_t by_us = is_once_in(luck, 2) ? between(luck, -MOST_DELAY_US, MOST_DELAY_US)
                                            : ONE_OF(luck, -MOST_DELAY_US, 0, MOST_DELAY_US);
        w->delay_us[i] = is_any ? by_us : 0;
    }
}

static void plan_time(life *l, chance *luck) {
    world *w = &l->world;
    uint32_t days = w->seconds / DAY_S + 2;
    w->leap_day = -1;
    w->leap = 0;
    w->first.day = 1 + below(luck, LAST_DAY - days);
    w->first.second = below(luck, DAY_S);
    bool is_last = is_once_in(luck, 100) && w->seconds < DAY_S;
    if (is_last) w->first.day = LAST_DAY; /* over the end of what is served */
    else if (is_once_in(luck, 4)) return;
    else w->first.day = month_end_before(w->first.day);
    uint32_t before = w->seconds < DAY_S ? w->seconds : DAY_S;
    w->first.second = DAY_S - 1 - below(luck, before);
    if (!is_month_end(w->first.day)) return;
    w->leap_day = w->first.day;
    w->leap = ONE_OF(luck, -1, 0, 1);
}

/* A table that is true, of the past too; or none. */
static void plan_table(life *l, chance *luck) {
    const world *w = &l->world;
    memset(&l->table, 0, sizeof l->table);
    if (is_once_in(luck, 2)) return;
    int64_t until = w->first.day + ONE_OF(luck, -40, -1, 0, 1, 30, 400);
    l->table.until = (uint32_t)(until < LAST_DAY ? until > 0 ? until : 0 : LAST_DAY);
    if (w->leap != 0 && l->table.until >= w->leap_day)
        l->table.leaps[l->table.len++] =
            (irig_leap){(uint32_t)w->leap_day, w->leap > 0 ? IRIG_LEAP_INSERT : IRIG_LEAP_DELETE};
    int64_t day = month_end_before(w->first.day - 1);
    for (uint32_t more = below(luck, 6); more > 0 && day > 200; more--) {
        day = month_end_before(day - 1 - below(luck, 90));
        if (day <= l->table.until && day > 1)
            l->table.leaps[l->table.len++] = (irig_leap){(uint32_t)day, below(luck, 2)};
    }
}

static uint64_t plan_start(const life *l, chance *luck) {
    uint64_t turn_us = UINT64_C(3) << 32;
    uint64_t within_s = l->world.seconds < 100 ? l->world.seconds : 100;
    return is_once_in(luck, 2) ? turn_us - draw(luck) % (within_s * SECOND_US)
                               : turn_us + (draw(luck) >> 32);
}

/* ---- lines */

void begin_lines(life *l, uint64_t start_us, walk kind, chance *luck) {
    make_edges(&l->world, start_us, kind, luck);
    l->sky.world = &l->world;
    l->sky.darks = l->sky.lies = 0;
    memset(l->sky.line, 0, sizeof l->sky.line);
}

/* What its clock says of itself, the worst that has a vote as often as any other; and how far off it is. */
static void plan_clock(line *l, world *w, unsigned number, chance *luck) {
    l->quality = is_once_in(luck, 2) ? w->poor_from - 1 : below(luck, w->poor_from);
    l->says_any = is_once_in(luck, 4);
    l->walks = l->quality > 0 && is_once_in(luck, 2);
    make_clock(w, number, quality_us(l->quality) - l->walks, l->walks, luck);
}

/* Half of them are of one zone. */
static void plan_line(line *l, const world *w, int32_t zone, chance *luck) {
    int32_t most_us = jitter_us(w);
    l->spread = (spread)below(luck, SPREADS);
    l->offset_us = is_once_in(luck, 2) ? (is_once_in(luck, 2) ? -most_us : most_us)
                                       : between(luck, -most_us, most_us);
    l->width = (width)below(luck, WIDTHS);
    l->zone = is_once_in(luck, 2) ? zone : between(luck, -31, 31);
    l->dst = is_once_in(luck, 4);
    l->harm_one_in = (uint32_t)ONE_OF(luck, 0, 0, 4, 15, 60);
}

static void plan_darkness(life *l, chance *luck) {
    for (uint32_t count = below(luck, 4); count > 0; count--) {
        uint32_t from = below(luck, l->world.seconds),
                 length = of_any_size(luck, l->world.seconds / 2);
        unsigned lines = is_once_in(luck, 2) ? 31 : below(luck, 31) + 1;
        l->sky.dark[l->sky.darks++] = (dark){from, from + length, lines};
    }
}

/* ---- lies */

/* How far behind a frame of that quality one of this quality ends, so that their edges may just be one,
 * or the last time of one lies with that of the other, or just so far off that it has no part. */
static int32_t plan_bound(const world *w, uint32_t said, uint32_t other, chance *luck) {
    int32_t both_us = half_of(w, said) + half_of(w, other);
    int32_t even_us = half_of(w, other) - half_of(w, said);
    return ONE_OF(luck, -both_us, -both_us, both_us, both_us, even_us, even_us - 3000,
                  even_us - 3000, even_us + 3000) +
           ONE_OF(luck, -1, 0, 0, 1);
}

static int32_t plan_shift(const lie *told, const sky *s, chance *luck) {
    int32_t most_us = jitter_us(s->world);
    switch (told->aim) {
    case AT_PLACE: return between(luck, -most_us, most_us);
    case AT_BOUND:
        return is_once_in(luck, 4)
                   ? ONE_OF(luck, 0, -10100, -9000, 500, 1000, -1000, -most_us, most_us)
                   : plan_bound(s->world, told->quality, s->line[told->target].quality, luck);
    case SHIFTED:
        return is_once_in(luck, 2)
                   ? between(luck, -500000, 500000)
                   : ONE_OF(luck, -500000, 500000, -2000, 2000, -20000, 20000, 8000, -2999);
    case WALKING: return between(luck, -2000, 2000);
    default:
        return ONE_OF(luck, -500000, 500000, 499999, -499999, -4000, 4000, 5999, 6000, 99999,
                      -99999, 100001, -7000);
    }
}

static lie plan_lie(chance *luck, const sky *s) {
    lie told = {.seed = draw(luck)};
    uint32_t poor_from = s->world->poor_from;
    told.manner = (manner)ONE_OF(luck, 0, 0, 0, 0, 0, 0, 0, 0, NOISE, STUCK);
    told.saying = (saying)ONE_OF(luck, SAYS_TRUTH, SAYS_OTHER, SAYS_OTHER, SAYS_LEAP, SAYS_POOR,
                                 SAYS_ANY, SAYS_WRONGLY);
    told.aim = (aim)below(luck, AIMS);
    told.harm = (harm)ONE_OF(luck, 0, 0, 0, 0, CUT, TRAILED, LAST_MOVED, GLITCHES, HOLES);
    told.by = is_once_in(luck, 2) ? ONE_OF(luck, -1, 1)
                                  : ONE_OF(luck, -2, 2, 60, -60, 3600, -TURN_S, 86400, 7);
    told.quality = is_once_in(luck, 2) ? poor_from - 1 : below(luck, poor_from);
    told.target = (uint8_t)below(luck, s->lines);
    told.shift_us = plan_shift(&told, s, luck);
    told.rate_us =
        is_once_in(luck, 2) ? between(luck, -1000, 1000) : ONE_OF(luck, -1, 1, -100, 100, 1000);
    told.spacing_us = is_once_in(luck, 3) ? (uint32_t)between(luck, 9000, 10999) : ELEMENT_US;
    if (is_once_in(luck, 20)) told.spacing_us = (uint32_t)ONE_OF(luck, 9000, 10999, 5000);
    if (told.aim == AT_BOUND && is_once_in(luck, 2)) told.saying = SAYS_TRUTH;
    return told;
}

/* How much earlier than it rises a pulse may reach the device. */
static uint32_t early_us(const world *w) {
    int32_t least_us = 0;
    for (int i = 0; i < MOST_LINES; i++)
        if (w->delay_us[i] < least_us) least_us = w->delay_us[i];
    return (uint32_t)-least_us;
}

/* Lies of one line at a time, handed from line to line of some; or those of another, by a line that
 * colludes with it. */
static void plan_liar(life *l, const uint8_t *lines, uint32_t count, uint32_t from, chance *luck) {
    sky *s = &l->sky;
    uint64_t time_us = l->world.edge_us[from] + below(luck, 8000000);
    uint64_t end_us = l->world.edge_us[l->world.seconds];
    bool is_patient = is_once_in(luck, 3);
    uint32_t most = (uint32_t)ONE_OF(luck, 3, 10, 60);
    for (int most_lies = s->lies + MOST_LIES / 3; s->lies < most_lies && time_us < end_us;) {
        lie told = plan_lie(luck, s);
        told.line = lines[below(luck, count)];
        told.from_us = time_us;
        told.to_us =
            time_us + 100000 * (uint64_t)of_any_size(luck, 10 * most) + below(luck, 100000);
        s->lie[s->lies++] = told;
        time_us = told.to_us + HANDED_ON_US + early_us(&l->world) +
                  (is_patient ? below(luck, 20000000) : below(luck, 2));
    }
}

static void collude(sky *s, int lies, const uint8_t *lines, uint32_t count, chance *luck) {
    for (int i = 0; i < lies; i++) {
        lie told = s->lie[i];
        told.line = lines[below(luck, count)];
        s->lie[s->lies++] = told;
    }
}

static void plan_lies(life *l, uint32_t from, chance *luck) {
    uint8_t lines[MOST_LINES] = {0, 1, 2, 3, 4};
    uint32_t count = l->sky.lines;
    if (count == 1 || is_once_in(luck, 8)) return;
    for (uint32_t i = count; i > 1; i--) {
        uint32_t j = below(luck, i);
        uint8_t other = lines[i - 1];
        lines[i - 1] = lines[j];
        lines[j] = other;
    }
    if (l->judge.is_overrun) {
        plan_liar(l, lines, 1, from, luck);
        for (uint32_t i = 1, lies = (uint32_t)l->sky.lies; i <= count / 2; i++)
            collude(&l->sky, (int)lies, lines + i, 1, luck);
        return;
    }
    plan_liar(l, lines, count == 5 ? 2 : 3, from, luck);
    if (count == 5 && is_once_in(luck, 3)) collude(&l->sky, l->sky.lies, lines + 2, 3, luck);
    else if (count == 5) plan_liar(l, lines + 2, 3, from, luck);
}

/* ---- a device */

static void plan_device(life *l, chance *luck, bool is_long, bool is_learning) {
    device *d = &l->device;
    memset(d, 0, sizeof *d);
    d->luck.state = draw(luck);
    d->pace = (pace)ONE_OF(luck, BY_WAIT, BY_WAIT, BY_WAIT, BY_POLLS, BY_POLLS, AT_RANDOM,
                           BEFORE_PULSES, WITH_GAPS, WITH_GAPS, AROUND_EDGES, BY_QUEUES, BY_QUEUES);
    bool is_often = d->pace == BY_POLLS || d->pace == BEFORE_PULSES || d->pace == BY_QUEUES;
    if (is_long && is_often) d->pace = BY_WAIT;
    d->poll_us = 500 * of_any_size(luck, 190);
    if (d->pace == BY_QUEUES) d->poll_us = (uint32_t)between(luck, 10000, 95000);
    d->late_us = (uint32_t)ONE_OF(luck, 0, 100, 5000, 90000);
    d->gap_one_in = (uint32_t)ONE_OF(luck, 5, 20, 60);
    d->restart_one_in = (uint32_t)ONE_OF(luck, 0, 0, 0, 0, 0, 0, 30, 300);
    if (!is_learning) return;
    d->gap_one_in = 500;
    d->restart_one_in = is_once_in(luck, 8) ? 5000 : 0;
}

/* ---- lives */

/* Some minutes, with dark stretches. */
static void plan_short(life *l, chance *luck) {
    chance lies = {draw(luck)};
    plan_darkness(l, luck);
    plan_lies(l, 0, &lies);
}

/* All is dark for about as long as the holdover; liars are at work behind it. */
static void plan_long(life *l, chance *luck) {
    uint32_t back = l->world.seconds - 40;
    l->sky.dark[l->sky.darks++] = (dark){8 + below(luck, 10), back, 31};
    plan_lies(l, back - 10, luck);
}

/* Lines whose clocks are right, and that are all as far off as they may be to one side: all votes are as far
 * off as their bound. */
static void plan_alike(sky *s, world *w, chance *luck) {
    int32_t late_us = is_once_in(luck, 2) ? jitter_us(w) : -jitter_us(w);
    for (uint8_t i = 0; i < s->lines; i++) {
        line *l = &s->line[i];
        l->spread = EQUAL;
        l->offset_us = late_us;
        l->quality = 0;
        l->says_any = l->walks = false;
        make_clock(w, i, 0, false, luck);
    }
}

/* For long enough the device learns. All is dark then for about as long as the holdover, and soon behind
 * that again. Lines may be as far off to one side when it begins to learn as to the other when it ends. */
static void plan_learning(life *l, chance *luck) {
    uint32_t from = l->world.parts_at, back = l->world.seconds - AGAIN_S;
    uint32_t again = back + 10 + below(luck, AGAIN_S / 2);
    uint32_t turns_at = is_once_in(luck, 2) ? from - below(luck, from / 2) : 0;
    if (is_once_in(luck, 2)) plan_alike(&l->sky, &l->world, luck);
    for (int i = 0; i < l->sky.lines; i++) l->sky.line[i].turns_at = turns_at;
    l->sky.dark[l->sky.darks++] = (dark){from, back, 31};
    l->sky.dark[l->sky.darks++] = (dark){again, again + below(luck, AGAIN_S), 31};
    plan_lies(l, is_once_in(luck, 2) ? 0 : from - 20, luck);
}

/* A frame is heard of too few lines, and all are dark. A turn of the counter later a liar sends it
 * again. */
static void plan_turn(life *l, chance *luck) {
    sky *s = &l->sky;
    uint32_t last = 5 + below(luck, 10), few = s->lines / 2u;
    s->dark[s->darks++] = (dark){last + 1, l->world.seconds, 31};
    s->dark[s->darks++] = (dark){last, last + 1, 31u & ~((1u << few) - 1)};
    for (unsigned i = 0; i < few; i++) s->line[i].harm_one_in = 0;
    uint64_t end_us = l->world.edge_us[last + 1] + (UINT64_C(1) << 32);
    uint32_t frame = last + TURN_S - 2;
    while (l->world.edge_us[frame + 1] + SECOND_US / 2 < end_us) frame++;
    lie told = {.from_us = end_us - 1300000,
                .to_us = end_us + 100000,
                .line = (uint8_t)few,
                .saying = SAYS_OTHER,
                .by = (int32_t)last - (int32_t)frame,
                .aim = SHIFTED,
                .quality = s->line[0].quality,
                .shift_us = (int32_t)(int64_t)(end_us - l->world.edge_us[frame + 1]) +
                            s->line[0].offset_us + l->world.clock_us[0][last + 1],
                .spacing_us = ELEMENT_US,
                .seed = draw(luck)};
    s->line[0].spread = EQUAL;
    s->lie[s->lies++] = told;
}

/* How long all is dark in a long life: most of the longest holdover by this oscillator, or more. One that
 * is learned may be asked for any holdover: it ends by itself, by what is learned or, else, by the drift. */
static uint32_t plan_dark_time(life *l, chance *luck) {
    uint32_t drift = l->world.drift_us, most = is_once_in(luck, 20) ? MOST_SECONDS - 3000 : 6000;
    uint32_t longest = drift > 0 ? 490000 / drift - 2 : 1000000;
    bool is_any = l->world.wander_ppb > 0 && is_once_in(luck, 2);
    if (is_any) l->setup.holdover = 1000000;
    else if (l->setup.holdover > longest || (drift > 0 && !is_once_in(luck, 4))) l->setup.holdover = longest;
    uint32_t holdover = is_any ? longest : l->setup.holdover < 20 ? 20 : l->setup.holdover;
    uint32_t time = is_once_in(luck, 3) ? below(luck, holdover + holdover / 3)
                                        : holdover - below(luck, holdover / 8);
    return time < most ? time : below(luck, most);
}

static uint32_t plan_length(life *l, chance *luck, length kind) {
    switch (kind) {
    case TURN: return TURN_S + 60;
    case LONG: return 70 + plan_dark_time(l, luck);
    case LEARNING:
        l->world.parts_at = 1000 + of_any_size(luck, 1100);
        return l->world.parts_at + plan_dark_time(l, luck) + AGAIN_S;
    default: return 15 + of_any_size(luck, is_once_in(luck, 300) ? 3000 : 200);
    }
}

/* ---- what kinds of things a life has */

/* One of some, of which each has a bit, behind those before. */
static uint64_t bit_of(uint32_t one, uint32_t count, uint32_t *before) {
    uint64_t bit = UINT64_C(1) << (*before + one);
    *before += count;
    return bit;
}

static uint64_t kinds_of_line(const line *l, uint32_t before) {
    return bit_of(l->spread, SPREADS, &before) | bit_of(l->width, WIDTHS, &before);
}

static uint64_t kinds_of_lie(const lie *told, uint32_t before) {
    before += SPREADS + WIDTHS;
    if (told->manner != FRAMES) return bit_of(told->manner - NOISE, 2, &before);
    before += 2;
    return bit_of(told->saying, 6, &before) | bit_of(told->aim, AIMS, &before) |
           bit_of(told->harm, 6, &before);
}

static uint64_t kinds_of(const life *l, walk kind_of_walk, length kind) {
    const irig_setup *setup = &l->setup;
    const world *w = &l->world;
    uint32_t before = 0;
    uint64_t kinds = bit_of(setup->redundancy, 3, &before) | bit_of(setup->parity, 2, &before) |
                     bit_of(setup->sense, 2, &before) | bit_of(setup->sbs, 2, &before) |
                     bit_of(l->table.until > 0 ? 1 + (l->table.len > 0) : 0, 3, &before) |
                     bit_of((uint32_t)(w->leap + 1), 3, &before) |
                     bit_of(w->first.day == LAST_DAY, 2, &before) |
                     bit_of(kind_of_walk, WALKS, &before) | bit_of(kind, LENGTHS, &before) |
                     bit_of(l->device.pace, PACES, &before) |
                     bit_of(l->device.restart_one_in > 0, 2, &before);
    for (int i = 0; i < l->sky.lines; i++) kinds |= kinds_of_line(&l->sky.line[i], before);
    for (int i = 0; i < l->sky.lies; i++) kinds |= kinds_of_lie(&l->sky.lie[i], before);
    return kinds;
}

static uint32_t clocks_of(const life *l) {
    uint32_t within_us = l->world.within_us;
    uint32_t clocks = UINT32_C(1) << (within_us == 450 ? 0 : within_us > 1 ? 1 : 2);
    for (int i = 0; i < l->sky.lines; i++) {
        uint32_t quality = l->sky.line[i].quality;
        clocks |= UINT32_C(8) << (quality > 4 ? quality - 3 : quality > 0);
    }
    return clocks;
}

void plan(life *l, uint64_t seed, uint64_t number) {
    chance luck = {seed * UINT64_C(0x2545f4914f6cdd1d) + number};
    draw(&luck);
    uint32_t one = below(&luck, 40);
    length kind = one == 0 ? TURN : one < 6 ? LONG : one == 6 ? LEARNING : SHORT;
    plan_setup(l, &luck);
    plan_delays(&l->world, &luck);
    if (kind == TURN && l->sky.lines == 1) kind = SHORT;
    if (kind == LEARNING) plan_counter(l, &luck);
    else if (number % 8 == 7) plan_wander(&l->world, &luck);
    l->world.seconds = plan_length(l, &luck, kind);
    if (kind != LEARNING) l->world.parts_at = l->world.seconds / 2;
    plan_time(l, &luck);
    plan_table(l, &luck);
    walk kind_of_walk = (walk)(kind == LONG       ? ONE_OF(&luck, FAST, SLOW, FAST, SLOW, WALK, STEPS)
                               : kind == LEARNING ? ONE_OF(&luck, PARTING, PARTING, RAMP, WALK, STEPS,
                                                           ALTERNATING, FAST, TURNING)
                                                  : (int32_t)below(&luck, WALKS));
    begin_lines(l, plan_start(l, &luck), kind_of_walk, &luck);
    int32_t zone = between(&luck, -31, 31);
    for (unsigned i = 0; i < l->sky.lines; i++) {
        plan_clock(&l->sky.line[i], &l->world, i, &luck);
        plan_line(&l->sky.line[i], &l->world, zone, &luck);
    }
    switch (kind) {
    case TURN: plan_turn(l, &luck); break;
    case LONG: plan_long(l, &luck); break;
    case LEARNING: plan_learning(l, &luck); break;
    default: plan_short(l, &luck);
    }
    for (uint8_t i = 0; i < l->sky.lines; i++) begin_line(&l->sky.line[i], &l->sky, i, draw(&luck));
    plan_device(l, &luck, kind != SHORT, kind == LEARNING);
    l->kinds = kinds_of(l, kind_of_walk, kind);
    l->clocks = clocks_of(l);
}
