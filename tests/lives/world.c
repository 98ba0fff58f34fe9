#include "world.h"

#include <string.h>

/* The place of a day: its year, and the day of that year from 1. */
typedef struct date {
    int32_t year, day;
} date;

/* Of four years the first has 366 days. */
static date date_of(int64_t day) {
    int64_t four = day / 1461, rest = day % 1461;
    if (rest < 366) return (date){(int32_t)(4 * four), (int32_t)rest + 1};
    return (date){(int32_t)(4 * four + 1 + (rest - 366) / 365), (int32_t)((rest - 366) % 365) + 1};
}

bool is_month_end(int64_t day) {
    static const int32_t ENDS[] = {31, 59, 90, 120, 151, 181, 212, 243, 273, 304, 334, 365};
    date d = date_of(day);
    bool is_long = d.year % 4 == 0;
    for (int month = 0; month < 12; month++)
        if (d.day == ENDS[month] + (is_long && month > 0)) return true;
    return false;
}

int64_t month_end_before(int64_t day) {
    while (day > 1 && !is_month_end(day)) day--;
    return day;
}

/* ---- frames, written anew by docs/FRAME.md */

static void put(frame *f, unsigned element, uint64_t value) {
    f->ones[element / HALF] |= value << (element % HALF);
}

/* A number below 100: its units, and its tens an element behind them. */
static void put_digits(frame *f, unsigned element, uint64_t value) {
    put(f, element, value % 10);
    put(f, element + 5, value / 10);
}

static void put_control(frame *f, const content *what, bool is_subtracted) {
    int32_t offset = (is_subtracted ? what->zone : -what->zone) + what->offset_more;
    offset = offset > MOST_OFFSET ? MOST_OFFSET : offset < -MOST_OFFSET ? -MOST_OFFSET : offset;
    uint64_t size = (uint64_t)(offset < 0 ? -offset : offset);
    put(f, 60, (uint64_t)what->pending);
    put(f, 61, (uint64_t)what->is_delete);
    put(f, 62, (uint64_t)what->turns);
    put(f, 63, (uint64_t)what->dst);
    put(f, 64, (uint64_t)(offset < 0));
    put(f, 65, size / 2);
    put(f, 70, size % 2);
    put(f, 71, what->quality);
}

frame encode(const content *what, bool is_odd, bool is_subtracted) {
    frame f = {{0, 0}};
    int64_t minute = what->at.second / 60 < 1439 ? what->at.second / 60 : 1439;
    int64_t second = what->at.second - 60 * minute;
    int64_t local = 1440 * what->at.day + minute + 30 * what->zone;
    int64_t coded = local % 1440;
    date d = date_of(local / 1440);
    put_digits(&f, 1, (uint64_t)second);
    put_digits(&f, 10, (uint64_t)(coded % 60));
    put_digits(&f, 20, (uint64_t)(coded / 60));
    put_digits(&f, 30, (uint64_t)(d.day % 100));
    put(&f, 40, (uint64_t)(d.day / 100));
    put_digits(&f, 50, (uint64_t)(d.year % 100));
    put_control(&f, what, is_subtracted);
    uint64_t binary = (uint64_t)(60 * coded + second);
    put(&f, 80, binary & 511);
    put(&f, 90, binary >> 9);
    uint64_t upper = f.ones[1] & ((UINT64_C(1) << 26) - 1);
    if ((__builtin_popcountll(f.ones[0]) + __builtin_popcountll(upper)) % 2 != is_odd)
        put(&f, 75, 1);
    return f;
}

/* The rate of a second behind another one. */
static int32_t rate_behind(const world *w, int32_t rate, walk kind, uint32_t n, int32_t most,
                           chance *luck) {
    int32_t step = 2 + most / 250;
    switch (kind) {
    case WALK: rate += between(luck, -step, step); break;
    case FAST: rate = most; break;
    case SLOW: rate = -most; break;
    case STEPS: rate = is_once_in(luck, 20) ? between(luck, -most, most) : rate; break;
    case ALTERNATING: rate = n % 2 ? most : -most; break;
    case PARTING: rate = n < w->parts_at ? most : -most; break;
    case RAMP: rate = most - (int32_t)(2 * (int64_t)most * n / (w->seconds + 1)); break;
    default: rate = (int32_t)(n / 50 % 4 % 3) == 0 ? most : -most; break;
    }
    return rate > most ? most : rate < -most ? -most : rate;
}

/* Seconds of whole microseconds, as far off as they may be. */
static void make_drifting(world *w, walk kind, chance *luck) {
    int32_t most = (int32_t)w->drift_us, rate = between(luck, -most, most);
    for (uint32_t n = 0; n < w->seconds + 2; n++) {
        rate = rate_behind(w, rate, kind, n, most, luck);
        w->edge_us[n + 1] = w->edge_us[n] + (uint64_t)(SECOND_US + rate);
    }
}

/* Seconds of an oscillator, in nanoseconds: as far as they wander they lie on both sides of one that is
 * often as far off as it may be. The counter shows whole microseconds. */
static void make_wandering(world *w, walk kind, chance *luck) {
    int32_t drift = 1000 * (int32_t)w->drift_us, half = (int32_t)w->wander_ppb / 2;
    int32_t most = half < drift ? half : drift, room = drift - most;
    int32_t way = is_once_in(luck, 2) ? 1 : -1, rate = between(luck, -most, most);
    int32_t middle = is_once_in(luck, 3) ? between(luck, -room, room) : is_once_in(luck, 2) ? room : -room;
    uint64_t time_ns = 1000 * w->edge_us[0] + below(luck, 1000);
    for (uint32_t n = 0; n < w->seconds + 2; n++) {
        rate = rate_behind(w, rate, kind, n, most, luck);
        time_ns += (uint64_t)(1000 * SECOND_US + middle + way * rate);
        w->edge_us[n + 1] = time_ns / 1000;
    }
}

void make_edges(world *w, uint64_t start_us, walk kind, chance *luck) {
    w->edge_us[0] = start_us;
    if (w->wander_ppb == 0) make_drifting(w, kind, luck);
    else make_wandering(w, kind, luck);
    for (int i = 0; i < MOST_LINES; i++)
        memset(w->clock_us[i], 0, (w->seconds + 3) * sizeof *w->clock_us[i]);
}

void make_clock(world *w, unsigned line, int32_t most_us, bool walks, chance *luck) {
    int32_t drift = (int32_t)w->drift_us, way = is_once_in(luck, 2) ? 1 : -1;
    int32_t off_us = is_once_in(luck, 2) ? way * most_us : between(luck, -most_us, most_us);
    for (uint32_t n = 0; n < w->seconds + 2; n++) {
        int32_t rate = (int32_t)(w->edge_us[n + 1] - w->edge_us[n]) - SECOND_US;
        w->clock_us[line][n] = (int16_t)off_us;
        if (!walks) continue;
        if (off_us == way * most_us || is_once_in(luck, 20)) way = -way;
        off_us += way * (int32_t)below(luck, (uint32_t)(drift - way * rate) + 1);
        off_us = off_us > most_us ? most_us : off_us < -most_us ? -most_us : off_us;
    }
    w->clock_us[line][w->seconds + 2] = (int16_t)off_us;
}

uint32_t edge_before(const world *w, uint64_t time_us) {
    uint32_t low = 0, high = w->seconds + 1;
    while (low < high) {
        uint32_t middle = (low + high + 1) / 2;
        if (w->edge_us[middle] <= time_us) low = middle;
        else high = middle - 1;
    }
    return low;
}

static utc utc_of(int64_t day, int64_t second) {
    int64_t days = second / DAY_S;
    if (second % DAY_S < 0) days--;
    return (utc){day + days, second - DAY_S * days};
}

utc second_at(const world *w, int64_t n) {
    int64_t since = w->first.second + n;
    int64_t turn = (w->leap_day - w->first.day + 1) * DAY_S;
    if (w->leap > 0 && since == turn) return (utc){w->leap_day, DAY_S};
    if (w->leap > 0 && since > turn) since--;
    if (w->leap < 0 && since >= turn - 1) since++;
    return utc_of(w->first.day, since);
}

bool find_second(const world *w, utc at, int64_t *n) {
    int64_t since = (at.day - w->first.day) * DAY_S + at.second;
    if (at.day > w->leap_day) since += w->leap;
    *n = since - w->first.second;
    utc found = second_at(w, *n);
    return *n >= 0 && found.day == at.day && found.second == at.second && at.day <= LAST_DAY;
}

content true_content(const world *w, utc at, int32_t zone) {
    bool speaks = w->leap != 0 && at.day == w->leap_day && at.second >= DAY_S - 60;
    return (content){.at = at, .zone = zone, .pending = speaks, .is_delete = speaks && w->leap < 0};
}
