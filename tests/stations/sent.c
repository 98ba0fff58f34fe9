/* The seconds of a plant, and what its generators send in them. */
#include "plant.h"

#include <string.h>

sent sent_in[MOST_SECONDS_PLAYED][MOST_LINES];

/* ---- seconds */

int leap_of(const plant *p, int64_t day) {
    for (int i = 0; i < p->leaps; i++)
        if (p->leap[i].day == day) return p->leap[i].kind;
    return 0;
}

bool find_time(const plant *p, int64_t n, utc *at) {
    if (n < 0) return false;
    utc t = {p->start.day, p->start.second + n};
    while (t.day <= LAST_DAY && t.second >= DAY_S + leap_of(p, t.day)) {
        t.second -= DAY_S + leap_of(p, t.day);
        t.day++;
    }
    *at = t;
    return t.day <= LAST_DAY;
}

int64_t seconds_up_to(const plant *p, int64_t most) {
    int64_t n = 0;
    utc at;
    while (n < most && find_time(p, n, &at)) n++;
    return n;
}

static int said_of(const irig_table *table, int64_t day) {
    for (uint32_t i = 0; i < table->len; i++)
        if (table->leaps[i].day == day) return table->leaps[i].kind == IRIG_LEAP_INSERT ? 1 : -1;
    return 0;
}

bool is_table_true(const plant *p, const irig_table *table) {
    for (int64_t day = p->start.day; day <= table->until; day++)
        if (said_of(table, day) != leap_of(p, day)) return false;
    return true;
}

/* ---- frames */

static int64_t minute_of(utc at) {
    return 1440 * at.day + (at.second / 60 < 1439 ? at.second / 60 : 1439);
}

static bool has_come(utc at, utc now) {
    return at.day < now.day || (at.day == now.day && at.second <= now.second);
}

/* What the frame of a second says without fault. */
static content plain_content(const plant *p, uint32_t g, utc at) {
    const generator *from = &p->generator[g];
    int leap = leap_of(p, at.day);
    content what = {.at = at, .zone = from->zone.local, .dst = from->zone.dst};
    what.pending = leap != 0 && at.second >= DAY_S - 60;
    what.is_delete = what.pending && leap < 0;
    for (int i = 0; i < from->changes; i++) {
        const change *c = &from->change[i];
        what.turns |= minute_of(at) + 1 == minute_of(c->at) && !has_mistake(TURNS_NEVER);
        if (!has_come(c->at, at)) continue;
        what.zone = c->zone.local;
        what.dst = c->zone.dst;
    }
    return what;
}

static void put_symbols(const plant *p, const content *what, uint8_t symbol[ELEMENTS]) {
    frame f = encode(what, p->is_odd, p->is_subtracted);
    for (unsigned k = 0; k < ELEMENTS; k++)
        symbol[k] = is_marker(k)    ? IRIG_SYMBOL_MARKER
                    : is_one(&f, k) ? IRIG_SYMBOL_ONE
                                    : IRIG_SYMBOL_ZERO;
}

bool make_plain(const plant *p, uint32_t g, int64_t n, uint8_t symbol[ELEMENTS]) {
    utc at;
    if (!find_time(p, n, &at)) return false;
    content what = plain_content(p, g, at);
    put_symbols(p, &what, symbol);
    return true;
}

/* What a fault that was set at an edge makes of the frame of an edge, if one is sent. */
static bool make_faulty(const plant *p, uint32_t g, int64_t n, fault f, int64_t since,
                        uint8_t symbol[ELEMENTS]) {
    utc at;
    if (f.kind == SILENT) return false;
    if (f.kind == STUCK) return make_plain(p, g, since, symbol);
    if (f.kind == SKEW) return make_plain(p, g, n + f.by, symbol);
    if (!find_time(p, n, &at)) return false;
    content what = plain_content(p, g, at);
    if (f.kind == NO_PENDING || f.kind == FALSE_PENDING) what.pending = f.kind == FALSE_PENDING;
    if (f.kind == NO_PENDING || f.kind == FALSE_PENDING) what.is_delete = what.pending && f.by == 1;
    if (f.kind == POOR_QUALITY) what.quality = (uint32_t)f.by;
    if (f.kind == WRONG_OFFSET) what.offset_more = f.by;
    put_symbols(p, &what, symbol);
    return true;
}

/* ---- what is true */

static claim true_claim(const plant *p, utc at) {
    claim c = {(uint32_t)at.day, (uint32_t)at.second, IRIG_MARK_UNSPOKEN};
    if (!is_month_end(at.day) || at.second <= DAY_S - 60 || at.second >= DAY_S) return c;
    int leap = leap_of(p, at.day);
    c.mark = leap == 0 ? IRIG_MARK_NO_LEAP : leap > 0 ? IRIG_MARK_INSERT : IRIG_MARK_DELETE;
    return c;
}

/* What a frame tells by the rules of the plant, without limits of a device. */
static voice told_in(const plant *p, const uint8_t symbol[ELEMENTS]) {
    irig_setup rules = {.parity = p->is_odd ? IRIG_PARITY_ODD : IRIG_PARITY_EVEN,
                        .sense = p->is_subtracted ? IRIG_SENSE_SUBTRACT : IRIG_SENSE_ADD,
                        .sbs = p->ignores_sbs ? IRIG_SBS_IGNORE : IRIG_SBS_CHECK};
    heard h = {.count = ELEMENTS};
    memcpy(h.symbols, symbol, ELEMENTS);
    return voice_of(&rules, &h);
}

/* What a line carries if it is true: what is sent, unless that claims what is not so; else the frame
 * without fault, which claims what is. */
static void add_truth(const plant *p, int64_t n, uint32_t g, sent *s) {
    utc at = {0, 0};
    find_time(p, n, &at);
    voice truth = {.kind = IRIG_TOLD_CLAIM, .claim = true_claim(p, at)};
    make_plain(p, g, n, s->truth);
    voice plain = told_in(p, s->truth);
    if (!are_one(&plain, &truth)) give_up("a frame without fault does not tell the truth");
    if (!s->is_sent || has_mistake(BELIEVES_PLAIN)) return;
    voice told = told_in(p, s->symbol);
    bool is_harmful = told.kind == IRIG_TOLD_CLAIM && !are_one(&told, &truth);
    if (!is_harmful || has_mistake(BELIEVES_SENT)) memcpy(s->truth, s->symbol, ELEMENTS);
}

/* ---- all of them */

/* The first edge at or behind a time, whose frame is yet to come. */
static int64_t edge_behind(uint64_t time_us) {
    return (int64_t)((time_us + (has_mistake(FAULTS_AT_ONCE) ? 0 : SECOND_US - 1)) / SECOND_US);
}

void make_sent(const plant *p, int64_t seconds) {
    for (uint32_t g = 0; g < p->generators; g++) {
        fault now = {NO_FAULT, 0};
        int64_t since = 0, n = 0;
        uint64_t time_us = 0;
        for (int i = 0; i <= p->events; i++) {
            const event *e = &p->event[i];
            bool is_end = i == p->events;
            if (!is_end) time_us += us_of(e);
            if (!is_end && (e->what != FAULT || e->g != g)) continue;
            int64_t to = is_end ? seconds : edge_behind(time_us);
            for (; n < to && n < seconds; n++) {
                sent *s = &sent_in[n][g];
                s->is_sent = make_faulty(p, g, n, now, since, s->symbol);
                add_truth(p, n, g, s);
            }
            if (is_end) break;
            now = e->fault;
            since = to - (has_mistake(STICKS_BEFORE) && to > 0);
        }
    }
}
