#include "rule.h"

#include <string.h>

/* ---- frames */

uint32_t bits(const frame *f, unsigned element, unsigned count) {
    return (uint32_t)(f->ones[element / HALF] >> (element % HALF)) & ((1u << count) - 1);
}

/* A field: its units, and its tens. Above 1000 if the units are no digit. */
static uint32_t field(const frame *f, unsigned element, unsigned tens) {
    uint32_t units = bits(f, element, 4);
    return units > 9 ? 9999 : units + 10 * bits(f, element + 5, tens);
}

static bool has_parity(const frame *f, uint8_t parity) {
    int ones = __builtin_popcountll(f->ones[0]) + __builtin_popcount(bits(f, 50, 26));
    return ones % 2 == parity;
}

static uint8_t mark_of(const frame *f, const claim *c) {
    if (!is_month_end(c->day) || c->sod <= 86340 || c->sod > 86399) return IRIG_MARK_UNSPOKEN;
    if (!bits(f, 60, 1)) return IRIG_MARK_NO_LEAP;
    return bits(f, 61, 1) ? IRIG_MARK_DELETE : IRIG_MARK_INSERT;
}

/* The second of UTC that a coded minute and second mean, if there is one. */
static bool find_utc(const frame *f, uint8_t sense, int64_t minute, uint32_t second, claim *c) {
    int64_t halves = 2 * (int64_t)bits(f, 65, 4) + bits(f, 70, 1);
    if (bits(f, 64, 1) != sense) halves = -halves;
    minute += 30 * halves;
    if (minute < 1440 || minute >= 1440 * (LAST_DAY + 1)) return false;
    c->day = (uint32_t)(minute / 1440);
    c->sod = (uint32_t)(minute % 1440) * 60 + second;
    if (second == 60) return c->sod == 86400 && is_month_end(c->day);
    c->mark = mark_of(f, c);
    return c->sod != 86399 || c->mark != IRIG_MARK_DELETE;
}

static uint8_t read_frame(const irig_setup *setup, const frame *f, claim *c) {
    uint32_t second = field(f, 1, 3), minute = field(f, 10, 3), hour = field(f, 20, 2);
    uint32_t tens = bits(f, 35, 4), day = field(f, 30, 4) + 100 * bits(f, 40, 2);
    uint32_t year = field(f, 50, 4), year_tens = bits(f, 55, 4);
    uint32_t binary = bits(f, 80, 9) | bits(f, 90, 8) << 9;
    uint8_t poor_from = setup->poor_from ? setup->poor_from : 10;
    if (!has_parity(f, setup->parity) || second > 60 || minute > 59 || hour > 23 || tens > 9 ||
        year_tens > 9 || year > 99 || day < 1 || day > 366)
        return IRIG_TOLD_FAULT;
    if (setup->sbs == IRIG_SBS_CHECK && second < 60 && binary != 3600 * hour + 60 * minute + second)
        return IRIG_TOLD_FAULT;
    if (day == 366 && year % 4 != 0) return IRIG_TOLD_FAULT;
    int64_t days = 365 * (int64_t)year + (year + 3) / 4 + day - 1;
    if (!find_utc(f, setup->sense, 1440 * days + 60 * hour + minute, second, c))
        return IRIG_TOLD_FAULT;
    if (bits(f, 71, 4) >= poor_from) return IRIG_TOLD_POOR;
    return c->day < setup->not_before ? IRIG_TOLD_FAULT : IRIG_TOLD_CLAIM;
}

/* ---- lines */

uint8_t symbol_of(uint32_t width_us) {
    if (width_us < 500 || width_us >= 9500) return IRIG_SYMBOL_BAD;
    return width_us < 3500   ? IRIG_SYMBOL_ZERO
           : width_us < 6500 ? IRIG_SYMBOL_ONE
                             : IRIG_SYMBOL_MARKER;
}

uint8_t place_of(irig_sync *at, uint32_t rise_us, uint32_t width_us) {
    uint32_t gap_us = rise_us - at->rise_us;
    bool is_on_time = gap_us >= 9000 && gap_us < 11000;
    bool is_mark = symbol_of(width_us) == IRIG_SYMBOL_MARKER;
    uint8_t place = 0;
    if (is_mark && (at->was_marker || !is_on_time)) place = 1;
    else if (is_on_time && at->place >= 1 && at->place <= ELEMENTS)
        place = (uint8_t)(at->place % ELEMENTS + 1);
    *at = (irig_sync){rise_us, place, is_mark};
    return place;
}

void idle(irig_sync *at, uint32_t now_us) {
    uint32_t gap_us = now_us - at->rise_us;
    if (gap_us < SECOND_US || gap_us >= UINT32_C(1) << 31) return;
    at->place = 0;
    at->was_marker = 1;
}

void hear_pulse(heard *h, uint32_t width_us) {
    if (h->count < ELEMENTS) h->symbols[h->count] = symbol_of(width_us);
    if (h->count <= ELEMENTS) h->count++;
}

/* The first that is wrong with symbols as such, or 0. */
static uint32_t wrong_of(const heard *h) {
    if (h->count < ELEMENTS) return IRIG_FAULT_SHORT | h->count << 8;
    if (h->count > ELEMENTS) return IRIG_FAULT_LONG;
    for (unsigned i = 0; i < ELEMENTS; i++) {
        bool is_mark = h->symbols[i] == IRIG_SYMBOL_MARKER;
        if (h->symbols[i] >= IRIG_SYMBOL_BAD) return IRIG_FAULT_PULSE | i << 8;
        if (is_mark != is_marker(i)) return IRIG_FAULT_MARKER | i << 8;
    }
    return IRIG_DONE;
}

voice voice_of(const irig_setup *setup, const heard *h) {
    voice v = {.kind = IRIG_TOLD_SILENCE};
    if (h->count == 0) return v;
    v.kind = IRIG_TOLD_FAULT;
    v.fault = wrong_of(h);
    if (v.fault != IRIG_DONE) return v;
    for (unsigned i = 0; i < ELEMENTS; i++)
        v.frame.ones[i / HALF] |= (uint64_t)(h->symbols[i] == IRIG_SYMBOL_ONE) << i % HALF;
    v.kind = read_frame(setup, &v.frame, &v.claim);
    return v;
}

/* ---- the vote */

bool are_one(const voice *a, const voice *b) {
    return a->kind == IRIG_TOLD_CLAIM && b->kind == IRIG_TOLD_CLAIM &&
           a->claim.day == b->claim.day && a->claim.sod == b->claim.sod &&
           a->claim.mark == b->claim.mark;
}

static void set(uint8_t *mask, int line) { *mask = (uint8_t)(*mask | 1u << line); }

/* How each line stands to the vote, and the worst quality of those that agree. */
static void add_masks(irig_report *r, const voice *voices, int lines, const voice *voted) {
    r->quality = voted ? 0 : 15;
    for (int i = 0; i < lines; i++) {
        const voice *v = &voices[i];
        uint8_t quality = (uint8_t)bits(&v->frame, 71, 4);
        if (v->kind == IRIG_TOLD_FAULT) set(&r->faulty, i);
        else if (v->kind == IRIG_TOLD_POOR) set(&r->poor, i);
        else if (v->kind == IRIG_TOLD_CLAIM && !(voted && are_one(voted, v))) set(&r->differed, i);
        else if (v->kind == IRIG_TOLD_CLAIM) set(&r->agreed, i);
        if ((r->agreed >> i & 1) && quality > r->quality) r->quality = quality;
    }
}

static int8_t local_of(const frame *f, uint8_t sense) {
    int8_t halves = (int8_t)(2 * bits(f, 65, 4) + bits(f, 70, 1));
    return bits(f, 64, 1) == sense ? (int8_t)-halves : halves;
}

/* The zone of the first line that agrees and is of one zone with enough of them. */
static void add_zone(irig_report *r, const voice *voices, int lines, int enough, uint8_t sense) {
    for (int i = 0; i < lines && !r->has_local; i++) {
        const frame *one = &voices[i].frame;
        int count = 0;
        for (int j = 0; j < lines; j++)
            count += (r->agreed >> j & 1) &&
                     local_of(one, sense) == local_of(&voices[j].frame, sense) &&
                     bits(one, 63, 1) == bits(&voices[j].frame, 63, 1);
        if (!(r->agreed >> i & 1) || count < enough) continue;
        r->has_local = 1;
        r->local_half_hours = local_of(one, sense);
        r->dst = (uint8_t)bits(one, 63, 1);
    }
}

int vote(const voice *voices, int lines, int enough, uint8_t sense, irig_report *r) {
    int voted = -1;
    for (int i = 0; i < lines && voted < 0; i++) {
        int count = 0;
        for (int j = 0; j < lines; j++) count += are_one(&voices[i], &voices[j]);
        if (count > 0 && count >= enough) voted = i;
    }
    add_masks(r, voices, lines, voted < 0 ? NULL : &voices[voted]);
    add_zone(r, voices, lines, enough, sense);
    return voted;
}

/* ---- the reader's rule */

static uint8_t table_mark(const irig_table *table, uint32_t day) {
    if (day > table->until || !is_month_end(day)) return IRIG_MARK_UNSPOKEN;
    for (uint32_t i = 0; i < table->len && i < 64; i++)
        if (table->leaps[i].day == day)
            return table->leaps[i].kind == IRIG_LEAP_INSERT ? IRIG_MARK_INSERT : IRIG_MARK_DELETE;
    return IRIG_MARK_NO_LEAP;
}

/* The last second of a day, or 0 if it is not known. */
static uint32_t last_of(uint32_t day, uint32_t sod, uint8_t mark) {
    if (!is_month_end(day)) return 86399;
    if (mark == IRIG_MARK_UNSPOKEN) return sod < 86398 || sod == 86400 ? 86400 : 0;
    return mark == IRIG_MARK_NO_LEAP ? 86399 : mark == IRIG_MARK_INSERT ? 86400 : 86398;
}

static bool differ(uint8_t heard, uint8_t known) {
    return heard != IRIG_MARK_UNSPOKEN && known != IRIG_MARK_UNSPOKEN && heard != known;
}

bool is_against_table(const plain_reader *reader, const claim *vote) {
    return vote && differ(vote->mark, table_mark(&reader->table, vote->day));
}

bool goes_against_table(const plain_reader *reader, const claim *vote) {
    const irig_state *s = &reader->state;
    if (!vote && s->kind != IRIG_STATE_LOCKED) return false;
    claim from = vote ? *vote : (claim){s->day, s->sod, s->heard};
    bool follows = s->kind != IRIG_STATE_IDLE && s->day == from.day && s->sod == from.sod;
    if (from.mark == IRIG_MARK_UNSPOKEN && follows) from.mark = s->heard;
    uint8_t known = table_mark(&reader->table, from.day);
    bool goes_on = from.sod < last_of(from.day, from.sod, from.mark);
    return differ(from.mark, known) && goes_on != (from.sod < last_of(from.day, from.sod, known));
}

/* Goes to the second behind that at which the reader stands; else says why not. */
static uint8_t go_a_second_on(plain_reader *reader, uint8_t cause) {
    irig_state *s = &reader->state;
    uint8_t mark = s->heard != IRIG_MARK_UNSPOKEN ? s->heard : table_mark(&reader->table, s->day);
    uint32_t last = last_of(s->day, s->sod, mark);
    if (last == 0) return s->day == LAST_DAY ? IRIG_CAUSE_RANGE_END : IRIG_CAUSE_LEAP_GUARD;
    if (s->sod < last) {
        s->sod++;
        return cause;
    }
    if (s->day == LAST_DAY) return IRIG_CAUSE_RANGE_END;
    s->day++;
    s->sod = 0;
    s->heard = IRIG_MARK_UNSPOKEN;
    return cause;
}

/* What is said of the second at which the state now stands. */
static void announce(const irig_state *s, irig_report *r, uint8_t lock, uint8_t cause) {
    r->announces = 1;
    r->lock = lock;
    r->cause = cause;
    r->day = s->day;
    r->sod = s->sod;
    r->lock_count = lock == IRIG_LOCK_HOLDOVER ? s->age : 0;
}

static void stop(irig_state *s, irig_report *r, uint8_t cause) {
    memset(s, 0, sizeof *s);
    r->cause = cause;
}

static void step_with(plain_reader *reader, const claim *c, irig_report *r) {
    irig_state *s = &reader->state;
    bool is_next = s->day == c->day && s->sod == c->sod;
    if (s->kind == IRIG_STATE_LOCKED && !is_next) {
        stop(s, r, IRIG_CAUSE_JUMP);
        return;
    }
    if (s->kind == IRIG_STATE_IDLE || !is_next)
        *s = (irig_state){.kind = IRIG_STATE_ACQUIRING, .day = c->day, .sod = c->sod};
    if (c->mark != IRIG_MARK_UNSPOKEN) s->heard = c->mark;
    uint8_t cause = go_a_second_on(reader, IRIG_CAUSE_VOTED);
    s->age = 0;
    if (cause != IRIG_CAUSE_VOTED) {
        stop(s, r, cause);
    } else if (s->kind == IRIG_STATE_ACQUIRING && ++s->count < reader->setup.lock_after) {
        r->lock = IRIG_LOCK_ACQUIRING;
        r->cause = IRIG_CAUSE_ACQUIRING;
        r->lock_count = s->count;
    } else {
        s->kind = IRIG_STATE_LOCKED;
        s->count = 0;
        announce(s, r, IRIG_LOCK_LOCKED, IRIG_CAUSE_VOTED);
    }
}

static void step_alone(plain_reader *reader, irig_report *r) {
    irig_state *s = &reader->state;
    uint8_t cause = s->kind != IRIG_STATE_LOCKED       ? IRIG_CAUSE_NO_VOTE
                    : s->age >= reader->setup.holdover ? IRIG_CAUSE_EXPIRED
                                                       : go_a_second_on(reader, IRIG_CAUSE_HELD);
    if (cause != IRIG_CAUSE_HELD) {
        stop(s, r, cause);
        return;
    }
    s->age++;
    announce(s, r, IRIG_LOCK_HOLDOVER, IRIG_CAUSE_HELD);
}

void step(plain_reader *reader, const claim *vote, irig_report *r) {
    if (vote) step_with(reader, vote, r);
    else step_alone(reader, r);
}
