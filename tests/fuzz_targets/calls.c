/* Bytes as calls of irig.h, each answer beside one by the plain C of tests/lives, which owes the
 * library nothing: a life that its judge judges, seconds and frames, or a timekeeper or a reader by
 * any calls; of the reader something else may change the numbers. With WRONG, a number, the
 * timekeeper of tests/lives has that of EACH_WRONG wrong, which has to be found. */
#include "device.h"
#include "rule.h"

#include <stdio.h>
#include <stdlib.h>
#include <string.h>

/* ---- bytes, and lives that are planned by them instead of by chance */

static const uint8_t *next_byte, *end_byte;

static uint32_t take_bytes(int count) {
    uint32_t number = 0;
    for (; count > 0 && next_byte < end_byte; count--) number = number << 8 | *next_byte++;
    return number;
}

/* A number below a bound; behind the last byte by chance. */
static uint32_t take(chance *luck, uint32_t bound) {
    if (next_byte == end_byte) return below(luck, bound);
    return take_bytes(bound <= 256 ? 1 : bound <= 65536 ? 2 : 4) % bound;
}

static uint64_t take_wide(chance *luck) {
    uint64_t half = take(luck, UINT32_MAX);
    return half << 32 | half;
}

#define draw take_wide
#define below take
#define between(luck, low, high) ((low) + (int32_t)take(luck, (uint32_t)((high) - (low)) + 1))
#define is_once_in(luck, times) (take(luck, times) == 0)
#include "plan.c"

static life one;
static chance luck;
static unsigned long announced; /* how many seconds */

static void require(bool is_right, const char *what) {
    if (is_right) return;
    fprintf(stderr, "calls: %s\n", what);
    abort();
}

static void play_life(void) {
    one.judge.is_beyond = take(&luck, 8) == 7;
    one.judge.is_overrun = one.judge.is_beyond;
    plan(&one, take(&luck, 256), 0);
    if (one.world.seconds > 30) return;
    if (one.device.poll_us < 10000) one.device.poll_us = 10000;
    play(&one, &both_subject);
    require(!one.judge.is_failed, one.judge.text);
    for (int i = 0; i < one.tolds; i++) announced += one.told[i].second.report.announces;
}

static void plan_world(void) {
    one.world.seconds = 20;
    plan_setup(&one, &luck);
    plan_time(&one, &luck);
    plan_table(&one, &luck);
    one.setup.not_before = (uint16_t)ONE_OF(&luck, 0, 0, 6209, LAST_DAY);
    one.setup.poor_from = (uint8_t)take(&luck, 11);
}

/* Changes some bytes, or most, as often to numbers at which something ends as to any. */
static void meddle(void *object, size_t size) {
    for (int32_t left = ONE_OF(&luck, 0, 0, 1, 1, 2, 5, 500); left > 0; left--) {
        uint8_t *place = (uint8_t *)object + take(&luck, (uint32_t)size);
        int32_t any = (int32_t)take(&luck, 256);
        *place = (uint8_t)ONE_OF(&luck, 0, 1, 2, 9, 24, 60, 61, 100, 255, any, any, any, any, any);
    }
}

static bool is_second(uint32_t day, uint32_t sod) {
    return day >= 1 && day <= LAST_DAY && (sod < DAY_S || (sod == DAY_S && is_month_end(day)));
}

static bool is_claim(const irig_claim *told, const claim *c) {
    return told->at.day == c->day && told->at.sod == c->sod && told->mark == c->mark;
}

/* ---- seconds and frames */

/* The text of a second, or of none, and the second behind it. */
static void try_second(irig_utc at, uint8_t mark) {
    char text[20] = "", other[20];
    irig_utc read = {0, 0}, next = {0, 0};
    claim c = {at.day, at.sod, mark};
    plain_reader p = {.setup.lock_after = 1};
    irig_report r = {0};
    bool is_one = is_second(at.day, at.sod);
    require((irig_second_write(&at, text) == IRIG_DONE) == is_one, "a second, or none");
    require((irig_second_read(text, 20, &read) == IRIG_DONE) == is_one, "a text, or none");
    require(!is_one || (read.day == at.day && read.sod == at.sod), "a text's second");
    meddle(text, 20);
    bool is_text = irig_second_read(text, 20 - take(&luck, 2), &read) == IRIG_DONE;
    if (is_text) irig_second_write(&read, other);
    require(!is_text || memcmp(text, other, 20) == 0, "no text");
    step(&p, &c, &r);
    bool is_known = is_one && mark <= IRIG_MARK_DELETE && r.announces;
    require((irig_second_next(&at, mark, &next) == IRIG_DONE) == is_known, "a next one, or none");
    require(!is_known || (next.day == r.day && next.sod == r.sod), "the next second");
}

/* What symbols say, step by step. */
static void read_symbols(heard *h) {
    uint8_t last = h->symbols[75], parity = one.setup.parity;
    irig_setup setup = {.parity = parity, .sense = one.setup.sense, .sbs = IRIG_SBS_IGNORE};
    irig_coded coded;
    irig_control control;
    irig_claim told;
    voice v = voice_of(&setup, h);
    uint32_t answer = irig_decode(h->symbols, h->count, &coded);
    require(v.fault == IRIG_DONE || answer == v.fault, "a wrong symbol");
    if (v.fault != IRIG_DONE) return;
    bool has_parity = irig_has_parity(h->symbols, parity);
    bool is_read = has_parity && answer == IRIG_DONE &&
                   irig_control_unpack(coded.control, &control) == IRIG_DONE &&
                   irig_claim_of(&coded, &control, setup.sense, &told) == IRIG_DONE;
    require(is_read == (v.kind != IRIG_TOLD_FAULT), "what a frame says");
    require(!is_read || is_claim(&told, &v.claim), "a frame's claim");
    require(irig_set_parity(h->symbols, parity) == IRIG_DONE &&
                irig_has_parity(h->symbols, parity) && !irig_has_parity(h->symbols, !parity) &&
                (h->symbols[75] == last) == has_parity, "the parity that is set");
}

/* A coded time that something else may have changed, and whatever control bits. */
static void try_coded(const irig_coded *c, const irig_control *control, uint8_t *symbols) {
    irig_coded d;
    irig_claim claim;
    irig_claim_of(c, control, one.setup.sense, &claim);
    if (irig_encode(c, symbols) != IRIG_DONE) return;
    require(irig_decode(symbols, ELEMENTS, &d) == IRIG_DONE && c->second == d.second &&
                c->minute == d.minute && c->hour == d.hour && c->day == d.day &&
                c->year == d.year && c->control == d.control && c->sbs == d.sbs, "a coded time");
}

static void try_texts(uint32_t number) {
    uint8_t byte = (uint8_t)number;
    const char *texts[] = {irig_fault_name(number), irig_fault_text(number), irig_lock_name(byte),
                           irig_lock_text(byte), irig_cause_name(byte), irig_cause_text(byte)};
    for (int i = 0; i < 6; i++) require((*texts[i] == 0) == (*texts[i ^ 1] == 0), "a text");
    require(irig_classify(number) == symbol_of(number), "a symbol");
    uint8_t quality = irig_quality_of(number);
    require(quality == 15 ? number > 1000000 : quality >= 4 && quality <= 10, "a quality");
}

/* The frame of a second, or of none, made in one call and in four. */
static bool make_frame(irig_utc at, heard *h, irig_coded *coded) {
    int32_t zone = between(&luck, -33, 33), offset = one.world.is_subtracted ? zone : -zone;
    content what = true_content(&one.world, (utc){at.day, at.sod}, zone);
    uint8_t symbols[ELEMENTS], parity = one.setup.parity;
    what.quality = take(&luck, 17);
    irig_control control = {what.pending, what.is_delete, .offset_half_hours = (int8_t)offset,
                            .quality = (uint8_t)what.quality};
    bool is_right = is_second(at.day, at.sod) && abs(zone) <= 31 && what.quality <= 15;
    bool is_made = irig_frame_of(&at, (int8_t)zone, &control, parity, symbols) == IRIG_DONE;
    bool is_joined = irig_coded_of(&at, (int8_t)zone, coded) == IRIG_DONE &&
                     irig_control_pack(&control, &coded->control) == IRIG_DONE &&
                     irig_encode(coded, h->symbols) == IRIG_DONE &&
                     irig_set_parity(h->symbols, parity) == IRIG_DONE;
    require(is_made == is_right && is_joined == is_right, "a frame, or none");
    if (!is_right) return false;
    frame f = encode(&what, one.world.is_odd, one.world.is_subtracted);
    for (unsigned i = 0; i < ELEMENTS; i++)
        require(symbols[i] == (is_marker(i) ? IRIG_SYMBOL_MARKER : is_one(&f, i)), "a frame");
    require(memcmp(symbols, h->symbols, ELEMENTS) == 0, "a frame by four calls");
    return true;
}

static void try_frames(void) {
    utc at = second_at(&one.world, take(&luck, 20));
    irig_utc second = {(uint32_t)at.day, take(&luck, 8) ? (uint32_t)at.second : DAY_S};
    irig_control control = {0};
    irig_coded coded;
    heard h = {ELEMENTS, {0}};
    meddle(&second, sizeof second);
    try_second(second, (uint8_t)take(&luck, 5));
    try_texts(take_bytes(4));
    if (!make_frame(second, &h, &coded)) return;
    meddle(&coded, sizeof coded);
    meddle(&control, sizeof control);
    try_coded(&coded, &control, h.symbols);
    meddle(h.symbols, ELEMENTS);
    if (take(&luck, 8) == 0) h.count = 1 + take(&luck, ELEMENTS);
    read_symbols(&h);
}

static void call_frames(void) {
    plan_world();
    while (next_byte < end_byte) try_frames();
}

/* ---- a timekeeper by any calls, by times that may be out of order */

/* The widths of the frame of a second of the world, or of one that is somehow wrong. */
static void take_widths(int64_t second, uint32_t widths_us[ELEMENTS]) {
    utc at = second_at(&one.world, second);
    if (at.day < 1 || at.day > LAST_DAY) at.day = 1;
    content what = true_content(&one.world, at, ONE_OF(&luck, 0, 0, 1, -31, 31));
    if (take(&luck, 4) == 0) what.quality = take(&luck, 16);
    frame f = encode(&what, one.world.is_odd, one.world.is_subtracted);
    for (uint32_t flips = take(&luck, 4) ? 0 : take(&luck, 5); flips > 0; flips--)
        f.ones[flips % 2] ^= UINT64_C(1) << take(&luck, HALF);
    for (unsigned i = 0; i < ELEMENTS; i++) widths_us[i] = width_of(NOMINAL, &f, i, &luck);
    if (take(&luck, 8) == 7) widths_us[take(&luck, ELEMENTS)] = take_bytes(2);
}

/* A frame on each line, which ends about now. */
static void send_frames(int64_t second, uint32_t now_us) {
    uint32_t widths_us[ELEMENTS];
    for (uint8_t line = 0; line < one.sky.lines; line++) {
        uint32_t rise_us = now_us - SECOND_US - take(&luck, take(&luck, 4) ? 256 : 6000);
        take_widths(second, widths_us);
        for (unsigned i = 0; i < ELEMENTS; i++, rise_us += ELEMENT_US)
            require(both_subject.hear(line, rise_us, widths_us[i]) != DIFFERS, "a frame's pulse");
    }
}

static void call_timekeeper(void) {
    const subject *s = &both_subject;
    uint32_t now_us = take_bytes(4), width_us;
    int64_t seconds = 0;
    irig_second told;
    irig_stamp stamp;
    plan_world();
    irig_wires wires = wires_of(&one.world);
    bool is_one = one.setup.poor_from <= 8; /* and not of a reader alone */
    uint32_t wanted = is_one ? IRIG_DONE : IRIG_FAULT_VALUE;
    require(s->begin(&one.setup, &one.table, &wires, now_us) == wanted, "begin");
    if (!is_one) return;
    while (next_byte < end_byte) {
        uint8_t line = (uint8_t)take(&luck, 6);
        switch (take(&luck, 8)) {
        case 0: now_us += take_bytes(4); break;
        case 1: now_us += (uint32_t)ONE_OF(&luck, 1, 9000, 10000, 500000, INT32_MIN, -1); break;
        case 2:
            width_us = (uint32_t)ONE_OF(&luck, 2000, 5000, 8000, 9500, 500000);
            require(s->hear(line, now_us, width_us) != DIFFERS, "hear");
            break;
        case 3: require(s->stamp(now_us - take_bytes(3), &stamp) != DIFFERS, "stamp"); break;
        case 4: require(s->tick(now_us + take_bytes(3), &told) != DIFFERS, "a tick ahead"); break;
        case 5:
            if (take(&luck, 8) == 0) s->restart();
            break;
        case 6:
            now_us += SECOND_US;
            send_frames(seconds++, now_us);
            if (line % 2) break;
            /* fall through */
        default:
            require(s->tick(now_us, &told) != DIFFERS, "tick");
            require(s->wait(now_us) != UINT32_MAX, "wait");
            announced += told.report.announces;
        }
    }
}

/* ---- a reader by any calls, of which something else may change the numbers */

static irig_reader reader;
static irig_sync sync; /* of any line */
static uint32_t rise_us;
static plain_reader plain;
static heard ports[MOST_LINES];

static uint8_t lines(void) { return (const uint8_t[]){3, 5, 1}[plain.setup.redundancy]; }

static void take_up(const irig_setup *setup, const irig_table *table, const irig_state *state) {
    plain = (plain_reader){*setup, *table, *state};
    memset(ports, 0, sizeof ports);
}

static bool is_setup(const irig_setup *s) {
    return s->parity <= 1 && s->sense <= 1 && s->sbs <= 1 && s->redundancy <= 2 &&
           s->lock_after >= 1 && s->lock_after <= 60 && s->holdover <= 1000000 &&
           s->not_before <= LAST_DAY && s->poor_from <= 10;
}

/* What is wrong with a setup or a table, if anything. */
static uint32_t fault_of(const irig_setup *s, const irig_table *t) {
    for (uint32_t i = 0; i < t->len && i < 64; i++)
        if (t->leaps[i].kind > IRIG_LEAP_DELETE) return IRIG_FAULT_VALUE;
    if (!is_setup(s)) return IRIG_FAULT_VALUE;
    if (t->until > LAST_DAY) return IRIG_FAULT_TABLE_END;
    if (t->len > 64) return IRIG_FAULT_TABLE_LONG;
    for (uint32_t i = 0; i < t->len; i++) {
        uint32_t day = t->leaps[i].day;
        if (day < 1 || day > t->until || !is_month_end(day)) return IRIG_FAULT_TABLE_DAY;
        for (uint32_t j = 0; j < i; j++)
            if (t->leaps[j].day == day) return IRIG_FAULT_TABLE_TWICE;
    }
    return IRIG_DONE;
}

static void begin_reader(bool may_be_wrong) {
    irig_setup setup = one.setup;
    irig_table table = one.table;
    if (may_be_wrong) {
        if (take(&luck, 2)) table.leaps[table.len++] = table.leaps[0];
        meddle(&setup, sizeof setup);
        meddle(&table, 8 * (table.len + 1));
    }
    uint32_t fault = fault_of(&setup, &table);
    require(irig_reader_init(&reader, &setup, &table) == fault, "a reader is made, or none");
    if (fault == IRIG_DONE) take_up(&setup, &table, &(irig_state){0});
}

static void feed(uint8_t port, const uint32_t *widths_us, uint32_t count) {
    bool is_port = port < lines();
    uint32_t answer = count == 1 ? irig_reader_pulse(&reader, port, *widths_us)
                                 : irig_reader_pulses(&reader, port, widths_us, count);
    require(answer == (is_port ? IRIG_DONE : IRIG_FAULT_VALUE), "pulses");
    for (uint32_t i = 0; i < count && is_port; i++) hear_pulse(&ports[port], widths_us[i]);
}

/* A pulse of a line, wherever that stands in its frame. */
static void hear_line(uint8_t port, uint32_t width_us) {
    irig_sync other = sync;
    bool is_port = port < lines();
    idle(&other, rise_us);
    irig_sync_idle(&sync, rise_us);
    uint8_t place = place_of(&other, rise_us, width_us);
    uint8_t answer = irig_reader_hear(&reader, &sync, port, rise_us, width_us);
    require(answer == (is_port ? place : IRIG_NO_PORT), "hear");
    if (!is_port) require(irig_sync_pulse(&sync, rise_us, width_us) == place, "a place");
    require(sync.place == place && sync.was_marker == other.was_marker, "where a line stands");
    if (is_port && place == 1) ports[port].count = 0;
    if (is_port && place > 0) hear_pulse(&ports[port], width_us);
}

static void tick_reader(void) {
    const irig_state *at = &plain.state;
    irig_report wanted = {0}, report;
    irig_told told;
    voice voices[MOST_LINES];
    for (uint8_t i = 0; i < lines(); i++) {
        const voice v = voices[i] = voice_of(&plain.setup, &ports[i]);
        bool is_one = v.kind == IRIG_TOLD_CLAIM;
        bool is_held = v.claim.day == at->day && v.claim.sod == at->sod;
        require(irig_reader_port(&reader, i, &told) == IRIG_DONE && told.kind == v.kind, "a port");
        require(v.fault == IRIG_DONE || told.fault == v.fault, "a port's fault");
        require(!is_one || is_claim(&told.claim, &v.claim), "a port's claim");
        if (is_one && !is_held && at->kind != IRIG_STATE_IDLE)
            wanted.against_hold |= (uint8_t)(1 << i);
    }
    int voted = vote(voices, lines(), lines() / 2 + 1, plain.setup.sense, &wanted);
    step(&plain, voted < 0 ? NULL : &voices[voted].claim, &wanted);
    require(irig_reader_tick(&reader, &report) == IRIG_DONE, "a tick is refused");
    require(memcmp(&report, &wanted, sizeof wanted) == 0, "a report");
    announced += report.announces;
    memset(ports, 0, sizeof ports);
}

/* Adds numbers, each with an odd weight of its own. */
static void weigh(uint64_t *sum, uint64_t *weight, int count, const uint64_t *numbers) {
    for (int i = 0; i < count; i++, *weight += 2) *sum += *weight * numbers[i];
}

/* The check word of a reader's numbers, whatever they are. */
static uint64_t check_of(const irig_reader *r) {
    const irig_setup *s = &r->setup;
    const irig_state *at = &r->state;
    uint64_t sum = 0, w = 3;
    weigh(&sum, &w, 8, (uint64_t[]){s->parity, s->sense, s->sbs, s->redundancy, s->lock_after,
                                    s->holdover, s->not_before, s->poor_from});
    weigh(&sum, &w, 2, (uint64_t[]){r->table.until, r->table.len});
    for (const irig_leap *l = r->table.leaps; l < r->table.leaps + 64; l++)
        weigh(&sum, &w, 2, (uint64_t[]){l->day, l->kind});
    weigh(&sum, &w, 6, (uint64_t[]){at->kind, at->count, at->heard, at->day, at->sod, at->age});
    for (const irig_tally *p = r->ports; p < r->ports + 5; p++)
        weigh(&sum, &w, 5, (uint64_t[]){p->count, p->wrong_kind, p->wrong_element, p->time,
                                        p->control});
    return sum;
}

/* Something else changes numbers, perhaps with their check word. A tick takes none without, tells a
 * second or none, and it is a reader as its numbers say. Else all stays as it is. */
static void change(void) {
    irig_reader before = reader, changed;
    const irig_state *at = &changed.state;
    irig_report report;
    meddle(&reader, sizeof reader);
    meddle(&reader.state, sizeof reader.state);
    if (take(&luck, 2)) reader.check = check_of(&reader);
    irig_reader_pulse(&reader, 0, take_bytes(2));
    changed = reader;
    bool is_taken = irig_reader_tick(&reader, &report) == IRIG_DONE;
    bool is_one = changed.check == check_of(&changed) && is_setup(&changed.setup) &&
                  (at->kind == IRIG_STATE_IDLE || is_second(at->day, at->sod));
    require(is_one || !is_taken, "changed numbers");
    require(!report.announces || (is_taken && is_second(report.day, report.sod)), "no second");
    require(is_taken || memcmp(&reader, &changed, sizeof reader) == 0, "a refused tick");
    if (is_taken) take_up(&changed.setup, &changed.table, &reader.state);
    else reader = before;
}

/* A frame at once, or a part of it, or pulse by pulse of a line. */
static void send(uint8_t port, int64_t second) {
    uint32_t widths_us[ELEMENTS], count = take(&luck, 8) ? ELEMENTS : take(&luck, ELEMENTS);
    bool is_line = take(&luck, 4) == 0;
    take_widths(second, widths_us);
    if (!is_line) feed(port, widths_us, count);
    for (uint32_t i = 0; i < count && is_line; i++, rise_us += ELEMENT_US)
        hear_line(port, widths_us[i]);
}

static void call(uint8_t port, int64_t *second, uint32_t number) {
    switch (take(&luck, 8)) {
    case 0: *second += ONE_OF(&luck, 1, 1, 60, -1); break;
    case 1: feed(port, &number, 1); break;
    case 2: hear_line(port, (uint32_t)ONE_OF(&luck, 8000, 8000, 5000, 2000, 0)); break;
    case 3: rise_us += (uint32_t)ONE_OF(&luck, -1001, -1000, 999, 1000, 1000000, INT32_MAX); break;
    case 4: change(); break;
    case 5:
        for (uint8_t i = 0; i < lines() && number % 4 > 0; i++) send(i, *second);
        tick_reader();
        *second += 1;
        break;
    case 6:
        if (number % 4 == 0) begin_reader(true);
        if (number % 16 != 1) break;
        irig_reader_restart(&reader);
        take_up(&plain.setup, &plain.table, &(irig_state){0});
        break;
    default: send(port, *second);
    }
}

static void call_reader(void) {
    int64_t second = 0;
    plan_world();
    memset(&reader, (int)take_bytes(1), sizeof reader); /* what lies between numbers */
    begin_reader(false);
    irig_sync_init(&sync);
    require(sync.place == 0 && sync.was_marker == 1, "a line on which nothing came");
    meddle(&sync, sizeof sync);
    while (next_byte < end_byte) {
        uint8_t port = (uint8_t)take(&luck, 6);
        call(port, &second, take_bytes(2));
    }
}

int LLVMFuzzerTestOneInput(const uint8_t *bytes, size_t size) {
    static void (*const KINDS_OF[])(void) = {play_life, call_frames, call_timekeeper, call_reader};
    next_byte = bytes;
    end_byte = bytes + size;
    luck.state = size;
    model_wrong = (wrong)atoi(getenv("WRONG") ? getenv("WRONG") : "0");
    KINDS_OF[take(&luck, 4)]();
    return 0;
}
