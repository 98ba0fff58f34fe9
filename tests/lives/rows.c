/* Reads rows.txt, which says what its words mean, and plays its rows. */
#include "device.h"

#include <stdio.h>
#include <stdlib.h>
#include <string.h>

extern const char rows_text[];
__asm__(".section .rodata\n.global rows_text\nrows_text: .incbin \"rows.txt\"\n.byte 0\n.previous\n");

enum { MOST_PULSES = 20000, MOST_LETTERS = 200, MOST_WORDS = 32, MOST_VALUES = 24 };
static const int64_t BEGIN_US = (INT64_C(3) << 32) - 600000; /* the counter turns in the first second */

typedef struct range {
    int64_t from, to;
} range;

/* What is played now, and how it goes. */
static struct {
    life *life;
    const subject *subject;
    int32_t off; /* how far off true pulses are at most */
    struct {
        char name[12];
        int64_t value;
    } values[MOST_VALUES];
    int count, first, seen; /* of these, where those of `for` begin, and how many were read for them */
    int turn, turns;        /* once by each of its values */
    int64_t n;              /* an edge, what was told, or a step */
    entry entry;            /* that is looked at, or that a call answered, */
    uint32_t when, answer;
    irig_stamp stamp;
    line *scripted; /* or none */
    bool is_over, is_wrong, is_played;
    char line[MOST_LETTERS]; /* of the text */
} row;

static pulse script[MOST_PULSES];
static uint32_t pulses;

static void expect(bool is_so) {
    row.is_wrong |= !is_so;
    row.is_over |= !is_so;
}

/* A mistake in rows.txt. */
static void refuse(const char *what) {
    if (!row.is_over) printf("rows.txt: %s: %s\n", what, row.line);
    expect(false);
}

static bool are_same(const char *word, const char *other) { return strcmp(word, other) == 0; }

/* ---- numbers */

/* What was told of an edge within 2 ms; and what was told as the nth. */
static const entry *at_edge(int64_t edge) {
    const life *l = row.life;
    for (int i = 0; edge >= 0 && i < l->tolds; i++)
        if (l->told[i].edge_us - l->world.edge_us[edge] + 2000 < 4000) return &l->told[i];
    return NULL;
}

static const entry *told_as(int64_t n) {
    return n > 0 && n <= row.life->tolds ? &row.life->told[n - 1] : NULL;
}

static uint64_t edge_of(const entry *e) { return e ? e->edge_us : 0; }

/* The edge of the second that is announced, or -1. */
static int64_t announced(const irig_report *r) {
    int64_t n = -1;
    bool is_one = r->announces && find_second(&row.life->world, (utc){r->day, r->sod}, &n);
    return is_one ? n : -1;
}

#define EACH_NAME(X)                                                                                             \
    X("off", row.off) X("n", row.n) X("end", l->world.seconds) X("last", l->tolds)                               \
    X("earliest", l->judge.earliest) X("wait", row.subject->wait(row.when))                                      \
    X("by_wait", row.subject->is_by_wait) X("flips", row.subject->flip != NULL)                                  \
    X("late", row.entry.edge_us - l->world.edge_us[row.n]) X("at", row.entry.edge_us - l->world.edge_us[0])      \
    X("after", row.entry.edge_us - l->judge.edge_us) X("gap", row.entry.edge_us - edge_of(told_as(row.n - 1)))   \
    X("told", s->is_told) X("bound", s->bound_us) X("missed", s->missed) X("moved", s->moved)                    \
    X("strays", s->strays) X("doubt", s->doubt) X("against_table", s->against_table)                             \
    X("agreed", s->lines.agreed) X("apart", s->lines.apart) X("faulty", s->lines.faulty)                         \
    X("silent", s->lines.silent) X("ports", r->agreed) X("other_ports", r->differed | r->faulty | r->poor)       \
    X("announces", r->announces) X("second", announced(r)) X("day", r->day) X("sod", r->sod) X("lock", r->lock)  \
    X("lock_count", r->lock_count) X("cause", r->cause) X("quality", r->quality) X("has_local", r->has_local)    \
    X("dst", r->dst) X("answer", row.answer) X("stamp_day", row.stamp.day) X("stamp_sod", row.stamp.sod)         \
    X("stamp_us", row.stamp.offset_us) X("stamp_bound", row.stamp.bound_us) X("by_vote", IRIG_CAUSE_VOTED)       \
    X("held", IRIG_CAUSE_HELD) X("acquiring", IRIG_CAUSE_ACQUIRING) X("no_vote", IRIG_CAUSE_NO_VOTE)             \
    X("expired", IRIG_CAUSE_EXPIRED) X("leap_guard", IRIG_CAUSE_LEAP_GUARD) X("jump", IRIG_CAUSE_JUMP)           \
    X("unlocked", IRIG_LOCK_UNLOCKED) X("to_lock", IRIG_LOCK_ACQUIRING) X("locked", IRIG_LOCK_LOCKED)            \
    X("holdover", IRIG_LOCK_HOLDOVER) X("done", IRIG_DONE) X("bad_value", IRIG_FAULT_VALUE)                      \
    X("bad_drift", IRIG_FAULT_DRIFT) X("no_port", IRIG_NO_PORT) X("ignored", IRIG_SBS_IGNORE)                    \
    X("sod_bit", 8 * (offsetof(irig_timekeeper, state) + offsetof(irig_state, sod)) + 2)                         \
    X("nominal", NOMINAL) X("wide", WIDE) X("at_bound", AT_BOUND) X("shifted", SHIFTED) X("walking", WALKING)    \
    X("of_leap", SAYS_LEAP) X("holes", HOLES) X("last_moved", LAST_MOVED) X("odd", IRIG_PARITY_ODD)

static int64_t value_of(const char *name) {
    const life *l = row.life;
    const irig_second *s = &row.entry.second;
    const irig_report *r = &s->report;
    for (int i = 0; i < row.count; i++)
        if (are_same(row.values[i].name, name)) return row.values[i].value;
#define IS_IT(word, value) if (are_same(word, name)) return (int64_t)(value);
    EACH_NAME(IS_IT)
    refuse(name);
    return 0;
}

typedef enum sign {
    CHOICE, OR, AND, SAME, OTHER, AT_MOST, AT_LEAST, LESS, MORE, PLUS, MINUS, TIMES, OVER, REST, SIGNS
} sign;

/* How each is written, and how much it binds. */
static const char *const SIGN[SIGNS] = {"?", "||", "&&", "==", "!=", "<=", ">=", "<", ">", "+", "-", "*", "/", "%"};
static const int BINDS[SIGNS + 1] = {1, 2, 3, 4, 4, 4, 4, 4, 4, 5, 5, 6, 6, 6, 0};

static sign sign_at(const char *at) {
    sign one = CHOICE;
    while (one < SIGNS && strncmp(at, SIGN[one], strlen(SIGN[one])) != 0) one++;
    return one;
}

static int64_t apply(sign by, int64_t a, int64_t b) {
    switch (by) {
    case OR: return a || b;
    case AND: return a && b;
    case SAME: return a == b;
    case OTHER: return a != b;
    case AT_MOST: return a <= b;
    case AT_LEAST: return a >= b;
    case LESS: return a < b;
    case MORE: return a > b;
    case PLUS: return a + b;
    case MINUS: return a - b;
    case TIMES: return a * b;
    case OVER: return b == 0 ? 0 : a / b;
    default: return b == 0 ? 0 : a % b;
    }
}

static int64_t expression(const char **at, int binds);

static int64_t operand(const char **at) {
    static const char NAMES[] = "abcdefghijklmnopqrstuvwxyz_0123456789";
    char name[MOST_LETTERS] = {0}, first = **at;
    size_t size = strspn(*at, NAMES);
    memcpy(name, *at, size);
    *at += size > 0 ? size : first != 0;
    if (size > 0) return first >= '0' && first <= '9' ? strtoll(name, NULL, 10) : value_of(name);
    if (first == '-') return -operand(at);
    if (first == '!') return operand(at) == 0;
    int64_t value = first == '(' ? expression(at, 1) : 0;
    if (first != '(' || *(*at)++ != ')') refuse("no number");
    return value;
}

static int64_t expression(const char **at, int binds) {
    int64_t value = operand(at);
    for (sign by = sign_at(*at); BINDS[by] >= binds; by = sign_at(*at)) {
        *at += strlen(SIGN[by]);
        int64_t other = expression(at, by == CHOICE ? 1 : BINDS[by] + 1);
        if (by != CHOICE) value = apply(by, value, other);
        if (by != CHOICE) continue;
        if (*(*at)++ != ':') refuse("a choice of one");
        int64_t last = expression(at, 1);
        value = value ? other : last;
    }
    return value;
}

/* A..B, A.. up to the last, or one number. */
static range range_of(const char *word, int64_t last) {
    const char *at = word ? word : "";
    range r = {expression(&at, 1), last};
    if (*at == 0) r.to = r.from;
    else if (strncmp(at, "..", 2) != 0) refuse("no number");
    else if (*(at += 2)) r.to = expression(&at, 1);
    if (*at && strncmp(at, "..", 2) != 0) refuse("no number");
    return r;
}

static int64_t number(const char *word) {
    range r = range_of(word, INT64_MIN);
    if (r.from != r.to) refuse("no number");
    return r.from;
}

static unsigned lines_of(const char *word) {
    unsigned lines = are_same(word, "all") ? (1u << MOST_LINES) - 1 : 0;
    if (lines == 0)
        do lines |= 1u << expression(&word, 1);
        while (*word++ == ',');
    return lines;
}

static void let_be(const char *name, int64_t value) {
    int i = 0;
    while (i < row.count && !are_same(row.values[i].name, name)) i++;
    if (i == row.count && row.count < MOST_VALUES - 1) row.count++;
    snprintf(row.values[i].name, sizeof row.values[i].name, "%s", name);
    row.values[i].value = value;
}

/* ---- a world */

static void begin_seconds(char **word) {
    life *l = row.life;
    chance luck = {7};
    memset(&l->device, 0, sizeof l->device);
    memset(&l->table, 0, sizeof l->table);
    l->device.luck.state = 3;
    l->setup = (irig_setup){.lock_after = 3, .holdover = 300};
    l->sky.lines = 3;
    l->world.seconds = (uint32_t)number(word[1]);
    l->world.drift_us = l->world.wander_ppb = 0;
    l->world.within_us = (uint32_t)row.off + 1;
    l->world.is_odd = l->world.is_subtracted = l->world.prefers_frames = false;
    l->world.first = (utc){9826, 45290};
    l->world.leap_day = -1;
    l->world.leap = 0;
    memset(l->world.delay_us, 0, sizeof l->world.delay_us);
    l->judge.is_beyond = false;
    l->judge.earliest = 0;
    begin_lines(l, (uint64_t)BEGIN_US, FAST, &luck);
}

static void be_alone(char **word) {
    (void)word;
    row.life->sky.lines = 1;
    row.life->setup.redundancy = IRIG_PORTS_ONE;
}

static void set_edge(char **word) {
    uint64_t *edge_us = row.life->world.edge_us;
    edge_us[row.n] = edge_us[0] + (uint64_t)(row.n * SECOND_US + number(word[1]));
}

static void set_clock(char **word) { row.life->world.clock_us[number(word[1])][row.n] = (int16_t)number(word[2]); }

#define SETS(name, place) if (are_same(key, name)) { place = (__typeof__(place))value; return; }

static void set(char **word) {
    life *l = row.life;
    const char *key = word[1];
    int64_t value = number(word[2]);
    SETS("lock_after", l->setup.lock_after)
    SETS("holdover", l->setup.holdover)
    SETS("sbs", l->setup.sbs)
    SETS("parity", l->setup.parity)
    SETS("poor_from", l->setup.poor_from)
    SETS("within", l->world.within_us)
    SETS("drift", l->world.drift_us)
    SETS("wander", l->world.wander_ppb)
    SETS("prefers_frames", l->world.prefers_frames)
    SETS("day", l->world.first.day)
    SETS("second", l->world.first.second)
    SETS("leap_day", l->world.leap_day)
    SETS("leap", l->world.leap)
    SETS("tick_late", l->device.always_us)
    SETS("beyond", l->judge.is_beyond)
    SETS("table_until", l->table.until)
    SETS("table_len", l->table.len)
    SETS("table_inserts", l->table.leaps[0].day)
    l->device.pace = BY_POLLS;
    SETS("poll", l->device.poll_us)
    refuse("nothing to set");
}

static void set_line(uint8_t i, const char *key, int64_t value) {
    world *w = &row.life->world;
    line *l = &row.life->sky.line[i];
    SETS("offset", l->offset_us)
    SETS("width", l->width)
    SETS("quality", l->quality)
    SETS("dst", l->dst)
    SETS("delay", w->delay_us[i])
    if (!are_same(key, "clock")) refuse("no such key");
    for (uint32_t n = 0; n <= w->seconds + 2; n++) w->clock_us[i][n] = (int16_t)value;
}

static void set_lines(char **word) {
    unsigned lines = lines_of(word[1]);
    for (uint8_t i = 0; i < MOST_LINES; i++)
        for (char **w = word + 2; (lines >> i & 1) && *w; w += 2) set_line(i, w[0], number(w[1]));
}

static void darken(char **word) {
    sky *s = &row.life->sky;
    range r = range_of(word[2], 0);
    s->dark[s->darks++] = (dark){(uint32_t)r.from, (uint32_t)r.to, lines_of(word[1])};
}

static void set_lie(lie *told, range edges, const char *key, int64_t value) {
    const uint64_t *edge_us = row.life->world.edge_us;
    SETS("aim", told->aim)
    SETS("shift", told->shift_us)
    SETS("rate", told->rate_us)
    SETS("spacing", told->spacing_us)
    SETS("harm", told->harm)
    SETS("quality", told->quality)
    SETS("says", told->saying)
    if (are_same(key, "from")) told->from_us = edge_us[edges.from] + (uint64_t)value;
    else if (are_same(key, "to")) told->to_us = edge_us[edges.to] + (uint64_t)value;
    else if (are_same(key, "by")) told->saying = SAYS_OTHER, told->by = (int32_t)value;
    else if (are_same(key, "poor")) told->saying = SAYS_POOR, told->poor = (uint32_t)value;
    else refuse("no such key");
}

static void add_lies(char **word) {
    life *l = row.life;
    range edges = range_of(word[2], 0);
    unsigned lines = lines_of(word[1]);
    for (uint8_t i = 0; i < MOST_LINES; i++) {
        if ((lines >> i & 1) == 0) continue;
        lie *told = &l->sky.lie[l->sky.lies++];
        *told = (lie){.line = i, .spacing_us = ELEMENT_US, .to_us = l->world.edge_us[edges.to] - 20000};
        if (edges.from > 0) told->from_us = l->world.edge_us[edges.from] - 20000;
        for (char **w = word + 3; *w; w += 2) set_lie(told, edges, w[0], number(w[1]));
    }
}

static uint64_t time_of(char **word) {
    return row.life->world.edge_us[number(word[0])] + (uint64_t)number(word[1]);
}

static void fall_asleep(char **word) {
    row.life->device.sleep_us = time_of(word + 1);
    row.life->device.wake_us = time_of(word + 3);
}

static void flip(char **word) {
    row.life->device.flipped_bit = (uint32_t)number(word[1]);
    row.life->device.flip_us = time_of(word + 2);
}

/* ---- a line whose pulses are changed */

static void begin_all(void) {
    life *l = row.life;
    l->world.poor_from = l->setup.poor_from > 0 ? l->setup.poor_from : 7;
    for (uint8_t i = 0; i < l->sky.lines; i++) begin_line(&l->sky.line[i], &l->sky, i, 11u + i);
}

static void write_down(char **word) {
    line *from = row.scripted = &row.life->sky.line[number(word[1])];
    begin_all();
    for (pulses = 0; !from->is_over && pulses < MOST_PULSES; go_on(from, &row.life->sky))
        script[pulses++] = from->next;
}

static void add_pulse(uint64_t rise_us, uint32_t width_us) {
    script[pulses++] = (pulse){.rise_us = rise_us, .end_us = rise_us + width_us};
}

static void send_pulse(char **word) { add_pulse(time_of(word + 1), (uint32_t)number(word[3])); }

static void send_elements(char **word) {
    range r = range_of(word[1], 0);
    content what = {.at = {number(word[4]), number(word[5])}, .zone = (int32_t)number(word[6])};
    frame symbols = encode(&what, false, false);
    for (int64_t i = r.from; i <= r.to; i++)
        add_pulse(time_of(word + 2) + (uint64_t)(ELEMENT_US * i), width_of(NOMINAL, &symbols, (unsigned)i, NULL));
}

/* Elements of a frame are lost, or false and so wide. */
static void change_elements(char **word) {
    int64_t frame = number(word[1]), wide_us = word[3] ? number(word[3]) : 0;
    range r = range_of(word[2], ELEMENTS - 1);
    uint32_t kept = 0;
    for (uint32_t i = 0; i < pulses; i++) {
        pulse p = script[i];
        bool is_meant = p.is_true && p.frame == frame && p.element >= r.from && p.element <= r.to;
        if (is_meant) p = (pulse){.rise_us = p.rise_us, .end_us = p.rise_us + (uint64_t)wide_us};
        if (p.end_us > p.rise_us) script[kept++] = p;
    }
    pulses = kept;
}

static int by_rise(const void *a, const void *b) {
    const pulse *p = a, *q = b;
    return (p->rise_us > q->rise_us) - (p->rise_us < q->rise_us);
}

static void play_world(char **word) {
    (void)word;
    if (!row.scripted) {
        begin_all();
    } else {
        qsort(script, pulses, sizeof *script, by_rise);
        row.scripted->script = script;
        row.scripted->script_left = pulses;
        go_on(row.scripted, &row.life->sky);
    }
    play(row.life, row.subject);
    row.when = (uint32_t)row.life->judge.now_us;
    row.is_played = true;
    expect(!row.life->judge.is_failed);
}

/* ---- what came of it */

/* What each line is, by words with commas between, and no line is anything else. */
static bool are_lines(const char *states) {
    static const char *const STATES[] = {"agreed", "apart", "differed", "faulty", "poor", "broken", "silent"};
    irig_masks m = {0};
    uint8_t *const masks[] = {&m.agreed, &m.apart, &m.differed, &m.faulty, &m.poor, &m.broken, &m.silent};
    for (unsigned line = 0; *states; line++) {
        size_t size = strcspn(states, ","), i = 0;
        while (i < 6 && (strlen(STATES[i]) != size || memcmp(STATES[i], states, size) != 0)) i++;
        *masks[i] = (uint8_t)(*masks[i] | 1u << line);
        states += size + (states[size] == ',');
    }
    return memcmp(&m, &row.entry.second.lines, sizeof m) == 0;
}

static bool holds(char **said) {
    for (; *said; said++)
        if (strncmp(*said, "lines=", 6) == 0 ? !are_lines(*said + 6) : number(*said) == 0) return false;
    return true;
}

static void expect_now(char **word) { expect(holds(word + 1)); }

static void compare(char **word) {
    bool is_told = are_same(word[0], "told"), is_never = are_same(word[0], "never");
    range r = range_of(word[1], is_told ? row.life->tolds : (int64_t)row.life->world.seconds);
    expect(r.from <= r.to);
    for (row.n = r.from; row.n <= r.to && !row.is_over; row.n++) {
        const entry *e = is_told ? told_as(row.n) : at_edge(row.n);
        if (e) row.entry = *e;
        expect((e && holds(word + 2)) != is_never);
    }
}

/* Times of calls are behind the last edge that was told. */
static uint32_t called(const char *word) {
    return row.when = (uint32_t)row.life->judge.edge_us + (uint32_t)number(word);
}

static void expect_stamp(char **word) {
    row.stamp = (irig_stamp){0};
    if (!row.subject->stamp) return;
    row.answer = row.subject->stamp(called(word[1]), &row.stamp);
    expect(holds(word + 2));
}

static void expect_tick(char **word) {
    irig_second s = {0};
    row.subject->tick(called(word[1]), &s);
    row.entry = (entry){0, row.life->judge.edge_us + s.edge_us - (uint32_t)row.life->judge.edge_us, s};
    expect(holds(word + 2));
}

/* Times are behind all that was told. */
static void expect_heard(char **word) {
    uint32_t rise_us = (uint32_t)row.life->judge.now_us + (uint32_t)number(word[2]);
    expect(row.subject->hear((uint8_t)number(word[1]), rise_us, (uint32_t)number(word[3])) == number(word[4]));
}

/* What lines are when all is over, and that one ended last so many us behind the first other one. */
static void expect_line(char **word) {
    static const char *const STATES[] = {"silent", "broken", "faulty", "uneven", "poor", "unjudged",
                                         "agreed", "apart", "differed"};
    irig_line_said said = {0};
    if (!row.subject->line) return;
    expect(row.subject->line((uint8_t)number(word[1]), &said) == IRIG_DONE);
    expect(are_same(word[2], STATES[said.state]));
    if (word[3]) expect(said.off_us == number(word[3]));
}

static void expect_begun(char **word) {
    irig_wires wires = wires_of(&row.life->world);
    row.is_played = true;
    expect(row.subject->begin(&row.life->setup, &row.life->table, &wires, 0) == number(word[1]));
}

static void expect_quality(char **word) {
    row.is_played = true;
    expect(irig_quality_of((uint32_t)number(word[1])) == number(word[2]));
}

/* ---- the text */

static void obey(char **word);
static void play_common(char **word);

static void let(char **word) { let_be(word[1], number(word[2])); }

static void play_only(char **word) { row.is_over |= !holds(word + 1); }

static void obey_if(char **word) {
    if (number(word[1])) obey(word + 2);
}

static void obey_each(char **word) {
    range r = range_of(word[1], row.life->world.seconds + 2);
    for (int64_t n = r.from; n <= r.to && !row.is_over; n++) {
        row.n = n;
        obey(word + 2);
    }
}

static void name_values(char **word) {
    row.first = row.count;
    while (*++word) let_be(*word, 0);
}

/* A value for each name, again and again, or of one name also all of a range: those that it is played with now. */
static void take_values(char **word) {
    int names = row.count - row.first;
    while (*++word) {
        range r = range_of(*word, 0);
        for (int64_t value = r.from; value <= r.to; value++) {
            int name = row.seen % names;
            if (row.seen++ / names == row.turn) row.values[row.first + name].value = value;
        }
    }
    row.turns = row.seen / names;
}

/* With how many behind them at least. */
static const struct {
    const char *name;
    void (*obey)(char **word);
    int least;
} WORDS[] = {
    {"only", play_only, 1}, {"for", name_values, 1}, {"|", take_values, 1}, {"let", let, 2}, {"if", obey_if, 2},
    {"each", obey_each, 2}, {"as", play_common, 1}, {"seconds", begin_seconds, 1}, {"alone", be_alone, 0},
    {"set", set, 2}, {"edge", set_edge, 1}, {"clock", set_clock, 2}, {"line", set_lines, 3}, {"dark", darken, 2},
    {"lie", add_lies, 2}, {"sleep", fall_asleep, 4}, {"flip", flip, 3}, {"script", write_down, 1},
    {"pulse", send_pulse, 3}, {"elements", send_elements, 6}, {"lose", change_elements, 2},
    {"false", change_elements, 3}, {"play", play_world, 0}, {"expect", expect_now, 1}, {"says", compare, 2},
    {"never", compare, 2}, {"told", compare, 2}, {"tick", expect_tick, 2}, {"stamp", expect_stamp, 2},
    {"hear", expect_heard, 4}, {"is", expect_line, 2}, {"begin", expect_begun, 1}, {"quality", expect_quality, 2},
};

static void obey(char **word) {
    size_t i = 0, all = sizeof WORDS / sizeof *WORDS;
    int behind = -1;
    while (word[behind + 1]) behind++;
    while (i < all && *word && !are_same(*word, WORDS[i].name)) i++;
    if (i < all && *word && behind >= WORDS[i].least) WORDS[i].obey(word);
    else refuse("no such word, or too little behind it");
}

/* The next line that says something, without what is behind a #. */
static bool next_line(const char **at, char *line) {
    size_t said = 0;
    while (**at && said == 0) {
        size_t size = strcspn(*at, "\n");
        said = strcspn(*at, "#\n") < MOST_LETTERS ? strcspn(*at, "#\n") : MOST_LETTERS - 1;
        memcpy(line, *at, said);
        while (said > 0 && line[said - 1] == ' ') said--;
        line[said] = 0;
        *at += size + ((*at)[size] == '\n');
    }
    return said > 0;
}

/* What stands in a line up to the next semicolon. */
static char *obey_first(char *said) {
    char *word[MOST_WORDS + 1], *end = said + strcspn(said, ";");
    int count = 0;
    bool is_last = *end == 0;
    *end = 0;
    for (char *w = strtok(said, " "); w && count < MOST_WORDS; w = strtok(NULL, " ")) word[count++] = w;
    word[count] = NULL;
    obey(word);
    return is_last ? NULL : end + 1;
}

/* The lines behind a header. */
static void play_lines(const char *at) {
    char line[MOST_LETTERS];
    while (!row.is_over && next_line(&at, line) && *line == ' ') {
        memcpy(row.line, line, sizeof line);
        for (char *said = line; said && !row.is_over;) said = obey_first(said);
    }
}

/* What stands behind a header, or NULL. */
static const char *find(const char *header) {
    const char *at = rows_text;
    char line[MOST_LETTERS];
    while (next_line(&at, line))
        if (are_same(line, header)) return at;
    return NULL;
}

static void play_common(char **word) {
    char header[MOST_LETTERS];
    snprintf(header, sizeof header, "common %s", word[1]);
    for (char **w = word + 2; w[0] && w[1]; w += 2) let_be(w[0], number(w[1]));
    const char *at = find(header);
    if (at) play_lines(at);
    else refuse("nothing common");
}

/* Plays a row by each of its values, and by some that are given. */
static bool play_row(const char *at, int given) {
    row.is_wrong = row.is_played = false;
    row.turn = row.turns = 0;
    do {
        row.count = given;
        row.seen = 0;
        row.scripted = NULL;
        row.is_over = false;
        play_lines(at);
    } while (!row.is_wrong && ++row.turn < row.turns);
    return !row.is_wrong;
}

static void say_wrong(const char *name) {
    const judge *j = &row.life->judge;
    printf("row failed: %s, %d us off: %s\n", name, (int)row.off, j->is_failed ? j->text : row.line);
}

/* Those that a subject cannot be asked, or that are of lines less exact, count for nothing. */
static void play_all(bool is_loud, unsigned long *passed, unsigned long *failed) {
    const char *at = rows_text;
    for (char line[MOST_LETTERS]; next_line(&at, line);) {
        if (strncmp(line, "row ", 4) != 0) continue;
        row.life->judge.is_failed = false;
        bool is_passed = play_row(at, 0);
        *passed += is_passed && row.is_played;
        *failed += !is_passed;
        if (!is_passed && is_loud) say_wrong(line + 4);
        memset(row.life->sky.line, 0, sizeof row.life->sky.line);
        row.life->judge.is_beyond = row.life->judge.is_failed = false;
    }
}

void play_rows(life *l, const subject *s, bool is_loud, unsigned long *passed, unsigned long *failed) {
    static const int32_t OFF_US[] = {449, 49, 9, 0};
    row.life = l;
    row.subject = s;
    for (size_t i = 0; i < sizeof OFF_US / sizeof *OFF_US; i++) {
        row.off = OFF_US[i];
        play_all(is_loud, passed, failed);
    }
}

bool play_flips(life *l, const subject *s) {
    uint32_t first = 8 * offsetof(irig_timekeeper, lines), lives = 0;
    const char *at = find("common a_bit_of_a_line");
    row.life = l;
    row.subject = s;
    for (uint32_t bit = first; bit < first + 8 * sizeof(irig_line); bit++)
        for (uint32_t element = 0; element < ELEMENTS; element += 3, lives++) {
            row.count = 0;
            let_be("bit", bit);
            let_be("element", element);
            if (play_row(at, 2)) continue;
            printf("bit %u behind element %u: %s\n", (unsigned)(bit - first), (unsigned)element, l->judge.text);
            return false;
        }
    printf("%s: %u bits of a line flipped\n", s->name, (unsigned)lives);
    return true;
}
