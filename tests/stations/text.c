/* The lines of a scenario, as docs/SCENARIOS.md has them. */
#include "plant.h"

/* ---- days and seconds */

void put_day(char text[TIME_LETTERS], int64_t day) {
    int year = 2000, month = 0;
    for (int64_t days = 366; day >= days; year++) {
        day -= days;
        days = (year + 1) % 4 == 0 ? 366 : 365;
    }
    const int MONTHS[] = {31, year % 4 == 0 ? 29 : 28, 31, 30, 31, 30, 31, 31, 30, 31, 30, 31};
    for (; day >= MONTHS[month]; month++) day -= MONTHS[month];
    snprintf(text, TIME_LETTERS, "%04d-%02d-%02d", year, month + 1, (int)day + 1);
}

void put_time(char text[TIME_LETTERS], utc at) {
    int minute = at.second < DAY_S ? (int)(at.second / 60) : 1439;
    char day[TIME_LETTERS];
    put_day(day, at.day);
    snprintf(text, TIME_LETTERS, "%.10sT%02d:%02d:%02dZ", day, minute / 60, minute % 60,
             (int)(at.second - 60 * minute));
}

/* ---- the plant line */

static const char *word_of(bool is_so, const char *word, const char *other) {
    return is_so ? word : other;
}

static void write_leap(FILE *to, int i, int64_t day, bool is_inserted) {
    char text[TIME_LETTERS];
    put_day(text, day);
    fprintf(to, "%s{\"day\":\"%s\",\"kind\":\"%s\"}", i > 0 ? "," : "", text,
            word_of(is_inserted, "insert", "delete"));
}

static void write_generator(const generator *from, FILE *to) {
    char text[TIME_LETTERS];
    fprintf(to, "{\"local\":%d", (int)from->zone.local);
    if (from->zone.dst) fprintf(to, ",\"dst\":true");
    for (int i = 0; i < from->changes; i++) {
        const change *c = &from->change[i];
        put_time(text, c->at);
        fprintf(to, "%s{\"at\":\"%s\",\"local\":%d,\"dst\":%s}", i > 0 ? "," : ",\"changes\":[", text,
                (int)c->zone.local, word_of(c->zone.dst, "true", "false"));
    }
    fprintf(to, "%s}", from->changes > 0 ? "]" : "");
}

static void write_table(const irig_table *table, FILE *to) {
    char text[TIME_LETTERS];
    put_day(text, table->until);
    fprintf(to, ",\"table\":{\"until\":\"%s\",\"leaps\":[", text);
    for (uint32_t i = 0; i < table->len; i++)
        write_leap(to, (int)i, table->leaps[i].day, table->leaps[i].kind == IRIG_LEAP_INSERT);
    fprintf(to, "]}");
}

static void write_device(const plant *p, const device *by, FILE *to) {
    bool is_late = false;
    fprintf(to, "{\"name\":\"%s\",\"lock_after\":%u,\"holdover\":%u,\"drift\":%u", by->name,
            (unsigned)by->lock_after, (unsigned)by->holdover, (unsigned)by->drift);
    if (by->gain != 0) fprintf(to, ",\"gain\":%d", (int)by->gain);
    if (by->counter != 0) fprintf(to, ",\"counter\":%u", (unsigned)by->counter);
    for (uint32_t i = 0; i < p->generators; i++) is_late |= by->late[i] > 0;
    for (uint32_t i = 0; i < p->generators && is_late; i++)
        fprintf(to, "%s%u", i > 0 ? "," : ",\"late\":[", (unsigned)by->late[i]);
    if (is_late) fprintf(to, "]");
    if (by->has_poll) fprintf(to, ",\"poll\":%u", (unsigned)by->poll);
    if (by->has_table) write_table(&by->table, to);
    fprintf(to, "}");
}

static void write_plant(const plant *p, FILE *to) {
    char text[TIME_LETTERS];
    put_time(text, p->start);
    fprintf(to, "{\"version\":4,\"start\":\"%s\",\"leaps\":[", text);
    for (int i = 0; i < p->leaps; i++) write_leap(to, i, p->leap[i].day, p->leap[i].kind > 0);
    fprintf(to, "],\"parity\":\"%s\",\"sense\":\"%s\",\"sbs\":\"%s\",\"generators\":[",
            word_of(p->is_odd, "odd", "even"), word_of(p->is_subtracted, "subtract", "add"),
            word_of(p->ignores_sbs, "ignore", "check"));
    for (uint32_t g = 0; g < p->generators; g++) {
        if (g > 0) fprintf(to, ",");
        write_generator(&p->generator[g], to);
    }
    fprintf(to, "],\"devices\":[");
    for (uint32_t r = 0; r < p->devices; r++) {
        if (r > 0) fprintf(to, ",");
        write_device(p, &p->device[r], to);
    }
    fprintf(to, "]}\n");
}

/* ---- events */

static void write_fault(const event *e, FILE *to) {
    static const char *const KINDS[FAULTS] = {"",           "silent",        "stuck",   "skew",
                                              "no_pending", "false_pending", "quality", "wrong_offset"};
    const fault *f = &e->fault;
    if (f->kind == NO_FAULT) {
        fprintf(to, "{\"do\":\"repair\",\"g\":%u}\n", (unsigned)e->g);
        return;
    }
    fprintf(to, "{\"do\":\"fault\",\"g\":%u,\"kind\":\"%s\"", (unsigned)e->g, KINDS[f->kind]);
    if (f->kind == SKEW || f->kind == WRONG_OFFSET) fprintf(to, ",\"by\":%d", (int)f->by);
    if (f->kind == POOR_QUALITY) fprintf(to, ",\"q\":%d", (int)f->by);
    if (f->kind == FALSE_PENDING)
        fprintf(to, ",\"leap\":\"%s\"", word_of(f->by == 1, "delete", "insert"));
    fprintf(to, "}\n");
}

/* By its keys, in the order of docs/SCENARIOS.md; `number` is none if it has no name. */
static void write_keys(const plant *p, const event *e, const char *what, bool has_generator,
                       const char *number, FILE *to) {
    fprintf(to, "{\"do\":\"%s\"", what);
    if (has_generator) fprintf(to, ",\"g\":%u", (unsigned)e->g);
    fprintf(to, ",\"r\":\"%s\"", e->r < p->devices ? p->device[e->r].name : "nobody");
    if (number) fprintf(to, ",\"%s\":%u", number, (unsigned)e->number);
    fprintf(to, "}\n");
}

static void write_event(const plant *p, const event *e, FILE *to) {
    switch (e->what) {
    case PASS: fprintf(to, "{\"do\":\"pass\",\"us\":%u}\n", (unsigned)e->number); break;
    case SECONDS: fprintf(to, "{\"do\":\"seconds\",\"n\":%u}\n", (unsigned)e->number); break;
    case FAULT: write_fault(e, to); break;
    case PULL: write_keys(p, e, "pull", true, NULL, to); break;
    case PLUG: write_keys(p, e, "plug", true, NULL, to); break;
    case LATE: write_keys(p, e, "late", true, "us", to); break;
    case PULSE: write_keys(p, e, "pulse", true, "width", to); break;
    case TICK: write_keys(p, e, "tick", false, NULL, to); break;
    case RESTART: write_keys(p, e, "restart", false, NULL, to); break;
    case STAMP: write_keys(p, e, "stamp", false, "ago", to); break;
    }
}

void write_scenario(const plant *p, FILE *to) {
    write_plant(p, to);
    for (int i = 0; i < p->events; i++) write_event(p, &p->event[i], to);
}
