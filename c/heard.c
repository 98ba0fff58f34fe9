/* Readers that hear what tests/list_heard wrote of scenarios, the word being its file `heard`: at each
 * tick a line of the log, and a line of numbers, which begins with a blank, with what else there is: what
 * the report says of the ports, and what each port told. No C library need find the end of an input. */
#include "irig.h"

#include <stdio.h>
#include <stdlib.h>

static FILE *heard;
static irig_reader reader;
static char name[17];
static unsigned long edges;

static int fail(const char *what) {
    printf("heard: %s\n", what);
    exit(1);
}

static int letter(void) {
    int next = fgetc(heard);
    return next == EOF ? fail("no end") : next;
}

/* A number, and what stands behind it. */
static uint32_t number(int *behind) {
    uint32_t value = 0;
    for (*behind = letter(); *behind >= '0' && *behind <= '9'; *behind = letter())
        value = 10 * value + (uint32_t)(*behind - '0');
    return value;
}

static uint32_t word(void) {
    int behind;
    return number(&behind);
}

/* A line up to its end. Its last word is a reader's name. */
static void take_name(void) {
    size_t length = 0;
    for (int next = letter(); next != '\n'; next = letter()) {
        putchar(next);
        name[length] = (char)next;
        length = next == ' ' || length == sizeof name - 1 ? 0 : length + 1;
    }
    name[length] = 0;
    edges = 0;
    putchar('\n');
}

static void take_setup(void) {
    static irig_table table;
    irig_setup setup = {0};
    setup.parity = (uint8_t)word();
    setup.sense = (uint8_t)word();
    setup.sbs = (uint8_t)word();
    setup.redundancy = (uint8_t)word();
    setup.lock_after = (uint8_t)word();
    setup.holdover = word();
    table.until = word();
    table.len = word();
    for (uint32_t i = 0; i < table.len && i < 64; i++) {
        table.leaps[i].day = word();
        table.leaps[i].kind = word();
    }
    if (irig_reader_init(&reader, &setup, &table) != IRIG_DONE) fail("a setup is refused");
}

/* Pulses, as many at once as there is room for. */
static void take_pulses(void) {
    uint32_t widths_us[100], count = 0;
    uint8_t port = (uint8_t)word();
    for (int next = letter(); next != '\n'; next = letter()) {
        widths_us[count++] = next == '0'   ? 2000
                             : next == '1' ? 5000
                             : next == 'P' ? 8000
                                           : number(&next);
        if (count < 100) continue;
        if (irig_reader_pulses(&reader, port, widths_us, count) != IRIG_DONE) fail("no such port");
        count = 0;
    }
    if (irig_reader_pulses(&reader, port, widths_us, count) != IRIG_DONE) fail("no such port");
}

static void print_told(uint8_t port) {
    irig_told told;
    if (irig_reader_port(&reader, port, &told) != IRIG_DONE) return;
    printf(" | %u %u %lu %lu %lu %u", told.kind, told.quality, (unsigned long)told.fault,
           (unsigned long)told.claim.at.day, (unsigned long)told.claim.at.sod, told.claim.mark);
}

static void print_report(const irig_report *r) {
    char text[21] = "-", count[12] = "";
    if (r->announces) irig_second_write(&(irig_utc){r->day, r->sod}, text);
    if (r->lock_count > 0) snprintf(count, sizeof count, ":%lu", (unsigned long)r->lock_count);
    printf("%lu %s %s %s%s %s\n", ++edges, name, text, irig_lock_name(r->lock), count,
           irig_cause_name(r->cause));
}

static void tick(void) {
    irig_report r;
    for (uint8_t port = 0; port < 5; port++) print_told(port);
    if (irig_reader_tick(&reader, &r) != IRIG_DONE) fail("a tick is refused");
    printf(" | %u %u %u %u %u %u %u %d %u\n", r.agreed, r.differed, r.against_hold, r.faulty, r.poor,
           r.quality, r.has_local, r.local_half_hours, r.dst);
    print_report(&r);
}

int main(int count, char **words) {
    heard = count == 2 ? fopen(words[1], "r") : NULL;
    if (heard == NULL) return fail("no file");
    for (int kind = letter(); kind != '.'; kind = letter()) {
        if (kind != '\n' && kind != 't' && kind != 'r') letter();
        if (kind == 'n') take_name();
        else if (kind == 's') take_setup();
        else if (kind == 'w') take_pulses();
        else if (kind == 't') tick();
        else if (kind == 'r') irig_reader_restart(&reader);
    }
    return 0;
}
