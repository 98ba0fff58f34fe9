/* A board for capture.c without hardware: it plays what `tools/wave --changes` makes of a scenario from
 * its standard input, and prints what is said of each second, as a line of a log. On the standard error
 * it says what each line is, counted from 0, and the alarm, at each second at which that changes.
 *
 * The words are `lock_after` and `holdover`; then, of a reader with a leap table, its last day, and
 * the day of each inserted leap second, counted from 2000-01-01. */
#include "capture.h"

#include <stdio.h>
#include <stdlib.h>
#include <string.h>

static uint32_t now_us;
static uint32_t due_us;
static bool is_due;
static unsigned edges;

uint32_t timer_now(void) { return now_us; }

/* What has come already is due at once. */
void compare_at(uint32_t time_us) {
    bool is_past = now_us - time_us <= UINT32_MAX / 2;
    due_us = is_past ? now_us : time_us;
    is_due = true;
}

/* Adds the lines of a mask, as ` silent:02`. */
static void add_lines(char *text, const char *state, uint8_t mask) {
    if (mask != 0) strcat(strcat(strcat(text, " "), state), ":");
    for (unsigned line = 0; line < LINES; line++)
        if (mask >> line & 1) strcat(text, (char[]){(char)('0' + line), '\0'});
}

static void say_states(const irig_second *second) {
    static char before[128];
    char text[128] = "";
    const irig_masks *lines = &second->lines;
    add_lines(text, "agreed", lines->agreed);
    add_lines(text, "apart", lines->apart);
    add_lines(text, "differed", lines->differed);
    add_lines(text, "faulty", lines->faulty);
    add_lines(text, "poor", lines->poor);
    add_lines(text, "broken", lines->broken);
    add_lines(text, "silent", lines->silent);
    add_lines(text, "unjudged", lines->unjudged);
    if (*alarm_of(second)) strcat(strcat(text, " alarm:"), alarm_of(second));
    if (strcmp(text, before) != 0) fprintf(stderr, "%u%s\n", edges, text);
    strcpy(before, text);
}

void on_second(const irig_second *second) {
    const irig_report *report = &second->report;
    char text[21] = "-";
    char count[12] = "";
    if (report->announces) irig_second_write(&(irig_utc){report->day, report->sod}, text);
    if (report->lock_count > 0) snprintf(count, sizeof count, ":%u", (unsigned)report->lock_count);
    printf("%u relay %s %s%s %s\n", ++edges, text, irig_lock_name(report->lock), count,
           irig_cause_name(report->cause));
    say_states(second);
}

/* Lets the timer run on, and calls for what was asked for meanwhile. The timer wraps. */
static void run_until(uint32_t time_us) {
    while (is_due && due_us - now_us <= time_us - now_us) {
        now_us = due_us;
        is_due = false;
        on_compare();
    }
    now_us = time_us;
}

/* Plays the next row, as `12.058000,1,0,1`. False behind the last. */
static bool play_row(void) {
    static bool level[LINES];
    char row[64], *cell;
    if (fgets(row, sizeof row, stdin) == NULL) return false;
    uint32_t time_us = (uint32_t)strtoul(row, &cell, 10) * 1000000;
    if (*cell == '.') time_us += (uint32_t)strtoul(cell + 1, &cell, 10);
    run_until(time_us);
    for (uint8_t line = 0; line < LINES; line++, cell += 2) {
        if (cell[0] != ',' || (cell[1] != '0' && cell[1] != '1')) break;
        bool is_high = cell[1] == '1';
        if (is_high != level[line]) on_capture(line, level[line] = is_high, now_us);
    }
    if (*cell == '\n') return true;
    fprintf(stderr, "capture: a row is a time and %d levels\n", LINES);
    exit(2);
}

/* A timekeeper of so many lines. */
static uint8_t redundancy(void) {
    return LINES == 1 ? IRIG_PORTS_ONE : LINES == 3 ? IRIG_PORTS_THREE : IRIG_PORTS_FIVE;
}

int main(int count, char **words) {
    if (count < 3 || count > 4 + 64) {
        fprintf(stderr, "capture: wants lock_after and holdover; then a table's last day, and days\n");
        return 2;
    }
    irig_setup setup = {.redundancy = redundancy(),
                        .lock_after = (uint8_t)atoi(words[1]),
                        .holdover = (uint32_t)atoi(words[2])};
    irig_table table = {0};
    if (count > 3) table.until = (uint32_t)atoi(words[3]);
    for (int word = 4; word < count; word++)
        table.leaps[table.len++].day = (uint32_t)atoi(words[word]);
    irig_wires wires = {.within_us = 450};
    if (capture_init(&setup, &table, &wires) != IRIG_DONE) return 2;
    int letter;
    do letter = getchar();
    while (letter != EOF && letter != '\n'); /* the names above the rows */
    while (play_row()) {
    }
    return 0;
}
