/* One reader over the leap second of 2016: frames of 23:59:56 to 23:59:58, and then silence. It
 * prints what `irig run leap_second.jsonl --all` prints of the same events, but the last line. */
#include "irig.h"

#include <stdio.h>

/* Feeds all three ports the frame of a second of 2016-12-31, an insertion pending. */
static void feed(irig_reader *reader, irig_utc second) {
    irig_control control = {.leap_pending = 1};
    uint8_t symbols[100];
    uint32_t widths_us[100];
    irig_frame_of(&second, 0, &control, IRIG_PARITY_EVEN, symbols);
    irig_widths_us(symbols, widths_us);
    for (uint8_t port = 0; port < 3; port++) irig_reader_pulses(reader, port, widths_us, 100);
}

int main(void) {
    irig_setup setup = {.lock_after = 2, .holdover = 3600};
    irig_table table = {0};
    irig_utc second;
    irig_reader reader;
    const char start[] = "2016-12-31T23:59:56Z";
    if (irig_second_read(start, sizeof start - 1, &second) != IRIG_DONE) return 1;
    if (irig_reader_init(&reader, &setup, &table) != IRIG_DONE) return 1;
    for (int edge = 1; edge <= 6; edge++) {
        irig_report report;
        if (edge <= 3) feed(&reader, second);
        second.sod++;
        if (irig_reader_tick(&reader, &report) != IRIG_DONE) return 1;
        char text[21] = "-";
        char count[12] = "";
        if (report.announces)
            irig_second_write(&(irig_utc){report.day, report.sod}, text);
        if (report.lock_count > 0)
            snprintf(count, sizeof count, ":%u", (unsigned)report.lock_count);
        printf("%d relay %s %s%s %s\n", edge, text, irig_lock_name(report.lock), count,
               irig_cause_name(report.cause));
    }
    return 0;
}
