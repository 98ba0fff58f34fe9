/* A firmware that keeps time by its main loop: ../examples/poll.c on the board of stm32f405.c. Interrupts
 * fill a queue. The compare stands for an input whose changes are to be stamped. */
#include "stm32f405.h"

#include <stdatomic.h>

/* 300 pulses and two events a second, for 3 s. */
enum { QUEUED = 1024, EVENT_EACH_US = 700000 };
static queued queue[QUEUED];
static volatile uint32_t put_in, taken; /* the interrupt puts in, the loop takes out */

static void put(queued next) {
    if (put_in - taken == QUEUED) return;
    queue[put_in % QUEUED] = next;
    atomic_signal_fence(memory_order_release);
    put_in++;
}

bool take_queued(queued *oldest) {
    if (taken == put_in) return false;
    atomic_signal_fence(memory_order_acquire);
    *oldest = queue[taken % QUEUED];
    atomic_signal_fence(memory_order_release);
    taken++;
    return true;
}

void on_capture(uint8_t line, bool is_high, uint32_t time_us) {
    static uint32_t rise_us[LINES];
    if (is_high) rise_us[line] = time_us;
    else put((queued){line, rise_us[line], time_us - rise_us[line]});
}

void on_compare(void) {
    uint32_t event_us = timer_now();
    put((queued){EVENT, event_us, 0});
    compare_at(event_us + EVENT_EACH_US);
}

/* As `event 2016-12-31T23:59:60Z 123456 450`: its second, the microseconds since that began, and how far
 * these may be off. */
void on_event(const irig_stamp *stamp) {
    char text[21] = "";
    irig_second_write(&(irig_utc){stamp->day, stamp->sod}, text);
    log_text("event ");
    log_text(text);
    log_text(" ");
    log_number(stamp->offset_us);
    log_text(" ");
    log_number(stamp->bound_us);
    log_text("\n");
}

/* What a user may set, and the leap seconds that are known beforehand: none. */
irig_setup setup_wanted = {.lock_after = 3, .holdover = 3600};
static const irig_table NO_TABLE = {0};
static const irig_wires WIRES = {.within_us = WITHIN_US, .drift_us = MOST_DRIFT_US};

int main(void) {
    board_begin();
    if (poll_init(&setup_wanted, &NO_TABLE, &WIRES) != IRIG_DONE) return 1;
    compare_at(timer_now() + EVENT_EACH_US);
    board_listens();
    for (;;) {
        poll_queue();
        log_send();
        other_work();
    }
}
