/* A firmware that keeps time by interrupts: ../examples/capture.c on the board of stm32f405.c. */
#include "stm32f405.h"

/* What a user may set, and the leap seconds that are known beforehand: none. */
irig_setup setup_wanted = {.lock_after = 3, .holdover = 3600};
static const irig_table NO_TABLE = {0};
static const irig_wires WIRES = {.within_us = WITHIN_US, .drift_us = MOST_DRIFT_US};

int main(void) {
    board_begin();
    if (capture_init(&setup_wanted, &NO_TABLE, &WIRES) != IRIG_DONE) return 1;
    board_listens();
    for (;;) {
        log_send();
        other_work();
    }
}
