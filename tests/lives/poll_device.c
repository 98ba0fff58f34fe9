/* c/examples/poll.c as a subject: its main loop comes round now and then, and stands still for up
 * to eight seconds. It has to tell, later, what the library's timekeeper tells that is ticked when
 * it waits for it, and to stamp events as that one does. */
#define timer_now timer_of_poll
#define on_second on_second_of_poll
#include "examples/poll.c"

#include "subject.h"
#include "world.h"

#include <string.h>

enum { MOST_QUEUED = 4096, MOST_WANTED = 64 };
enum { STILL_US = 8000000, ROUND_US = 60000, STAMPED_US = 6000 };

static chance luck;
static uint32_t timer_us;
static uint32_t round_us; /* when the loop comes round */
static bool is_otherwise; /* it told something else, or nothing */
static queued queue[MOST_QUEUED];
static uint32_t queued_count, taken;
static irig_second wanted_second[MOST_WANTED];
static uint32_t wanted, told;
static bool is_event_there, is_stamp_wanted; /* an event came; 6 ms behind it it has a stamp */
static uint32_t event_at_us;
static irig_stamp wanted_stamp;

/* ---- the board */

uint32_t timer_now(void) { return timer_us; }

static void put(uint8_t line, uint32_t at_us, uint32_t width_us) {
    queue[queued_count++ % MOST_QUEUED] = (queued){line, at_us, width_us};
}

bool take_queued(queued *oldest) {
    if (taken == queued_count) return false;
    *oldest = queue[taken++ % MOST_QUEUED];
    return true;
}

void on_second(const irig_second *second) {
    is_otherwise |= told == wanted || !are_alike(&wanted_second[told % MOST_WANTED], second);
    told++;
}

void on_event(const irig_stamp *stamp) {
    is_otherwise |= !is_stamp_wanted || memcmp(stamp, &wanted_stamp, sizeof *stamp) != 0;
    is_stamp_wanted = false;
}

/* ---- the main loop */

/* All that is wanted by now is told when the loop has come round. */
static void come_round(void) {
    poll_queue();
    is_otherwise |= told != wanted || is_stamp_wanted;
    round_us = timer_us + (is_once_in(&luck, 50) ? below(&luck, STILL_US) : below(&luck, ROUND_US));
    if (is_event_there) return;
    is_event_there = true;
    event_at_us = timer_us;
    put(EVENT, timer_us, 0);
}

/* The stamp of an event so long ago, if there is one. */
static void want_stamp(uint32_t now_us, uint32_t least_us) {
    if (!is_event_there || now_us - event_at_us < least_us) return;
    is_stamp_wanted = library_subject.stamp(event_at_us, &wanted_stamp) == IRIG_DONE;
    is_event_there = false;
}

/* Before a call of this time the loop may have come round. */
static void come_before(uint32_t now_us) {
    bool is_full = queued_count - taken > MOST_QUEUED - 16 || wanted - told > MOST_WANTED - 8;
    bool is_due = now_us - 1 - round_us < UINT32_C(1) << 31 || is_full;
    want_stamp(now_us, STAMPED_US + 1);
    if (is_due && now_us != timer_us) {
        timer_us = now_us - 1;
        come_round();
    }
    timer_us = now_us;
}

/* ---- the calls of a subject */

static uint32_t begin(const irig_setup *wanted_setup, const irig_table *known,
                      const irig_wires *exact, uint32_t now_us) {
    luck.state = timer_us = round_us = now_us;
    queued_count = taken = wanted = told = 0;
    is_otherwise = is_event_there = is_stamp_wanted = false;
    uint32_t answer = library_subject.begin(wanted_setup, known, exact, now_us);
    return poll_init(wanted_setup, known, exact) == answer ? answer : DIFFERS;
}

static uint8_t hear(uint8_t line, uint32_t rise_us, uint32_t width_us) {
    come_before(rise_us + width_us);
    want_stamp(timer_us, STAMPED_US);
    uint8_t place = library_subject.hear(line, rise_us, width_us);
    put(line, rise_us, width_us);
    if (is_event_there) put(EVENT, timer_us, 0); /* so close behind another one it has no stamp */
    return is_otherwise ? DIFFERS : place;
}

/* Behind a bit that flipped both begin afresh. */
static uint32_t tick_at(uint32_t now_us, irig_second *s) {
    come_before(now_us);
    if (library_subject.tick(now_us, s) != IRIG_DONE)
        library_subject.begin(&setup, &table, &wires, now_us);
    if (s->is_told) wanted_second[wanted++ % MOST_WANTED] = *s;
    want_stamp(now_us, STAMPED_US);
    return is_otherwise ? DIFFERS : IRIG_DONE;
}

static uint32_t wait(uint32_t now_us) { return library_subject.wait(now_us); }

static uint32_t stamp(uint32_t time_us, irig_stamp *s) { return library_subject.stamp(time_us, s); }

static void restart(void) {
    come_round();
    bool was_otherwise = is_otherwise;
    begin(&setup, &table, &wires, timer_us);
    is_otherwise = was_otherwise;
}

static void flip(uint32_t bit) {
    come_round();
    ((uint8_t *)&timekeeper)[bit / 8] ^= (uint8_t)(1u << bit % 8);
    flip_library(bit);
}

const subject poll_subject = {"poll", begin, hear, tick_at, wait, restart, stamp, NULL, NULL, flip, true, true};
