/* Each single bit of a reader and of a timekeeper, flipped by something else than a call: fresh, with
 * half a frame, with frames before their edge, in holdover. A flipped number must be refused at each
 * tick behind it, whatever pulses come, and behind a restart; by waits and by stamps too. A flipped
 * bit of padding must change nothing that is told. That a changed number is told in any state is
 * proved; this is about the layout of the structures.
 *
 * The word, if there is one, is to try each so-many-th bit alone. It prints how many were tried. */
#include "irig.h"

#include <stdio.h>
#include <stdlib.h>

enum { ELEMENTS = 100, SECONDS = 6, MOST = sizeof(irig_timekeeper) };
enum { FIRST_DAY = 9696, FIRST_SOD = 100 }; /* of the first frame */

typedef union device {
    irig_reader reader;
    irig_timekeeper timekeeper;
    unsigned char bytes[MOST];
} device;

/* What a device told while it was played. */
typedef struct told {
    uint64_t sum;
    bool is_false; /* of a second it tells another one */
} told;

typedef struct kind {
    const char *name;
    size_t size;
    int every, ahead; /* elements from tick to tick, and those that are played behind a flip */
    void (*hear)(device *d, uint8_t line, uint32_t rise_us, uint32_t width_us);
    bool (*tick)(device *d, uint32_t now_us, told *t); /* whether it is refused */
    void (*restart)(device *d);
    bool (*is_padding)(size_t byte);
} kind;

static const struct {
    const char *name;
    int element; /* before which the bit flips, counted from the first second on */
} stories[] = {{"fresh", 0}, {"half a frame", 350}, {"frames before their edge", 400},
               {"in holdover", 950}};
enum { STORIES = sizeof stories / sizeof *stories };

static const irig_setup setup = {.lock_after = 2, .holdover = 9};
static const irig_table none;
static const irig_wires wires = {.within_us = 450, .drift_us = 10};
static uint32_t widths_us[SECONDS][ELEMENTS];
static long tried, refused;

/* Takes down a report of the second that begins at an edge, or of none. */
static void note(told *t, const irig_report *r, uint32_t edge) {
    t->sum = t->sum * 31 + r->announces + r->sod + r->cause + r->lock;
    if (r->announces && (r->day != FIRST_DAY || r->sod != FIRST_SOD + edge)) t->is_false = true;
}

/* ---- readers */

static void hear_reader(device *d, uint8_t port, uint32_t rise_us, uint32_t width_us) {
    (void)rise_us;
    irig_reader_pulse(&d->reader, port, width_us);
}

static bool tick_reader(device *d, uint32_t now_us, told *t) {
    irig_report report = {.announces = 1}; /* as the tick before may have left it */
    if (irig_reader_tick(&d->reader, &report) == IRIG_FAULT_VALUE) return report.announces == 0;
    note(t, &report, (now_us + 500000) / 1000000);
    return false;
}

static void restart_reader(device *d) { irig_reader_restart(&d->reader); }

static bool is_padding_of_reader(size_t byte) {
    size_t state_at = offsetof(irig_reader, state), ports_at = offsetof(irig_reader, ports);
    size_t of_port = (byte - ports_at) % sizeof(irig_tally);
    if (byte < state_at) return (byte >= 5 && byte < 8) || byte == 15;
    if (byte < ports_at) return byte == state_at + 3 || byte >= state_at + sizeof(irig_state);
    return byte < offsetof(irig_reader, check) && (of_port == 6 || of_port == 7);
}

/* ---- timekeepers */

static void hear_timekeeper(device *d, uint8_t line, uint32_t rise_us, uint32_t width_us) {
    irig_timekeeper_hear(&d->timekeeper, line, rise_us, width_us);
}

static bool tick_timekeeper(device *d, uint32_t now_us, told *t) {
    irig_second second = {.is_told = 1};
    irig_stamp stamp;
    if (irig_timekeeper_tick(&d->timekeeper, now_us, &second) == IRIG_FAULT_VALUE)
        return second.is_told == 0 && irig_timekeeper_wait(&d->timekeeper, now_us) == 0 &&
               irig_timekeeper_stamp(&d->timekeeper, now_us, &stamp) == IRIG_FAULT_VALUE;
    note(t, &second.report, (second.edge_us + 500000) / 1000000);
    t->sum += second.is_told + second.edge_us;
    return false;
}

static void restart_timekeeper(device *d) { irig_timekeeper_restart(&d->timekeeper); }

static bool is_padding_of_timekeeper(size_t byte) {
    static const size_t state_at = offsetof(irig_timekeeper, state);
    static const size_t lines_at = offsetof(irig_timekeeper, lines);
    static const size_t last_at = offsetof(irig_timekeeper, last);
    size_t of_line = (byte - lines_at) % sizeof(irig_line);
    size_t of_second = (byte - last_at) % sizeof(irig_announced);
    if (byte < state_at) return (byte >= 5 && byte < 8) || byte == 15;
    if (byte < lines_at) return byte == state_at + 3 || byte >= state_at + sizeof(irig_state);
    if (byte < offsetof(irig_timekeeper, wires))
        return of_line == 6 || of_line == 7 || of_line == 14 || of_line == 15 || of_line == 38 ||
               of_line == 39 || of_line > offsetof(irig_line, is_heard);
    size_t of_wires = byte - offsetof(irig_timekeeper, wires);
    if (byte < offsetof(irig_timekeeper, edge_us))
        return of_wires == offsetof(irig_wires, prefers_frames) + 1;
    if (byte < last_at) return false;
    if (byte < offsetof(irig_timekeeper, begin_us)) return of_second > 16;
    return byte > offsetof(irig_timekeeper, anchors) + offsetof(irig_anchors, has_young) &&
           byte < offsetof(irig_timekeeper, pace);
}

static const kind kinds[] = {
    {"reader", sizeof(irig_reader), ELEMENTS, 4 * ELEMENTS, hear_reader, tick_reader,
     restart_reader, is_padding_of_reader},
    {"timekeeper", sizeof(irig_timekeeper), 5, 120, hear_timekeeper, tick_timekeeper,
     restart_timekeeper, is_padding_of_timekeeper},
};
enum { KINDS = sizeof kinds / sizeof *kinds };

/* ---- flips */

static void fail(const kind *of, int story, const char *what, int bit) {
    printf("%s, %s: %s: bit %d of byte %d\n", of->name, stories[story].name, what, bit % 8, bit / 8);
    exit(1);
}

/* Plays elements: one pulse on two of three lines, while they send, and a tick now and then. Answers
 * how many ticks are refused. */
static int play(const kind *of, device *d, int first, int end, told *t) {
    int count = 0;
    for (int element = first; element < end; element++) {
        uint32_t rise_us = (uint32_t)(element * 10000);
        for (uint8_t line = 0; line < 2 && element < SECONDS * ELEMENTS; line++)
            of->hear(d, line, rise_us, widths_us[element / ELEMENTS][element % ELEMENTS]);
        if (element % of->every == of->every - 1) count += of->tick(d, rise_us + 8000, t);
    }
    return count;
}

static void try_bit(const kind *of, int story, device d, int bit, const told *undisturbed) {
    int first = stories[story].element, ticks = of->ahead / of->every;
    told t = {0, false};
    d.bytes[bit / 8] ^= (unsigned char)(1 << bit % 8);
    int count = play(of, &d, first, first + of->ahead, &t);
    tried++;
    if (of->is_padding((size_t)bit / 8)) {
        if (count != 0 || t.sum != undisturbed->sum) fail(of, story, "padding counts", bit);
        return;
    }
    if (count != ticks) fail(of, story, "not refused", bit);
    of->restart(&d);
    if (!of->tick(&d, (uint32_t)(first + of->ahead) * 10000, &t))
        fail(of, story, "healed by a restart", bit);
    refused++;
}

/* Stands where a story flips, and says what is told behind that if nothing does. */
static told stand(const kind *of, int story, device *at) {
    int first = stories[story].element;
    told before = {0, false}, undisturbed = {0, false};
    bool is_refused = play(of, at, 0, first, &before);
    device d = *at;
    is_refused |= play(of, &d, first, first + of->ahead, &undisturbed);
    if (is_refused || before.is_false || undisturbed.is_false) exit(2);
    return undisturbed;
}

static void try_story(const kind *of, int story, device at, unsigned long every) {
    told undisturbed = stand(of, story, &at);
    for (unsigned long bit = 0; bit < 8 * of->size; bit += every)
        try_bit(of, story, at, (int)bit, &undisturbed);
}

/* Makes the frames and a device of each kind; the first word is to try each so-many-th. */
static unsigned long begin(int count, char **words, device fresh[KINDS]) {
    unsigned long every = count > 1 ? strtoul(words[1], NULL, 10) : 1;
    irig_control control = {0};
    uint32_t wrong = every == 0;
    for (uint32_t second = 0; second < SECONDS; second++) {
        irig_utc utc = {FIRST_DAY, FIRST_SOD + second};
        uint8_t symbols[ELEMENTS] = {0};
        wrong |= irig_frame_of(&utc, 0, &control, IRIG_PARITY_EVEN, symbols);
        irig_widths_us(symbols, widths_us[second]);
    }
    wrong |= irig_reader_init(&fresh[0].reader, &setup, &none);
    wrong |= irig_timekeeper_init(&fresh[1].timekeeper, &setup, &none, &wires);
    if (wrong) exit(2);
    return every;
}

int main(int count, char **words) {
    static device fresh[KINDS];
    unsigned long every = begin(count, words, fresh);
    for (int story = 0; story < STORIES; story++)
        for (int of = 0; of < KINDS; of++) try_story(&kinds[of], story, fresh[of], every);
    printf("%ld flipped bits tried, %ld of them in numbers and refused\n", tried, refused);
    return 0;
}
