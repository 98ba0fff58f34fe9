/* Plays lives to a timekeeper, and judges what it announces.
 *
 *     lives [OPTION]..
 *
 *     --subject NAME   library; both, with the model beside it; model; capture, poll
 *     --seed N         of all chance; 1 without it
 *     --seconds N      plays so many in which a line sends; 10,000 without it
 *     --life N         that life alone
 *     --within N       lives whose lines are all so exact, 1 to 450 us
 *     --kinds          of the first 1,000 lives those that have what none had that was played before
 *     --wrong NAME     what is wrong with the model
 *     --overrun        one liar more than may be, so that lives have to fail
 *     --aloud          prints each second that is told
 *     --rows           plays small worlds with what has to come of each, and no lives
 *     --flips          flips each bit of a line, and plays no lives
 *     --wrongs         all that can be wrong with the model has to be found
 *
 * The last line is 'N passed, M failed'. */
#include "device.h"

#include <stdio.h>
#include <stdlib.h>
#include <string.h>

enum { FAILURES_SAID = 10, ENOUGH_S = 200000, MOST_PLANNED = 1000, LEARNING_S = 50000 };

static life one;
static uint64_t *const counts = one.judge.counts;
static unsigned long passed, failed;

static struct {
    const subject *subject;
    uint64_t seed, seconds, life;
    bool has_life, is_by_kind;
    const char *other; /* in place of lives */
} options = {.subject = &library_subject, .seed = 1, .seconds = 10000};

static void add(bool is_passed) {
    passed += is_passed;
    failed += !is_passed;
}

/* ---- lives. As all boards can print it: no number here comes to 2^32. */

static void say_failed(uint64_t number) {
    static const char *const PACES_SAID[] = {"by wait",       "by polls",  "at random",
                                             "before pulses", "with gaps", "around edges",
                                             "by queues"};
    const life *l = &one;
    printf("failed: --seed %lu --life %lu: %s\n", (unsigned long)options.seed,
           (unsigned long)number, l->judge.text);
    printf("  %u lines, lock_after %u, holdover %u, within %u us, drift %u us, wander %u ppb, %u s, ",
           l->sky.lines, (unsigned)l->setup.lock_after, (unsigned)l->setup.holdover,
           (unsigned)l->world.within_us, (unsigned)l->world.drift_us, (unsigned)l->world.wander_ppb,
           (unsigned)l->world.seconds);
    printf("ticks %s\n", PACES_SAID[l->device.pace]);
}

/* Whether a life goes as it has to. */
static bool play_life(uint64_t number) {
    plan(&one, options.seed, number);
    play(&one, options.subject);
    return !one.judge.is_failed;
}

static void add_life(uint64_t number) {
    bool is_passed = play_life(number);
    add(is_passed);
    if (!is_passed) say_failed(number);
}

/* Plays lives up to so many seconds in which a line sends. In many some are held by what is learned. */
static void play_up_to_seconds(void) {
    uint64_t number = options.has_life ? options.life : 0;
    do add_life(number++);
    while (counts[LIT] < options.seconds && failed < FAILURES_SAID && !options.has_life);
    if (counts[LIT] < LEARNING_S || counts[LEARNED] > 0) return;
    printf("failed: no second is held by what was learned\n");
    add(false);
}

/* All kinds have to be among them. */
static void play_kinds(void) {
    static const uint64_t ALL = UINT64_MAX >> (64 - KINDS);
    static const uint32_t ALL_CLOCKS = (UINT32_C(1) << CLOCKS) - 1;
    uint64_t played = 0;
    uint32_t clocks = 0;
    bool is_all = false;
    for (uint64_t number = 0; !is_all && number < MOST_PLANNED; number++) {
        plan(&one, options.seed, number);
        if ((one.kinds & ~played) == 0 && (one.clocks & ~clocks) == 0) continue;
        played |= one.kinds;
        clocks |= one.clocks;
        is_all = played == ALL && clocks == ALL_CLOCKS;
        add_life(number);
    }
    add(is_all);
}

static void play_lives(void) {
    if (options.is_by_kind) play_kinds();
    else play_up_to_seconds();
    printf("%s, seed %lu\n", options.subject->name, (unsigned long)options.seed);
    for (int i = 0; i < COUNTED; i++)
        printf("  %-34s %lu\n", COUNTED_SAID[i], (unsigned long)counts[i]);
    printf("  edges of votes, off by             %ld to %ld us\n", (long)one.judge.earliest,
           (long)one.judge.latest);
}

/* ---- what is wrong with a model */

/* The first life that finds what is wrong. */
static bool is_found_by_lives(uint64_t *number) {
    counts[LIT] = 0;
    for (*number = 0; counts[LIT] < ENOUGH_S; ++*number)
        if (!play_life(*number)) return true;
    return false;
}

static void find_wrongs(void) {
    options.subject = &model_subject;
    for (model_wrong = NOTHING_WRONG + 1; model_wrong < WRONGS; model_wrong++) {
        unsigned long right = 0, rows = 0;
        uint64_t number;
        play_rows(&one, options.subject, false, &right, &rows);
        bool is_found = is_found_by_lives(&number);
        printf("%s: %lu rows", WRONG_NAMES[model_wrong], rows);
        if (is_found) printf(", life %lu: %s", (unsigned long)number, one.judge.text);
        printf("\n");
        add(is_found || rows > 0);
    }
}

/* ---- words */

static void refuse(const char *what, const char *word) {
    fprintf(stderr, "lives: no %s %s\n", what, word);
    exit(2);
}

static bool are_same(const char *word, const char *other) { return strcmp(word, other) == 0; }

static const subject *subject_of(const char *name) {
    static const subject *const SUBJECTS[] = {&library_subject, &both_subject, &model_subject,
                                              &capture_subject, &poll_subject};
    for (size_t i = 0; i < sizeof SUBJECTS / sizeof *SUBJECTS; i++)
        if (are_same(SUBJECTS[i]->name, name)) return SUBJECTS[i];
    refuse("subject", name);
    return NULL;
}

static wrong wrong_of(const char *name) {
    for (int i = 0; i < WRONGS; i++)
        if (are_same(WRONG_NAMES[i], name)) return (wrong)i;
    refuse("wrong", name);
    return NOTHING_WRONG;
}

static void take_value(const char *word, const char *value) {
    if (are_same(word, "--subject")) options.subject = subject_of(value);
    else if (are_same(word, "--wrong")) model_wrong = wrong_of(value);
    else if (are_same(word, "--seed")) options.seed = strtoull(value, NULL, 10);
    else if (are_same(word, "--seconds")) options.seconds = strtoull(value, NULL, 10);
    else if (are_same(word, "--life")) options.life = strtoull(value, NULL, 10);
    else if (are_same(word, "--within")) one.only_within_us = (uint32_t)strtoul(value, NULL, 10);
    else refuse("option", word);
    options.has_life |= are_same(word, "--life");
}

int main(int count, char **words) {
    for (int i = 1; i < count; i++) {
        const char *word = words[i];
        if (are_same(word, "--aloud")) one.is_told_aloud = true;
        else if (are_same(word, "--overrun")) one.judge.is_overrun = true;
        else if (are_same(word, "--kinds")) options.is_by_kind = true;
        else if (are_same(word, "--rows") || are_same(word, "--flips") ||
                 are_same(word, "--wrongs"))
            options.other = word;
        else take_value(word, ++i < count ? words[i] : "");
    }
    if (!options.other) play_lives();
    else if (are_same(options.other, "--wrongs")) find_wrongs();
    else if (are_same(options.other, "--flips")) add(play_flips(&one, options.subject));
    else play_rows(&one, options.subject, true, &passed, &failed);
    printf("%lu passed, %lu failed\n", passed, failed);
    return failed > 0;
}
