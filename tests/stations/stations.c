/* Makes scenarios with devices by chance, and the logs that are expected of them.
 *
 *     stations [OPTION]..
 *
 *     --seed N         of all chance; 1 without it
 *     --first N        the number of the first scenario; 0 without it
 *     --count N        how many; 1 without it
 *     --into FOLDER    writes each there: N.jsonl, N.log, and N.all with all seconds; else, to the
 *                      standard output, the scenario and its log with all seconds
 *     --mistake NAME   what is wrong with the world
 *     --mistakes       finds each mistake by its first scenario that comes to another log
 *
 * Of --into the last lines say what was reached. */
#include "plant.h"

#include <stdlib.h>
#include <string.h>

enum { MOST_LETTERS = 1 << 20, ENOUGH = 2000 };

static plant played;
static struct {
    uint64_t seed, first, count;
    const char *into;
    bool finds_mistakes;
} options = {.seed = 1, .count = 1};

/* The plan knows of no mistake. */
static void play(uint64_t number, mistake one) {
    mistaken = NO_MISTAKE;
    plan(&played, options.seed, number);
    mistaken = one;
    play_plant(&played);
}

/* ---- to files */

static FILE *open_in(uint64_t number, const char *kind) {
    char path[500];
    snprintf(path, sizeof path, "%s/%llu.%s", options.into, (unsigned long long)number, kind);
    FILE *to = fopen(path, "w");
    if (!to) perror(path), exit(1);
    return to;
}

static void close_file(FILE *to) {
    if (fclose(to) != 0) perror("stations"), exit(1);
}

static void write_files(uint64_t number) {
    FILE *scenario = open_in(number, "jsonl"), *log = open_in(number, "log"), *all = open_in(number, "all");
    write_scenario(&played, scenario);
    write_log(&played, false, log);
    write_log(&played, true, all);
    close_file(scenario);
    close_file(log);
    close_file(all);
}

/* ---- mistakes */

/* The log of a world with a mistake. */
static void write_text(uint64_t number, mistake one, char text[MOST_LETTERS]) {
    FILE *to = fmemopen(text, MOST_LETTERS, "w");
    if (!to) perror("stations"), exit(1);
    play(number, one);
    write_log(&played, true, to);
    close_file(to);
}

/* Finds the mistakes that come to another log of a scenario. */
static int find_in(uint64_t number, bool is_found[MISTAKES]) {
    static char right[MOST_LETTERS], other[MOST_LETTERS];
    int found = 0;
    write_text(number, NO_MISTAKE, right);
    for (mistake one = NO_MISTAKE + 1; one < MISTAKES; one++) {
        if (is_found[one]) continue;
        write_text(number, one, other);
        is_found[one] = strcmp(right, other) != 0;
        if (is_found[one]) printf("%s: scenario %llu\n", MISTAKE_NAMES[one], (unsigned long long)number);
        found += is_found[one];
    }
    return found;
}

static bool find_mistakes(void) {
    bool is_found[MISTAKES] = {false};
    int left = MISTAKES - 1;
    for (uint64_t number = 0; number < ENOUGH && left > 0; number++) left -= find_in(number, is_found);
    for (mistake one = NO_MISTAKE + 1; one < MISTAKES; one++)
        if (!is_found[one]) printf("not found: %s\n", MISTAKE_NAMES[one]);
    printf("%d passed, %d failed\n", MISTAKES - 1 - left, left);
    return left == 0;
}

/* ---- words */

static void refuse(const char *what, const char *word) {
    fprintf(stderr, "stations: no %s %s\n", what, word);
    exit(2);
}

static bool are_same(const char *word, const char *other) { return strcmp(word, other) == 0; }

static mistake mistake_of(const char *name) {
    for (int i = 0; i < MISTAKES; i++)
        if (are_same(MISTAKE_NAMES[i], name)) return (mistake)i;
    refuse("mistake", name);
    return NO_MISTAKE;
}

static void take_value(const char *word, const char *value, mistake *one) {
    if (are_same(word, "--seed")) options.seed = strtoull(value, NULL, 10);
    else if (are_same(word, "--first")) options.first = strtoull(value, NULL, 10);
    else if (are_same(word, "--count")) options.count = strtoull(value, NULL, 10);
    else if (are_same(word, "--into")) options.into = value;
    else if (are_same(word, "--mistake")) *one = mistake_of(value);
    else refuse("option", word);
}

int main(int count, char **words) {
    mistake one = NO_MISTAKE;
    for (int i = 1; i < count; i++) {
        if (are_same(words[i], "--mistakes")) options.finds_mistakes = true;
        else take_value(words[i], i + 1 < count ? words[i + 1] : "", &one), i++;
    }
    if (options.finds_mistakes) return !find_mistakes();
    for (uint64_t number = options.first; number < options.first + options.count; number++) {
        play(number, one);
        if (options.into) write_files(number);
        else write_scenario(&played, stdout), write_log(&played, true, stdout);
    }
    for (int i = 0; i < COUNTED && options.into; i++)
        printf("%llu\t%s\n", (unsigned long long)counts[i], COUNTED_SAID[i]);
    return 0;
}
