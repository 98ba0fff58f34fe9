/* Any bytes as a scenario. What the library says is shown to a judge, the process that JUDGE names, if it did in the proved code what it had not done
 * before, and else once in so many runs: a judge is slower by far. */
#include "irig_scene.h"

#include <stdio.h>
#include <stdlib.h>
#include <unistd.h>

enum { MOST_SECONDS = 400, LOG_ROOM = 1 << 22, TEXT_ROOM = 4096, JUDGED_ONE_IN = 256 };

static FILE *to_judge, *from_judge;

static void fail(const char *what) {
    fprintf(stderr, "scenes: %s\n", what);
    abort();
}

static void begin_judge(const char *command) {
    int down[2], up[2];
    if (pipe(down) || pipe(up)) fail("no pipe");
    if (fork() == 0) {
        dup2(down[0], STDIN_FILENO);
        dup2(up[1], STDOUT_FILENO);
        for (int end = 0; end < 2; end++) close(down[end]), close(up[end]);
        execl(command, command, (char *)NULL);
        _exit(127);
    }
    close(down[0]);
    close(up[1]);
    to_judge = fdopen(down[1], "wb");
    from_judge = fdopen(up[0], "rb");
}

typedef struct span {
    const void *at;
    size_t size;
} span;

/* The judge hears the status and four texts. It answers 0, or the size of what is wrong, and that. */
static void ask(uint32_t status, const span texts[4]) {
    char wrong[TEXT_ROOM];
    uint32_t answer = 0, numbers[5] = {status};
    for (int i = 0; i < 4; i++) numbers[1 + i] = (uint32_t)texts[i].size;
    fwrite(numbers, sizeof numbers, 1, to_judge);
    for (int i = 0; i < 4; i++)
        if (texts[i].size > 0) fwrite(texts[i].at, texts[i].size, 1, to_judge);
    if (fflush(to_judge) || fread(&answer, sizeof answer, 1, from_judge) != 1) fail("no judge");
    if (answer == 0) return;
    size_t length = answer < sizeof wrong ? answer : sizeof wrong - 1;
    wrong[fread(wrong, 1, length, from_judge)] = 0;
    fail(wrong);
}

/* The counters of the library's branches. */
extern uint8_t __start___sancov_cntrs[], __stop___sancov_cntrs[];

/* Whether a branch was taken as often as never before, in the sizes that libFuzzer tells apart. */
static bool is_new(void) {
    static const uint8_t SIZES[] = {1, 2, 3, 4, 8, 16, 32, 128};
    static uint8_t seen[1 << 17];
    bool is_any = false;
    size_t end = (size_t)(__stop___sancov_cntrs - __start___sancov_cntrs);
    for (size_t i = 0; i < end && i < sizeof seen; i++) {
        uint8_t bits = 0;
        for (int size = 0; size < 8 && __start___sancov_cntrs[i] >= SIZES[size]; size++)
            bits = (uint8_t)(1 << size);
        is_any |= (bits & ~seen[i]) != 0;
        seen[i] |= bits;
    }
    return is_any;
}

static bool is_judged(void) {
    static unsigned long runs;
    return to_judge && (is_new() || ++runs % JUDGED_ONE_IN == 0);
}

/* Whether a key `n` ends here, also one that is written as an escape. */
static bool ends_key(const uint8_t *text, size_t at) {
    if (at < 2 || text[at] != '"') return false;
    return text[at - 1] == 'n' || ((text[at - 1] | 32) == 'e' && text[at - 2] == '6');
}

/* For how many seconds a text asks, at most. Any other `n` is refused. */
static size_t seconds_of(const uint8_t *text, size_t size) {
    size_t sum = 0;
    for (size_t at = 0; at < size; at++) {
        size_t number = 0, next = at + 1;
        if (!ends_key(text, at)) continue;
        while (next < size && (text[next] <= ' ' || text[next] == ':')) next++;
        for (; next < size && text[next] >= '0' && text[next] <= '9' && number < 1000000; next++)
            number = 10 * number + (size_t)(text[next] - '0');
        if (number <= 100000) sum += number;
    }
    return sum;
}

typedef struct run {
    irig_refusal refusal;
    size_t size;
    uint8_t status, log[LOG_ROOM], reason[TEXT_ROOM];
} run;

static void play(run *run, span text, bool is_full) {
    run->status = irig_run_shown(text.at, text.size, is_full, is_full, run->log, LOG_ROOM, &run->size,
                                 run->reason, TEXT_ROOM, &run->refusal);
    if (run->status != (run->refusal.number ? IRIG_RUN_REFUSED : IRIG_RUN_DONE)) fail("a status");
    if (run->size > LOG_ROOM || run->refusal.whole > TEXT_ROOM) fail("too long");
}

static void try_scenario(span text) {
    static run plain, full;
    play(&plain, text, false);
    if (!is_judged()) return;
    play(&full, text, true);
    ask(plain.status,
        (span[]){text, {plain.log, plain.size}, {full.log, full.size}, {plain.reason, plain.refusal.whole}});
}

int LLVMFuzzerTestOneInput(const uint8_t *text, size_t size);

int LLVMFuzzerTestOneInput(const uint8_t *text, size_t size) {
    static bool is_begun;
    if (!is_begun && getenv("JUDGE")) begin_judge(getenv("JUDGE"));
    is_begun = true;
    if (seconds_of(text, size) > MOST_SECONDS) return -1;
    try_scenario((span){text, size});
    return 0;
}
