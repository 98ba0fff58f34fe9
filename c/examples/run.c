/* What `irig run FILE [--all] [--ports]` prints, by the library: the log of a scenario, and its
 * status; and why a line is refused. */
#include "irig_scene.h"

#include <stdio.h>
#include <stdlib.h>
#include <string.h>

/* All bytes of a file, or null. */
static uint8_t *bytes_of(const char *path, size_t *count) {
    FILE *file = fopen(path, "rb");
    uint8_t *bytes = NULL;
    size_t room = 0;
    *count = 0;
    while (file && !feof(file) && !ferror(file)) {
        room = 2 * room + 4096;
        uint8_t *more = realloc(bytes, room);
        if (!more) break;
        bytes = more;
        *count += fread(bytes + *count, 1, room - *count, file);
    }
    int is_whole = file && feof(file);
    if (file) fclose(file);
    if (is_whole) return bytes;
    free(bytes);
    return NULL;
}

/* What is shown of a run. */
typedef struct shown {
    bool all, ports;
} shown;

/* A run: its log, and why it is refused. */
typedef struct run {
    uint8_t *log, reason[1024];
    size_t room, whole;
    irig_refusal refusal;
    uint8_t status;
} run;

static void play(run *run, const uint8_t *text, size_t count, shown shown) {
    run->status = irig_run_shown(text, count, shown.all, shown.ports, run->log, run->room,
                                 &run->whole, run->reason, sizeof run->reason, &run->refusal);
}

/* Prints as much of the log as its room has, and answers the exit status. */
static int print(const run *run) {
    size_t size = run->whole < run->room ? run->whole : run->room;
    if (run->status > IRIG_RUN_REFUSED) fputs("out of memory\n", stderr);
    if (run->status == IRIG_RUN_REFUSED) {
        const irig_refusal *why = &run->refusal;
        int length = (int)(why->whole < sizeof run->reason ? why->whole : sizeof run->reason);
        fprintf(stderr, "line %llu: %u: %.*s\n", (unsigned long long)why->line, why->number,
                length, (const char *)run->reason);
    }
    return fwrite(run->log, 1, size, stdout) < size || fflush(stdout) ? 5 : run->status;
}

/* Little room at first, enough for the log of a short run; then as much as the log is long. */
static int run_file(const uint8_t *text, size_t count, shown shown) {
    uint8_t few[64];
    run run = {.log = few, .room = sizeof few};
    play(&run, text, count, shown);
    if (run.status > IRIG_RUN_REFUSED || run.whole <= run.room) return print(&run);

    uint8_t *log = malloc(run.whole);
    if (!log) return fputs("out of memory\n", stderr), IRIG_RUN_NO_LOG;
    run.log = log;
    run.room = run.whole;
    play(&run, text, count, shown);
    int answer = print(&run);
    free(log);
    return answer;
}

int main(int argc, char **argv) {
    size_t count;
    shown shown = {false, false};
    for (int i = 2; i < argc; i++) {
        if (strcmp(argv[i], "--all") == 0) shown.all = true;
        if (strcmp(argv[i], "--ports") == 0) shown.ports = true;
    }
    if (argc < 2 || argc != 2 + shown.all + shown.ports)
        return fputs("usage: run FILE [--all] [--ports]\n", stderr), 2;
    uint8_t *text = bytes_of(argv[1], &count);
    if (!text) return perror(argv[1]), 4;
    int status = run_file(text, count, shown);
    free(text);
    return status;
}
