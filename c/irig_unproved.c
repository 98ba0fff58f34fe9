/* A shared library that is not proved says so when it is loaded: once an hour, as the file SAID is
 * dated when it does, or never with IRIG_UNPROVED=quiet. */
#include <stdio.h>
#include <stdlib.h>
#include <string.h>
#include <sys/stat.h>
#include <time.h>

__attribute__((constructor)) static void say(void) {
    const char *word = getenv("IRIG_UNPROVED");
    struct stat said;
    double age = stat(SAID, &said) == 0 ? difftime(time(NULL), said.st_mtime) : -1;
    if ((word != NULL && strcmp(word, "quiet") == 0) || (age >= 0 && age < 3600)) return;
    fputs("irig: not proved: " LIBRARY " only tests sums, indices and casts as it runs; "
          "`make -C c` proves it: " TIME_PROVED "\n", stderr);
    FILE *file = fopen(SAID, "w");
    if (file != NULL) fclose(file);
}
