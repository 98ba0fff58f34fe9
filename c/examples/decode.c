/* What frames say. Of each line on standard input, a frame as `irig frame` prints it, one line: the
 * second that a port claims of it, or its fault, as `irig read` prints it.
 *
 *     irig frame 2016-12-31T23:59:59Z --pending=insert | ./decode
 *     claim 2016-12-31T23:59:59Z insert
 */
#include "irig.h"

#include <stdio.h>

static const char *const mark[] = {"unspoken", "no-leap", "insert", "delete"};
static const char *const field[] = {"second", "minute", "hour", "day", "year"};

static void print_fault(uint32_t fault) {
    uint32_t number = IRIG_FAULT(fault), detail = IRIG_DETAIL(fault);
    printf("fault %u %s", (unsigned)number, irig_fault_name(fault));
    if (number == IRIG_FAULT_SHORT || number == IRIG_FAULT_PULSE || number == IRIG_FAULT_MARKER)
        printf(" %u", (unsigned)detail);
    if (number == IRIG_FAULT_DIGIT || number == IRIG_FAULT_RANGE) printf(" %s", field[detail]);
    printf("\n");
}

static void print_told(const irig_told *told) {
    char text[21] = "";
    switch (told->kind) {
    case IRIG_TOLD_SILENCE: printf("silence\n"); break;
    case IRIG_TOLD_FAULT: print_fault(told->fault); break;
    case IRIG_TOLD_POOR: printf("poor %u\n", told->quality); break;
    default:
        irig_second_write(&told->claim.at, text);
        printf("claim %s %s\n", text, mark[told->claim.mark]);
    }
}

/* The width of the pulse that a letter stands for: of ? one that no symbol has. */
static uint32_t width_of(int letter) {
    return irig_width_us(letter == '0'   ? IRIG_SYMBOL_ZERO
                         : letter == '1' ? IRIG_SYMBOL_ONE
                         : letter == 'P' ? IRIG_SYMBOL_MARKER
                                         : IRIG_SYMBOL_BAD);
}

/* Feeds a line to port 0. Returns what ended it: a newline, EOF, or a letter of no symbol. */
static int feed(irig_reader *reader) {
    int letter;
    while ((letter = getchar()) != '\n' && letter != EOF) {
        if (letter == ' ') continue;
        if (letter != '0' && letter != '1' && letter != 'P' && letter != '?') break;
        irig_reader_pulse(reader, 0, width_of(letter));
    }
    return letter;
}

int main(void) {
    irig_setup setup = {.lock_after = 1};
    irig_table table = {0};
    irig_reader reader;
    irig_told told;
    if (irig_reader_init(&reader, &setup, &table) != IRIG_DONE) return 1;
    for (;;) {
        int end = feed(&reader);
        if (end != '\n' && end != EOF) {
            fprintf(stderr, "bad frame text\n");
            return 2;
        }
        if (irig_reader_port(&reader, 0, &told) != IRIG_DONE) return 1;
        if (end == EOF && told.kind == IRIG_TOLD_SILENCE) return 0;
        print_told(&told);
        irig_reader_restart(&reader);
    }
}
