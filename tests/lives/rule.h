/* What lines tell by their pulses, and the reader's rule: docs/READER.md, in plain C. */
#ifndef RULE_H
#define RULE_H

#include "world.h"

typedef struct claim {
    uint32_t day, sod;
    uint8_t mark; /* IRIG_MARK_UNSPOKEN .. */
} claim;

typedef struct plain_reader {
    irig_setup setup;
    irig_table table;
    irig_state state;
} plain_reader;

/* What a port heard since it was emptied. */
typedef struct heard {
    uint32_t count; /* at most 101 */
    uint8_t symbols[ELEMENTS];
} heard;

/* What a line tells at an edge, and the frame that tells it. */
typedef struct voice {
    uint8_t kind;   /* IRIG_TOLD_SILENCE .. */
    uint32_t fault; /* IRIG_FAULT_SHORT to IRIG_FAULT_MARKER, if it is one of these */
    claim claim;
    frame frame;
} voice;

/* So many bits from an element on. */
uint32_t bits(const frame *f, unsigned element, unsigned count);

/* The place of a line's next pulse in its frame, and of a line that may be idle. */
uint8_t place_of(irig_sync *at, uint32_t rise_us, uint32_t width_us);
void idle(irig_sync *at, uint32_t now_us);

uint8_t symbol_of(uint32_t width_us);
void hear_pulse(heard *h, uint32_t width_us);
voice voice_of(const irig_setup *setup, const heard *h);

/* Whether both claim the same. */
bool are_one(const voice *a, const voice *b);

/* A voice that enough of the lines share, or -1; and the report's masks, quality and zone. */
int vote(const voice *voices, int lines, int enough, uint8_t sense, irig_report *r);

/* Whether the claim that has the vote speaks of a leap, and the table says otherwise. */
bool is_against_table(const plain_reader *reader, const claim *vote);

/* Whether an edge, with a vote or none, leads to another second than by the table's word. */
bool goes_against_table(const plain_reader *reader, const claim *vote);

/* An edge, with a vote or none: the report's announcement, lock and cause. */
void step(plain_reader *reader, const claim *vote, irig_report *r);

#endif
