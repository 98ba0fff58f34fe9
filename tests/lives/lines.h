/* The lines of a life: pulses, one after another, of true frames and of lies. */
#ifndef LINES_OF_LIFE_H
#define LINES_OF_LIFE_H

#include "world.h"

typedef struct pulse {
    uint64_t rise_us, end_us;
    uint32_t frame;  /* of a true one: the frame that it belongs to, */
    uint8_t element; /* and which of its elements it is */
    bool is_true;    /* it is that symbol, and as near its time as the world says */
    bool is_claim;   /* and its frame, if whole, tells the true claim, */
    uint8_t quality; /* and says this of its clock */
} pulse;

/* ---- lies */

/* What the frames of a liar say. */
typedef enum saying {
    SAYS_TRUTH,
    SAYS_OTHER,  /* another second */
    SAYS_LEAP,   /* something else of the leap */
    SAYS_POOR,   /* a poor quality */
    SAYS_ANY,    /* any second */
    SAYS_WRONGLY /* the truth, but for some bits */
} saying;

/* When they end: an element behind their last pulse. */
typedef enum aim {
    AT_PLACE,    /* at the edge, as true lines do */
    AT_BOUND,    /* before or behind another line, so far that they just agree, or just do not */
    SHIFTED,     /* by as much in each second */
    WALKING,     /* by more in each second */
    AT_OWN_EDGE, /* by the edges that the device tells */
    AIMS
} aim;

/* What else is wrong with them. */
typedef enum harm {
    UNHARMED,
    CUT,        /* they end too soon */
    TRAILED,    /* some more pulses follow */
    LAST_MOVED, /* the last pulse comes early or late */
    GLITCHES,
    HOLES /* pulses are lost */
} harm;

/* Or no frames at all. */
typedef enum manner { FRAMES, NOISE, STUCK } manner;

typedef struct lie {
    uint64_t from_us, to_us; /* each false pulse rises between */
    uint8_t line;
    manner manner;
    saying saying;
    aim aim;
    harm harm;
    int32_t by;       /* seconds off of SAYS_OTHER */
    uint32_t quality; /* that it says */
    uint32_t poor;    /* the quality of SAYS_POOR, or 0 for any that has no vote */
    int32_t shift_us; /* of the first frame's end */
    int32_t rate_us;  /* of WALKING, a second */
    uint32_t spacing_us;
    uint8_t target; /* the line of AT_BOUND */
    uint64_t seed;  /* those who collude have one */
} lie;

enum { MOST_LIES = 600, MOST_DARK = 8 };

/* ---- lines */

/* How far from their time true pulses rise, and how wide they are in the range of their symbol. */
typedef enum spread { EQUAL, BY_CHANCE, IN_TURN, SPREADS } spread;
typedef enum width { NOMINAL, NARROW, WIDE, ANY_WIDTH, WIDTHS } width;

typedef struct line {
    pulse next; /* the one that ends next */
    bool is_over;
    uint8_t number;
    chance luck;
    /* how it sends */
    spread spread;
    int32_t offset_us;
    uint32_t turns_at; /* from this frame on it is as far off the other way; 0 never */
    width width;
    int32_t zone;
    bool dst;
    uint32_t quality;     /* that its clock says; it is no further off, */
    bool says_any;        /* or any that its clock is no further off than, in each frame another one, */
    bool walks;           /* and 1 us less, if it is not always as far off */
    uint32_t harm_one_in; /* frames that lose pulses, or are of poor quality; 0 none */
    uint64_t seed;
    /* where it stands */
    uint32_t frame;
    unsigned element;
    frame symbols;
    bool is_claim;
    uint8_t said; /* the quality of this frame */
    unsigned lost_from, lost_to, lost_one_in;
    uint64_t end_us; /* of its last pulse */
    int lie;         /* the lie that is told now, or comes next */
    bool is_lying;
    /* in a lie */
    chance lie_luck;
    int64_t lie_frame;
    unsigned lie_element, lie_count;
    uint64_t lie_base_us, lie_rise_us;
    int32_t lie_moved_us;
    /* or a list of pulses in place of all that */
    const pulse *script;
    uint32_t script_left;
} line;

/* Frames of which some lines send nothing. */
typedef struct dark {
    uint32_t from, to;
    unsigned lines; /* a bit for each */
} dark;

/* All lines of a life. */
typedef struct sky {
    const world *world;
    uint8_t lines;
    line line[MOST_LINES];
    dark dark[MOST_DARK];
    int darks;
    lie lie[MOST_LIES]; /* those of one line in order of time */
    int lies;
    uint64_t told_edge_us; /* the last that the device told: liars hear it */
} sky;

/* The line's first pulse, and each one behind it. */
void begin_line(line *l, const sky *s, uint8_t number, uint64_t seed);
void go_on(line *l, const sky *s);

/* The time of a true line's last pulse of a frame, beside its nominal time. */
int32_t last_offset(const line *l, const sky *s, uint32_t frame);

/* A width of the symbol at an element. */
uint32_t width_of(width kind, const frame *symbols, unsigned element, chance *luck);

/* The next false pulse. False if the lie has no more. */
void begin_lie(line *l, const sky *s);
bool next_false(line *l, const sky *s);

#endif
