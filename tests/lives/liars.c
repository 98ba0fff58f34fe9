/* Lies: frames that say, or end, or are something else, and pulses that are no frames. */
#include "lines.h"

/* What a false frame says of the second of its number. */
static content saying_of(line *l, const sky *s, const lie *told) {
    const world *w = s->world;
    chance *luck = &l->lie_luck;
    int64_t n = l->lie_frame;
    if (told->saying == SAYS_OTHER) n += told->by;
    utc at = second_at(w, n);
    if (at.day < 1 || at.day > LAST_DAY) at.day = 1;
    content what = true_content(w, at, l->zone);
    what.quality = told->quality;
    what.dst = l->dst;
    if (told->saying == SAYS_LEAP) {
        what.is_delete = what.pending ? !what.is_delete && told->by % 2 : told->by % 2;
        what.pending = !what.pending || what.is_delete;
    }
    if (told->saying == SAYS_POOR) what.quality = told->poor ? told->poor : poor_quality(w, luck);
    if (told->saying == SAYS_ANY) what.at = (utc){1 + below(luck, LAST_DAY), below(luck, DAY_S)};
    return what;
}

/* Where a false frame ends. */
static uint64_t end_of(const line *l, const sky *s) {
    const lie *told = &s->lie[l->lie];
    uint32_t frame = (uint32_t)l->lie_frame;
    int64_t end_us = (int64_t)s->world->edge_us[frame + 1];
    int64_t gone = l->lie_count;
    switch (told->aim) {
    case AT_PLACE: break;
    case AT_BOUND: /* where that line ends, by its last pulse */
        end_us = (int64_t)element_us(s->world, told->target, frame, ELEMENTS - 1) + ELEMENT_US +
                 last_offset(&s->line[told->target], s, frame);
        break;
    case SHIFTED: break;
    case WALKING: end_us += told->rate_us * gone; break;
    default:
        if (s->told_edge_us > 0) {
            int64_t seconds = (end_us - (int64_t)s->told_edge_us + SECOND_US / 2) / SECOND_US;
            end_us = (int64_t)s->told_edge_us + SECOND_US * seconds;
        }
    }
    return (uint64_t)(end_us + told->shift_us);
}

/* Stands at the first element of a false frame. */
static bool make_false_frame(line *l, const sky *s) {
    const lie *told = &s->lie[l->lie];
    if (l->lie_frame < 0 || l->lie_frame >= s->world->seconds) return false;
    content what = saying_of(l, s, told);
    l->symbols = encode(&what, s->world->is_odd, s->world->is_subtracted);
    for (uint32_t flips = told->saying == SAYS_WRONGLY ? 1 + below(&l->lie_luck, 4) : 0; flips > 0;
         flips--)
        l->symbols.ones[below(&l->lie_luck, 2)] ^= UINT64_C(1) << below(&l->lie_luck, HALF);
    l->lie_base_us = end_of(l, s) - ELEMENT_US - 99 * (uint64_t)told->spacing_us;
    l->lie_element = 0;
    l->lie_moved_us = told->harm == LAST_MOVED ? between(&l->lie_luck, -1000, 1000) : 0;
    return true;
}

void begin_lie(line *l, const sky *s) {
    const lie *told = &s->lie[l->lie];
    l->lie_luck.state = told->seed;
    l->lie_rise_us = told->from_us > l->end_us ? told->from_us : l->end_us + 1;
    l->lie_count = 0;
    l->lie_frame = 0;
    if (told->manner != FRAMES) return;
    /* It begins in the middle of the frame that it would have sent. */
    l->lie_frame = edge_before(s->world, l->lie_rise_us);
    if (!make_false_frame(l, s)) l->lie_frame = -1;
}

/* How many elements a false frame sends, or a little more. */
static unsigned length_of(const lie *told) {
    if (told->harm == CUT) return 1 + (unsigned)(told->seed % 99);
    if (told->harm == TRAILED) return ELEMENTS + 1 + (unsigned)(told->seed % 9);
    return ELEMENTS;
}

static void send_false(line *l, uint64_t rise_us, uint32_t wide_us) {
    l->next = (pulse){.rise_us = rise_us, .end_us = rise_us + wide_us};
}

/* A glitch behind the pulse that was sent last, as wide as there is room. */
static bool send_glitch(line *l, uint64_t next_us, uint64_t from_us) {
    uint64_t behind_us = l->end_us > from_us ? l->end_us : from_us;
    uint64_t rise_us = behind_us + 1 + below(&l->lie_luck, 3000);
    uint32_t wide_us = 1 + below(&l->lie_luck, 500);
    if (rise_us + wide_us >= next_us) return false;
    send_false(l, rise_us, wide_us);
    return true;
}

/* The next pulse of false frames. */
static bool next_of_frames(line *l, const sky *s) {
    const lie *told = &s->lie[l->lie];
    while (l->lie_frame >= 0) {
        if (l->lie_element >= length_of(told)) {
            l->lie_frame++;
            l->lie_count++;
            if (!make_false_frame(l, s)) return false;
        }
        unsigned element = l->lie_element % ELEMENTS;
        uint64_t rise_us = l->lie_base_us + (uint64_t)told->spacing_us * l->lie_element;
        if (l->lie_element == 99) rise_us += (uint64_t)(int64_t)l->lie_moved_us;
        if (told->harm == GLITCHES && rise_us > l->end_us && is_once_in(&l->lie_luck, 70) &&
            send_glitch(l, rise_us, told->from_us))
            return true;
        l->lie_element++;
        if (rise_us <= l->end_us || rise_us < told->from_us) continue;
        if (told->harm == HOLES && is_once_in(&l->lie_luck, 60)) continue;
        uint32_t wide_us = width_of(l->width, &l->symbols, element, &l->lie_luck);
        uint32_t most = told->spacing_us > 9600 ? 9400 : told->spacing_us - 200;
        if (l->lie_element == ELEMENTS) most = 8900;
        send_false(l, rise_us, wide_us < most ? wide_us : most);
        return true;
    }
    return false;
}

/* The next pulse of none, at the bounds of all that is asked of one. */
static bool next_of_noise(line *l, const lie *told) {
    static const uint32_t WIDTHS_US[] = {1, 499, 500, 3499, 3500, 6499, 6500, 8000, 9499, 9500};
    static const uint32_t GAPS_US[] = {8999, 9000, 9500, 10000, 10000, 10000, 10999, 11000};
    chance *luck = &l->lie_luck;
    uint32_t wide_us = is_once_in(luck, 4) ? 1 + below(luck, 12000) : WIDTHS_US[below(luck, 10)];
    uint32_t gap_us = is_once_in(luck, 6) ? 1 + below(luck, 30000) : GAPS_US[below(luck, 8)];
    if (told->manner == STUCK) {
        wide_us = 100000 + below(luck, is_once_in(luck, 2) ? 800000 : 9000000);
        if (is_once_in(luck, 4)) wide_us = 499998 + below(luck, 4);
    }
    uint64_t rise_us = l->lie_rise_us > l->end_us ? l->lie_rise_us : l->end_us + 1;
    send_false(l, rise_us, wide_us);
    l->lie_rise_us = rise_us + gap_us;
    return true;
}

bool next_false(line *l, const sky *s) {
    const lie *told = &s->lie[l->lie];
    return told->manner == FRAMES ? next_of_frames(l, s) : next_of_noise(l, told);
}
