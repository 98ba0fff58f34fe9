#include "lines.h"

#include <stdlib.h>

uint32_t width_of(width kind, const frame *symbols, unsigned element, chance *luck) {
    uint32_t low = is_marker(element) ? 6500 : is_one(symbols, element) ? 3500 : 500;
    switch (kind) {
    case NOMINAL: return low + 1500;
    case NARROW: return low;
    case WIDE: return low + 2999;
    default: return low + below(luck, 3000);
    }
}

/* ---- true frames */

/* That of its pulses at the end of a frame, but by chance. */
static int32_t offset_in(const line *l, uint32_t frame) {
    return l->turns_at > 0 && frame >= l->turns_at ? -l->offset_us : l->offset_us;
}

static int32_t offset_of(line *l, const sky *s) {
    int32_t most_us = jitter_us(s->world), offset_us = offset_in(l, l->frame);
    switch (l->spread) {
    case EQUAL: return offset_us;
    case BY_CHANCE: return between(&l->luck, -most_us, most_us);
    default: return l->element % 2 ? offset_us : -offset_us;
    }
}

int32_t last_offset(const line *l, const sky *s, uint32_t frame) {
    int32_t most_us = jitter_us(s->world);
    if (l->spread != BY_CHANCE) return offset_in(l, frame);
    chance luck = {l->seed + frame};
    return between(&luck, -most_us, most_us);
}

static bool is_dark(const line *l, const sky *s) {
    for (int i = 0; i < s->darks; i++)
        if (l->frame >= s->dark[i].from && l->frame < s->dark[i].to &&
            s->dark[i].lines >> l->number & 1)
            return true;
    return false;
}

/* Which pulses of a frame are lost: none, one, some in a row, or each one by chance; or whether it is
 * poor in place of that. */
static bool lose_pulses(line *l) {
    l->lost_from = l->lost_to = ELEMENTS;
    l->lost_one_in = 0;
    if (l->harm_one_in == 0 || !is_once_in(&l->luck, l->harm_one_in)) return false;
    switch (below(&l->luck, 4)) {
    case 0:
        l->lost_from = below(&l->luck, ELEMENTS);
        l->lost_to = l->lost_from + 1;
        break;
    case 1:
        l->lost_from = below(&l->luck, ELEMENTS);
        l->lost_to = l->lost_from + 1 + below(&l->luck, ELEMENTS);
        break;
    case 2: l->lost_one_in = 1 + below(&l->luck, 50); break;
    default: return true;
    }
    return false;
}

/* What the frame says of its clock, by how far off that is at the frame's end. */
static uint32_t quality_of(line *l, const sky *s) {
    uint32_t poor_from = s->world->poor_from, least = 0;
    if (!l->says_any || l->frame >= s->world->seconds) return l->quality;
    while (quality_us(least) < abs(s->world->clock_us[l->number][l->frame + 1]) + l->walks) least++;
    return least + below(&l->luck, poor_from - least);
}

/* Makes the frame in which the line stands, or goes on to the next one that is not dark. */
static void make_frame(line *l, const sky *s) {
    while (l->frame < s->world->seconds && is_dark(l, s)) l->frame++;
    utc at = second_at(s->world, l->frame);
    bool is_poor = lose_pulses(l);
    content what = true_content(s->world, at, l->zone);
    what.dst = l->dst;
    what.quality = is_poor ? poor_quality(s->world, &l->luck) : quality_of(l, s);
    l->said = (uint8_t)what.quality;
    l->is_claim = at.day <= LAST_DAY && what.quality < s->world->poor_from;
    l->symbols = encode(&what, s->world->is_odd, s->world->is_subtracted);
}

static bool is_lost(line *l) {
    return (l->element >= l->lost_from && l->element < l->lost_to) ||
           (l->lost_one_in > 0 && is_once_in(&l->luck, l->lost_one_in));
}

/* The next pulse of a true frame that is not lost, and comes behind all that the line sent. */
static bool next_true(line *l, const sky *s) {
    for (; l->frame < s->world->seconds; l->element++) {
        if (l->element == ELEMENTS) {
            l->element = 0;
            l->frame++;
            make_frame(l, s);
            if (l->frame >= s->world->seconds) return false;
        }
        int32_t offset =
            l->element == ELEMENTS - 1 ? last_offset(l, s, l->frame) : offset_of(l, s);
        uint64_t at_us = element_us(s->world, l->number, l->frame, l->element);
        uint64_t rise_us = at_us + (uint64_t)(int64_t)offset;
        uint64_t last_us = at_us + (uint64_t)jitter_us(s->world);
        if (rise_us <= l->end_us && l->end_us < last_us) rise_us = l->end_us + 1;
        if (rise_us <= l->end_us || is_lost(l)) continue;
        uint32_t wide_us = width_of(l->width, &l->symbols, l->element, &l->luck);
        l->next = (pulse){.rise_us = rise_us,
                          .end_us = rise_us + wide_us,
                          .frame = l->frame,
                          .element = (uint8_t)l->element,
                          .is_true = true,
                          .is_claim = l->is_claim,
                          .quality = l->said};
        l->element++;
        return true;
    }
    return false;
}

/* Stands at the first element behind a time. */
static void return_to_truth(line *l, const sky *s, uint64_t time_us) {
    uint32_t frame = l->frame = edge_before(s->world, time_us);
    make_frame(l, s);
    l->element = 0;
    if (l->frame != frame) return;
    while (l->element < ELEMENTS && element_us(s->world, l->number, frame, l->element) <= time_us)
        l->element++;
}

/* ---- a line */

static void find_lie(line *l, const sky *s) {
    do l->lie++;
    while (l->lie < s->lies && s->lie[l->lie].line != l->number);
    l->is_lying = false;
}

static bool has_lie(const line *l, const sky *s) { return l->lie < s->lies; }

void begin_line(line *l, const sky *s, uint8_t number, uint64_t seed) {
    l->number = number;
    l->luck.state = l->seed = seed;
    l->frame = 0;
    l->element = 0;
    l->end_us = 0;
    l->is_over = false;
    l->lie = -1;
    find_lie(l, s);
    make_frame(l, s);
    go_on(l, s);
}

static bool go_on_lying(line *l, const sky *s) {
    const lie *told = &s->lie[l->lie];
    if (!l->is_lying) {
        l->is_lying = true;
        begin_lie(l, s);
    }
    if (next_false(l, s) && l->next.rise_us < told->to_us) return true;
    return_to_truth(l, s, told->to_us > l->end_us ? told->to_us : l->end_us);
    find_lie(l, s);
    return false;
}

void go_on(line *l, const sky *s) {
    if (l->script) {
        l->is_over = l->script_left == 0;
        if (l->is_over) return;
        l->next = *l->script++;
        l->script_left--;
        return;
    }
    for (;;) {
        if (l->is_lying && go_on_lying(l, s)) break;
        if (l->is_lying) continue;
        bool is_there = next_true(l, s);
        if (has_lie(l, s) && (!is_there || l->next.end_us >= s->lie[l->lie].from_us)) {
            if (go_on_lying(l, s)) break;
            continue;
        }
        if (is_there) break;
        l->is_over = true;
        return;
    }
    l->end_us = l->next.end_us;
}
