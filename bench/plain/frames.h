/* Whole frames and held extractions. */
#ifndef PLAIN_FRAMES_H
#define PLAIN_FRAMES_H

#include "conjuncts.h"

/* Where the parts of a good physical frame stand. */
struct frame {
    const uint8_t *records, *filter;
    uint32_t count, nodes;
};

enum { RECORD = 5 }; /* bytes: side, child index (two), field tag (two) */

/* The column count, which starts here, and the records: 0 or the refusal. */
static inline int read_records(const uint8_t *at, const uint8_t *end, struct frame *frame)
{
    uint32_t i, count, whole;
    int bad = 0;
    if (RARE(end - at < 2)) {
        return 3;
    }
    count = number_of_two(at);
    if (RARE(count > SPATIALJOIN_MOST_RECORDS)) {
        return 4;
    }
    at += 2;
    whole = (uint32_t)(end - at) / RECORD;
    whole = whole < count ? whole : count;
    for (i = 0; i < whole; i++) {
        bad |= at[RECORD * i] > SPATIALJOIN_NO_SIDE;
    }
    if (RARE(bad)) {
        return 4;
    }
    if (RARE(whole < count)) {
        at += RECORD * whole;
        return at < end && *at > SPATIALJOIN_NO_SIDE ? 4 : 3;
    }
    frame->records = at;
    frame->count = count;
    frame->filter = at + RECORD * count;
    return 0;
}

/* The sides of the records as bits. */
static inline void note_sides(const struct frame *frame, struct notes *notes)
{
    static const uint8_t bits[3] = {LEFT_BIT, RIGHT_BIT, MARK_BIT};
    uint32_t i;
    for (i = 0; i < frame->count; i++) {
        notes->side_bit[i] = bits[frame->records[RECORD * i]];
    }
}

/* A physical frame from its column count on, after so many nodes: 0, or a refusal of 3 to 8. */
TEMPLATE int read_frame(const uint8_t *at, const uint8_t *end, long nodes, struct frame *frame, struct walk *walk, const int what)
{
    struct place from;
    const int refusal = read_records(at, end, frame);
    if (RARE(refusal)) {
        return refusal;
    }
    if (what & SIDES) {
        note_sides(frame, &walk->notes);
    }
    walk->notes.columns = 0;
    walk->notes.levels = 1;
    walk->leaves = walk->effort = walk->matches = walk->is_knn = walk->gaps = walk->lacks = 0;
    from.at = frame->filter;
    from.nodes = nodes;
    from = read_filter(from, end, frame->count, walk, what);
    if (RARE(!from.at)) {
        return (int)from.nodes;
    }
    if (RARE(from.at != end)) {
        return 7;
    }
    frame->nodes = (uint32_t)from.nodes;
    return walk->lacks ? 8 : 0;
}

/* The bytes of a physical frame: 0, or a refusal of 1 to 8. */
TEMPLATE int read_whole_frame(const uint8_t *bytes, size_t length, struct frame *frame, struct walk *walk, const int what)
{
    if (RARE(length - 1 >= MOST_BYTES)) {
        return 1;
    }
    if (RARE(bytes[0] != SPATIALJOIN_FRAME)) {
        return 2;
    }
    walk->notes.base = bytes;
    return read_frame(bytes + 1, bytes + length, 0, frame, walk, what);
}

ONCE int check_frame(const uint8_t *bytes, size_t length, struct frame *frame, struct walk *walk)
{
    return read_whole_frame(bytes, length, frame, walk, CHECK);
}

/* With the start and the end of each node, and the levels. */
ONCE int row_frame(const uint8_t *bytes, size_t length, struct frame *frame, struct walk *walk)
{
    return read_whole_frame(bytes, length, frame, walk, ROWS);
}

/* ---- held plans */

/* 10 or 11, or 0 where something is held. */
TEMPLATE int held_refusal(size_t plan_len, size_t n)
{
    return RARE(n > plan_len || n > MOST_BYTES) ? 10 : RARE(n == 0) ? 11 : 0;
}

/* Where the parts of a good extraction stand, and the columns of its arguments among those that were noted. */
struct extraction {
    const uint8_t *argument[4]; /* two geometries, a bound or nothing, and where they end */
    uint32_t column[4];
    struct frame remainder; /* without one, of no records */
};

/* Where the arguments of an extraction start; null where its fields are out of range. */
static inline const uint8_t *read_fields(const uint8_t *plan, size_t n)
{
    switch (plan[0]) {
    case SPATIALJOIN_RELATION:
        return n >= 4 && plan[3] <= SPATIALJOIN_RELATION_EQUALS ? plan + 4 : NULL;
    case SPATIALJOIN_DISTANCE:
        return n >= 5 && plan[3] <= SPATIALJOIN_FORM_GT_EQ && plan[4] <= SPATIALJOIN_NO_SIDE ? plan + 5 : NULL;
    case SPATIALJOIN_KNN:
        return n >= 10 && four(plan + 3) != 0 && plan[7] <= 1 && plan[8] <= 1 && plan[9] <= SPATIALJOIN_TIES_ABSENT ? plan + 10 : NULL;
    default:
        return NULL;
    }
}

/* Whether it is a good extraction. */
TEMPLATE int read_extraction(const uint8_t *plan, size_t n, struct extraction *held, struct walk *walk, const int what)
{
    const uint8_t *end = plan + n;
    const uint32_t arguments = plan[0] == SPATIALJOIN_DISTANCE ? 3 : 2;
    struct place from = {read_fields(plan, n), 0};
    uint32_t i;
    if (!from.at) {
        return 0;
    }
    walk->notes.base = plan;
    walk->notes.columns = 0;
    for (i = 0; i < arguments; i++) {
        held->argument[i] = from.at;
        held->column[i] = walk->notes.columns;
        from = exprs(from, end, 1, 1, 65536, &walk->notes, what);
        if (!from.at) {
            return 0;
        }
    }
    for (; i < 4; i++) {
        held->argument[i] = from.at;
        held->column[i] = walk->notes.columns;
    }
    held->remainder.count = 0;
    if (from.at == end || *from.at > SPATIALJOIN_FRAME) {
        return 0;
    }
    if (*from.at == 0) {
        return from.at + 1 == end;
    }
    return read_frame(from.at + 1, end, from.nodes, &held->remainder, walk, CHECK) == 0;
}

ONCE int is_extraction(const uint8_t *plan, size_t n, struct extraction *held, struct walk *walk)
{
    return read_extraction(plan, n, held, walk, CHECK);
}

/* With the columns of its arguments. */
ONCE int is_extraction_with_columns(const uint8_t *plan, size_t n, struct extraction *held, struct walk *walk)
{
    return read_extraction(plan, n, held, walk, COLUMNS);
}

#endif
