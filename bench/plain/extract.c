/* extract, extract_all and explain: what becomes of the conjuncts. */
#include "remainder.h"

/* The one walk holds each node to the lent table. */
ONCE int pick_frame(const uint8_t *plan, size_t n, struct frame *frame, struct walk *walk)
{
    return read_whole_frame(plan, n, frame, walk, PICK | TABLED | COLUMNS | SIDES);
}

/* The extraction of the conjunct that was picked, from the old plan in the scratch: its length. */
static inline int64_t write_extraction(uint8_t *restrict plan, const uint8_t *restrict old, size_t n, const struct frame *frame,
                                       const struct walk *walk)
{
    const struct match *taken = walk->match;
    const uint32_t filter = 3 + RECORD * frame->count;
    const struct gap gaps[2] = {{taken->parent, (uint16_t)(taken->parent + 2)}, {taken->leaf, taken->leaf_end}};
    const struct leftover rest = {old, (uint32_t)n, filter, frame->count, &walk->notes, gaps, 2};
    uint8_t *to = write_predicate(plan, old, &walk->notes, taken);
    if (taken->leaf == filter) {
        *to++ = 0;
    } else {
        to = write_remainder(to, &rest);
    }
    return to - plan;
}

int64_t plain_extract(uint8_t *restrict plan, size_t plan_len, size_t n, uint8_t *restrict scratch, size_t scratch_len,
                      const spatialjoin_node *restrict table, size_t table_len, uint8_t kinds, uint32_t default_k, uint32_t greatest_k)
{
    struct frame frame;
    struct walk walk;
    int refusal;
    walk.set.kinds = kinds;
    walk.set.default_k = default_k;
    walk.set.greatest_k = greatest_k;
    if (RARE(!are_good(walk.set))) {
        return SPATIALJOIN_BAD_SETTINGS;
    }
    refusal = held_refusal(plan_len, n);
    if (RARE(refusal)) {
        return -refusal;
    }
    if (RARE(plan[0] != SPATIALJOIN_FRAME)) {
        struct extraction held;
        return is_extraction(plan, n, &held, &walk) ? SPATIALJOIN_ALREADY_EXTRACTED : SPATIALJOIN_NO_GOOD_PLAN;
    }
    walk.notes.table = table;
    walk.notes.most = table_len < MOST_NODES ? (long)table_len : MOST_NODES;
    if (RARE(pick_frame(plan, n, &frame, &walk))) {
        return SPATIALJOIN_NO_GOOD_PLAN;
    }
    if (RARE(scratch_len < n)) {
        return SPATIALJOIN_TOO_SHORT;
    }
    if (RARE(walk.matches == 0)) {
        return SPATIALJOIN_NO_MATCH - (int64_t)walk.effort * 256;
    }
    memcpy(scratch, plan, n);
    return (int64_t)walk.effort * 65536 + write_extraction(plan, scratch, n, &frame, &walk);
}

/* ---- all conjuncts */

ONCE int all_frame(const uint8_t *bytes, size_t length, struct frame *frame, struct walk *walk)
{
    return read_whole_frame(bytes, length, frame, walk, ALL | COLUMNS | SIDES);
}

/* The predicates of KNN or of other conjuncts, in their order. */
static inline uint8_t *write_predicates(uint8_t *to, const uint8_t *bytes, const struct walk *walk, int of_knn)
{
    uint32_t i;
    for (i = 0; i < walk->matches; i++) {
        if ((walk->match[i].first == SPATIALJOIN_KNN) == of_knn) {
            to = write_predicate(to, bytes, &walk->notes, walk->match + i);
        }
    }
    return to;
}

/* Into an output that is as long as the frame: the length. */
static size_t write_all(uint8_t *restrict out, const uint8_t *restrict bytes, size_t length, const struct frame *frame,
                        const struct walk *walk)
{
    const struct leftover rest = {bytes, (uint32_t)length, 3 + RECORD * frame->count, frame->count, &walk->notes, walk->gap, walk->gaps};
    uint8_t *to = out;
    if (walk->matches == 0) {
        memcpy(out, bytes, length);
        return length;
    }
    to = write_predicates(to, bytes, walk, 1);
    to = write_predicates(to, bytes, walk, 0);
    if (walk->matches == walk->leaves) {
        *to++ = 0;
    } else {
        to = write_remainder(to, &rest);
    }
    return (size_t)(to - out);
}

/* Into one that is shorter, by way of a buffer of its own. */
ONCE int64_t write_short(uint8_t *restrict out, size_t out_len, const uint8_t *restrict bytes, size_t length, const struct frame *frame,
                         const struct walk *walk)
{
    uint8_t whole[MOST_BYTES];
    const size_t written = write_all(whole, bytes, length, frame, walk);
    if (written > out_len) {
        return SPATIALJOIN_TOO_SHORT;
    }
    memcpy(out, whole, written);
    return (int64_t)walk->matches * 65536 + (int64_t)written;
}

int64_t plain_extract_all(const uint8_t *restrict bytes, size_t length, uint8_t *restrict out, size_t out_len, uint8_t kinds,
                          uint32_t default_k, uint32_t greatest_k)
{
    struct frame frame;
    struct walk walk;
    int refusal;
    walk.set.kinds = kinds;
    walk.set.default_k = default_k;
    walk.set.greatest_k = greatest_k;
    if (RARE(!are_good(walk.set))) {
        return SPATIALJOIN_BAD_SETTINGS;
    }
    refusal = all_frame(bytes, length, &frame, &walk);
    if (RARE(refusal)) {
        return -refusal;
    }
    if (RARE(out_len < length)) {
        return write_short(out, out_len, bytes, length, &frame, &walk);
    }
    return (int64_t)walk.matches * 65536 + (int64_t)write_all(out, bytes, length, &frame, &walk);
}

/* ---- verdicts */

ONCE int why_frame(const uint8_t *bytes, size_t length, struct frame *frame, struct walk *walk)
{
    return read_whole_frame(bytes, length, frame, walk, WHY | SIDES);
}

/* Line and position: of the first KNN that matches, else of the first match. */
static inline int64_t bill_of(const struct walk *walk)
{
    int64_t bill = 0;
    uint32_t i;
    for (i = 0; i < walk->leaves; i++) {
        const uint8_t verdict = walk->verdict[i];
        if (verdict == SPATIALJOIN_AS_KNN) {
            return (int64_t)verdict * 65536 + i;
        }
        if (verdict < SPATIALJOIN_AS_KNN && bill == 0) {
            bill = (int64_t)verdict * 65536 + i;
        }
    }
    return bill;
}

int64_t plain_explain(const uint8_t *restrict bytes, size_t length, uint8_t *restrict verdicts, size_t verdicts_len, uint8_t kinds,
                      uint32_t default_k, uint32_t greatest_k)
{
    struct frame frame;
    struct walk walk;
    int refusal;
    walk.set.kinds = kinds;
    walk.set.default_k = default_k;
    walk.set.greatest_k = greatest_k;
    if (RARE(!are_good(walk.set))) {
        return SPATIALJOIN_BAD_SETTINGS;
    }
    refusal = why_frame(bytes, length, &frame, &walk);
    if (RARE(refusal)) {
        return -refusal;
    }
    if (RARE(verdicts_len < walk.leaves)) {
        return SPATIALJOIN_TOO_SHORT;
    }
    memcpy(verdicts, walk.verdict, walk.leaves);
    return bill_of(&walk) * 65536 + walk.leaves;
}
