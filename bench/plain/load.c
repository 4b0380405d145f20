/* load and merge: frames, and the tables of their nodes. */
#include "frames.h"

/* A frame, and where its nodes start and end. */
struct rows {
    const uint8_t *bytes;
    uint32_t length, filter; /* where its filter starts */
    struct frame frame;
    struct walk walk;
};

/* 0, or a refusal of 1 to 8. */
static inline int read_rows(struct rows *rows, const uint8_t *bytes, size_t length)
{
    const int refusal = row_frame(bytes, length, &rows->frame, &rows->walk);
    if (RARE(refusal)) {
        return refusal;
    }
    rows->bytes = bytes;
    rows->length = (uint32_t)length;
    rows->filter = 3 + RECORD * rows->frame.count;
    return 0;
}

/* The table's records of a frame's nodes, which stand so many bytes further on by now. */
ONCE void fill_table(spatialjoin_node *table, const struct rows *rows, uint32_t moved)
{
    const uint8_t *bytes = rows->bytes;
    const uint32_t nodes = rows->frame.nodes;
    uint32_t i;
    for (i = 0; i < nodes; i++) {
        const uint32_t start = rows->walk.notes.row[i].start;
        table[i].kind = bytes[start];
        table[i].start = (uint16_t)(start + moved);
        table[i].end = (uint16_t)(rows->walk.notes.row[i].end + moved);
    }
}

int64_t plain_load(const uint8_t *restrict bytes, size_t length, uint8_t *restrict plan, size_t plan_len,
                   spatialjoin_node *restrict table, size_t table_len)
{
    struct rows rows;
    const int refusal = read_rows(&rows, bytes, length);
    if (RARE(refusal)) {
        return -refusal;
    }
    if (RARE(plan_len < length)) {
        return SPATIALJOIN_TOO_SHORT;
    }
    if (RARE(table_len < rows.frame.nodes)) {
        return SPATIALJOIN_TABLE_TOO_SHORT;
    }
    memcpy(plan, bytes, length);
    fill_table(table, &rows, 0);
    return (int64_t)length;
}

/* ---- merge */

/* The columns of the new filter, so many bytes further on, are those after the held ones. */
static inline void raise_columns(uint8_t *plan, const struct rows *new, uint32_t moved, uint32_t by)
{
    const uint8_t *bytes = new->bytes;
    const uint32_t nodes = new->frame.nodes;
    uint32_t i;
    for (i = 0; i < nodes; i++) {
        const uint32_t at = new->walk.notes.row[i].start;
        if (bytes[at] == SPATIALJOIN_NODE_COLUMN) {
            put_two(plan + at + moved + 1, number_of_two(bytes + at + 1) + by);
        }
    }
}

/* Writes the And of both filters over the held plan, whose old bytes are those of `held`; the length. */
static inline int64_t write_merged(uint8_t *restrict plan, const struct rows *held, const struct rows *new,
                                   spatialjoin_node *restrict table)
{
    const uint32_t count = held->frame.count + new->frame.count, and = 3 + RECORD * count;
    const uint32_t held_at = and + 2, new_at = held_at + held->length - held->filter, end = new_at + new->length - new->filter;
    put_two(plan + 1, count);
    memcpy(plan + held->filter, new->frame.records, RECORD * new->frame.count);
    plan[and] = SPATIALJOIN_NODE_BINARY;
    plan[and + 1] = SPATIALJOIN_OPERATOR_AND;
    memcpy(plan + held_at, held->bytes + held->filter, held->length - held->filter);
    memcpy(plan + new_at, new->bytes + new->filter, new->length - new->filter);
    raise_columns(plan, new, new_at - new->filter, held->frame.count);
    table[0].kind = SPATIALJOIN_NODE_BINARY;
    table[0].start = (uint16_t)and;
    table[0].end = (uint16_t)end;
    fill_table(table + 1, held, held_at - held->filter);
    fill_table(table + 1 + held->frame.nodes, new, new_at - new->filter);
    return end;
}

/* Whether the And of both would be over a limit of frames. */
static inline int merged_too_large(const struct rows *held, const struct rows *new, size_t merged, uint32_t nodes)
{
    return merged > MOST_BYTES || nodes > MOST_NODES || held->frame.count + new->frame.count > SPATIALJOIN_MOST_RECORDS ||
           held->walk.notes.levels >= MOST_LEVELS || new->walk.notes.levels >= MOST_LEVELS;
}

int64_t plain_merge(const uint8_t *restrict bytes, size_t length, uint8_t *restrict plan, size_t plan_len, size_t n,
                    uint8_t *restrict scratch, size_t scratch_len, spatialjoin_node *restrict table, size_t table_len)
{
    struct rows new, held;
    const size_t merged = n + length - 1;
    uint32_t nodes;
    int refusal = read_rows(&new, bytes, length);
    if (RARE(refusal)) {
        return -refusal;
    }
    refusal = held_refusal(plan_len, n);
    if (RARE(refusal)) {
        return -refusal;
    }
    if (RARE(plan[0] != SPATIALJOIN_FRAME)) {
        struct extraction other;
        return is_extraction(plan, n, &other, &held.walk) ? SPATIALJOIN_ALREADY_EXTRACTED : SPATIALJOIN_NO_GOOD_PLAN;
    }
    if (RARE(read_rows(&held, plan, n))) {
        return SPATIALJOIN_NO_GOOD_PLAN;
    }
    nodes = 1 + held.frame.nodes + new.frame.nodes;
    if (RARE(merged_too_large(&held, &new, merged, nodes))) {
        return SPATIALJOIN_MERGED_TOO_LARGE;
    }
    if (RARE(scratch_len < n || plan_len < merged)) {
        return SPATIALJOIN_TOO_SHORT;
    }
    if (RARE(table_len < nodes)) {
        return SPATIALJOIN_TABLE_TOO_SHORT;
    }
    memcpy(scratch, plan, n);
    held.bytes = scratch;
    return write_merged(plan, &held, &new, table);
}
