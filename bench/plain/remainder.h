/* What is left of a filter without the conjuncts that were taken, and with the records that it still needs; and predicates. */
#ifndef PLAIN_REMAINDER_H
#define PLAIN_REMAINDER_H

#include "frames.h"

/* ---- a predicate */

/* An argument with the child indexes of its columns: all of a frame's bytes are read from `old`. */
static inline uint8_t *write_argument(uint8_t *to, const uint8_t *old, const struct notes *notes, const struct argument *argument)
{
    const uint8_t *records = old + 3;
    const uint32_t length = (uint32_t)argument->to - argument->from;
    uint32_t c;
    memcpy(to, old + argument->from, length);
    for (c = argument->column; c < argument->column_end; c++) {
        const uint32_t at = notes->column[c];
        memcpy(to + (at - argument->from) + 1, records + RECORD * number_of_two(old + at + 1) + 1, 2);
    }
    return to + length;
}

static inline uint8_t *write_predicate(uint8_t *to, const uint8_t *old, const struct notes *notes, const struct match *taken)
{
    to[0] = taken->first;
    put_two(to + 1, taken->position);
    to += 3;
    if (taken->first == SPATIALJOIN_KNN) {
        put_four(to, taken->k);
        to[4] = taken->spheroid;
        to[5] = taken->side;
        to[6] = taken->ties;
        to += 7;
    } else {
        *to++ = taken->type;
        if (taken->first == SPATIALJOIN_DISTANCE) {
            *to++ = taken->side;
        }
    }
    to = write_argument(to, old, notes, &taken->of[0]);
    to = write_argument(to, old, notes, &taken->of[1]);
    return taken->first == SPATIALJOIN_DISTANCE ? write_argument(to, old, notes, &taken->of[2]) : to;
}

/* ---- records */

/* Which records stay, and which number each that stays gets. */
struct pruning {
    const uint8_t *records;
    uint32_t count, referenced;
    uint8_t is_referenced[SPATIALJOIN_MOST_RECORDS];
    uint8_t number[SPATIALJOIN_MOST_RECORDS];
};

/* Side and child index of a record as one number; never 0. */
TEMPLATE uint32_t record_key(const struct pruning *pruning, uint32_t i)
{
    const uint8_t *record = pruning->records + RECORD * i;
    return 1 + ((uint32_t)record[0] << 16 | number_of_two(record + 1));
}

/* Puts a record that stays after those before it. */
TEMPLATE uint32_t keep_record(struct pruning *pruning, uint32_t i, uint8_t *to, uint32_t kept, int stays)
{
    pruning->number[i] = (uint8_t)kept;
    if (stays) {
        memcpy(to + RECORD * kept, pruning->records + RECORD * i, RECORD);
        kept++;
    }
    return kept;
}

/* At most so many records are compared with all that are referenced. */
enum { FEW_RECORDS = 16 };

static inline uint32_t prune_few(struct pruning *pruning, uint8_t *to)
{
    uint32_t key[FEW_RECORDS], keys = 0, i, k, kept = 0;
    for (i = 0; i < pruning->count; i++) {
        if (pruning->is_referenced[i]) {
            key[keys++] = record_key(pruning, i);
        }
    }
    for (i = 0; i < pruning->count; i++) {
        int stays = pruning->is_referenced[i];
        for (k = 0; k < keys && !stays; k++) {
            stays = key[k] == record_key(pruning, i);
        }
        kept = keep_record(pruning, i, to, kept, stays);
    }
    return kept;
}

/* The keys of the referenced records, in open addresses. */
struct key_set {
    uint32_t mask, shift;
    uint32_t key[4 * SPATIALJOIN_MOST_RECORDS];
};

/* Where a key is, or would be. */
TEMPLATE uint32_t key_place(const struct key_set *set, uint32_t key)
{
    uint32_t place = (key * 2654435769u) >> set->shift;
    while (set->key[place] && set->key[place] != key) {
        place = (place + 1) & set->mask;
    }
    return place;
}

static void fill_keys(struct key_set *set, const struct pruning *pruning)
{
    uint32_t i, bits = 4;
    while (1u << bits < 2 * pruning->referenced + 2) {
        bits++;
    }
    set->mask = (1u << bits) - 1;
    set->shift = 32 - bits;
    memset(set->key, 0, sizeof *set->key << bits);
    for (i = 0; i < pruning->count; i++) {
        if (pruning->is_referenced[i]) {
            const uint32_t key = record_key(pruning, i);
            set->key[key_place(set, key)] = key;
        }
    }
}

/* Most records that are not referenced differ from all that are in the last byte of their child index: only the others are looked for. */
static uint32_t prune_many(struct pruning *pruning, uint8_t *to)
{
    struct key_set set;
    uint8_t last_byte[256];
    uint32_t i, kept = 0;
    int filled = 0;
    memset(last_byte, 0, sizeof last_byte);
    for (i = 0; i < pruning->count; i++) {
        last_byte[pruning->records[RECORD * i + 2]] |= pruning->is_referenced[i];
    }
    for (i = 0; i < pruning->count; i++) {
        int stays = pruning->is_referenced[i];
        if (!stays && last_byte[pruning->records[RECORD * i + 2]]) {
            if (!filled) {
                fill_keys(&set, pruning);
                filled = 1;
            }
            stays = set.key[key_place(&set, record_key(pruning, i))] != 0;
        }
        kept = keep_record(pruning, i, to, kept, stays);
    }
    return kept;
}

/* Writes the records that stay, and gives how many they are. */
static inline uint32_t prune(struct pruning *pruning, uint8_t *to)
{
    if (pruning->referenced == pruning->count) {
        memcpy(to, pruning->records, RECORD * pruning->count);
        return pruning->count;
    }
    return pruning->count <= FEW_RECORDS ? prune_few(pruning, to) : prune_many(pruning, to);
}

/* ---- the remainder */

/* What it is written from: a frame's bytes, and the parts of its filter that do not stay, from left to right. */
struct leftover {
    const uint8_t *old;
    uint32_t length, filter, count;
    const struct notes *notes;
    const struct gap *gap;
    uint32_t gaps;
};

TEMPLATE uint32_t index_of_column(const struct leftover *rest, uint32_t c)
{
    return number_of_two(rest->old + rest->notes->column[c] + 1);
}

/* Past the columns before this place. */
TEMPLATE uint32_t columns_before(const struct leftover *rest, uint32_t c, uint32_t place)
{
    while (c < rest->notes->columns && rest->notes->column[c] < place) {
        c++;
    }
    return c;
}

/* Which records the columns that stay reference. */
static inline void mark_referenced(const struct leftover *rest, struct pruning *pruning)
{
    uint32_t g, i, c = 0;
    pruning->records = rest->old + 3;
    pruning->count = rest->count;
    pruning->referenced = 0;
    memset(pruning->is_referenced, 0, rest->count);
    for (g = 0; g <= rest->gaps; g++) {
        const uint32_t stop = g < rest->gaps ? rest->gap[g].from : rest->length;
        for (; c < rest->notes->columns && rest->notes->column[c] < stop; c++) {
            pruning->is_referenced[index_of_column(rest, c)] = 1;
        }
        if (g < rest->gaps) {
            c = columns_before(rest, c, rest->gap[g].to);
        }
    }
    for (i = 0; i < rest->count; i++) {
        pruning->referenced += pruning->is_referenced[i];
    }
}

/* The filter without its gaps, its columns by their new numbers if some records went. */
static inline uint8_t *write_filter(uint8_t *to, const struct leftover *rest, const struct pruning *pruning, int renumbers)
{
    uint32_t g, c = 0, from = rest->filter;
    for (g = 0; g <= rest->gaps; g++) {
        const uint32_t stop = g < rest->gaps ? rest->gap[g].from : rest->length;
        if (g < rest->gaps && rest->gap[g].to == stop) {
            continue;
        }
        memcpy(to, rest->old + from, stop - from);
        for (; renumbers && c < rest->notes->columns && rest->notes->column[c] < stop; c++) {
            put_two(to + (rest->notes->column[c] - from) + 1, pruning->number[index_of_column(rest, c)]);
        }
        to += stop - from;
        if (g < rest->gaps) {
            from = rest->gap[g].to;
            c = columns_before(rest, c, from);
        }
    }
    return to;
}

/* A physical frame; gives where it ends. */
static uint8_t *write_remainder(uint8_t *to, const struct leftover *rest)
{
    struct pruning pruning;
    uint32_t kept;
    mark_referenced(rest, &pruning);
    kept = prune(&pruning, to + 3);
    to[0] = SPATIALJOIN_FRAME;
    put_two(to + 1, kept);
    return write_filter(to + 3 + RECORD * kept, rest, &pruning, kept != rest->count);
}

#endif
