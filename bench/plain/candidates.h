/* Conjuncts whose name is looked for, and whether they match under the settings. */
#ifndef PLAIN_CANDIDATES_H
#define PLAIN_CANDIDATES_H

#include "exprs.h"

enum { ALLOWS_RELATIONS = SPATIALJOIN_RELATIONS, ALLOWS_DISTANCES = SPATIALJOIN_DISTANCES, ALLOWS_KNNS = SPATIALJOIN_KNNS };

struct settings {
    uint32_t kinds, default_k, greatest_k;
};

TEMPLATE int are_good(struct settings set)
{
    return set.kinds - 1 < SPATIALJOIN_ALL_KINDS && set.default_k > 0 && set.default_k <= set.greatest_k;
}

/* An argument, from its first byte to past its last, and its columns among those that were noted. */
struct argument {
    uint16_t from, to, column, column_end;
};

/* A conjunct whose name is looked for: two geometries, then the bound of a distance; the sides of their columns; and what follows the
 * geometries of a KNN. */
struct candidate {
    uint32_t name, form, arguments;
    struct argument of[3];
    uint32_t sides[3];
    const uint8_t *flags;
};

/* A conjunct that matches: what its extraction has, and where it stands. */
struct match {
    uint8_t first, type, side, spheroid, ties;
    uint32_t k;
    uint16_t position, leaf, leaf_end, parent;
    struct argument of[3];
};

/* ---- whether a candidate matches */

/* The type of a literal; of anything else that of a null, which is no number and no flag either. */
TEMPLATE uint32_t literal_type(const uint8_t *at)
{
    return at[0] == SPATIALJOIN_NODE_LITERAL ? at[1] : SPATIALJOIN_LITERAL_NULL;
}

TEMPLATE int is_number(const uint8_t *at)
{
    return literal_type(at) >= SPATIALJOIN_LITERAL_INT32 && literal_type(at) <= SPATIALJOIN_LITERAL_UINT64;
}

TEMPLATE int is_flag(const uint8_t *at)
{
    return literal_type(at) == SPATIALJOIN_LITERAL_BOOLEAN;
}

/* k and flags of a KNN: a literal has ten bytes, so after one that is good the next argument starts ten bytes on. */
static int knn_matches(const struct candidate *leaf, struct settings set, struct match *found)
{
    const uint8_t *flags = leaf->flags;
    uint64_t k = set.default_k; /* a negative one is above the greatest too */
    if (leaf->arguments > 2) {
        if (!is_number(flags)) {
            return 0;
        }
        k = number_of_eight(flags + 2);
    }
    if (k - 1 >= set.greatest_k || !(set.kinds & ALLOWS_KNNS) || (leaf->arguments > 3 && !is_flag(flags + 10)) ||
        (leaf->arguments > 4 && !is_flag(flags + 20))) {
        return 0;
    }
    found->first = SPATIALJOIN_KNN;
    found->k = (uint32_t)k;
    found->spheroid = leaf->arguments > 3 ? flags[10 + 9] : 0;
    found->ties = leaf->arguments > 4 ? flags[20 + 9] : SPATIALJOIN_TIES_ABSENT;
    return 1;
}

TEMPLATE int side_of_bits(uint32_t sides)
{
    return sides == LEFT_BIT ? SPATIALJOIN_LEFT : sides == RIGHT_BIT ? SPATIALJOIN_RIGHT : SPATIALJOIN_NO_SIDE;
}

/* Whether it does; then what stands in its extraction. */
static inline int leaf_matches(const struct candidate *leaf, struct settings set, struct match *found)
{
    const int in_order = leaf->sides[0] == LEFT_BIT && leaf->sides[1] == RIGHT_BIT;
    int first = in_order ? 0 : 1;
    if (!in_order && !(leaf->sides[0] == RIGHT_BIT && leaf->sides[1] == LEFT_BIT)) {
        return 0;
    }
    if (leaf->name == KNN) {
        if (!knn_matches(leaf, set, found)) {
            return 0;
        }
        found->side = (uint8_t)first;
        first = 0;
    } else if (leaf->name == DWITHIN) {
        if (leaf->sides[2] > RIGHT_BIT || !(set.kinds & ALLOWS_DISTANCES)) {
            return 0;
        }
        found->first = SPATIALJOIN_DISTANCE;
        found->type = (uint8_t)leaf->form;
        found->side = (uint8_t)side_of_bits(leaf->sides[2]);
        found->of[2] = leaf->of[2];
    } else {
        if (!(set.kinds & ALLOWS_RELATIONS)) {
            return 0;
        }
        found->first = SPATIALJOIN_RELATION;
        found->type = in_order ? relation_type[leaf->name] : inverse[relation_type[leaf->name]];
    }
    found->of[0] = leaf->of[first];
    found->of[1] = leaf->of[1 - first];
    return 1;
}

#endif
