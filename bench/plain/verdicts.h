/* Why a conjunct is indexed or is not: the first reason, in the order of enum spatialjoin_verdict. */
#ifndef PLAIN_VERDICTS_H
#define PLAIN_VERDICTS_H

#include "candidates.h"

/* ---- of a candidate */

/* The sides of a geometry: columns of one child, or why not, counted from the first reason. */
TEMPLATE int geometry_verdict(uint32_t sides, int first_reason)
{
    return sides == 0 ? first_reason : (sides & 3) == 3 ? first_reason + 1 : sides & MARK_BIT ? first_reason + 2 : 0;
}

static int geometries_verdict(const struct candidate *leaf)
{
    int verdict = geometry_verdict(leaf->sides[0], SPATIALJOIN_FIRST_WITHOUT_COLUMNS);
    if (verdict == 0) {
        verdict = geometry_verdict(leaf->sides[1], SPATIALJOIN_SECOND_WITHOUT_COLUMNS);
    }
    if (verdict == 0 && leaf->sides[0] == leaf->sides[1]) {
        verdict = leaf->sides[0] == LEFT_BIT ? SPATIALJOIN_BOTH_LEFT : SPATIALJOIN_BOTH_RIGHT;
    }
    return verdict;
}

static int k_verdict(const uint8_t *at, uint32_t greatest_k)
{
    uint64_t k;
    if (!is_number(at)) {
        return SPATIALJOIN_K_NO_NUMBER;
    }
    k = number_of_eight(at + 2);
    if (k == 0 || (literal_type(at) <= SPATIALJOIN_LITERAL_INT64 && k >> 63 == 1)) {
        return SPATIALJOIN_K_BELOW_ONE;
    }
    return k > greatest_k ? SPATIALJOIN_K_ABOVE_GREATEST : 0;
}

static int knn_verdict(const struct candidate *leaf, uint32_t greatest_k)
{
    int verdict = geometries_verdict(leaf);
    if (verdict == 0 && leaf->arguments > 2) {
        verdict = k_verdict(leaf->flags, greatest_k);
    }
    if (verdict == 0 && leaf->arguments > 3 && !is_flag(leaf->flags + 10)) {
        verdict = SPATIALJOIN_SPHEROID_NO_FLAG;
    }
    if (verdict == 0 && leaf->arguments > 4 && !is_flag(leaf->flags + 20)) {
        verdict = SPATIALJOIN_TIES_NO_FLAG;
    }
    return verdict ? verdict : SPATIALJOIN_AS_KNN;
}

static int distance_verdict(const struct candidate *leaf)
{
    const int verdict = geometries_verdict(leaf);
    if (verdict) {
        return verdict;
    }
    if ((leaf->sides[2] & 3) == 3) {
        return SPATIALJOIN_BOUND_OF_BOTH;
    }
    return leaf->sides[2] & MARK_BIT ? SPATIALJOIN_BOUND_WITH_MARK : SPATIALJOIN_AS_DISTANCE;
}

/* Of one that has enough arguments, and not too many. */
static int candidate_verdict(const struct candidate *leaf, struct settings set)
{
    int verdict;
    if (leaf->name == KNN) {
        return set.kinds & ALLOWS_KNNS ? knn_verdict(leaf, set.greatest_k) : SPATIALJOIN_KIND_LEFT_OUT;
    }
    if (leaf->name == DWITHIN) {
        return set.kinds & ALLOWS_DISTANCES ? distance_verdict(leaf) : SPATIALJOIN_KIND_LEFT_OUT;
    }
    if (!(set.kinds & ALLOWS_RELATIONS)) {
        return SPATIALJOIN_KIND_LEFT_OUT;
    }
    verdict = geometries_verdict(leaf);
    return verdict ? verdict : SPATIALJOIN_AS_RELATION;
}

/* ---- of any other conjunct */

TEMPLATE int is_comparison(uint32_t operator)
{
    return operator - 1 < SPATIALJOIN_OPERATOR_GT_EQ;
}

/* st_distance in any letter case. */
static int is_distance_call(const uint8_t *at)
{
    return at[0] == SPATIALJOIN_NODE_FUNCTION && is_distance_name(at + 2, at[1], ANY_CASE);
}

/* Past the expression that starts here, which is good. */
static const uint8_t *past_expr(const uint8_t *at)
{
    uint32_t to_come = 1;
    while (to_come-- > 0) {
        switch (*at) {
        case SPATIALJOIN_NODE_COLUMN: at += 5; break;
        case SPATIALJOIN_NODE_LITERAL: at += 10; break;
        case SPATIALJOIN_NODE_BINARY: at += 2, to_come += 2; break;
        case SPATIALJOIN_NODE_FUNCTION: at += at[1] + 3, to_come += at[-1]; break;
        default: at += 4, to_come += at[-1]; break;
        }
    }
    return at;
}

/* Whether it would be meant for a line of the price list if its name were in small letters. */
static int is_meant(const uint8_t *at)
{
    if (at[0] == SPATIALJOIN_NODE_FUNCTION) {
        return which_name(at + 2, at[1], ANY_CASE) != NO_NAME;
    }
    if (at[0] != SPATIALJOIN_NODE_BINARY || !is_comparison(at[1])) {
        return 0;
    }
    return is_distance_call(at[1] <= SPATIALJOIN_OPERATOR_LT_EQ ? at + 2 : past_expr(at + 2));
}

static int has_one_below(const uint8_t *const *child, uint32_t children)
{
    uint32_t i;
    for (i = 0; i < children; i++) {
        if (is_meant(child[i])) {
            return SPATIALJOIN_INSIDE_ANOTHER;
        }
    }
    return SPATIALJOIN_NOTHING_OF_OURS;
}

/* Of a binary node that is not meant for a line, over these two. */
static int binary_verdict(uint32_t operator, const uint8_t *const *child)
{
    if (is_comparison(operator)) {
        const int looked_at = operator > SPATIALJOIN_OPERATOR_LT_EQ;
        if (is_distance_call(child[looked_at])) {
            return SPATIALJOIN_OTHER_CASE;
        }
        if (is_distance_call(child[1 - looked_at])) {
            return SPATIALJOIN_OTHER_SIDE;
        }
    } else if (is_distance_call(child[0]) || is_distance_call(child[1])) {
        return SPATIALJOIN_OTHER_OPERATOR;
    }
    return has_one_below(child, 2);
}

/* Of a call that is no candidate: it is not meant for a line, or is a KNN of too few or too many arguments. */
static int call_verdict(const uint8_t *at, const uint8_t *const *child, uint32_t arguments, uint32_t name, struct settings set)
{
    if (name == KNN) {
        return !(set.kinds & ALLOWS_KNNS) ? SPATIALJOIN_KIND_LEFT_OUT
               : arguments < 2            ? SPATIALJOIN_FEWER_ARGUMENTS
                                          : SPATIALJOIN_MORE_ARGUMENTS;
    }
    return which_name(at + 2, at[1], ANY_CASE) != NO_NAME ? SPATIALJOIN_OTHER_CASE : has_one_below(child, arguments);
}

#endif
