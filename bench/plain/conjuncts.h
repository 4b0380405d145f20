/* The walk over And nodes to the conjuncts of a filter, and what it makes of each: whether it lacks arguments (8), whether it matches
 * (candidates.h), or why it does not (verdicts.h). */
#ifndef PLAIN_CONJUNCTS_H
#define PLAIN_CONJUNCTS_H

#include "verdicts.h"

/* What the walk is for, beside what the pass notes. */
enum {
    PICK = 64,  /* the conjunct that extract takes */
    ALL = 128,  /* all that match */
    WHY = 256,  /* a verdict for each */
    NAMES = 512 /* the spatial names and the query side of a logical frame */
};

/* A part of the filter that does not stay. */
struct gap {
    uint16_t from, to;
};

/* All that a walk finds. */
struct walk {
    struct notes notes;
    struct settings set;
    uint32_t leaves;      /* conjuncts so far */
    uint32_t lacks;       /* some conjunct has too few arguments */
    uint32_t effort;      /* PICK: And nodes and conjuncts up to the first KNN match */
    uint32_t matches;     /* PICK: 0 or 1; ALL: so many */
    uint32_t is_knn;      /* PICK: whether that one is a KNN */
    uint32_t gaps;        /* ALL: one for each And, which may be empty, and one for each match */
    uint32_t names, side; /* NAMES: the mask, and the query side */
    struct match match[MOST_NODES / 4 + 1]; /* one that matches has three nodes and an And above it, but for one */
    struct gap gap[MOST_NODES];
    uint8_t verdict[MOST_NODES];
};

/* ---- a conjunct */

/* A node that the walk reads itself, and not the pass: whether the table has it, but for its end. */
TEMPLATE int open_node(struct walk *walk, long node, const uint8_t *at, const int what)
{
    struct notes *notes = &walk->notes;
    if (what & ROWS) {
        notes->row[node].start = (uint16_t)offset(notes, at);
    }
    return !(what & TABLED) || (node < notes->most && notes->table[node].kind == *at && notes->table[node].start == offset(notes, at));
}

/* And whether it has the end. */
TEMPLATE int close_node(struct walk *walk, long node, const uint8_t *after, const int what)
{
    struct notes *notes = &walk->notes;
    if (what & ROWS) {
        notes->row[node].end = (uint16_t)offset(notes, after);
    }
    return !(what & TABLED) || notes->table[node].end == offset(notes, after);
}

/* What one walk has in common for all of its conjuncts, and where this one is. */
struct site {
    struct walk *walk;
    const uint8_t *end;
    uint32_t bound, level;
    const uint8_t *parent;
};

/* Further expressions below a node of this level. */
TEMPLATE struct place below(struct place from, const struct site *site, uint32_t level, uint32_t many, const int what)
{
    return exprs(from, site->end, level + 1, many, site->bound, &site->walk->notes, what);
}

/* The next argument of a candidate, below a node of this level. */
TEMPLATE struct place next_argument(struct place from, const struct site *site, uint32_t level, struct candidate *leaf, uint32_t which,
                                    const int what)
{
    struct notes *notes = &site->walk->notes;
    leaf->of[which].from = (uint16_t)offset(notes, from.at);
    leaf->of[which].column = (uint16_t)notes->columns;
    from = below(from, site, level, 1, what);
    if (from.at) {
        leaf->sides[which] = notes->sides;
        leaf->of[which].to = (uint16_t)offset(notes, from.at);
        leaf->of[which].column_end = (uint16_t)notes->columns;
    }
    return from;
}

/* A candidate that was read: one that matches is noted. */
TEMPLATE int take(const struct site *site, const struct candidate *leaf, const uint8_t *at, const uint8_t *after, const int what)
{
    struct walk *walk = site->walk;
    struct match *found = walk->match + (what & ALL ? walk->matches : 0);
    if (!leaf_matches(leaf, walk->set, found)) {
        return 0;
    }
    found->position = (uint16_t)walk->leaves;
    found->leaf = (uint16_t)offset(&walk->notes, at);
    found->leaf_end = (uint16_t)offset(&walk->notes, after);
    found->parent = (uint16_t)offset(&walk->notes, site->parent);
    walk->matches = what & ALL ? walk->matches + 1 : 1;
    if (what & PICK && leaf->name == KNN) {
        walk->is_knn = 1;
        walk->effort++;
    }
    return 1;
}

/* Whether a conjunct of this name could still be what is looked for. */
TEMPLATE int is_wanted(const struct walk *walk, uint32_t name, uint32_t arguments, const int what)
{
    if (name == NO_NAME || arguments < 2 || arguments < arguments_needed(name) || (name == KNN && arguments > 5)) {
        return 0;
    }
    return !(what & PICK) || (name == KNN ? !walk->is_knn : walk->matches == 0);
}

/* What becomes of a conjunct: of ALL, a part that does not stay; of WHY, a verdict. */
TEMPLATE void judged(const struct site *site, const struct candidate *leaf, const uint8_t *at, const uint8_t *after, const int what)
{
    struct walk *walk = site->walk;
    if (what & WHY) {
        walk->verdict[walk->leaves] = (uint8_t)candidate_verdict(leaf, walk->set);
    }
    if (what & (PICK | ALL) && take(site, leaf, at, after, what) && what & ALL) {
        walk->gap[walk->gaps].from = (uint16_t)offset(&walk->notes, at);
        walk->gap[walk->gaps++].to = (uint16_t)offset(&walk->notes, after);
    }
}

/* The arguments of a call that is wanted. */
TEMPLATE struct place read_candidate(struct place from, const struct site *site, uint32_t name, uint32_t arguments, const uint8_t *at,
                                     const int what)
{
    struct candidate leaf;
    uint32_t left = arguments - 2;
    leaf.name = name;
    leaf.form = SPATIALJOIN_FORM_DWITHIN;
    leaf.arguments = arguments;
    leaf.sides[2] = 0;
    from = next_argument(from, site, site->level, &leaf, 0, what);
    if (RARE(!from.at)) {
        return from;
    }
    from = next_argument(from, site, site->level, &leaf, 1, what);
    if (RARE(!from.at)) {
        return from;
    }
    leaf.flags = from.at;
    if (name == DWITHIN) {
        from = next_argument(from, site, site->level, &leaf, 2, what);
        left--;
    }
    if (left > 0 && from.at) {
        from = below(from, site, site->level, left, what);
    }
    if (from.at) {
        judged(site, &leaf, at, from.at, what);
    }
    return from;
}

/* Of a logical frame: the bit of a name, and of the first KNN the schema that has all columns of its first argument. */
TEMPLATE struct place read_named(struct place from, const struct site *site, uint32_t name, uint32_t arguments)
{
    struct walk *walk = site->walk;
    const uint32_t seen = walk->names;
    walk->names |= name == NO_NAME ? 0 : 1u << name;
    if (name == KNN && !(seen >> KNN & 1) && arguments > 0) {
        from = below(from, site, site->level, 1, LOGICAL);
        walk->side = (uint32_t)side_of_bits(walk->notes.sides);
        arguments--;
    }
    return from.at && arguments > 0 ? below(from, site, site->level, arguments, LOGICAL) : from;
}

TEMPLATE struct place read_call(struct place from, const struct site *site, const int what)
{
    struct walk *walk = site->walk;
    const uint8_t *at = from.at;
    const int refusal = function_refusal(at, (size_t)(site->end - at));
    uint32_t name, arguments;
    if (RARE(refusal)) {
        return refused(refusal);
    }
    from.at += at[1] + 3;
    from.nodes++;
    arguments = from.at[-1];
    name = which_name(at + 2, at[1], what & NAMES ? ANY_CASE : EXACTLY);
    if (what & NAMES) {
        return read_named(from, site, name, arguments);
    }
    walk->lacks |= arguments < arguments_needed(name);
    if (what & (PICK | ALL | WHY) && is_wanted(walk, name, arguments, what)) {
        return read_candidate(from, site, name, arguments, at, what);
    }
    if (arguments > 0) {
        from = below(from, site, site->level, arguments, what & WHY ? CHILDREN : what);
    }
    if (what & WHY && from.at) {
        walk->verdict[walk->leaves] = (uint8_t)call_verdict(at, walk->notes.child, arguments, name, walk->set);
    }
    return from;
}

/* The side of a comparison that is looked at, where a call of st_distance stands there: its geometries. */
TEMPLATE struct place read_distance(struct place from, const struct site *site, struct candidate *leaf, const int what)
{
    struct walk *walk = site->walk;
    const uint8_t *at = from.at;
    const long node = from.nodes;
    leaf->arguments = at[13];
    if (RARE(node >= MOST_NODES || site->level + 1 > MOST_LEVELS)) {
        return refused(5);
    }
    if (RARE(leaf->arguments > SPATIALJOIN_MOST_ARGUMENTS)) {
        return refused(4);
    }
    if (RARE(!open_node(walk, node, at, what))) {
        return refused(10);
    }
    from.at += 14;
    from.nodes++;
    walk->lacks |= leaf->arguments < 2;
    if (leaf->arguments < 2) {
        return leaf->arguments ? below(from, site, site->level + 1, 1, what) : from;
    }
    from = next_argument(from, site, site->level + 1, leaf, 0, what);
    if (from.at) {
        from = next_argument(from, site, site->level + 1, leaf, 1, what);
    }
    if (from.at && leaf->arguments > 2) {
        from = below(from, site, site->level + 1, leaf->arguments - 2, what);
    }
    return from.at && RARE(!close_node(walk, node, from.at, what)) ? refused(10) : from;
}

/* A comparison that could be looked for: its sides, of which one may be a distance and the other its bound. */
TEMPLATE struct place read_comparison(struct place from, const struct site *site, uint32_t operator, const int what)
{
    const uint8_t *at = from.at - 2, *child[2];
    const uint32_t looked_at = operator > SPATIALJOIN_OPERATOR_LT_EQ;
    struct candidate leaf;
    uint32_t side;
    leaf.name = NO_NAME;
    leaf.form = operator;
    leaf.sides[0] = leaf.sides[1] = leaf.sides[2] = 0;
    for (side = 0; side < 2; side++) {
        const uint8_t *start = child[side] = from.at;
        if (side != looked_at) {
            from = next_argument(from, site, site->level, &leaf, 2, what);
        } else if (site->end - start >= 14 && start[0] == SPATIALJOIN_NODE_FUNCTION && is_distance_name(start + 2, start[1], EXACTLY)) {
            leaf.name = DWITHIN;
            from = read_distance(from, site, &leaf, what);
        } else {
            from = below(from, site, site->level, 1, what);
        }
        if (RARE(!from.at)) {
            return from;
        }
    }
    if (leaf.name == DWITHIN) {
        judged(site, &leaf, at, from.at, what);
    } else if (what & WHY) {
        site->walk->verdict[site->walk->leaves] = (uint8_t)binary_verdict(operator, child);
    }
    return from;
}

ONCE struct place pick_comparison(struct place from, const struct site *site, uint32_t operator)
{
    return read_comparison(from, site, operator, PICK | TABLED | COLUMNS | SIDES);
}

ONCE struct place all_comparison(struct place from, const struct site *site, uint32_t operator)
{
    return read_comparison(from, site, operator, ALL | COLUMNS | SIDES);
}

ONCE struct place why_comparison(struct place from, const struct site *site, uint32_t operator)
{
    return read_comparison(from, site, operator, WHY | SIDES);
}

/* A comparison in which nothing is looked for but a distance that lacks arguments, or in a logical frame one. */
TEMPLATE struct place pass_comparison(struct place from, const struct site *site, uint32_t operator, const int what)
{
    const uint8_t *looked_at = from.at;
    from = below(from, site, site->level, 1, what);
    if (RARE(!from.at)) {
        return from;
    }
    if (operator > SPATIALJOIN_OPERATOR_LT_EQ) {
        looked_at = from.at;
    }
    from = below(from, site, site->level, 1, what);
    if (from.at && looked_at[0] == SPATIALJOIN_NODE_FUNCTION &&
        is_distance_name(looked_at + 2, looked_at[1], what & NAMES ? ANY_CASE : EXACTLY)) {
        if (what & NAMES) {
            site->walk->names |= SPATIALJOIN_ST_DWITHIN;
        } else {
            site->walk->lacks |= looked_at[13] < 2;
        }
    }
    return from;
}

/* Of an operator other than And. */
TEMPLATE struct place read_binary(struct place from, const struct site *site, const int what)
{
    struct walk *walk = site->walk;
    const uint32_t operator = from.at[1];
    from.at += 2;
    from.nodes++;
    if (!is_comparison(operator)) {
        from = below(from, site, site->level, 2, what & WHY ? CHILDREN : what);
        if (what & WHY && from.at) {
            walk->verdict[walk->leaves] = (uint8_t)binary_verdict(operator, walk->notes.child);
        }
        return from;
    }
    if (what & WHY) {
        return why_comparison(from, site, operator);
    }
    if (what & ALL) {
        return all_comparison(from, site, operator);
    }
    return what & PICK && walk->matches == 0 ? pick_comparison(from, site, operator) : pass_comparison(from, site, operator, what);
}

/* A column, a literal or another node. */
TEMPLATE struct place read_other(struct place from, const struct site *site, const int what)
{
    struct walk *walk = site->walk;
    const uint8_t *at = from.at;
    const uint32_t children = what & WHY && at[0] == SPATIALJOIN_NODE_OTHER && site->end - at >= 4 ? at[3] : 0;
    if (children > 0 && children <= SPATIALJOIN_MOST_ARGUMENTS) {
        from.at += 4;
        from.nodes++;
        from = below(from, site, site->level, children, CHILDREN);
    } else {
        from = exprs(from, site->end, site->level, 1, site->bound, &walk->notes, what & WHY ? CHECK : what);
    }
    if (what & WHY && from.at) {
        walk->verdict[walk->leaves] = (uint8_t)has_one_below(walk->notes.child, children);
    }
    return from;
}

TEMPLATE struct place read_conjunct(struct place from, const struct site *site, const int what)
{
    const uint8_t *at = from.at;
    const long node = from.nodes;
    if (*at != SPATIALJOIN_NODE_BINARY && *at != SPATIALJOIN_NODE_FUNCTION) {
        return read_other(from, site, what);
    }
    if (RARE(!open_node(site->walk, node, at, what))) {
        return refused(10);
    }
    from = *at == SPATIALJOIN_NODE_BINARY ? read_binary(from, site, what) : read_call(from, site, what);
    return from.at && RARE(!close_node(site->walk, node, from.at, what)) ? refused(10) : from;
}

/* ---- the walk */

/* An And node that is open. */
struct open_and {
    const uint8_t *at;
    uint32_t node, gap;
    uint16_t level;
    uint8_t is_right, stays; /* which child is read; whether of ALL the left one stays */
};

/* Before anything of a node is read but its kind, and of a binary one its operator. */
TEMPLATE int node_refusal(struct place from, const struct site *site, const int what)
{
    if (RARE(from.at >= site->end)) {
        return 3;
    }
    if (RARE(!is_kind(*from.at, what))) {
        return 4;
    }
    if (RARE(from.nodes >= MOST_NODES || site->level > MOST_LEVELS)) {
        return 5;
    }
    return *from.at == SPATIALJOIN_NODE_BINARY ? binary_refusal(from.at, (size_t)(site->end - from.at)) : 0;
}

TEMPLATE int start_and(struct walk *walk, struct open_and *and, struct place from, uint32_t level, const int what)
{
    and->at = from.at;
    and->node = (uint32_t)from.nodes;
    and->level = (uint16_t)level;
    and->is_right = 0;
    if (what & PICK) {
        walk->effort += !walk->is_knn;
    }
    if (what & ALL) {
        and->gap = walk->gaps++;
        walk->gap[and->gap].from = walk->gap[and->gap].to = (uint16_t)offset(&walk->notes, from.at);
    }
    if (what & ROWS && level + 1 > walk->notes.levels) {
        walk->notes.levels = level + 1;
    }
    return open_node(walk, (long)and->node, from.at, what);
}

/* Both children were read. Of ALL an And goes unless both stay; and something of it stays if one of them does. */
TEMPLATE int finish_and(struct walk *walk, const struct open_and *and, const uint8_t *after, uint32_t *stays, const int what)
{
    if (what & ALL) {
        walk->gap[and->gap].to = (uint16_t)(walk->gap[and->gap].to + (*stays & and->stays ? 0 : 2));
        *stays |= and->stays;
    }
    return close_node(walk, (long)and->node, after, what);
}

/* The filter that starts here, up to the frame's end. */
TEMPLATE struct place read_filter(struct place from, const uint8_t *end, uint32_t bound, struct walk *walk, const int what)
{
    struct open_and and[MOST_LEVELS + 2];
    uint32_t open = 0, stays;
    struct site site = {walk, end, bound, 1, from.at};
    for (;;) {
        const int refusal = node_refusal(from, &site, what);
        if (RARE(refusal)) {
            return refused(refusal);
        }
        if (*from.at == SPATIALJOIN_NODE_BINARY && from.at[1] == SPATIALJOIN_OPERATOR_AND) {
            if (RARE(!start_and(walk, and + open, from, site.level, what))) {
                return refused(10);
            }
            open++;
            site.parent = from.at;
            site.level++;
            from.at += 2;
            from.nodes++;
            continue;
        }
        stays = walk->matches;
        from = read_conjunct(from, &site, what);
        if (RARE(!from.at)) {
            return from;
        }
        stays = stays == walk->matches;
        walk->leaves++;
        if (what & PICK) {
            walk->effort += !walk->is_knn;
        }
        while (open > 0 && and[open - 1].is_right) {
            open--;
            if (RARE(!finish_and(walk, and + open, from.at, &stays, what))) {
                return refused(10);
            }
        }
        if (open == 0) {
            return from;
        }
        and[open - 1].is_right = 1;
        and[open - 1].stays = (uint8_t)stays;
        site.parent = and[open - 1].at;
        site.level = and[open - 1].level + 1u;
    }
}

#endif
