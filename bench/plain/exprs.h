/* The pass over expressions: one loop, which checks them and notes what a call needs to know. */
#ifndef PLAIN_EXPRS_H
#define PLAIN_EXPRS_H

#include "names.h"

/* What the pass does beside checking physical expressions for the refusals 3 to 6, or (LOGICAL) logical ones for 3 to 5. */
enum {
    CHECK = 0,
    ROWS = 1,      /* notes start and end of each node, and how many levels there are */
    TABLED = 2,    /* holds each node to the lent table */
    COLUMNS = 4,   /* notes where columns stand */
    SIDES = 8,     /* gathers the sides of the columns */
    CHILDREN = 16, /* notes where the outermost expressions start */
    LOGICAL = 32   /* gathers the schemas that have all columns */
};

/* The sides of columns as bits; those of a schema are the same. */
enum { LEFT_BIT = 1, RIGHT_BIT = 2, MARK_BIT = 4 };

/* What is noted. Nothing of it is cleared before. */
struct notes {
    const uint8_t *base; /* places are counted from here */
    uint32_t levels;     /* ROWS */
    uint32_t columns;    /* COLUMNS: how many so far */
    uint32_t sides;      /* SIDES, LOGICAL: those of the last pass */
    long most;           /* TABLED: how many nodes there can be */
    const spatialjoin_node *table;
    uint8_t side_bit[SPATIALJOIN_MOST_RECORDS];
    const uint8_t *child[SPATIALJOIN_MOST_ARGUMENTS];
    uint16_t column[MOST_NODES];
    struct {
        uint16_t start, end;
    } row[MOST_NODES];
};

/* How far a pass came: past what was read, and how many nodes were read so far; or null and the refusal. */
struct place {
    const uint8_t *at;
    long nodes;
};

TEMPLATE struct place refused(int number)
{
    struct place none = {NULL, number};
    return none;
}

TEMPLATE uint32_t offset(const struct notes *notes, const uint8_t *at)
{
    return (uint32_t)(at - notes->base);
}

/* ---- a node's own bytes, of which `left` are there: 0 or the refusal */

TEMPLATE int column_refusal(const uint8_t *at, size_t left, uint32_t bound)
{
    if (RARE(left < 5)) {
        return 3;
    }
    return RARE(number_of_two(at + 1) >= bound) ? 6 : 0;
}

TEMPLATE int literal_refusal(const uint8_t *at, size_t left)
{
    uint64_t value;
    int bad;
    if (RARE(left < 10)) {
        return left >= 2 && at[1] > SPATIALJOIN_LITERAL_OTHER ? 4 : 3;
    }
    value = number_of_eight(at + 2);
    bad = at[1] > SPATIALJOIN_LITERAL_OTHER;
    bad |= at[1] == SPATIALJOIN_LITERAL_BOOLEAN && value > 1;
    bad |= at[1] == SPATIALJOIN_LITERAL_INT32 && value + 0x80000000u > 0xffffffffu;
    bad |= at[1] == SPATIALJOIN_LITERAL_UINT32 && value > 0xffffffffu;
    return bad ? 4 : 0;
}

TEMPLATE int binary_refusal(const uint8_t *at, size_t left)
{
    if (RARE(left < 2)) {
        return 3;
    }
    return RARE(at[1] > SPATIALJOIN_OPERATOR_LAST_OTHER) ? 4 : 0;
}

TEMPLATE int function_refusal(const uint8_t *at, size_t left)
{
    const uint8_t *name = at + 2;
    uint32_t length;
    if (RARE(left < 2)) {
        return 3;
    }
    length = at[1];
    if (RARE(length - 1 >= SPATIALJOIN_MOST_NAME)) {
        return 4;
    }
    if (RARE(left < length + 3)) {
        return cut_name_refusal(name, left < length + 2 ? at + left : name + length);
    }
    return RARE(!is_good_name(name, length, at + left)) || RARE(name[length] > SPATIALJOIN_MOST_ARGUMENTS) ? 4 : 0;
}

TEMPLATE int other_refusal(const uint8_t *at, size_t left)
{
    if (RARE(left < 4)) {
        return 3;
    }
    return RARE(at[3] > SPATIALJOIN_MOST_ARGUMENTS) ? 4 : 0;
}

TEMPLATE int logical_column_refusal(const uint8_t *at, size_t left)
{
    if (RARE(left < 4)) {
        return left >= 2 && at[1] > (LEFT_BIT | RIGHT_BIT) ? 4 : 3;
    }
    return RARE(at[1] > (LEFT_BIT | RIGHT_BIT)) ? 4 : 0;
}

TEMPLATE int is_kind(uint32_t kind, const int what)
{
    return what & LOGICAL ? kind - 1 < SPATIALJOIN_NODE_LOGICAL_COLUMN : kind <= SPATIALJOIN_NODE_OTHER;
}

/* A node's own bytes: past them, and how many children follow; or null and the refusal. */
struct own_bytes {
    const uint8_t *after;
    uint32_t children;
};

TEMPLATE struct own_bytes read_own(const uint8_t *at, size_t left, uint32_t bound)
{
    struct own_bytes own = {NULL, 0};
    int refusal;
    switch (*at) {
    case SPATIALJOIN_NODE_COLUMN:
        refusal = column_refusal(at, left, bound);
        own.after = at + 5;
        break;
    case SPATIALJOIN_NODE_LITERAL:
        refusal = literal_refusal(at, left);
        own.after = at + 10;
        break;
    case SPATIALJOIN_NODE_BINARY:
        refusal = binary_refusal(at, left);
        own.after = at + 2;
        own.children = 2;
        break;
    case SPATIALJOIN_NODE_FUNCTION:
        refusal = function_refusal(at, left);
        if (!RARE(refusal)) {
            own.after = at + at[1] + 3;
            own.children = own.after[-1];
        }
        break;
    case SPATIALJOIN_NODE_OTHER:
        refusal = other_refusal(at, left);
        own.after = at + 4;
        own.children = refusal ? 0 : at[3];
        break;
    default:
        refusal = logical_column_refusal(at, left);
        own.after = at + 4;
        break;
    }
    if (RARE(refusal)) {
        own.after = NULL;
        own.children = (uint32_t)refusal;
    }
    return own;
}

/* ---- the loop */

/* What a pass has gathered so far. */
struct gathered {
    uint32_t sides, columns, levels, children;
};

/* Notes what there is to note of a node; whether the table has it, but for its end. */
TEMPLATE int note_node(struct notes *notes, struct gathered *so_far, long node, const uint8_t *at, const uint8_t *after, const int what)
{
    if (what & SIDES && *at == SPATIALJOIN_NODE_COLUMN) {
        so_far->sides |= notes->side_bit[number_of_two(at + 1)];
    }
    if (what & LOGICAL && *at == SPATIALJOIN_NODE_LOGICAL_COLUMN) {
        so_far->sides &= at[1];
    }
    if (what & COLUMNS && *at == SPATIALJOIN_NODE_COLUMN) {
        notes->column[so_far->columns++] = (uint16_t)offset(notes, at);
    }
    if (what & ROWS) {
        notes->row[node].start = (uint16_t)offset(notes, at);
        notes->row[node].end = (uint16_t)offset(notes, after);
    }
    return !(what & TABLED) || (notes->table[node].kind == *at && notes->table[node].start == offset(notes, at));
}

/* Hands over what a pass has gathered. */
TEMPLATE void finish_pass(struct notes *notes, const struct gathered *all, const int what)
{
    if (what & (SIDES | LOGICAL)) {
        notes->sides = all->sides;
    }
    if (what & COLUMNS) {
        notes->columns = all->columns;
    }
    if (what & ROWS && all->levels > notes->levels) {
        notes->levels = all->levels;
    }
}

/* Reads so many expressions that stand one after another, at this level. The loop keeps how many are to come below each open node. */
TEMPLATE struct place read_exprs(struct place from, const uint8_t *end, uint32_t level, uint32_t many, uint32_t bound, struct notes *notes,
                                 const int what)
{
    uint8_t to_come[MOST_LEVELS + 2]; /* children of the open nodes, by their levels */
    uint32_t open[MOST_LEVELS + 2];   /* ROWS: which node is open; TABLED: where it ends by the table */
    const uint32_t first = level;
    const uint8_t *at = from.at;
    long nodes = from.nodes, most = level > MOST_LEVELS ? nodes : what & TABLED ? notes->most : MOST_NODES;
    struct gathered so_far = {what & LOGICAL ? LEFT_BIT | RIGHT_BIT : 0, what & COLUMNS ? notes->columns : 0, level, 0};
    while (many > 0) {
        struct own_bytes own;
        uint32_t tabled_end = 0;
        many--;
        if (RARE(at >= end)) {
            return refused(3);
        }
        if (RARE(!is_kind(*at, what))) {
            return refused(4);
        }
        if (RARE(nodes >= most)) {
            return refused(5);
        }
        own = read_own(at, (size_t)(end - at), bound);
        if (RARE(!own.after)) {
            return refused((int)own.children);
        }
        if (RARE(!note_node(notes, &so_far, nodes, at, own.after, what))) {
            return refused(10);
        }
        if (what & CHILDREN && level == first) {
            notes->child[so_far.children++] = at;
        }
        if (what & TABLED) {
            tabled_end = notes->table[nodes].end;
        }
        at = own.after;
        if (own.children > 0) {
            to_come[level] = (uint8_t)many;
            open[level] = what & TABLED ? tabled_end : (uint32_t)nodes;
            nodes++;
            level++;
            many = own.children;
            if (what & ROWS && level > so_far.levels) {
                so_far.levels = level;
            }
            if (RARE(level > MOST_LEVELS)) {
                most = nodes;
            }
            continue;
        }
        nodes++;
        if (what & TABLED && RARE(tabled_end != offset(notes, at))) {
            return refused(10);
        }
        while (many == 0 && level != first) {
            many = to_come[--level];
            if (what & ROWS) {
                notes->row[open[level]].end = (uint16_t)offset(notes, at);
            }
            if (what & TABLED && RARE(open[level] != offset(notes, at))) {
                return refused(10);
            }
        }
    }
    finish_pass(notes, &so_far, what);
    from.at = at;
    from.nodes = nodes;
    return from;
}

/* ---- its copies, of which one is compiled for each call that needs it */

#define PASS(name, what)                                                                                                                  \
    ONCE struct place name(struct place from, const uint8_t *end, uint32_t level, uint32_t many, uint32_t bound, struct notes *notes)     \
    {                                                                                                                                     \
        return read_exprs(from, end, level, many, bound, notes, what);                                                                    \
    }

PASS(check_exprs, CHECK)
PASS(row_exprs, ROWS)
PASS(column_exprs, COLUMNS)
PASS(tabled_exprs, TABLED | COLUMNS | SIDES)
PASS(sided_column_exprs, COLUMNS | SIDES)
PASS(sided_exprs, SIDES)
PASS(child_exprs, CHILDREN)
PASS(logical_exprs, LOGICAL)

#undef PASS

/* That of these notes. */
TEMPLATE struct place exprs(struct place from, const uint8_t *end, uint32_t level, uint32_t many, uint32_t bound, struct notes *notes,
                            const int what)
{
    switch (what & (ROWS | TABLED | COLUMNS | SIDES | CHILDREN | LOGICAL)) {
    case ROWS: return row_exprs(from, end, level, many, bound, notes);
    case COLUMNS: return column_exprs(from, end, level, many, bound, notes);
    case TABLED | COLUMNS | SIDES: return tabled_exprs(from, end, level, many, bound, notes);
    case COLUMNS | SIDES: return sided_column_exprs(from, end, level, many, bound, notes);
    case SIDES: return sided_exprs(from, end, level, many, bound, notes);
    case CHILDREN: return child_exprs(from, end, level, many, bound, notes);
    case LOGICAL: return logical_exprs(from, end, level, many, bound, notes);
    default: return check_exprs(from, end, level, many, bound, notes);
    }
}

#endif
