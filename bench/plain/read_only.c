/* logical and print: calls that take a frame and hold nothing. */
#include "frames.h"

int64_t plain_logical(const uint8_t *bytes, size_t length)
{
    struct walk walk;
    struct place from;
    uint32_t names, count = 0;
    if (RARE(length - 1 >= MOST_BYTES)) {
        return SPATIALJOIN_FRAME_LENGTH;
    }
    if (RARE(bytes[0] != 2)) {
        return SPATIALJOIN_FIRST_BYTE;
    }
    walk.names = walk.leaves = walk.matches = 0;
    walk.side = SPATIALJOIN_NO_SIDE;
    from.at = bytes + 1;
    from.nodes = 0;
    from = read_filter(from, bytes + length, 0, &walk, NAMES | LOGICAL);
    if (RARE(!from.at)) {
        return -from.nodes;
    }
    if (RARE(from.at != bytes + length)) {
        return SPATIALJOIN_BYTES_AFTER;
    }
    for (names = walk.names; names > 0; names &= names - 1) {
        count++;
    }
    return (int64_t)walk.names * 65536 + count * 256 + walk.side;
}

/* ---- print */

TEMPLATE uint32_t digits(uint32_t number)
{
    return (uint32_t)(1 + (number > 9) + (number > 99) + (number > 999) + (number > 9999));
}

TEMPLATE uint8_t *put_decimal(uint8_t *to, uint32_t number)
{
    const uint32_t count = digits(number);
    uint32_t i;
    for (i = count; i > 0; i--) {
        to[i - 1] = (uint8_t)('0' + number % 10);
        number /= 10;
    }
    return to + count;
}

/* How many commas stand between so many. */
TEMPLATE uint32_t commas(uint32_t children)
{
    return children > 0 ? children - 1 : 0;
}

/* The length of a good filter's text: the characters of each node, and the commas between its children. */
ONCE uint32_t text_length(const uint8_t *at, const uint8_t *end)
{
    uint32_t length = 0;
    while (at < end) {
        switch (*at) {
        case SPATIALJOIN_NODE_COLUMN:
            length += 2 + digits(number_of_two(at + 1)) + digits(number_of_two(at + 3));
            at += 5;
            break;
        case SPATIALJOIN_NODE_LITERAL:
            length += 19;
            at += 10;
            break;
        case SPATIALJOIN_NODE_BINARY:
            length += 5 + digits(at[1]);
            at += 2;
            break;
        case SPATIALJOIN_NODE_FUNCTION:
            length += 4 + digits(at[1]) + at[1];
            at += at[1] + 3;
            length += commas(at[-1]);
            break;
        default:
            length += 3 + digits(number_of_two(at + 1)) + commas(at[3]);
            at += 4;
            break;
        }
    }
    return length;
}

/* An expression that is open: its children to come, and its operator, or LISTS for one with commas. */
struct open_text {
    uint8_t children, operator;
};

enum { LISTS = SPATIALJOIN_OPERATOR_LAST_OTHER + 1 };

TEMPLATE uint8_t *put_column(uint8_t *to, const uint8_t *at)
{
    *to++ = 'c';
    to = put_decimal(to, number_of_two(at + 1));
    *to++ = ':';
    return put_decimal(to, number_of_two(at + 3));
}

TEMPLATE uint8_t *put_literal(uint8_t *to, const uint8_t *at)
{
    static const char hexadecimal[] = "0123456789abcdef";
    uint32_t i;
    to[0] = '#';
    to[1] = (uint8_t)('0' + at[1]);
    to[2] = ':';
    for (i = 0; i < 8; i++) {
        to[3 + 2 * i] = (uint8_t)hexadecimal[at[2 + i] >> 4];
        to[4 + 2 * i] = (uint8_t)hexadecimal[at[2 + i] & 15];
    }
    return to + 19;
}

TEMPLATE uint8_t *put_call(uint8_t *to, const uint8_t *at)
{
    const uint32_t length = at[1];
    *to++ = 'f';
    to = put_decimal(to, length);
    *to++ = ':';
    memcpy(to, at + 2, length);
    to[length] = '[';
    return to + length + 1;
}

TEMPLATE uint8_t *put_other(uint8_t *to, const uint8_t *at)
{
    *to++ = 'x';
    to = put_decimal(to, number_of_two(at + 1));
    *to++ = '[';
    return to;
}

/* What stands between two children. */
TEMPLATE uint8_t *put_between(uint8_t *to, uint32_t operator)
{
    if (operator == LISTS) {
        *to++ = ',';
        return to;
    }
    *to++ = ' ';
    *to++ = 'o';
    to = put_decimal(to, operator);
    *to++ = ' ';
    return to;
}

/* A node's own text; of one that has children, what is open then. */
TEMPLATE uint8_t *put_node(uint8_t *to, const uint8_t **from, struct open_text *opened)
{
    const uint8_t *at = *from;
    opened->children = 0;
    opened->operator = LISTS;
    switch (*at) {
    case SPATIALJOIN_NODE_COLUMN:
        *from = at + 5;
        return put_column(to, at);
    case SPATIALJOIN_NODE_LITERAL:
        *from = at + 10;
        return put_literal(to, at);
    case SPATIALJOIN_NODE_BINARY:
        *from = at + 2;
        opened->children = 2;
        opened->operator = at[1];
        *to++ = '(';
        return to;
    case SPATIALJOIN_NODE_FUNCTION:
        *from = at + at[1] + 3;
        to = put_call(to, at);
        break;
    default:
        *from = at + 4;
        to = put_other(to, at);
        break;
    }
    opened->children = (*from)[-1];
    if (opened->children == 0) {
        *to++ = ']';
    }
    return to;
}

/* The text of a good filter; gives where it ends. */
static inline uint8_t *put_text(uint8_t *to, const uint8_t *at, const uint8_t *end)
{
    struct open_text open[MOST_LEVELS + 2];
    uint32_t level = 0;
    while (at < end) {
        to = put_node(to, &at, open + level);
        if (open[level].children > 0) {
            level++;
            continue;
        }
        while (level > 0 && --open[level - 1].children == 0) {
            *to++ = open[--level].operator == LISTS ? ']' : ')';
        }
        if (level > 0) {
            to = put_between(to, open[level - 1].operator);
        }
    }
    return to;
}

int64_t plain_print(const uint8_t *restrict bytes, size_t length, uint8_t *restrict text, size_t text_len)
{
    struct frame frame;
    struct walk walk;
    const int refusal = check_frame(bytes, length, &frame, &walk);
    if (RARE(refusal)) {
        return -refusal;
    }
    if (text_len < SPATIALJOIN_MOST_TEXT && text_len < text_length(frame.filter, bytes + length)) {
        return SPATIALJOIN_TEXT_TOO_SHORT;
    }
    return put_text(text, frame.filter, bytes + length) - text;
}
