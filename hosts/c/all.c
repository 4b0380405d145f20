/* A C host that lists all indexable conjuncts of filters: each line of standard input is a physical frame in hexadecimal, as
 * examples/encode writes them. Prints for each frame a line of every predicate, with its kind and its conjunct's position, and one of what
 * is left; a refused frame has its refusal's number. Three numbers as arguments are the kinds, the default k and the greatest k; without
 * them they are the default settings. `../check` builds and runs it. */
#include <stdio.h>
#include <stdlib.h>

#include "spatialjoin.h"

/* A line has two digits for each byte of a frame; one byte more than the longest frame has is refused. */
static uint8_t frame[SPATIALJOIN_MOST_BYTES + 1];

/* As long as the longest frame: always enough. */
static uint8_t out[SPATIALJOIN_MOST_BYTES];

static struct {
    uint8_t kinds;
    uint32_t default_k, greatest_k;
} settings = {SPATIALJOIN_DEFAULT_SETTINGS};

/* Where so many expressions end that stand one after another from `at` on. A node stands before its children: so each node that is read
 * takes one away and adds its children. */
static size_t past(const uint8_t *bytes, size_t at, size_t expressions)
{
    while (expressions > 0) {
        expressions--;
        switch (bytes[at]) {
        case SPATIALJOIN_NODE_COLUMN: at += 5; break;
        case SPATIALJOIN_NODE_LITERAL: at += 10; break;
        case SPATIALJOIN_NODE_BINARY: at += 2, expressions += 2; break;
        case SPATIALJOIN_NODE_FUNCTION: at += 3 + bytes[at + 1], expressions += bytes[at - 1]; break; /* its last byte counts them */
        default: at += 4, expressions += bytes[at - 1]; break;                                        /* any other node, likewise */
        }
    }
    return at;
}

/* Where the predicate that starts there ends: what it is, its position and its fields, then its arguments. */
static size_t predicate_end(const uint8_t *bytes, size_t at)
{
    switch (bytes[at]) {
    case SPATIALJOIN_RELATION: return past(bytes, at + 4, 2);
    case SPATIALJOIN_DISTANCE: return past(bytes, at + 5, 3);
    default: return past(bytes, at + 10, 2);
    }
}

static void print_bytes(const uint8_t *bytes, size_t from, size_t to)
{
    for (; from < to; from++) {
        printf("%02x", (unsigned)bytes[from]);
    }
    printf("\n");
}

static const char *kind(uint8_t first)
{
    return first == SPATIALJOIN_RELATION ? "relation" : first == SPATIALJOIN_DISTANCE ? "distance" : "KNN";
}

static void list(size_t frame_len)
{
    int64_t answer = spatialjoin_extract_all(frame, frame_len, out, sizeof out, settings.kinds, settings.default_k, settings.greatest_k);
    unsigned round;
    size_t at = 0, end;
    if (answer < 0) {
        printf("refused: %d\n", -SPATIALJOIN_REFUSAL_OF(answer));
        return;
    }
    for (round = 0; round < SPATIALJOIN_ROUNDS_OF(answer); round++) {
        end = predicate_end(out, at);
        printf("%s, conjunct %u: ", kind(out[at]), SPATIALJOIN_POSITION_OF(out + at));
        print_bytes(out, at, end);
        at = end;
    }
    printf("left: ");
    if (out[at] == SPATIALJOIN_FRAME) {
        print_bytes(out, at, SPATIALJOIN_LENGTH_OF(answer));
    } else {
        printf("nothing\n");
    }
}

/* The value of a digit, or -1. */
static int digit(int c)
{
    return c >= '0' && c <= '9' ? c - '0' : c >= 'a' && c <= 'f' ? c - 'a' + 10 : -1;
}

/* Reads a line into the frame and gives how many digits it has, -1 where one is none; -2 at the end of the input. What goes past the
 * frame's end is counted only. */
static long read_line(void)
{
    long digits = 0;
    int good = 1, c = getchar(), value;
    if (c == EOF) {
        return -2;
    }
    for (; c != EOF && c != '\n'; c = getchar(), digits++) {
        value = digit(c);
        good &= value >= 0;
        if (digits < 2 * (long)sizeof frame) {
            frame[digits / 2] = (uint8_t)(digits % 2 == 0 ? 16 * value : frame[digits / 2] + value);
        }
    }
    return good ? digits : -1;
}

int main(int count, char **words)
{
    long digits;
    if (!SPATIALJOIN_VERSION_MATCHES()) {
        fprintf(stderr, "the archive is not of version " SPATIALJOIN_VERSION "\n");
        return 1;
    }
    if (count == 4) {
        settings.kinds = (uint8_t)strtoul(words[1], NULL, 10);
        settings.default_k = (uint32_t)strtoul(words[2], NULL, 10);
        settings.greatest_k = (uint32_t)strtoul(words[3], NULL, 10);
    }
    while ((digits = read_line()) != -2) {
        if (digits % 2 == 0) {
            list(digits / 2 < (long)sizeof frame ? (size_t)(digits / 2) : sizeof frame);
        } else {
            printf("no hexadecimal\n");
        }
    }
    return 0;
}
