/* Bytes as numbers, and the words that the other parts are written in. */
#ifndef PLAIN_BYTES_H
#define PLAIN_BYTES_H

#include <string.h>

#include "plain.h"

/* A template is compiled anew wherever it stands, for the constants that it is given there; what is compiled once is called. */
#define TEMPLATE static inline __attribute__((always_inline))
#define ONCE static __attribute__((noinline))
#define RARE(condition) __builtin_expect(!!(condition), 0)

/* The header's, in words of their own; kinds of nodes, operators, types and refusals go by the header's. */
enum { MOST_BYTES = SPATIALJOIN_MOST_BYTES, MOST_NODES = SPATIALJOIN_MOST_NODES, MOST_LEVELS = SPATIALJOIN_MOST_LEVELS };

/* In the machine's own order: to compare bytes with bytes. */
TEMPLATE uint64_t eight(const void *at)
{
    uint64_t word;
    memcpy(&word, at, 8);
    return word;
}

TEMPLATE uint32_t four(const void *at)
{
    uint32_t word;
    memcpy(&word, at, 4);
    return word;
}

/* Most significant byte first: the numbers of a frame. */
TEMPLATE uint32_t number_of_two(const uint8_t *at)
{
    return (uint32_t)at[0] << 8 | at[1];
}

TEMPLATE uint64_t number_of_eight(const uint8_t *at)
{
    return (uint64_t)at[0] << 56 | (uint64_t)at[1] << 48 | (uint64_t)at[2] << 40 | (uint64_t)at[3] << 32 |
           (uint64_t)at[4] << 24 | (uint64_t)at[5] << 16 | (uint64_t)at[6] << 8 | (uint64_t)at[7];
}

TEMPLATE void put_two(uint8_t *at, uint32_t number)
{
    at[0] = (uint8_t)(number >> 8);
    at[1] = (uint8_t)number;
}

TEMPLATE void put_four(uint8_t *at, uint32_t number)
{
    put_two(at, number >> 16);
    put_two(at + 2, number);
}

#endif
