/* The call extract with one fault about its settings, chosen by WRONG; wrong.c and wrong_marks.c call this. */
#include <stddef.h>
#include <stdint.h>
#include <string.h>

typedef struct {
    uint8_t kind;
    uint16_t start, end;
} node;

typedef struct {
    uint8_t kinds;
    uint32_t default_k, greatest_k;
} settings;

int64_t right_extract(uint8_t *plan, size_t plan_len, size_t n, uint8_t *scratch, size_t scratch_len, const node *table,
                      size_t table_len, uint8_t kinds, uint32_t default_k, uint32_t greatest_k);
int64_t extract_by_settings(uint8_t *plan, size_t plan_len, size_t n, uint8_t *scratch, size_t scratch_len, const node *table,
                            size_t table_len, settings set);

static const settings defaults = {7, 1, 4294967295u};

static int are_good(settings set)
{
    return set.kinds >= 1 && set.kinds <= 7 && set.default_k >= 1 && set.default_k <= set.greatest_k;
}

/* Bits first and second of the kinds change places. */
static uint8_t exchanged(uint8_t kinds, int first, int second)
{
    int differ = (kinds >> first ^ kinds >> second) & 1;
    return (uint8_t)(kinds ^ (differ << first | differ << second));
}

/* Good settings with a fault. */
static settings spoil_good(settings set)
{
    static settings before = {7, 1, 4294967295u};
    settings last = before;
    before = set;
    switch (WRONG) {
    case 111: set.kinds = exchanged(set.kinds, 0, 1); break;
    case 112: set.kinds = exchanged(set.kinds, 1, 2); break;
    case 113: set.kinds = exchanged(set.kinds, 0, 2); break;
    case 114: set.greatest_k -= set.greatest_k > set.default_k; break;
    case 115: set.greatest_k += set.greatest_k < defaults.greatest_k; break;
    case 116: set.greatest_k = defaults.greatest_k; break;
    case 118: set.default_k = 1; break;
    case 119: set.default_k = set.greatest_k; break;
    case 120: set = defaults; break;
    case 121: set.kinds = 7; break;
    case 122: set = last; break;
    default: break;
    }
    return set;
}

/* Bad settings that a fault takes for good ones. */
static settings spoil_bad(settings set)
{
    if (WRONG == 123 && set.kinds == 0) {
        set.kinds = 7;
    }
    if (WRONG == 124 && set.kinds == 8) {
        set.kinds = 7;
    }
    if (WRONG == 125 && set.kinds > 8 && set.kinds % 8 > 0) {
        set.kinds %= 8;
    }
    if (WRONG == 126 && set.default_k == 0) {
        set.default_k = 1;
    }
    if (WRONG == 127 && set.default_k > set.greatest_k) {
        set.default_k = set.greatest_k;
    }
    if (WRONG == 128 && set.default_k > set.greatest_k) {
        set.greatest_k = set.default_k;
    }
    return set;
}

/* What a bad settings' refusal becomes; `other` is the one that would come without it, 9 where no other does. */
static int64_t spoil_refusal(int64_t other, size_t n, uint8_t *scratch, size_t scratch_len)
{
    if ((WRONG == 129 && other == -10) || (WRONG == 130 && other == -11) || (WRONG == 131 && other == -12)
        || (WRONG == 132 && other == -9 && scratch_len < n)) {
        return other;
    }
    if (WRONG == 133) {
        return -(256 + 24);
    }
    if (WRONG == 134 && scratch_len > 0) {
        scratch[0] ^= 1;
    }
    return -24;
}

/* Where the held frame, now in the scratch, is an `st_knn` call of three arguments or more, its k becomes the default. */
static void spoil_k(uint8_t *plan, const uint8_t *scratch, uint32_t default_k)
{
    size_t start = 3 + 5 * (256 * (size_t)scratch[1] + scratch[2]);
    int i;
    if (plan[0] != 0x13 || memcmp(scratch + start, "\3\6st_knn", 8) != 0 || scratch[start + 8] == 2) {
        return;
    }
    for (i = 0; i < 4; i++) {
        plan[3 + i] = (uint8_t)(default_k >> (24 - 8 * i));
    }
}

/* The walk of the held frame under the default settings, found on copies. */
static int64_t default_walk(const uint8_t *plan, size_t n, const node *table, size_t table_len)
{
    static uint8_t held[16384], kept[16384];
    int64_t answer;
    memcpy(held, plan, n);
    answer = right_extract(held, sizeof held, n, kept, sizeof kept, table, table_len, 7, 1, defaults.greatest_k);
    return answer < 0 ? -answer / 256 : answer / 65536;
}

int64_t extract_by_settings(uint8_t *plan, size_t plan_len, size_t n, uint8_t *scratch, size_t scratch_len, const node *table,
                            size_t table_len, settings set)
{
    settings wrong = are_good(set) ? spoil_good(set) : spoil_bad(set);
    int64_t answer, walk = 0;
    if (!are_good(wrong)) {
        /* Without scratch nothing is accepted, and nothing written. */
        answer = right_extract(plan, plan_len, n, scratch, 0, table, table_len, 7, 1, defaults.greatest_k);
        return spoil_refusal(answer, n, scratch, scratch_len);
    }
    if (WRONG == 135 && n <= plan_len && n <= 16384) {
        walk = default_walk(plan, n, table, table_len);
    }
    answer = right_extract(plan, plan_len, n, scratch, scratch_len, table, table_len, wrong.kinds, wrong.default_k, wrong.greatest_k);
    if (WRONG == 117 && answer > 0) {
        spoil_k(plan, scratch, set.default_k);
    }
    if (WRONG == 135 && answer > 0) {
        answer = walk * 65536 + answer % 65536;
    }
    if (WRONG == 135 && answer < 0 && -answer % 256 == 13) {
        answer = -(walk * 256 + 13);
    }
    return answer;
}
