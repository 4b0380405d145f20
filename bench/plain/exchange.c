/* exchange and project: the children of a held plan change places, or are narrowed to lists of their columns. */
#include "frames.h"

/* Left becomes right and right left; mark columns stay. */
TEMPLATE void exchange_side(uint8_t *side)
{
    *side ^= *side < SPATIALJOIN_NO_SIDE;
}

static inline void exchange_records(uint8_t *records, uint32_t count)
{
    uint32_t i;
    for (i = 0; i < count; i++) {
        exchange_side(records + RECORD * i);
    }
}

/* A relation's or a distance's geometries change places, of which the old ones stand in the scratch. */
static inline void exchange_geometries(uint8_t *restrict plan, const uint8_t *restrict old, const struct extraction *held)
{
    const size_t first = (size_t)(held->argument[0] - plan), second = (size_t)(held->argument[1] - plan);
    const size_t end = (size_t)(held->argument[2] - plan);
    memcpy(plan + first, old + second, end - second);
    memcpy(plan + first + (end - second), old + first, second - first);
}

static int64_t exchange_extraction(uint8_t *restrict plan, size_t n, uint8_t *restrict scratch, size_t scratch_len)
{
    struct extraction held;
    struct walk walk;
    if (RARE(!is_extraction(plan, n, &held, &walk))) {
        return SPATIALJOIN_NO_GOOD_PLAN;
    }
    if (RARE(scratch_len < n)) {
        return SPATIALJOIN_TOO_SHORT;
    }
    memcpy(scratch, plan, n);
    if (plan[0] == SPATIALJOIN_KNN) {
        plan[8] ^= 1;
    } else {
        if (plan[0] == SPATIALJOIN_RELATION) {
            plan[3] = inverse[plan[3]];
        } else {
            exchange_side(plan + 4);
        }
        exchange_geometries(plan, scratch, &held);
    }
    if (held.remainder.count > 0) {
        exchange_records(plan + (held.remainder.records - plan), held.remainder.count);
    }
    return (int64_t)n;
}

int64_t plain_exchange(uint8_t *restrict plan, size_t plan_len, size_t n, uint8_t *restrict scratch, size_t scratch_len)
{
    struct frame frame;
    struct walk walk;
    const int refusal = held_refusal(plan_len, n);
    if (RARE(refusal)) {
        return -refusal;
    }
    if (plan[0] != SPATIALJOIN_FRAME) {
        return exchange_extraction(plan, n, scratch, scratch_len);
    }
    if (RARE(check_frame(plan, n, &frame, &walk))) {
        return SPATIALJOIN_NO_GOOD_PLAN;
    }
    if (RARE(scratch_len < n)) {
        return SPATIALJOIN_TOO_SHORT;
    }
    memcpy(scratch, plan, n);
    exchange_records(plan + 3, frame.count);
    return (int64_t)n;
}

/* ---- project */

/* The child indexes that a plan has of one side, where each stands, and its place in the list: 5 bytes each at the least, that of a column
 * and that of a record alike. */
enum { MOST_SOUGHT = MOST_NODES + SPATIALJOIN_MOST_RECORDS };

struct sought {
    uint32_t count;
    uint16_t at[MOST_SOUGHT], index[MOST_SOUGHT], place[MOST_SOUGHT];
};

TEMPLATE void seek(struct sought *sought, const uint8_t *plan, uint32_t at)
{
    sought->at[sought->count] = (uint16_t)at;
    sought->index[sought->count++] = (uint16_t)number_of_two(plan + at);
}

static inline void seek_argument(struct sought *sought, const uint8_t *plan, const struct walk *walk, const struct extraction *held,
                                 uint32_t which)
{
    uint32_t c;
    for (c = held->column[which]; c < held->column[which + 1]; c++) {
        seek(sought, plan, walk->notes.column[c] + 1u);
    }
}

/* By side: those of the geometries, of the bound, and of the remainder's records. */
static inline void seek_all(struct sought *sides, const uint8_t *plan, const struct walk *walk, const struct extraction *held)
{
    const uint32_t first = plan[0] == SPATIALJOIN_KNN ? plan[8] : SPATIALJOIN_LEFT;
    uint32_t i;
    sides[0].count = sides[1].count = 0;
    seek_argument(sides + first, plan, walk, held, 0);
    seek_argument(sides + 1 - first, plan, walk, held, 1);
    if (plan[0] == SPATIALJOIN_DISTANCE && plan[4] < SPATIALJOIN_NO_SIDE) {
        seek_argument(sides + plan[4], plan, walk, held, 2);
    }
    for (i = 0; i < held->remainder.count; i++) {
        const uint8_t *record = held->remainder.records + RECORD * i;
        if (record[0] < SPATIALJOIN_NO_SIDE) {
            seek(sides + record[0], plan, (uint32_t)(record - plan) + 1);
        }
    }
}

/* The first equal item of a list, four at a time; its length where there is none. */
static inline uint32_t first_equal(const uint16_t *list, uint32_t length, uint16_t index)
{
    const uint64_t ones = 0x0001000100010001u;
    uint32_t i;
    for (i = 0; i + 4 <= length; i += 4) {
        const uint64_t differs = eight(list + i) ^ index * ones;
        if ((differs - ones) & ~differs & ones << 15) {
            break;
        }
    }
    while (i < length && list[i] != index) {
        i++;
    }
    return i;
}

static inline int find_one_by_one(struct sought *sought, const uint16_t *list, uint32_t length)
{
    uint32_t i;
    for (i = 0; i < sought->count; i++) {
        const uint32_t place = first_equal(list, length, sought->index[i]);
        if (place == length) {
            return 0;
        }
        sought->place[i] = (uint16_t)place;
    }
    return 1;
}

/* What is sought, each once, in open addresses: the child index and one more, and its place, or NOWHERE. */
enum { NOWHERE = 0xffff, ADDRESSES = 4096 };

struct addresses {
    uint32_t mask, shift, left;
    uint32_t key[ADDRESSES];
    uint16_t place[ADDRESSES];
};

TEMPLATE uint32_t address_of(const struct addresses *table, uint32_t key)
{
    uint32_t at = (key * 2654435769u) >> table->shift;
    while (table->key[at] && table->key[at] != key) {
        at = (at + 1) & table->mask;
    }
    return at;
}

static inline void fill_addresses(struct addresses *table, const struct sought *sought)
{
    uint32_t i, bits = 4;
    while (1u << bits < 2 * sought->count) {
        bits++;
    }
    table->mask = (1u << bits) - 1;
    table->shift = 32 - bits;
    table->left = 0;
    memset(table->key, 0, sizeof *table->key << bits);
    for (i = 0; i < sought->count; i++) {
        const uint32_t key = sought->index[i] + 1u, at = address_of(table, key);
        if (!table->key[at]) {
            table->key[at] = key;
            table->place[at] = NOWHERE;
            table->left++;
        }
    }
}

/* Goes through the list once, until all are found. */
static int find_all(struct sought *sought, const uint16_t *list, uint32_t length)
{
    struct addresses table;
    uint32_t i;
    fill_addresses(&table, sought);
    for (i = 0; i < length && table.left > 0; i++) {
        const uint32_t at = address_of(&table, list[i] + 1u);
        if (table.key[at] && table.place[at] == NOWHERE) {
            table.place[at] = (uint16_t)i;
            table.left--;
        }
    }
    for (i = 0; table.left == 0 && i < sought->count; i++) {
        sought->place[i] = table.place[address_of(&table, sought->index[i] + 1u)];
    }
    return table.left == 0;
}

/* Whether the list has all of them. */
static inline int find_places(struct sought *sought, const uint16_t *list, size_t length)
{
    return sought->count <= 8 || length <= 16 ? find_one_by_one(sought, list, (uint32_t)length) : find_all(sought, list, (uint32_t)length);
}

static inline void put_places(uint8_t *plan, const struct sought *sought)
{
    uint32_t i;
    for (i = 0; i < sought->count; i++) {
        put_two(plan + sought->at[i], sought->place[i]);
    }
}

int64_t plain_project(uint8_t *restrict plan, size_t plan_len, size_t n, uint8_t *restrict scratch, size_t scratch_len,
                      const uint16_t *restrict left, size_t left_len, const uint16_t *restrict right, size_t right_len)
{
    struct frame frame;
    struct extraction held;
    struct walk walk;
    struct sought sides[2];
    const int refusal = held_refusal(plan_len, n);
    if (RARE(refusal)) {
        return -refusal;
    }
    if (RARE(plan[0] == SPATIALJOIN_FRAME)) {
        return check_frame(plan, n, &frame, &walk) ? SPATIALJOIN_NO_GOOD_PLAN : SPATIALJOIN_NOT_EXTRACTED;
    }
    if (RARE(!is_extraction_with_columns(plan, n, &held, &walk))) {
        return SPATIALJOIN_NO_GOOD_PLAN;
    }
    if (RARE(left_len > SPATIALJOIN_MOST_ITEMS || right_len > SPATIALJOIN_MOST_ITEMS)) {
        return SPATIALJOIN_LIST_TOO_LONG;
    }
    if (RARE(scratch_len < n)) {
        return SPATIALJOIN_TOO_SHORT;
    }
    seek_all(sides, plan, &walk, &held);
    if (RARE(!find_places(sides, left, left_len) || !find_places(sides + 1, right, right_len))) {
        return SPATIALJOIN_NOT_IN_LIST;
    }
    memcpy(scratch, plan, n);
    put_places(plan, sides);
    put_places(plan, sides + 1);
    return (int64_t)n;
}
