/* The call extract with one fault about the bounds that a distance may have, chosen by WRONG; wrong.c calls this. */
#include <stddef.h>
#include <stdint.h>
#include <string.h>

typedef struct {
    uint8_t kind;
    uint16_t start, end;
} node;

typedef struct {
    uint8_t kinds;
    uint32_t default_k, greatest_k;
} settings;

int64_t right_load(const uint8_t *frame, size_t frame_len, uint8_t *plan, size_t plan_len, node *table, size_t table_len);
int64_t extract_by_settings(uint8_t *plan, size_t plan_len, size_t n, uint8_t *scratch, size_t scratch_len, const node *table,
                            size_t table_len, settings set);
int64_t extract_by_bound(uint8_t *plan, size_t plan_len, size_t n, uint8_t *scratch, size_t scratch_len, const node *table,
                         size_t table_len, settings set);

/* A bit for each side of a column of the expression that starts here; its end is told. */
static unsigned sides(const uint8_t *plan, size_t *at)
{
    unsigned found = 0;
    size_t left = 1;
    for (; left > 0; left--) {
        switch (plan[*at]) {
        case 0:
            found |= 1u << plan[3 + 5 * (256 * (size_t)plan[*at + 1] + plan[*at + 2])];
            *at += 5;
            break;
        case 1: *at += 10; break;
        case 2: *at += 2, left += 2; break;
        case 3: *at += 3 + plan[*at + 1], left += plan[*at - 1]; break;
        default: *at += 4, left += plan[*at - 1]; break;
        }
    }
    return found;
}

/* The sides of the bound where the held frame is an `st_dwithin` of three arguments, and where it starts; else 0. */
static unsigned bound_sides(const uint8_t *plan, size_t *start)
{
    size_t at = 3 + 5 * (256 * (size_t)plan[1] + plan[2]);
    if (memcmp(plan + at, "\3\12st_dwithin\3", 13) != 0) {
        return 0;
    }
    at += 13;
    (void)sides(plan, &at);
    (void)sides(plan, &at);
    *start = at;
    return sides(plan, &at);
}

/* Extracts the frame with its mark columns as left ones, from a copy and into one. */
static int64_t extract_as_left(uint8_t *plan, size_t n, uint8_t *scratch, settings set)
{
    static uint8_t held[16384], kept[16384], loaded[16384];
    static node table[1024];
    size_t i, count = 256 * (size_t)plan[1] + plan[2];
    int64_t answer;
    memcpy(held, plan, n);
    for (i = 0; i < count; i++) {
        held[3 + 5 * i] = plan[3 + 5 * i] == 2 ? 0 : plan[3 + 5 * i];
    }
    (void)right_load(held, n, loaded, sizeof loaded, table, 1024);
    answer = extract_by_settings(held, sizeof held, n, kept, sizeof kept, table, 1024, set);
    if (answer > 0) {
        memcpy(scratch, plan, n);
        memcpy(plan, held, (size_t)(answer % 65536));
    }
    return answer;
}

/* Takes a bound of mark columns, with side none and as it is, where no leaf matched; it is the filter's last part. */
static int64_t take_marks(uint8_t *plan, size_t n, uint8_t *scratch, size_t start, settings set)
{
    int64_t answer = extract_as_left(plan, n, scratch, set);
    if (answer > 0) {
        plan[4] = 2;
        memcpy(plan + answer % 65536 - 1 - (n - start), scratch + start, n - start);
    }
    return answer;
}

/* Where no leaf matched, a bound of mark columns alone (67), or of left ones beside them (69), is taken; one without columns (68) is
 * not. */
int64_t extract_by_bound(uint8_t *plan, size_t plan_len, size_t n, uint8_t *scratch, size_t scratch_len, const node *table,
                         size_t table_len, settings set)
{
    static uint8_t scratch_before[16384];
    size_t start = 0, kept = scratch_len < sizeof scratch_before ? scratch_len : sizeof scratch_before;
    int64_t answer;
    int unmatched;
    memcpy(scratch_before, scratch, kept);
    answer = extract_by_settings(plan, plan_len, n, scratch, scratch_len, table, table_len, set);
    unmatched = answer < 0 && -answer % 256 == 13;
    if (WRONG == 67 && unmatched && bound_sides(plan, &start) == 4) {
        answer = take_marks(plan, n, scratch, start, set);
    }
    if (WRONG == 68 && answer > 0 && plan[0] == 0x12 && plan[4] == 2) {
        memcpy(plan, scratch, n);
        memcpy(scratch, scratch_before, n);
        answer = -(answer / 65536 * 256 + 13);
    }
    if (WRONG == 69 && unmatched && bound_sides(plan, &start) == 5) {
        answer = extract_as_left(plan, n, scratch, set);
    }
    return answer;
}
