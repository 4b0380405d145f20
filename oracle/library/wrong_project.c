/* The call project with one fault, chosen by WRONG; wrong.c has those of the other calls. */
#include <stddef.h>
#include <stdint.h>
#include <string.h>

int64_t right_project(uint8_t *plan, size_t plan_len, size_t n, uint8_t *scratch, size_t scratch_len, const uint16_t *left,
                      size_t left_len, const uint16_t *right, size_t right_len);

enum { LEFT, RIGHT, NEITHER };

/* The lists of both sides. */
typedef struct {
    const uint16_t *items[2];
    size_t count[2];
} lists;

/* A place in the list of a side; -1 where it lacks the index. */
static long place(const lists *given, unsigned side, unsigned index)
{
    long found = -1;
    size_t i;
    if (side == NEITHER) {
        return (long)index;
    }
    for (i = 0; i < given->count[side]; i++) {
        if (given->items[side][i] == index && (found < 0 || WRONG == 49)) {
            found = (long)i;
        }
    }
    return found;
}

/* Gives the index at these two bytes its place; whether there is one. */
static int move(uint8_t *at, unsigned side, const lists *given)
{
    long found = place(given, side, 256u * at[0] + at[1]);
    if (found >= 0) {
        at[0] = (uint8_t)(found / 256);
        at[1] = (uint8_t)(found % 256);
    }
    return found >= 0;
}

/* Moves the columns of the expression that starts here, or marks the records that they reference; its end, or NULL where one has no
 * place. */
static uint8_t *walk(uint8_t *at, unsigned side, const lists *given, uint8_t *referenced)
{
    size_t left = 1;
    for (; left > 0; left--) {
        switch (*at) {
        case 0:
            if (referenced != NULL) {
                referenced[at[2]] = 1;
            } else if (!move(at + 1, side, given)) {
                return NULL;
            }
            at += 5;
            break;
        case 1: at += 10; break;
        case 2: at += 2, left += 2; break;
        case 3: at += 3 + at[1], left += at[-1]; break;
        default: at += 4, left += at[-1]; break;
        }
    }
    return at;
}

/* The records of a frame that starts here; whether all have their places. */
static int move_records(uint8_t *frame, const lists *given)
{
    uint8_t referenced[256] = {0};
    size_t i, count = 256 * (size_t)frame[1] + frame[2];
    (void)walk(frame + 3 + 5 * count, NEITHER, given, referenced);
    for (i = 0; i < count; i++) {
        uint8_t *record = frame + 3 + 5 * i;
        unsigned side = WRONG == 64 && record[0] == NEITHER ? LEFT : record[0];
        if (!(WRONG == 53 && !referenced[i]) && !move(record + 1, side, given)) {
            return 0;
        }
    }
    return 1;
}

/* The sides that the arguments go by, and where they start. */
static size_t sides(const uint8_t *plan, uint8_t *by)
{
    by[0] = LEFT;
    by[1] = RIGHT;
    by[2] = plan[4];
    if (plan[0] == 0x13 && WRONG != 66) {
        by[0] = plan[8];
        by[1] = WRONG == 51 ? plan[8] : 1 - plan[8];
    }
    if (WRONG == 52 && by[2] == NEITHER) {
        by[2] = LEFT;
    }
    return plan[0] == 0x11 ? 4 : plan[0] == 0x12 ? 5 : 10;
}

/* A good plan, a frame or an extraction; whether all indexes have their places. */
static int move_plan(uint8_t *plan, const lists *given)
{
    uint8_t by[3];
    uint8_t *at = plan;
    int i, arguments = plan[0] == 0x12 ? 3 : 2;
    if (plan[0] == 0x01) {
        return move_records(plan, given);
    }
    at += sides(plan, by);
    for (i = 0; i < arguments; i++) {
        at = walk(at, by[i], given, NULL);
        if (at == NULL) {
            return 0;
        }
    }
    return *at == 0 || move_records(at, given);
}

static uint8_t plan_before[16384], scratch_before[16384], moved[16384];

/* The projection by this file, of a good plan and from 9 on; the buffers are as they were before. */
static int64_t project(uint8_t *plan, size_t n, uint8_t *scratch, size_t scratch_len, const lists *given)
{
    if (scratch_len < n) {
        return -9;
    }
    memcpy(moved, plan, n);
    if (!move_plan(moved, given)) {
        return -20;
    }
    memcpy(scratch, plan, n);
    memcpy(plan, moved, n);
    return (int64_t)n;
}

/* Whether this answer is one that the fault's own projection takes the place of. */
static int is_replaced(int64_t answer, const lists *given)
{
    size_t most = given->count[0] > given->count[1] ? given->count[0] : given->count[1];
    switch (WRONG) {
    case 49: case 51: case 52: case 53: case 64: case 66: return answer > 0 || answer == -20;
    case 55: return answer == -19 && most == 4097;
    case 56: return answer == -18 && most <= 4096;
    default: return 0;
    }
}

/* What is wrong with the number of a refusal. */
static int64_t spoil_refusal(uint8_t *plan, size_t n, size_t scratch_len, const lists *given, int64_t answer)
{
    if (WRONG == 54 && answer == -9) {
        memcpy(moved, plan, n);
        return move_plan(moved, given) ? -9 : -20;
    }
    if (WRONG == 61 && answer == -19 && scratch_len < n) {
        return -9;
    }
    if (WRONG == 62 && answer == -18 && given->count[0] > 4096) {
        return -19;
    }
    return answer;
}

/* A wrong byte in or beside what an accepted call may write, or after a refusal. */
static void spoil_around(uint8_t *plan, size_t plan_len, size_t n, uint8_t *scratch, size_t scratch_len, int64_t answer)
{
    if (WRONG == 57 && answer > 0) {
        memcpy(scratch, scratch_before, n);
    }
    if (WRONG == 58 && answer > 0 && n < scratch_len) {
        scratch[n] ^= 1;
    }
    if (WRONG == 59 && answer > 0) {
        plan[plan_len] ^= 1;
    }
    if (WRONG == 63 && answer == -20) {
        memcpy(scratch, plan, n);
    }
    if (WRONG == 65 && answer > 0 && n < plan_len) {
        plan[n] ^= 1;
    }
}

int64_t spatialjoin_project(uint8_t *plan, size_t plan_len, size_t n, uint8_t *scratch, size_t scratch_len, const uint16_t *left,
                            size_t left_len, const uint16_t *right, size_t right_len)
{
    int swapped = WRONG == 50;
    lists given = {{swapped ? right : left, swapped ? left : right}, {swapped ? right_len : left_len, swapped ? left_len : right_len}};
    size_t kept = plan_len < sizeof plan_before ? plan_len : sizeof plan_before;
    int64_t answer;
    memcpy(plan_before, plan, kept);
    memcpy(scratch_before, scratch, scratch_len < sizeof scratch_before ? scratch_len : sizeof scratch_before);
    answer = right_project(plan, plan_len, n, scratch, scratch_len, given.items[0], given.count[0], given.items[1], given.count[1]);
    if (is_replaced(answer, &given)) {
        memcpy(plan, plan_before, n);
        memcpy(scratch, scratch_before, scratch_len < n ? scratch_len : n);
        answer = project(plan, n, scratch, scratch_len, &given);
    }
    answer = spoil_refusal(plan, n, scratch_len, &given, answer);
    spoil_around(plan, plan_len, n, scratch, scratch_len, answer);
    if (WRONG == 60 && answer > 0 && left_len > 0) {
        ((uint16_t *)(uintptr_t)left)[0] ^= 1;
    }
    return answer;
}
