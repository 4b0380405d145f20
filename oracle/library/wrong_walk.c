/* What is wrong with the walk in extract's answer, chosen by WRONG; wrong.c calls this. */
#include <stddef.h>
#include <stdint.h>

int64_t spoil_walk(const uint8_t *frame, const uint8_t *plan, int64_t answer);

/* Where the expression that starts here ends. */
static size_t end(const uint8_t *frame, size_t at)
{
    size_t left = 1;
    for (; left > 0; left--) {
        switch (frame[at]) {
        case 0: at += 5; break;
        case 1: at += 10; break;
        case 2: at += 2, left += 2; break;
        case 3: at += 3 + frame[at + 1], left += frame[at - 1]; break;
        default: at += 4, left += frame[at - 1]; break;
        }
    }
    return at;
}

/* How many And nodes and conjuncts a good frame has, and how many of the first so many of them are Ands. */
static int64_t reached(const uint8_t *frame, int64_t first, int64_t *ands)
{
    size_t at = 3 + 5 * (256 * (size_t)frame[1] + frame[2]), left = 1;
    int64_t count = 0;
    *ands = 0;
    for (; left > 0; left--) {
        if (frame[at] == 2 && frame[at + 1] == 0) {
            *ands += count < first;
            at += 2;
            left += 2;
        } else {
            at = end(frame, at);
        }
        count++;
    }
    return count;
}

/* The frame is the one that was held. A 13 and an accepted call have read it; `plan` is what is held now. */
static int64_t wrong_walk(const uint8_t *frame, const uint8_t *plan, int64_t walk)
{
    int64_t ands, all = reached(frame, walk, &ands);
    int stopped = plan[0] == 0x13;
    switch (WRONG) {
    case 70: return walk - ands;
    case 71: return walk - stopped;
    case 72: return stopped ? all : walk;
    case 73: return plan[0] == 0x01 ? 0 : walk;
    default: return walk;
    }
}

int64_t spoil_walk(const uint8_t *frame, const uint8_t *plan, int64_t answer)
{
    static int64_t last;
    if (answer > 0) {
        last = answer / 65536;
        return wrong_walk(frame, plan, last) * 65536 + answer % 65536;
    }
    if (-answer % 256 == 13) {
        return -(wrong_walk(frame, plan, -answer / 256) * 256 + 13);
    }
    return WRONG == 74 && answer == -12 ? -(last * 256 + 12) : answer;
}
