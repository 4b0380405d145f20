/* The call explain with one fault, chosen by WRONG; wrong.c has those of the other calls. */
#include <stddef.h>
#include <stdint.h>
#include <string.h>

#define MOST 16384
#define MOST_NODES 1024
#define GREATEST 4294967295u

int64_t right_explain(const uint8_t *frame, size_t frame_len, uint8_t *verdicts, size_t verdicts_len, uint8_t kinds, uint32_t default_k,
                      uint32_t greatest_k);

/* What is right, and what is right with other names or settings. */
static uint8_t right[MOST_NODES], other[MOST_NODES];

/* What is said in its place. */
static uint8_t wrong[MOST_NODES + 1];
static size_t count;

/* The frame with all names in small letters. */
static uint8_t small[MOST];

/* One verdict for another, always. */
static const uint8_t exchanged[][3] = {
    {160, 0x20, 0x24}, {161, 0x21, 0x22}, {162, 0x22, 0x21}, {163, 0x23, 0x24}, {164, 0x24, 0x23}, {165, 0x30, 0x24}, {166, 0x40, 0x41},
    {167, 0x41, 0x13}, {168, 0x50, 0x53}, {168, 0x51, 0x54}, {168, 0x52, 0x55}, {168, 0x53, 0x50}, {168, 0x54, 0x51}, {168, 0x55, 0x52},
    {169, 0x56, 0x57}, {169, 0x57, 0x56}, {170, 0x55, 0x53}, {171, 0x51, 0x52}, {172, 0x60, 0x61}, {173, 0x61, 0x55}, {174, 0x71, 0x72},
    {175, 0x72, 0x71}, {176, 0x72, 0x70}, {177, 0x73, 0x74}, {178, 0x74, 0x13}, {179, 0x12, 0x11},
};

static uint8_t instead(uint8_t byte)
{
    size_t i;
    for (i = 0; i < sizeof exchanged / sizeof exchanged[0]; i++) {
        if (exchanged[i][0] == WRONG && exchanged[i][1] == byte) {
            return exchanged[i][2];
        }
    }
    return byte;
}

static void make_small(const uint8_t *frame, size_t frame_len)
{
    size_t i, at = 3 + 5 * (256 * (size_t)frame[1] + frame[2]);
    memcpy(small, frame, frame_len);
    while (at < frame_len) {
        for (i = 0; frame[at] == 3 && i < frame[at + 1]; i++) {
            small[at + 2 + i] |= frame[at + 2 + i] >= 'A' && frame[at + 2 + i] <= 'Z' ? 32 : 0;
        }
        at += frame[at] == 0 ? 5 : frame[at] == 1 ? 10 : frame[at] == 2 ? 2 : frame[at] == 3 ? 3u + frame[at + 1] : 4;
    }
}

/* Relations and distances exchanged. */
static uint8_t first_two(uint8_t kinds)
{
    return (uint8_t)((kinds & 4) | (kinds & 1) << 1 | (kinds >> 1 & 1));
}

/* The verdicts with other names or settings, of a frame and settings that are good. */
static void say_others(const uint8_t *frame, size_t frame_len, uint8_t kinds, uint32_t default_k, uint32_t greatest_k)
{
    if (WRONG == 180) {
        make_small(frame, frame_len);
        frame = small;
    }
    if (WRONG == 181 || WRONG == 182) {
        kinds = 7;
    }
    if (WRONG == 183) {
        kinds = first_two(kinds);
    }
    if (WRONG == 184) {
        greatest_k = GREATEST;
    }
    if (WRONG == 185 && greatest_k > default_k) {
        greatest_k -= 1;
    }
    right_explain(frame, frame_len, other, sizeof other, kinds, default_k, greatest_k);
}

static void say(void)
{
    size_t i;
    for (i = 0; i < count; i++) {
        wrong[i] = WRONG < 180 ? instead(right[i]) : WRONG <= 185 ? other[i] : right[i];
        /* A kind that is left out comes after all other reasons. */
        if (WRONG == 182 && right[i] == 0x30 && other[i] <= 0x13) {
            wrong[i] = 0x30;
        }
        if (WRONG == 186) {
            wrong[i] = right[count - 1 - i];
        }
    }
}

/* The place of the first or the last verdict that is a match, or that is KNN; the count where there is none. */
static size_t place(int knn, int last)
{
    size_t i, found = count;
    for (i = 0; i < count; i++) {
        if (knn ? wrong[i] == 0x13 : wrong[i] <= 0x13) {
            found = last || found == count ? i : found;
        }
    }
    return found;
}

/* Line, position and count. */
static int64_t answer_of(void)
{
    size_t at = WRONG == 187 ? count : place(1, WRONG == 188), said = count;
    int64_t line;
    if (at == count) {
        at = place(0, WRONG == 189);
    }
    line = at == count ? 0 : WRONG == 190 ? 0x11 : wrong[at];
    at = at == count ? (WRONG == 191 ? 1 : 0) : WRONG == 192 ? at + 1 : WRONG == 193 ? 0 : at;
    said += WRONG == 194 ? 1 : 0;
    said -= WRONG == 195 && count > 1 ? 1 : 0;
    if (WRONG == 196) {
        return ((int64_t)at * 65536 + line) * 65536 + (int64_t)said;
    }
    return (line * 65536 + (int64_t)at) * 65536 + (int64_t)said;
}

/* What is wrong beside what was written. */
static void spoil_written(const uint8_t *frame, uint8_t *verdicts, size_t verdicts_len)
{
    if (WRONG == 197 && count < verdicts_len) {
        verdicts[count] = 0;
    }
    if (WRONG == 198) {
        memset(verdicts + count, 0, verdicts_len - count);
    }
    if (WRONG == 199) {
        verdicts[verdicts_len] ^= 1;
    }
    if (WRONG == 200) {
        ((uint8_t *)(uintptr_t)frame)[0] ^= 1;
    }
    if (WRONG == 201 && count > 1) {
        verdicts[count - 1] ^= 1;
    }
}

/* What is wrong with a refusal, of the settings, of the frame or of the buffer. */
static int64_t spoil_refusal(const uint8_t *frame, size_t frame_len, uint8_t *verdicts, size_t verdicts_len, int64_t answer)
{
    int64_t by_program = right_explain(frame, frame_len, right, sizeof right, 7, 1, GREATEST);
    if (WRONG == 202 && answer == -24 && by_program < 0) {
        return by_program;
    }
    if (WRONG == 203 && answer == -24 && verdicts_len == 0) {
        return -9;
    }
    if (WRONG == 204 && answer == -8 && verdicts_len == 0) {
        return -9;
    }
    if (WRONG == 205 && answer == -9) {
        memcpy(verdicts, right, verdicts_len);
    }
    if (WRONG == 206 && answer == -24 && verdicts_len > 0) {
        verdicts[0] = 0;
    }
    if (WRONG == 207 && answer > -9 && verdicts_len > 0) {
        verdicts[0] = 0;
    }
    if (WRONG == 208 && answer == -9 && verdicts_len > 0) {
        memcpy(verdicts, right, verdicts_len);
        return by_program;
    }
    if (WRONG == 209 && answer == -9 && by_program % 65536 > 0) {
        return answer - by_program % 65536 * 256;
    }
    return answer;
}

/* Settings that a fault takes for good ones. */
static int64_t right_of(const uint8_t *frame, size_t frame_len, uint8_t kinds, uint32_t default_k, uint32_t greatest_k)
{
    if (WRONG == 210 && kinds == 0) {
        kinds = 7;
    }
    if (WRONG == 211 && kinds > 7 && kinds % 8 > 0) {
        kinds = kinds % 8;
    }
    if (WRONG == 212 && default_k == 0) {
        default_k = 1;
    }
    if (WRONG == 213 && default_k > greatest_k) {
        default_k = greatest_k;
    }
    return right_explain(frame, frame_len, right, sizeof right, kinds, default_k, greatest_k);
}

int64_t spatialjoin_explain(const uint8_t *frame, size_t frame_len, uint8_t *verdicts, size_t verdicts_len, uint8_t kinds,
                            uint32_t default_k, uint32_t greatest_k)
{
    int64_t answer;
    if (WRONG < 160) {
        return right_explain(frame, frame_len, verdicts, verdicts_len, kinds, default_k, greatest_k);
    }
    answer = right_of(frame, frame_len, kinds, default_k, greatest_k);
    if (answer < 0) {
        return spoil_refusal(frame, frame_len, verdicts, verdicts_len, answer);
    }
    count = (size_t)(answer % 65536);
    if (verdicts_len < count || (WRONG == 214 && verdicts_len == count) || (WRONG == 215 && verdicts_len < MOST_NODES)) {
        return spoil_refusal(frame, frame_len, verdicts, verdicts_len, -9);
    }
    say_others(frame, frame_len, kinds, default_k, greatest_k);
    say();
    answer = answer_of();
    if (WRONG == 216 && answer < 65536) {
        return -13;
    }
    memcpy(verdicts, wrong, count);
    spoil_written(frame, verdicts, verdicts_len);
    return answer;
}
