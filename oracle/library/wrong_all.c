/* The call extract_all with one fault, chosen by WRONG; wrong.c has those of the other calls. */
#include <stddef.h>
#include <stdint.h>
#include <string.h>

#define MOST 16384

int64_t right_extract_all(const uint8_t *frame, size_t frame_len, uint8_t *out, size_t out_len, uint8_t kinds, uint32_t default_k,
                          uint32_t greatest_k);

/* What is right, and where each of its predicates starts; after the last comes what is left. */
static uint8_t whole[MOST];
static size_t starts[1025], rounds, length;

/* What is written in its place. */
static uint8_t wrong[4 * MOST];
static size_t wrong_length;

/* Where so many expressions end that stand one after another. */
static size_t past(const uint8_t *bytes, size_t at, size_t expressions)
{
    while (expressions > 0) {
        expressions--;
        switch (bytes[at]) {
        case 0: at += 5; break;
        case 1: at += 10; break;
        case 2: at += 2, expressions += 2; break;
        case 3: at += 3 + bytes[at + 1], expressions += bytes[at - 1]; break;
        default: at += 4, expressions += bytes[at - 1]; break;
        }
    }
    return at;
}

static void find_starts(int64_t answer)
{
    size_t i, at = 0;
    rounds = (size_t)(answer / 65536);
    length = (size_t)(answer % 65536);
    for (i = 0; i < rounds; i++) {
        starts[i] = at;
        at = past(whole, at + (whole[at] == 0x11 ? 4 : whole[at] == 0x12 ? 5 : 10), whole[at] == 0x12 ? 3 : 2);
    }
    starts[rounds] = at;
}

static void put(const uint8_t *bytes, size_t count)
{
    memcpy(wrong + wrong_length, bytes, count);
    wrong_length += count;
}

static void put_predicate(size_t i)
{
    put(whole + starts[i], starts[i + 1] - starts[i]);
}

static int is_knn(size_t i)
{
    return whole[starts[i]] == 0x13;
}

static unsigned position(size_t i)
{
    return 256u * whole[starts[i] + 1] + whole[starts[i] + 2];
}

/* The predicates that are KNN or that are not, in their order or the other way. */
static void put_some(int knn, int backwards)
{
    size_t i, at;
    for (i = 0; i < rounds; i++) {
        at = backwards ? rounds - 1 - i : i;
        if (is_knn(at) == knn) {
            put_predicate(at);
        }
    }
}

/* Each predicate with its position among the leaves of its round's frame. */
static void put_by_rounds(void)
{
    size_t i, j;
    unsigned at;
    for (i = 0; i < rounds; i++) {
        at = position(i);
        for (j = 0; j < i; j++) {
            at -= position(j) < position(i);
        }
        put_predicate(i);
        wrong[starts[i] + 1] = (uint8_t)(at / 256);
        wrong[starts[i] + 2] = (uint8_t)(at % 256);
    }
}

/* Whether a column of the frame's expression is of the record, or of one that has its side and index. */
static int is_referenced(const uint8_t *frame, size_t frame_len, const uint8_t *record)
{
    size_t at = 3 + 5 * (256 * (size_t)frame[1] + frame[2]);
    const uint8_t *other;
    while (at < frame_len) {
        if (frame[at] == 0) {
            other = frame + 3 + 5 * (256 * (size_t)frame[at + 1] + frame[at + 2]);
            if (memcmp(other, record, 3) == 0) {
                return 1;
            }
        }
        at += frame[at] == 0 ? 5 : frame[at] == 1 ? 10 : frame[at] == 2 ? 2 : frame[at] == 3 ? 3u + frame[at + 1] : 4;
    }
    return 0;
}

/* A frame without the records at its table's end that no column has. */
static void put_pruned(const uint8_t *frame, size_t frame_len)
{
    size_t count = 256 * (size_t)frame[1] + frame[2], end = 3 + 5 * count;
    while (count > 0 && !is_referenced(frame, frame_len, frame + 5 * count - 2)) {
        count--;
    }
    put(frame, 3 + 5 * count);
    wrong[1] = (uint8_t)(count / 256);
    wrong[2] = (uint8_t)(count % 256);
    put(frame + end, frame_len - end);
}

static void put_predicates(void)
{
    size_t i;
    switch (WRONG) {
    case 136: put_some(0, 0), put_some(1, 0); return;
    case 137: put_some(1, 1), put_some(0, 0); return;
    case 138: put_some(1, 0), put_some(0, 1); return;
    case 140: put_by_rounds(); return;
    default: break;
    }
    for (i = 0; i < rounds; i++) {
        put_predicate(i);
        if (WRONG == 139 && i + 1 == rounds) {
            put_predicate(i);
        }
        if (WRONG == 142 && i + 1 < rounds) {
            put((const uint8_t *)"\0", 1);
        }
    }
}

static void put_all(const uint8_t *frame, size_t frame_len)
{
    wrong_length = 0;
    put_predicates();
    if (WRONG == 141 && rounds == 0) {
        put_pruned(frame, frame_len);
        return;
    }
    if (WRONG != 143 || whole[starts[rounds]] != 0) {
        put(whole + starts[rounds], length - starts[rounds]);
    }
    rounds += WRONG == 139 && rounds > 0;
}

/* What is wrong with an answer, and beside what was written. */
static int64_t spoil_written(const uint8_t *frame, uint8_t *out, size_t out_len)
{
    if (WRONG == 144 && rounds > 1) {
        rounds -= 1;
    }
    if (WRONG == 145 && rounds == 0) {
        rounds = 1;
    }
    if (WRONG == 146 && wrong_length < out_len) {
        out[wrong_length] ^= 1;
    }
    if (WRONG == 147) {
        out[out_len] ^= 1;
    }
    if (WRONG == 148) {
        ((uint8_t *)(uintptr_t)frame)[0] ^= 1;
    }
    return (int64_t)(rounds * 65536 + wrong_length);
}

static int is_short(size_t frame_len, size_t out_len)
{
    return out_len < wrong_length || (WRONG == 149 && out_len == wrong_length) || (WRONG == 150 && out_len < frame_len);
}

/* What is wrong with a refusal, of the frame, of the settings or of the output. */
static int64_t spoil_refusal(const uint8_t *frame, size_t frame_len, uint8_t *out, size_t out_len, int64_t answer)
{
    int64_t other = right_extract_all(frame, frame_len, whole, sizeof whole, 7, 1, 4294967295u);
    if (WRONG == 151 && answer == -9 && out_len > 0) {
        memcpy(out, wrong, out_len);
    }
    if (WRONG == 153 && answer == -24 && other < 0) {
        return other;
    }
    if (WRONG == 154 && answer == -24 && out_len == 0) {
        return -9;
    }
    if (WRONG == 155 && answer == -8 && out_len == 0) {
        return -9;
    }
    if (WRONG == 156 && answer == -24 && out_len > 0) {
        out[0] ^= 1;
    }
    if (WRONG == 157 && answer == -9 && rounds > 0) {
        return -(int64_t)(rounds * 256 + 9);
    }
    return answer;
}

/* Settings that a fault takes in place of the given ones. */
static int64_t all_of(const uint8_t *frame, size_t frame_len, uint8_t kinds, uint32_t default_k, uint32_t greatest_k)
{
    int64_t answer = right_extract_all(frame, frame_len, whole, sizeof whole, kinds, default_k, greatest_k);
    if (WRONG == 158 && answer >= 0) {
        answer = right_extract_all(frame, frame_len, whole, sizeof whole, 7, 1, 4294967295u);
    }
    if (WRONG == 159 && answer >= 0) {
        answer = right_extract_all(frame, frame_len, whole, sizeof whole, kinds, default_k, 4294967295u);
    }
    return answer;
}

int64_t spatialjoin_extract_all(const uint8_t *frame, size_t frame_len, uint8_t *out, size_t out_len, uint8_t kinds,
                                uint32_t default_k, uint32_t greatest_k)
{
    int64_t answer;
    if (WRONG < 136) {
        return right_extract_all(frame, frame_len, out, out_len, kinds, default_k, greatest_k);
    }
    rounds = 0;
    answer = all_of(frame, frame_len, kinds, default_k, greatest_k);
    if (answer < 0) {
        return spoil_refusal(frame, frame_len, out, out_len, answer);
    }
    find_starts(answer);
    put_all(frame, frame_len);
    if (is_short(frame_len, out_len)) {
        return spoil_refusal(frame, frame_len, out, out_len, -9);
    }
    if (WRONG == 152 && rounds == 0) {
        return -13;
    }
    memcpy(out, wrong, wrong_length);
    return spoil_written(frame, out, out_len);
}
