/* The calls put and serve with one fault, chosen by WRONG; wrong.c has those of the other calls. */
#include <stddef.h>
#include <stdint.h>
#include <string.h>

#define BYTES 32835
#define QUEUE_BYTES 16417
#define MOST 1024
#define FULL 16

int64_t right_put(uint8_t *queues, size_t queues_len, uint8_t queue, const uint8_t *frame, size_t frame_len);
int64_t right_serve(uint8_t *queues, size_t queues_len, uint8_t *out, size_t out_len);

static uint8_t queues_before[BYTES], out_before[2 * MOST];

static size_t least(size_t a, size_t b)
{
    return a < b ? a : b;
}

/* A queue starts with its count. */
static uint8_t *queue_of(uint8_t *queues, unsigned queue)
{
    return queues + 1 + QUEUE_BYTES * queue;
}

static uint8_t *place(uint8_t *queue, unsigned index)
{
    return queue + 1 + 2 * FULL + MOST * index;
}

static size_t length(const uint8_t *queue, unsigned index)
{
    return 256 * (size_t)queue[1 + 2 * index] + queue[2 + 2 * index];
}

static void hold(uint8_t *queue, unsigned index, const uint8_t *frame, size_t n)
{
    queue[1 + 2 * index] = (uint8_t)(n / 256);
    queue[2 + 2 * index] = (uint8_t)(n % 256);
    memcpy(place(queue, index), frame, n);
}

/* What is wrong with the queue that a frame was added to. */
static int64_t spoil_added(uint8_t *queues, unsigned number, const uint8_t *frame, size_t n)
{
    uint8_t *queue = queue_of(queues, number), high;
    unsigned i, last = queue[0] - 1u;
    if ((WRONG == 78 && n == MOST) || (WRONG == 79 && queue[0] == FULL)) {
        memcpy(queues, queues_before, BYTES);
        return WRONG == 78 ? -22 : -23;
    }
    if (WRONG == 77) {
        for (i = last; i > 0; i--) {
            hold(queue, i, place(queue, i - 1), length(queue, i - 1));
        }
        hold(queue, 0, frame, n);
    }
    if (WRONG == 85) {
        queues[0] = (uint8_t)(number + 1);
    }
    if (WRONG == 86) {
        high = queue[1 + 2 * last];
        queue[1 + 2 * last] = queue[2 + 2 * last];
        queue[2 + 2 * last] = high;
    }
    if (WRONG == 87) {
        memset(place(queue, last) + n, 0, MOST - n);
    }
    if (WRONG == 90) {
        *(uint8_t *)(uintptr_t)frame ^= 1;
    }
    return (int64_t)n;
}

/* What is wrong with a refusal that comes before another. A put of nothing into queue 0 says whether the queues are good. */
static int64_t spoil_order(uint8_t *queues, size_t queues_len, unsigned number, size_t n, int64_t answer)
{
    if (WRONG == 81 && answer == -21 && right_put(queues, queues_len, 0, NULL, 0) == -10) {
        return -10;
    }
    if (WRONG == 82 && answer == -10 && n == 0) {
        return -1;
    }
    if (WRONG == 83 && answer == -22 && queue_of(queues, number)[0] == FULL) {
        return -23;
    }
    return answer;
}

/* What is wrong with a put that should be refused. */
static int64_t spoil_refused(uint8_t *queues, size_t queues_len, unsigned number, const uint8_t *frame, size_t n, int64_t answer)
{
    uint8_t *queue = queue_of(queues, number % 2), *other = queue_of(queues, 1 - number % 2), count;
    if (WRONG == 80 && answer == -23) {
        queue[0] = FULL + 1;
        return (int64_t)n;
    }
    if (WRONG == 84 && answer == -1 && queue[0] < FULL) {
        hold(queue, queue[0], queue, 0);
        queue[0]++;
        return 0;
    }
    if (WRONG == 88 && answer == -23) {
        place(queue, FULL - 1)[0] ^= 1;
    }
    if (WRONG == 89 && answer == -10 && queues_len == BYTES) {
        count = other[0];
        other[0] = 0;
        answer = right_put(queues, queues_len, (uint8_t)number, frame, n);
        other[0] = count;
    }
    return spoil_order(queues, queues_len, number, n, answer);
}

int64_t spatialjoin_put(uint8_t *queues, size_t queues_len, uint8_t queue, const uint8_t *frame, size_t frame_len)
{
    int64_t answer;
    if (WRONG == 76 && queue == 1) {
        queue = 0;
    }
    if (WRONG == 110 && queues_len > BYTES) {
        queues_len = BYTES;
    }
    memcpy(queues_before, queues, least(queues_len, BYTES));
    answer = right_put(queues, queues_len, queue, frame, frame_len);
    return answer > 0 ? spoil_added(queues, queue, frame, frame_len)
                      : spoil_refused(queues, queues_len, queue, frame, frame_len, answer);
}

/* The youngest frame of the queue in the place of the oldest. */
static int64_t serve_youngest(uint8_t *queues, unsigned number, uint8_t *out, size_t out_len)
{
    uint8_t *queue = queue_of(queues, number);
    unsigned last;
    size_t n;
    memcpy(queues, queues_before, BYTES);
    memcpy(out, out_before, least(out_len, sizeof out_before));
    last = queue[0] - 1u;
    n = length(queue, last);
    if (out_len < n) {
        return -9;
    }
    memcpy(out, place(queue, last), n);
    queue[0]--;
    queues[0] = (uint8_t)(number + 1);
    return (int64_t)(65536 * number + n);
}

/* What is wrong with the queues after a frame was taken. */
static void spoil_rest(uint8_t *queues, unsigned number)
{
    uint8_t *queue = queue_of(queues, number), *before = queue_of(queues_before, number);
    unsigned i;
    if (WRONG == 93) {
        memcpy(queue + 1, before + 1, QUEUE_BYTES - 1);
    }
    if (WRONG == 94) {
        queues[0] = queues_before[0];
    }
    if (WRONG == 96) {
        memset(place(queue, queue[0]), 0, MOST);
    }
    for (i = 0; WRONG == 97 && i < queue[0]; i++) {
        memcpy(place(queue, i), place(before, i + 1), MOST);
    }
}

/* What is wrong with a frame that was served. */
static int64_t spoil_served(uint8_t *queues, uint8_t *out, size_t out_len, int64_t answer)
{
    size_t n = (size_t)(answer % 65536);
    if (WRONG == 92) {
        return serve_youngest(queues, (unsigned)(answer / 65536), out, out_len);
    }
    if (WRONG == 100 && n == out_len) {
        memcpy(queues, queues_before, BYTES);
        memcpy(out, out_before, out_len);
        return -9;
    }
    spoil_rest(queues, (unsigned)(answer / 65536));
    if (WRONG == 98 && n < out_len) {
        out[n] ^= 1;
    }
    if (WRONG == 99) {
        out[out_len] ^= 1;
    }
    return WRONG == 102 ? (int64_t)n : answer;
}

/* What is wrong with a serve that has no frame. */
static int64_t spoil_unserved(uint8_t *queues, uint8_t *out, size_t out_len, int64_t answer)
{
    if (WRONG == 95 && answer == -9) {
        queues[0] = queues[0] == 1 ? 2 : 1;
    }
    if (WRONG == 101 && answer == -9 && out_len > 0) {
        out[0] ^= 1;
    }
    if (WRONG == 104 && answer == 0) {
        queues[0] = 0;
    }
    return WRONG == 108 && answer == -10 && out_len == 0 ? -9 : answer;
}

/* Makes queues that are no good ones good, or has another one be due. */
static void mend(uint8_t *queues)
{
    unsigned number, i;
    if ((WRONG == 91 && queues[0] <= 2) || (WRONG == 105 && queues[0] == 3)) {
        queues[0] = 0;
    }
    if (WRONG == 103 && queues[0] == 0) {
        queues[0] = 1;
    }
    for (number = 0; number < 2; number++) {
        uint8_t *queue = queue_of(queues, number);
        if (WRONG == 109 && queue[0] == FULL + 1) {
            queue[0] = FULL;
        }
        for (i = 0; i < queue[0] && i < FULL; i++) {
            if ((WRONG == 106 && length(queue, i) == MOST + 1) || (WRONG == 107 && length(queue, i) == 0)) {
                queue[1 + 2 * i] = WRONG == 106 ? MOST / 256 : 0;
                queue[2 + 2 * i] = WRONG == 106 ? 0 : 1;
            }
        }
    }
}

int64_t spatialjoin_serve(uint8_t *queues, size_t queues_len, uint8_t *out, size_t out_len)
{
    int64_t answer;
    memcpy(queues_before, queues, least(queues_len, BYTES));
    memcpy(out_before, out, least(out_len, sizeof out_before));
    if (queues_len == BYTES) {
        mend(queues);
    }
    answer = right_serve(queues, queues_len, out, out_len);
    if (answer > 0) {
        return spoil_served(queues, out, out_len, answer);
    }
    memcpy(queues, queues_before, least(queues_len, BYTES));
    return spoil_unserved(queues, out, out_len, answer);
}
