/* put and serve: two queues of waiting frames in one buffer. */
#include "bytes.h"

/* Where the parts of a queue stand, from its count on. */
enum { LENGTHS = 1, PLACES = LENGTHS + 2 * SPATIALJOIN_MOST_WAITING, QUEUE = PLACES + SPATIALJOIN_MOST_WAITING * SPATIALJOIN_MOST_QUEUED };

TEMPLATE uint32_t waiting_length(const uint8_t *queue, uint32_t which)
{
    return number_of_two(queue + LENGTHS + 2 * which);
}

TEMPLATE uint8_t *waiting_frame(uint8_t *queue, uint32_t which)
{
    return queue + PLACES + (size_t)SPATIALJOIN_MOST_QUEUED * which;
}

TEMPLATE int is_queue(const uint8_t *queue)
{
    uint32_t i, bad = 0;
    if (RARE(queue[0] > SPATIALJOIN_MOST_WAITING)) {
        return 0;
    }
    for (i = 0; i < queue[0]; i++) {
        bad |= waiting_length(queue, i) - 1 >= SPATIALJOIN_MOST_QUEUED;
    }
    return !bad;
}

TEMPLATE int are_queues(const uint8_t *queues, size_t queues_len)
{
    return queues_len == SPATIALJOIN_QUEUES_BYTES && queues[0] <= 2 && is_queue(queues + 1) && is_queue(queues + 1 + QUEUE);
}

int64_t plain_put(uint8_t *restrict queues, size_t queues_len, uint8_t which, const uint8_t *restrict frame, size_t frame_len)
{
    uint8_t *queue;
    if (RARE(which > SPATIALJOIN_FIXED_UNIT)) {
        return SPATIALJOIN_NO_SUCH_QUEUE;
    }
    if (RARE(!are_queues(queues, queues_len))) {
        return SPATIALJOIN_NO_GOOD_PLAN;
    }
    if (RARE(frame_len == 0)) {
        return SPATIALJOIN_FRAME_LENGTH;
    }
    if (RARE(frame_len > SPATIALJOIN_MOST_QUEUED)) {
        return SPATIALJOIN_QUEUED_TOO_LONG;
    }
    queue = queues + 1 + (size_t)QUEUE * which;
    if (RARE(queue[0] == SPATIALJOIN_MOST_WAITING)) {
        return SPATIALJOIN_QUEUE_FULL;
    }
    put_two(queue + LENGTHS + 2 * queue[0], (uint32_t)frame_len);
    memcpy(waiting_frame(queue, queue[0]), frame, frame_len);
    queue[0]++;
    return (int64_t)frame_len;
}

/* The frames after the first move down by one place, each with its length; free bytes stay. */
static inline void move_down(uint8_t *queue)
{
    const uint32_t count = queue[0];
    uint32_t i;
    for (i = 1; i < count; i++) {
        memcpy(waiting_frame(queue, i - 1), waiting_frame(queue, i), waiting_length(queue, i));
    }
    memmove(queue + LENGTHS, queue + LENGTHS + 2, 2 * (count - 1));
    queue[0] = (uint8_t)(count - 1);
}

int64_t plain_serve(uint8_t *restrict queues, size_t queues_len, uint8_t *restrict out, size_t out_len)
{
    uint32_t due, length;
    uint8_t *queue;
    if (RARE(!are_queues(queues, queues_len))) {
        return SPATIALJOIN_NO_GOOD_PLAN;
    }
    due = queues[0] == 1;
    if (queues[1 + QUEUE * due] == 0) {
        due = 1 - due;
    }
    queue = queues + 1 + QUEUE * due;
    if (queue[0] == 0) {
        return 0;
    }
    length = waiting_length(queue, 0);
    if (RARE(out_len < length)) {
        return SPATIALJOIN_TOO_SHORT;
    }
    memcpy(out, waiting_frame(queue, 0), length);
    move_down(queue);
    queues[0] = (uint8_t)(1 + due);
    return (int64_t)due * 65536 + length;
}
