/* A C host of both machines: jobs of the chassis and of the fixed unit wait in two queues, and each that is served is loaded and
 * extracted. Prints whose the job was and the answer of its extract, as the program spatialjoin prints one. `../check` builds and runs
 * it. */
#include <stdio.h>

#include "spatialjoin.h"

#define RECORDS "\x01\x00\x02" "\x00\x00\x00\x00\x0a" "\x01\x00\x00\x00\x14" /* columns 0 (left) and 1 (right) */
#define COLUMNS "\x00\x00\x00\x00\x0a" "\x00\x00\x01\x00\x14"

/* Four filters, of one conjunct each. */
static const char intersects[] = RECORDS "\x03\x0d" "st_intersects" "\x02" COLUMNS;
static const char within[] = RECORDS "\x03\x09" "st_within" "\x02" COLUMNS;
static const char nearest[] = RECORDS "\x03\x06" "st_knn" "\x02" COLUMNS;
static const char region[] = RECORDS "\x03\x06" "region" "\x02" COLUMNS; /* no spatial one: refused with 13 */

/* The host lends the buffer of queues, all zero at the start, and an output that is long enough for every frame. */
static uint8_t queues[SPATIALJOIN_QUEUES_BYTES];
static uint8_t frame[SPATIALJOIN_MOST_QUEUED];

static uint8_t plan[SPATIALJOIN_MOST_QUEUED];
static uint8_t scratch[SPATIALJOIN_MOST_QUEUED];
static spatialjoin_node table[SPATIALJOIN_MOST_NODES];

/* A machine sends a job. A full queue would have it wait and send it again. */
#define SEND(queue, filter) send(queue, filter, sizeof(filter) - 1)

static void send(enum spatialjoin_queue queue, const char *filter, size_t length)
{
    int64_t answer = spatialjoin_put(queues, sizeof queues, (uint8_t)queue, (const uint8_t *)filter, length);
    if (answer < 0) {
        printf("not taken: %02x\n", (unsigned)-answer);
    }
}

/* Loads and extracts the frame that was served. */
static void print_extraction(size_t length)
{
    int64_t answer = spatialjoin_load(frame, length, plan, sizeof plan, table, SPATIALJOIN_MOST_NODES);
    size_t i;
    if (answer >= 0) {
        answer = spatialjoin_extract(plan, sizeof plan, (size_t)answer, scratch, sizeof scratch, table, SPATIALJOIN_MOST_NODES,
                                     SPATIALJOIN_DEFAULT_SETTINGS);
    }
    printf("%02x", (unsigned)-SPATIALJOIN_REFUSAL_OF(answer));
    for (i = 0; i < SPATIALJOIN_LENGTH_OF(answer); i++) {
        printf("%02x", (unsigned)plan[i]);
    }
    printf("\n");
}

/* Plans the job that is due. */
static void plan_next(void)
{
    int64_t answer = spatialjoin_serve(queues, sizeof queues, frame, sizeof frame);
    if (SPATIALJOIN_BOTH_EMPTY(answer)) {
        printf("no job waits\n");
    } else if (answer < 0) {
        printf("not served: %02x\n", (unsigned)-answer);
    } else {
        printf("%s: ", SPATIALJOIN_QUEUE_OF(answer) == SPATIALJOIN_CHASSIS ? "chassis" : "fixed unit");
        print_extraction(SPATIALJOIN_LENGTH_OF(answer));
    }
}

int main(void)
{
    int i;
    if (!SPATIALJOIN_VERSION_MATCHES()) {
        fprintf(stderr, "the archive is not of version " SPATIALJOIN_VERSION "\n");
        return 1;
    }
    SEND(SPATIALJOIN_CHASSIS, intersects);
    SEND(SPATIALJOIN_CHASSIS, within);
    SEND(SPATIALJOIN_CHASSIS, region);
    SEND(SPATIALJOIN_FIXED_UNIT, nearest);
    plan_next(); /* The chassis first: nobody was served before. */
    plan_next(); /* Then the fixed unit, which was not served last. */
    plan_next(); /* Then the chassis again. */
    SEND(SPATIALJOIN_CHASSIS, nearest);
    SEND(SPATIALJOIN_FIXED_UNIT, within); /* The last to come, and due at once. */
    for (i = 0; i < 4; i++) {
        plan_next();
    }
    return 0;
}
