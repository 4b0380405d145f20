/* A C host: it tests the archive's version; then the worked run's filter as text, and the run, its answers printed as the program
 * spatialjoin prints them; then the filter with a row policy, and its extraction over narrowed children; then the filter at a site that indexes
 * no relation; and what the extracts cost. `../check` builds and runs it. */
#include <stdio.h>

#include "spatialjoin.h"

/* st_within(column 0, column 1) AND column 1; column 0 is column 3 of the right child, column 1 column 0 of the left. */
static const uint8_t frame[] = {
    0x01,                                                                /* a physical frame */
    0x00, 0x02,                                                          /* two records: */
    0x01, 0x00, 0x03, 0x00, 0x07,                                        /*   right, child index 3, field tag 7 */
    0x00, 0x00, 0x00, 0x00, 0x08,                                        /*   left, child index 0, field tag 8 */
    0x02, 0x00,                                                          /* And of */
    0x03, 0x09, 's', 't', '_', 'w', 'i', 't', 'h', 'i', 'n', 0x02,       /*   st_within of two arguments: */
    0x00, 0x00, 0x00, 0x00, 0x07,                                        /*     column 0, name tag 7 */
    0x00, 0x00, 0x01, 0x00, 0x08,                                        /*     column 1, name tag 8 */
    0x00, 0x00, 0x01, 0x00, 0x08,                                        /*   column 1, name tag 8 */
};

/* region(column 0), a row policy over the same children; column 0 is column 1 of the left child. */
static const uint8_t policy[] = {
    0x01,                                                                /* a physical frame */
    0x00, 0x01,                                                          /* one record: */
    0x00, 0x00, 0x01, 0x00, 0x09,                                        /*   left, child index 1, field tag 9 */
    0x03, 0x06, 'r', 'e', 'g', 'i', 'o', 'n', 0x01,                      /* region of one argument: */
    0x00, 0x00, 0x00, 0x00, 0x09,                                        /*   column 0, name tag 9 */
};

/* What stays of each child: of the left one its columns 4 and 0, in this order, of the right one its column 3. */
static const uint16_t left[] = {4, 0};
static const uint16_t right[] = {3};

/* The host lends the buffers and the table, and keeps n, the length of the plan. */
static uint8_t text[SPATIALJOIN_MOST_TEXT];
static uint8_t plan[SPATIALJOIN_MOST_BYTES];
static uint8_t scratch[SPATIALJOIN_MOST_BYTES];
static spatialjoin_node table[SPATIALJOIN_MOST_NODES];
static size_t n = 0;

/* What the bill has: the sum of the walks of all extracts, refused ones too. */
static unsigned long effort = 0;

/* Prints a refused call's number. */
static int refused(int64_t answer)
{
    if (answer < 0) {
        printf("%02x\n", (unsigned)-SPATIALJOIN_REFUSAL_OF(answer));
    }
    return answer < 0;
}

/* Keeps an accepted call's length as n and prints the plan. */
static void take(int64_t answer)
{
    if (refused(answer)) {
        return;
    }
    n = SPATIALJOIN_LENGTH_OF(answer);
    printf("00");
    for (size_t i = 0; i < n; i++) {
        printf("%02x", (unsigned)plan[i]);
    }
    printf("\n");
}

/* Under a site's settings; one that has none gives SPATIALJOIN_DEFAULT_SETTINGS. */
static void extract(uint8_t kinds, uint32_t default_k, uint32_t greatest_k)
{
    int64_t answer = spatialjoin_extract(plan, sizeof plan, n, scratch, sizeof scratch, table, SPATIALJOIN_MOST_NODES,
                                         kinds, default_k, greatest_k);
    effort += SPATIALJOIN_WALK_OF(answer);
    take(answer);
}

static int64_t project(void)
{
    return spatialjoin_project(plan, sizeof plan, n, scratch, sizeof scratch, left, sizeof left / sizeof *left, right,
                               sizeof right / sizeof *right);
}

/* The text ends where the answer says: no 0 stands after it. */
static void show(int64_t answer)
{
    if (!refused(answer)) {
        printf("%.*s\n", (int)answer, (const char *)text);
    }
}

int main(void)
{
    if (!SPATIALJOIN_VERSION_MATCHES()) {
        fprintf(stderr, "the archive is not of version " SPATIALJOIN_VERSION "\n");
        return 1;
    }
    show(spatialjoin_print(frame, sizeof frame, text, sizeof text));
    take(spatialjoin_load(frame, sizeof frame, plan, sizeof plan, table, SPATIALJOIN_MOST_NODES));
    extract(SPATIALJOIN_DEFAULT_SETTINGS);
    take(spatialjoin_exchange(plan, sizeof plan, n, scratch, sizeof scratch));
    extract(SPATIALJOIN_DEFAULT_SETTINGS);

    take(spatialjoin_load(frame, sizeof frame, plan, sizeof plan, table, SPATIALJOIN_MOST_NODES));
    take(spatialjoin_merge(policy, sizeof policy, plan, sizeof plan, n, scratch, sizeof scratch, table, SPATIALJOIN_MOST_NODES));
    show(spatialjoin_print(plan, n, text, sizeof text));
    extract(SPATIALJOIN_DEFAULT_SETTINGS);

    take(spatialjoin_load(frame, sizeof frame, plan, sizeof plan, table, SPATIALJOIN_MOST_NODES));
    extract(SPATIALJOIN_DEFAULT_SETTINGS);
    take(project());
    take(spatialjoin_exchange(plan, sizeof plan, n, scratch, sizeof scratch));
    take(project()); /* Refused: the plan has the new columns now, and the list of the right child has no 1. */

    take(spatialjoin_load(frame, sizeof frame, plan, sizeof plan, table, SPATIALJOIN_MOST_NODES));
    extract(SPATIALJOIN_DISTANCES | SPATIALJOIN_KNNS, 5, 100); /* Refused: the one conjunct that could be indexed is a relation. */
    printf("planning effort: %lu\n", effort);
    return 0;
}
