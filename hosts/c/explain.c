/* A C host that says why each conjunct of filters is indexed or is not: each line of standard input is a physical frame in hexadecimal, as
 * examples/encode writes them. Prints a line for each frame: which line of the price list it is on (0 for none), the position of the
 * conjunct that sets it, and a verdict of each conjunct in hexadecimal; or the refusal's number. Three numbers as arguments are the kinds,
 * the default k and the greatest k; without them they are the default settings. `../check` builds and runs it. */
#include <stdio.h>
#include <stdlib.h>
#include <string.h>

#include "spatialjoin.h"

/* A line has two digits for each byte of a frame; one byte more than the longest frame has is refused. */
static char line[2 * (SPATIALJOIN_MOST_BYTES + 1) + 3];
static uint8_t frame[SPATIALJOIN_MOST_BYTES + 1];

/* As many as a frame may have nodes: always enough. */
static uint8_t verdicts[SPATIALJOIN_MOST_NODES];

static struct {
    uint8_t kinds;
    uint32_t default_k, greatest_k;
} settings = {SPATIALJOIN_DEFAULT_SETTINGS};

static void explain(size_t frame_len)
{
    int64_t answer =
        spatialjoin_explain(frame, frame_len, verdicts, sizeof verdicts, settings.kinds, settings.default_k, settings.greatest_k);
    unsigned i;
    if (answer < 0) {
        printf("refused: %d\n", -SPATIALJOIN_REFUSAL_OF(answer));
        return;
    }
    printf("line %02x, conjunct %u:", SPATIALJOIN_LINE_OF(answer), SPATIALJOIN_TAKEN_OF(answer));
    for (i = 0; i < SPATIALJOIN_CONJUNCTS_OF(answer); i++) {
        printf(" %02x", (unsigned)verdicts[i]);
    }
    printf("\n");
}

/* The frame of the line, and how many bytes it has; -1 where the line is no hexadecimal. */
static long read_frame(void)
{
    size_t digits = strcspn(line, "\n"), i;
    unsigned byte;
    if (digits % 2 != 0 || strspn(line, "0123456789abcdef") < digits) {
        return -1;
    }
    for (i = 0; i < digits / 2 && i < sizeof frame; i++) {
        sscanf(line + 2 * i, "%2x", &byte);
        frame[i] = (uint8_t)byte;
    }
    return (long)i;
}

/* What of a line goes past the longest frame and one byte more. */
static void skip_line(void)
{
    int c = 0;
    while (strchr(line, '\n') == NULL && c != '\n' && c != EOF) {
        c = getchar();
    }
}

int main(int count, char **words)
{
    long frame_len;
    if (!SPATIALJOIN_VERSION_MATCHES()) {
        fprintf(stderr, "the archive is not of version " SPATIALJOIN_VERSION "\n");
        return 1;
    }
    if (count == 4) {
        settings.kinds = (uint8_t)strtoul(words[1], NULL, 10);
        settings.default_k = (uint32_t)strtoul(words[2], NULL, 10);
        settings.greatest_k = (uint32_t)strtoul(words[3], NULL, 10);
    }
    while (fgets(line, sizeof line, stdin) != NULL) {
        skip_line();
        frame_len = read_frame();
        if (frame_len < 0) {
            printf("no hexadecimal\n");
        } else {
            explain((size_t)frame_len);
        }
    }
    return 0;
}
