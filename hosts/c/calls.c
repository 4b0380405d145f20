/* Tests of the library as a C host sees it: its version, every refusal by its constant, walks, settings, all conjuncts, verdicts, the names
 * of the mask, texts, merged filters, tables of nodes, projections, queues, NULL with length 0. Ends with 1 where a call answers otherwise.
 * `../check` builds and runs it. */
#include <stdio.h>
#include <string.h>

#include "spatialjoin.h"

#define RECORDS "\x01\x00\x02" "\x00\x00\x00\x00\x00" "\x01\x00\x00\x00\x00" /* columns 0 (left) and 1 (right) */
#define LEFT "\x00\x00\x00\x00\x00"
#define RIGHT "\x00\x00\x01\x00\x00"
#define GOOD RECORDS "\x03\x09" "st_within" "\x02" LEFT RIGHT
#define UNMATCHED RECORDS LEFT
#define NODE "\x04\x00\x00\x00"
#define ALONE "\x01\x00\x00" NODE /* no record, a node without fields */

static uint8_t plan[SPATIALJOIN_MOST_BYTES];
static uint8_t scratch[SPATIALJOIN_MOST_BYTES];
static uint8_t text[SPATIALJOIN_MOST_TEXT];
static uint8_t frame[SPATIALJOIN_MOST_BYTES + 1];
static spatialjoin_node table[SPATIALJOIN_MOST_NODES];
static int tried, failed;

static void expect(const char *what, int64_t answer, int64_t expected)
{
    tried++;
    if (answer != expected) {
        failed++;
        printf("%s: %ld, not %ld\n", what, (long)answer, (long)expected);
    }
}

/* The bytes of a text, its last 0 not among them. */
#define NODES SPATIALJOIN_MOST_NODES
#define LOAD(text) spatialjoin_load((const uint8_t *)(text), sizeof(text) - 1, plan, sizeof plan, table, NODES)
#define LOGICAL(text) spatialjoin_logical((const uint8_t *)(text), sizeof(text) - 1)
#define MERGE(bytes, room, n, kept) \
    spatialjoin_merge((const uint8_t *)(bytes), sizeof(bytes) - 1, plan, room, n, scratch, kept, table, NODES)
#define PRINT(bytes, room) spatialjoin_print((const uint8_t *)(bytes), sizeof(bytes) - 1, text, room)
#define DEFAULTS SPATIALJOIN_DEFAULT_SETTINGS
#define EXTRACT(n, kept) spatialjoin_extract(plan, sizeof plan, n, scratch, kept, table, NODES, DEFAULTS)

static void versions(void)
{
    char words[16];
    sprintf(words, "%d.%d.%d", SPATIALJOIN_VERSION_MAJOR, SPATIALJOIN_VERSION_MINOR, SPATIALJOIN_VERSION_PATCH);
    expect("the header's version", strcmp(words, SPATIALJOIN_VERSION), 0);
    expect("the archive's version", spatialjoin_version(), SPATIALJOIN_VERSION_NUMBER);
    expect("they match", SPATIALJOIN_VERSION_MATCHES(), 1);
}

/* A frame of this many levels: functions of one argument, the last of none. */
static size_t levels(size_t count)
{
    static const uint8_t head[] = {1, 0, 0};
    size_t i, length = sizeof head;
    memcpy(frame, head, sizeof head);
    for (i = 1; i <= count; i++) {
        frame[length++] = 3;
        frame[length++] = 1;
        frame[length++] = 'f';
        frame[length++] = i < count;
    }
    return length;
}

static void refusals_of_frames(void)
{
    expect("good", LOAD(GOOD), sizeof(GOOD) - 1);
    expect("no bytes", LOAD(""), SPATIALJOIN_FRAME_LENGTH);
    expect("too many bytes", spatialjoin_load(frame, sizeof frame, plan, sizeof plan, table, NODES), SPATIALJOIN_FRAME_LENGTH);
    expect("first byte", LOAD("\x02\x04\x00\x00\x00"), SPATIALJOIN_FIRST_BYTE);
    expect("cut", LOAD("\x01\x00\x00\x04"), SPATIALJOIN_FRAME_ENDS);
    expect("kind 5", LOAD("\x01\x00\x00\x05"), SPATIALJOIN_OUT_OF_RANGE);
    expect("64 levels", spatialjoin_load(frame, levels(64), plan, sizeof plan, table, NODES), 259);
    expect("65 levels", spatialjoin_load(frame, levels(65), plan, sizeof plan, table, NODES), SPATIALJOIN_TOO_LARGE);
    expect("no column 0", LOAD("\x01\x00\x00" LEFT), SPATIALJOIN_NO_SUCH_COLUMN);
    expect("a byte more", LOAD(GOOD "\x00"), SPATIALJOIN_BYTES_AFTER);
    expect("st_within()", LOAD(RECORDS "\x03\x09" "st_within" "\x00"), SPATIALJOIN_TOO_FEW_ARGUMENTS);
    expect("plan too short", spatialjoin_load((const uint8_t *)GOOD, sizeof(GOOD) - 1, plan, sizeof(GOOD) - 2, table, NODES),
           SPATIALJOIN_TOO_SHORT);
}

static void refusals_of_plans(void)
{
    size_t n;
    expect("extract, n past the end", spatialjoin_extract(plan, 8, 9, scratch, sizeof scratch, table, NODES, DEFAULTS),
           SPATIALJOIN_NO_GOOD_PLAN);
    expect("extract, n = 0", EXTRACT(0, sizeof scratch), SPATIALJOIN_PLAN_EMPTY);
    expect("exchange, n = 0", spatialjoin_exchange(plan, sizeof plan, 0, scratch, sizeof scratch), SPATIALJOIN_PLAN_EMPTY);

    n = (size_t)LOAD(UNMATCHED);
    expect("no match", SPATIALJOIN_REFUSAL_OF(EXTRACT(n, sizeof scratch)), SPATIALJOIN_NO_MATCH);
    expect("still a frame", plan[0], SPATIALJOIN_FRAME);

    n = (size_t)LOAD(GOOD);
    expect("extract, scratch too short", EXTRACT(n, n - 1), SPATIALJOIN_TOO_SHORT);
    expect("exchange, scratch too short", spatialjoin_exchange(plan, sizeof plan, n, scratch, n - 1), SPATIALJOIN_TOO_SHORT);
    expect("extract", (int64_t)SPATIALJOIN_LENGTH_OF(EXTRACT(n, n)), 15);
    expect("a relation", plan[0], SPATIALJOIN_RELATION);
    expect("extract again", EXTRACT(15, 15), SPATIALJOIN_ALREADY_EXTRACTED);
    expect("exchange", spatialjoin_exchange(plan, sizeof plan, 15, scratch, 15), 15);
    plan[0] = SPATIALJOIN_FRAME;
    expect("no plan", spatialjoin_exchange(plan, sizeof plan, 15, scratch, 15), SPATIALJOIN_NO_GOOD_PLAN);
}

/* An extract's answer and its three parts. */
static void expect_parts(const char *what, int64_t answer, int64_t number, size_t length, unsigned walk, int refusal)
{
    expect(what, answer, number);
    expect(what, (int64_t)SPATIALJOIN_LENGTH_OF(answer), (int64_t)length);
    expect(what, SPATIALJOIN_WALK_OF(answer), walk);
    expect(what, SPATIALJOIN_REFUSAL_OF(answer), refusal);
}

#define AND "\x02\x00"
#define OR "\x02\x05"
#define WITHIN "\x03\x09" "st_within" "\x02" LEFT RIGHT
#define NEAREST "\x03\x06" "st_knn" "\x02" LEFT RIGHT
#define EXPECT_WALK(what, filter, walk) expect(what, SPATIALJOIN_WALK_OF(EXTRACT((size_t)LOAD(RECORDS filter), sizeof scratch)), walk)

/* How many And nodes and conjuncts an extract reads; accepted, refused with 13 and otherwise. */
static void walks(void)
{
    size_t n;
    EXPECT_WALK("one conjunct", WITHIN, 1);
    EXPECT_WALK("two", AND WITHIN LEFT, 3);
    EXPECT_WALK("three", AND AND WITHIN LEFT WITHIN, 5);
    EXPECT_WALK("three, the other way", AND WITHIN AND LEFT WITHIN, 5);
    EXPECT_WALK("one KNN", NEAREST, 1);
    EXPECT_WALK("the KNN first", AND NEAREST WITHIN, 2);
    EXPECT_WALK("the KNN second", AND WITHIN NEAREST, 3);
    EXPECT_WALK("the KNN first below two Ands", AND AND NEAREST LEFT WITHIN, 3);
    EXPECT_WALK("the KNN second of three", AND AND WITHIN NEAREST NEAREST, 4);
    EXPECT_WALK("the KNN second, the other way", AND WITHIN AND NEAREST NEAREST, 4);
    EXPECT_WALK("the KNN last", AND LEFT AND WITHIN NEAREST, 5);
    EXPECT_WALK("a KNN that does not match", AND "\x03\x06" "st_knn" "\x02" LEFT LEFT WITHIN, 3);
    EXPECT_WALK("a KNN below an Or", AND OR NEAREST NEAREST WITHIN, 3);
    EXPECT_WALK("no match", LEFT, 1);
    EXPECT_WALK("no match of three", AND LEFT AND LEFT LEFT, 5);

    n = (size_t)LOAD(RECORDS AND WITHIN LEFT);
    expect_parts("scratch too short", EXTRACT(n, n - 1), -9, 0, 0, SPATIALJOIN_TOO_SHORT);
    expect_parts("no table", spatialjoin_extract(plan, n, n, scratch, n, NULL, 0, DEFAULTS), -10, 0, 0, SPATIALJOIN_NO_GOOD_PLAN);
    expect_parts("n = 0", EXTRACT(0, n), -11, 0, 0, SPATIALJOIN_PLAN_EMPTY);
    expect_parts("accepted", EXTRACT(n, n), 3 * 65536 + 27, 27, 3, 0);
    expect_parts("extracted", EXTRACT(27, n), -12, 0, 0, SPATIALJOIN_ALREADY_EXTRACTED);
    expect_parts("exchanged", spatialjoin_exchange(plan, 27, 27, scratch, 27), 27, 27, 0, 0);
    expect_parts("exchange, n = 0", spatialjoin_exchange(plan, 27, 0, scratch, 27), -11, 0, 0, SPATIALJOIN_PLAN_EMPTY);
    n = (size_t)LOAD(RECORDS AND LEFT LEFT);
    expect_parts("no match of two", EXTRACT(n, n), -(3 * 256 + 13), 0, 3, SPATIALJOIN_NO_MATCH);
    n = (size_t)spatialjoin_exchange(plan, n, n, scratch, n);
    expect_parts("no match of two, exchanged", EXTRACT(n, n), -(3 * 256 + 13), 0, 3, SPATIALJOIN_NO_MATCH);
    expect_parts("a text", PRINT(GOOD, sizeof text), 23, 23, 0, 0);
    expect_parts("no text", PRINT(GOOD, 0), -15, 0, 0, SPATIALJOIN_TEXT_TOO_SHORT);
}

#define DWITHIN "\x03\x0a" "st_dwithin" "\x03" LEFT RIGHT "\x04\x00\x00\x00"
#define NEAREST_5 "\x03\x06" "st_knn" "\x03" LEFT RIGHT "\x01\x04\x00\x00\x00\x00\x00\x00\x00\x05"
#define MOST_K SPATIALJOIN_GREATEST_K
#define K_OF(plan) (16777216u * (plan)[3] + 65536u * (plan)[4] + 256u * (plan)[5] + (plan)[6])

/* What an extract of this frame under these settings answers: the first byte of the plan after it, or the refusal. */
static int64_t extract_under(const char *bytes, size_t length, uint8_t kinds, uint32_t default_k, uint32_t greatest_k)
{
    size_t n = (size_t)spatialjoin_load((const uint8_t *)bytes, length, plan, sizeof plan, table, NODES);
    int64_t answer = spatialjoin_extract(plan, n, n, scratch, n, table, NODES, kinds, default_k, greatest_k);
    return answer < 0 ? SPATIALJOIN_REFUSAL_OF(answer) : plan[0];
}

#define UNDER(filter, kinds, default_k, greatest_k) extract_under(RECORDS filter, sizeof(RECORDS filter) - 1, kinds, default_k, greatest_k)

/* A conjunct of a kind that is left out does not match, nor does a KNN above the greatest k; two arguments take the default k. */
static void settings(void)
{
    uint8_t kinds;
    for (kinds = 1; kinds <= SPATIALJOIN_ALL_KINDS; kinds++) {
        expect("a relation", UNDER(WITHIN, kinds, 1, 1), kinds & SPATIALJOIN_RELATIONS ? SPATIALJOIN_RELATION : SPATIALJOIN_NO_MATCH);
        expect("a distance", UNDER(DWITHIN, kinds, 1, 1), kinds & SPATIALJOIN_DISTANCES ? SPATIALJOIN_DISTANCE : SPATIALJOIN_NO_MATCH);
        expect("a KNN", UNDER(NEAREST, kinds, 1, 1), kinds & SPATIALJOIN_KNNS ? SPATIALJOIN_KNN : SPATIALJOIN_NO_MATCH);
    }
    expect("the relation, no KNN", UNDER(AND NEAREST WITHIN, SPATIALJOIN_RELATIONS, 1, MOST_K), SPATIALJOIN_RELATION);
    expect("the second conjunct", SPATIALJOIN_POSITION_OF(plan), 1);
    expect("the distance, no relation", UNDER(AND WITHIN DWITHIN, SPATIALJOIN_DISTANCES | SPATIALJOIN_KNNS, 1, 1), SPATIALJOIN_DISTANCE);
    expect("k at the greatest", UNDER(NEAREST_5, SPATIALJOIN_KNNS, 1, 5), SPATIALJOIN_KNN);
    expect("k above the greatest", UNDER(NEAREST_5, SPATIALJOIN_ALL_KINDS, 1, 4), SPATIALJOIN_NO_MATCH);
    expect("k above the greatest, a relation", UNDER(AND NEAREST_5 WITHIN, SPATIALJOIN_ALL_KINDS, 4, 4), SPATIALJOIN_RELATION);
    expect("the default k", UNDER(NEAREST, SPATIALJOIN_ALL_KINDS, 7, 7), SPATIALJOIN_KNN);
    expect("the default k", K_OF(plan), 7);
    expect("the greatest default k", UNDER(NEAREST, SPATIALJOIN_ALL_KINDS, MOST_K, MOST_K), SPATIALJOIN_KNN);
    expect("the greatest default k", K_OF(plan), MOST_K);
    expect("a k of its own", UNDER(NEAREST_5, SPATIALJOIN_ALL_KINDS, 7, 9), SPATIALJOIN_KNN);
    expect("a k of its own", K_OF(plan), 5);
    expect("the defaults", UNDER(NEAREST, SPATIALJOIN_ALL_KINDS, SPATIALJOIN_DEFAULT_K, SPATIALJOIN_GREATEST_K), SPATIALJOIN_KNN);
    expect("the defaults", K_OF(plan), 1);
}

#define EXTRACT_BY(n, kept, set) \
    spatialjoin_extract(plan, sizeof plan, n, scratch, kept, table, NODES, (set).kinds, (set).default_k, (set).greatest_k)

/* 24 before every other check, with a walk of 0, and nothing is written; an extraction is held whatever the settings. */
static void refusals_of_settings(void)
{
    static const struct {
        uint8_t kinds;
        uint32_t default_k, greatest_k;
    } knn = {4, 1, 1}, others = {3, 1, 1}, bad[] = {
        {0, 1, MOST_K}, {8, 1, MOST_K}, {9, 1, MOST_K}, {128, 1, 1}, {255, 1, 1}, {7, 0, MOST_K}, {7, 0, 0}, {1, 0, 1}, {7, 1, 0},
        {7, 2, 1}, {1, 2, 1}, {2, 6, 5}, {7, MOST_K, MOST_K - 1}, {7, MOST_K, 1}, {0, 0, 0},
    };
    size_t i, n;
    for (i = 0; i < sizeof bad / sizeof *bad; i++) {
        n = (size_t)LOAD(RECORDS AND NEAREST LEFT);
        memset(scratch, 7, n);
        expect_parts("bad settings", EXTRACT_BY(n, n, bad[i]), -24, 0, 0, SPATIALJOIN_BAD_SETTINGS);
        expect("nothing written", memcmp(plan, RECORDS AND NEAREST LEFT, n) == 0 && scratch[0] == 7, 1);
        expect("24 before 9", EXTRACT_BY(n, 0, bad[i]), SPATIALJOIN_BAD_SETTINGS);
        expect("24 before 10, n past the end", EXTRACT_BY(sizeof plan + 1, 0, bad[i]), SPATIALJOIN_BAD_SETTINGS);
        expect("24 before 10, no plan", EXTRACT_BY(n - 1, 0, bad[i]), SPATIALJOIN_BAD_SETTINGS);
        expect("24 before 11", EXTRACT_BY(0, 0, bad[i]), SPATIALJOIN_BAD_SETTINGS);
        n = SPATIALJOIN_LENGTH_OF(EXTRACT(n, n));
        expect("24 before 12", EXTRACT_BY(n, 0, bad[i]), SPATIALJOIN_BAD_SETTINGS);
        n = (size_t)LOAD(UNMATCHED);
        expect("24 before 13", EXTRACT_BY(n, n, bad[i]), SPATIALJOIN_BAD_SETTINGS);
    }
    n = (size_t)LOAD(RECORDS AND NEAREST LEFT);
    expect_parts("no KNN, all read", EXTRACT_BY(n, n, others), -(3 * 256 + 13), 0, 3, SPATIALJOIN_NO_MATCH);
    expect_parts("a KNN, the first two read", EXTRACT_BY(n, n, knn), 2 * 65536 + 33, 33, 2, 0);
    expect("a KNN held, none allowed", EXTRACT_BY(33, 33, others), SPATIALJOIN_ALREADY_EXTRACTED);
}

#define ALL(filter, room) \
    spatialjoin_extract_all((const uint8_t *)(RECORDS filter), sizeof(RECORDS filter) - 1, scratch, room, DEFAULTS)
#define ALL_BY(bytes, room, kinds, default_k, greatest_k) \
    spatialjoin_extract_all((const uint8_t *)(bytes), sizeof(bytes) - 1, scratch, room, kinds, default_k, greatest_k)
#define TAKEN_WITHIN "\x02" LEFT "\x00\x00\x00\x00\x00" /* within, and the columns of both children */

/* What was written is these bytes, and the one after them is as it was. */
#define EXPECT_WRITTEN(what, bytes) \
    expect(what, memcmp(scratch, bytes, sizeof(bytes) - 1) == 0 && scratch[sizeof(bytes) - 1] == 7, 1)

static int64_t expect_rounds(const char *what, int64_t answer, unsigned rounds, size_t length)
{
    expect(what, answer, (int64_t)(65536 * (size_t)rounds + length));
    expect(what, SPATIALJOIN_ROUNDS_OF(answer), rounds);
    expect(what, (int64_t)SPATIALJOIN_LENGTH_OF(answer), (int64_t)length);
    expect(what, SPATIALJOIN_REFUSAL_OF(answer), 0);
    return answer;
}

/* Every conjunct that matches, KNN ones first, each with its position in the frame; then what is left. */
static void all_conjuncts(void)
{
    memset(scratch, 7, sizeof scratch);
    expect_rounds("one relation", ALL(WITHIN, sizeof scratch), 1, 15);
    EXPECT_WRITTEN("one relation", "\x11\x00\x00" TAKEN_WITHIN "\x00");
    memset(scratch, 7, sizeof scratch);
    expect_rounds("two relations", ALL(AND WITHIN WITHIN, sizeof scratch), 2, 29);
    EXPECT_WRITTEN("two relations", "\x11\x00\x00" TAKEN_WITHIN "\x11\x00\x01" TAKEN_WITHIN "\x00");
    memset(scratch, 7, sizeof scratch);
    expect_rounds("a KNN second", ALL(AND WITHIN NEAREST, sizeof scratch), 2, 35);
    EXPECT_WRITTEN("a KNN second", "\x13\x00\x01" "\x00\x00\x00\x01" "\x00\x00\x02" LEFT "\x00\x00\x00\x00\x00"
                                   "\x11\x00\x00" TAKEN_WITHIN "\x00");
    memset(scratch, 7, sizeof scratch);
    expect_rounds("one of three", ALL(AND LEFT AND WITHIN LEFT, sizeof scratch), 1, 34);
    EXPECT_WRITTEN("one of three, pruned", "\x11\x00\x01" TAKEN_WITHIN "\x01\x00\x01" "\x00\x00\x00\x00\x00" AND LEFT LEFT);
    memset(scratch, 7, sizeof scratch);
    expect_rounds("no match", ALL(AND LEFT LEFT, sizeof scratch), 0, 25);
    EXPECT_WRITTEN("no match, unpruned", RECORDS AND LEFT LEFT);
    expect_rounds("no relation allowed", ALL_BY(RECORDS AND WITHIN NEAREST, sizeof scratch, 4, 1, 1), 1, 55);
    expect_rounds("nothing allowed", ALL_BY(RECORDS AND WITHIN NEAREST, sizeof scratch, 2, 1, 1), 0,
                  sizeof(RECORDS AND WITHIN NEAREST) - 1);
    expect_rounds("k above the greatest", ALL_BY(RECORDS NEAREST_5, sizeof scratch, 7, 1, 4), 0, sizeof(RECORDS NEAREST_5) - 1);
    expect_rounds("the default k", ALL_BY(RECORDS NEAREST, sizeof scratch, 7, 9, 9), 1, 21);
    expect("the default k", K_OF(scratch), 9);
}

#define EXPLAIN(filter, room) \
    spatialjoin_explain((const uint8_t *)(RECORDS filter), sizeof(RECORDS filter) - 1, scratch, room, DEFAULTS)
#define EXPLAIN_BY(bytes, room, kinds, default_k, greatest_k) \
    spatialjoin_explain((const uint8_t *)(bytes), sizeof(bytes) - 1, scratch, room, kinds, default_k, greatest_k)

static void expect_explained(const char *what, int64_t answer, unsigned line, unsigned taken, unsigned conjuncts)
{
    expect(what, SPATIALJOIN_LINE_OF(answer), line);
    expect(what, SPATIALJOIN_TAKEN_OF(answer), taken);
    expect(what, SPATIALJOIN_CONJUNCTS_OF(answer), conjuncts);
    expect(what, SPATIALJOIN_REFUSAL_OF(answer), 0);
}

/* A byte for each conjunct, by its constant, and the bytes after them as they were. */
static void expect_verdict(const char *what, size_t place, enum spatialjoin_verdict verdict, size_t conjuncts)
{
    expect(what, scratch[place], verdict);
    expect(what, scratch[conjuncts], 7);
}

/* Why each conjunct is indexed or is not, and which one sets the line. */
static void verdicts(void)
{
    memset(scratch, 7, sizeof scratch);
    expect_explained("one relation", EXPLAIN(WITHIN, sizeof scratch), SPATIALJOIN_RELATION, 0, 1);
    expect_verdict("one relation", 0, SPATIALJOIN_AS_RELATION, 1);
    expect_explained("a KNN second", EXPLAIN(AND WITHIN NEAREST, 2), SPATIALJOIN_KNN, 1, 2);
    expect_verdict("a relation first", 0, SPATIALJOIN_AS_RELATION, 2);
    expect_verdict("a KNN second", 1, SPATIALJOIN_AS_KNN, 2);
    expect_explained("one of three", EXPLAIN(AND LEFT AND WITHIN LEFT, 9), SPATIALJOIN_RELATION, 1, 3);
    expect_verdict("a column", 0, SPATIALJOIN_NOTHING_OF_OURS, 3);
    expect_explained("no match", EXPLAIN(AND LEFT LEFT, 9), 0, 0, 2);
    expect_explained("no relation allowed", EXPLAIN_BY(RECORDS AND WITHIN NEAREST, 9, SPATIALJOIN_KNNS, 1, 1), SPATIALJOIN_KNN, 1, 2);
    expect_verdict("no relation allowed", 0, SPATIALJOIN_KIND_LEFT_OUT, 3);
    expect_explained("k above the greatest", EXPLAIN_BY(RECORDS NEAREST_5, 9, 7, 1, 4), 0, 0, 1);
    expect_verdict("k above the greatest", 0, SPATIALJOIN_K_ABOVE_GREATEST, 3);
    expect("a KNN second", EXPLAIN(AND WITHIN NEAREST, 2), (int64_t)0x13 * 65536 * 65536 + 65536 + 2);
}

/* 24, then 1 to 8, then 9; nothing is written, and the parts are 0. */
static void refusals_of_verdicts(void)
{
    static const uint32_t most = MOST_K;
    memset(scratch, 7, sizeof scratch);
    expect("no bytes", EXPLAIN_BY("", 99, 7, 1, most), SPATIALJOIN_FRAME_LENGTH);
    expect("first byte", EXPLAIN_BY("\x02", 99, 7, 1, most), SPATIALJOIN_FIRST_BYTE);
    expect("cut", EXPLAIN_BY("\x01\x00\x00\x04", 99, 7, 1, most), SPATIALJOIN_FRAME_ENDS);
    expect("kind 5", EXPLAIN_BY("\x01\x00\x00\x05", 99, 7, 1, most), SPATIALJOIN_OUT_OF_RANGE);
    expect("65 levels", spatialjoin_explain(frame, levels(65), scratch, 999, DEFAULTS), SPATIALJOIN_TOO_LARGE);
    expect("no column 0", EXPLAIN_BY("\x01\x00\x00" LEFT, 99, 7, 1, most), SPATIALJOIN_NO_SUCH_COLUMN);
    expect("a byte more", EXPLAIN_BY(GOOD "\x00", 99, 7, 1, most), SPATIALJOIN_BYTES_AFTER);
    expect("st_within()", EXPLAIN_BY(RECORDS "\x03\x09" "st_within" "\x00", 0, 7, 1, most), SPATIALJOIN_TOO_FEW_ARGUMENTS);
    expect("a byte short", EXPLAIN(AND WITHIN WITHIN, 1), SPATIALJOIN_TOO_SHORT);
    expect("no buffer", EXPLAIN(WITHIN, 0), SPATIALJOIN_TOO_SHORT);
    expect("its line", SPATIALJOIN_LINE_OF(EXPLAIN(WITHIN, 0)), 0);
    expect("its position", SPATIALJOIN_TAKEN_OF(EXPLAIN(WITHIN, 0)), 0);
    expect("its conjuncts", SPATIALJOIN_CONJUNCTS_OF(EXPLAIN(WITHIN, 0)), 0);
    expect("no kinds", EXPLAIN_BY(GOOD, 99, 0, 1, most), SPATIALJOIN_BAD_SETTINGS);
    expect("a default above the greatest", EXPLAIN_BY("", 0, 7, 2, 1), SPATIALJOIN_BAD_SETTINGS);
    expect("nothing is written", scratch[0], 7);
}

/* 24, then 1 to 8, then 9; nothing is written, and rounds are 0. */
static void refusals_of_all(void)
{
    static const uint32_t most = MOST_K;
    memset(scratch, 7, sizeof scratch);
    expect("no bytes", ALL_BY("", 99, 7, 1, most), SPATIALJOIN_FRAME_LENGTH);
    expect("first byte", ALL_BY("\x02", 99, 7, 1, most), SPATIALJOIN_FIRST_BYTE);
    expect("cut", ALL_BY("\x01\x00\x00\x04", 99, 7, 1, most), SPATIALJOIN_FRAME_ENDS);
    expect("kind 5", ALL_BY("\x01\x00\x00\x05", 99, 7, 1, most), SPATIALJOIN_OUT_OF_RANGE);
    expect("65 levels", spatialjoin_extract_all(frame, levels(65), scratch, 999, DEFAULTS), SPATIALJOIN_TOO_LARGE);
    expect("no column 0", ALL_BY("\x01\x00\x00" LEFT, 99, 7, 1, most), SPATIALJOIN_NO_SUCH_COLUMN);
    expect("a byte more", ALL_BY(GOOD "\x00", 99, 7, 1, most), SPATIALJOIN_BYTES_AFTER);
    expect("st_within()", ALL_BY(RECORDS "\x03\x09" "st_within" "\x00", 0, 7, 1, most), SPATIALJOIN_TOO_FEW_ARGUMENTS);
    expect("a byte short", ALL(AND WITHIN WITHIN, 28), SPATIALJOIN_TOO_SHORT);
    expect("a byte short, no match", ALL(AND LEFT LEFT, 24), SPATIALJOIN_TOO_SHORT);
    expect("no output", ALL(AND WITHIN LEFT, 0), SPATIALJOIN_TOO_SHORT);
    expect("its rounds", SPATIALJOIN_ROUNDS_OF(ALL(AND WITHIN LEFT, 0)), 0);
    expect("no kinds", ALL_BY(GOOD, 99, 0, 1, most), SPATIALJOIN_BAD_SETTINGS);
    expect("kinds 8", ALL_BY(GOOD, 99, 8, 1, most), SPATIALJOIN_BAD_SETTINGS);
    expect("a default k of 0", ALL_BY(GOOD, 99, 7, 0, most), SPATIALJOIN_BAD_SETTINGS);
    expect("a default above the greatest", ALL_BY(GOOD, 99, 7, 2, 1), SPATIALJOIN_BAD_SETTINGS);
    expect("24 before 1", ALL_BY("", 0, 0, 1, most), SPATIALJOIN_BAD_SETTINGS);
    expect("24 before 8", ALL_BY(RECORDS "\x03\x09" "st_within" "\x00", 0, 7, 2, 1), SPATIALJOIN_BAD_SETTINGS);
    expect("24 before 9", ALL_BY(GOOD, 0, 8, 1, most), SPATIALJOIN_BAD_SETTINGS);
    expect("nothing written", scratch[0], 7);
    expect_rounds("just long enough", ALL(AND WITHIN WITHIN, 29), 2, 29);
}

/* Which conjunct was taken: of a filter whose first one does not match, and of a held extraction with any position. */
static void positions(void)
{
    size_t n = (size_t)LOAD(UNMATCHED);
    n = (size_t)spatialjoin_merge((const uint8_t *)GOOD, sizeof(GOOD) - 1, plan, sizeof plan, n, scratch, sizeof scratch, table, NODES);
    n = SPATIALJOIN_LENGTH_OF(EXTRACT(n, sizeof scratch));
    expect("the second conjunct", SPATIALJOIN_POSITION_OF(plan), 1);
    n = (size_t)spatialjoin_exchange(plan, sizeof plan, n, scratch, sizeof scratch);
    expect("the second conjunct, exchanged", SPATIALJOIN_POSITION_OF(plan), 1);
    plan[1] = 0xff;
    plan[2] = 0xfe;
    expect("any position", spatialjoin_exchange(plan, sizeof plan, n, scratch, sizeof scratch), (int64_t)n);
    expect("any position, kept", SPATIALJOIN_POSITION_OF(plan), 65534);
}

static void names_of_frames(void)
{
    static const struct {
        const char *name;
        unsigned bit;
    } names[] = {
        {"st_intersects", SPATIALJOIN_ST_INTERSECTS}, {"st_contains", SPATIALJOIN_ST_CONTAINS},
        {"st_within", SPATIALJOIN_ST_WITHIN},         {"st_covers", SPATIALJOIN_ST_COVERS},
        {"st_covered_by", SPATIALJOIN_ST_COVERED_BY}, {"st_coveredby", SPATIALJOIN_ST_COVEREDBY},
        {"st_touches", SPATIALJOIN_ST_TOUCHES},       {"st_crosses", SPATIALJOIN_ST_CROSSES},
        {"st_overlaps", SPATIALJOIN_ST_OVERLAPS},     {"st_equals", SPATIALJOIN_ST_EQUALS},
        {"st_dwithin", SPATIALJOIN_ST_DWITHIN},       {"st_knn", SPATIALJOIN_ST_KNN},
        {"rs_intersects", SPATIALJOIN_RS_INTERSECTS}, {"rs_contains", SPATIALJOIN_RS_CONTAINS},
        {"rs_within", SPATIALJOIN_RS_WITHIN},
    };
    size_t i, length;
    int64_t answer;
    for (i = 0; i < sizeof names / sizeof *names; i++) {
        length = strlen(names[i].name);
        frame[0] = 2;
        frame[1] = 3;
        frame[2] = (uint8_t)length;
        memcpy(frame + 3, names[i].name, length);
        frame[3 + length] = 0;
        answer = spatialjoin_logical(frame, 4 + length);
        expect(names[i].name, SPATIALJOIN_MASK_OF(answer), names[i].bit);
        expect("one name", SPATIALJOIN_NAMES_OF(answer), 1);
        expect("no side", SPATIALJOIN_SIDE_OF(answer), SPATIALJOIN_NO_SIDE);
    }
    answer = LOGICAL("\x02\x03\x06" "ST_KNN" "\x01" "\x05\x01\x00\x00");
    expect("query left", SPATIALJOIN_SIDE_OF(answer), SPATIALJOIN_LEFT);
    answer = LOGICAL("\x02\x03\x06" "ST_KNN" "\x01" "\x05\x02\x00\x00");
    expect("query right", SPATIALJOIN_SIDE_OF(answer), SPATIALJOIN_RIGHT);
    expect("logical, first byte", LOGICAL("\x01\x04\x00\x00\x00"), SPATIALJOIN_FIRST_BYTE);
}

/* A frame's text, with a byte after it that is kept; one byte short it is refused and nothing is written. */
static void expect_text(const char *expected, const char *bytes, size_t length)
{
    size_t count = strlen(expected);
    memset(text, '.', sizeof text);
    expect(expected, spatialjoin_print((const uint8_t *)bytes, length, text, count - 1), SPATIALJOIN_TEXT_TOO_SHORT);
    expect("nothing written", text[0] == '.' && memcmp(text, text + 1, count) == 0, 1);
    expect(expected, spatialjoin_print((const uint8_t *)bytes, length, text, count), (int64_t)count);
    expect(expected, memcmp(text, expected, count) == 0 && text[count] == '.', 1);
    expect(expected, spatialjoin_print((const uint8_t *)bytes, length, text, sizeof text), (int64_t)count);
    expect(expected, memcmp(text, expected, count) == 0 && text[count] == '.', 1);
}

#define EXPECT_TEXT(expected, bytes) expect_text(expected, bytes, sizeof(bytes) - 1)

static void texts_of_frames(void)
{
    EXPECT_TEXT("f9:st_within[c0:0,c1:0]", GOOD);
    EXPECT_TEXT("c0:65535", RECORDS "\x00\x00\x00\xff\xff");
    EXPECT_TEXT("#2:ffffffffffffffea", "\x01\x00\x00" "\x01\x02\xff\xff\xff\xff\xff\xff\xff\xea");
    EXPECT_TEXT("(c0:0 o63 x10[])", RECORDS "\x02\x3f" LEFT "\x04\x00\x0a\x00");
    EXPECT_TEXT("f4:],[:[x0[c1:0]]", RECORDS "\x03\x04" "],[:" "\x01" "\x04\x00\x00\x01" RIGHT);
}

static void refusals_of_texts(void)
{
    expect("print nothing", PRINT("", 0), SPATIALJOIN_FRAME_LENGTH);
    expect("print too many bytes", spatialjoin_print(frame, sizeof frame, text, 0), SPATIALJOIN_FRAME_LENGTH);
    expect("print a logical frame", PRINT("\x02\x04\x00\x00\x00", 0), SPATIALJOIN_FIRST_BYTE);
    expect("print, cut", PRINT("\x01\x00\x00\x04", 0), SPATIALJOIN_FRAME_ENDS);
    expect("print, kind 5", PRINT("\x01\x00\x00\x05", 0), SPATIALJOIN_OUT_OF_RANGE);
    expect("print 65 levels", spatialjoin_print(frame, levels(65), text, 0), SPATIALJOIN_TOO_LARGE);
    expect("print, no column 0", PRINT("\x01\x00\x00" LEFT, 0), SPATIALJOIN_NO_SUCH_COLUMN);
    expect("print, a byte more", PRINT(GOOD "\x00", 0), SPATIALJOIN_BYTES_AFTER);
    expect("print st_within()", PRINT(RECORDS "\x03\x09" "st_within" "\x00", 0), SPATIALJOIN_TOO_FEW_ARGUMENTS);
    expect("print, no room", PRINT(GOOD, 0), SPATIALJOIN_TEXT_TOO_SHORT);
}

/* The held filter and the new one, joined by And; the new one's columns are 2 and 3 now. */
static void merged_filters(void)
{
    static const char merged[] = "\x01\x00\x04" "\x00\x00\x00\x00\x00" "\x01\x00\x00\x00\x00" "\x00\x00\x00\x00\x00"
        "\x01\x00\x00\x00\x00" "\x02\x00" "\x03\x09" "st_within" "\x02" LEFT RIGHT "\x00\x00\x02\x00\x00";
    size_t n = (size_t)LOAD(GOOD), length = sizeof merged - 1;
    memset(plan + n, 7, sizeof plan - n);
    memset(scratch, 7, sizeof scratch);
    expect("merge", MERGE(UNMATCHED, length, n, n), (int64_t)length);
    expect("the merged filter", memcmp(plan, merged, length) == 0, 1);
    expect("the old plan", memcmp(scratch, GOOD, n) == 0, 1);
    expect("the bytes after both", plan[length] == 7 && scratch[n] == 7, 1);
    expect("merge again", MERGE(ALONE, sizeof plan, length, length), (int64_t)length + 6);
    expect("extract what was merged", EXTRACT(length + 6, sizeof scratch) > 0, 1);
    expect("a relation", plan[0], SPATIALJOIN_RELATION);
}

/* A state with the faults of those after it; refused, a merge writes nothing. */
static void refusals_of_merges(void)
{
    size_t n = (size_t)LOAD(GOOD);
    memset(plan + n, 7, sizeof plan - n);
    memset(scratch, 7, sizeof scratch);
    expect("merge nothing", MERGE("", 0, n, 0), SPATIALJOIN_FRAME_LENGTH);
    expect("merge a logical frame", MERGE("\x02\x04\x00\x00\x00", 0, n, 0), SPATIALJOIN_FIRST_BYTE);
    expect("merge, cut", MERGE("\x01\x00\x00\x04", 0, n, 0), SPATIALJOIN_FRAME_ENDS);
    expect("merge, kind 5", MERGE("\x01\x00\x00\x05", 0, n, 0), SPATIALJOIN_OUT_OF_RANGE);
    expect("merge 65 levels", spatialjoin_merge(frame, levels(65), plan, 0, n, scratch, 0, table, NODES), SPATIALJOIN_TOO_LARGE);
    expect("merge, no column 0", MERGE("\x01\x00\x00" LEFT, 0, n, 0), SPATIALJOIN_NO_SUCH_COLUMN);
    expect("merge, a byte more", MERGE(GOOD "\x00", 0, n, 0), SPATIALJOIN_BYTES_AFTER);
    expect("merge st_within()", MERGE(RECORDS "\x03\x09" "st_within" "\x00", 0, n, 0), SPATIALJOIN_TOO_FEW_ARGUMENTS);
    expect("merge, n past the end", spatialjoin_merge(frame, levels(64), plan, n - 1, n, scratch, 0, table, NODES),
           SPATIALJOIN_NO_GOOD_PLAN);
    expect("merge, n = 0", spatialjoin_merge(frame, levels(64), plan, n, 0, scratch, 0, table, NODES), SPATIALJOIN_PLAN_EMPTY);
    expect("merge 64 levels", spatialjoin_merge(frame, levels(64), plan, n, n, scratch, 0, table, NODES), SPATIALJOIN_MERGED_TOO_LARGE);
    expect("merge, scratch too short", MERGE(ALONE, sizeof plan, n, n - 1), SPATIALJOIN_TOO_SHORT);
    expect("merge, plan too short", MERGE(ALONE, n + 5, n, n), SPATIALJOIN_TOO_SHORT);
    expect("the held plan", memcmp(plan, GOOD, n) == 0 && plan[n] == 7 && scratch[0] == 7, 1);
    expect("merge 63 levels", spatialjoin_merge(frame, levels(63), plan, sizeof plan, n, scratch, n, table, NODES), (int64_t)n + 254);
    n = (size_t)LOAD(GOOD);
    n = SPATIALJOIN_LENGTH_OF(EXTRACT(n, n));
    expect("merge, extracted", spatialjoin_merge(frame, levels(64), plan, n, n, scratch, 0, table, NODES),
           SPATIALJOIN_ALREADY_EXTRACTED);
}

/* Whether a record has these fields. */
static int is_node(spatialjoin_node node, unsigned kind, size_t start, size_t end)
{
    return node.kind == kind && node.start == start && node.end == end;
}

/* GOOD has three nodes, itself and GOOD seven. */
static void tables_of_nodes(void)
{
    static const spatialjoin_node stray = {7, 7, 7};
    spatialjoin_node wrong[3];
    size_t n, i;
    memset(table, 0xa5, sizeof table);
    expect("load", LOAD(GOOD), sizeof(GOOD) - 1);
    expect("the byte of no field", ((const uint8_t *)table)[1] == 0xa5 && ((const uint8_t *)table)[13] == 0xa5, 1);
    expect("the fields", memcmp(table + 1, "\x00\xa5\x19\x00\x1e\x00", 6) == 0, 1);
    for (i = 0; i < NODES; i++) {
        table[i] = stray;
    }
    expect("a record's bytes", sizeof stray, 6);
    expect("a table's bytes", sizeof table, 6144);
    expect("load, table too short", spatialjoin_load((const uint8_t *)GOOD, sizeof(GOOD) - 1, plan, sizeof plan, table, 2),
           SPATIALJOIN_TABLE_TOO_SHORT);
    expect("load, both too short", spatialjoin_load((const uint8_t *)GOOD, sizeof(GOOD) - 1, plan, 1, table, 2), SPATIALJOIN_TOO_SHORT);
    expect("refused, the table stays", is_node(table[0], 7, 7, 7) && is_node(table[1], 7, 7, 7), 1);
    n = (size_t)spatialjoin_load((const uint8_t *)GOOD, sizeof(GOOD) - 1, plan, sizeof plan, table, 4);
    expect("load", (int64_t)n, sizeof(GOOD) - 1);
    expect("its nodes", is_node(table[0], 3, 13, 35) && is_node(table[1], 0, 25, 30) && is_node(table[2], 0, 30, 35), 1);
    expect("the record after them", is_node(table[3], 7, 7, 7), 1);
    expect("extract, a record short", spatialjoin_extract(plan, sizeof plan, n, scratch, n, table, 2, DEFAULTS),
           SPATIALJOIN_NO_GOOD_PLAN);
    for (i = 0; i < 9; i++) {
        memcpy(wrong, table, sizeof wrong);
        wrong[i / 3].kind ^= i % 3 == 0;
        wrong[i / 3].start ^= i % 3 == 1;
        wrong[i / 3].end ^= i % 3 == 2 ? 32768u : 0u;
        expect("extract, another table", spatialjoin_extract(plan, sizeof plan, n, scratch, n, wrong, 3, DEFAULTS),
               SPATIALJOIN_NO_GOOD_PLAN);
    }
    expect("merge, table too short", spatialjoin_merge((const uint8_t *)GOOD, n, plan, sizeof plan, n, scratch, n, table, 6),
           SPATIALJOIN_TABLE_TOO_SHORT);
    expect("merge, scratch too short too", spatialjoin_merge((const uint8_t *)GOOD, n, plan, sizeof plan, n, scratch, 0, table, 6),
           SPATIALJOIN_TOO_SHORT);
    n = (size_t)spatialjoin_merge((const uint8_t *)GOOD, n, plan, sizeof plan, n, scratch, n, table, NODES);
    expect("merged, the first node", is_node(table[0], 2, 23, n), 1);
    expect("merged, the record after them", is_node(table[7], 7, 7, 7), 1);
    expect("exchange", spatialjoin_exchange(plan, sizeof plan, n, scratch, n), (int64_t)n);
    expect("extract, exchanged", spatialjoin_extract(plan, sizeof plan, n, scratch, n, table, 7, DEFAULTS) > 0, 1);
    expect("extract again, no table", spatialjoin_extract(plan, sizeof plan, n, scratch, 0, NULL, 0, DEFAULTS) < 0, 1);
}

#define AT(index) "\x00\x00" index "\x00\x00" /* a column of a child, its index one byte */
#define RELATION "\x11\x01\x02\x03"
#define DISTANCE(side) "\x12\x00\x00\x04" side
#define KNN(probe) "\x13\x00\x00" "\x00\x00\x00\x05" "\x01" probe "\x02"
#define PAIR AT("\x05") AT("\x06")
#define PLACED RELATION PAIR "\x00"
#define HOLD(bytes) (memcpy(plan, bytes, sizeof(bytes) - 1), sizeof(bytes) - 1)

/* Of the left child 9, 5 and 6 become 0, 1 and 3, of the right one 6, 7 and 5 become 0 to 2; an item stands on either side of each. */
static uint16_t lefts[] = {5, 9, 5, 5, 6, 5};
static uint16_t rights[] = {5, 6, 7, 5, 5};
#define LISTS lefts + 1, 4, rights + 1, 3
#define LONG items, SPATIALJOIN_MOST_ITEMS
#define TOO_LONG items, SPATIALJOIN_MOST_ITEMS + 1

/* A held extraction, first with a byte of scratch too few, and what becomes of it; the bytes after both buffers are kept. */
static void expect_projected(const char *what, const char *held, const char *projected, size_t n)
{
    memset(plan, 7, n + 1);
    memset(scratch, 7, n + 1);
    memcpy(plan, held, n);
    expect(what, spatialjoin_project(plan, n, n, scratch, n - 1, LISTS), SPATIALJOIN_TOO_SHORT);
    expect(what, memcmp(plan, held, n) == 0 && scratch[0] == 7, 1);
    expect(what, spatialjoin_project(plan, n, n, scratch, n, LISTS), (int64_t)n);
    expect(what, memcmp(plan, projected, n) == 0 && memcmp(scratch, held, n) == 0 && plan[n] == 7 && scratch[n] == 7, 1);
}

#define EXPECT_PROJECTED(what, head, before, after) expect_projected(what, head before, head after, sizeof(head before) - 1)
static void projections(void)
{
    static const uint16_t lists[] = {5, 9, 5, 5, 6, 5, 5, 6, 7, 5, 5};
    EXPECT_PROJECTED("project a relation", RELATION, PAIR "\x00", AT("\x01") AT("\x00") "\x00");
    EXPECT_PROJECTED("project, a left bound", DISTANCE("\x00"), PAIR AT("\x05") "\x00", AT("\x01") AT("\x00") AT("\x01") "\x00");
    EXPECT_PROJECTED("project, a right bound", DISTANCE("\x01"), PAIR AT("\x05") "\x00", AT("\x01") AT("\x00") AT("\x02") "\x00");
    EXPECT_PROJECTED("project, no side", DISTANCE("\x02"), PAIR AT("\x05") "\x00", AT("\x01") AT("\x00") AT("\x05") "\x00");
    EXPECT_PROJECTED("project, a left query", KNN("\x00"), PAIR "\x00", AT("\x01") AT("\x00") "\x00");
    EXPECT_PROJECTED("project, a right query", KNN("\x01"), PAIR "\x00", AT("\x02") AT("\x03") "\x00");
    /* The third record is a mark column, and only the second is referenced. */
    EXPECT_PROJECTED("project a remainder", RELATION NODE NODE,
                     "\x01\x00\x04" "\x00\x00\x06\x00\x06" "\x01\x00\x05\x00\x05" "\x02\x00\x05\x00\x05" "\x00\x00\x05\x00\x06" RIGHT,
                     "\x01\x00\x04" "\x00\x00\x03\x00\x06" "\x01\x00\x02\x00\x05" "\x02\x00\x05\x00\x05" "\x00\x00\x01\x00\x06" RIGHT);
    expect("the lists", memcmp(lists, lefts, sizeof lefts) == 0 && memcmp(lists + 6, rights, sizeof rights) == 0, 1);
}

/* A state with the faults of those after it; refused, a projection writes nothing. */
static void refusals_of_projections(void)
{
    static uint16_t items[SPATIALJOIN_MOST_ITEMS + 1];
    size_t n = HOLD(GOOD), i;
    memset(scratch, 7, sizeof scratch);
    expect("project, n past the end", spatialjoin_project(plan, n - 1, n, scratch, 0, TOO_LONG, TOO_LONG), SPATIALJOIN_NO_GOOD_PLAN);
    expect("project, n = 0", spatialjoin_project(plan, n, 0, scratch, 0, TOO_LONG, TOO_LONG), SPATIALJOIN_PLAN_EMPTY);
    expect("project a frame", spatialjoin_project(plan, n, n, scratch, 0, TOO_LONG, TOO_LONG), SPATIALJOIN_NOT_EXTRACTED);
    n = HOLD(PLACED);
    expect("project, cut", spatialjoin_project(plan, n, n - 1, scratch, 0, TOO_LONG, TOO_LONG), SPATIALJOIN_NO_GOOD_PLAN);
    expect("project, left too long", spatialjoin_project(plan, n, n, scratch, 0, TOO_LONG, LONG), SPATIALJOIN_LIST_TOO_LONG);
    expect("project, right too long", spatialjoin_project(plan, n, n, scratch, 0, LONG, TOO_LONG), SPATIALJOIN_LIST_TOO_LONG);
    expect("project, scratch too short", spatialjoin_project(plan, n, n, scratch, n - 1, LONG, LONG), SPATIALJOIN_TOO_SHORT);
    expect("project, no 5", spatialjoin_project(plan, n, n, scratch, n, LONG, rights, 4), SPATIALJOIN_NOT_IN_LIST);
    expect("project, no 6", spatialjoin_project(plan, n, n, scratch, n, lefts, 4, LONG), SPATIALJOIN_NOT_IN_LIST);
    expect("the held plan", memcmp(plan, PLACED, n) == 0 && scratch[0] == 7, 1);
    for (i = 0; i < SPATIALJOIN_MOST_ITEMS; i++) {
        items[i] = (uint16_t)(SPATIALJOIN_MOST_ITEMS + 4 - i);
    }
    expect("project, one list for both", spatialjoin_project(plan, n, n, scratch, n, LONG, LONG), (int64_t)n);
    expect("the last places", memcmp(plan, RELATION "\x00\x0f\xff\x00\x00" "\x00\x0f\xfe\x00\x00" "\x00", n) == 0, 1);
    expect("exchange", spatialjoin_exchange(plan, n, n, scratch, n), (int64_t)n);
    expect("extract again", spatialjoin_extract(plan, n, n, scratch, n, NULL, 0, DEFAULTS), SPATIALJOIN_ALREADY_EXTRACTED);
    expect("project again", spatialjoin_project(plan, n, n, scratch, n, LONG, LONG), (int64_t)n);
    expect("the first places", memcmp(plan + 4, AT("\x06") AT("\x05") "\x00", n - 4) == 0, 1);
}

static uint8_t queues[SPATIALJOIN_QUEUES_BYTES + 1];
static uint8_t out[SPATIALJOIN_MOST_QUEUED + 1];

#define QUEUES queues, SPATIALJOIN_QUEUES_BYTES
#define PUT(queue, bytes) spatialjoin_put(QUEUES, queue, (const uint8_t *)(bytes), sizeof(bytes) - 1)
#define COUNT(queue) queues[1 + 16417 * (queue)]
#define LENGTH(queue) (queues + 2 + 16417 * (queue))
#define PLACE(queue, index) (queues + 34 + 16417 * (queue) + 1024 * (index))

/* The frame that comes next: its queue, its length, and its bytes; the byte after it is kept. One byte short, nothing is written. */
static void expect_served(const char *bytes, unsigned queue)
{
    static uint8_t before[sizeof queues];
    size_t length = strlen(bytes);
    int64_t answer;
    memcpy(before, queues, sizeof queues);
    memset(out, 7, sizeof out);
    expect("serve, no room", spatialjoin_serve(QUEUES, out, length - 1), SPATIALJOIN_TOO_SHORT);
    expect("nothing written", memcmp(before, queues, sizeof queues) == 0 && out[0] == 7, 1);
    answer = spatialjoin_serve(QUEUES, out, length);
    expect(bytes, answer, (int64_t)(queue * 65536 + length));
    expect(bytes, SPATIALJOIN_QUEUE_OF(answer), queue);
    expect(bytes, (int64_t)SPATIALJOIN_LENGTH_OF(answer), (int64_t)length);
    expect(bytes, SPATIALJOIN_BOTH_EMPTY(answer), 0);
    expect(bytes, SPATIALJOIN_REFUSAL_OF(answer), 0);
    expect(bytes, memcmp(out, bytes, length) == 0 && out[length] == 7, 1);
}

static void expect_both_empty(void)
{
    int64_t answer = spatialjoin_serve(QUEUES, NULL, 0);
    expect("both empty", answer, 0);
    expect("both empty", SPATIALJOIN_BOTH_EMPTY(answer), 1);
    expect("both empty", (int64_t)SPATIALJOIN_LENGTH_OF(answer), 0);
}

/* In turn, each queue in its order; a queue that was not served last is due as soon as it holds a frame. */
static void served_in_turn(void)
{
    memset(queues, 0, sizeof queues);
    expect_both_empty();
    expect("put", PUT(SPATIALJOIN_FIXED_UNIT, "d"), 1);
    expect("put", PUT(SPATIALJOIN_CHASSIS, "abc"), 3);
    expect("put", PUT(SPATIALJOIN_CHASSIS, "b"), 1);
    expect("put", PUT(SPATIALJOIN_CHASSIS, "ccc"), 3);
    expect_served("abc", SPATIALJOIN_CHASSIS);
    expect_served("d", SPATIALJOIN_FIXED_UNIT);
    expect_served("b", SPATIALJOIN_CHASSIS);
    expect_served("ccc", SPATIALJOIN_CHASSIS);
    expect_both_empty();
    expect("the mark", queues[0], 1);
    expect("put", PUT(SPATIALJOIN_CHASSIS, "e"), 1);
    expect("put", PUT(SPATIALJOIN_FIXED_UNIT, "f"), 1);
    expect_served("f", SPATIALJOIN_FIXED_UNIT);
    expect_served("e", SPATIALJOIN_CHASSIS);
    expect_both_empty();
}

/* What is free keeps its value: the bytes after a frame, and lengths and places past a count. */
static void bytes_of_queues(void)
{
    unsigned queue;
    for (queue = 0; queue < 2; queue++) {
        memset(queues, 7, sizeof queues);
        queues[0] = COUNT(0) = COUNT(1) = 0;
        expect("put", PUT((uint8_t)queue, "abcd"), 4);
        expect("put", PUT((uint8_t)queue, "xy"), 2);
        expect("the count", COUNT(queue), 2);
        expect("the lengths", memcmp(LENGTH(queue), "\0\4\0\2\7\7", 6) == 0, 1);
        expect("the places", memcmp(PLACE(queue, 0), "abcd\7", 5) == 0 && memcmp(PLACE(queue, 1), "xy\7", 3) == 0, 1);
        expect_served("abcd", queue);
        expect("the mark", queues[0], queue + 1);
        expect("the count", COUNT(queue), 1);
        expect("the other count", COUNT(1 - queue), 0);
        expect("the lengths", memcmp(LENGTH(queue), "\0\2\0\2\7\7", 6) == 0, 1);
        expect("the places", memcmp(PLACE(queue, 0), "xycd\7", 5) == 0 && memcmp(PLACE(queue, 1), "xy\7", 3) == 0, 1);
        expect("the byte after the buffer", queues[SPATIALJOIN_QUEUES_BYTES], 7);
    }
}

/* No good queues: both calls are refused, and nothing is written. */
static void expect_bad(const char *what, size_t length)
{
    uint8_t first = queues[0];
    memset(out, 7, sizeof out);
    expect(what, spatialjoin_put(queues, length, 0, out, 1), SPATIALJOIN_NO_GOOD_PLAN);
    expect(what, spatialjoin_serve(queues, length, out, 0), SPATIALJOIN_NO_GOOD_PLAN);
    expect(what, queues[0] == first && out[0] == 7, 1);
}

/* A state with the faults of those after it. */
static void refusals_of_queues(void)
{
    uint8_t queue;
    int i;
    for (queue = 0; queue < 2; queue++) {
        memset(queues, 0, sizeof queues);
        for (i = 0; i < SPATIALJOIN_MOST_WAITING; i++) {
            expect("put", spatialjoin_put(QUEUES, queue, frame, SPATIALJOIN_MOST_QUEUED), SPATIALJOIN_MOST_QUEUED);
        }
        expect("put, no such queue", spatialjoin_put(queues, 0, 2, NULL, 0), SPATIALJOIN_NO_SUCH_QUEUE);
        expect("put, no such queue", spatialjoin_put(QUEUES, 255, frame, sizeof frame), SPATIALJOIN_NO_SUCH_QUEUE);
        expect("put, no queues", spatialjoin_put(queues, 0, queue, NULL, 0), SPATIALJOIN_NO_GOOD_PLAN);
        expect("put nothing", spatialjoin_put(QUEUES, queue, NULL, 0), SPATIALJOIN_FRAME_LENGTH);
        expect("put too many bytes", spatialjoin_put(QUEUES, queue, frame, SPATIALJOIN_MOST_QUEUED + 1), SPATIALJOIN_QUEUED_TOO_LONG);
        expect("put far too many", spatialjoin_put(QUEUES, queue, frame, sizeof frame), SPATIALJOIN_QUEUED_TOO_LONG);
        expect("put, full", PUT(queue, "a"), SPATIALJOIN_QUEUE_FULL);
        expect("put into the other", PUT((uint8_t)(1 - queue), "a"), 1);
        expect_bad("a byte less", SPATIALJOIN_QUEUES_BYTES - 1);
        expect_bad("a byte more", SPATIALJOIN_QUEUES_BYTES + 1);
        queues[0] = 3;
        expect_bad("a mark of 3", SPATIALJOIN_QUEUES_BYTES);
        queues[0] = 0;
        COUNT(queue) = 17;
        expect_bad("17 frames", SPATIALJOIN_QUEUES_BYTES);
        COUNT(queue) = 16;
        LENGTH(queue)[31] = 1;
        expect_bad("the last of 1,025 bytes", SPATIALJOIN_QUEUES_BYTES);
        LENGTH(queue)[30] = LENGTH(queue)[31] = 0;
        expect_bad("the last of none", SPATIALJOIN_QUEUES_BYTES);
        COUNT(queue) = 15;
        expect("15 frames", PUT(queue, "a"), 1);
    }
}

static void null_buffers(void)
{
    size_t n;
    expect("load NULL", spatialjoin_load(NULL, 0, plan, sizeof plan, table, NODES), SPATIALJOIN_FRAME_LENGTH);
    expect("load NULL to NULL", spatialjoin_load(NULL, 0, NULL, 0, NULL, 0), SPATIALJOIN_FRAME_LENGTH);
    expect("load to NULL", spatialjoin_load((const uint8_t *)GOOD, sizeof(GOOD) - 1, NULL, 0, table, NODES), SPATIALJOIN_TOO_SHORT);
    expect("logical NULL", spatialjoin_logical(NULL, 0), SPATIALJOIN_FRAME_LENGTH);
    expect("print NULL", spatialjoin_print(NULL, 0, text, sizeof text), SPATIALJOIN_FRAME_LENGTH);
    expect("print NULL to NULL", spatialjoin_print(NULL, 0, NULL, 0), SPATIALJOIN_FRAME_LENGTH);
    expect("print to NULL", spatialjoin_print((const uint8_t *)GOOD, sizeof(GOOD) - 1, NULL, 0), SPATIALJOIN_TEXT_TOO_SHORT);
    expect("extract from NULL", spatialjoin_extract(NULL, 0, 0, NULL, 0, NULL, 0, DEFAULTS), SPATIALJOIN_PLAN_EMPTY);
    expect("extract from NULL, n = 1", spatialjoin_extract(NULL, 0, 1, NULL, 0, NULL, 0, DEFAULTS), SPATIALJOIN_NO_GOOD_PLAN);
    expect("extract from NULL, no kinds", spatialjoin_extract(NULL, 0, 1, NULL, 0, NULL, 0, 0, 1, 1), SPATIALJOIN_BAD_SETTINGS);
    expect("exchange in NULL", spatialjoin_exchange(NULL, 0, 0, NULL, 0), SPATIALJOIN_PLAN_EMPTY);
    expect("exchange in NULL, n = 1", spatialjoin_exchange(NULL, 0, 1, NULL, 0), SPATIALJOIN_NO_GOOD_PLAN);
    expect("merge NULL", spatialjoin_merge(NULL, 0, NULL, 0, 0, NULL, 0, NULL, 0), SPATIALJOIN_FRAME_LENGTH);
    expect("merge to NULL", spatialjoin_merge((const uint8_t *)GOOD, sizeof(GOOD) - 1, NULL, 0, 0, NULL, 0, table, NODES),
           SPATIALJOIN_PLAN_EMPTY);
    expect("merge to NULL, n = 1", spatialjoin_merge((const uint8_t *)GOOD, sizeof(GOOD) - 1, NULL, 0, 1, NULL, 0, table, NODES),
           SPATIALJOIN_NO_GOOD_PLAN);
    n = (size_t)LOAD(GOOD);
    expect("merge with NULL", spatialjoin_merge((const uint8_t *)GOOD, sizeof(GOOD) - 1, plan, sizeof plan, n, NULL, 0, table, NODES),
           SPATIALJOIN_TOO_SHORT);
    expect("extract with NULL", spatialjoin_extract(plan, sizeof plan, n, NULL, 0, table, NODES, DEFAULTS), SPATIALJOIN_TOO_SHORT);
    expect("extract with no table", spatialjoin_extract(plan, sizeof plan, n, scratch, n, NULL, 0, DEFAULTS), SPATIALJOIN_NO_GOOD_PLAN);
    expect("load with no table", spatialjoin_load((const uint8_t *)GOOD, sizeof(GOOD) - 1, plan, sizeof plan, NULL, 0),
           SPATIALJOIN_TABLE_TOO_SHORT);
    expect("exchange with NULL", spatialjoin_exchange(plan, sizeof plan, n, NULL, 0), SPATIALJOIN_TOO_SHORT);
    expect("project in NULL", spatialjoin_project(NULL, 0, 0, NULL, 0, NULL, 0, NULL, 0), SPATIALJOIN_PLAN_EMPTY);
    expect("project in NULL, n = 1", spatialjoin_project(NULL, 0, 1, NULL, 0, NULL, 0, NULL, 0), SPATIALJOIN_NO_GOOD_PLAN);
    expect("project a frame with NULL", spatialjoin_project(plan, n, n, NULL, 0, NULL, 0, NULL, 0), SPATIALJOIN_NOT_EXTRACTED);
    n = HOLD(RELATION NODE NODE "\x00");
    expect("project with NULL", spatialjoin_project(plan, n, n, NULL, 0, NULL, 0, NULL, 0), SPATIALJOIN_TOO_SHORT);
    expect("project by NULL", spatialjoin_project(plan, n, n, scratch, n, NULL, 0, NULL, 0), (int64_t)n);
    n = HOLD(PLACED);
    expect("project by a NULL", spatialjoin_project(plan, n, n, scratch, n, NULL, 0, rights, 4), SPATIALJOIN_NOT_IN_LIST);
    expect("put into NULL", spatialjoin_put(NULL, 0, 0, NULL, 0), SPATIALJOIN_NO_GOOD_PLAN);
    expect("serve from NULL", spatialjoin_serve(NULL, 0, NULL, 0), SPATIALJOIN_NO_GOOD_PLAN);
    memset(queues, 0, sizeof queues);
    expect("put NULL", spatialjoin_put(QUEUES, 1, NULL, 0), SPATIALJOIN_FRAME_LENGTH);
    expect("put", PUT(1, "a"), 1);
    expect("serve to NULL", spatialjoin_serve(QUEUES, NULL, 0), SPATIALJOIN_TOO_SHORT);
    expect("all of NULL", spatialjoin_extract_all(NULL, 0, NULL, 0, DEFAULTS), SPATIALJOIN_FRAME_LENGTH);
    expect("all to NULL", spatialjoin_extract_all((const uint8_t *)GOOD, sizeof(GOOD) - 1, NULL, 0, DEFAULTS), SPATIALJOIN_TOO_SHORT);
    expect("all of NULL, no kinds", spatialjoin_extract_all(NULL, 0, NULL, 0, 0, 1, 1), SPATIALJOIN_BAD_SETTINGS);
    expect("explain NULL", spatialjoin_explain(NULL, 0, NULL, 0, DEFAULTS), SPATIALJOIN_FRAME_LENGTH);
    expect("explain to NULL", spatialjoin_explain((const uint8_t *)GOOD, sizeof(GOOD) - 1, NULL, 0, DEFAULTS), SPATIALJOIN_TOO_SHORT);
}

int main(void)
{
    versions();
    refusals_of_frames();
    refusals_of_plans();
    walks();
    settings();
    refusals_of_settings();
    all_conjuncts();
    refusals_of_all();
    verdicts();
    refusals_of_verdicts();
    positions();
    names_of_frames();
    texts_of_frames();
    refusals_of_texts();
    merged_filters();
    refusals_of_merges();
    tables_of_nodes();
    projections();
    refusals_of_projections();
    served_in_turn();
    bytes_of_queues();
    refusals_of_queues();
    null_buffers();
    printf("%d answers, %d wrong\n", tried, failed);
    return failed > 0;
}
