/* Measures the stack that the library's calls need: makes them on a stack of its own that was filled with a pattern, and looks how
 * far down the pattern is gone. The frames are 64 levels deep, the deepest that there are, in every shape that the calls walk by
 * calling themselves; so are the arguments of extractions that no frame made. The queues, which nothing walks, are empty to full. Ends
 * with 1 where a call needs more than SPATIALJOIN_STACK_BYTES. `../check` builds and runs it. */
#define _XOPEN_SOURCE 700
#include <stdio.h>
#include <string.h>
#include <ucontext.h>

#include "spatialjoin.h"

#define DEPTH 64
#define PATTERN 0xa5
#define NODES SPATIALJOIN_MOST_NODES
#define ITEMS SPATIALJOIN_MOST_ITEMS
#define DEFAULTS SPATIALJOIN_DEFAULT_SETTINGS
#define STACK_SIZE (4 * SPATIALJOIN_STACK_BYTES)

enum call { LOAD, EXTRACT, EXCHANGE, LOGICAL, PRINT, MERGE, PROJECT, PUT, SERVE, ALL, EXPLAIN, CALLS };
static const char *const call_names[CALLS] = {"load", "extract", "exchange", "logical", "print", "merge", "project", "put", "serve",
                                              "extract_all", "explain"};

/* How a node holds the deeper one below it. */
enum shape { AND_LEFT, AND_RIGHT, OR_LEFT, OR_RIGHT, FUNCTION_ONE, FUNCTION_LAST, OTHER_ONE, OTHER_LAST, SHAPES };

/* The conjunct that matches, and which of its arguments is deep. */
enum leaf { WITHIN, DWITHIN, LESS, GREATER, KNN, LEAVES };
static const char *const leaf_names[LEAVES] = {"st_within", "st_dwithin", "st_distance", "st_distance", "st_knn"};
static const int leaf_arguments[LEAVES] = {2, 3, 2, 2, 3};

static uint8_t frame[SPATIALJOIN_MOST_BYTES];
static size_t frame_len;
static int logical_frame;

static uint8_t plan[SPATIALJOIN_MOST_BYTES];
static uint8_t scratch[SPATIALJOIN_MOST_BYTES];
static uint8_t text[SPATIALJOIN_MOST_TEXT];
static spatialjoin_node table[SPATIALJOIN_MOST_NODES];
static uint16_t items[SPATIALJOIN_MOST_ITEMS];
static size_t n;
static uint8_t queues[SPATIALJOIN_QUEUES_BYTES];
static uint8_t queue;
static size_t room;

static uint8_t stack[STACK_SIZE];
static ucontext_t caller, callee;
static enum call called;
static int64_t answer;

static size_t most[CALLS];
static unsigned long accepted[CALLS];

static void put(unsigned byte)
{
    frame[frame_len++] = (uint8_t)byte;
}

/* Column 0 is of the left child, column 1 of the right; the logical ones are their fields. */
static void put_column(unsigned column)
{
    if (logical_frame) {
        put(5), put(column + 1), put(0), put(0);
    } else {
        put(0), put(0), put(column), put(0), put(0);
    }
}

static void put_number(unsigned number)
{
    int i;
    put(1), put(3);
    for (i = 0; i < 7; i++) {
        put(0);
    }
    put(number);
}

static void put_name(const char *name, int arguments)
{
    put(3), put((unsigned)strlen(name));
    while (*name != '\0') {
        put((uint8_t)*name++);
    }
    put((unsigned)arguments);
}

/* What stands before the deeper node. */
static void put_before(enum shape shape)
{
    int i;
    switch (shape) {
    case AND_LEFT: put(2), put(0); break;
    case AND_RIGHT: put(2), put(0), put_number(1); break;
    case OR_LEFT: put(2), put(5); break;
    case OR_RIGHT: put(2), put(5), put_number(1); break;
    case FUNCTION_ONE: put_name("f", 1); break;
    case FUNCTION_LAST: put_name("f", 16); break;
    case OTHER_ONE: put(4), put(0), put(0), put(1); break;
    case OTHER_LAST: put(4), put(0), put(0), put(16); break;
    case SHAPES: break;
    }
    if (shape == FUNCTION_LAST || shape == OTHER_LAST) {
        for (i = 0; i < 15; i++) {
            put(4), put(0), put(0), put(0);
        }
    }
}

/* What stands after it. */
static void put_after(enum shape shape)
{
    if (shape == AND_LEFT || shape == OR_LEFT) {
        put_number(1);
    }
}

static void put_deep(enum shape shape, int levels, unsigned column)
{
    int i;
    for (i = 1; i < levels; i++) {
        put_before(shape);
    }
    put_column(column);
    for (i = 1; i < levels; i++) {
        put_after(shape);
    }
}

/* A function's arguments: the deep one of so many levels, columns of both sides, then a number. */
static void put_arguments(int arguments, int deep, enum shape shape, int levels)
{
    int i;
    for (i = 0; i < arguments; i++) {
        if (i == deep) {
            put_deep(shape, levels, i == 1);
        } else if (i < 2) {
            put_column((unsigned)i);
        } else {
            put_number(5);
        }
    }
}

/* A conjunct of so many levels. The third argument of a comparison is its bound. */
static void put_leaf(enum leaf leaf, int deep, enum shape shape, int levels)
{
    int compared = leaf == LESS || leaf == GREATER;
    int below = compared && deep < 2 ? levels - 2 : levels - 1;
    if (compared) {
        put(2), put(leaf == LESS ? 1 : 3);
    }
    if (leaf == GREATER) {
        put_arguments(1, deep == 2 ? 0 : 1, shape, below);
    }
    put_name(leaf_names[leaf], leaf_arguments[leaf]);
    put_arguments(leaf_arguments[leaf], deep, shape, below);
    if (leaf == LESS) {
        put_arguments(1, deep == 2 ? 0 : 1, shape, below);
    }
}

/* Half as many records as there may be, so that two filters can be merged and a call makes its longest rows for records. */
static void put_records(void)
{
    int i;
    put(1);
    put(0);
    put(128);
    for (i = 0; i < 128; i++) {
        put(i % 2);
        put(0);
        put(i);
        put(0);
        put(0);
    }
}

/* A frame of so many levels: some of them Ands, then the conjunct. */
static void make_frame(int depth, enum shape ands, int levels, enum leaf leaf, int deep, enum shape shape)
{
    int i;
    frame_len = 0;
    if (logical_frame) {
        put(2);
    } else {
        put_records();
    }
    for (i = 0; i < levels; i++) {
        put_before(ands);
    }
    put_leaf(leaf, deep, shape, depth - levels);
    for (i = 0; i < levels; i++) {
        put_after(ands);
    }
}

/* On the filled stack. */
static void make_call(void)
{
    switch (called) {
    case LOAD: answer = spatialjoin_load(frame, frame_len, plan, sizeof plan, table, NODES); break;
    case EXTRACT: answer = spatialjoin_extract(plan, sizeof plan, n, scratch, sizeof scratch, table, NODES, DEFAULTS); break;
    case EXCHANGE: answer = spatialjoin_exchange(plan, sizeof plan, n, scratch, sizeof scratch); break;
    case LOGICAL: answer = spatialjoin_logical(frame, frame_len); break;
    case PRINT: answer = spatialjoin_print(frame, frame_len, text, sizeof text); break;
    case MERGE: answer = spatialjoin_merge(frame, frame_len, plan, sizeof plan, n, scratch, sizeof scratch, table, NODES); break;
    case PROJECT: answer = spatialjoin_project(plan, sizeof plan, n, scratch, sizeof scratch, items, ITEMS, items, ITEMS); break;
    case PUT: answer = spatialjoin_put(queues, sizeof queues, queue, frame, frame_len); break;
    case SERVE: answer = spatialjoin_serve(queues, sizeof queues, scratch, room); break;
    case ALL: answer = spatialjoin_extract_all(frame, frame_len, scratch, sizeof scratch, DEFAULTS); break;
    case EXPLAIN: answer = spatialjoin_explain(frame, frame_len, scratch, sizeof scratch, DEFAULTS); break;
    case CALLS: break;
    }
}

static void measure(enum call call)
{
    size_t untouched = 0;
    memset(stack, PATTERN, sizeof stack);
    getcontext(&callee);
    callee.uc_stack.ss_sp = stack;
    callee.uc_stack.ss_size = sizeof stack;
    callee.uc_link = &caller;
    makecontext(&callee, make_call, 0);
    called = call;
    swapcontext(&caller, &callee);

    while (untouched < sizeof stack && stack[untouched] == PATTERN) {
        untouched++;
    }
    if (sizeof stack - untouched > most[call]) {
        most[call] = sizeof stack - untouched;
    }
    if (answer >= 0) {
        accepted[call]++;
        n = call == LOGICAL || call == PRINT || call == PUT || call == SERVE || call == ALL || call == EXPLAIN
            ? n
            : SPATIALJOIN_LENGTH_OF(answer);
    }
}

static void measure_frame(void)
{
    if (logical_frame) {
        measure(LOGICAL);
    } else {
        measure(PRINT);
        measure(ALL);
        measure(EXPLAIN);
        measure(LOAD);
        measure(EXCHANGE);
        measure(EXTRACT);
        measure(EXCHANGE);
        measure(PROJECT);
    }
}

/* An extraction that no frame made: arguments as deep as a frame may be, and no remainder. */
static void measure_extraction(const uint8_t *head, size_t head_len, int arguments)
{
    unsigned deep, shape;
    size_t i;
    for (deep = 0; deep < (unsigned)arguments; deep++) {
        for (shape = 0; shape < SHAPES; shape++) {
            frame_len = 0;
            for (i = 0; i < head_len; i++) {
                put(head[i]);
            }
            put_arguments(arguments, (int)deep, (enum shape)shape, DEPTH);
            put(0);
            memcpy(plan, frame, frame_len);
            n = frame_len;
            measure(EXCHANGE);
            measure(PROJECT);
        }
    }
}

/* The And of a merge is a level itself, so both filters have one less. With sixteen children to a node there is no room for two that
 * deep; so each is also merged with a filter of one node, on either side. */
static void measure_merges(void)
{
    static const uint8_t small[] = {1, 0, 0, 4, 0, 0, 0};
    n = (size_t)spatialjoin_load(small, sizeof small, plan, sizeof plan, table, NODES);
    measure(MERGE);
    measure(EXTRACT);
    measure(LOAD);
    measure(MERGE);
    measure(EXTRACT);
    measure(LOAD);
    memcpy(frame, small, sizeof small);
    frame_len = sizeof small;
    measure(MERGE);
}

/* Every conjunct, each argument of it deep in every shape, below so many Ands. */
static void measure_leaves(enum shape ands, int levels)
{
    unsigned leaf, deep, shape;
    for (leaf = 0; leaf < LEAVES; leaf++) {
        for (deep = 0; deep < 3; deep++) {
            for (shape = 0; shape < SHAPES; shape++) {
                make_frame(DEPTH, ands, levels, (enum leaf)leaf, (int)deep, (enum shape)shape);
                measure_frame();
                if (!logical_frame && levels < DEPTH - 2) {
                    make_frame(DEPTH - 1, ands, levels, (enum leaf)leaf, (int)deep, (enum shape)shape);
                    measure_merges();
                }
            }
        }
    }
}

/* Frames of every sort of length, empty and too long ones too, into both queues until they are full; then out again, each first with an
 * output that is too short. */
static void measure_queues(void)
{
    static const size_t lengths[] = {0, 1, SPATIALJOIN_MOST_QUEUED / 2, SPATIALJOIN_MOST_QUEUED, SPATIALJOIN_MOST_QUEUED + 1};
    unsigned i;
    for (i = 0; i < 4 * 5 * SPATIALJOIN_MOST_WAITING; i++) {
        queue = (uint8_t)(i % 3);
        frame_len = lengths[i % 5];
        measure(PUT);
    }
    for (i = 0; i < 3 * SPATIALJOIN_MOST_WAITING; i++) {
        room = 0;
        measure(SERVE);
        room = sizeof scratch;
        measure(SERVE);
    }
}

int main(void)
{
    static const int and_levels[] = {0, 1, 30, 60, 61, 62};
    static const uint8_t relation[] = {0x11, 0, 0, 0};
    static const uint8_t distance[] = {0x12, 0, 0, 0, 0};
    static const uint8_t knn[] = {0x13, 0, 0, 0, 0, 0, 5, 0, 0, 2};
    unsigned i;
    int failed = 0;
    for (i = 0; i < ITEMS; i++) {
        items[i] = (uint16_t)i;
    }
    measure_extraction(relation, sizeof relation, 2);
    measure_extraction(distance, sizeof distance, 3);
    measure_extraction(knn, sizeof knn, 2);
    for (logical_frame = 0; logical_frame < 2; logical_frame++) {
        for (i = 0; i < sizeof and_levels / sizeof *and_levels; i++) {
            measure_leaves(AND_LEFT, and_levels[i]);
            measure_leaves(AND_RIGHT, and_levels[i]);
        }
    }
    measure_queues();
    for (i = 0; i < CALLS; i++) {
        printf("%-11s %6lu bytes of stack at the most, %lu calls accepted\n", call_names[i], (unsigned long)most[i], accepted[i]);
        failed |= most[i] > SPATIALJOIN_STACK_BYTES || accepted[i] == 0;
    }
    printf("%s\n", failed ? "more than SPATIALJOIN_STACK_BYTES, or no call accepted" : "within SPATIALJOIN_STACK_BYTES");
    return failed;
}
