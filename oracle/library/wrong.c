/* The library with one fault, chosen by WRONG; wrong_project.c has those of project, wrong_marks.c those of bounds, wrong_walk.c those of
 * extract's walk, wrong_settings.c those of its settings, wrong_queues.c those of put and serve, wrong_all.c those of extract_all. Its own
 * functions are renamed to right_.. before (library-mutants). */
#include <stddef.h>
#include <stdint.h>
#include <string.h>

typedef struct {
    uint8_t kind;
    uint16_t start, end;
} node;

typedef struct {
    uint8_t kinds;
    uint32_t default_k, greatest_k;
} settings;

int64_t right_load(const uint8_t *frame, size_t frame_len, uint8_t *plan, size_t plan_len, node *table, size_t table_len);
int64_t extract_by_settings(uint8_t *plan, size_t plan_len, size_t n, uint8_t *scratch, size_t scratch_len, const node *table,
                            size_t table_len, settings set);
int64_t extract_by_bound(uint8_t *plan, size_t plan_len, size_t n, uint8_t *scratch, size_t scratch_len, const node *table,
                         size_t table_len, settings set);
int64_t spoil_walk(const uint8_t *frame, const uint8_t *plan, int64_t answer);
int64_t right_exchange(uint8_t *plan, size_t plan_len, size_t n, uint8_t *scratch, size_t scratch_len);
int64_t right_logical(const uint8_t *frame, size_t frame_len);
int64_t right_print(const uint8_t *frame, size_t frame_len, uint8_t *text, size_t text_len);
int64_t right_merge(const uint8_t *frame, size_t frame_len, uint8_t *plan, size_t plan_len, size_t n, uint8_t *scratch,
                    size_t scratch_len, node *table, size_t table_len);

/* The nodes of a frame, in a table of this file's, and how many they are: 0 where it is refused. */
static node nodes[1024];

static size_t nodes_of(const uint8_t *frame, size_t frame_len)
{
    static uint8_t loaded[16384];
    size_t i, count = 0;
    for (i = 0; i < 1024; i++) {
        nodes[i].kind = 255;
    }
    if (right_load(frame, frame_len, loaded, sizeof loaded, nodes, 1024) < 0) {
        return 0;
    }
    while (count < 1024 && nodes[count].kind != 255) {
        count++;
    }
    return count;
}

/* What is wrong with the table that an accepted load or merge of this frame filled. */
static void spoil_table(const uint8_t *frame, size_t frame_len, node *table, size_t table_len, int wrong)
{
    size_t i, count = wrong == 0 ? 0 : nodes_of(frame, frame_len);
    if (wrong == 35 && count < table_len) {
        table[count].kind ^= 1;
    }
    if (wrong == 36) {
        table[count - 1].end -= 1;
    }
    if (wrong == 37) {
        table[0].start += 1;
    }
    if (wrong == 38) {
        table[table_len].kind ^= 1;
    }
    if (wrong == 75) {
        for (i = 0; i < count; i++) {
            table[i].end %= 16384;
        }
    }
}

int64_t spatialjoin_load(const uint8_t *frame, size_t frame_len, uint8_t *plan, size_t plan_len, node *table, size_t table_len)
{
    int64_t answer = right_load(frame, frame_len, plan, plan_len, table, table_len);
    if (answer > 0) {
        spoil_table(frame, frame_len, table, table_len, (WRONG >= 35 && WRONG <= 38) || WRONG == 75 ? WRONG : 0);
    }
    if (WRONG == 39 && (answer == -17 || answer == -9) && table_len > 0) {
        (void)nodes_of(frame, frame_len);
        table[0] = nodes[0];
    }
    if (WRONG == 40 && answer == -9 && nodes_of(frame, frame_len) > table_len) {
        answer = -17;
    }
    if (WRONG == 1 && answer > 0 && (size_t)answer < plan_len) {
        plan[answer] ^= 1;
    }
    if (WRONG == 2 && answer == -8) {
        answer = -9;
    }
    return answer;
}

/* What is wrong with the position in an extraction that a call left. */
static void spoil_position(uint8_t *plan, int64_t answer, int wrong)
{
    uint8_t high;
    if (answer <= 0 || plan[0] == 1) {
        return;
    }
    high = plan[1];
    if (wrong == 27 || wrong == 30) {
        plan[1] = 0;
        plan[2] = 0;
    }
    if (wrong == 28) {
        plan[2] += 1;
    }
    if (wrong == 29) {
        plan[1] = plan[2];
        plan[2] = high;
    }
}

/* Whether the held frame is an `st_knn` call of three arguments, the last an Int32 to UInt64 of 0. */
static int asks_for_none(const uint8_t *plan, size_t n)
{
    static const uint8_t zero[8];
    size_t start = 3 + 5 * (256 * (size_t)plan[1] + plan[2]);
    return memcmp(plan + start, "\3\6st_knn\3", 9) == 0 && plan[n - 10] == 1 && plan[n - 9] >= 2 && plan[n - 9] <= 5
        && memcmp(plan + n - 8, zero, 8) == 0;
}

/* Whether an extract was refused with 13, whatever its walk. */
static int is_unmatched(int64_t answer)
{
    return answer < 0 && -answer % 256 == 13;
}

/* Takes a KNN with k 0: with 1 in its place, which becomes 0 again where the fault is that it stays 0. */
static int64_t take_none(uint8_t *plan, size_t plan_len, size_t n, uint8_t *scratch, size_t scratch_len, const node *table,
                         size_t table_len, settings set)
{
    int64_t answer;
    plan[n - 1] = 1;
    answer = extract_by_settings(plan, plan_len, n, scratch, scratch_len, table, table_len, set);
    plan[n - 1] = 0;
    if (answer > 0) {
        plan[6] = WRONG == 32 ? 0 : 1;
        scratch[n - 1] = 0;
    }
    return answer;
}

/* Whether the plan is a good frame that the table does not begin with. */
static int lacks_table(const uint8_t *plan, size_t plan_len, size_t n)
{
    return n <= plan_len && n > 0 && plan[0] == 1 && nodes_of(plan, n) > 0;
}

/* Whether all but the ends of some records is right. */
static int lacks_ends(const node *table, size_t table_len, size_t count)
{
    size_t i;
    for (i = 0; i < count; i++) {
        if (i >= table_len || table[i].kind != nodes[i].kind || table[i].start != nodes[i].start) {
            return 0;
        }
    }
    return 1;
}

int64_t spatialjoin_extract(uint8_t *plan, size_t plan_len, size_t n, uint8_t *scratch, size_t scratch_len, const node *table,
                            size_t table_len, uint8_t kinds, uint32_t default_k, uint32_t greatest_k)
{
    settings set = {kinds, default_k, greatest_k};
    int64_t answer = extract_by_bound(plan, plan_len, n, scratch, scratch_len, table, table_len, set);
    if ((WRONG == 32 || WRONG == 33) && is_unmatched(answer) && asks_for_none(plan, n)) {
        answer = take_none(plan, plan_len, n, scratch, scratch_len, table, table_len, set);
    }
    if (WRONG == 41 && answer == -10 && lacks_table(plan, plan_len, n)) {
        answer = extract_by_settings(plan, plan_len, n, scratch, scratch_len, nodes, 1024, set);
    }
    if (WRONG == 42 && answer == -10 && lacks_table(plan, plan_len, n) && lacks_ends(table, table_len, nodes_of(plan, n))) {
        answer = extract_by_settings(plan, plan_len, n, scratch, scratch_len, nodes, 1024, set);
    }
    if (WRONG == 43 && answer == -12 && table_len == 0) {
        answer = -10;
    }
    if (WRONG == 44 && answer == -10 && scratch_len < n && lacks_table(plan, plan_len, n)) {
        answer = -9;
    }
    if (WRONG == 3 && answer > 0 && n < scratch_len) {
        scratch[n] ^= 1;
    }
    if (WRONG == 4 && is_unmatched(answer) && scratch_len > 0) {
        scratch[0] ^= 1;
    }
    spoil_position(plan, answer, WRONG == 30 ? 0 : WRONG);
    return WRONG >= 70 ? spoil_walk(answer > 0 ? scratch : plan, plan, answer) : answer;
}

/* Exchanges a held KNN whose k is 0, with 1 in its place meanwhile. */
static int64_t exchange_none(uint8_t *plan, size_t plan_len, size_t n, uint8_t *scratch, size_t scratch_len)
{
    int64_t answer;
    plan[6] = 1;
    answer = right_exchange(plan, plan_len, n, scratch, scratch_len);
    plan[6] = 0;
    if (answer > 0) {
        scratch[6] = 0;
    }
    return answer;
}

int64_t spatialjoin_exchange(uint8_t *plan, size_t plan_len, size_t n, uint8_t *scratch, size_t scratch_len)
{
    int64_t answer = right_exchange(plan, plan_len, n, scratch, scratch_len);
    if (WRONG == 34 && answer == -10 && n <= plan_len && n > 6 && plan[0] == 0x13 && memcmp(plan + 3, "\0\0\0\0", 4) == 0) {
        answer = exchange_none(plan, plan_len, n, scratch, scratch_len);
    }
    if (WRONG == 5 && answer > 0) {
        plan[plan_len] ^= 1;
    }
    if (WRONG == 6 && answer == -9 && n == scratch_len + 1) {
        answer = -11;
    }
    if (WRONG == 31 && answer > 0 && plan[0] != 1 && 256 * (size_t)plan[1] + plan[2] > 1023) {
        memcpy(plan, scratch, n);
        answer = -10;
    }
    spoil_position(plan, answer, WRONG == 30 ? WRONG : 0);
    return answer;
}

int64_t spatialjoin_logical(const uint8_t *frame, size_t frame_len)
{
    int64_t answer = right_logical(frame, frame_len);
    if (WRONG == 7 && answer > 0 && answer % 256 == 2) {
        answer -= 1;
    }
    return answer;
}

/* Makes a small digit of the text's first literal a capital; a mark in a name may be taken for one. */
static void capital(uint8_t *text, int64_t length)
{
    int64_t i = 0, end;
    while (i < length && text[i] != '#') {
        i++;
    }
    end = i + 19 < length ? i + 19 : length;
    while (i < end && (text[i] < 'a' || text[i] > 'f')) {
        i++;
    }
    if (i < end) {
        text[i] -= 'a' - 'A';
    }
}

/* What is wrong with an accepted text. */
static void spoil_text(const uint8_t *frame, uint8_t *text, size_t text_len, int64_t answer)
{
    if (WRONG == 8 && (size_t)answer < text_len) {
        text[answer] ^= 1;
    }
    if (WRONG == 9) {
        capital(text, answer);
    }
    if (WRONG == 10) {
        text[text_len] ^= 1;
    }
    if (WRONG == 11) {
        ((uint8_t *)(uintptr_t)frame)[0] ^= 1;
    }
}

int64_t spatialjoin_print(const uint8_t *frame, size_t frame_len, uint8_t *text, size_t text_len)
{
    static uint8_t whole[26620];
    int64_t answer = right_print(frame, frame_len, text, text_len);
    if (answer > 0) {
        spoil_text(frame, text, text_len, answer);
    }
    if (WRONG == 12 && answer == -15 && text_len > 0) {
        text[0] ^= 1;
    }
    if (WRONG == 13 && answer == -15 && right_print(frame, frame_len, whole, sizeof whole) == (int64_t)text_len + 1) {
        answer = (int64_t)text_len + 1;
    }
    if (WRONG == 14 && answer == -8 && text_len == 0) {
        answer = -15;
    }
    return answer;
}

/* Buffers as they were before a merge, as far as an accepted one can write to them. */
static uint8_t plan_before[16384], scratch_before[16384];

static size_t least(size_t a, size_t b)
{
    return a < b ? a : b;
}

/* The sides of the And that a merge made change places: the held expression stands in the scratch after its records. */
static void exchange_sides(uint8_t *plan, size_t length, const uint8_t *scratch, size_t n)
{
    size_t held = n - 3 - 5 * (256 * (size_t)scratch[1] + scratch[2]);
    size_t start = 5 + 5 * (256 * (size_t)plan[1] + plan[2]);
    memmove(plan + start, plan + start + held, length - start - held);
    memcpy(plan + length - held, scratch + n - held, held);
}

/* What is wrong with an accepted merge's bytes. */
static void spoil_merge(const uint8_t *frame, size_t frame_len, uint8_t *plan, size_t length, size_t n, uint8_t *scratch)
{
    if (WRONG == 17) {
        memcpy(scratch, scratch_before, n);
    }
    if (WRONG == 19) {
        /* The merged filter ends as the frame does, but for a column's index. */
        memcpy(plan + length - 5, frame + frame_len - 5, 5);
    }
    if (WRONG == 20) {
        exchange_sides(plan, length, scratch, n);
    }
    if (WRONG == 23) {
        ((uint8_t *)(uintptr_t)frame)[0] ^= 1;
    }
}

/* A wrong byte beside what a merge may write, or after a refusal. */
static void spoil_around(uint8_t *plan, size_t plan_len, size_t n, uint8_t *scratch, size_t scratch_len, int64_t answer)
{
    if (WRONG == 15 && answer > 0 && (size_t)answer < plan_len) {
        plan[answer] ^= 1;
    }
    if (WRONG == 16 && answer > 0) {
        plan[plan_len] ^= 1;
    }
    if (WRONG == 18 && answer > 0 && n < scratch_len) {
        scratch[n] ^= 1;
    }
    if (WRONG == 22 && answer == -16 && scratch_len > 0) {
        scratch[0] ^= 1;
    }
}

/* What is wrong with a merge's answer. */
static int64_t spoil_answer(uint8_t *plan, size_t plan_len, size_t n, uint8_t *scratch, size_t scratch_len, int64_t answer)
{
    if (WRONG == 21 && answer == -16 && scratch_len < n) {
        return -9;
    }
    if (WRONG == 24 && answer > 0 && plan[1] == 1) {
        memcpy(plan, plan_before, (size_t)answer);
        memcpy(scratch, scratch_before, n);
        return -16;
    }
    if (WRONG == 25 && answer == -8 && n > plan_len) {
        return -10;
    }
    if (WRONG == 26 && answer == -12 && scratch_len < n) {
        return -9;
    }
    return answer;
}

/* What is wrong with the table that a merge filled, or that it should have kept. */
static int64_t spoil_merged_table(const uint8_t *plan, const uint8_t *scratch, size_t n, node *table, size_t table_len, int64_t answer)
{
    size_t count;
    if (WRONG == 45 && answer > 0) {
        count = nodes_of(scratch, n);
        memcpy(table, nodes, count * sizeof *nodes);
    }
    if (answer > 0) {
        spoil_table(plan, (size_t)answer, table, table_len, WRONG == 46 ? 35 : 0);
    }
    if (WRONG == 47 && answer == -17 && table_len > 0) {
        table[0].kind ^= 1;
    }
    if (WRONG == 48 && answer == -16 && table_len == 0) {
        answer = -17;
    }
    return answer;
}

int64_t spatialjoin_merge(const uint8_t *frame, size_t frame_len, uint8_t *plan, size_t plan_len, size_t n, uint8_t *scratch,
                          size_t scratch_len, node *table, size_t table_len)
{
    int64_t answer;
    memcpy(plan_before, plan, least(plan_len, sizeof plan_before));
    memcpy(scratch_before, scratch, least(scratch_len, sizeof scratch_before));
    answer = right_merge(frame, frame_len, plan, plan_len, n, scratch, scratch_len, table, table_len);
    answer = spoil_merged_table(plan, scratch, n, table, table_len, answer);
    if (answer > 0) {
        spoil_merge(frame, frame_len, plan, (size_t)answer, n, scratch);
    }
    spoil_around(plan, plan_len, n, scratch, scratch_len, answer);
    return spoil_answer(plan, plan_len, n, scratch, scratch_len, answer);
}
