/* What `header-check` compiles by every standard: the header, taken in twice, each of its macros, the layout of a table, the size of a
 * buffer of queues, the settings, and the bytes of frames and extractions. */
#include "spatialjoin.h"
#include "spatialjoin.h"

/* An array of -1 items where the condition does not hold: no compiler takes it. */
#define HOLDS(name, condition) typedef char name[(condition) ? 1 : -1]
#define FIELD(field) sizeof(((spatialjoin_node *)0)->field)

HOLDS(a_record_has_six_bytes, sizeof(spatialjoin_node) == 6);
HOLDS(a_table_has_6144_bytes, sizeof(spatialjoin_node[SPATIALJOIN_MOST_NODES]) == 6144);
HOLDS(the_kind_is_byte_0, offsetof(spatialjoin_node, kind) == 0 && FIELD(kind) == 1);
HOLDS(the_start_is_bytes_2_and_3, offsetof(spatialjoin_node, start) == 2 && FIELD(start) == 2);
HOLDS(the_end_is_bytes_4_and_5, offsetof(spatialjoin_node, end) == 4 && FIELD(end) == 2);
HOLDS(a_place_fits_in_16_bits, SPATIALJOIN_MOST_BYTES <= 65535);

/* The mark, and for each queue a count, the lengths and the places. */
HOLDS(queues_have_32835_bytes, SPATIALJOIN_QUEUES_BYTES == 32835);
HOLDS(queues_have_a_mark_and_two_queues,
      SPATIALJOIN_QUEUES_BYTES == 1 + 2 * (1 + SPATIALJOIN_MOST_WAITING * (2 + SPATIALJOIN_MOST_QUEUED)));
HOLDS(the_queues_are_0_and_1, SPATIALJOIN_CHASSIS == 0 && SPATIALJOIN_FIXED_UNIT == 1);
HOLDS(a_queued_frame_can_be_planned, SPATIALJOIN_MOST_QUEUED <= SPATIALJOIN_MOST_BYTES);
HOLDS(the_refusals_of_queues_are_21_to_23,
      SPATIALJOIN_NO_SUCH_QUEUE == -21 && SPATIALJOIN_QUEUED_TOO_LONG == -22 && SPATIALJOIN_QUEUE_FULL == -23);

/* An answer has rounds and length apart: both are below 65,536. */
HOLDS(a_length_is_below_65536, SPATIALJOIN_MOST_BYTES < 65536 && SPATIALJOIN_MOST_NODES < 65536);

/* A bit for each kind, and defaults that are good settings. */
HOLDS(the_kinds_are_three_bits, SPATIALJOIN_RELATIONS == 1 && SPATIALJOIN_DISTANCES == 2 && SPATIALJOIN_KNNS == 4);
HOLDS(all_kinds_are_seven, SPATIALJOIN_ALL_KINDS == (SPATIALJOIN_RELATIONS | SPATIALJOIN_DISTANCES | SPATIALJOIN_KNNS));
HOLDS(the_greatest_k_has_32_bits, SPATIALJOIN_GREATEST_K == (uint32_t)-1);
HOLDS(the_default_k_is_one, SPATIALJOIN_DEFAULT_K == 1 && SPATIALJOIN_DEFAULT_K <= SPATIALJOIN_GREATEST_K);
HOLDS(the_refusal_of_settings_is_24, SPATIALJOIN_BAD_SETTINGS == -24);

/* A verdict that is a match is the first byte of its extraction; reasons are above. */
HOLDS(a_match_is_a_first_byte, SPATIALJOIN_AS_RELATION == (int)SPATIALJOIN_RELATION && SPATIALJOIN_AS_DISTANCE == (int)SPATIALJOIN_DISTANCE
      && SPATIALJOIN_AS_KNN == (int)SPATIALJOIN_KNN);
HOLDS(the_reasons_are_20_to_74, SPATIALJOIN_OTHER_CASE == 0x20 && SPATIALJOIN_TIES_NO_FLAG == 0x74);

/* The bytes of frames and extractions, as docs/FRAMES.md has them. */
HOLDS(the_kinds_of_nodes, SPATIALJOIN_NODE_COLUMN == 0 && SPATIALJOIN_NODE_OTHER == 4 && SPATIALJOIN_NODE_LOGICAL_COLUMN == 5);
HOLDS(the_operators, SPATIALJOIN_OPERATOR_AND == 0 && SPATIALJOIN_OPERATOR_GT_EQ == 4 && SPATIALJOIN_OPERATOR_LAST_OTHER == 63);
HOLDS(the_literal_types, SPATIALJOIN_LITERAL_NULL == 0 && SPATIALJOIN_LITERAL_UINT64 == 5 && SPATIALJOIN_LITERAL_OTHER == 6);
HOLDS(the_sides, SPATIALJOIN_LEFT == 0 && SPATIALJOIN_RIGHT == 1 && SPATIALJOIN_NO_SIDE == 2);
HOLDS(nine_relation_types, SPATIALJOIN_RELATION_INTERSECTS == 0 && SPATIALJOIN_RELATION_EQUALS == 8);
HOLDS(a_comparison_has_its_operators_form,
      SPATIALJOIN_FORM_LT == (int)SPATIALJOIN_OPERATOR_LT && SPATIALJOIN_FORM_GT_EQ == (int)SPATIALJOIN_OPERATOR_GT_EQ);
HOLDS(an_absent_flag_is_2, SPATIALJOIN_TIES_ABSENT == 2);

#if SPATIALJOIN_VERSION_NUMBER < SPATIALJOIN_VERSION_MINOR
#error "the version's number is for the preprocessor too"
#endif

unsigned parts(const uint8_t *plan, int64_t answer);
size_t length(int64_t answer);
int refusal(int64_t answer);
int empty(int64_t answer);
int matches(void);
int64_t extract(uint8_t *plan, size_t n, uint8_t *scratch, const spatialjoin_node *table);
int64_t extract_some(uint8_t *plan, size_t n, uint8_t *scratch, const spatialjoin_node *table);
int64_t extract_all(const uint8_t *frame, size_t n, uint8_t *out);
int64_t explain(const uint8_t *frame, size_t n, uint8_t *verdicts);

unsigned parts(const uint8_t *plan, int64_t answer)
{
    return SPATIALJOIN_POSITION_OF(plan) + SPATIALJOIN_MASK_OF(answer) + SPATIALJOIN_NAMES_OF(answer) + SPATIALJOIN_SIDE_OF(answer)
        + SPATIALJOIN_WALK_OF(answer) + SPATIALJOIN_QUEUE_OF(answer) + SPATIALJOIN_ROUNDS_OF(answer) + SPATIALJOIN_LINE_OF(answer)
        + SPATIALJOIN_TAKEN_OF(answer) + SPATIALJOIN_CONJUNCTS_OF(answer);
}

size_t length(int64_t answer)
{
    return SPATIALJOIN_LENGTH_OF(answer);
}

int refusal(int64_t answer)
{
    return SPATIALJOIN_REFUSAL_OF(answer);
}

int empty(int64_t answer)
{
    return SPATIALJOIN_BOTH_EMPTY(answer);
}

int matches(void)
{
    return SPATIALJOIN_VERSION_MATCHES();
}

int64_t extract(uint8_t *plan, size_t n, uint8_t *scratch, const spatialjoin_node *table)
{
    return spatialjoin_extract(plan, n, n, scratch, n, table, SPATIALJOIN_MOST_NODES, SPATIALJOIN_DEFAULT_SETTINGS);
}

int64_t extract_some(uint8_t *plan, size_t n, uint8_t *scratch, const spatialjoin_node *table)
{
    return spatialjoin_extract(plan, n, n, scratch, n, table, SPATIALJOIN_MOST_NODES, SPATIALJOIN_RELATIONS | SPATIALJOIN_KNNS, 5, 100);
}

int64_t extract_all(const uint8_t *frame, size_t n, uint8_t *out)
{
    return spatialjoin_extract_all(frame, n, out, n, SPATIALJOIN_DEFAULT_SETTINGS);
}

int64_t explain(const uint8_t *frame, size_t n, uint8_t *verdicts)
{
    return spatialjoin_explain(frame, n, verdicts, SPATIALJOIN_MOST_NODES, SPATIALJOIN_DEFAULT_SETTINGS);
}
