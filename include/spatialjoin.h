/*
 * The join filter planner's calls for C and C++ hosts (libspatialjoin_c.a).
 *
 * PLANS. The host lends a buffer and keeps n: the plan stands in the buffer's first n bytes, and at the start, when there is none, n is
 * 0. After an accepted call n is the answer's length, after a refused one what it was. A refused call changes no byte of any buffer.
 * SPATIALJOIN_MOST_BYTES are enough for every frame, plan and scratch, SPATIALJOIN_MOST_TEXT for every text. docs/FRAMES.md of the
 * repository has their bytes.
 *
 * TABLES. The host lends a table of node records too, of which SPATIALJOIN_MOST_NODES, 6,144 bytes, are always enough. An accepted load
 * or merge fills its first records with the nodes of the new plan and keeps the others; a refused one keeps all. spatialjoin_extract takes
 * it as the last of them left it. An exchange moves no node. One byte of a record, that after the kind, belongs to no field and is not
 * written: compare records by their fields.
 *
 * QUEUES. Where jobs of two machines reach one planner, the host lends a buffer of SPATIALJOIN_QUEUES_BYTES that holds a queue of each,
 * all zero at the start, to spatialjoin_put and spatialjoin_serve, and leaves it alone in between. It holds frames that wait to be planned
 * and no plan: the other calls never see it. Whatever the other queue does, a frame that was put behind j others of its queue comes out
 * no later than the (2 * j + 2)th accepted serve after it, and each queue gives its frames in the order in which they came (theorems fair,
 * in-order).
 *
 * CONJUNCTS. spatialjoin_extract_all writes all indexable conjuncts of a frame, for a price list for one: every conjunct that extract could
 * take, each exactly once, and what is left of the filter. It is as if each remainder was loaded and extracted in turn. It takes a frame, a
 * buffer and settings, and no plan, scratch or table. hosts/c/all.c of the repository has a reader of what it writes.
 *
 * VERDICTS. spatialjoin_explain says of every conjunct of a frame why it is indexed or is not, a byte each, and which one sets the line. It
 * takes a frame, a buffer and settings, and no plan, scratch or table. hosts/c/explain.c of the repository reads its answers.
 *
 * SETTINGS. spatialjoin_extract, spatialjoin_extract_all and spatialjoin_explain take what a site may have indexed: the kinds allowed, the
 * k of an st_knn call that has none, and the greatest k. SPATIALJOIN_DEFAULT_SETTINGS are the program's, under which every answer is what
 * it was without settings (theorem default-settings). What is proved of lists of calls supposes the same settings for all extracts of a
 * list, and for both machines (theorem all-settings). No other call takes settings, and what is held may be of any kind and have any k.
 *
 * ANSWERS. An answer of at least 0 is a length (of spatialjoin_logical: see there). A negative one is a refusal: one of enum
 * spatialjoin_refusal. That of spatialjoin_extract has the walk too, so as it stands it is neither: SPATIALJOIN_LENGTH_OF,
 * SPATIALJOIN_WALK_OF and SPATIALJOIN_REFUSAL_OF take it apart. That of spatialjoin_serve has the queue too, for SPATIALJOIN_QUEUE_OF, that
 * of spatialjoin_extract_all the rounds, for SPATIALJOIN_ROUNDS_OF. An accepted spatialjoin_explain's is no length but a line, a position
 * and a count, for SPATIALJOIN_LINE_OF, SPATIALJOIN_TAKEN_OF and SPATIALJOIN_CONJUNCTS_OF.
 *
 * BUFFERS. Each pointer is to as many bytes (of a table: records, of a list: items) as the length after it says, bytes with any
 * alignment. No buffer of a call may overlap with another of the same call: that is undefined behaviour, as `restrict` says; only the two
 * lists of a spatialjoin_project may be one. A buffer of length 0 may be NULL.
 *
 * THREADS. The library has no state, allocates nothing and calls nothing but C's memory functions. Any number of threads may call
 * it at once, each with buffers that no other uses in the meantime. A frame, the table of an extract and a list, which are only read,
 * may be lent to several calls at once.
 *
 * STACK. A call needs at most SPATIALJOIN_STACK_BYTES of stack, which is measured (hosts/c/stack.c) and not proved.
 *
 * VERSION. A host tests SPATIALJOIN_VERSION_MATCHES() at its start, before it lends anything: an archive of another version than the
 * header may take other arguments, fill other records and give other answers. docs/HOSTS-CHANGES.md of the repository says what each
 * version changed.
 *
 * MACHINE. The archive is for x86-64 Linux. The header is C89 or later with <stdint.h>, or C++98 or later.
 */
#ifndef SPATIALJOIN_H
#define SPATIALJOIN_H

#include <stddef.h>
#include <stdint.h>

#define SPATIALJOIN_VERSION "0.15.1"
#define SPATIALJOIN_VERSION_MAJOR 0
#define SPATIALJOIN_VERSION_MINOR 15
#define SPATIALJOIN_VERSION_PATCH 1

/* The header's version as spatialjoin_version gives the archive's. */
#define SPATIALJOIN_VERSION_NUMBER (SPATIALJOIN_VERSION_MAJOR * 65536 + SPATIALJOIN_VERSION_MINOR * 256 + SPATIALJOIN_VERSION_PATCH)

/* Whether the archive is of the header's version: 1 or 0. */
#define SPATIALJOIN_VERSION_MATCHES() (spatialjoin_version() == SPATIALJOIN_VERSION_NUMBER)

/* The most bytes of a frame or plan. */
#define SPATIALJOIN_MOST_BYTES 16384

/* The most bytes of a text that spatialjoin_print writes: no good frame has a longer one (theorem text-is-short). */
#define SPATIALJOIN_MOST_TEXT 26620

/* The most nodes of a frame, a merged one too, which has those of both filters and the And that joins them: where they are more, a merge
 * is refused (-16). So a table of so many records is never too short. */
#define SPATIALJOIN_MOST_NODES 1024

/* The most items of a list of spatialjoin_project. */
#define SPATIALJOIN_MOST_ITEMS 4096

/* The bytes of a buffer of queues; one of any other length is refused (-10). */
#define SPATIALJOIN_QUEUES_BYTES 32835

/* The most bytes of a frame that waits in a queue, and the most frames that wait in one. */
#define SPATIALJOIN_MOST_QUEUED 1024
#define SPATIALJOIN_MOST_WAITING 16

/* The settings that the program gives: all kinds, and these. They are the last three arguments of spatialjoin_extract, of
 * spatialjoin_extract_all and of spatialjoin_explain. */
#define SPATIALJOIN_DEFAULT_K 1
#define SPATIALJOIN_GREATEST_K 4294967295u
#define SPATIALJOIN_DEFAULT_SETTINGS SPATIALJOIN_ALL_KINDS, SPATIALJOIN_DEFAULT_K, SPATIALJOIN_GREATEST_K

/* The most bytes of stack that a call needs. */
#define SPATIALJOIN_STACK_BYTES 65536

#if !defined(__cplusplus) && defined(__STDC_VERSION__) && __STDC_VERSION__ >= 199901L
#define SPATIALJOIN_RESTRICT restrict
#elif defined(__GNUC__)
#define SPATIALJOIN_RESTRICT __restrict__
#else
#define SPATIALJOIN_RESTRICT
#endif

#if defined(__cplusplus) || (defined(__STDC_VERSION__) && __STDC_VERSION__ >= 199901L)
#define SPATIALJOIN_INLINE static inline
#elif defined(__GNUC__)
#define SPATIALJOIN_INLINE static __inline__
#else
#define SPATIALJOIN_INLINE static
#endif

#ifdef __cplusplus
extern "C" {
#endif

/* The refusals. Each is minus its number. */
enum spatialjoin_refusal {
    SPATIALJOIN_FRAME_LENGTH = -1,       /* frame empty or over SPATIALJOIN_MOST_BYTES (put: empty alone) */
    SPATIALJOIN_FIRST_BYTE = -2,         /* wrong first byte */
    SPATIALJOIN_FRAME_ENDS = -3,         /* the frame ends inside a field */
    SPATIALJOIN_OUT_OF_RANGE = -4,       /* a field is out of its range */
    SPATIALJOIN_TOO_LARGE = -5,          /* over 1,024 nodes, or over 64 levels */
    SPATIALJOIN_NO_SUCH_COLUMN = -6,     /* a column's index is not below the column count */
    SPATIALJOIN_BYTES_AFTER = -7,        /* bytes after the frame's end */
    SPATIALJOIN_TOO_FEW_ARGUMENTS = -8,  /* a conjunct lacks arguments: see docs/FRAMES.md */
    SPATIALJOIN_TOO_SHORT = -9,          /* the plan buffer (load, merge), the scratch or the output (serve, extract_all, explain) is too
                                            short */
    SPATIALJOIN_NO_GOOD_PLAN = -10,      /* n is over the buffer's length, its first n bytes are no good plan, or not the table's;
                                            of put and serve: the buffer holds no good queues */
    SPATIALJOIN_PLAN_EMPTY = -11,        /* n is 0 */
    SPATIALJOIN_ALREADY_EXTRACTED = -12, /* the plan is an extraction already */
    SPATIALJOIN_NO_MATCH = -13,          /* no conjunct matches: the join stays filtered; the answer has the walk too */
    SPATIALJOIN_TEXT_TOO_SHORT = -15,    /* the text buffer is shorter than the text; -14 is no call's, but of the program's lines */
    SPATIALJOIN_MERGED_TOO_LARGE = -16,  /* merged, over SPATIALJOIN_MOST_BYTES, 1,024 nodes, 64 levels or 256 records */
    SPATIALJOIN_TABLE_TOO_SHORT = -17,   /* the table has fewer records than the new plan has nodes (load, merge) */
    SPATIALJOIN_NOT_EXTRACTED = -18,     /* the plan is no extraction but a frame (project) */
    SPATIALJOIN_LIST_TOO_LONG = -19,     /* a list has over SPATIALJOIN_MOST_ITEMS items (project) */
    SPATIALJOIN_NOT_IN_LIST = -20,       /* the plan has a child index that the list of its side lacks (project) */
    SPATIALJOIN_NO_SUCH_QUEUE = -21,     /* the queue's number is neither 0 nor 1 (put) */
    SPATIALJOIN_QUEUED_TOO_LONG = -22,   /* the frame has over SPATIALJOIN_MOST_QUEUED bytes (put) */
    SPATIALJOIN_QUEUE_FULL = -23,        /* SPATIALJOIN_MOST_WAITING frames wait in the queue already (put) */
    SPATIALJOIN_BAD_SETTINGS = -24       /* no kind or a bit that is none, a default k of 0, or one above the greatest (extract,
                                            extract_all, explain) */
};

/* The kinds allowed, a bit for each: any of them or-ed together, but not none. */
enum spatialjoin_kinds {
    SPATIALJOIN_RELATIONS = 1,
    SPATIALJOIN_DISTANCES = 2,
    SPATIALJOIN_KNNS = 4,
    SPATIALJOIN_ALL_KINDS = 7
};

/* The queues of a buffer of queues. */
enum spatialjoin_queue {
    SPATIALJOIN_CHASSIS = 0,
    SPATIALJOIN_FIXED_UNIT = 1
};

/* A node of a frame: six bytes, since version 0.11.0. A place in a frame is at most SPATIALJOIN_MOST_BYTES (theorem positions-fit). */
typedef struct spatialjoin_node {
    uint8_t kind;   /* its kind byte, 0 to 4 */
    uint16_t start; /* where it starts, the frame's first byte being 0 */
    uint16_t end;   /* where it ends: one past the whole node */
} spatialjoin_node;

/* The first byte of a plan. */
enum spatialjoin_plan {
    SPATIALJOIN_FRAME = 0x01,    /* a frame as it was loaded or merged, exchanged or not */
    SPATIALJOIN_RELATION = 0x11, /* an extraction: a spatial relation */
    SPATIALJOIN_DISTANCE = 0x12, /* a distance */
    SPATIALJOIN_KNN = 0x13       /* nearest neighbours */
};

/* The bytes of frames and extractions, for a host that writes or reads them; docs/FRAMES.md of the repository has where each stands. */

/* A node's kind byte: the last is of logical frames only, in the place of the first, which is of physical ones only. */
enum spatialjoin_node_kind {
    SPATIALJOIN_NODE_COLUMN = 0,
    SPATIALJOIN_NODE_LITERAL = 1,
    SPATIALJOIN_NODE_BINARY = 2,
    SPATIALJOIN_NODE_FUNCTION = 3,
    SPATIALJOIN_NODE_OTHER = 4,
    SPATIALJOIN_NODE_LOGICAL_COLUMN = 5
};

/* The operator of a binary node; those between the last two, both included, are the host's. */
enum spatialjoin_operator {
    SPATIALJOIN_OPERATOR_AND = 0,
    SPATIALJOIN_OPERATOR_LT = 1,
    SPATIALJOIN_OPERATOR_LT_EQ = 2,
    SPATIALJOIN_OPERATOR_GT = 3,
    SPATIALJOIN_OPERATOR_GT_EQ = 4,
    SPATIALJOIN_OPERATOR_FIRST_OTHER = 5,
    SPATIALJOIN_OPERATOR_LAST_OTHER = 63
};

/* The type of a literal, whose eight bytes follow; those of the first and the last are the host's. */
enum spatialjoin_literal_type {
    SPATIALJOIN_LITERAL_NULL = 0,
    SPATIALJOIN_LITERAL_BOOLEAN = 1,
    SPATIALJOIN_LITERAL_INT32 = 2,
    SPATIALJOIN_LITERAL_INT64 = 3,
    SPATIALJOIN_LITERAL_UINT32 = 4,
    SPATIALJOIN_LITERAL_UINT64 = 5,
    SPATIALJOIN_LITERAL_OTHER = 6
};

/* The type of an extracted relation. */
enum spatialjoin_relation_type {
    SPATIALJOIN_RELATION_INTERSECTS = 0,
    SPATIALJOIN_RELATION_CONTAINS = 1,
    SPATIALJOIN_RELATION_WITHIN = 2,
    SPATIALJOIN_RELATION_COVERS = 3,
    SPATIALJOIN_RELATION_COVERED_BY = 4,
    SPATIALJOIN_RELATION_TOUCHES = 5,
    SPATIALJOIN_RELATION_CROSSES = 6,
    SPATIALJOIN_RELATION_OVERLAPS = 7,
    SPATIALJOIN_RELATION_EQUALS = 8
};

/* The form of an extracted distance: st_dwithin, or the operator that compares st_distance with the bound. */
enum spatialjoin_distance_form {
    SPATIALJOIN_FORM_DWITHIN = 0,
    SPATIALJOIN_FORM_LT = 1,
    SPATIALJOIN_FORM_LT_EQ = 2,
    SPATIALJOIN_FORM_GT = 3,
    SPATIALJOIN_FORM_GT_EQ = 4
};

/* A KNN's flag for ties: false, true, or not given. Its spheroid flag is one of the first two. */
enum spatialjoin_ties {
    SPATIALJOIN_TIES_FALSE = 0,
    SPATIALJOIN_TIES_TRUE = 1,
    SPATIALJOIN_TIES_ABSENT = 2
};

/* The most levels of an expression, its root being the first; records of a frame; bytes of a function's name; arguments of a function, or
 * children of an other node. */
#define SPATIALJOIN_MOST_LEVELS 64
#define SPATIALJOIN_MOST_RECORDS 256
#define SPATIALJOIN_MOST_NAME 32
#define SPATIALJOIN_MOST_ARGUMENTS 16

/* Of a plan that is an extraction: the position, from 0, of the conjunct that was taken among those of the filter as it was loaded or
 * merged. Exchanging and projecting keep it. */
#define SPATIALJOIN_POSITION_OF(plan) ((unsigned)(plan)[1] * 256 + (unsigned)(plan)[2])

/* The new plan's length (a size_t) in an accepted spatialjoin_extract's answer, the frame's in a spatialjoin_serve's, that of what was
 * written in a spatialjoin_extract_all's; 0 in a refused one's. */
#define SPATIALJOIN_LENGTH_OF(answer) spatialjoin_length_of(answer)

/* The walk (an unsigned) in a spatialjoin_extract's answer, accepted or refused with SPATIALJOIN_NO_MATCH; 0 with every other refusal. */
#define SPATIALJOIN_WALK_OF(answer) spatialjoin_walk_of(answer)

/* The refusal (an int, one of enum spatialjoin_refusal) in a refused spatialjoin_extract's answer; 0 in an accepted one's. */
#define SPATIALJOIN_REFUSAL_OF(answer) spatialjoin_refusal_of(answer)

/* The queue (an unsigned, one of enum spatialjoin_queue) in a spatialjoin_serve's answer that has a frame. */
#define SPATIALJOIN_QUEUE_OF(answer) spatialjoin_queue_of(answer)

/* The rounds (an unsigned) in a spatialjoin_extract_all's answer: how many predicates were written, 0 in a refused one's. */
#define SPATIALJOIN_ROUNDS_OF(answer) spatialjoin_rounds_of(answer)

/* Whether a spatialjoin_serve's answer says that both queues are empty: 1 or 0. A frame in a queue has at least one byte. */
#define SPATIALJOIN_BOTH_EMPTY(answer) spatialjoin_both_empty(answer)

/* What these stand for; each takes its answer once, so it may be the call itself. Of every other call but spatialjoin_logical the first
 * three give the length, a walk of 0 and the refusal, but that spatialjoin_serve's answer has the queue in the walk's place and
 * spatialjoin_extract_all's the rounds; so one function of a host can take all of these answers. */
SPATIALJOIN_INLINE size_t spatialjoin_length_of(int64_t answer)
{
    return answer < 0 ? 0 : (size_t)(answer % 65536);
}

SPATIALJOIN_INLINE unsigned spatialjoin_walk_of(int64_t answer)
{
    return answer < 0 ? (unsigned)(-answer / 256) : (unsigned)(answer / 65536);
}

SPATIALJOIN_INLINE int spatialjoin_refusal_of(int64_t answer)
{
    return answer < 0 ? -(int)(-answer % 256) : 0;
}

SPATIALJOIN_INLINE unsigned spatialjoin_queue_of(int64_t answer)
{
    return answer < 0 ? 0 : (unsigned)(answer / 65536);
}

SPATIALJOIN_INLINE unsigned spatialjoin_rounds_of(int64_t answer)
{
    return answer < 0 ? 0 : (unsigned)(answer / 65536);
}

SPATIALJOIN_INLINE int spatialjoin_both_empty(int64_t answer)
{
    return answer == 0;
}

/* The names in the mask of spatialjoin_logical. */
enum spatialjoin_name {
    SPATIALJOIN_ST_INTERSECTS = 0x0001,
    SPATIALJOIN_ST_CONTAINS = 0x0002,
    SPATIALJOIN_ST_WITHIN = 0x0004,
    SPATIALJOIN_ST_COVERS = 0x0008,
    SPATIALJOIN_ST_COVERED_BY = 0x0010,
    SPATIALJOIN_ST_COVEREDBY = 0x0020,
    SPATIALJOIN_ST_TOUCHES = 0x0040,
    SPATIALJOIN_ST_CROSSES = 0x0080,
    SPATIALJOIN_ST_OVERLAPS = 0x0100,
    SPATIALJOIN_ST_EQUALS = 0x0200,
    SPATIALJOIN_ST_DWITHIN = 0x0400, /* also an st_distance that is compared with a bound */
    SPATIALJOIN_ST_KNN = 0x0800,
    SPATIALJOIN_RS_INTERSECTS = 0x1000,
    SPATIALJOIN_RS_CONTAINS = 0x2000,
    SPATIALJOIN_RS_WITHIN = 0x4000
};

/* The query side of spatialjoin_logical; the side of a column record and of a distance, and a KNN's probe side, the first or the second. */
enum spatialjoin_side {
    SPATIALJOIN_LEFT = 0,
    SPATIALJOIN_RIGHT = 1,
    SPATIALJOIN_NO_SIDE = 2
};

/* The parts of an accepted spatialjoin_logical's answer. */
#define SPATIALJOIN_MASK_OF(answer) ((unsigned)((answer) / 65536))
#define SPATIALJOIN_NAMES_OF(answer) ((unsigned)((answer) / 256 % 256))
#define SPATIALJOIN_SIDE_OF(answer) ((unsigned)((answer) % 256))

/* Loads a physical frame as the new plan: its length, or -1, -2, the first of -3 to -6 from left to right, -7, -8, -9, -17 in this
 * order. What was held before plays no part. The table's first records become those of the frame's nodes, in the order in which they
 * stand in the frame. */
int64_t spatialjoin_load(const uint8_t *SPATIALJOIN_RESTRICT frame, size_t frame_len,
                         uint8_t *SPATIALJOIN_RESTRICT plan, size_t plan_len,
                         spatialjoin_node *SPATIALJOIN_RESTRICT table, size_t table_len);

/* Pulls the spatial predicate out of the held filter: walk * 65536 + the new plan's length, or -24, -10, -11, -12, -9, -(walk * 256 + 13)
 * in this order, which the macros above take apart. -10 also where a frame is held and the table does not begin with its nodes. The walk is
 * the planning effort: how many And nodes and conjuncts were read. These are all that are reached from the root through And nodes only, in
 * the order in which they stand in the frame, up to and including the first KNN match, or all if there is none. The old plan is copied to
 * the scratch's first n bytes.
 * The last three arguments are the settings, SPATIALJOIN_DEFAULT_SETTINGS for one: a conjunct of a kind that is not among `kinds` (enum
 * spatialjoin_kinds) does not match, nor does a KNN with a k above `greatest_k`; an st_knn of two arguments takes `default_k`, and one of
 * more its own k. -24 where kinds are 0 or above 7, default_k is 0, or default_k is above greatest_k: before anything else is looked at. */
int64_t spatialjoin_extract(uint8_t *SPATIALJOIN_RESTRICT plan, size_t plan_len, size_t n,
                            uint8_t *SPATIALJOIN_RESTRICT scratch, size_t scratch_len,
                            const spatialjoin_node *SPATIALJOIN_RESTRICT table, size_t table_len,
                            uint8_t kinds, uint32_t default_k, uint32_t greatest_k);

/* Exchanges the join's children in the held plan: the new plan's length, or -10, -11, -9 in this order.
 * The old plan is copied to the scratch's first n bytes. */
int64_t spatialjoin_exchange(uint8_t *SPATIALJOIN_RESTRICT plan, size_t plan_len, size_t n,
                             uint8_t *SPATIALJOIN_RESTRICT scratch, size_t scratch_len);

/* The spatial names of a logical frame and its KNN query side: mask * 65536 + names * 256 + side, which the macros above take apart,
 * or -1, -2, the first of -3 to -5 from left to right, -7 in this order. The mask has a bit for each name that occurs (enum
 * spatialjoin_name), `names` is how many they are, and side is one of enum spatialjoin_side. */
int64_t spatialjoin_logical(const uint8_t *frame, size_t frame_len);

/* Writes a physical frame's filter as text at the text buffer's start: the text's length, or -1, -2, the first of -3 to -6 from left
 * to right, -7, -8, -15 in this order. The bytes after the text stay as they were, and no 0 ends it. Its characters are from 32 to
 * 126. No plan plays a part. */
int64_t spatialjoin_print(const uint8_t *SPATIALJOIN_RESTRICT frame, size_t frame_len,
                          uint8_t *SPATIALJOIN_RESTRICT text, size_t text_len);

/* Joins a physical frame's filter, a row policy for one, to the held filter by And, the held one on the left: the new plan's length,
 * n + frame_len - 1, or of the frame -1, -2, the first of -3 to -6 from left to right, -7, -8, then of the held plan -10, -11, -12,
 * then -16, -9, -17 in this order. The held plan must be a frame, exchanged or not. Its records come first, then the frame's, equal ones
 * too; the columns of the frame's filter are renumbered to stay with theirs. -9 is for either buffer. The old plan is copied to the
 * scratch's first n bytes. The table is filled with the nodes of the new plan, whatever it held. */
int64_t spatialjoin_merge(const uint8_t *SPATIALJOIN_RESTRICT frame, size_t frame_len,
                          uint8_t *SPATIALJOIN_RESTRICT plan, size_t plan_len, size_t n,
                          uint8_t *SPATIALJOIN_RESTRICT scratch, size_t scratch_len,
                          spatialjoin_node *SPATIALJOIN_RESTRICT table, size_t table_len);

/* Has the held extraction follow its children, each of which was narrowed to a list of its columns: the new plan's length, which is n,
 * or -10, -11, -18, -19, -9, -20 in this order. `left` and `right` have the child indexes of the columns that stay, in their new order. A
 * child index of the plan becomes the position, from 0, of the first equal item in the list of its side: in the geometries, in the bound
 * of a distance by the bound's side, and in every record of the remainder, referenced or not. A bound of side SPATIALJOIN_NO_SIDE and mark
 * columns stay as they are, and so do the plan's first three bytes. The old plan is copied to the scratch's first n bytes. */
int64_t spatialjoin_project(uint8_t *SPATIALJOIN_RESTRICT plan, size_t plan_len, size_t n,
                            uint8_t *SPATIALJOIN_RESTRICT scratch, size_t scratch_len,
                            const uint16_t *SPATIALJOIN_RESTRICT left, size_t left_len,
                            const uint16_t *SPATIALJOIN_RESTRICT right, size_t right_len);

/* Adds a frame at the end of a queue (enum spatialjoin_queue): the frame's length, or -21, -10, -1, -22, -23 in this order. Nothing looks
 * into the frame, which spatialjoin_load does once it was served. -1 is for the empty frame alone, -22 for every one of over
 * SPATIALJOIN_MOST_QUEUED bytes. -10 where the buffer has another length than SPATIALJOIN_QUEUES_BYTES or holds no queues: a mark over 2, a
 * count over SPATIALJOIN_MOST_WAITING, or a waiting frame's length outside 1 to SPATIALJOIN_MOST_QUEUED, of either queue. From a fresh
 * buffer that these two calls alone changed it never comes (theorem always-held). */
int64_t spatialjoin_put(uint8_t *SPATIALJOIN_RESTRICT queues, size_t queues_len, uint8_t queue,
                        const uint8_t *SPATIALJOIN_RESTRICT frame, size_t frame_len);

/* Takes the frame that is due: queue * 65536 + its length, which the macros above take apart, or 0 where both queues are empty, or -10, -9
 * in this order. Due is the oldest frame of the queue that was not served last, if it holds one, else that of the other; from fresh queue
 * 0 is tried first. The frame is written at the output's start, and the bytes after it stay as they were; SPATIALJOIN_MOST_QUEUED bytes are
 * always enough. The later frames of its queue move down by one place. With both queues empty nothing changes. */
int64_t spatialjoin_serve(uint8_t *SPATIALJOIN_RESTRICT queues, size_t queues_len,
                          uint8_t *SPATIALJOIN_RESTRICT out, size_t out_len);

/* Writes all indexable conjuncts of a physical frame at the output's start, then what is left: rounds * 65536 + the length, which the
 * macros above take apart, or -24, then of the frame -1, -2, the first of -3 to -6 from left to right, -7, -8, then -9 in this order. It
 * never gives -13: a frame in which nothing matches has 0 rounds. It extracts, loads the remainder and extracts again, until there is no
 * remainder or nothing in it matches; each round gives a predicate, as in an extraction without its remainder. So every conjunct that
 * matches under the settings (those of spatialjoin_extract) is taken exactly once: the KNN ones in their order, then the others in theirs,
 * each with its position in the frame that was given. After the last predicate comes `00` where nothing is left, else the last remainder, a
 * frame; without a match that is the whole frame, unpruned. Nothing stands between two predicates. The bytes after what is written stay as
 * they were. -9 where the output is shorter than what is to be written, which is never longer than the frame: an output as long as the
 * frame is always enough (theorem any-matcher-all). */
int64_t spatialjoin_extract_all(const uint8_t *SPATIALJOIN_RESTRICT frame, size_t frame_len,
                                uint8_t *SPATIALJOIN_RESTRICT out, size_t out_len,
                                uint8_t kinds, uint32_t default_k, uint32_t greatest_k);

/* What spatialjoin_explain says of a conjunct: what it is indexed by, which is the first byte of its extraction, or the first of these
 * reasons, in this order, for which it is not. docs/PRICE-LIST.md of the repository has what to change for each. */
enum spatialjoin_verdict {
    SPATIALJOIN_AS_RELATION = 0x11,
    SPATIALJOIN_AS_DISTANCE = 0x12,
    SPATIALJOIN_AS_KNN = 0x13,
    SPATIALJOIN_OTHER_CASE = 0x20,             /* it would be one of these with its name in small letters */
    SPATIALJOIN_OTHER_SIDE = 0x21,             /* st_distance stands on the side of a comparison that is not looked at */
    SPATIALJOIN_OTHER_OPERATOR = 0x22,         /* st_distance beside an operator other than <, <=, > and >= */
    SPATIALJOIN_INSIDE_ANOTHER = 0x23,         /* directly below it (an OR, a NOT, a function) stands what could be one */
    SPATIALJOIN_NOTHING_OF_OURS = 0x24,        /* any other expression */
    SPATIALJOIN_KIND_LEFT_OUT = 0x30,          /* the settings leave its kind out */
    SPATIALJOIN_FEWER_ARGUMENTS = 0x40,        /* an st_knn of fewer than two arguments */
    SPATIALJOIN_MORE_ARGUMENTS = 0x41,         /* an st_knn of more than five */
    SPATIALJOIN_FIRST_WITHOUT_COLUMNS = 0x50,  /* its first geometry has no column, */
    SPATIALJOIN_FIRST_OF_BOTH = 0x51,          /* columns of both children, */
    SPATIALJOIN_FIRST_WITH_MARK = 0x52,        /* a mark column; */
    SPATIALJOIN_SECOND_WITHOUT_COLUMNS = 0x53, /* its second, likewise */
    SPATIALJOIN_SECOND_OF_BOTH = 0x54,
    SPATIALJOIN_SECOND_WITH_MARK = 0x55,
    SPATIALJOIN_BOTH_LEFT = 0x56,              /* both geometries are of the left child, */
    SPATIALJOIN_BOTH_RIGHT = 0x57,             /* of the right one */
    SPATIALJOIN_BOUND_OF_BOTH = 0x60,          /* the bound of a distance has columns of both children, */
    SPATIALJOIN_BOUND_WITH_MARK = 0x61,        /* a mark column */
    SPATIALJOIN_K_NO_NUMBER = 0x70,            /* k is no whole-number literal, */
    SPATIALJOIN_K_BELOW_ONE = 0x71,            /* below 1, */
    SPATIALJOIN_K_ABOVE_GREATEST = 0x72,       /* above the greatest k of the settings */
    SPATIALJOIN_SPHEROID_NO_FLAG = 0x73,       /* the first flag is no Boolean literal, */
    SPATIALJOIN_TIES_NO_FLAG = 0x74            /* the second */
};

/* The parts (an unsigned each) of a spatialjoin_explain's answer, each 0 in a refused one's: how many conjuncts there are; the first byte
 * of the extraction that extract would leave, 0 where nothing matches; and the position, from 0, of the conjunct that it would take. */
#define SPATIALJOIN_CONJUNCTS_OF(answer) spatialjoin_conjuncts_of(answer)
#define SPATIALJOIN_LINE_OF(answer) spatialjoin_line_of(answer)
#define SPATIALJOIN_TAKEN_OF(answer) spatialjoin_taken_of(answer)

SPATIALJOIN_INLINE unsigned spatialjoin_conjuncts_of(int64_t answer)
{
    return answer < 0 ? 0 : (unsigned)(answer % 65536);
}

SPATIALJOIN_INLINE unsigned spatialjoin_line_of(int64_t answer)
{
    return answer < 0 ? 0 : (unsigned)(answer / 65536 / 65536);
}

SPATIALJOIN_INLINE unsigned spatialjoin_taken_of(int64_t answer)
{
    return answer < 0 ? 0 : (unsigned)(answer / 65536 % 65536);
}

/* Says of each conjunct of a physical frame why it is indexed or is not: (line * 65536 + position) * 65536 + conjuncts, which the macros
 * above take apart, or -24, then of the frame -1, -2, the first of -3 to -6 from left to right, -7, -8, then -9 in this order. A byte for
 * each conjunct, one of enum spatialjoin_verdict, is written at the start of the buffer, and the bytes after them stay as they were;
 * SPATIALJOIN_MOST_NODES bytes are always enough. -9 where it has fewer bytes than the frame conjuncts. A refusal writes nothing. It never
 * gives -13: where nothing matches line and position are 0. */
int64_t spatialjoin_explain(const uint8_t *SPATIALJOIN_RESTRICT frame, size_t frame_len,
                            uint8_t *SPATIALJOIN_RESTRICT verdicts, size_t verdicts_len,
                            uint8_t kinds, uint32_t default_k, uint32_t greatest_k);

/* The archive's version: major * 65536 + minor * 256 + patch. */
int64_t spatialjoin_version(void);

#ifdef __cplusplus
}
#endif

#endif
