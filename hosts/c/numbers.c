/* Tests of the header's enums and limits: frames are written, and extractions and verdicts read, by these names alone, and the library must
 * answer by the same numbers. Ends with 1 where it answers otherwise. `../check` builds and runs it. */
#include <stdio.h>
#include <string.h>

#include "spatialjoin.h"

static uint8_t frame[SPATIALJOIN_MOST_BYTES];
static uint8_t plan[SPATIALJOIN_MOST_BYTES];
static uint8_t scratch[SPATIALJOIN_MOST_BYTES];
static spatialjoin_node table[SPATIALJOIN_MOST_NODES];
static size_t end; /* of the frame, as far as it is written */
static int tried, failed;

static void expect(const char *what, int64_t answer, int64_t expected)
{
    tried++;
    if (answer != expected) {
        failed++;
        printf("%s: %ld, not %ld\n", what, (long)answer, (long)expected);
    }
}

static void byte(unsigned value)
{
    frame[end++] = (uint8_t)value;
}

static void number(unsigned value)
{
    byte(value / 256);
    byte(value % 256);
}

static void record(unsigned side, unsigned child)
{
    byte(side);
    number(child);
    number(0);
}

/* A physical frame of one left column, one right and one mark column; the filter is to follow. */
static void begin(void)
{
    end = 0;
    byte(SPATIALJOIN_FRAME);
    number(3);
    record(SPATIALJOIN_LEFT, 7);
    record(SPATIALJOIN_RIGHT, 8);
    record(SPATIALJOIN_NO_SIDE, 9);
}

static void column(unsigned index)
{
    byte(SPATIALJOIN_NODE_COLUMN);
    number(index);
    number(0);
}

static void literal(unsigned type, unsigned value)
{
    byte(SPATIALJOIN_NODE_LITERAL);
    byte(type);
    memset(frame + end, 0, 7);
    end += 7;
    byte(value);
}

static void binary(unsigned operator)
{
    byte(SPATIALJOIN_NODE_BINARY);
    byte(operator);
}

static void call(const char *name, unsigned arguments)
{
    byte(SPATIALJOIN_NODE_FUNCTION);
    byte((unsigned)strlen(name));
    memcpy(frame + end, name, strlen(name));
    end += strlen(name);
    byte(arguments);
}

static void call_of_both(const char *name, unsigned arguments)
{
    call(name, arguments);
    column(0);
    column(1);
}

static int64_t load(void)
{
    return spatialjoin_load(frame, end, plan, sizeof plan, table, SPATIALJOIN_MOST_NODES);
}

/* Extracts the frame that was written. */
static void extract(const char *what)
{
    int64_t n = load(), answer;
    expect(what, n, (int64_t)end);
    answer = spatialjoin_extract(plan, sizeof plan, end, scratch, sizeof scratch, table, SPATIALJOIN_MOST_NODES,
                                 SPATIALJOIN_DEFAULT_SETTINGS);
    expect(what, SPATIALJOIN_REFUSAL_OF(answer), 0);
}

static void relations(void)
{
    static const struct {
        const char *name;
        enum spatialjoin_relation_type type;
    } rows[] = {
        {"st_intersects", SPATIALJOIN_RELATION_INTERSECTS}, {"st_contains", SPATIALJOIN_RELATION_CONTAINS},
        {"st_within", SPATIALJOIN_RELATION_WITHIN},         {"st_covers", SPATIALJOIN_RELATION_COVERS},
        {"st_coveredby", SPATIALJOIN_RELATION_COVERED_BY},  {"st_covered_by", SPATIALJOIN_RELATION_COVERED_BY},
        {"st_touches", SPATIALJOIN_RELATION_TOUCHES},       {"st_crosses", SPATIALJOIN_RELATION_CROSSES},
        {"st_overlaps", SPATIALJOIN_RELATION_OVERLAPS},     {"st_equals", SPATIALJOIN_RELATION_EQUALS},
        {"rs_intersects", SPATIALJOIN_RELATION_INTERSECTS}, {"rs_contains", SPATIALJOIN_RELATION_CONTAINS},
        {"rs_within", SPATIALJOIN_RELATION_WITHIN},
    };
    size_t i;
    for (i = 0; i < sizeof rows / sizeof *rows; i++) {
        begin();
        call_of_both(rows[i].name, 2);
        extract(rows[i].name);
        expect("a relation", plan[0], SPATIALJOIN_RELATION);
        expect(rows[i].name, plan[3], rows[i].type);
    }
}

/* st_distance compared with a bound, a right column, on the side on which it is looked for. */
static void compared(unsigned operator, unsigned form)
{
    begin();
    binary(operator);
    if (operator == SPATIALJOIN_OPERATOR_GT || operator == SPATIALJOIN_OPERATOR_GT_EQ) {
        column(1);
        call_of_both("st_distance", 2);
    } else {
        call_of_both("st_distance", 2);
        column(1);
    }
    extract("a comparison");
    expect("a distance", plan[0], SPATIALJOIN_DISTANCE);
    expect("its form", plan[3], form);
    expect("its bound's side", plan[4], SPATIALJOIN_RIGHT);
}

static void distances(void)
{
    compared(SPATIALJOIN_OPERATOR_LT, SPATIALJOIN_FORM_LT);
    compared(SPATIALJOIN_OPERATOR_LT_EQ, SPATIALJOIN_FORM_LT_EQ);
    compared(SPATIALJOIN_OPERATOR_GT, SPATIALJOIN_FORM_GT);
    compared(SPATIALJOIN_OPERATOR_GT_EQ, SPATIALJOIN_FORM_GT_EQ);
    begin();
    call_of_both("st_dwithin", 3);
    literal(SPATIALJOIN_LITERAL_OTHER, 1);
    extract("st_dwithin");
    expect("its form", plan[3], SPATIALJOIN_FORM_DWITHIN);
    expect("its bound's side", plan[4], SPATIALJOIN_NO_SIDE);
}

/* A KNN of this many arguments, whose k has this type. */
static void nearest(unsigned type, unsigned arguments, unsigned spheroid, unsigned ties)
{
    begin();
    call_of_both("st_knn", arguments);
    literal(type, 5);
    if (arguments > 3) literal(SPATIALJOIN_LITERAL_BOOLEAN, spheroid);
    if (arguments > 4) literal(SPATIALJOIN_LITERAL_BOOLEAN, ties);
    extract("st_knn");
    expect("a KNN", plan[0], SPATIALJOIN_KNN);
    expect("its k", plan[6], 5);
    expect("its spheroid", plan[7], spheroid);
    expect("its query's side", plan[8], SPATIALJOIN_LEFT);
    expect("its ties", plan[9], ties);
}

static void neighbours(void)
{
    nearest(SPATIALJOIN_LITERAL_INT32, 3, SPATIALJOIN_TIES_FALSE, SPATIALJOIN_TIES_ABSENT);
    nearest(SPATIALJOIN_LITERAL_INT64, 4, SPATIALJOIN_TIES_TRUE, SPATIALJOIN_TIES_ABSENT);
    nearest(SPATIALJOIN_LITERAL_UINT32, 5, SPATIALJOIN_TIES_FALSE, SPATIALJOIN_TIES_TRUE);
    nearest(SPATIALJOIN_LITERAL_UINT64, 5, SPATIALJOIN_TIES_TRUE, SPATIALJOIN_TIES_FALSE);
}

/* What explain says of the frame that was written, of one conjunct. */
static void explain(enum spatialjoin_verdict verdict, unsigned kinds)
{
    int64_t answer = spatialjoin_explain(frame, end, plan, sizeof plan, (uint8_t)kinds, SPATIALJOIN_DEFAULT_K, SPATIALJOIN_GREATEST_K);
    expect("its conjuncts", SPATIALJOIN_CONJUNCTS_OF(answer), 1);
    expect("its verdict", plan[0], verdict);
    expect("its line", SPATIALJOIN_LINE_OF(answer), verdict < SPATIALJOIN_OTHER_CASE ? verdict : 0);
}

/* A conjunct of two geometries: a function of two columns, a column or a literal each. */
enum geometry { ONE_LEFT, ONE_RIGHT, OF_BOTH, ONE_MARK, NO_COLUMN };

static void geometry(enum geometry which)
{
    static const unsigned index[] = {0, 1, 0, 2};
    if (which == NO_COLUMN) {
        literal(SPATIALJOIN_LITERAL_NULL, 0);
    } else if (which == OF_BOTH) {
        call_of_both("f", 2);
    } else {
        column(index[which]);
    }
}

static void explain_geometries(enum spatialjoin_verdict verdict, enum geometry first, enum geometry second)
{
    begin();
    call("st_within", 2);
    geometry(first);
    geometry(second);
    explain(verdict, SPATIALJOIN_ALL_KINDS);
}

static void explain_bound(enum spatialjoin_verdict verdict, enum geometry bound)
{
    begin();
    call_of_both("st_dwithin", 3);
    geometry(bound);
    explain(verdict, SPATIALJOIN_ALL_KINDS);
}

/* An st_knn with these literals after its geometries, each of type and value. */
static void explain_nearest(enum spatialjoin_verdict verdict, unsigned literals, const unsigned (*options)[2])
{
    unsigned i;
    begin();
    call_of_both("st_knn", 2 + literals);
    for (i = 0; i < literals; i++) literal(options[i][0], options[i][1]);
    explain(verdict, SPATIALJOIN_ALL_KINDS);
}

static void explain_distance(enum spatialjoin_verdict verdict, unsigned operator)
{
    begin();
    binary(operator);
    call_of_both("st_distance", 2);
    column(1);
    explain(verdict, SPATIALJOIN_ALL_KINDS);
}

static void explain_call(enum spatialjoin_verdict verdict, const char *name, unsigned kinds)
{
    begin();
    call_of_both(name, 2);
    explain(verdict, kinds);
}

/* A conjunct for each verdict; calls.c has that of a k above the greatest. */
static void verdicts(void)
{
    static const unsigned right[][2] = {{SPATIALJOIN_LITERAL_INT64, 1}, {SPATIALJOIN_LITERAL_BOOLEAN, 1}, {SPATIALJOIN_LITERAL_BOOLEAN, 0},
                                        {SPATIALJOIN_LITERAL_NULL, 0}};
    static const unsigned no_number[][2] = {{SPATIALJOIN_LITERAL_OTHER, 1}}, zero[][2] = {{SPATIALJOIN_LITERAL_UINT32, 0}};
    static const unsigned no_flag[][2] = {{SPATIALJOIN_LITERAL_INT32, 1}, {SPATIALJOIN_LITERAL_INT32, 1}};
    static const unsigned no_ties[][2] = {{SPATIALJOIN_LITERAL_UINT64, 1}, {SPATIALJOIN_LITERAL_BOOLEAN, 1}, {SPATIALJOIN_LITERAL_NULL, 1}};
    explain_call(SPATIALJOIN_AS_RELATION, "st_within", SPATIALJOIN_RELATIONS);
    explain_distance(SPATIALJOIN_AS_DISTANCE, SPATIALJOIN_OPERATOR_LT);
    explain_nearest(SPATIALJOIN_AS_KNN, 3, right);
    explain_call(SPATIALJOIN_OTHER_CASE, "ST_Within", SPATIALJOIN_ALL_KINDS);
    explain_distance(SPATIALJOIN_OTHER_SIDE, SPATIALJOIN_OPERATOR_GT);
    explain_distance(SPATIALJOIN_OTHER_OPERATOR, SPATIALJOIN_OPERATOR_FIRST_OTHER);
    begin();
    call("f", 1);
    call_of_both("st_within", 2);
    explain(SPATIALJOIN_INSIDE_ANOTHER, SPATIALJOIN_ALL_KINDS);
    explain_call(SPATIALJOIN_NOTHING_OF_OURS, "f", SPATIALJOIN_ALL_KINDS);
    explain_call(SPATIALJOIN_KIND_LEFT_OUT, "st_within", SPATIALJOIN_DISTANCES | SPATIALJOIN_KNNS);
    begin();
    call("st_knn", 1);
    column(0);
    explain(SPATIALJOIN_FEWER_ARGUMENTS, SPATIALJOIN_ALL_KINDS);
    explain_nearest(SPATIALJOIN_MORE_ARGUMENTS, 4, right);
    explain_geometries(SPATIALJOIN_FIRST_WITHOUT_COLUMNS, NO_COLUMN, ONE_RIGHT);
    explain_geometries(SPATIALJOIN_FIRST_OF_BOTH, OF_BOTH, ONE_RIGHT);
    explain_geometries(SPATIALJOIN_FIRST_WITH_MARK, ONE_MARK, ONE_RIGHT);
    explain_geometries(SPATIALJOIN_SECOND_WITHOUT_COLUMNS, ONE_LEFT, NO_COLUMN);
    explain_geometries(SPATIALJOIN_SECOND_OF_BOTH, ONE_LEFT, OF_BOTH);
    explain_geometries(SPATIALJOIN_SECOND_WITH_MARK, ONE_LEFT, ONE_MARK);
    explain_geometries(SPATIALJOIN_BOTH_LEFT, ONE_LEFT, ONE_LEFT);
    explain_geometries(SPATIALJOIN_BOTH_RIGHT, ONE_RIGHT, ONE_RIGHT);
    explain_bound(SPATIALJOIN_BOUND_OF_BOTH, OF_BOTH);
    explain_bound(SPATIALJOIN_BOUND_WITH_MARK, ONE_MARK);
    explain_nearest(SPATIALJOIN_K_NO_NUMBER, 1, no_number);
    explain_nearest(SPATIALJOIN_K_BELOW_ONE, 1, zero);
    explain_nearest(SPATIALJOIN_SPHEROID_NO_FLAG, 2, no_flag);
    explain_nearest(SPATIALJOIN_TIES_NO_FLAG, 3, no_ties);
}

/* A node of each kind: the table that load fills has the same ones. */
static void kinds_of_nodes(void)
{
    static const uint8_t kinds[] = {SPATIALJOIN_NODE_BINARY, SPATIALJOIN_NODE_OTHER, SPATIALJOIN_NODE_FUNCTION,
                                    SPATIALJOIN_NODE_COLUMN, SPATIALJOIN_NODE_LITERAL};
    size_t i;
    begin();
    binary(SPATIALJOIN_OPERATOR_AND);
    byte(SPATIALJOIN_NODE_OTHER);
    number(0);
    byte(1);
    call("f", 1);
    column(2);
    literal(SPATIALJOIN_LITERAL_NULL, 1);
    expect("every kind", load(), (int64_t)end);
    for (i = 0; i < sizeof kinds; i++) expect("the table's kind", table[i].kind, kinds[i]);
    end = 0;
    byte(2);
    byte(SPATIALJOIN_NODE_LOGICAL_COLUMN);
    byte(3);
    number(0);
    expect("a logical column", spatialjoin_logical(frame, end) >= 0, 1);
}

/* A frame of one operator, or of one literal. */
static int64_t load_operator(unsigned operator)
{
    begin();
    binary(operator);
    column(0);
    column(0);
    return load() < 0 ? load() : 0;
}

static int64_t load_literal(unsigned type)
{
    begin();
    literal(type, 1);
    return load() < 0 ? load() : 0;
}

/* So many calls of one argument, the last of none. */
static int64_t load_levels(unsigned levels)
{
    begin();
    for (; levels > 0; levels--) call("f", levels > 1);
    return load() < 0 ? load() : 0;
}

static int64_t load_records(unsigned records)
{
    unsigned i;
    end = 0;
    byte(SPATIALJOIN_FRAME);
    number(records);
    for (i = 0; i < records; i++) record(SPATIALJOIN_LEFT, i);
    column(0);
    return load() < 0 ? load() : 0;
}

static int64_t load_call(unsigned letters, unsigned arguments)
{
    char name[SPATIALJOIN_MOST_NAME + 2] = "";
    unsigned i;
    begin();
    memset(name, 'n', letters);
    call(name, arguments);
    for (i = 0; i < arguments; i++) column(0);
    return load() < 0 ? load() : 0;
}

static void limits(void)
{
    expect("an operator", load_operator(SPATIALJOIN_OPERATOR_FIRST_OTHER), 0);
    expect("the last operator", load_operator(SPATIALJOIN_OPERATOR_LAST_OTHER), 0);
    expect("one operator more", load_operator(SPATIALJOIN_OPERATOR_LAST_OTHER + 1), SPATIALJOIN_OUT_OF_RANGE);
    expect("the last literal type", load_literal(SPATIALJOIN_LITERAL_OTHER), 0);
    expect("one type more", load_literal(SPATIALJOIN_LITERAL_OTHER + 1), SPATIALJOIN_OUT_OF_RANGE);
    expect("the most levels", load_levels(SPATIALJOIN_MOST_LEVELS), 0);
    expect("one level more", load_levels(SPATIALJOIN_MOST_LEVELS + 1), SPATIALJOIN_TOO_LARGE);
    expect("the most records", load_records(SPATIALJOIN_MOST_RECORDS), 0);
    expect("one record more", load_records(SPATIALJOIN_MOST_RECORDS + 1), SPATIALJOIN_OUT_OF_RANGE);
    expect("the longest name", load_call(SPATIALJOIN_MOST_NAME, 0), 0);
    expect("one letter more", load_call(SPATIALJOIN_MOST_NAME + 1, 0), SPATIALJOIN_OUT_OF_RANGE);
    expect("the most arguments", load_call(1, SPATIALJOIN_MOST_ARGUMENTS), 0);
    expect("one argument more", load_call(1, SPATIALJOIN_MOST_ARGUMENTS + 1), SPATIALJOIN_OUT_OF_RANGE);
}

int main(void)
{
    relations();
    distances();
    neighbours();
    verdicts();
    kinds_of_nodes();
    limits();
    printf("%d numbers of the header, %d wrong\n", tried, failed);
    return failed > 0;
}
