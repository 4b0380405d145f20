"""What the words stand for: levels, operators, tags, names, limits and refusals. docs/FRAMES.md has the same tables."""

# How tightly words bind, the loosest first.
OR, AND, NOT, IS, PREDICATE, FURTHER, SUM, PRODUCT, SIGN, OPERAND = range(10)

# Operators 0 to 4 are the planner's. The numbers of the others, from 5 to 63, are a host's to choose, and these are ours.
OPERATORS = {
    0: ("AND", AND), 1: ("<", PREDICATE), 2: ("<=", PREDICATE), 3: (">", PREDICATE), 4: (">=", PREDICATE),
    5: ("OR", OR), 6: ("=", PREDICATE), 7: ("<>", PREDICATE),
    8: ("+", SUM), 9: ("-", SUM), 10: ("*", PRODUCT), 11: ("/", PRODUCT), 12: ("%", PRODUCT),
    13: ("LIKE", PREDICATE), 14: ("NOT LIKE", PREDICATE), 15: ("ILIKE", PREDICATE), 16: ("NOT ILIKE", PREDICATE),
    17: ("SIMILAR TO", PREDICATE), 18: ("NOT SIMILAR TO", PREDICATE),
    19: ("IS DISTINCT FROM", IS), 20: ("IS NOT DISTINCT FROM", IS),
    21: ("||", FURTHER), 22: ("&", FURTHER), 23: ("|", FURTHER), 24: ("^", FURTHER), 25: ("<<", FURTHER), 26: (">>", FURTHER),
    27: ("~", PREDICATE), 28: ("~*", PREDICATE), 29: ("!~", PREDICATE), 30: ("!~*", PREDICATE),
    31: ("&&", PREDICATE), 32: ("@>", PREDICATE), 33: ("<@", PREDICATE),
    34: ("<->", FURTHER), 35: ("->", FURTHER), 36: ("->>", FURTHER),
}
SAME_OPERATOR = {"!=": "<>"}
AND_OPERATOR, GTEQ, LTEQ = 0, 4, 2


def operator_words(number):
    """An operator's word and its level; one without a word binds as a comparison does."""
    return OPERATORS.get(number, (f"op{number}", PREDICATE))


# Tags of the nodes of kind other.
TEXT, NOT_TAG, MINUS = 60001, 60002, 60003
TESTS = {
    60004: "IS NULL", 60005: "IS NOT NULL", 60006: "IS TRUE", 60007: "IS NOT TRUE", 60008: "IS FALSE", 60009: "IS NOT FALSE",
    60010: "IS UNKNOWN", 60011: "IS NOT UNKNOWN",
}
IN_WORDS = {60012: "IN", 60013: "NOT IN"}
LIST = 60014
CASTS = {60015: "CAST", 60016: "TRY_CAST"}
ESCAPES = {60017: "LIKE", 60018: "NOT LIKE", 60019: "ILIKE", 60020: "NOT ILIKE"}
TYPED_TEXTS = {60021: "DATE", 60022: "TIME", 60023: "TIMESTAMP", 60024: "INTERVAL"}
CASE, CASE_OF, WHEN, ELSE = 60025, 60026, 60027, 60028

# Words that are no function's name unless they stand in double quotes.
RESERVED = set(
    "AND OR NOT IS NULL TRUE FALSE IN LIKE ILIKE SIMILAR BETWEEN ESCAPE CAST TRY_CAST CASE WHEN THEN ELSE END AS SELECT EXISTS".split()
)

# Literal types.
NULL, BOOLEAN, DOUBLE = 0, 1, 6
NUMBER_TYPES = {"i32": 2, "i64": 3, "u32": 4, "u64": 5}
RANGES = {2: (-(2**31), 2**31 - 1), 3: (-(2**63), 2**63 - 1), 4: (0, 2**32 - 1), 5: (0, 2**64 - 1)}
TYPE_NAMES = ["null", "Boolean", "Int32", "Int64", "UInt32", "UInt64", "other"]

# Columns by letter: physical ones have the side of their record, logical ones the bits of the schemas that have them.
SIDES = {"L": 0, "R": 1, "M": 2}
BITS = {"L": 1, "R": 2, "B": 3, "M": 0}

RELATIONS = ["intersects", "contains", "within", "covers", "covered by", "touches", "crosses", "overlaps", "equals"]
# The names of the logical mask, bit 0 first. All but st_dwithin and st_knn are names of a relation.
NAMES = ("st_intersects st_contains st_within st_covers st_covered_by st_coveredby st_touches st_crosses st_overlaps st_equals"
         " st_dwithin st_knn rs_intersects rs_contains rs_within").split()
RELATION_NAMES = set(NAMES) - {"st_dwithin", "st_knn"}

# Limits of a frame.
BYTES, NODES, LEVELS, RECORDS, CHILDREN, NAME_BYTES = 16384, 1024, 64, 256, 16, 32

REFUSALS = {
    1: "the frame is empty or over 16,384 bytes",
    2: "wrong first byte",
    3: "the frame ends inside a field",
    4: "a field is out of its range",
    5: "over 1,024 nodes or 64 levels",
    6: "a column that the frame has no record of",
    7: "bytes after the end",
    8: "a conjunct lacks arguments",
    9: "a buffer is too short",
    10: "no good plan is held",
    11: "no plan is held",
    12: "the plan is already extracted",
    13: "no conjunct matches",
    14: "no line of hexadecimal",
    15: "the text buffer is too short",
    16: "the merged frame would be over a limit",
    17: "the table of nodes is too short",
    18: "the plan is not extracted",
    19: "a list of over 4,096 columns",
    20: "the plan has a column that the list of its side lacks",
    21: "no such queue",
    22: "the frame is over 1,024 bytes, too long for a queue",
    23: "the queue is full",
    24: "settings out of their ranges",
}
