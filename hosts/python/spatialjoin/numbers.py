"""The numbers of the header: limits, and enumerations."""

from enum import IntEnum, IntFlag

MOST_BYTES, MOST_TEXT, MOST_NODES, MOST_ITEMS = 16384, 26620, 1024, 4096
MOST_LEVELS, MOST_RECORDS, MOST_CHILDREN, MOST_NAME = 64, 256, 16, 32
QUEUES_BYTES, MOST_QUEUED, MOST_WAITING = 32835, 1024, 16
DEFAULT_K, GREATEST_K = 1, 4294967295
STACK_BYTES = 65536


class Side(IntEnum):
    """A child of the join, or neither."""

    LEFT, RIGHT, NEITHER = 0, 1, 2


class Operator(IntEnum):
    """The operators that the planner knows; 5 to 63 are the host's."""

    AND, LT, LTEQ, GT, GTEQ = range(5)


class Type(IntEnum):
    """Types of literals."""

    NULL, BOOLEAN, INT32, INT64, UINT32, UINT64, OTHER = range(7)


class RelationType(IntEnum):
    """Relations of an extraction."""

    INTERSECTS, CONTAINS, WITHIN, COVERS, COVERED_BY, TOUCHES, CROSSES, OVERLAPS, EQUALS = range(9)


class Form(IntEnum):
    """How a distance was written: by st_dwithin, or as a comparison."""

    DWITHIN, LT, LTEQ, GT, GTEQ = range(5)


class Flag(IntEnum):
    """A truth value."""

    FALSE, TRUE = range(2)


class Ties(IntEnum):
    """Whether ties are to be kept, where it is said."""

    FALSE, TRUE, NOT_GIVEN = range(3)


class Kinds(IntFlag):
    """What a site may have indexed."""

    RELATIONS, DISTANCES, KNNS, ALL = 1, 2, 4, 7


class Queue(IntEnum):
    """The queues of the two machines."""

    CHASSIS, FIXED_UNIT = 0, 1
