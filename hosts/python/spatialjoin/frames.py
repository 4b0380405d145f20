"""Frames and plans as objects, and their bytes.

Writing tests that each field fits into its bytes, and reading that the bytes are whole; the limits of a frame and which values are good
is the planner's to say, with its refusals."""

from dataclasses import dataclass
from operator import index
from typing import Optional, Tuple

from .numbers import MOST_LEVELS, Flag, Form, RelationType, Side, Ties, Type


class FrameError(ValueError):
    """An object that no bytes can carry, or bytes that are no frame or plan."""


def field(number, width, what):
    """A number as bytes, the most significant first."""
    if not 0 <= index(number) < 256**width:
        raise FrameError(f"{what}: {number} does not fit into {width} byte{'s' if width > 1 else ''}")
    return index(number).to_bytes(width, "big")


def counted(nodes, what):
    return field(len(nodes), 1, what) + b"".join(node.encode() for node in nodes)


class Expression:
    """A node of a filter, with all that is below it."""

    def __and__(self, other):
        return Binary(0, self, other)

    def encode(self):
        raise NotImplementedError


@dataclass(frozen=True)
class Column(Expression):
    """A column of a physical frame: the index of its record (in a predicate: of the child's column), and a name tag."""

    index: int
    tag: int = 0

    def encode(self):
        return b"\0" + field(self.index, 2, "a column's index") + field(self.tag, 2, "a tag")


@dataclass(frozen=True)
class Literal(Expression):
    """A literal: its type, and its eight bytes as a number without a sign."""

    type: int
    bits: int = 0

    @classmethod
    def of(cls, value, type=None):
        """The literal of None, a truth value, a whole number (Int64, if no type is said) or eight bytes of another type."""
        if type is None:
            type = Type.OTHER if isinstance(value, (bytes, bytearray)) else Type.NULL if value is None else None
        if type is None:
            type = Type.BOOLEAN if isinstance(value, bool) else Type.INT64
        if isinstance(value, (bytes, bytearray)):
            if len(value) != 8:
                raise FrameError(f"a literal: {len(value)} bytes in the place of 8")
            return cls(Type(type), int.from_bytes(value, "big"))
        low, high = RANGES[type]
        number = index(0 if value is None else value)
        if not low <= number <= high or (value is None) != (type == Type.NULL):
            raise FrameError(f"a literal: {value} is no {Type(type).name}")
        return cls(Type(type), number % 2**64)

    @property
    def value(self):
        """None, a truth value, a whole number, or of another type the eight bytes."""
        if self.type == Type.NULL:
            return None
        if self.type == Type.BOOLEAN:
            return bool(self.bits)
        if self.type in (Type.INT32, Type.INT64):
            return self.bits - 2**64 if self.bits >= 2**63 else self.bits
        return self.bits if self.type in (Type.UINT32, Type.UINT64) else self.bits.to_bytes(8, "big")

    def encode(self):
        return b"\1" + field(self.type, 1, "a literal's type") + field(self.bits, 8, "a literal")


RANGES = {Type.NULL: (0, 0), Type.BOOLEAN: (0, 1), Type.INT32: (-(2**31), 2**31 - 1), Type.INT64: (-(2**63), 2**63 - 1),
          Type.UINT32: (0, 2**32 - 1), Type.UINT64: (0, 2**64 - 1), Type.OTHER: (0, 2**64 - 1)}


@dataclass(frozen=True)
class Binary(Expression):
    """A binary operator: 0 And, 1 to 4 the comparisons < <= > >=, 5 to 63 the host's."""

    operator: int
    left: Expression
    right: Expression

    def encode(self):
        return b"\2" + field(self.operator, 1, "an operator") + self.left.encode() + self.right.encode()


@dataclass(frozen=True)
class Call(Expression):
    """A scalar function."""

    name: str
    arguments: Tuple[Expression, ...] = ()

    def __post_init__(self):
        object.__setattr__(self, "arguments", tuple(self.arguments))

    def encode(self):
        try:
            name = self.name.encode("latin-1")
        except UnicodeEncodeError:
            raise FrameError(f"a name: {self.name!r} has characters of over a byte") from None
        return b"\3" + field(len(name), 1, "a name's length") + name + counted(self.arguments, "a count of arguments")


@dataclass(frozen=True)
class Other(Expression):
    """Any other node, with the host's tag."""

    tag: int
    children: Tuple[Expression, ...] = ()

    def __post_init__(self):
        object.__setattr__(self, "children", tuple(self.children))

    def encode(self):
        return b"\4" + field(self.tag, 2, "a tag") + counted(self.children, "a count of children")


@dataclass(frozen=True)
class Field(Expression):
    """A column of a logical frame: 1 if the left schema has it, plus 2 if the right one has it; and a tag."""

    bits: int
    tag: int = 0

    def encode(self):
        return b"\5" + field(self.bits, 1, "a column's bits") + field(self.tag, 2, "a tag")


@dataclass(frozen=True)
class Record:
    """What a column of a physical frame is: which child's, its index there, and a field tag."""

    side: int
    child: int
    tag: int = 0

    def encode(self):
        return field(self.side, 1, "a side") + field(self.child, 2, "a child index") + field(self.tag, 2, "a tag")


@dataclass(frozen=True)
class Frame:
    """A physical frame: records and the filter over them."""

    records: Tuple[Record, ...]
    filter: Expression

    def __post_init__(self):
        object.__setattr__(self, "records", tuple(self.records))

    def encode(self):
        records = b"".join(record.encode() for record in self.records)
        return b"\1" + field(len(self.records), 2, "a count of records") + records + self.filter.encode()


@dataclass(frozen=True)
class LogicalFrame:
    """A logical frame: its filter has fields in the place of columns."""

    filter: Expression

    def encode(self):
        return b"\2" + self.filter.encode()


class Extraction:
    """A predicate with the position of the conjunct that it was taken from, its arguments, and the remainder: a frame, or None."""

    def encode(self):
        """The bytes of the plan."""
        return self.predicate() + (self.remainder.encode() if self.remainder else b"\0")

    def head(self, *fields):
        """The first byte, the position and the fields, each with its width, then the arguments."""
        head = bytes([self.FIRST]) + field(self.position, 2, "a position")
        head += b"".join(field(number, width, "a field") for number, width in fields)
        return head + b"".join(argument.encode() for argument in self.arguments)


@dataclass(frozen=True)
class Relation(Extraction):
    """Indexed by a spatial relation."""

    position: int
    relation: int
    left: Expression
    right: Expression
    remainder: Optional[Frame] = None
    kind = "relation"
    FIRST = 0x11

    @property
    def arguments(self):
        return self.left, self.right

    def predicate(self):
        return self.head((self.relation, 1))


@dataclass(frozen=True)
class Distance(Extraction):
    """Indexed by a distance; the side is that of the bound."""

    position: int
    form: int
    side: int
    left: Expression
    right: Expression
    bound: Expression
    remainder: Optional[Frame] = None
    kind = "distance"
    FIRST = 0x12

    @property
    def arguments(self):
        return self.left, self.right, self.bound

    def predicate(self):
        return self.head((self.form, 1), (self.side, 1))


@dataclass(frozen=True)
class Knn(Extraction):
    """Nearest neighbours; the side is that of the query."""

    position: int
    k: int
    spheroid: bool
    side: int
    ties: int
    query: Expression
    object: Expression
    remainder: Optional[Frame] = None
    kind = "KNN"
    FIRST = 0x13

    @property
    def arguments(self):
        return self.query, self.object

    def predicate(self):
        return self.head((self.k, 4), (self.spheroid, 1), (self.side, 1), (self.ties, 1))


class Reader:
    """Bytes from left to right."""

    def __init__(self, data):
        self.data = bytes(data)
        self.at = 0

    def number(self, width):
        return int.from_bytes(self.bytes(width), "big")

    def bytes(self, width):
        self.at += width
        if self.at > len(self.data):
            raise FrameError("the bytes end inside a field")
        return self.data[self.at - width : self.at]

    def known(self, kind):
        """A number of one byte that has a name."""
        number = self.number(1)
        try:
            return kind(number)
        except ValueError:
            raise FrameError(f"byte {self.at - 1}: {number} is no {kind.__name__}") from None

    def expressions(self, level):
        return tuple(self.expression(level + 1) for _ in range(self.number(1)))

    def expression(self, level=1):
        if level > MOST_LEVELS:
            raise FrameError(f"over {MOST_LEVELS} levels")
        kind = self.number(1)
        if kind == 0:
            return Column(self.number(2), self.number(2))
        if kind == 1:
            return Literal(self.known(Type), self.number(8))
        if kind == 2:
            return Binary(self.number(1), self.expression(level + 1), self.expression(level + 1))
        if kind == 3:
            return Call(self.bytes(self.number(1)).decode("latin-1"), self.expressions(level))
        if kind == 4:
            return Other(self.number(2), self.expressions(level))
        if kind == 5:
            return Field(self.number(1), self.number(2))
        raise FrameError(f"byte {self.at - 1}: no node of kind {kind}")

    def frame(self):
        """A physical frame after its first byte."""
        records = [Record(self.known(Side), self.number(2), self.number(2)) for _ in range(self.number(2))]
        return Frame(records, self.expression())

    def predicate(self, first):
        """A predicate after its first byte, without a remainder."""
        position = self.number(2)
        if first == 0x11:
            return Relation(position, self.known(RelationType), self.expression(), self.expression())
        if first == 0x12:
            return Distance(position, self.known(Form), self.known(Side), self.expression(), self.expression(), self.expression())
        k, spheroid, side, ties = self.number(4), self.known(Flag), self.known(Side), self.known(Ties)
        return Knn(position, k, bool(spheroid), side, ties, self.expression(), self.expression())

    def remainder(self):
        """What comes after a predicate: nothing left, or a frame."""
        first = self.number(1)
        if first > 1:
            raise FrameError(f"byte {self.at - 1}: no remainder")
        return self.frame() if first else None

    def end(self, read):
        if self.at < len(self.data):
            raise FrameError("bytes after the end")
        return read


def decode(data):
    """The frame, logical frame or extraction that the bytes are; None of no bytes, the plan where there is none."""
    if not data:
        return None
    reader = Reader(data)
    first = reader.number(1)
    if first == 1:
        return reader.end(reader.frame())
    if first == 2:
        return reader.end(LogicalFrame(reader.expression()))
    if first not in (0x11, 0x12, 0x13):
        raise FrameError(f"no frame or plan begins with {first:02x}")
    predicate = reader.predicate(first)
    return reader.end(with_remainder(predicate, reader.remainder()))


def with_remainder(predicate, remainder):
    values = {name: getattr(predicate, name) for name in predicate.__dataclass_fields__}
    return type(predicate)(**{**values, "remainder": remainder})


def decode_all(data, rounds):
    """What extract_all wrote in so many rounds: the predicates, and the remainder, a frame or None."""
    reader = Reader(data)
    predicates = []
    for _ in range(rounds):
        first = reader.number(1)
        if first not in (0x11, 0x12, 0x13):
            raise FrameError(f"byte {reader.at - 1}: no predicate")
        predicates.append(reader.predicate(first))
    return predicates, reader.end(reader.remainder())
