"""Frames as trees, and their bytes. Reading expects a good frame: limits are the planner's to test, and faults.py's."""

from collections import namedtuple

Record = namedtuple("Record", "side child field")
Column = namedtuple("Column", "index tag")
Field = namedtuple("Field", "bits tag")
Literal = namedtuple("Literal", "type value")
Binary = namedtuple("Binary", "operator left right")
Function = namedtuple("Function", "name arguments")
Other = namedtuple("Other", "tag children")
# What stands in parentheses, as it was read; in a frame it is what it holds.
Group = namedtuple("Group", "inner")


class Mistake(Exception):
    """What is wrong with a filter or a line, and at which character, from 0, if that is known."""

    def __init__(self, words, start=None):
        super().__init__(words)
        self.start = start


def field(number, width, what):
    """A number as bytes, the most significant first."""
    if not 0 <= number < 256**width:
        raise Mistake(f"{number:,}: {what} is at most {256**width - 1:,}")
    return number.to_bytes(width, "big")


def write(node):
    """The bytes of an expression."""
    if isinstance(node, Group):
        return write(node.inner)
    if isinstance(node, Column):
        return b"\0" + field(node.index, 2, "a column's index") + field(node.tag, 2, "a tag")
    if isinstance(node, Literal):
        return bytes([1, node.type]) + field(node.value, 8, "a literal")
    if isinstance(node, Binary):
        return b"\2" + field(node.operator, 1, "an operator") + write(node.left) + write(node.right)
    if isinstance(node, Function):
        name = node.name.encode("latin-1")
        return b"\3" + field(len(name), 1, "a name's length") + name + write_all(node.arguments)
    if isinstance(node, Other):
        return b"\4" + field(node.tag, 2, "a tag") + write_all(node.children)
    return b"\5" + field(node.bits, 1, "a column's bits") + field(node.tag, 2, "a tag")


def write_all(nodes):
    return field(len(nodes), 1, "a count of arguments") + b"".join(write(node) for node in nodes)


def write_frame(records, expression):
    """A physical frame, or a logical one where there are no records, not even none."""
    if records is None:
        return b"\2" + write(expression)
    written = [field(r.side, 1, "a side") + field(r.child, 2, "a child's column") + field(r.field, 2, "a tag") for r in records]
    return b"\1" + field(len(records), 2, "a count of columns") + b"".join(written) + write(expression)


class Bytes:
    """Bytes from left to right."""

    def __init__(self, data):
        self.data = data
        self.at = 0

    def number(self, width):
        self.at += width
        if self.at > len(self.data):
            raise Mistake("it ends inside a field")
        return int.from_bytes(self.data[self.at - width : self.at], "big")

    def end(self):
        if self.at < len(self.data):
            raise Mistake("bytes after its end")

    def records(self):
        return [Record(self.number(1), self.number(2), self.number(2)) for _ in range(self.number(2))]

    def expression(self):
        kind = self.number(1)
        if kind == 0:
            return Column(self.number(2), self.number(2))
        if kind == 1:
            return Literal(self.number(1), self.number(8))
        if kind == 2:
            return Binary(self.number(1), self.expression(), self.expression())
        if kind == 3:
            size = self.number(1)
            name = bytes(self.number(1) for _ in range(size)).decode("latin-1")
            return Function(name, self.children())
        if kind == 4:
            return Other(self.number(2), self.children())
        if kind == 5:
            return Field(self.number(1), self.number(2))
        raise Mistake(f"a node of kind {kind}")

    def children(self):
        return [self.expression() for _ in range(self.number(1))]
