"""Why a frame is refused: the first of the refusals 1 to 8 as the planner tests them, what is wrong, and where."""

from .tables import (AND_OPERATOR, BOOLEAN, BYTES, CHILDREN, LEVELS, NAME_BYTES, NODES, RANGES, RECORDS, RELATION_NAMES, TYPE_NAMES)
from .tree import Binary, Bytes, Function


class Fault(Exception):
    """A refusal: its number and what it is for."""

    def __init__(self, number, words):
        super().__init__(words)
        self.number = number


class Frame:
    """The fields of a frame from left to right."""

    def __init__(self, data):
        self.data = data
        self.at = 0
        self.nodes = 0
        self.columns = 0
        self.conjunct = None

    def where(self, at):
        return f"byte {at}" + ("" if self.conjunct is None else f", in conjunct {self.conjunct}")

    def field(self, width, what, least=0, most=None):
        start = self.at
        self.at += width
        if self.at > len(self.data):
            raise Fault(3, f"{self.where(start)}: the frame ends inside {what}")
        value = int.from_bytes(self.data[start : self.at], "big")
        if most is not None and not least <= value <= most:
            raise Fault(4, f"{self.where(start)}: {what} is {value:,}, and may be from {least} to {most:,}")
        return value

    def whole(self):
        if not 1 <= len(self.data) <= BYTES:
            raise Fault(1, f"the frame has {len(self.data):,} bytes, and may have from 1 to {BYTES:,}")
        first = self.field(1, "the first byte")
        if first not in (1, 2):
            raise Fault(2, f"the first byte is {first:02x}, and a filter's is 01, or 02 of a logical one")
        if first == 1:
            self.columns = self.field(2, "the count of columns", 0, RECORDS)
            for record in range(self.columns):
                self.field(1, f"the side of column {record}", 0, 2)
                self.field(2, f"the child index of column {record}")
                self.field(2, f"the field tag of column {record}")
        self.conjunct = 0
        self.node(1, first == 1, True)
        self.conjunct = None
        if self.at < len(self.data):
            raise Fault(7, f"byte {self.at}: the filter ends before it")
        if first == 1:
            arities(self.data)

    def node(self, level, physical, leaf):
        """A node, on this level; whether it is an And over conjuncts or one of them."""
        start = self.at
        kind = self.field(1, "a node's kind", *((0, 4) if physical else (1, 5)))
        self.count(start, level)
        if kind == 2:
            conjuncts = self.field(1, "an operator", 0, 63) == AND_OPERATOR and leaf
            self.node(level + 1, physical, conjuncts)
            self.node(level + 1, physical, conjuncts)
            self.conjunct += leaf and not conjuncts
            return
        for _ in range(self.fields(kind)):
            self.node(level + 1, physical, False)
        self.conjunct += leaf

    def count(self, start, level):
        self.nodes += 1
        if self.nodes > NODES:
            raise Fault(5, f"{self.where(start)}: node {self.nodes:,}, and a filter has at most {NODES:,}")
        if level > LEVELS:
            chain = "; a chain of ANDs is as deep as it is long, (a AND b) AND (c AND d) is not"
            raise Fault(5, f"{self.where(start)}: level {level}, and a filter has at most {LEVELS}{chain}")

    def fields(self, kind):
        """The fields of a node other than a binary one, and how many children follow."""
        start = self.at
        if kind == 0:
            index = self.field(2, "a column's index")
            self.field(2, "a column's name tag")
            if index >= self.columns:
                raise Fault(6, f"{self.where(start)}: column {index}, and the frame has {self.columns}")
        elif kind == 1:
            self.literal()
        elif kind == 3:
            return self.function()
        elif kind == 4:
            tag = self.field(2, "a tag")
            return self.field(1, f"the count of children of the node with tag {tag}", 0, CHILDREN)
        else:
            self.field(1, "a column's bits", 0, 3)
            self.field(2, "a column's tag")
        return 0

    def literal(self):
        kind = self.field(1, "a literal's type", 0, 6)
        start = self.at
        value = self.field(8, "a literal")
        least, most = {BOOLEAN: (0, 1), 2: RANGES[2], 4: RANGES[4]}.get(kind, (0, 2**64 - 1))
        value = value - 2**64 if kind == 2 and value >= 2**63 else value
        if not least <= value <= most:
            raise Fault(4, f"{self.where(start)}: the {TYPE_NAMES[kind]} is {value:,}, and may be from {least:,} to {most:,}")

    def function(self):
        length = self.field(1, "the length of a function's name", 1, NAME_BYTES)
        start = self.at
        for _ in range(length):
            self.field(1, "a byte of a function's name", 33, 126)
        name = self.data[start : self.at].decode("latin-1")
        return self.field(1, f"the count of arguments of {name}", 0, CHILDREN)


def conjuncts(node):
    """What is reached from the root through And only, left to right."""
    if isinstance(node, Binary) and node.operator == AND_OPERATOR:
        return conjuncts(node.left) + conjuncts(node.right)
    return [node]


def arities(data):
    """Refusal 8."""
    frame = Bytes(data)
    frame.number(1)
    frame.records()
    for position, node in enumerate(conjuncts(frame.expression())):
        if isinstance(node, Binary) and 1 <= node.operator <= 4:
            node = node.left if node.operator <= 2 else node.right
            needed = {"st_distance": 2}
        else:
            needed = {**dict.fromkeys(RELATION_NAMES, 2), "st_dwithin": 3}
        if isinstance(node, Function) and len(node.arguments) < needed.get(node.name, 0):
            has = f"{len(node.arguments)} argument{'' if len(node.arguments) == 1 else 's'}"
            raise Fault(8, f"conjunct {position}: {node.name} has {has} and needs {needed[node.name]}")


def find(data):
    """Number and words of the refusal; nothing of a good frame."""
    try:
        Frame(data).whole()
    except Fault as fault:
        return fault.number, str(fault)
    return None
