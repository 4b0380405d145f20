"""What the tests share: the example files, frames, and what a call is refused with."""

import os
import random

from spatialjoin import Binary, Call, Column, Field, Frame, Literal, LogicalFrame, Other, Record, Refused, Side

EXAMPLES = os.path.join(os.path.dirname(os.path.abspath(__file__)), "..", "..", "..", "examples")

LEFT, RIGHT = Column(0, 10), Column(1, 20)
RECORDS = [Record(Side.LEFT, 0, 10), Record(Side.RIGHT, 0, 20)]


def lines(name):
    """The lines of an example file."""
    with open(os.path.join(EXAMPLES, name), encoding="ascii") as file:
        return file.read().splitlines()


def framed(expression):
    return Frame(RECORDS, expression)


def refusal(call, *arguments):
    """The number that a call is refused with, and its walk if it has one; None if it is accepted."""
    try:
        call(*arguments)
    except Refused as refused:
        return (refused.number, refused.walk) if refused.walk else refused.number
    return None


def levels(count):
    """An expression of so many levels."""
    node = Other(0)
    for _ in range(count - 1):
        node = Other(0, [node])
    return node


class Frames:
    """Good frames by chance."""

    NAMES = ["f", "st_within", "st_intersects", "st_knn", "st_distance", "st_dwithin", "]", "~" * 32]

    def __init__(self, seed):
        self.chance = random.Random(seed)

    def physical(self):
        records = [Record(Side(self.number(3)), self.number(65536), self.number(65536)) for _ in range(self.number(1, 6))]
        self.column = lambda: Column(self.number(len(records)), self.number(65536))
        return Frame(records, self.node(self.number(5)))

    def logical(self):
        self.column = lambda: Field(self.number(4), self.number(65536))
        return LogicalFrame(self.node(self.number(5)))

    def number(self, *limits):
        return self.chance.randrange(*limits)

    def node(self, depth):
        kind = self.number(5 if depth else 2)
        if kind == 0:
            return self.column()
        if kind == 1:
            return self.literal()
        if kind == 2:
            return Binary(self.number(64), self.node(depth - 1), self.node(depth - 1))
        children = [self.node(depth - 1) for _ in range(self.number(3, 6))]
        return Call(self.chance.choice(self.NAMES), children) if kind == 3 else Other(self.number(65536), children)

    def literal(self):
        kind = self.number(7)
        if kind in (1, 2, 3, 4):
            return Literal.of(self.chance.choice([0, 1] if kind == 1 else [0, 1, 2**31 - 1]), kind)
        return Literal.of(bytes(self.number(256) for _ in range(8)), kind)
