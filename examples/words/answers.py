"""The lines of the program in words: frames, plans, answers and refusals, alone or beside the lines that were asked."""

import re

from .columns import ShownChild
from .faults import find
from .show import Words, filter_words, frame_words
from .tables import FURTHER, NAMES, OPERAND, REFUSALS, RELATIONS, operator_words
from .tree import Bytes, Mistake

OF_ANOTHER = "not shown: it is of the filter that was held before the refused line"


def look_up(table, number):
    if not 0 <= number < len(table):
        raise Mistake(f"a field is {number}")
    return table[number]


class Extraction:
    """The conjunct that was taken, and what is left of the filter: the price line, and what is joined by."""

    def __init__(self, data, words=None):
        self.data = Bytes(data)
        self.words = words

    def whole(self):
        kind = {0x11: self.relation, 0x12: self.distance, 0x13: self.knn}[self.data.number(1)]
        position = self.data.number(2)
        line, predicate = kind()
        left = f"remainder {frame_words(self.data, self.words)}" if self.data.number(1) else "no remainder"
        self.data.end()
        return f"indexed, {line}, by conjunct {position}: {predicate}; {left}"

    def argument(self, side, least=0):
        """An expression over the columns of this child."""
        return Words(ShownChild(side, self.words)).of(self.data.expression(), least)

    def relation(self):
        relation = look_up(RELATIONS, self.data.number(1))
        return "relation", f"{self.argument(0, OPERAND)} {relation} {self.argument(1, OPERAND)}"

    def distance(self):
        form, side = self.data.number(1), self.data.number(1)
        left, right = self.argument(0), self.argument(1)
        if form == 0:
            return "distance", f"st_dwithin({left}, {right}, {self.argument(side)})"
        if form > 4:
            raise Mistake(f"a field is {form}")
        sign, _ = operator_words(form)
        distance, bound = f"st_distance({left}, {right})", self.argument(side, FURTHER)
        return "distance", f"{distance} {sign} {bound}" if form <= 2 else f"{bound} {sign} {distance}"

    def knn(self):
        k, spheroid, probe, ties = self.data.number(4), self.data.number(1), self.data.number(1), self.data.number(1)
        spheroid, ties = look_up(["FALSE", "TRUE"], spheroid), look_up(["FALSE", "TRUE", "not given"], ties)
        if probe > 1:
            raise Mistake(f"a field is {probe}")
        query, item = self.argument(probe), self.argument(1 - probe)
        return "KNN", f"query {query}, object {item}, k {k}, spheroid {spheroid}, ties {ties}"


def names_words(data):
    """The answer of the logical call: which names, and the query side."""
    mask, count, side = int.from_bytes(data[:2], "big"), data[2], look_up(["left", "right", "none"], data[3])
    names = [name for bit, name in enumerate(NAMES) if mask >> bit & 1]
    if mask >> len(NAMES) or len(names) != count:
        raise Mistake(f"the mask {mask:04x} has not {count} names")
    return f"names: {', '.join(names) or 'none'}; query side {side}"


def refusal_words(number, frame=None):
    """A refusal; what and where in the line that it is of, if that is known. Of a filter it says the price line."""
    found = find(frame) if frame is not None else None
    why = found[1] if found and found[0] == number else REFUSALS[number]
    if number == 13:
        return f"filtered: {why} (refusal 13)"
    filters = (number <= 8 or number == 14) and (frame is None or frame[:1] not in (b"\2", b"\x21", b"\x22"))
    return f"{'none: ' if filters else ''}refusal {number}: {why}"


def bytes_of(line):
    try:
        return bytes.fromhex(line)
    except ValueError:
        raise Mistake("no hexadecimal") from None


class Lines:
    """Lines one after another: answers, and perhaps the lines that they answer."""

    def __init__(self, words=None, asked=None):
        self.words = words
        self.asked = asked
        self.at = 0
        # Whether a line was refused since the last filter that is held: what follows is of that filter.
        self.refused = False

    def next(self, line):
        """A line of the program, or one of oracle/lines, which says who answers."""
        told = re.fullmatch(r"(original|reading|differ) ([0-9a-f]+)(?:, the reading ([0-9a-f]+))?((?:, .*)?)", line)
        if not told:
            return self.answer(line)
        who, answer, reading, more = told.groups()
        if reading is None:
            return f"{who}: {self.answer(answer)}{more}"
        theirs = Lines(self.words)
        theirs.refused = self.refused
        return f"differ: the original: {theirs.answer(answer)}; the reading: {self.answer(reading)}{more}"

    def answer(self, line):
        asked = self.asked_line()
        data = bytes_of(line)
        if len(data) == 1 and data[0] in REFUSALS:
            return self.refusal(data[0], asked)
        if data in (b"\x21", b"\x22"):
            return "extract" if data[0] == 0x21 else "exchange"
        if len(data) == 5 and data[0] == 0:
            return names_words(data[1:])
        if data[:1] != b"\0":
            return self.frame(data)
        if data[1:2] == b"\1" and not (self.refused and asked in ("21", "22")):
            self.refused = False
            return filter_words(data[1:], self.words)
        if self.refused:
            return OF_ANOTHER
        if data[1:2] in (b"\x11", b"\x12", b"\x13"):
            return Extraction(data[1:], self.words).whole()
        raise Mistake("wrong first byte")

    def asked_line(self):
        """The line that the next answer is of, if the lines are given."""
        if self.asked is None:
            return None
        if self.at == len(self.asked):
            raise Mistake(f"an answer more than the {len(self.asked)} lines that were asked")
        self.at += 1
        return self.asked[self.at - 1]

    def refusal(self, number, asked):
        """After that of a line that may be a filter's, what comes is of the filter before it, 12 and 13 too."""
        if number > 8 and number != 14:
            return OF_ANOTHER if self.refused and number in (12, 13) else refusal_words(number)
        frame = None
        if asked is not None and re.fullmatch(r"(?:[0-9a-f]{2})*", asked):
            frame = bytes.fromhex(asked)
        if frame is None or frame[:1] not in (b"\2", b"\x21", b"\x22"):
            self.refused = True
        return refusal_words(number, frame)

    def frame(self, data):
        """A line that is asked: a filter."""
        try:
            return filter_words(data, self.words)
        except Mistake as mistake:
            found = find(data)
            raise Mistake(f"refusal {found[0]}: {found[1]}" if found else str(mistake)) from None
