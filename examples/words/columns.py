"""Columns: their letters, numbers and tags, and the names that a query has for them."""

import re

from .tables import BITS, SIDES
from .tokens import PART, parts
from .tree import Column, Field, Mistake, Record

MOST = 65535
LETTERS = {number: letter for letter, number in SIDES.items()}
FIELD_LETTERS = {bits: letter for letter, bits in BITS.items()}


def name_tag(letter, index):
    """The tag of a column node, where none is written."""
    return ({"L": 10, "R": 20, "M": 30, "B": 40}[letter] + index) % (MOST + 1)


def field_tag(letter, index):
    """The tag of a column's record, where none is written."""
    return ({"L": 100, "R": 200, "M": 300}[letter] + index) % (MOST + 1)


class Tables:
    """The names of the left and of the right child, and the columns that they have, where these are given."""

    def __init__(self, left=None, right=None, columns=None):
        self.letters = {}
        for name, letter in ((left, "L"), (right, "R")):
            if name is not None:
                self.name_child(name, letter)
        self.listed = columns is not None
        self.places, self.words = {}, {}
        if self.listed:
            for name in listed_names(columns):
                if parts(name) in self.places:
                    raise Mistake(f"{name}: twice among --columns")
                self.add(name)

    def name_child(self, name, letter):
        if not re.fullmatch(rf"{PART}(?:\.{PART})*", name):
            raise Mistake(f"{name}: not a table's name")
        if parts(name) in self.letters:
            raise Mistake(f"{name}: the left and the right child have one name")
        self.letters[parts(name)] = letter

    def letter(self, name):
        *table, column = parts(name)
        if not table:
            raise Mistake(f"{name}: no column, literal or function; a column is L0 or R0, or a.{column} with --left a or --right a")
        if tuple(table) not in self.letters:
            raise Mistake(f"{name}: of no child; --left {'.'.join(table)} or --right {'.'.join(table)} says of which")
        return self.letters[tuple(table)]

    def add(self, name):
        """The next number of its child, unless it has one."""
        letter = self.letter(name)
        index = sum(other == letter for other, _ in self.places.values())
        place = self.places.setdefault(parts(name), (letter, index))
        self.words.setdefault(place, name)
        return place

    def fresh(self):
        """For one filter: numbers by first appearance count from 0 in each."""
        if self.listed:
            return self
        new = Tables()
        new.letters = self.letters
        return new

    def place(self, name):
        """Letter and index of a column."""
        if self.listed and self.letter(name) and parts(name) not in self.places:
            raise Mistake(f"{name}: not among --columns")
        return self.add(name)


def listed_names(columns):
    """The names of the option --columns, with commas between."""
    if not re.fullmatch(rf"\s*{PART}(?:\.{PART})*(?:\s*,\s*{PART}(?:\.{PART})*)*\s*", columns):
        raise Mistake(f"{columns}: not names of columns with commas between")
    return re.findall(rf"{PART}(?:\.{PART})*", columns)


class Columns:
    """The columns of one filter: a physical one has a record for each, in the order in which they come."""

    def __init__(self, logical, tables=None):
        self.records = None if logical else []
        self.tables = (tables or Tables()).fresh()
        self.by_letter = False

    def lettered(self, text):
        """A column by its letter: L0, L0[7,8]."""
        letter, index, *tags = re.findall(r"[LRMB]|\d+", text)
        index, tags = int(index), [int(tag) for tag in tags]
        if max([index] + tags) > MOST:
            raise Mistake(f"{text}: columns and tags are at most {MOST:,}")
        if letter in "LR":
            self.by_letter = True
            self.one_way(text, self.tables.places)
        return self.made(text, letter, index, tags)

    def named(self, name):
        """A column by its name: a.geom."""
        place = self.tables.place(name)
        self.one_way(name, self.by_letter)
        return self.made(name, *place, [])

    def one_way(self, text, other):
        """Numbers in the order of appearance are none of the children's: L0 need not be the first column that has a name."""
        if other and not self.tables.listed:
            raise Mistake(f"{text}: names and letters of columns in one filter; --columns says which number a name has")

    def made(self, text, letter, index, tags):
        tag = tags[0] if tags else name_tag(letter, index)
        if self.records is None:
            if len(tags) > 1:
                raise Mistake(f"{text}: a column of a logical filter has one tag")
            return Field(BITS[letter], tag)
        if letter not in SIDES:
            raise Mistake(f"{text}: a column of both schemas is one of a logical filter only")
        if len(tags) == 1:
            raise Mistake(f"{text}: a name tag and a field tag, or none")
        record = Record(SIDES[letter], index, tags[1] if tags else field_tag(letter, index))
        if record not in self.records:
            self.records.append(record)
        return Column(self.records.index(record), tag)

    def by_record(self, text):
        """A column by the number of its record and its name tag, as on the console: c1:20."""
        index, tag = [int(digits) for digits in re.findall(r"\d+", text)]
        if self.records is None:
            raise Mistake(f"{text}: a logical filter has no records")
        if max(index, tag) > MOST:
            raise Mistake(f"{text}: columns and tags are at most {MOST:,}")
        return Column(index, tag)


class Shown:
    """How the columns of a frame are written."""

    def __init__(self, records, words=None):
        self.records = records
        self.words = words or {}
        self.named = []

    def record(self, index, tag=None):
        """A record of the frame; its name tag too, where it is another than the one that is not written."""
        side, child, field = self.records[index]
        if side not in LETTERS:
            raise Mistake(f"a column of side {side}")
        letter = LETTERS[side]
        tag = name_tag(letter, child) if tag is None else tag
        if (tag, field) == (name_tag(letter, child), field_tag(letter, child)):
            return self.words.get((letter, child), f"{letter}{child}")
        return f"{letter}{child}[{tag},{field}]"

    def column(self, node):
        if isinstance(node, Field):
            return self.field(node)
        if self.records is None:
            raise Mistake("a physical column in a logical frame")
        if node.index not in self.named:
            self.named.append(node.index)
        if node.index < len(self.records) and self.records.index(self.records[node.index]) == node.index:
            return self.record(node.index, node.tag)
        return f"c{node.index}:{node.tag}"

    def field(self, node):
        if self.records is not None:
            raise Mistake("a logical column in a physical frame")
        if node.bits not in FIELD_LETTERS:
            raise Mistake(f"a column with the bits {node.bits}")
        letter = FIELD_LETTERS[node.bits]
        index = node.tag - name_tag(letter, 0)
        if index < 0:
            return f"{letter}0[{node.tag}]"
        return self.words.get((letter, index), f"{letter}{index}")

    def before(self):
        """The records where they are others than those that the filter names, in this order; else nothing."""
        alone = self.named == list(range(len(self.records))) and len(set(self.records)) == len(self.records)
        if alone or not self.records:
            return ""
        return ", ".join(self.record(index) for index in range(len(self.records))) + ": "


class ShownChild:
    """How columns of a predicate are written: those of one child. Of neither, they are as they were in the frame."""

    def __init__(self, side, words=None):
        self.letter = LETTERS.get(side)
        self.words = words or {}

    def column(self, node):
        if isinstance(node, Field) or self.letter is None:
            raise Mistake("no column of a child")
        if self.letter == "M":
            return f"c{node.index}:{node.tag}"
        return self.words.get((self.letter, node.index), f"{self.letter}{node.index}")
