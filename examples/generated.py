"""Filters and frames by chance, for check-words: the same ones every time."""

from words.columns import Columns
from words.literals import list_nodes, number, text_node
from words.tables import (CASE, CASE_OF, CASTS, ELSE, ESCAPES, IN_WORDS, MINUS, NOT_TAG, OPERATORS, TESTS, TYPED_TEXTS, WHEN)
from words.tree import Binary, Column, Function, Literal, Other, Record

NAMES = ["st_intersects", "ST_Within", "st_dwithin", "st_distance", "st_knn", "f", "a.b", "date", "left", "and", "f+", 'q"', "L0", "op13"]
TEXTS = ["", "park", "it's", "resident", "residential", "größe", "100%", "a'b''c", "POINT (1 2)", "x" * 128, "y" * 129, "z" * 2100]
TYPES = ["int", "double precision", "decimal(10, 2)", "timestamp(3) with time zone", "text[]", '"My Type"', "pg_catalog.int4"]
NUMBERS = ["0", "5", "9223372036854775807", "9223372036854775808", "18446744073709551615", "7i32", "4294967295u32", "7u64", "1.5",
           ".5", "5.", "1e3", "2.0", "1E-7", "1e+22", "0.1", "3i64"]
NEGATIVE = ["-5", "-1i32", "-9223372036854775808", "-1.5", "-0.0", "-1e3"]


class Filters:
    """Filters with every operation in parentheses, so that no level has a say, and the trees that they are."""

    def __init__(self, chance):
        self.chance = chance

    def filter(self, depth):
        """The text, the columns' records and the tree."""
        self.columns = Columns(False)
        text, node = self.operand(depth)
        if self.chance.random() < 0.4:
            spatial, first = self.spatial()
            text, node = f"({text} AND {spatial})", Binary(0, node, first)
        return text, self.columns.records, node

    def spatial(self):
        """A conjunct that can be indexed."""
        left, right = self.columns.lettered("L0"), self.columns.lettered("R1")
        return self.chance.choice([
            ("st_within (L0, R1)", Function("st_within", [left, right])),
            ("st_knn(L0, R1, 5)", Function("st_knn", [left, right, number("5")])),
            ("(st_distance(L0, R1) < 1e3)", Binary(1, Function("st_distance", [left, right]), number("1e3"))),
        ])

    def operand(self, depth):
        kinds = [self.column, self.column, self.number, self.text, self.word]
        if depth:
            kinds = [self.binary] * 4 + [self.function] * 3 + [self.column, self.prefixed, self.test, self.member, self.between,
                                                              self.escape, self.cast, self.typed_text, self.case, self.other]
        return self.chance.choice(kinds)(depth - 1)

    def words(self, words):
        """Letter case and blanks say nothing."""
        words = words.lower() if self.chance.random() < 0.3 else words
        return words.replace(" ", "  ") if self.chance.random() < 0.1 else words

    def column(self, depth):
        text = self.chance.choice("LRM") + str(self.chance.choice([0, 1, 2, 9, 10, 255, 65535]))
        text += f"[{self.chance.randrange(65536)},{self.chance.randrange(65536)}]" if self.chance.random() < 0.1 else ""
        return text, self.columns.lettered(text)

    def number(self, depth):
        text = self.chance.choice(NUMBERS + NEGATIVE)
        return (f"({text})" if text in NEGATIVE else text), number(text)

    def text(self, depth):
        text = self.chance.choice(TEXTS)
        return "'" + text.replace("'", "''") + "'", text_node(text)

    def word(self, depth):
        word, node = self.chance.choice([("NULL", Literal(0, 0)), ("TRUE", Literal(1, 1)), ("FALSE", Literal(1, 0))])
        return self.words(word), node

    def binary(self, depth):
        operator = self.chance.choice([*OPERATORS, 0, 0, 0, 1, 2, 6, 37, 63])
        words = "!=" if operator == 7 and self.chance.random() < 0.5 else OPERATORS.get(operator, (f"op{operator}",))[0]
        (left, a), (right, b) = self.operand(depth), self.operand(depth)
        return f"({left} {self.words(words)} {right})", Binary(operator, a, b)

    def several(self, depth, least, most):
        found = [self.operand(depth) for _ in range(self.chance.randint(least, most))]
        return ", ".join(text for text, _ in found), [node for _, node in found]

    def function(self, depth):
        name = self.chance.choice(NAMES)
        quoted = not name.replace(".", "").replace("_", "").isalnum() or name == "and"
        written = '"' + name.replace('"', '""') + '"' if quoted else name
        text, nodes = self.several(depth, 0, 3)
        return f"{written}{self.chance.choice(['', ' '])}({text})", Function(name, nodes)

    def prefixed(self, depth):
        words, tag = self.chance.choice([("NOT", NOT_TAG), ("-", MINUS)])
        text, node = self.operand(depth)
        return f"({self.words(words)} ({text}))", Other(tag, [node])

    def test(self, depth):
        tag, words = self.chance.choice(list(TESTS.items()))
        text, node = self.operand(depth)
        return f"({text} {self.words(words)})", Other(tag, [node])

    def member(self, depth):
        tag, words = self.chance.choice(list(IN_WORDS.items()))
        (text, node), (items, nodes) = self.operand(depth), self.several(0, *self.chance.choice([(1, 3), (15, 18)]))
        return f"({text} {self.words(words)} ({items}))", Other(tag, [node] + list_nodes(nodes))

    def between(self, depth):
        (text, node), (low, a), (high, b) = self.operand(depth), self.operand(0), self.operand(0)
        within = Binary(0, Binary(4, node, a), Binary(2, node, b))
        if self.chance.random() < 0.5:
            return f"({text} {self.words('BETWEEN')} {low} {self.words('AND')} {high})", within
        return f"({text} NOT BETWEEN {low} AND {high})", Other(NOT_TAG, [within])

    def escape(self, depth):
        tag, words = self.chance.choice(list(ESCAPES.items()))
        (text, node), (pattern, a), (mark, b) = self.operand(depth), self.operand(0), self.operand(0)
        return f"({text} {self.words(words)} {pattern} ESCAPE {mark})", Other(tag, [node, a, b])

    def cast(self, depth):
        tag, words = self.chance.choice(list(CASTS.items()))
        kind = self.chance.choice(TYPES)
        text, node = self.operand(depth)
        behind = words == "CAST" and self.chance.random() < 0.5
        return (f"{text}::{kind}" if behind else f"{words}({text} AS {kind})"), Other(tag, [node, text_node(kind)])

    def typed_text(self, depth):
        tag, words = self.chance.choice(list(TYPED_TEXTS.items()))
        text, node = self.text(depth)
        return f"{words} {text}", Other(tag, [node])

    def case(self, depth):
        operand = [self.operand(depth)] if self.chance.random() < 0.5 else []
        words, nodes = ["CASE"] + [text for text, _ in operand], [node for _, node in operand]
        for _ in range(self.chance.randint(1, 2)):
            (condition, a), (result, b) = self.operand(depth), self.operand(0)
            words.append(f"WHEN {condition} THEN {result}")
            nodes.append(Other(WHEN, [a, b]))
        if self.chance.random() < 0.5:
            text, node = self.operand(0)
            words.append(f"ELSE {text}")
            nodes.append(Other(ELSE, [node]))
        return " ".join(words + ["END"]), Other(CASE_OF if operand else CASE, nodes)

    def other(self, depth):
        tag = self.chance.choice([7, 60000, 60100])
        text, nodes = self.several(depth, 0, 2)
        return f"#{tag}({text})", Other(tag, nodes)


class Frames:
    """Good frames of any kind: our tags over any children, any literal, records that are equal or that no column names."""

    def __init__(self, chance):
        self.chance = chance

    def frame(self, depth):
        """The records and the tree."""
        pick = self.chance.randrange
        self.records = [Record(pick(3), pick(3), pick(2) + 100) for _ in range(pick(1, 5))]
        return self.records, self.node(depth)

    def node(self, depth):
        kind = self.chance.randrange(5 if depth else 2)
        if kind == 0:
            index = self.chance.randrange(len(self.records))
            return Column(index, self.chance.choice([0, 10, 11, 12, 20, 21, 22, 30, 65535]))
        if kind == 1:
            return self.literal()
        if kind == 2:
            return Binary(self.chance.randrange(64), self.node(depth - 1), self.node(depth - 1))
        children = [self.node(depth - 1) for _ in range(self.chance.randrange(4))]
        if kind == 3:
            return Function(self.chance.choice(NAMES), children)
        return Other(self.chance.choice([*range(60000, 60030), 7]), children)

    def literal(self):
        kind = self.chance.randrange(7)
        value = self.chance.choice([0, 1, 2**31, 2**63, 2**64 - 1, 0x7061726B << 32, 0x3FF8 << 48, self.chance.randrange(2**64)])
        if kind == 1:
            value %= 2
        if kind == 2:
            value = (value % 2**32 - 2**31) % 2**64
        return Literal(kind, value % 2**32 if kind == 4 else value)
