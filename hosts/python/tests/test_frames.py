"""Frames and plans as objects and bytes, frames by chance, and filters in words."""

import unittest

import spatialjoin
from common import Frames, LEFT, RIGHT, framed, levels, lines, refusal
from spatialjoin import (Binary, Call, Column, Field, Frame, FrameError, Literal, Mistake, Other, Plan, Record, Refused, Side, Tables,
                         Type)


class RoundTrips(unittest.TestCase):
    def test_frames(self):
        """Objects into bytes and back; the planner takes the bytes, or refuses them for arguments alone."""
        extracted = 0
        frames = Frames(1)
        for _ in range(400):
            frame = frames.physical()
            data = frame.encode()
            self.assertEqual(spatialjoin.decode(data), frame)
            plan = Plan()
            number = refusal(plan.load, frame)
            self.assertIn(number, (None, 8))
            self.assertEqual((spatialjoin.why_refused(frame) or (None,))[0], number)
            if number is None:
                self.assertEqual(plan.value, frame)
                self.assertEqual(plan.exchange().exchange().value, frame)
                extracted += refusal(plan.extract) is None
                self.assertEqual(plan.value.encode(), bytes(plan))
        self.assertGreater(extracted, 0)

    def test_extractions(self):
        """Of each kind, as extract wrote them, exchanged and projected."""
        bound = Binary(2, Call("st_distance", [LEFT, RIGHT]), Call("f", [RIGHT]))
        filters = [Call("st_covers", [LEFT, RIGHT]), Call("st_dwithin", [RIGHT, LEFT, Literal.of(3)]), bound,
                   Call("st_knn", [RIGHT, LEFT, Literal.of(9, Type.UINT32), Literal.of(True), Literal.of(False)])]
        for expression in filters:
            for frame in (framed(expression), framed(expression & LEFT), framed(Other(4) & expression)):
                plan = Plan(frame)
                seen = [plan.extract(), plan.exchange().value, plan.project([7, 0], [0]).value]
                self.assertEqual({taken.kind for taken in seen}, {seen[0].kind})
                self.assertEqual({taken.position for taken in seen}, {int(frame.filter == Other(4) & expression)})
                self.assertEqual(plan.value.encode(), bytes(plan))
                self.assertEqual(bool(plan.value.remainder), frame.filter != expression)

    def test_logical_frames(self):
        frames = Frames(2)
        for _ in range(200):
            frame = frames.logical()
            self.assertEqual(spatialjoin.decode(frame.encode()), frame)
            spatialjoin.logical(frame.encode())

    def test_words(self):
        """Frames into words and back."""
        frames = Frames(3)
        for frame in [frames.physical() for _ in range(300)] + [frames.logical() for _ in range(100)]:
            words = spatialjoin.in_words(frame)
            self.assertEqual(spatialjoin.encode(words, isinstance(frame, spatialjoin.LogicalFrame)), frame.encode())

    def test_cut_bytes(self):
        """No cut frame or plan is read, and none longer."""
        plan = Plan(spatialjoin.encode("st_knn(L0, R0, 5) AND f(L1) < 5"))
        plans = [bytes(plan)]
        plan.extract()
        for data in plans + [bytes(plan)]:
            for cut in range(1, len(data)):
                self.assertRaises(FrameError, spatialjoin.decode, data[:cut])
            self.assertRaises(FrameError, spatialjoin.decode, data + b"\0")
        for data in (b"\0", b"\3", b"\1\0\0\6", b"\1\0\1\3\0\0\0\0\4\0\0\0", Frame([], levels(65)).encode()):
            self.assertRaises(FrameError, spatialjoin.decode, data)

    def test_all_conjuncts(self):
        """What extract_all writes of st_within(L0, R3) AND f(L1) < 5 AND st_knn(L0, R0, 5), and of a filter that is taken whole."""
        knn, within = "13000200000005000002000000000a0000000014", "1100000200 0000000a 0000030017"
        left = "010001 0000010065 0201 0301660100 0000000b 01030000000000000005"
        predicates, remainder = spatialjoin.decode_all(bytes.fromhex(knn + within + left), 2)
        self.assertEqual([(taken.kind, taken.position) for taken in predicates], [("KNN", 2), ("relation", 0)])
        self.assertEqual(b"".join(taken.predicate() for taken in predicates) + remainder.encode(), bytes.fromhex(knn + within + left))
        self.assertEqual(spatialjoin.in_words(remainder), "f(L1) < 5")
        self.assertEqual(spatialjoin.decode_all(bytes.fromhex(within + "00"), 1), (predicates[1:], None))
        for data, rounds in [(knn + within, 2), (knn + left + "00", 1), (knn + left, 2), ("", 0), ("02", 0)]:
            self.assertRaises(FrameError, spatialjoin.decode_all, bytes.fromhex(data), rounds)

    def test_what_no_bytes_carry(self):
        wrong = [Column(65536), Column(-1), Column(0, 65536), Binary(256, LEFT, LEFT), Call("f" * 256), Call("\u0394"), Other(65536),
                 Other(0, [LEFT] * 256), Literal(7 * 256), Literal(3, 2**64), Field(256)]
        for node in wrong:
            self.assertRaises(FrameError, node.encode)
        self.assertRaises(FrameError, Frame([Record(256, 0)], LEFT).encode)
        self.assertRaises(FrameError, Frame([Record(0, 0)] * 65536, LEFT).encode)


class Literals(unittest.TestCase):
    def test_values(self):
        values = [(None, None), (True, None), (5, None), (-5, Type.INT32), (-(2**63), None), (2**32 - 1, Type.UINT32),
                  (2**64 - 1, Type.UINT64), (b"12345678", None)]
        for value, kind in values:
            literal = Literal.of(value, kind)
            self.assertEqual(literal.value, value)
            self.assertIsNone(refusal(Plan().load, framed(literal)))
        self.assertEqual(Literal.of(-1, Type.INT32).encode().hex(), "0102ffffffffffffffff")
        for value, kind in [(2**31, Type.INT32), (2**63, None), (-1, Type.UINT64), (2**32, Type.UINT32), (2, Type.BOOLEAN), (b"1", None)]:
            self.assertRaises(FrameError, Literal.of, value, kind)
        for value, kind in [(None, Type.INT64), (0, Type.NULL)]:
            self.assertRaises(FrameError, Literal.of, value, kind)
        self.assertRaises(TypeError, Literal.of, 1.5)
        self.assertRaises(TypeError, Column(1.5).encode)


class Words(unittest.TestCase):
    def test_price_lines(self):
        """The price list's filters: each on its line, as the program answers."""
        asked, answers = lines("price-lines.txt"), lines("price-lines-answers.txt")
        plan = Plan()
        for line, expected in zip(asked, answers):
            try:
                if line == "21":
                    plan.extract()
                else:
                    words = spatialjoin.in_words(bytes.fromhex(line))
                    plan.load(spatialjoin.encode(words))
                answer = "00" + bytes(plan).hex()
            except Refused as refused:
                answer = f"{refused.number:02x}"
            self.assertEqual(answer, expected)

    def test_filters_of_the_price_list(self):
        filters = [
            ("st_intersects(L0, R0)", "relation", 0),
            ("st_distance(L0, R0) <= R1", "distance", 0),
            ("st_intersects(L0, R0) AND st_knn(L0, R0, 5)", "KNN", 1),
            ("f(L1) < 5 AND st_within(L0, R3)", "relation", 1),
            ("st_distance(L0, R0) BETWEEN 1 AND 5", "distance", 1),
        ]
        for text, kind, position in filters:
            taken = Plan(spatialjoin.encode(text)).extract()
            self.assertEqual((taken.kind, taken.position), (kind, position))
            self.assertRegex(spatialjoin.in_words(taken), f"^indexed, {kind}, by conjunct {position}: ")
        for text in ("st_intersects(L0, NULL)", "st_intersects(L0, R0) OR st_knn(L0, R0)", "ST_Within(L0, R0)"):
            self.assertEqual(refusal(Plan(spatialjoin.encode(text)).extract)[0], 13)
        self.assertEqual(refusal(Plan().load, spatialjoin.encode("st_dwithin(L0, R0)")), 8)
        self.assertRegex(spatialjoin.why_refused(spatialjoin.encode("st_dwithin(L0, R0)"))[1], "conjunct 0")

    def test_names(self):
        tables = Tables("a", "b", "a.id, a.geom, b.geom")
        frame = spatialjoin.encode("ST_Within(a.geom, b.geom)", tables=tables, fold=True)
        taken = Plan(frame).extract()
        self.assertEqual(taken.arguments, (Column(1, 11), Column(0, 20)))
        self.assertEqual(spatialjoin.in_words(taken, tables.words), "indexed, relation, by conjunct 0: a.geom within b.geom; no remainder")

    def test_mistakes(self):
        with self.assertRaises(Mistake) as caught:
            spatialjoin.encode("st_within(L0, R0) AND )")
        self.assertEqual(caught.exception.start, 22)
        self.assertRaises(Mistake, spatialjoin.encode, "(" * 5000)


if __name__ == "__main__":
    unittest.main()
