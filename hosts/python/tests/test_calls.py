"""The calls on bytes: versions, the worked run, every refusal, tables, buffers."""

import unittest

import spatialjoin
from common import LEFT, RIGHT, framed, levels, lines, refusal
from spatialjoin import Binary, Call, Frame, Kinds, LogicalFrame, Other, Queue, Refused, Settings, Side
from spatialjoin import calls
from spatialjoin.library import has
from spatialjoin.numbers import MOST_BYTES, MOST_ITEMS, MOST_NODES, MOST_QUEUED, QUEUES_BYTES
from spatialjoin.refusals import NAMES

GOOD = framed(Call("st_within", [LEFT, RIGHT])).encode()


def held(frame=GOOD):
    """A plan buffer, n, a scratch and a table, with this frame loaded."""
    plan, table = bytearray(MOST_BYTES), calls.table()
    return plan, calls.load(frame, plan, table), bytearray(MOST_BYTES), table


class Refusals(unittest.TestCase):
    def refused(self, number, call, *arguments):
        """The call is refused with this number, and changes no buffer."""
        before = [bytes(argument) for argument in arguments if isinstance(argument, bytearray)]
        self.assertEqual(refusal(call, *arguments), number)
        self.assertEqual([bytes(argument) for argument in arguments if isinstance(argument, bytearray)], before)

    def loaded(self, frame):
        plan = bytearray(b"\7") * MOST_BYTES
        answer = refusal(calls.load, frame, plan, calls.table())
        self.assertTrue(answer is None or plan == bytearray(b"\7") * MOST_BYTES)
        self.assertEqual(refusal(calls.print, frame), answer)
        return answer

    def test_load_and_print(self):
        wrong = [
            (b"", 1), (b"\1" * (MOST_BYTES + 1), 1), (b"\2", 2), (GOOD[:9], 3), (GOOD[:3] + b"\3" + GOOD[4:], 4),
            (Frame([], Binary(64, Other(0), Other(0))).encode(), 4), (Frame([], levels(65)).encode(), 5),
            (Frame([], LEFT).encode(), 6), (GOOD + b"\0", 7), (framed(Call("st_within", [LEFT])).encode(), 8),
        ]
        for frame, number in wrong:
            self.assertEqual(self.loaded(frame), number)
        self.assertIsNone(self.loaded(Frame([], levels(64)).encode()))
        self.refused(9, calls.load, GOOD, bytearray(len(GOOD) - 1), calls.table())
        self.refused(9, calls.load, GOOD, bytearray(), calls.table(0))
        self.refused(17, calls.load, GOOD, bytearray(len(GOOD)), calls.table(2))
        self.assertEqual(calls.load(GOOD, bytearray(len(GOOD)), calls.table(3)), len(GOOD))
        text = calls.print(GOOD)
        self.assertEqual(calls.print(GOOD, len(text)), text)
        self.refused(15, calls.print, GOOD, len(text) - 1)
        self.refused(15, calls.print, GOOD, 0)

    def test_extract(self):
        plan, n, scratch, table = held()
        for settings in (Settings(0), Settings(8), Settings(255), Settings(7, 0), Settings(7, 5, 4)):
            self.refused(24, calls.extract, plan, n, scratch, table, settings)
        self.refused(10, calls.extract, plan, MOST_BYTES + 1, scratch, table)
        self.refused(10, calls.extract, plan, n - 1, scratch, table)
        self.refused(10, calls.extract, plan, n, scratch, calls.table())
        self.refused(11, calls.extract, plan, 0, scratch, table)
        self.refused(9, calls.extract, plan, n, bytearray(n - 1), table)
        self.refused((13, 1), calls.extract, plan, n, scratch, table, Settings(Kinds.KNNS))
        length, walk = calls.extract(plan, n, scratch, table)
        self.assertEqual((length, walk), (15, 1))
        self.refused(12, calls.extract, plan, length, scratch, table)
        self.refused(12, calls.merge, GOOD, plan, length, scratch, table)

    def test_exchange_and_merge(self):
        plan, n, scratch, table = held()
        self.refused(10, calls.exchange, plan, n + 1, scratch)
        self.refused(11, calls.exchange, plan, 0, scratch)
        self.refused(9, calls.exchange, plan, n, bytearray(n - 1))
        self.refused(2, calls.merge, b"\3", plan, n, scratch, table)
        self.refused(10, calls.merge, GOOD, plan, n + 1, scratch, table)
        self.refused(11, calls.merge, GOOD, plan, 0, scratch, table)
        self.refused(16, calls.merge, Frame([], levels(64)).encode(), plan, n, scratch, table)
        self.refused(9, calls.merge, GOOD, plan, n, bytearray(n - 1), table)
        self.refused(17, calls.merge, GOOD, plan, n, scratch, calls.table(6))
        self.assertEqual(calls.merge(GOOD, plan, n, scratch, table), 2 * n - 1)

    def test_project(self):
        plan, n, scratch, table = held()
        self.refused(18, calls.project, plan, n, scratch, [0], [0])
        n, _ = calls.extract(plan, n, scratch, table)
        self.refused(10, calls.project, plan, n + 1, scratch, [0], [0])
        self.refused(11, calls.project, plan, 0, scratch, [0], [0])
        self.refused(19, calls.project, plan, n, scratch, [0] * (MOST_ITEMS + 1), [0])
        self.refused(9, calls.project, plan, n, bytearray(n - 1), [0], [0])
        self.refused(20, calls.project, plan, n, scratch, [], [0])
        self.assertEqual(calls.project(plan, n, scratch, [5, 0], [65535] * (MOST_ITEMS - 1) + [0]), n)
        self.assertEqual((plan[5:7], plan[10:12]), (b"\0\1", b"\x0f\xff"))

    def test_queues(self):
        queues, out = bytearray(QUEUES_BYTES), bytearray(MOST_QUEUED)
        self.assertIsNone(calls.serve(queues, out))
        self.refused(21, calls.put, queues, 2, b"f")
        self.refused(10, calls.put, bytearray(QUEUES_BYTES - 1), 0, b"f")
        self.refused(10, calls.serve, bytearray(b"\3") + bytearray(QUEUES_BYTES - 1), out)
        self.refused(1, calls.put, queues, 0, b"")
        self.refused(22, calls.put, queues, 0, bytes(MOST_QUEUED + 1))
        for number in range(16):
            self.assertEqual(calls.put(queues, Queue.FIXED_UNIT, bytes(number + 1)), number + 1)
        self.refused(23, calls.put, queues, 1, b"f")
        self.refused(9, calls.serve, queues, bytearray())
        self.assertEqual(calls.serve(queues, out), (Queue.FIXED_UNIT, 1))

    def test_logical(self):
        frame = LogicalFrame(Call("ST_KNN", [spatialjoin.Field(1), spatialjoin.Field(2)])).encode()
        self.assertEqual(calls.logical(frame), (0x0800, ("st_knn",), Side.LEFT))
        self.assertEqual(calls.logical(b"\2\4\0\0\0"), (0, (), Side.NEITHER))
        wrong = [(b"", 1), (b"\1", 2), (b"\2", 3), (b"\2\6", 4), (b"\2" + levels(65).encode(), 5), (frame + b"\0", 7)]
        for frame, number in wrong:
            self.assertEqual(refusal(calls.logical, frame), number)

    def test_extract_all(self):
        if not has("extract_all"):
            self.assertRaisesRegex(NotImplementedError, "has no call extract_all", calls.extract_all, GOOD)
            self.skipTest("the library has no extract_all")
        self.assertEqual(refusal(calls.extract_all, b"", Settings(0)), 24)
        for frame, number in [(b"", 1), (b"\2", 2), (GOOD[:9], 3), (GOOD + b"\0", 7)]:
            self.assertEqual(refusal(calls.extract_all, frame), number)
        rounds, data = calls.extract_all(GOOD)
        self.assertEqual((rounds, data[:4], data[-1:]), (1, b"\x11\0\0\2", b"\0"))
        self.assertEqual(calls.extract_all(GOOD, Settings(), len(data)), (rounds, data))
        self.assertEqual(refusal(calls.extract_all, GOOD, Settings(), len(data) - 1), 9)
        self.assertEqual(calls.extract_all(GOOD, Settings(Kinds.KNNS)), (0, GOOD))

    def test_explain(self):
        self.assertEqual(refusal(calls.explain, b"", Settings(0)), 24)
        few = framed(Call("st_within", [LEFT])).encode()
        deep = Frame([], levels(65)).encode()
        wrong = [(b"", 1), (b"\2", 2), (GOOD[:9], 3), (b"\1\0\0\5", 4), (deep, 5), (Frame([], LEFT).encode(), 6), (GOOD + b"\0", 7),
                 (few, 8)]
        for frame, number in wrong:
            self.assertEqual(refusal(calls.explain, frame, Settings(), 0), number)
        self.assertEqual(refusal(calls.explain, GOOD, Settings(), 0), 9)
        for most in (1, 2, MOST_NODES):
            self.assertEqual(calls.explain(GOOD, Settings(), most), (0x11, 0, b"\x11"))
        self.assertEqual(calls.explain(GOOD, Settings(Kinds.KNNS)), (0, 0, b"\x30"))
        three = framed(LEFT & Call("st_within", [LEFT, RIGHT]) & Call("st_knn", [LEFT, RIGHT])).encode()
        self.assertEqual(calls.explain(three), (0x13, 2, b"\x24\x11\x13"))
        self.assertEqual(refusal(calls.explain, three, Settings(), 2), 9)

    def test_words(self):
        """Each has a name and words, and the exception shows them."""
        for number, name in NAMES.items():
            self.assertEqual((Refused(number).number, Refused(number).name), (number, name))
            self.assertRegex(str(Refused(number, 3)), rf"^refusal {number} \({name}\): [a-z]")
        self.assertEqual(sorted(NAMES), [number for number in range(1, 25) if number != 14])


class Arguments(unittest.TestCase):
    def test_what_c_cannot_take(self):
        plan, n, scratch, table = held()
        for settings in (Settings(256 + 7), Settings(-1), Settings(7, 2**32 + 1), Settings(7, 1, 2**32)):
            self.assertRaises(ValueError, calls.extract, plan, n, scratch, table, settings)
        self.assertRaises(TypeError, calls.extract, plan, n, scratch, table, Settings(7, 1.5))
        self.assertRaises(ValueError, calls.exchange, plan, -1, scratch)
        self.assertRaises(ValueError, calls.put, bytearray(QUEUES_BYTES), 256, b"f")
        self.assertRaises(ValueError, calls.project, plan, n, scratch, [65536], [])
        self.assertRaises(TypeError, calls.exchange, bytes(plan), n, scratch)
        self.assertRaises(TypeError, calls.load, "01", plan, table)

    def test_overlaps(self):
        plan, n, scratch, _ = held()
        self.assertRaises(ValueError, calls.exchange, plan, n, plan)
        both = memoryview(bytearray(2 * MOST_BYTES))
        both[:n] = plan[:n]
        self.assertRaises(ValueError, calls.exchange, both[: n + 1], n, both[n:])
        self.assertEqual(calls.exchange(both[:n], n, both[n:]), n)
        self.assertEqual(calls.exchange(plan, n, scratch), n)
        self.assertEqual(bytes(both[:n]), bytes(plan[:n]))

    def test_kinds_of_bytes(self):
        for frame in (GOOD, bytearray(GOOD), memoryview(b"x" + GOOD)[1:]):
            self.assertEqual(calls.load(frame, bytearray(MOST_BYTES), calls.table()), len(GOOD))

    def test_tables(self):
        _, _, _, table = held()
        self.assertEqual([(node.kind, node.start, node.end) for node in table[:3]], [(3, 13, 35), (0, 25, 30), (0, 30, 35)])
        self.assertEqual((table[3].end, len(table)), (0, MOST_NODES))

    def test_version(self):
        self.assertEqual(calls.version(), spatialjoin.VERSION)


class Run(unittest.TestCase):
    def test_worked_run(self):
        """As the program answers it."""
        plan, scratch, table, n = bytearray(MOST_BYTES), bytearray(MOST_BYTES), calls.table(), 0
        for line, expected in zip(lines("worked-run.txt"), lines("worked-run-answers.txt")):
            try:
                if line == "21":
                    n, _ = calls.extract(plan, n, scratch, table)
                elif line == "22":
                    n = calls.exchange(plan, n, scratch)
                else:
                    n = calls.load(bytes.fromhex(line), plan, table)
                answer = "00" + plan[:n].hex()
            except Refused as refused:
                answer = f"{refused.number:02x}"
            self.assertEqual(answer, expected)


if __name__ == "__main__":
    unittest.main()
