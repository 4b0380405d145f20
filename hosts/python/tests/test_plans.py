"""Plans and queues as objects: the worked run, a row policy, narrowed children, settings, jobs of two queues."""

import random
import unittest

import spatialjoin
from common import LEFT, RIGHT, framed, lines, refusal
from spatialjoin import (Binary, Call, Column, Distance, Field, Form, Frame, Kinds, Knn, Literal, LogicalFrame, Plan, Queue, Queues,
                         Record, Refused, Relation, RelationType, Settings, Side, Ties)
from spatialjoin.library import has

# st_within(column 0, column 1) AND column 1; column 0 is column 3 of the right child, column 1 column 0 of the left.
WORKED = Frame([Record(Side.RIGHT, 3, 7), Record(Side.LEFT, 0, 8)], Call("st_within", [Column(0, 7), Column(1, 8)]) & Column(1, 8))
POLICY = Frame([Record(Side.LEFT, 1, 9)], Call("region", [Column(0, 9)]))


def answer(plan):
    return "00" + bytes(plan).hex()


class Plans(unittest.TestCase):
    def test_worked_run(self):
        expected = lines("worked-run-answers.txt")
        self.assertEqual(WORKED.encode().hex(), lines("worked-run.txt")[0])
        plan = Plan(WORKED)
        self.assertEqual(answer(plan), expected[0])
        self.assertEqual(plan.print(), lines("worked-run-text.txt")[0])
        taken = plan.extract()
        self.assertEqual(answer(plan), expected[1])
        left = Frame([Record(Side.LEFT, 0, 8)], Column(0, 8))
        self.assertEqual(taken, Relation(0, RelationType.CONTAINS, Column(0, 8), Column(3, 7), left))
        self.assertEqual((taken.kind, taken.position, taken.arguments), ("relation", 0, (Column(0, 8), Column(3, 7))))
        self.assertEqual(answer(plan.exchange()), expected[2])
        self.assertEqual(f"{refusal(plan.extract):02x}", expected[3])
        self.assertEqual(plan.effort, 3)

    def test_row_policy(self):
        expected = lines("row-policy-answers.txt")
        plan = Plan(WORKED)
        self.assertEqual(answer(plan), expected[0])
        self.assertEqual(answer(plan.merge(POLICY)), expected[1])
        self.assertEqual(plan.print(), expected[2])
        plan.extract()
        self.assertEqual(answer(plan), expected[3])
        self.assertEqual(plan.effort, 5)

    def test_narrowed_children(self):
        expected = lines("projection-answers.txt")
        plan = Plan(WORKED)
        plan.extract()
        self.assertEqual(answer(plan.project([4, 0], [3])), expected[2])
        self.assertEqual(answer(plan.exchange()), expected[3])
        before = bytes(plan)
        self.assertEqual(f"{refusal(plan.project, [4, 0], [3]):02x}", expected[4])
        self.assertEqual(bytes(plan), before)

    def test_settings(self):
        plan = Plan(WORKED, Settings(Kinds.DISTANCES | Kinds.KNNS, 5, 100))
        with self.assertRaises(Refused) as caught:
            plan.extract()
        self.assertEqual((caught.exception.number, caught.exception.name, caught.exception.walk), (13, "NO_MATCH", 3))
        self.assertEqual(plan.effort, 3)
        knn = framed(Call("st_knn", [LEFT, RIGHT]))
        self.assertEqual(Plan(knn, Settings(Kinds.KNNS, 5, 100)).extract(),
                         Knn(0, 5, False, Side.LEFT, Ties.NOT_GIVEN, Column(0, 10), Column(0, 20)))
        self.assertEqual(refusal(Plan(knn, Settings(0)).extract), 24)

    def test_empty(self):
        plan = Plan()
        self.assertEqual((bool(plan), len(plan), bytes(plan), plan.value), (False, 0, b"", None))
        self.assertEqual([refusal(plan.extract), refusal(plan.exchange), refusal(plan.merge, POLICY)], [11, 11, 11])
        self.assertEqual(refusal(plan.load, b""), 1)
        self.assertEqual(plan.load(WORKED).value, WORKED)

    def test_distance(self):
        distance = Call("st_distance", [LEFT, RIGHT])
        plan = Plan(framed(Binary(1, distance, Literal.of(5))))
        self.assertEqual(plan.extract(), Distance(0, Form.LT, Side.NEITHER, Column(0, 10), Column(0, 20), Literal.of(5)))

    def test_logical(self):
        names = spatialjoin.logical(LogicalFrame(Call("st_within", [Field(1), Field(2)])).encode())
        self.assertEqual((names.names, names.side), (("st_within",), Side.NEITHER))

    def test_all_conjuncts(self):
        if not has("extract_all"):
            self.assertRaises(NotImplementedError, spatialjoin.extract_all, WORKED)
            self.skipTest("the library has no extract_all")
        frame = bytes(spatialjoin.encode("st_within(L0, R3) AND f(L1) < 5 AND st_knn(L0, R0, 5)"))
        predicates, remainder = spatialjoin.extract_all(frame)
        self.assertEqual([(taken.kind, taken.position) for taken in predicates], [("KNN", 2), ("relation", 0)])
        self.assertEqual(spatialjoin.in_words(remainder), "f(L1) < 5")
        # As extracts of the remainders give them.
        plan, rest = Plan(), spatialjoin.decode(frame)
        for predicate in predicates:
            taken = plan.load(rest).extract()
            self.assertEqual(taken.predicate()[3:], predicate.predicate()[3:])
            rest = taken.remainder
        self.assertEqual(rest, remainder)
        self.assertEqual(spatialjoin.extract_all(POLICY), ([], POLICY))

    def test_all_conjuncts_by_rounds(self):
        """Filters by chance: what extract gives of each remainder in turn."""
        if not has("extract_all"):
            self.skipTest("the library has no extract_all")
        chance = random.Random(4)
        texts = ["st_within(L0, R3)", "st_knn(L0, R0)", "st_knn(R1, L2, 7)", "f(L1) < 5", "st_distance(L0, R0) < L4", "st_touches(L0, L1)"]
        for _ in range(200):
            frame = spatialjoin.encode(" AND ".join(chance.choices(texts, k=chance.randrange(1, 9))))
            predicates, remainder = spatialjoin.extract_all(frame)
            rest = spatialjoin.decode(frame)
            taken = []
            while rest is not None and refusal(Plan(rest).extract) is None:
                taken.append(Plan(rest).extract())
                rest = taken[-1].remainder
            self.assertEqual([each.predicate()[3:] for each in predicates], [each.predicate()[3:] for each in taken])
            self.assertEqual(remainder, rest)
            positions = [each.position for each in predicates]
            self.assertEqual(positions, sorted(positions, key=lambda at: (predicates[positions.index(at)].kind != "KNN", at)))
            self.assertEqual(len(set(positions)), len(positions))


class Jobs(unittest.TestCase):
    def test_two_queues(self):
        """As the C host of both machines prints it."""
        records = [Record(Side.LEFT, 0, 10), Record(Side.RIGHT, 0, 20)]
        jobs = {name: Frame(records, Call(name, [LEFT, RIGHT])) for name in ("st_intersects", "st_within", "st_knn", "region")}
        queues, said = Queues(), []

        def next_job():
            served = queues.serve()
            if served is None:
                return said.append("no job waits")
            plan = Plan(served[1])
            try:
                plan.extract()
                text = answer(plan)
            except Refused as refused:
                text = f"{refused.number:02x}"
            return said.append(f"{'chassis' if served[0] == Queue.CHASSIS else 'fixed unit'}: {text}")

        for name in ("st_intersects", "st_within", "region"):
            queues.put(Queue.CHASSIS, jobs[name])
        queues.put(Queue.FIXED_UNIT, jobs["st_knn"])
        for _ in range(3):
            next_job()
        queues.put(Queue.CHASSIS, jobs["st_knn"])
        queues.put(Queue.FIXED_UNIT, jobs["st_within"])
        for _ in range(4):
            next_job()
        self.assertEqual(said, lines("two-queues-answers.txt"))


if __name__ == "__main__":
    unittest.main()
