"""Why conjuncts are indexed or are not: the price list's filters, by name and in words, and beside what extract takes."""

import os
import random
import unittest

import spatialjoin
from common import EXAMPLES, LEFT, RIGHT, framed, refusal
from spatialjoin import Binary, Call, Explained, Kinds, Literal, Other, Plan, Record, Settings, Side, Verdict, explain


def price_list():
    """The rows of docs/PRICE-LIST.md that have a filter for each reason: their cells."""
    with open(os.path.join(EXAMPLES, "..", "docs", "PRICE-LIST.md"), encoding="utf-8") as file:
        section = file.read().partition("\n## To get an indexed line\n")[2].partition("\n## ")[0]
    return [[cell.strip().strip("`") for cell in line.strip("|").split("|")] for line in section.splitlines() if line.startswith("| `")]


class Verdicts(unittest.TestCase):
    def test_price_list(self):
        """A filter for each reason, before and after."""
        rows = price_list()
        self.assertEqual([int(row[1], 16) for row in rows], [int(each) for each in Verdict if each.why])
        for before, reason, _, given, after, line, _ in rows:
            settings = Settings() if given == "default" else Settings(*map(int, given.split(",")))
            said = explain(spatialjoin.encode(before), settings)
            self.assertEqual((said.line, said.taken, {f"{int(verdict):02x}" for verdict in said.verdicts}), (None, None, {reason}), before)
            said = explain(spatialjoin.encode(after), settings)
            self.assertEqual(f"indexed, {said.line}", line, after)
            self.assertEqual(said.verdicts[said.taken].kind, said.line)

    def test_objects(self):
        within, nearest = Call("st_within", [LEFT, RIGHT]), Call("st_knn", [LEFT, RIGHT, Literal.of(5)])
        frame = framed(within & Binary(5, LEFT, within) & nearest & Other(7))
        said = Explained("KNN", 2, (Verdict.AS_RELATION, Verdict.INSIDE_ANOTHER, Verdict.AS_KNN, Verdict.NOTHING_OF_OURS))
        self.assertEqual(explain(frame), said)
        self.assertEqual(explain(frame.encode()), said)
        said = explain(frame, Settings(Kinds.DISTANCES | Kinds.KNNS, 1, 4))
        self.assertEqual((said.line, said.taken), (None, None))
        self.assertEqual(said.verdicts[::2], (Verdict.KIND_LEFT_OUT, Verdict.K_ABOVE_GREATEST))
        self.assertEqual(refusal(explain, b""), 1)

    def test_words(self):
        """Each has a kind, or a reason and what to change."""
        for verdict in Verdict:
            self.assertEqual(verdict.why is None, verdict.change is None)
            self.assertEqual(verdict.why is None, verdict.kind is not None)
            self.assertRegex(str(verdict), rf"^{verdict.name} \({int(verdict):02x}\): [a-z]")
        self.assertEqual(str(Verdict.AS_KNN), "AS_KNN (13): matches, KNN")
        self.assertEqual((Verdict.OTHER_CASE.kind, Verdict.OTHER_CASE.change), (None, "write it in small letters"))
        self.assertRaises(ValueError, Verdict, 0x14)

    def test_beside_extract(self):
        """Filters by chance: line and position are those of the extraction, and each conjunct alone says the same."""
        chance = random.Random(5)
        texts = ["st_within(L0, R3)", "st_knn(L0, R0)", "st_knn(R1, L2, 0)", "f(L1) < 5", "st_distance(L0, R0) < L4", "st_touches(L0, L1)",
                 "5 > ST_Distance(L0, R0)", "st_distance(L0, R0) > 5", "st_within(L0, R0) OR L1 = 3", "st_dwithin(L0, R0, L1 + R1)"]
        for _ in range(200):
            chosen = chance.choices(texts, k=chance.randrange(1, 9))
            frame = spatialjoin.encode(" AND ".join(f"({text})" for text in chosen))
            said = explain(frame)
            self.assertEqual(said.verdicts, sum((explain(spatialjoin.encode(text)).verdicts for text in chosen), ()))
            plan = Plan(frame)
            if said.line is None:
                self.assertEqual(refusal(plan.extract), (13, 2 * len(chosen) - 1))
            else:
                taken = plan.extract()
                self.assertEqual((taken.kind, taken.position), (said.line, said.taken))

    def test_exchanged(self):
        """The other machine's frame: the same, but for the verdicts that name a child."""
        turned = {Verdict.BOTH_LEFT: Verdict.BOTH_RIGHT, Verdict.BOTH_RIGHT: Verdict.BOTH_LEFT}
        sides = {Side.LEFT: Side.RIGHT, Side.RIGHT: Side.LEFT, Side.NEITHER: Side.NEITHER}
        for row in price_list():
            frame = spatialjoin.decode(spatialjoin.encode(f"st_touches(L0, L1) AND {row[4]} AND ({row[0]}) AND st_touches(R0, R1)"))
            other = type(frame)([Record(sides[each.side], each.child, each.tag) for each in frame.records], frame.filter)
            said = explain(frame)
            expected = Explained(said.line, said.taken, tuple(turned.get(verdict, verdict) for verdict in said.verdicts))
            self.assertEqual(explain(other), expected)


if __name__ == "__main__":
    unittest.main()
