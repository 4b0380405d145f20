"""The package's numbers are the header's and those of the words."""

import os
import re
import unittest

import spatialjoin
from common import EXAMPLES
from spatialjoin import Verdict, numbers
from spatialjoin.refusals import NAMES
from spatialjoin.words.tables import BYTES, CHILDREN, LEVELS, NAME_BYTES, NODES, RECORDS, REFUSALS, RELATIONS, TYPE_NAMES
from spatialjoin.words.verdicts import LINES, REASONS

with open(os.path.join(EXAMPLES, "..", "include", "spatialjoin.h"), encoding="utf-8") as file:
    HEADER = file.read()


class Header(unittest.TestCase):
    def test_refusals(self):
        self.assertEqual({int(number): name for name, number in re.findall(r"SPATIALJOIN_(\w+) = -(\d+)", HEADER)}, NAMES)
        self.assertEqual(set(NAMES), set(REFUSALS) - {14})

    def test_limits(self):
        said = dict(re.findall(r"#define SPATIALJOIN_(\w+) (\d+)u?\n", HEADER))
        for name in ("MOST_BYTES", "MOST_TEXT", "MOST_NODES", "MOST_ITEMS", "QUEUES_BYTES", "MOST_QUEUED", "MOST_WAITING", "DEFAULT_K",
                     "GREATEST_K", "STACK_BYTES"):
            self.assertEqual(getattr(numbers, name), int(said[name]), name)
        self.assertEqual((BYTES, NODES, LEVELS, RECORDS, CHILDREN, NAME_BYTES),
                         (numbers.MOST_BYTES, numbers.MOST_NODES, numbers.MOST_LEVELS, numbers.MOST_RECORDS, numbers.MOST_CHILDREN,
                          numbers.MOST_NAME))

    def test_names(self):
        self.assertEqual([each.name for each in numbers.RelationType], [name.upper().replace(" ", "_") for name in RELATIONS])
        self.assertEqual([each.name for each in numbers.Type], [name.upper() for name in TYPE_NAMES])
        for name, number in re.findall(r"SPATIALJOIN_(RELATIONS|DISTANCES|KNNS) = (\d)", HEADER):
            self.assertEqual(numbers.Kinds[name], int(number))
        for name, number in re.findall(r"SPATIALJOIN_(CHASSIS|FIXED_UNIT) = (\d)", HEADER):
            self.assertEqual(numbers.Queue[name], int(number))

    def test_verdicts(self):
        known = re.findall(r"SPATIALJOIN_(\w+) = 0x(\w\w)", HEADER.partition("enum spatialjoin_verdict {")[2].partition("};")[0])
        self.assertEqual([(each.name, int(each)) for each in Verdict], [(name, int(number, 16)) for name, number in known])
        self.assertEqual([int(each) for each in Verdict if each.kind], list(LINES))
        self.assertEqual([int(each) for each in Verdict if each.why], list(REASONS))

    def test_version(self):
        self.assertIn(f'#define SPATIALJOIN_VERSION "{spatialjoin.__version__}"\n', HEADER)


if __name__ == "__main__":
    unittest.main()
