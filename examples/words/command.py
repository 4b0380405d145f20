"""What the scripts share: options, the filters or lines that they are given, and mistakes with their places."""

import os
import sys

from .columns import Columns, Tables
from .faults import find
from .read import read
from .tree import Mistake, write_frame

# A filter may be deeper than the planner takes: that is the planner's to say.
sys.setrecursionlimit(10000)


class Options:
    """The words of a command line: flags and pairs, each once, then the inputs."""

    def __init__(self, usage, flags, pairs):
        self.script = os.path.basename(sys.argv[0])
        sys.stdin.reconfigure(encoding="utf-8", errors="surrogateescape")
        sys.stdout.reconfigure(encoding="utf-8", errors="backslashreplace")
        self.values = {}
        words = sys.argv[1:]
        while words and words[0].startswith("--"):
            name, equals, value = words.pop(0)[2:].partition("=")
            if name == "" and not equals:
                break
            if name == "help":
                sys.exit(print(usage))
            if name in flags and not equals:
                self.values[name] = True
            elif name in pairs and (equals or words):
                self.values[name] = value if equals else words.pop(0)
            else:
                self.fail(f"--{name}: " + ("its value is missing" if name in pairs else "not understood (--help says what is)"))
        self.inputs = words

    def fail(self, why):
        print(f"{self.script}: {why}", file=sys.stderr)
        sys.exit(2)

    def tables(self):
        """The names that a query has for the children and their columns."""
        given = [self.values.get(name) for name in ("left", "right", "columns")]
        try:
            return Tables(*given)
        except Mistake as mistake:
            return self.fail(str(mistake))

    def each(self):
        """Every input with its place: the arguments, or the lines of standard input."""
        if self.inputs:
            alone = len(self.inputs) == 1
            return (("" if alone else f"argument {at}, ", text) for at, text in enumerate(self.inputs, 1))
        return ((f"line {at}, ", line.rstrip("\n")) for at, line in enumerate(sys.stdin, 1))


def at_place(place, mistake):
    """A mistake with its place."""
    where = place if mistake.start is None else f"{place}character {mistake.start + 1}, "
    return (where[:-2] + ": " if where else "") + str(mistake)


def encoded(text, logical=False, tables=None, fold=False):
    """The frame of a filter in words, and the names of its columns."""
    columns = Columns(logical, tables)
    expression = read(text, columns, fold)
    try:
        return write_frame(columns.records, expression), columns.tables.words
    except RecursionError:
        raise Mistake("too deep to be written") from None


def run(main):
    """A script that nobody reads any more, or that is interrupted, ends without a word."""
    try:
        main()
    except BrokenPipeError:
        os.dup2(os.open(os.devnull, os.O_WRONLY), sys.stdout.fileno())
        sys.exit(1)
    except KeyboardInterrupt:
        sys.exit(130)


def refused(frame):
    """What the planner will say of a frame that it refuses, or nothing."""
    try:
        return find(frame)
    except RecursionError:
        return None
