"""A function for each call of the library, on bytes and bytearrays. A refused call raises Refused and has changed nothing.

Frames are bytes, bytearrays or memoryviews. Buffers that are written are bytearrays or writable memoryviews, and must not overlap. A
table is table(). docs/FRAMES.md has the bytes, include/spatialjoin.h what each call does."""

import array
import ctypes
from collections import namedtuple
from dataclasses import dataclass
from operator import index

from .library import C, Node, words
from .numbers import DEFAULT_K, GREATEST_K, MOST_NODES, MOST_TEXT, Kinds, Queue, Side
from .refusals import accepted
from .words.tables import NAMES

Extracted = namedtuple("Extracted", "length walk")
Served = namedtuple("Served", "queue length")
Logical = namedtuple("Logical", "mask names side")
AllExtracted = namedtuple("AllExtracted", "rounds data")
Explained = namedtuple("Explained", "line position data")


@dataclass(frozen=True)
class Settings:
    """What a site may have indexed: the kinds, the k of an st_knn that has none, and the greatest k. Without arguments the program's."""

    kinds: int = Kinds.ALL
    default_k: int = DEFAULT_K
    greatest_k: int = GREATEST_K

    def numbers(self):
        return fitting(self.kinds, 8, "kinds"), fitting(self.default_k, 32, "the default k"), fitting(self.greatest_k, 32, "the greatest k")


def fitting(number, bits, what):
    """A number that C takes as it is."""
    if not 0 <= index(number) < 2**bits:
        raise ValueError(f"{what}: {number} has not {bits} bits")
    return index(number)


def table(records=MOST_NODES):
    """A table of nodes, for load, merge and extract."""
    return (Node * records)()


def read(data):
    """Bytes that are only read, and their length."""
    data = bytes(data)
    return data, len(data)


def written(*buffers):
    """For each buffer that is written, its bytes as C takes them, and their length."""
    views = []
    for buffer in buffers:
        size = memoryview(buffer).nbytes
        views.append(((ctypes.c_ubyte * size).from_buffer(buffer) if size else None, size))
    places = sorted((ctypes.addressof(view), size) for view, size in views if size)
    if any(start + size > after for (start, size), (after, _) in zip(places, places[1:])):
        raise ValueError("two buffers of one call overlap")
    return [part for view in views for part in view]


def version():
    """The library's version, as 0.15.1."""
    return words(C.version())


def load(frame, plan, table):
    """Loads a frame as the new plan: its length."""
    return accepted(C.load(*read(frame), *written(plan), table, len(table)))


def extract(plan, n, scratch, table, settings=Settings()):
    """Pulls the spatial predicate out of the held filter: the new plan's length, and the walk."""
    plan, plan_len, scratch, scratch_len = written(plan, scratch)
    n = fitting(n, 63, "n")
    answer = accepted(C.extract(plan, plan_len, n, scratch, scratch_len, table, len(table), *settings.numbers()))
    return Extracted(answer % 65536, answer // 65536)


def exchange(plan, n, scratch):
    """Exchanges the join's children: the plan's length."""
    plan, plan_len, scratch, scratch_len = written(plan, scratch)
    return accepted(C.exchange(plan, plan_len, fitting(n, 63, "n"), scratch, scratch_len))


def merge(frame, plan, n, scratch, table):
    """Joins a frame's filter to the held one by And: the new plan's length."""
    plan, plan_len, scratch, scratch_len = written(plan, scratch)
    return accepted(C.merge(*read(frame), plan, plan_len, fitting(n, 63, "n"), scratch, scratch_len, table, len(table)))


def items(numbers):
    """A list of child indexes, as C takes it, and its length."""
    numbers = array.array("H", [fitting(number, 16, "a child index") for number in numbers])
    return (ctypes.c_uint16 * len(numbers)).from_buffer(numbers) if numbers else None, len(numbers)


def project(plan, n, scratch, left, right):
    """Has the held extraction follow its children, narrowed to these columns: the plan's length."""
    plan, plan_len, scratch, scratch_len = written(plan, scratch)
    return accepted(C.project(plan, plan_len, fitting(n, 63, "n"), scratch, scratch_len, *items(left), *items(right)))


def print(frame, most=MOST_TEXT):
    """A frame's filter as text, for a console, of at most so many characters."""
    text = bytearray(most)
    length = accepted(C.print(*read(frame), *written(text)))
    return text[:length].decode("ascii")


def logical(frame):
    """Mask, spatial names and query side of a logical frame."""
    answer = accepted(C.logical(*read(frame)))
    mask = answer // 65536
    return Logical(mask, tuple(name for bit, name in enumerate(NAMES) if mask >> bit & 1), Side(answer % 256))


def put(queues, queue, frame):
    """Adds a frame at the end of a queue: its length."""
    return accepted(C.put(*written(queues), fitting(queue, 8, "a queue"), *read(frame)))


def serve(queues, out):
    """Takes the frame that is due into the output: its queue and length, or None where both queues are empty."""
    answer = accepted(C.serve(*written(queues, out)))
    return Served(Queue(answer // 65536), answer % 65536) if answer else None


def extract_all(frame, settings=Settings(), most=None):
    """All indexable conjuncts of a frame and what is left: how many, and the bytes, at most so many. Since version 0.14.0; with a library
    that has no such call it raises NotImplementedError."""
    out = bytearray(len(bytes(frame)) if most is None else most)
    answer = accepted(C.extract_all(*read(frame), *written(out), *settings.numbers()))
    return AllExtracted(answer // 65536, bytes(out[: answer % 65536]))


def explain(frame, settings=Settings(), most=MOST_NODES):
    """Why each conjunct of a frame is indexed or is not: the first byte that its extraction would have and the position of the conjunct
    that would be taken, both 0 where nothing matches, and a byte for each conjunct, at most so many. Since version 0.15.0."""
    verdicts = bytearray(most)
    answer = accepted(C.explain(*read(frame), *written(verdicts), *settings.numbers()))
    return Explained(answer // 65536**2, answer // 65536 % 65536, bytes(verdicts[: answer % 65536]))
