"""A plan with its buffers, and two queues with theirs."""

from . import calls, frames
from .calls import Settings
from .numbers import MOST_BYTES, MOST_NODES, MOST_QUEUED, QUEUES_BYTES
from .refusals import Refused


def bytes_of(frame):
    """A frame's bytes, of an object too."""
    return frame.encode() if hasattr(frame, "encode") else frame


class Plan:
    """A held plan: it keeps the plan buffer, its length, the scratch and the table of nodes, which are always long enough. `settings` go
    with every extract. A refused call raises Refused, and the plan is what it was. One thread at a time."""

    def __init__(self, frame=None, settings=Settings()):
        self.buffer, self.scratch = bytearray(MOST_BYTES), bytearray(MOST_BYTES)
        self.table = calls.table(MOST_NODES)
        self.n = 0
        self.settings = settings
        # The planning effort: the walks of all extracts, those refused with 13 too.
        self.effort = 0
        if frame is not None:
            self.load(frame)

    def __bytes__(self):
        return bytes(self.buffer[: self.n])

    def __len__(self):
        return self.n

    def __bool__(self):
        return self.n > 0

    @property
    def value(self):
        """The plan as an object: a Frame, a Relation, a Distance or a Knn; None where there is none."""
        return frames.decode(bytes(self))

    def load(self, frame):
        """Holds a frame: bytes, or a Frame."""
        self.n = calls.load(bytes_of(frame), self.buffer, self.table)
        return self

    def extract(self):
        """Pulls the spatial predicate out of the filter, and gives it: a Relation, a Distance or a Knn."""
        try:
            extracted = calls.extract(self.buffer, self.n, self.scratch, self.table, self.settings)
        except Refused as refused:
            self.effort += refused.walk
            raise
        self.n = extracted.length
        self.effort += extracted.walk
        return self.value

    def exchange(self):
        """Exchanges the join's children."""
        self.n = calls.exchange(self.buffer, self.n, self.scratch)
        return self

    def merge(self, frame):
        """Joins a frame's filter to the held one by And: a row policy, for one."""
        self.n = calls.merge(bytes_of(frame), self.buffer, self.n, self.scratch, self.table)
        return self

    def project(self, left, right):
        """Has the extraction follow its children, narrowed to these columns, in their new order by their old indexes."""
        self.n = calls.project(self.buffer, self.n, self.scratch, left, right)
        return self

    def print(self):
        """The held frame's filter as text."""
        return calls.print(bytes(self))


class Queues:
    """Jobs of two machines that wait for one planner."""

    def __init__(self):
        self.buffer = bytearray(QUEUES_BYTES)

    def put(self, queue, frame):
        """Adds a frame, bytes or an object, at the end of a queue."""
        return calls.put(self.buffer, queue, bytes_of(frame))

    def serve(self):
        """The frame that is due, with its queue: (queue, bytes); None where both queues are empty."""
        out = bytearray(MOST_QUEUED)
        served = calls.serve(self.buffer, out)
        return served and (served.queue, bytes(out[: served.length]))


def extract_all(frame, settings=Settings()):
    """All indexable conjuncts of a frame, bytes or a Frame: the predicates, and the remainder, a Frame or None. Since version 0.14.0."""
    extracted = calls.extract_all(bytes_of(frame), settings)
    return frames.decode_all(extracted.data, extracted.rounds)
