"""Why each conjunct of a frame is indexed or is not."""

from dataclasses import dataclass
from enum import IntEnum
from typing import Optional, Tuple

from . import calls
from .calls import Settings
from .plans import bytes_of
from .words.verdicts import LINES, REASONS


class Verdict(IntEnum):
    """Of a conjunct: that it matches, and as what, or the first reason in this order why it does not. The names are the header's."""

    AS_RELATION, AS_DISTANCE, AS_KNN = 0x11, 0x12, 0x13
    OTHER_CASE, OTHER_SIDE, OTHER_OPERATOR, INSIDE_ANOTHER, NOTHING_OF_OURS = range(0x20, 0x25)
    KIND_LEFT_OUT = 0x30
    FEWER_ARGUMENTS, MORE_ARGUMENTS = 0x40, 0x41
    FIRST_WITHOUT_COLUMNS, FIRST_OF_BOTH, FIRST_WITH_MARK = 0x50, 0x51, 0x52
    SECOND_WITHOUT_COLUMNS, SECOND_OF_BOTH, SECOND_WITH_MARK = 0x53, 0x54, 0x55
    BOTH_LEFT, BOTH_RIGHT = 0x56, 0x57
    BOUND_OF_BOTH, BOUND_WITH_MARK = 0x60, 0x61
    K_NO_NUMBER, K_BELOW_ONE, K_ABOVE_GREATEST = 0x70, 0x71, 0x72
    SPHEROID_NO_FLAG, TIES_NO_FLAG = 0x73, 0x74

    @property
    def kind(self):
        """What the conjunct can be indexed by, as an extraction's kind; None of a reason."""
        return LINES.get(int(self))

    @property
    def why(self):
        """The reason in words; None of a match."""
        return REASONS[int(self)][0] if self.kind is None else None

    @property
    def change(self):
        """What to change to have it indexed; None of a match."""
        return REASONS[int(self)][1] if self.kind is None else None

    def __str__(self):
        said = f"matches, {self.kind}" if self.kind else f"{self.why}; {self.change}"
        return f"{self.name} ({int(self):02x}): {said}"


@dataclass(frozen=True)
class Explained:
    """The line of a frame, as an extraction's kind, and the position of the conjunct that sets it, both None where nothing matches; and a
    verdict of each conjunct."""

    line: Optional[str]
    taken: Optional[int]
    verdicts: Tuple[Verdict, ...]


def explain(frame, settings=Settings()):
    """Why each conjunct of a frame, bytes or a Frame, is indexed or is not. Since version 0.15.0."""
    line, position, data = calls.explain(bytes_of(frame), settings)
    return Explained(LINES.get(line), position if line else None, tuple(Verdict(byte) for byte in data))
