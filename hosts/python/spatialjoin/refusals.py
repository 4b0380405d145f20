"""Refusals as exceptions."""

from .words.tables import REFUSALS

# The header's names, by number. 14 is no call's, but of the program's lines.
NAMES = {
    1: "FRAME_LENGTH", 2: "FIRST_BYTE", 3: "FRAME_ENDS", 4: "OUT_OF_RANGE", 5: "TOO_LARGE", 6: "NO_SUCH_COLUMN", 7: "BYTES_AFTER",
    8: "TOO_FEW_ARGUMENTS", 9: "TOO_SHORT", 10: "NO_GOOD_PLAN", 11: "PLAN_EMPTY", 12: "ALREADY_EXTRACTED", 13: "NO_MATCH",
    15: "TEXT_TOO_SHORT", 16: "MERGED_TOO_LARGE", 17: "TABLE_TOO_SHORT", 18: "NOT_EXTRACTED", 19: "LIST_TOO_LONG",
    20: "NOT_IN_LIST", 21: "NO_SUCH_QUEUE", 22: "QUEUED_TOO_LONG", 23: "QUEUE_FULL", 24: "BAD_SETTINGS",
}


class Refused(Exception):
    """A call was refused, and changed nothing. `number` is the refusal's, `name` its name in the header, and `walk` what an extract that
    is refused with 13 has read (0 with every other)."""

    def __init__(self, number, walk=0):
        super().__init__(number, walk)
        self.number = number
        self.name = NAMES.get(number, "UNKNOWN")
        self.walk = walk

    def __str__(self):
        return f"refusal {self.number} ({self.name}): {REFUSALS.get(self.number, 'not known to this package')}"


def accepted(answer):
    """An answer that is no refusal."""
    if answer < 0:
        raise Refused(-answer % 256, -answer // 256)
    return answer
