"""What the library says of each conjunct, in words: why it is indexed or is not, and what to change. docs/PRICE-LIST.md has a filter
for each, before and after."""

# The first byte of an extraction, as the price list calls its line.
LINES = {0x11: "relation", 0x12: "distance", 0x13: "KNN"}

ONE_CHILD = "give it columns of one child only"
OTHER_CHILD = "give one of them columns of the {} child"
FLAG = "write TRUE or FALSE"

# Why not, and what to change.
REASONS = {
    0x20: ("its name is one that is looked for but for the case of its letters", "write it in small letters"),
    0x21: ("it asks for more than a distance: st_distance stands on the side that is not looked at",
           "ask for at most one, st_distance(..) <= d"),
    0x22: ("st_distance is beside an operator other than <, <=, > and >=", "add a conjunct with the greatest distance that it allows"),
    0x23: ("what could be indexed stands inside another expression", "make it a conjunct of its own, joined by AND"),
    0x24: ("it is no function and no comparison that could be indexed", "add a conjunct that is, or draw out what both sides of an OR have"),
    0x30: ("the settings leave its kind out", "ask by a kind that they allow, or have them allow this one"),
    0x40: ("an st_knn needs two geometries", "give it one of each child"),
    0x41: ("an st_knn has at most five arguments", "leave out those after the fifth"),
    0x50: ("its first geometry has no column", "give it a column of one child"),
    0x51: ("its first geometry has columns of both children", ONE_CHILD),
    0x52: ("its first geometry has a mark column", ONE_CHILD),
    0x53: ("its second geometry has no column", "give it a column of one child"),
    0x54: ("its second geometry has columns of both children", ONE_CHILD),
    0x55: ("its second geometry has a mark column", ONE_CHILD),
    0x56: ("both geometries are of the left child", OTHER_CHILD.format("right")),
    0x57: ("both geometries are of the right child", OTHER_CHILD.format("left")),
    0x60: ("its bound has columns of both children", "give it columns of one child, or none"),
    0x61: ("its bound has a mark column", "give it columns of one child, or none"),
    0x70: ("its k is no whole-number literal", "write a whole number of at least 1"),
    0x71: ("its k is below 1", "write a whole number of at least 1"),
    0x72: ("its k is above the greatest k", "write a smaller one"),
    0x73: ("its fourth argument is no Boolean literal", FLAG),
    0x74: ("its fifth argument is no Boolean literal", FLAG),
}

EXCHANGED = {0x56: 0x57, 0x57: 0x56}

AGREE = ("chassis and fixed unit: the same verdicts, left and right exchanged (theorem verdicts-exchanged), and the same line by the same"
         " conjunct (theorem machines-agree)")


class Explained:
    """A frame's line, the conjunct that sets it, and the verdicts, as the host writes them; or the refusal's number."""

    def __init__(self, line):
        words, _, verdicts = line.partition(": ")
        self.refusal = int(verdicts) if words == "refused" else 0
        self.line = self.taken = None
        self.verdicts = []
        if not self.refusal:
            line, position = words.split(", ")
            self.line = int(line.split()[1], 16)
            self.taken = int(position.split()[1])
            self.verdicts = [int(verdict, 16) for verdict in verdicts.split()]

    def exchanged(self):
        """What the other machine has to say."""
        return self.refusal, self.line, self.taken, [EXCHANGED.get(verdict, verdict) for verdict in self.verdicts]

    def is_taken(self, position):
        return self.line != 0 and position == self.taken

    def verdict(self, position):
        """Of the conjunct at this position."""
        said = self.verdicts[position]
        if said in REASONS:
            return "not indexed ({:02x}): {}; {}".format(said, *REASONS[said])
        if self.is_taken(position):
            return f"indexed, {LINES[said]} ({said:02x})"
        why = "a KNN goes first" if (self.line, said) in ((0x13, 0x11), (0x13, 0x12)) else "it is the first"
        return f"could be indexed, {LINES[said]} ({said:02x}), but conjunct {self.taken} is: {why}"

    def price_line(self):
        if self.line == 0:
            return "price line: filtered"
        return f"price line: indexed, {LINES[self.line]}, by conjunct {self.taken}"
