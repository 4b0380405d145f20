"""Numbers and texts as nodes, and back."""

import re
import struct
from decimal import Decimal

from .tables import BOOLEAN, CHILDREN, DOUBLE, LIST, NULL, NUMBER_TYPES, RANGES, TEXT, TYPE_NAMES
from .tree import Literal, Mistake, Other

WORDS = {"NULL": Literal(NULL, 0), "FALSE": Literal(BOOLEAN, 0), "TRUE": Literal(BOOLEAN, 1)}
SUFFIXES = {number: suffix for suffix, number in NUMBER_TYPES.items()}


def number(text):
    """A whole number has the type behind it, or Int64 if it fits, or UInt64; any other is a double, of type other."""
    whole = re.fullmatch(r"(-?\d+)(i32|i64|u32|u64)?", text, re.ASCII)
    if whole:
        value = int(whole[1])
        kind = NUMBER_TYPES[whole[2]] if whole[2] else 3 if value <= RANGES[3][1] else 5
        least, most = RANGES[kind]
        if not least <= value <= most:
            limits = f"{least:,} to {most:,}" if whole[2] or value < 0 else f"at most {most:,}"
            raise Mistake(f"{text}: {TYPE_NAMES[kind]} is from {limits}".replace("from at", "at"))
        return Literal(kind, value % 2**64)
    if not re.fullmatch(r"-?(?:\d+\.?\d*|\.\d+)(?:[eE][+-]?\d+)?", text, re.ASCII):
        raise Mistake(f"{text}: not a number")
    return double(text)


def double(text):
    """Refused where the number is another than the double would be shown as."""
    value = float(text)
    if value in (float("inf"), float("-inf")) or Decimal(text) != Decimal(repr(value)):
        raise Mistake(f"{text}: no double has this value; the nearest is {value!r}")
    return Literal(DOUBLE, int.from_bytes(struct.pack(">d", value), "big"))


def literal_words(literal):
    """The literal as it is written; by its type and digits where it has no words."""
    for word, known in WORDS.items():
        if literal == known:
            return word
    if literal.type in SUFFIXES:
        signed = literal.value - 2**64 if literal.type in (2, 3) and literal.value >= 2**63 else literal.value
        least, most = RANGES[literal.type]
        if least <= signed <= most:
            plain = literal.type == 3 or (literal.type == 5 and signed >= 2**63)
            return f"{signed}" + ("" if plain else SUFFIXES[literal.type])
    if literal.type == DOUBLE:
        value = struct.unpack(">d", literal.value.to_bytes(8, "big"))[0]
        exponent = literal.value >> 52 & 0x7FF
        if 0 < exponent < 0x7FF or value == 0:
            return repr(value)
    return digits(literal)


def digits(literal):
    return f"@{literal.type}:{literal.value:016x}"


def text_node(text):
    """A text: its bytes, eight to a literal of type other, zeros after the last; sixteen of these to a node, and so on."""
    try:
        data = text.encode()
    except UnicodeEncodeError:
        raise Mistake("a text that is no UTF-8") from None
    if b"\0" in data:
        raise Mistake("a text with a zero byte")
    pieces = [Literal(DOUBLE, int.from_bytes(data[at : at + 8].ljust(8, b"\0"), "big")) for at in range(0, len(data), 8)]
    return Other(TEXT, grouped(pieces, CHILDREN, TEXT))


def grouped(nodes, most, tag):
    """At most this many nodes: where there are more, sixteen at a time become one."""
    while len(nodes) > most:
        nodes = [Other(tag, nodes[at : at + CHILDREN]) for at in range(0, len(nodes), CHILDREN)]
    return nodes


def flat(nodes, tag):
    """The nodes again, out of their groups."""
    return [inner for node in nodes for inner in (flat(node.children, tag) if isinstance(node, Other) and node.tag == tag else [node])]


def text_of(node):
    """The text that a node is; nothing if it is none, or none that a line can show."""
    if not isinstance(node, Other) or node.tag != TEXT:
        return None
    pieces = flat(node.children, TEXT)
    if not all(isinstance(piece, Literal) for piece in pieces):
        return None
    try:
        text = b"".join(piece.value.to_bytes(8, "big") for piece in pieces).rstrip(b"\0").decode()
    except UnicodeDecodeError:
        return None
    return text if "\0" not in text and text.isprintable() and text_node(text) == node else None


def list_nodes(items):
    """The items of an IN beside its operand."""
    return grouped(items, CHILDREN - 1, LIST)


def list_items(nodes):
    """They again; nothing if this is not how they are grouped."""
    items = flat(nodes, LIST)
    return items if items and list_nodes(items) == nodes else None


def quoted(text):
    return "'" + text.replace("'", "''") + "'"
