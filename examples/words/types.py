"""Types, as CAST and :: name them: words that a frame carries as a text."""

from .tokens import Tokens
from .tree import Mistake

# Words that may follow a type's first one.
FURTHER_WORDS = {"PRECISION", "VARYING", "WITH", "WITHOUT", "LOCAL", "TIME", "ZONE"}


def read_type(tokens):
    """A type from the tokens that stand next, its words with one blank between."""
    if tokens.peek().kind != "name":
        raise tokens.wrong("in the place of a type")
    words = tokens.take().text + further(tokens)
    if tokens.skip("("):
        sizes = [size(tokens)]
        while tokens.skip(","):
            sizes.append(size(tokens))
        tokens.expect(")")
        words += f"({', '.join(sizes)}){further(tokens)}"
    while tokens.skip("[ ]"):
        words += "[]"
    return words


def further(tokens):
    words = ""
    while tokens.word() in FURTHER_WORDS:
        words += " " + tokens.take().text
    return words


def size(tokens):
    if tokens.peek().kind not in ("name", "number"):
        raise tokens.wrong("in the place of a type's size")
    return tokens.take().text


def is_type(text):
    """Whether a text is a type as it would be read again."""
    try:
        tokens = Tokens(text)
        return read_type(tokens) == text and tokens.peek().kind == "end"
    except Mistake:
        return False
