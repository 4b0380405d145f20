"""A filter's text as words, each with its place."""

import re
from collections import namedtuple

from .tables import SAME_OPERATOR
from .tree import Mistake

Token = namedtuple("Token", "kind text start")

# A name, or several with dots between: a column of a table, a function.
PART = r'(?:[^\W\d]\w*|"(?:[^"]|"")+")'
TOKEN = re.compile(
    rf"""
    (?P<column>[LRMB]\d+\[\d+(?:,\ *\d+)?\]) |
    (?P<raw>@\d:[0-9a-f]{{16}}(?!\w)) |
    (?P<record>c\d+:\d+(?!\w)) |
    (?P<other>\#\d+) |
    (?P<number>(?:\d|\.\d)(?:[eE][+-](?=\d)|[\w.])*) |
    (?P<text>'(?:[^']|'')*') |
    (?P<name>{PART}(?:\.{PART})*) |
    (?P<comment>--|/\*) |
    (?P<sign>->>|<->|!~\*|<@(?!\d:)|->|@>|!~|~\*|&&|\|\||<<|>>|<=|>=|<>|!=|::|[<>=+\-*/%(),:;~&|^\[\]])
    """,
    re.VERBOSE,
)


def tokens(text):
    """All tokens of a text. Blanks between them say nothing."""
    found, at = [], 0
    text = text.rstrip()
    while at < len(text):
        if text[at].isspace():
            at += 1
            continue
        token = TOKEN.match(text, at)
        if not token:
            raise Mistake(unknown(text[at]), at)
        if token.lastgroup == "comment":
            raise Mistake(f"{token[0]}: comments are not read", at)
        found.append(Token(token.lastgroup, SAME_OPERATOR.get(token[0], token[0]), at))
        at = token.end()
    return found + [Token("end", "the end", len(text))]


def unknown(character):
    return {"'": "': a text without its end", '"': '": a name without its end'}.get(character, f"{character}: not understood here")


def parts(name):
    """The parts of a name with dots, as SQL reads them: small letters, unless in double quotes."""
    found = re.findall(PART, name)
    return tuple(unquoted(part) if part.startswith('"') else part.lower() for part in found)


def unquoted(part):
    return part[1:-1].replace('""', '"') if part.startswith('"') else part


def function_name(name):
    """A function's name as it stands in the frame: the letters as they are written."""
    return ".".join(unquoted(part) for part in re.findall(PART, name))


class Tokens:
    """The tokens of a filter, one after another."""

    def __init__(self, text):
        self.all = tokens(text)
        self.at = 0

    def peek(self, ahead=0):
        return self.all[min(self.at + ahead, len(self.all) - 1)]

    def take(self):
        token = self.peek()
        self.at += 1
        return token

    def word(self, ahead=0):
        """A plain word in capitals, or a sign; nothing for a name in quotes or with dots."""
        kind, text, _ = self.peek(ahead)
        if kind == "sign":
            return text
        return text.upper() if kind == "name" and re.fullmatch(r"\w+", text) else None

    def stands(self, words):
        """Whether these words stand here."""
        return all(self.word(ahead) == word for ahead, word in enumerate(words.split()))

    def skip(self, words):
        """Takes these words if they stand here, and says whether they did."""
        stood = self.stands(words)
        self.at += len(words.split()) if stood else 0
        return stood

    def expect(self, words):
        if not self.skip(words):
            raise self.wrong(f"in the place of {words}")

    def wrong(self, why, token=None):
        """The mistake of the token that stands here."""
        token = token or self.peek()
        return Mistake(f"{token.text} {why}", token.start)
