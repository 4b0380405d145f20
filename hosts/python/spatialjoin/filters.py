"""Filters in the words of SQL into frames, and frames and plans into words, by the words of examples/."""

from .plans import bytes_of
from .words.answers import Extraction
from .words.columns import Columns, Tables
from .words.faults import find
from .words.read import read
from .words.show import filter_words
from .words.tree import Mistake, write_frame

__all__ = ["Mistake", "Tables", "encode", "in_words", "why_refused"]


def encode(text, logical=False, tables=None, fold=False):
    """The frame of a filter in words; raises Mistake where it is not understood. Tables say the names of children and columns."""
    columns = Columns(logical, tables)
    try:
        expression = read(text, columns, fold)
        return write_frame(columns.records, expression)
    except RecursionError:
        raise Mistake("too deep to be read") from None


def in_words(plan, words=None):
    """A frame, an extraction or its bytes in words; `words` are those of the Tables."""
    data = bytes_of(plan)
    return filter_words(data, words) if data[:1] in (b"\1", b"\2") else Extraction(data, words).whole()


def why_refused(frame):
    """Number and words of the refusal that load would give, with the field, limit or conjunct; None of a good frame."""
    return find(bytes_of(frame))
