"""The join filter planner in Python, over its shared library.

    plan = spatialjoin.Plan(spatialjoin.encode("st_within(L0, R3) AND f(L1) < 5"))
    predicate = plan.extract()

  calls      a function for each call, on bytes and bytearrays
  plans      Plan and Queues, which keep their buffers; extract_all
  verdicts   explain, and why a conjunct is indexed or is not, by name and in words
  frames     frames built and plans read as objects
  filters    filters in the words of SQL, over spatialjoin.words
  numbers    limits and enumerations
  refusals   Refused
hosts/README.md of the repository says what a host sees to."""

from .calls import Settings, logical, print, version
from .filters import Mistake, Tables, encode, in_words, why_refused
from .frames import (Binary, Call, Column, Distance, Field, Frame, FrameError, Knn, Literal, LogicalFrame, Other, Record, Relation,
                     decode, decode_all)
from .library import LibraryError
from .numbers import Form, Kinds, Operator, Queue, RelationType, Side, Ties, Type
from .plans import Plan, Queues, extract_all
from .refusals import Refused
from .verdicts import Explained, Verdict, explain
from .version import VERSION

__version__ = VERSION
