"""Trees in words, as read.py reads them. What has no words of its own is shown by its numbers."""

import re

from .columns import Shown
from .literals import digits, list_items, literal_words, quoted, text_of
from .tables import (CASE, CASE_OF, CASTS, ELSE, ESCAPES, FURTHER, IN_WORDS, IS, MINUS, NOT, NOT_TAG, OPERAND, OR,
                     PREDICATE, RESERVED, SIGN, TESTS, TEXT, TYPED_TEXTS, WHEN, operator_words)
from .tree import Binary, Bytes, Column, Field, Function, Literal, Mistake, Other
from .types import is_type


class Words:
    """Expressions over the columns of one frame or of one child."""

    def __init__(self, columns):
        self.columns = columns

    def of(self, node, least=OR):
        """In words; in parentheses if it binds less tightly than the least level."""
        text, level = self.shown(node)
        return text if level >= least else f"({text})"

    def all(self, nodes):
        return ", ".join(self.of(node) for node in nodes)

    def shown(self, node):
        """The words and their level."""
        if isinstance(node, (Column, Field)):
            return self.columns.column(node), OPERAND
        if isinstance(node, Literal):
            return literal_words(node), OPERAND
        if isinstance(node, Binary):
            return self.binary(node)
        if isinstance(node, Function):
            return f"{written_name(node.name)}({self.all(node.arguments)})", OPERAND
        return self.known(node) or (self.numbered(node), OPERAND)

    def numbered(self, node):
        """By its tag; what is in a text by its digits."""
        shown = [digits(child) if node.tag == TEXT and isinstance(child, Literal) else self.of(child) for child in node.children]
        return f"#{node.tag}({', '.join(shown)})"

    def binary(self, node):
        words, level = operator_words(node.operator)
        left, right = level, level + 1
        if level == PREDICATE:
            left = right
        if level == IS:
            right = FURTHER
        if level == FURTHER:
            chained = isinstance(node.left, Binary) and node.left.operator == node.operator
            left, right = FURTHER if chained else SIGN, SIGN
        return f"{self.of(node.left, left)} {words} {self.of(node.right, right)}", level

    def known(self, node):
        """A node of kind other whose tag and children are of our table; else nothing."""
        text = text_of(node)
        if text is not None:
            return quoted(text), OPERAND
        tag, count = node.tag, len(node.children)
        if tag == NOT_TAG and count == 1:
            return f"NOT {self.of(node.children[0], NOT)}", NOT
        if tag == MINUS and count == 1:
            return self.minus(node.children[0]), SIGN
        if tag in TESTS and count == 1:
            return f"{self.of(node.children[0], IS)} {TESTS[tag]}", IS
        if tag in IN_WORDS and count > 1:
            return self.member(node)
        if tag in ESCAPES and count == 3:
            value, pattern, escape = [self.of(child, FURTHER) for child in node.children]
            return f"{value} {ESCAPES[tag]} {pattern} ESCAPE {escape}", PREDICATE
        if tag in CASTS and count == 2:
            return self.cast(node)
        if tag in TYPED_TEXTS and count == 1:
            text = text_of(node.children[0])
            return None if text is None else (f"{TYPED_TEXTS[tag]} {quoted(text)}", OPERAND)
        return self.case(node) if tag in (CASE, CASE_OF) else None

    def minus(self, child):
        """Before a number it would be the number's sign, before another minus a comment."""
        plain = not isinstance(child, Literal) and not (isinstance(child, Other) and child.tag == MINUS)
        return f"-{self.of(child, SIGN)}" if plain else f"-({self.of(child)})"

    def member(self, node):
        items = list_items(node.children[1:])
        if items is None:
            return None
        return f"{self.of(node.children[0], FURTHER)} {IN_WORDS[node.tag]} ({self.all(items)})", PREDICATE

    def cast(self, node):
        words = text_of(node.children[1])
        if words is None or not is_type(words):
            return None
        return f"{CASTS[node.tag]}({self.of(node.children[0])} AS {words})", OPERAND

    def case(self, node):
        """CASE with at least one WHEN, and ELSE last if at all."""
        operand, branches = (node.children[:1], node.children[1:]) if node.tag == CASE_OF else ([], node.children)
        whens = [branch for branch in branches if is_other(branch, WHEN, 2)]
        last = branches[len(whens) :]
        if not whens or len(last) > 1 or (last and not is_other(last[0], ELSE, 1)):
            return None
        words = ["CASE"] + [self.of(node) for node in operand]
        words += [f"WHEN {self.of(when.children[0])} THEN {self.of(when.children[1])}" for when in whens]
        words += [f"ELSE {self.of(node.children[0])}" for node in last]
        return " ".join(words + ["END"]), OPERAND


def is_other(node, tag, count):
    return isinstance(node, Other) and node.tag == tag and len(node.children) == count


def written_name(name):
    if not all(33 <= ord(character) <= 126 for character in name) or not name:
        raise Mistake("a name with a character that names have not")
    if re.fullmatch(r"[A-Za-z_]\w*(?:\.[A-Za-z_]\w*)*", name, re.ASCII) and name.upper() not in RESERVED:
        return name
    return '"' + name.replace('"', '""') + '"'


def frame_words(data, words=None):
    """A physical frame's filter; its columns before it if they are others than those that encode would give it."""
    shown = Shown(data.records(), words)
    filter_words = Words(shown).of(data.expression())
    return shown.before() + filter_words


def logical_words(data, words=None):
    return Words(Shown(None, words)).of(data.expression())


def filter_words(line, words=None):
    """The filter of a frame, physical or logical."""
    data = Bytes(line)
    first = data.number(1)
    if first not in (1, 2):
        raise Mistake("wrong first byte")
    shown = frame_words(data, words) if first == 1 else logical_words(data, words)
    data.end()
    return shown
