"""A filter in words as a tree: operators by their levels. What stands between operators is read by operands.py."""

import re

from .operands import Operands
from .tables import (AND, AND_OPERATOR, ESCAPES, FURTHER, GTEQ, IN_WORDS, IS, LTEQ, MINUS, NOT_TAG, OPERATORS, OR, PREDICATE,
                     PRODUCT, SUM, TESTS)
from .literals import list_nodes
from .tree import Binary, Mistake, Other

# The operators of each level by their words.
BY_LEVEL = {level: {words: number for number, (words, of) in OPERATORS.items() if of == level}
            for level in (OR, AND, IS, PREDICATE, FURTHER, SUM, PRODUCT)}
BY_TEST = {words: tag for tag, words in TESTS.items()}
BY_ESCAPE = {words: tag for tag, words in ESCAPES.items()}
BY_IN = {words: tag for tag, words in IN_WORDS.items()}


class Filter(Operands):
    """One filter: the columns that may stand before a colon, and its expression."""

    def whole(self):
        self.columns_before()
        expression = self.expression()
        self.tokens.skip(";")
        if self.tokens.peek().kind != "end":
            raise self.tokens.wrong("after the filter's end")
        return expression

    def columns_before(self):
        """Takes the columns before a colon, if there is one; equal ones too."""
        if self.columns.records is None or not any(t.kind == "sign" and t.text == ":" for t in self.tokens.all):
            return
        records = []
        while True:
            self.columns.records = []
            self.column_alone()
            records += self.columns.records
            if not self.tokens.skip(","):
                break
        self.tokens.expect(":")
        self.columns.records = records

    def expression(self):
        return self.chain(OR)

    def operator(self, level):
        """Takes an operator of this level, if one stands here."""
        for words, number in BY_LEVEL[level].items():
            if self.tokens.skip(words):
                return number
        if level == PREDICATE and (numbered := re.fullmatch(r"OP(\d{1,3})", self.tokens.word() or "")) and int(numbered[1]) < 256:
            self.tokens.take()
            return int(numbered[1])
        return None

    def chain(self, level):
        """Operators of this level, from left to right."""
        below = {OR: lambda: self.chain(AND), AND: self.negation, SUM: lambda: self.chain(PRODUCT), PRODUCT: self.signed}[level]
        left = below()
        while (operator := self.operator(level)) is not None:
            left = Binary(operator, left, below())
        return left

    def negation(self):
        if self.tokens.skip("NOT"):
            return Other(NOT_TAG, [self.negation()])
        return self.test()

    def test(self):
        """What is asked with IS."""
        left = self.predicate()
        while self.tokens.stands("IS"):
            operator = self.operator(IS)
            if operator is not None:
                left = Binary(operator, left, self.operation())
                continue
            words = next((words for words in BY_TEST if self.tokens.skip(words)), None)
            if words is None:
                raise self.tokens.wrong(f"{self.tokens.peek(1).text}: no question with IS that is known")
            left = Other(BY_TEST[words], [left])
        return left

    def predicate(self):
        """A comparison at the most: SQL does not say which of two comes first."""
        left = self.operation()
        found = self.compared(left)
        if found is None:
            return left
        again = self.tokens.peek()
        if self.compared(found) is not None:
            raise self.tokens.wrong("after a comparison: parentheses have to say which comes first", again)
        return found

    def compared(self, left):
        """What is compared with the operand before it; nothing if no comparison stands here."""
        for words, tag in BY_IN.items():
            if self.tokens.skip(words):
                return Other(tag, [left] + list_nodes(self.items()))
        for words in ("BETWEEN", "NOT BETWEEN"):
            if self.tokens.skip(words):
                within = self.between(left)
                return within if words == "BETWEEN" else Other(NOT_TAG, [within])
        operator = self.operator(PREDICATE)
        if operator is None:
            return None
        right = self.operation()
        if self.tokens.stands("ESCAPE") and operator in OPERATORS and OPERATORS[operator][0] in BY_ESCAPE:
            self.tokens.take()
            return Other(BY_ESCAPE[OPERATORS[operator][0]], [left, right, self.operation()])
        return Binary(operator, left, right)

    def between(self, left):
        """x BETWEEN a AND b is x >= a AND x <= b: so SQL defines it."""
        low = self.operation()
        self.tokens.expect("AND")
        return Binary(AND_OPERATOR, Binary(GTEQ, left, low), Binary(LTEQ, left, self.operation()))

    def operation(self):
        """Sums and products; or further operators, of which engines differ in how they bind beside these and each other."""
        left = self.chain(SUM)
        first = None
        while (at := self.tokens.peek()) and (operator := self.operator(FURTHER)) is not None:
            right = self.chain(SUM)
            mixed = isinstance(right, Binary) or (isinstance(left, Binary) if first is None else operator != first)
            if mixed:
                raise self.tokens.wrong("beside another operator: parentheses have to say which comes first", at)
            left, first = Binary(operator, left, right), operator
        return left

    def signed(self):
        """A plus says nothing. A minus before a number is its sign, unless a type follows the number."""
        if self.tokens.skip("+"):
            return self.signed()
        if not self.tokens.stands("-"):
            return self.typed()
        minus = self.tokens.take()
        number = self.tokens.peek()
        if number.kind == "number" and self.tokens.word(1) != "::":
            self.tokens.take()
            return self.number_node("-" + number.text, minus.start)
        return Other(MINUS, [self.signed()])


def read(text, columns, fold=False):
    """The tree of a filter."""
    try:
        return Filter(text, columns, fold).whole()
    except RecursionError:
        raise Mistake("too deep to be read") from None
