"""The operands of a filter in words: columns, literals, functions, and what stands in parentheses."""

import re

from .literals import WORDS, number, text_node
from .tables import CASE, CASE_OF, CASTS, ELSE, RESERVED, TYPED_TEXTS, WHEN
from .tokens import Tokens, function_name
from .tree import Function, Group, Literal, Mistake, Other
from .types import read_type

BY_CAST = {words: tag for tag, words in CASTS.items()}
BY_TYPED_TEXT = {words: tag for tag, words in TYPED_TEXTS.items()}


class Operands:
    """The tokens of one filter, read from left to right, and its columns."""

    def __init__(self, text, columns, fold=False):
        self.tokens = Tokens(text)
        self.columns = columns
        self.fold = fold

    def placed(self, make, token):
        """What is made of a token; a mistake in it is at its place."""
        try:
            return make(token.text)
        except Mistake as mistake:
            raise Mistake(str(mistake), token.start if mistake.start is None else mistake.start) from None

    def number_node(self, text, start):
        return self.placed(lambda _: number(text), self.tokens.peek()._replace(start=start))

    def typed(self):
        """An operand, and the types behind it."""
        operand = self.operand()
        while self.tokens.skip("::"):
            operand = Other(BY_CAST["CAST"], [operand, text_node(read_type(self.tokens))])
        return operand

    def operand(self):
        token = self.tokens.peek()
        if self.tokens.skip("("):
            inner = self.expression()
            self.tokens.expect(")")
            return Group(inner)
        if token.kind == "name":
            return self.name_operand(token)
        if token.kind == "other":
            return self.other(self.tokens.take())
        make = getattr(self, f"make_{token.kind}", None)
        if make is None:
            raise self.tokens.wrong("in the place of an operand")
        self.tokens.take()
        return self.placed(make, token)

    def name_operand(self, token):
        """A word: a literal, one of SQL's own forms, a function or a column."""
        word = self.tokens.word()
        if word in WORDS:
            self.tokens.take()
            return WORDS[word]
        if word in BY_TYPED_TEXT and self.tokens.peek(1).kind == "text":
            self.tokens.take()
            return Other(BY_TYPED_TEXT[word], [self.placed(self.make_text, self.tokens.take())])
        if word in BY_CAST:
            return self.cast(BY_CAST[word])
        if word == "CASE":
            return self.case(self.tokens.take())
        if word in RESERVED:
            raise self.tokens.wrong("in the place of an operand")
        if self.tokens.word(1) == "(":
            return self.function(self.tokens.take())
        return self.column_alone()

    def column_alone(self):
        """A column, by its letter or by its name."""
        token = self.tokens.peek()
        lettered = token.kind == "column" or (token.kind == "name" and re.fullmatch(r"[LRMB]\d+", token.text))
        if token.kind != "name" and not lettered:
            raise self.tokens.wrong("in the place of a column")
        self.tokens.take()
        return self.placed(self.columns.lettered if lettered else self.columns.named, token)

    def make_column(self, text):
        return self.columns.lettered(text)

    def make_record(self, text):
        return self.columns.by_record(text)

    def make_raw(self, text):
        return Literal(int(text[1]), int(text[3:], 16))

    def make_number(self, text):
        return number(text)

    def make_text(self, text):
        return text_node(text[1:-1].replace("''", "'"))

    def other(self, token):
        tag = int(token.text[1:])
        if tag > 65535:
            raise self.tokens.wrong("is no tag: at most 65,535", token)
        return Other(tag, self.few(self.arguments(), token))

    def function(self, token):
        name = function_name(token.text)
        if self.fold and '"' not in token.text:
            name = name.lower()
        if not all(33 <= ord(character) <= 126 for character in name) or len(name) > 255:
            raise self.tokens.wrong("is no function's name: characters from ! to ~, and at most 32", token)
        return Function(name, self.few(self.arguments(), token))

    def few(self, children, token):
        """The planner takes sixteen at the most, and a frame can say at most 255."""
        if len(children) > 255:
            raise self.tokens.wrong(f"has {len(children)} arguments or branches, and a frame at most 255 of one node", token)
        return children

    def arguments(self):
        """What stands in parentheses, with commas between; perhaps nothing."""
        if self.tokens.word(1) == ")" and self.tokens.stands("("):
            self.tokens.expect("( )")
            return []
        return self.items()

    def items(self):
        """At least one."""
        self.tokens.expect("(")
        items = [self.expression()]
        while self.tokens.skip(","):
            items.append(self.expression())
        self.tokens.expect(")")
        return items

    def cast(self, tag):
        self.tokens.take()
        self.tokens.expect("(")
        operand = self.expression()
        self.tokens.expect("AS")
        words = read_type(self.tokens)
        self.tokens.expect(")")
        return Other(tag, [operand, text_node(words)])

    def case(self, token):
        """CASE, with an operand or without; a node for each WHEN, and one for ELSE."""
        operand = [] if self.tokens.stands("WHEN") else [self.expression()]
        branches = []
        self.tokens.expect("WHEN")
        while not branches or self.tokens.skip("WHEN"):
            condition = self.expression()
            self.tokens.expect("THEN")
            branches.append(Other(WHEN, [condition, self.expression()]))
        if self.tokens.skip("ELSE"):
            branches.append(Other(ELSE, [self.expression()]))
        self.tokens.expect("END")
        return Other(CASE_OF if operand else CASE, self.few(operand + branches, token))
