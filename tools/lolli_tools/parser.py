"""Reads programs and queries that `lolli` has passed."""
from .command import FAULTY, Ended
from .lexer import tokens_of
from .syntax import Clause, Module, Node, Program, Query, variables_in

BINARY = (";", "&", ",")
PLAIN = ("name", "variable", "any", "number")


class Parser:
    """Reads one text, from its first token on. Each `_` gets a name of its own, which no text can spell."""

    def __init__(self, name, text):
        self.tokens = tokens_of(name, text)
        self.at = 0
        self.unnamed = 0

    @property
    def token(self):
        return self.tokens[self.at]

    def sees(self, *texts):
        """Whether the next token is one of these signs or keywords."""
        return self.token.text in texts and self.token.kind in ("sign", "keyword")

    def take(self):
        self.at += 1
        return self.tokens[self.at - 1]

    def expect(self, *kinds_or_texts):
        if self.token.kind not in kinds_or_texts and not self.sees(*kinds_or_texts):
            self.refuse()
        return self.take()

    def refuse(self):
        raise Ended(FAULTY, f"{self.token.place} has an unexpected token")

    def formula(self):
        formula = self.arrow()
        while self.sees(":-", "<="):
            token = self.take()
            formula = Node(token.text, "", (formula, self.arrow()), token)
        return formula

    def arrow(self):
        """A chain of arrows and loads that leans to the right."""
        before = []
        while True:
            left = self.binary(0)
            if self.sees("-o", "=>"):
                before.append((self.take(), left))
            elif left.kind == "atom" and self.sees("-->"):
                before.append((self.take(), left))
            else:
                break
        for token, part in reversed(before):
            if token.text == "-->":
                left = Node("use", part.name, (*part.parts, left), part.token)
            else:
                left = Node(token.text, "", (part, left), token)
        return left

    def binary(self, level):
        if level == len(BINARY):
            return self.primary()
        operands, signs = [self.binary(level + 1)], []
        while self.sees(BINARY[level]):
            signs.append(self.take())
            operands.append(self.binary(level + 1))
        formula = operands.pop()
        while operands:
            sign = signs.pop()
            formula = Node(sign.text, "", (operands.pop(), formula), sign)
        return formula

    def primary(self):
        token = self.token
        if self.sees("true", "erase"):
            return Node(self.take().text, "", (), token)
        if self.sees("(", "{"):
            self.take()
            formula = self.formula()
            self.expect(")" if token.text == "(" else "}")
            return formula if token.text == "(" else Node("bang", "", (formula,), token)
        if self.sees("forall", "exists"):
            self.take()
            name = self.expect("name", "variable").text
            self.expect("\\")
            return Node(token.text, name, (self.formula(),), token)
        if token.kind not in PLAIN:
            self.refuse()
        return self.atom()

    def atom(self):
        """An atom, or a goal that computes."""
        first = self.head()
        if first.kind == "term" and first.parts or not self.sees("is", "<", "=<", "+", "-", "*"):
            return first._replace(kind="atom")
        left = self.summed(self.multiplied(first))
        sign = self.expect("is", "<", "=<")
        return Node("num", sign.text, (left, self.expression()), first.token)

    def expression(self):
        return self.summed(self.multiplied(self.unit()))

    def summed(self, left):
        while self.sees("+", "-"):
            sign = self.take()
            left = Node("sum", sign.text, (left, self.multiplied(self.unit())), sign)
        return left

    def multiplied(self, left):
        while self.sees("*"):
            sign = self.take()
            left = Node("sum", sign.text, (left, self.unit()), sign)
        return left

    def unit(self):
        if self.sees("("):
            self.take()
            inner = self.expression()
            self.expect(")")
            return inner
        return self.plain(self.expect(*PLAIN))

    def plain(self, token):
        if token.kind == "number":
            return Node("number", str(int(token.text)), (), token)
        if token.kind == "any":
            self.unnamed += 1
            return Node("term", f"_~{self.unnamed}", (), token)
        return Node("term", token.text, (), token)

    def head(self):
        first = self.plain(self.expect(*PLAIN))
        arguments = []
        if first.token.kind in ("name", "variable"):
            while self.token.kind in PLAIN or self.sees("("):
                arguments.append(self.simple())
        return first._replace(parts=tuple(arguments))

    def simple(self):
        if self.sees("("):
            self.take()
            term = self.term()
            self.expect(")")
            return term
        return self.plain(self.take())

    def term(self):
        """A list of terms between the signs `::`, which lean to the right."""
        terms, signs = [self.app()], []
        while self.sees("::"):
            signs.append(self.take())
            terms.append(self.app())
        term = terms.pop()
        while terms:
            term = Node("term", "::", (terms.pop(), term), signs.pop())
        return term

    def app(self):
        return self.simple() if self.sees("(") else self.head()

    def clause(self, bound):
        token = self.token
        is_linear = self.sees("LINEAR")
        if is_linear:
            self.take()
        formula = self.formula()
        self.expect(".")
        return Clause(is_linear, formula, tuple(variables_in(formula, bound)), token)

    def clauses(self, bound=()):
        found = []
        while self.token.kind != "end" and not self.sees("MODULE"):
            found.append(self.clause(bound))
        return found

    def module(self):
        self.expect("MODULE")
        token = self.expect("name")
        parameters, constants = [], []
        while self.token.kind == "variable":
            parameters.append(self.take().text)
        self.expect(".")
        while self.sees("LOCAL"):
            self.take()
            while self.token.kind == "name":
                constants.append(self.take().text)
            self.expect(".")
        return Module(tuple(parameters), tuple(constants), self.clauses((*parameters, *constants)), token)


def program_of(name, text):
    parser = Parser(name, text)
    clauses, modules = parser.clauses(), {}
    while parser.token.kind != "end":
        module = parser.module()
        modules.setdefault(module.token.text, module)
    return Program(name, clauses, modules)


def query_of(name, text):
    parser = Parser(name, text)
    formula = parser.formula()
    if parser.sees("."):
        parser.take()
    parser.expect("end")
    return Query(name, formula, tuple(variables_in(formula)))
