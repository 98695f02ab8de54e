"""The trees of programs and queries."""
from typing import NamedTuple

from .lexer import Token

ARROWS = ("-o", "=>", ":-", "<=")


class Node(NamedTuple):
    """A formula or a term.

    Formulas are of kind `true`, `erase`, `bang`, `forall`, `exists`, `use` (a load: the name, the arguments and then the goal), `atom`, `num` (the name is the sign),
    `,`, `&`, `;` and the four arrows, with parts in the order of the text. Terms are of kind `term`, `number` and `sum` (the name is the sign).
    """

    kind: str
    name: str
    parts: tuple
    token: Token


class Clause(NamedTuple):
    """A clause of a program or module: its variables are those of the whole clause, in the order in which they come first."""

    is_linear: bool
    formula: Node
    variables: tuple
    token: Token


class Module(NamedTuple):
    parameters: tuple
    constants: tuple
    clauses: list
    token: Token


class Program(NamedTuple):
    name: str
    clauses: list
    modules: dict


class Query(NamedTuple):
    name: str
    formula: Node
    variables: tuple


class Leaf(NamedTuple):
    """A head of a clause: the quantified variables on the way to it, the premises as (is bounded, goal), and the head."""

    variables: tuple
    premises: tuple
    head: Node


def is_bounded(arrow):
    """Whether the premise of an arrow is proved from resources, and its clause loaded as one."""
    return arrow.kind in ("-o", ":-")


def premise_and_head(arrow):
    """The part of an arrow that is proved or loaded first, and the other one."""
    left, right = arrow.parts
    return (left, right) if arrow.kind in ("-o", "=>") else (right, left)


def operands(node, kind):
    """The goals that an operator which leans to the right joins."""
    found = []
    while node.kind == kind:
        found.append(node.parts[0])
        node = node.parts[1]
    return [*found, node]


def leaves_of(clause, variables=(), premises=()):
    """The leaves of a clause's formula, from the left."""
    waiting = [(clause, tuple(variables), tuple(premises))]
    found = []
    while waiting:
        node, names, goals = waiting.pop()
        if node.kind == "forall":
            waiting.append((node.parts[0], (*names, node.name), goals))
        elif node.kind == "&":
            waiting.append((node.parts[1], names, goals))
            waiting.append((node.parts[0], names, goals))
        elif node.kind in ARROWS:
            premise, head = premise_and_head(node)
            waiting.append((head, names, (*goals, (is_bounded(node), premise))))
        elif node.kind == "atom":
            found.append(Leaf(names, goals, node))
    return found


def head_of(atom):
    """A predicate by its name and the number of its arguments."""
    return atom.name, len(atom.parts)


def variables_in(formula, bound=()):
    """The variables of a formula that nothing in it binds, each with the tokens at which it stands, in the order of the text."""
    found = {}
    waiting = [(formula, frozenset(bound))]
    while waiting:
        node, names = waiting.pop()
        if node.kind in ("term", "atom") and is_variable(node.name) and node.name not in names:
            found.setdefault(node.name, []).append(node.token)
        if node.kind in ("forall", "exists"):
            names = names | {node.name}
        waiting.extend((part, names) for part in reversed(node.parts))
    return found


def is_variable(name):
    return name[0] == "_" or "A" <= name[0] <= "Z"


def atoms_in(formula, is_goal, bound=frozenset()):
    """The atoms of a formula in the order of the text, as (atom, whether it is a goal, the names bound round it)."""
    found = []
    waiting = [(formula, is_goal, bound)]
    while waiting:
        node, as_goal, names = waiting.pop()
        if node.kind == "atom":
            found.append((node, as_goal, names))
        elif node.kind in ARROWS:
            premise, head = premise_and_head(node)
            both = {id(premise): not as_goal, id(head): as_goal}
            waiting.extend((part, both[id(part)], names) for part in reversed(node.parts))
        elif node.kind in ("forall", "exists"):
            waiting.append((node.parts[0], as_goal, names | {node.name}))
        elif node.kind == "use":
            waiting.append((node.parts[-1], as_goal, names))
        elif node.kind != "num":
            waiting.extend((part, as_goal, names) for part in reversed(node.parts))
    return found
