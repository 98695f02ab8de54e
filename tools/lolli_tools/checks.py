"""What the texts of a program tell without a run: predicates, marks and variables."""
from typing import NamedTuple

from .lexer import Token
from .syntax import Node, atoms_in, head_of, variables_in

MARK = "linear"
NEVER = ("fail", 0)


class Finding(NamedTuple):
    """Something that is likely to be a fault, with its place."""

    token: Token
    kind: int
    text: str


class Use(NamedTuple):
    """An atom of a program or query: whether it is a goal, and its predicate."""

    atom: Node
    is_goal: bool
    key: tuple


def key_of(atom, module):
    """What tells a predicate from others: constants of a module are its own."""
    if module is not None and atom.name in module.constants:
        return (module.token.text, *head_of(atom))
    return (None, *head_of(atom))


def clauses_of(program):
    """All clauses, each with its module or nothing."""
    for clause in program.clauses:
        yield clause, None
    for module in program.modules.values():
        for clause in module.clauses:
            yield clause, module


def uses_of(program, queries):
    """All atoms of a program and of queries over it."""
    for clause, module in clauses_of(program):
        for atom, is_goal, _ in atoms_in(clause.formula, False):
            yield Use(atom, is_goal, key_of(atom, module))
    for query in queries:
        for atom, is_goal, _ in atoms_in(query.formula, True):
            yield Use(atom, is_goal, key_of(atom, None))


def unknown_heads(program, queries):
    """The goals for whose predicates no clause stands anywhere, each once, with the numbers of arguments that clauses of the name have."""
    uses = list(uses_of(program, queries))
    known = {use.key for use in uses if not use.is_goal}
    told = set(known)
    for use in uses:
        if use.is_goal and use.key not in told and head_of(use.atom) != NEVER:
            told.add(use.key)
            yield use.atom, sorted({key[2] for key in known if key[:2] == use.key[:2]})


def spelled_marks(program):
    """Where `linear` stands as a predicate, as somebody writes who means the mark."""
    for clause, _ in clauses_of(program):
        for atom, is_goal, _ in atoms_in(clause.formula, False):
            if not is_goal and atom.name == MARK:
                yield atom


def arguments(count):
    return "1 argument" if count == 1 else f"{count} arguments"


def unknown_findings(program, queries):
    """Kinds 1 and 3: goals without clauses, where the name has none at all, and where it has some with other arguments."""
    for atom, others in unknown_heads(program, queries):
        if others:
            counts = " and with ".join(map(str, others))
            yield Finding(atom.token, 3, f"{atom.name} has {arguments(len(atom.parts))} here, and clauses with {counts}")
        else:
            yield Finding(atom.token, 1, f"no clause has a head {atom.name} with {arguments(len(atom.parts))}")


def reached(program, queries):
    """The predicates that goals come to from queries, through the clauses that stand for them."""
    found, waiting, calls = set(), [], {}
    for query in queries:
        waiting.extend(key_of(atom, None) for atom, is_goal, _ in atoms_in(query.formula, True) if is_goal)
    for clause, module in clauses_of(program):
        atoms = atoms_in(clause.formula, False)
        goals = [key_of(atom, module) for atom, is_goal, _ in atoms if is_goal]
        for atom, is_goal, _ in atoms:
            if not is_goal:
                calls.setdefault(key_of(atom, module), []).extend(goals)
    while waiting:
        key = waiting.pop()
        if key not in found:
            found.add(key)
            waiting.extend(calls.get(key, ()))
    return found


def uncalled_findings(program, queries):
    """Kind 2: predicates that no goal comes to from the queries. Without queries nothing is said, since any predicate may be asked for."""
    told = reached(program, queries)
    for use in uses_of(program, ()):
        if queries and not use.is_goal and use.key not in told:
            told.add(use.key)
            yield Finding(use.atom.token, 2, f"no query comes to {use.atom.name} with {arguments(len(use.atom.parts))}")


def other_count_findings(program, queries):
    """Kind 3: clauses of a predicate that no goal calls, where goals call the name with another number of arguments."""
    uses = list(uses_of(program, queries))
    goals = {use.key for use in uses if use.is_goal}
    told = set()
    for use in uses:
        if use.is_goal or use.key in goals or use.key in told:
            continue
        others = sorted({key[2] for key in goals if key[:2] == use.key[:2]})
        if others:
            told.add(use.key)
            counts = " and with ".join(map(str, others))
            yield Finding(use.atom.token, 3, f"{use.atom.name} has {arguments(len(use.atom.parts))} here, and goals with {counts}")


def single_findings(program):
    """Kind 4: variables that stand once in their clause, and do not begin with `_`."""
    for clause, module in clauses_of(program):
        bound = () if module is None else (*module.parameters, *module.constants)
        for name, tokens in variables_in(clause.formula, bound).items():
            if len(tokens) == 1 and not name.startswith("_"):
                yield Finding(tokens[0], 4, f"the variable {name} stands once in its clause")


def mark_findings(program):
    """Kind 5: `linear` for LINEAR."""
    for atom in spelled_marks(program):
        yield Finding(atom.token, 5, f"{atom.name} is a predicate here, and the mark of a resource is LINEAR")


def findings(program, queries):
    """All findings of a program, in the order of its text. Those in the queries stand behind."""
    found = [
        *unknown_findings(program, queries),
        *uncalled_findings(program, queries),
        *other_count_findings(program, queries),
        *single_findings(program),
        *mark_findings(program),
    ]
    return sorted(found, key=lambda it: (it.token.source != program.name, it.token.source, it.token.line, it.token.column, it.kind))
