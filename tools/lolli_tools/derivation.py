"""Reads a derivation that `lolli check` has passed, each node with its goal and what it says."""
import re

from .command import STRANGE_PROGRAM, Ended
from .layout import argument, cut, formula_start
from .syntax import leaves_of, premise_and_head

PIECE = re.compile(r"[(){} ]|[^(){} ]+")
CHILDREN = {"true": 0, "erase": 0, "num": 0, "tensor": 2, "with": 2}


class Label:
    """A clause that a derivation knows by a number: a formula with terms for the names that are free in it, its variables, where it stands,
    the node that loads it, and those that spend it."""

    def __init__(self, formula, terms, is_linear, token, node=None, variables=()):
        self.formula = formula
        self.terms = terms
        self.is_linear = is_linear
        self.token = token
        self.node = node
        self.variables = variables
        self.spent = []

    def text(self, width):
        return formula_start(self.formula, self.terms, width)


class Goal:
    """A formula with terms for the names that are free in it."""

    def __init__(self, formula, terms, is_banged=False):
        self.formula = formula
        self.terms = terms
        self.is_banged = is_banged

    def text(self, width):
        text = formula_start(self.formula, self.terms, width)
        return "{" + text + "}" if self.is_banged else text


class Loading:
    """The load of a module after some steps: its constants come first, then its clauses, and then the goal."""

    def __init__(self, module, terms, goal, load, done=0):
        self.module = module
        self.terms = terms
        self.goal = goal
        self.load = load
        self.done = done

    @property
    def steps(self):
        return len(self.module.constants) + len(self.module.clauses)

    def text(self, width):
        left = self.steps - self.done
        return cut(f"{self.load} --> {self.goal.text(width)}", width) + (f"  ({left} to load)" if self.done else "")

    def with_constant(self, text):
        terms = {**self.terms, self.module.constants[self.done]: text}
        return Loading(self.module, terms, self.goal, self.load, self.done + 1).rest()

    def next_clause(self):
        return self.module.clauses[self.done - len(self.module.constants)]

    def with_clause(self):
        return Loading(self.module, self.terms, self.goal, self.load, self.done + 1).rest()

    def rest(self):
        return self if self.done < self.steps else self.goal


class Held:
    """The labels of the resources that a node has, kept as what was added to others."""

    def __init__(self, labels, before=None):
        self.labels = labels
        self.before = before

    def all(self):
        found, held = [], self
        while held is not None:
            found.extend(held.labels)
            held = held.before
        return sorted(found)


class Derived:
    """A node: its number, depth and parent, the words of its line, its goal, and what the line says of it."""

    def __init__(self, number, depth, parent, fields, goal, held):
        self.number = number
        self.depth = depth
        self.parent = parent
        self.fields = fields
        self.goal = goal
        self.held = held
        self.rule = fields[0]
        self.comes = None
        self.spent = []
        self.values = []


def fields_of(line):
    """The fields of a line: parts between spaces that stand in no brackets."""
    if "(" not in line and "{" not in line:
        return line.split(" ")
    fields, current, depth = [], [], 0
    for piece in PIECE.findall(line):
        if piece == " " and depth == 0:
            fields.append("".join(current))
            current = []
            continue
        depth += (piece in "({") - (piece in ")}")
        current.append(piece)
    return [*fields, "".join(current)]


def labels_of(field):
    """The labels of a set."""
    return [int(word) for word in field[1:-1].split()]


class Derivation:
    """All nodes of a derivation, and all labels of it."""

    def __init__(self, program, query, text):
        self.program = program
        self.labels = {}
        self.nodes = []
        for number, clause in enumerate(program.clauses):
            self.labels[number] = Label(clause.formula, {}, clause.is_linear, clause.token, variables=clause.variables)
        lines = text.rstrip("\n").split("\n")[1:]
        values = [fields_of(line)[1] for line in lines if line.startswith("let ")]
        if len(values) != len(query.variables):
            raise Ended(STRANGE_PROGRAM, "the derivation has another number of let lines than the query has variables")
        self.read(lines[len(values) :], Goal(query.formula, dict(zip(query.variables, values))))

    def read(self, lines, goal):
        """Goes through the lines, and hands each node's children their goals and resources."""
        linear = [number for number, label in self.labels.items() if label.is_linear]
        waiting = [(goal, 0, None, Held(linear))]
        for number, line in enumerate(lines, 1):
            goal, depth, parent, held = waiting.pop()
            node = Derived(number, depth, parent, fields_of(line), goal, held)
            self.nodes.append(node)
            try:
                children = self.children(node, goal, held)
            except (KeyError, IndexError, ValueError, AttributeError):
                raise Ended(STRANGE_PROGRAM, f"node {number} of the derivation is none of the query's") from None
            for child, child_held in reversed(children):
                waiting.append((child, depth + 1, node, child_held))

    def children(self, node, goal, held):
        """The goals of a node's children with their resources."""
        rule = node.rule
        if rule == "use":
            return [(self.loading(goal), held)]
        if rule in ("forall", "lolli", "imp") and isinstance(goal, Loading):
            return self.loaded(node, goal, held)
        if rule == "clause":
            return self.premises(node, held)
        if rule in ("true", "num"):
            return []
        if rule == "erase":
            node.spent = held.all()
            for label in node.spent:
                self.labels[label].spent.append(node.number)
            return []
        if rule == "bang":
            inner = Goal(goal.formula, goal.terms) if goal.is_banged else Goal(goal.formula.parts[0], goal.terms)
            return [(inner, Held([]))]
        return self.parts(node, goal, held)

    def parts(self, node, goal, held):
        """The children of a node whose goal is a connective."""
        rule, fields, formula, terms = node.rule, node.fields, goal.formula, goal.terms
        if rule in ("lolli", "imp"):
            premise, head = premise_and_head(formula)
            return [(Goal(head, terms), self.put(node, premise, terms, held))]
        if rule in ("forall", "exists"):
            term = "#" + fields[1] if rule == "forall" else fields[1]
            return [(Goal(formula.parts[0], {**terms, formula.name: term}), held)]
        left, right = (Goal(part, terms) for part in formula.parts)
        if rule == "tensor":
            return [(left, Held(labels_of(fields[1]))), (right, Held(labels_of(fields[2])))]
        return {"with": [(left, held), (right, held)], "left": [(left, held)], "right": [(right, held)]}[rule]

    def put(self, node, formula, terms, held):
        """Gives a clause that is loaded its label, and the resources with it."""
        number = int(node.fields[1])
        is_linear = node.rule == "lolli"
        self.labels[number] = Label(formula, terms, is_linear, formula.token, node=node.number)
        node.comes = number
        return Held([number], held) if is_linear else held

    def loading(self, goal):
        """The goal that the load of a module stands for."""
        formula, terms = goal.formula, goal.terms
        module = self.program.modules[formula.name]
        arguments = [argument(part, terms) for part in formula.parts[:-1]]
        load = " ".join([formula.name, *arguments])
        loading = Loading(module, dict(zip(module.parameters, arguments)), Goal(formula.parts[-1], terms), load)
        return loading.rest()

    def loaded(self, node, loading, held):
        """One step of the load of a module."""
        if node.rule == "forall":
            return [(loading.with_constant("#" + node.fields[1]), held)]
        clause = loading.next_clause()
        held = self.put(node, clause.formula, loading.terms, held)
        self.labels[node.comes].variables = clause.variables
        self.labels[node.comes].token = clause.token
        return [(loading.with_clause(), held)]

    def premises(self, node, held):
        """The premises of the clause that shows an atom."""
        number, leaf = int(node.fields[1]), int(node.fields[2])
        label = self.labels[number]
        found = leaves_of(label.formula, label.variables)[leaf]
        values = node.fields[3 : 3 + len(found.variables)]
        sets = node.fields[3 + len(found.variables) :]
        terms = {**label.terms, **dict(zip(found.variables, values))}
        node.values = list(zip(found.variables, values))
        if label.is_linear:
            node.spent = [number]
            label.spent.append(node.number)
        children = []
        for (bounded, premise), field in zip(found.premises, sets, strict=True):
            child = Goal(premise, terms, is_banged=not bounded)
            children.append((child, Held(labels_of(field)) if bounded else Held([])))
        return children


def last_dealing(text):
    """The two sets of the `tensor` line whose second child is the last line of a derivation, or nothing."""
    waiting, last = [], None
    for line in text.rstrip("\n").split("\n")[1:]:
        if line.startswith("let "):
            continue
        fields = fields_of(line)
        last = waiting.pop() if waiting else None
        count = CHILDREN.get(fields[0], 1)
        if fields[0] == "clause":
            count = sum(field[0] in "{!" for field in fields[3:])
        waiting.extend([fields if fields[0] == "tensor" else None] * count)
    return (labels_of(last[1]), labels_of(last[2])) if last else None
