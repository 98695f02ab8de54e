"""Finds out why a goal has no answer, by runs of goals that are made from it."""
from . import command
from .derivation import Derivation, last_dealing
from .layout import argument, cut, expression_text, formula_text, spelling
from .parser import query_of
from .probes import CUT, FAILS, HOLDS
from .syntax import head_of, is_bounded, leaves_of, operands, premise_and_head, variables_in

WIDTH = 160
MOST_HEADS = 12
MOST_CLAUSES = 4
WORDS = {HOLDS: None, FAILS: "fails", CUT: "reaches the bound with no answer"}
GREATER = "with a greater bound there are answers, so --bound tells more"


class Reasons:
    """Tells, line by line, which goals fail and why. `spare` begins no name of the texts."""

    def __init__(self, prober, program, spare, say):
        self.prober = prober
        self.program = program
        self.spare = spare
        self.say = say
        self.fresh = 0

    def holds(self, place, text):
        return self.prober.ask(self.whole(place.erasing(text))).holds

    def whole(self, query):
        """A query with the clause by which two terms are compared, where it needs one."""
        same = f"same_{self.spare}"
        return f"(forall Z\\ {same} Z Z) => ({query})" if same in query else query

    def fails(self, place, text):
        """How it is called that this text has no answer there; nothing where it has one, as it may with the bound of its own run."""
        return WORDS[self.prober.ask(self.whole(place.erasing(text))).verdict]

    def tell(self, level, text, token=None):
        self.say("  " * level + text + (f"  ({token.place})" if token else ""))

    def quoted(self, goal):
        return f"`{cut(formula_text(goal), WIDTH)}`"

    def why(self, goal, place, level, depth):
        """Why a goal fails at a place, whatever is left over there."""
        by_kind = {
            ",": self.why_tensor,
            "&": self.why_with,
            ";": self.why_either,
            "bang": self.why_bang,
            "num": self.why_number,
            "atom": self.why_atom,
            "use": self.why_load,
            "forall": self.why_quantified,
            "exists": self.why_quantified,
        }
        by_kind.get(goal.kind, self.why_arrow)(goal, place, level, depth)

    def why_tensor(self, goal, place, level, depth):
        goals = operands(goal, ",")
        fewest, most = 0, len(goals)
        # The goals before `fewest` have an answer together, and those before `most` have none.
        while most - fewest > 1:
            middle = (fewest + most) // 2
            if self.holds(place.behind(goals[: middle - 1]), place.text(goals[middle - 1])):
                fewest = middle
            else:
                most = middle
        self.first_failing(goals, most - 1, place, level, depth, "goal")

    def first_failing(self, goals, at, place, level, depth, noun):
        """Tells which of several goals is the first that fails, and why."""
        inner = place.behind(goals[:at])
        word = self.fails(inner, inner.text(goals[at]))
        if word is None:
            self.tell(level, GREATER)
            return
        self.tell(level, f"{noun} {at + 1} of {len(goals)} is the first that {word}, whatever is left over: {self.quoted(goals[at])}", first_token(goals[at]))
        self.tell_reached(goals[at], inner, level + 1)
        self.why(goals[at], inner, level + 1, depth)

    def tell_reached(self, goal, place, level):
        """Tells how a goal looks when it is reached first, where that is another way than the text has it."""
        values = self.values(goal, place, "true")
        reached = formula_text(goal, values)
        if reached != formula_text(goal):
            self.tell(level, f"it is reached first as `{cut(reached, WIDTH)}`")

    def values(self, goal, place, text, more=()):
        """The terms in the first answer for the variables of a goal and for some more names, once the goals before it and a text were shown."""
        if place.is_under_forall:
            return {}
        reply = self.prober.ask(self.whole(place.erasing(text, is_open=True))).text
        found = dict(line.split(" = ", 1) for line in reply.split("\n") if " = " in line)
        wanted = {**{name: place.terms.get(name, name) for name in variables_in(goal)}, **{name: name for name in more}}
        return {name: bracketed(found[term]) for name, term in wanted.items() if term in found}

    def why_arrow(self, goal, place, level, depth):
        premise, head = premise_and_head(goal)
        sign = "-o" if is_bounded(goal) else "=>"
        loaded = (premise, is_bounded(goal), place.terms, ())
        inner = place.inside(f"({place.text(premise)}) {sign} ", loaded=[loaded])
        if is_bounded(goal) and self.holds(inner, inner.text(head)):
            self.tell(level, f"the resource that `-o` loads is left over: {self.quoted(premise)}", first_token(premise))
            self.tell(level + 1, f"with `, erase` behind {self.quoted(head)} there is an answer")
        else:
            self.why(head, inner, level, depth)

    def why_load(self, goal, place, level, depth):
        inside = goal.parts[-1]
        module = self.program.modules[goal.name]
        values = [argument(part, place.terms) for part in goal.parts[:-1]]
        terms = dict(zip(module.parameters, values))
        loaded = [
            (clause.formula, clause.is_linear, terms, clause.variables)
            for clause in module.clauses
            if not names_in(clause.formula) & set(module.constants)
        ]
        if len(loaded) < len(module.clauses):
            self.tell(level, f"clauses of the module {goal.name} that have its own constants are not looked into", module.token)
        inner = place.inside(f"{' '.join([goal.name, *values])} --> ", loaded=loaded)
        if self.holds(inner, inner.text(inside)):
            self.tell(level, f"resources of the module {goal.name} are left over", goal.token)
            self.tell(level + 1, f"with `, erase` behind {self.quoted(inside)} there is an answer")
        else:
            self.why(inside, inner, level, depth)

    def why_quantified(self, goal, place, level, depth):
        name = self.new_name()
        terms = {**place.terms, goal.name: name}
        self.why(goal.parts[0], place.inside("", quantifiers=f"{goal.kind} {name}\\ ", terms=terms), level, depth)

    def new_name(self):
        self.fresh += 1
        return f"{self.spare.upper()}{self.fresh}"

    def why_bang(self, goal, place, level, depth):
        inside = goal.parts[0]
        if self.holds(place, place.text(inside)):
            self.tell(level, f"braces allow no resource, and {self.quoted(inside)} has an answer only with some:", goal.token)
            self.tell_resources(level + 1, self.dealt(place, inside)[0])
        else:
            self.why(inside, place, level, depth)

    def why_with(self, goal, place, level, depth):
        for side, inside in zip(("left", "right"), goal.parts):
            if not self.holds(place, place.text(inside)):
                self.tell(level, f"the {side} side of `&` {self.fails(place, place.text(inside))}, whatever is left over: {self.quoted(inside)}", first_token(inside))
                self.why(inside, place, level + 1, depth)
                return
        left, right = (place.text(part) for part in goal.parts)
        if self.holds(place, f"(({left}) , erase) & (({right}) , erase)"):
            self.tell(level, "each side of `&` has an answer, but not from the same resources", goal.token)
        else:
            self.tell(level, "each side of `&` has an answer, but not with the same terms", goal.token)
        for side, inside in zip(("left", "right"), goal.parts):
            self.tell(level + 1, f"the {side} side by itself takes:")
            self.tell_resources(level + 2, self.dealt(place, inside)[0])

    def why_either(self, goal, place, level, depth):
        for side, inside in zip(("left", "right"), goal.parts):
            word = self.fails(place, place.text(inside))
            if word is None:
                self.tell(level, GREATER)
                continue
            self.tell(level, f"the {side} side of `;` {word}, whatever is left over: {self.quoted(inside)}", first_token(inside))
            self.why(inside, place, level + 1, depth)

    def dealt(self, place, goal):
        """The resources of the first answer of a goal, and those that are left over, as (text, place) each."""
        query = self.whole(place.erasing(place.text(goal)))
        return self.dealing_of(query)

    def dealing_of(self, query):
        proof = proof_in(self.prober.ask(query, with_proof=True).text)
        labels = Derivation(self.program, query_of("query", query), proof).labels
        sets = last_dealing(proof)
        return [[self.resource(labels[number]) for number in numbers] for numbers in sets]

    def resource(self, label):
        mark = f"  ({label.token.place})" if label.node is None else "  (loaded by the query)"
        return f"`{label.text(WIDTH)}`{mark}"

    def tell_resources(self, level, texts):
        for text in texts or ["no resource"]:
            self.tell(level, text)

    def why_number(self, goal, place, level, depth):
        sides = {"right": goal.parts[1]} if goal.name == "is" else dict(zip(("left", "right"), goal.parts))
        for side, expression in sides.items():
            for name in variables_in(expression):
                text = place.terms.get(name, spelling(name))
                if not self.holds(place, f"{text} =< {text}"):
                    self.tell(level, f"{spelling(name)} is no number when the goal is reached")
                    return
        results = {side: self.new_name() for side in sides}
        goals = {side: f"{results[side]} is {expression_text(sides[side], place.terms)}" for side in sides}
        for side in sides:
            if not self.holds(place, goals[side]):
                self.tell(level, f"the {side} side has no value: a name is no number, or a part is past 64 bits")
                return
        found = self.values(goal, place, " , ".join(goals.values()), results.values())
        told = [f"the {side} side is {found[name]}" for side, name in results.items() if name in found]
        self.tell(level, f"the numbers do not fit{': ' if told else ''}{' and '.join(told)}")

    def why_atom(self, goal, place, level, depth):
        matching, others = [], []
        for is_linear, leaf, terms in self.leaves(place, head_of(goal)):
            inner = self.opened(goal, leaf, terms, place)
            if self.holds(inner, "true"):
                matching.append((is_linear, leaf, inner))
            else:
                others.append(leaf.head.token)
        if others:
            more = ", ..." if len(others) > MOST_HEADS else ""
            heads = "1 clause has a head that does" if len(others) == 1 else f"{len(others)} clauses have heads that do"
            self.tell(level, f"{heads} not match here: {', '.join(token.place for token in others[:MOST_HEADS])}{more}")
        for is_linear, leaf, inner in matching[:MOST_CLAUSES]:
            self.why_leaf(is_linear, leaf, inner, level, depth)
        if len(matching) > MOST_CLAUSES:
            self.tell(level, f"{len(matching) - MOST_CLAUSES} more clauses match, and were not looked into")
        if not matching and not others:
            self.tell_no_clause(goal, place, level)
        elif matching:
            self.tell_alone(goal, place, level)

    def leaves(self, place, head):
        """The leaves of the program and of what is loaded at a place that may show an atom, each with whether it is linear, and the terms of its names."""
        clauses = [(clause.formula, clause.is_linear, {}, clause.variables) for clause in self.program.clauses]
        for formula, is_linear, terms, variables in [*reversed(place.loaded), *clauses]:
            for leaf in leaves_of(formula, variables):
                if head_of(leaf.head) == head:
                    yield is_linear, leaf, terms

    def opened(self, goal, leaf, terms, place):
        """The place behind the match of a goal with a leaf's head, with new variables for those of the clause."""
        names = {name: f"{self.spare.upper()}_{len(place.frames)}_{at}" for at, name in enumerate(leaf.variables)}
        inner = {**terms, **names}
        match = f"same_{self.spare} {bracketed(place.text(goal))} {bracketed(formula_text(leaf.head, inner))} , "
        return place.inside(f"({match}", ")", "".join(f"exists {name}\\ " for name in names.values()), terms=inner)

    def why_leaf(self, is_linear, leaf, inner, level, depth):
        """Why a clause whose head matches does not show the goal."""
        token = leaf.head.token
        goals = [premise if bounded else premise._replace(kind="bang", parts=(premise,)) for bounded, premise in leaf.premises]
        for at, premise in enumerate(goals):
            before = inner.behind(goals[:at])
            if not self.holds(before, before.text(premise)):
                self.tell(level, f"the clause matches: {self.quoted(leaf.head)}", token)
                self.why_premise(goals, at, inner, level + 1, depth)
                return
        if is_linear:
            self.tell(level, f"the resource matches, but is there once, and is spent before or needed twice: {self.quoted(leaf.head)}", token)
        else:
            self.tell(level, f"the clause matches: {self.quoted(leaf.head)}", token)
            self.tell(level + 1, GREATER)

    def why_premise(self, goals, at, inner, level, depth):
        """Why a premise of a clause fails. A premise of several goals is told as these."""
        if len(goals) == 1 and goals[0].kind == "," and depth > 0:
            self.why(goals[0], inner, level, depth - 1)
        elif depth > 0:
            self.first_failing(goals, at, inner, level, depth - 1, "premise")
        else:
            before = inner.behind(goals[:at])
            word = self.fails(before, before.text(goals[at]))
            self.tell(level, f"premise {at + 1} of {len(goals)} {word}, and --depth tells more: {self.quoted(goals[at])}")

    def tell_alone(self, goal, place, level):
        """Tells whether the goal has an answer where the goals before it are left out."""
        alone = place.without_goals()
        if alone.frames != place.frames and self.holds(alone, alone.text(goal)):
            self.tell(level, "without the goals before it there is an answer")

    def tell_no_clause(self, goal, place, level):
        name, count = head_of(goal)
        if self.prober.has_no_clause(name, count, self.spare.upper()):
            self.tell(level, f"no clause of the program has a head {name} with {counted(count)}")


def names_in(formula):
    """All names of a formula, predicates and constants alike."""
    found, waiting = set(), [formula]
    while waiting:
        node = waiting.pop()
        found.add(node.name)
        waiting.extend(node.parts)
    return found


def bracketed(text):
    return f"({text})" if " " in text or "::" in text else text


def counted(count):
    return "no arguments" if count == 0 else "1 argument" if count == 1 else f"{count} arguments"


def first_token(goal):
    """The first token of a goal, as far as its tree tells."""
    while goal.kind in (",", "&", ";", "-o", "=>", ":-", "<="):
        goal = goal.parts[0]
    return goal.token


def proof_in(text):
    """The derivation in what a run with `--first 1` wrote."""
    lines = text[text.index("proof 1\n") :].split("\n")
    kept = []
    for line in lines:
        if line.startswith(("answer", "stopped")):
            break
        kept.append(line)
    if not kept:
        raise command.Ended(command.STRANGE_PROGRAM, "the program wrote no derivation")
    return "\n".join(kept)
