"""Asks the program whether goals have an answer. All that `why` says stands on such runs."""
import os
from typing import NamedTuple

from . import command
from .layout import NOTHING, formula_text
from .lexer import tokens_of

HOLDS, FAILS, CUT = "holds", "fails", "is cut off"
LARGEST_BOUND = 1_000_000
MOST_RUNS = 400


class Probe:
    """One run: what was asked, how it ended, and the words of the program."""

    def __init__(self, query, bound, reply):
        self.query = query
        self.bound = bound
        self.status = reply.status
        self.text = reply.text
        self.last = reply.last

    @property
    def holds(self):
        return self.status == command.DONE

    @property
    def verdict(self):
        return {command.DONE: HOLDS, command.FOUND: FAILS}.get(self.status, CUT)


class Prober:
    """Runs goals over one program. `report` is called with each new run."""

    def __init__(self, program, name, folder, seconds, report):
        self.program = program
        self.name = name
        self.file = os.path.join(folder, "query")
        self.seconds = seconds
        self.report = report
        self.bound = 0
        self.known = {}
        self.runs = 0

    def ask(self, query, with_proof=False):
        """The run of a query that the tool has made. What the tool adds to the user's query takes inferences too, so the bound is raised by its tokens."""
        if (query, with_proof) in self.known:
            return self.known[query, with_proof]
        self.runs += 1
        if self.runs > MOST_RUNS:
            raise command.Ended(command.TOO_SLOW, f"it would take more than {MOST_RUNS} runs to tell more")
        command.write_file(self.file, query.encode("latin-1"))
        bound = min(self.bound + len(tokens_of("query", query)), LARGEST_BOUND)
        options = ["--bound", str(bound), "--first", "1", *(["--proofs"] if with_proof else [])]
        reply = self.program.run("run", self.name, self.file, *options, seconds=self.seconds)
        if reply is None:
            raise command.Ended(command.TOO_SLOW, f"a run took longer than {self.seconds} seconds (--seconds), so no more can be told: {shortened(query)}")
        probe = Probe(query, bound, reply)
        self.known[query, with_proof] = probe
        self.report(probe)
        return probe

    def has_no_clause(self, name, count, spare):
        """Whether a run shows that no clause of the program matches an atom, whatever its arguments: it takes the `,` and the atom, and no third inference."""
        general = " ".join([name, *[f"{spare}{at}" for at in range(count)]])
        return self.ask(f"{general} , erase").last == "answers 0, bound reached 0, inferences 2"


def shortened(query):
    return query if len(query) <= 200 else query[:197] + "..."


class Frame(NamedTuple):
    """What is written round a goal: quantifiers, then what stands before the brackets and behind them. `is_goals` tells goals that come before it."""

    quantifiers: str
    before: str
    after: str
    is_goals: bool


class Place:
    """Where in the query a goal stands: what has to be written round it, the terms that names have there, and the clauses that are loaded there."""

    def __init__(self, frames=(), terms=NOTHING, loaded=()):
        self.frames = frames
        self.terms = terms
        self.loaded = loaded

    def inside(self, before, after="", quantifiers="", terms=None, loaded=(), is_goals=False):
        frames = (*self.frames, Frame(quantifiers, before, after, is_goals))
        return Place(frames, self.terms if terms is None else terms, (*self.loaded, *loaded))

    def behind(self, goals):
        """The place behind these goals."""
        return self.inside("".join(f"({self.text(goal)}) , " for goal in goals), is_goals=True) if goals else self

    def without_goals(self):
        """The place where the goals before it are left out."""
        return Place(tuple(frame for frame in self.frames if not frame.is_goals), self.terms, self.loaded)

    @property
    def is_under_forall(self):
        return any(frame.quantifiers.startswith("forall") for frame in self.frames)

    def text(self, goal):
        return formula_text(goal, self.terms)

    def query(self, text, is_open=False):
        """The query with this text at the place, and nothing behind it. Where it is open an answer tells the terms for what the tool quantifies."""
        before = "".join(f"{'' if is_open else frame.quantifiers}{frame.before}(" for frame in self.frames)
        after = "".join(f"){frame.after}" for frame in reversed(self.frames))
        return f"{before}({text}){after}"

    def erasing(self, text, is_open=False):
        """The same, where whatever is left over is taken."""
        return self.query(f"({text}) , erase", is_open)
