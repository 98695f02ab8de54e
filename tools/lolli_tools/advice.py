"""A word of advice for faults that are made often, by the kind of the fault and what stands at its place."""
import re

# kind, what stands at the fault, what stands before it on its line, the advice; the first that fits is given
ADVICE = [
    (4, r",", r"\(\s*[^()]*$", "Arguments stand behind their name with no brackets and commas: `likes mary wine`, and not `likes(mary, wine)`."),
    (1, r"[\[\]|]", r"", "Lists are written `1::2::nil`, and `X::Xs` for `[X|Xs]`."),
    (1, r"[\"']", r"", "There are no strings and no quoted names: a name begins with a lower-case letter."),
    (1, r"[>=]", r"", "There are `<` and `=<` alone: turn the sides round. Two terms are made equal by a clause `same X X.`"),
    (1, r"!", r"", "There is no cut."),
    (1, r"/", r"", "There is no division, and no comment with `/*`: a comment goes from `%` to the end of its line."),
    (1, r":", r"", "The signs with a colon are `:-` between a head and its premises, and `::` in a list."),
    (1, r"-", r"", "A `-` stands in `-o`, in `-->`, before digits, and between numbers with blanks round it."),
    (1, r"\\", r"", "There is no negation as failure."),
    (4, r"(:-|<=)", r"", "A clause has one head and one `:-`. Does the clause before this one lack its dot?"),
    (4, r"(LINEAR|MODULE|LOCAL)\b", r"\S", "A mark begins a clause, and no blank may lack before it. Does the clause before lack its dot?"),
    (4, r"(LINEAR|MODULE|LOCAL)\b", r"^\s*$", "The clause before this line lacks its dot."),
    (4, r"[a-z0-9A-Z_]", r"^\s*$", "The text before this line goes on here: a clause ends with a dot."),
    (4, r"[<]|=<|is\b|[+*-]", r"", "An expression stands beside `is`, `<` and `=<` alone, and no bracket begins a left side."),
    (4, r"-[0-9]", r"", "`-1` is a number: write a difference with blanks, `N - 1`."),
    (4, r"\)", r"", "This bracket closes none that is open here."),
    (4, r"\.", r"", "Something lacks before the dot: a goal, or a bracket that closes."),
    (5, r"", r"", "The text ends within a clause: a dot or a bracket lacks."),
    (7, r",", r"", "A clause has one head. For two facts write two clauses, or `&` for a resource that gives one of two."),
    (7, r"", r"", "This is a goal, and what stands here is a clause: an atom, `&`, an arrow or `forall`."),
    (9, r"L[a-z]+\b", r"", "The mark of a resource is LINEAR, in capitals."),
    (9, r"", r"", "A name that begins with a capital or `_` is a variable, and none is a predicate or has arguments."),
    (8, r"", r"", "A module is loaded by a goal: `m --> G`."),
    (10, r"", r"", "`m --> G` loads the module `m`, and a line `MODULE m.` begins one."),
    (11, r"", r"", "A load gives the module as many arguments as its line `MODULE` has parameters."),
    (16, r"(answer|stopped)", r"", "A derivation ends before this line: `tools/proof K` cuts the K-th out of what a run wrote."),
    (14, r"(answer|query|bound)", r"", "A derivation begins with `proof 1`: `tools/proof K` cuts the K-th out of what a run wrote."),
]


def advice_for(kind, before, behind):
    """The advice for a fault of a kind, by the text before it on its line and behind it, or nothing."""
    for known, at, earlier, text in ADVICE:
        if known == kind and re.match(at, behind) and re.search(earlier, before):
            return text
    return None
