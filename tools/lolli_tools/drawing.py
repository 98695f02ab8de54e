"""Draws a derivation: as text, as one page of HTML, as a graph for DOT."""
import html
import zlib

from .layout import cut, spelling

DEEPEST_INDENT = 30
DEEPEST_FOLD = 150
OPEN_FOLDS = 10
LONG_CHAIN = 4
MOST_IN_SET = 20
STYLE = """body{font:14px/1.5 monospace;margin:1.5em;color:#222;background:#fff}details{margin-left:1.1em}summary{cursor:pointer}
.leaf{margin-left:2.2em}.says{color:#667}.resource{border-radius:4px;padding:0 .3em;color:#000;text-decoration:none}
:target{outline:2px solid #333}td,th{text-align:left;padding:0 1em 0 0;vertical-align:top}"""


class Resource:
    """A label within what is said of a node."""

    def __init__(self, number):
        self.number = number


class Row:
    """One line of a drawing: a node, or a chain of loads, with its goal and what is said of it."""

    def __init__(self, node, last, depth, parent, goal, says):
        self.node = node
        self.last = last
        self.depth = depth
        self.parent = parent
        self.goal = goal
        self.says = says

    @property
    def number(self):
        return str(self.node.number) if self.node is self.last else f"{self.node.number}-{self.last.number}"


def rows_of(derivation, width):
    """The rows of a derivation in the order of its nodes. A long chain of loads is one row."""
    nodes, rows, row_of, at = derivation.nodes, [], {}, 0
    while at < len(nodes):
        first = last = at
        while nodes[last].rule in ("lolli", "imp") and last + 1 < len(nodes) and nodes[last + 1].rule in ("lolli", "imp"):
            last += 1
        if last - first + 1 < LONG_CHAIN:
            last = first
        node = nodes[first]
        parent = row_of[node.parent.number] if node.parent else None
        says = said(derivation, node, width) if first == last else said_of_chain(derivation, nodes[first : last + 1], width)
        row = Row(node, nodes[last], parent.depth + 1 if parent else 0, parent, node.goal.text(width), says)
        for member in nodes[first : last + 1]:
            row_of[member.number] = row
        rows.append(row)
        at = last + 1
    return rows


def resources(numbers):
    """A set of labels within what is said: the first of them, where there are many."""
    pieces = []
    for number in numbers[:MOST_IN_SET]:
        pieces.extend([" ", Resource(number)])
    more = f" ... {len(numbers)} in all" if len(numbers) > MOST_IN_SET else ""
    return ["{", *pieces[1:], f"{more}}}"]


def said_of_chain(derivation, nodes, width):
    """What a long chain of loads says: the first and the last."""
    first, last = nodes[0].comes, nodes[-1].comes
    texts = [derivation.labels[number].text(width // 2) for number in (first, last)]
    return [f"loads {len(nodes)} clauses, from ", Resource(first), f": {texts[0]} to ", Resource(last), f": {texts[1]}"]


def said(derivation, node, width):
    """What the line of a node says, as pieces of text and labels."""
    rule, fields = node.rule, node.fields
    if rule == "tensor":
        sets = [resources(field[1:-1].split()) for field in fields[1:3]]
        return ["deals ", *sets[0], " to the first, ", *sets[1], " to the second"]
    if rule == "erase":
        return ["takes ", *(resources(node.spent) if node.spent else ["nothing"])]
    if rule in ("lolli", "imp"):
        kind = "resource" if rule == "lolli" else "clause"
        return [f"loads the {kind} ", Resource(node.comes), f": {derivation.labels[node.comes].text(width)}"]
    if rule == "clause":
        return said_of_clause(derivation, node, width)
    if rule in ("forall", "exists"):
        return said_of_quantifier(node, width)
    plain = {
        "true": "no resource is left",
        "with": "both sides, each from all resources",
        "left": "by the left side",
        "right": "by the right side",
        "bang": "from no resource",
        "num": "the numbers fit",
    }
    return [plain.get(rule) or f"the load of the module {node.goal.formula.name}"]


def said_of_quantifier(node, width):
    """The term for a quantifier's name, or for a constant of a module."""
    name = getattr(node.goal, "formula", None)
    term = "#" + node.fields[1] if node.rule == "forall" else node.fields[1]
    if name is None:
        return [f"the module's own constant is {term}"]
    return [f"{name.name} is new: {term}" if node.rule == "forall" else f"{name.name} is {cut(term, width)}"]


def said_of_clause(derivation, node, width):
    """The clause that shows an atom, where it stands, and the terms for its variables."""
    number = int(node.fields[1])
    label = derivation.labels[number]
    word = "spends the resource " if label.is_linear else "by the clause "
    values = [f"{spelling(name)} = {cut(value, width // 2)}" for name, value in node.values if not name.startswith("_~")]
    where = f" ({label.token.place}): {label.text(width)}"
    return [word, Resource(number), where, *([", with " + ", ".join(values)] if values else [])]


def plain(says):
    """What is said, as text."""
    return "".join(str(piece.number) if isinstance(piece, Resource) else piece for piece in says)


def spending(derivation):
    """Each resource as (label, text, where it comes from, the nodes that spend it)."""
    for number, label in sorted(derivation.labels.items()):
        if label.is_linear:
            yield number, label, f"node {label.node}" if label.node else label.token.place


def text_lines(derivation, rows, width):
    """The lines of a derivation as text: its nodes, and then its resources."""
    column = max(len(row.number) for row in rows)
    for row in rows:
        indent = "  " * min(row.depth, DEEPEST_INDENT) + (f"<{row.depth}> " if row.depth > DEEPEST_INDENT else "")
        yield f"{row.number:>{column}} {indent}{row.goal}   [{plain(row.says)}]"
    for number, label, place in spending(derivation):
        spent = f"spent at node {', '.join(map(str, label.spent))}" if label.spent else "not spent on the way taken"
        yield f"resource {number}: {label.text(width)}, from {place}, {spent}"


def colour(number):
    """The colour of a label: far from that of its neighbours."""
    return f"hsl({int(number) * 137 % 360},75%,{78 + int(number) % 3 * 5}%)"


def html_pieces(says, derivation):
    """What is said, with each resource in its colour and a link to where it comes from."""
    for piece in says:
        if isinstance(piece, Resource) and derivation.labels[int(piece.number)].is_linear:
            yield f'<a class="resource" style="background:{colour(piece.number)}" href="#r{piece.number}">{piece.number}</a>'
        else:
            yield html.escape(str(piece.number) if isinstance(piece, Resource) else piece)


def html_resources(derivation, width):
    yield "<table><tr><th>resource<th>clause<th>comes from<th>spent at</tr>"
    for number, label, place in spending(derivation):
        origin = f'<a href="#n{label.node}">{place}</a>' if label.node else html.escape(place)
        spent = " ".join(f'<a href="#n{node}">{node}</a>' for node in label.spent)
        mark = f'<span class="resource" style="background:{colour(number)}">{number}</span>'
        yield f'<tr id="r{number}"><td>{mark}<td>{html.escape(label.text(width))}<td>{origin}<td>{spent}</tr>'
    yield "</table>"


def html_lines(derivation, rows, title, width):
    """The lines of one page that needs nothing from elsewhere."""
    yield f'<!DOCTYPE html><html lang="en"><head><meta charset="utf-8"><title>{html.escape(title)}</title><style>{STYLE}</style></head><body>'
    yield f"<h1>{html.escape(title)}</h1>"
    yield from html_resources(derivation, width)
    opened = []
    for at, row in enumerate(rows):
        while opened and opened[-1] >= row.depth:
            opened.pop()
            yield "</details>"
        anchors = "".join(f'<a id="n{number}"></a>' for number in range(row.node.number + 1, row.last.number + 1))
        deep = f"&lt;{row.depth}&gt; " if row.depth > DEEPEST_FOLD else ""
        says = "".join(html_pieces(row.says, derivation))
        line = f'{anchors}{deep}{row.number} <b>{html.escape(row.goal)}</b> <span class="says">{says}</span>'
        if row.depth < DEEPEST_FOLD and at + 1 < len(rows) and rows[at + 1].depth > row.depth:
            opened.append(row.depth)
            yield f'<details{" open" if row.depth < OPEN_FOLDS else ""}><summary id="n{row.node.number}">{line}</summary>'
        else:
            yield f'<div class="leaf" id="n{row.node.number}">{line}</div>'
    yield "</details>" * len(opened) + "</body></html>"


def quoted(text):
    """A text as a string of DOT."""
    return '"' + text.replace("\\", "\\\\").replace('"', '\\"') + '"'


def hue(number):
    """A colour of DOT for a label, by a sum that has nothing to do with its neighbours'."""
    return f'"{zlib.crc32(str(number).encode()) % 360 / 360:.3f} 0.8 0.6"'


def dot_lines(derivation, rows, width):
    """The lines of a graph: nodes with what is said of them, and dashed the way of each resource to where it is spent."""
    row_at = {number: row.node.number for row in rows for number in range(row.node.number, row.last.number + 1)}
    yield "digraph derivation {"
    yield "node [shape=box fontname=monospace]"
    for row in rows:
        label = quoted(f"{row.number} {row.goal}")[:-1] + "\\n" + quoted(plain(row.says))[1:]
        yield f"n{row.node.number} [label={label}]"
        if row.parent:
            yield f"n{row.parent.node.number} -> n{row.node.number}"
    for number, label, place in spending(derivation):
        origin = f"n{row_at[label.node]}" if label.node else f"r{number}"
        if not label.node:
            yield f"r{number} [shape=ellipse color={hue(number)} label={quoted(f'{number} {label.text(width)}')}]"
        for node in label.spent:
            yield f"{origin} -> n{row_at[node]} [style=dashed constraint=false color={hue(number)}]"
    yield "}"
