"""Lays formulas and terms out as `lolli print` does, with terms in place of variables."""
from .syntax import Node

LEVELS = {":-": 0, "<=": 0, "-o": 1, "=>": 1, "use": 1, ";": 2, "&": 3, ",": 4}
NOTHING = {}
# An operand and its operator, with the blanks round it.
SHORTEST = 4


def argument(term, terms=NOTHING):
    """A term in the form of an argument. `terms` has texts in this form for names."""
    if term.kind == "number":
        return term.name
    if not term.parts and term.name in terms:
        return terms[term.name]
    text = inner_term(term, terms)
    return f"({text})" if term.parts else text


def inner_term(term, terms=NOTHING):
    """A term without brackets round it."""
    if term.kind == "sum":
        return f"{argument(term.parts[0], terms)} {term.name} {argument(term.parts[1], terms)}"
    if term.name == "::" and len(term.parts) == 2:
        return list_text(term, terms)
    if not term.parts:
        return unbracketed(argument(term, terms)) if term.name in terms else spelling(term.name)
    return " ".join([headed(term.name, terms), *[argument(part, terms) for part in term.parts]])


def list_text(term, terms):
    texts = []
    while term.name == "::" and len(term.parts) == 2:
        first = inner_term(term.parts[0], terms)
        texts.append(f"({first})" if "::" in first and argument(term.parts[0], terms).startswith("(") else first)
        term = term.parts[1]
    return "::".join([*texts, inner_term(term, terms)])


def unbracketed(text):
    """A term in the form of an argument, without its brackets."""
    return text[1:-1] if text.startswith("(") else text


def spelling(name):
    return "_" if name.startswith("_~") else name


def headed(name, terms):
    """A name with arguments behind it."""
    return terms.get(name, spelling(name))


def formula_text(node, terms=NOTHING):
    """A formula, with brackets where the grammar needs them and round quantified operands."""
    if node.kind in ("true", "erase"):
        return node.kind
    if node.kind == "atom":
        return inner_term(node, terms)
    if node.kind == "num":
        return f"{expression_text(node.parts[0], terms)} {node.name} {expression_text(node.parts[1], terms)}"
    if node.kind == "bang":
        return "{" + formula_text(node.parts[0], terms) + "}"
    if node.kind in ("forall", "exists"):
        inner = {name: text for name, text in terms.items() if name != node.name} if node.name in terms else terms
        return f"{node.kind} {spelling(node.name)}\\ {formula_text(node.parts[0], inner)}"
    if node.kind == "use":
        load = " ".join([node.name, *[argument(part, terms) for part in node.parts[:-1]]])
        return f"{load} --> {operand(node.parts[-1], 1, terms)}"
    return joined(node, terms)


def joined(node, terms):
    """Operands of one operator, in the order of the text."""
    level = LEVELS[node.kind]
    if node.kind in (":-", "<="):
        return f"{operand(node.parts[0], 0, terms)} {node.kind} {operand(node.parts[1], 1, terms)}"
    texts = []
    while node.kind in LEVELS and LEVELS[node.kind] == level and node.kind != "use":
        texts.append(operand(node.parts[0], level + 1, terms))
        texts.append(node.kind)
        node = node.parts[1]
    return " ".join([*texts, operand(node, level, terms)])


def operand(node, least, terms):
    """An operand whose operator binds at least so close, or in brackets."""
    text = formula_text(node, terms)
    is_loose = LEVELS.get(node.kind, 5) < least or node.kind in ("forall", "exists")
    return f"({text})" if is_loose else text


def expression_text(term, terms, least=0):
    """An expression of `is`, `<` and `=<`, with brackets where they are needed."""
    if term.kind != "sum":
        return argument(term, terms)
    level = 1 if term.name == "*" else 0
    text = f"{expression_text(term.parts[0], terms, level)} {term.name} {expression_text(term.parts[1], terms, level + 1)}"
    return f"({text})" if level < least else text


def start_of(node, most):
    """A formula, without what stands behind so many operands that operators leaning to the right join."""
    chain, rest = [], node
    while rest.kind in LEVELS and rest.kind not in (":-", "<=", "use") and len(chain) < most:
        chain.append(rest)
        rest = rest.parts[1]
    if len(chain) < most:
        return node
    rest = Node("atom", "...", (), node.token)
    for joint in reversed(chain):
        rest = joint._replace(parts=(joint.parts[0], rest))
    return rest


def formula_start(node, terms, width):
    """A formula as a text of at most so many characters, however long it is; 0 is no limit."""
    return cut(formula_text(start_of(node, width // SHORTEST + 1) if width else node, terms), width)


def cut(text, width):
    """A text of at most so many characters; 0 is no limit."""
    return text if not width or len(text) <= width else text[: width - 3] + "..."
