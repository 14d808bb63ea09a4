"""Equations as formulas that people can read, in pieces: the page dresses each piece, plain text joins them.

A piece is a pair of a kind and a text: "word" for signs and words, "symbol", "place" (which child), "set", "own" and
"reasons" (a set as its number).
"""

from table import USES_B

SIGNS = {2: "∪", 3: "∩", 4: "∪", 5: "∩", 9: "∖"}


def occurrence(production, at, names):
    """A set of a production: its symbol, which child it is if it is one, and its name."""
    symbol = production.symbol_at(at.position)
    place = [("place", str(at.position))] if at.position else []
    return [("symbol", names.symbol(symbol)), *place, ("word", "."), ("set", names.set(symbol, at.index))]


def own(production, names):
    """The own set, which is always the left symbol's (RULES 3.3)."""
    return [("symbol", names.symbol(production.left)), ("word", "."), ("own", "own")]


def formula(production, equation, names):
    """The right side of an equation."""
    op, _, _, c = equation
    a = occurrence(production, equation.a, names) if op > 1 and op < 10 else []
    b = occurrence(production, equation.b, names) if op in USES_B else []
    constant = [("reasons", c)]
    if op == 0:
        return constant
    if op == 1:
        return own(production, names)
    if op == 2 and c == 0:
        return a
    if op in (2, 3):
        return a + [("word", f" {SIGNS[op]} ")] + constant
    if op in SIGNS:
        return a + [("word", f" {SIGNS[op]} ")] + b
    if op == 6:
        return b + [("word", " if ")] + constant + [("word", " ⊆ ")] + a + [("word", ", else ∅")]
    if op == 7:
        return b + [("word", " if ")] + a + [("word", f" has {c} or more, notes not counted, else ∅")]
    return a + [("word", " ∪ ")] + own(production, names)


def equations(production, names):
    """Operation, left side and right side of each equation of a production."""
    for at, equation in production.equations.items():
        yield equation.op, occurrence(production, at, names), formula(production, equation, names)
