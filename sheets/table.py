"""A rule table, as the frames 01 to 04 of a session have it.

The sheets need to know which sets a node has, and the page shows every equation. Nothing is judged here: a table
is read only when the program has taken it.
"""

from dataclasses import dataclass
from typing import NamedTuple

# which operations use which fields (RULES 3.2)
USES_A = {2, 3, 4, 5, 6, 7, 8, 9}
USES_B = {4, 5, 6, 7, 9}
USES_C = {0, 2, 3, 6, 7}
USES_OWN = {1, 8}


class Occurrence(NamedTuple):
    """A set of a production: position 0 is its left symbol, position k its kth child."""
    position: int
    index: int


class Equation(NamedTuple):
    """What a set of a production is worked out from."""
    op: int
    a: Occurrence
    b: Occurrence
    c: int

    def arguments(self):
        """The occurrences that the operation uses, each once."""
        used = [self.a] * (self.op in USES_A) + [self.b] * (self.op in USES_B)
        return list(dict.fromkeys(used))


@dataclass(frozen=True)
class Production:
    """A left symbol, a row of children, and the equations by the occurrences that they define."""
    left: int
    children: tuple
    equations: dict

    def symbol_at(self, position):
        return self.children[position - 1] if position else self.left


@dataclass(frozen=True)
class Table:
    """Symbols as pairs of counts, and productions."""
    symbols: tuple
    productions: tuple

    def declared(self, symbol):
        """The indices of a symbol's sets: synthesized ones from 0 on, inherited ones from 4 on."""
        return declared(*self.symbols[symbol])


def declared(synthesized, inherited):
    return tuple(range(synthesized)) + tuple(range(4, 4 + inherited))


def defined_by(symbols, left, children):
    """The occurrences that a production has equations for, in the order of their frames (RULES 2.5)."""
    yield from (Occurrence(0, index) for index in range(symbols[left][0]))
    for position, child in enumerate(children, 1):
        yield from (Occurrence(position, 4 + index) for index in range(symbols[child][1]))


def read_table(lines):
    """The table that the lines begin with."""
    symbol_count, production_count = lines.take(1)
    symbols = tuple(tuple(lines.take(2)) for _ in range(symbol_count))
    return Table(symbols, tuple(read_production(lines, symbols) for _ in range(production_count)))


def read_production(lines, symbols):
    left, _, *children = lines.take(3)
    wanted = list(defined_by(symbols, left, children))
    return Production(left, tuple(children), {set_: read_equation(lines) for set_ in wanted})


def read_equation(lines):
    fields = lines.take(4)
    return Equation(fields[0], Occurrence(*fields[1:3]), Occurrence(*fields[3:5]), int.from_bytes(fields[5:], "big"))
