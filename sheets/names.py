"""The names file: what people call the reasons, symbols, productions and sets of a table.

One name a line, UTF-8; empty lines and lines that begin with # say nothing:

    reason 3 late delivery          the reason with code 3
    symbol 2 account
    production 4 account of two lines
    set 2 0 held                    of symbol 2 the set with index 0

A name is all that follows the numbers. What has no name is shown by its number.
"""

from trouble import Unusable

# the numbers of each kind, with the first that is too large (RULES 1.2, 2.1, 2.2)
KINDS = {"reason": (64,), "symbol": (32,), "production": (64,), "set": (32, 8)}
LONGEST = 60


class Names:
    """Names by kind and numbers, with something to say where there is none."""

    def __init__(self, given=None):
        self.given = given or {}

    def reason(self, code):
        return self.given.get(("reason", code), str(code))

    def symbol(self, number):
        return self.given.get(("symbol", number), f"S{number}")

    def production(self, number):
        return self.given.get(("production", number), f"P{number}")

    def set(self, symbol, index):
        return self.given.get(("set", symbol, index), str(index))


def reasons_in(value):
    """The codes of a set's members, rising."""
    return [code for code in range(64) if value >> code & 1]


def read_names(content, path):
    """The names of a file's bytes; path is for messages."""
    try:
        lines = content.decode("utf-8-sig").split("\n")
    except UnicodeDecodeError:
        raise Unusable(f"{path} is no names file: it is not UTF-8 text") from None
    given = {}
    for number, line in enumerate(lines, 1):
        if line.strip() and not line.lstrip().startswith("#"):
            key, name = read_name(line.strip(), f"{path}, line {number}")
            if key in given:
                raise Unusable(f"{path}, line {number}: {' '.join(map(str, key))} has a name already")
            given[key] = name
    return Names(given)


def read_name(line, where):
    kind, *rest = line.split(None, 1)
    limits = KINDS.get(kind)
    if limits is None:
        raise Unusable(f"{where}: a name is for a {', '.join(KINDS)}, and not for '{shown(kind)}'")
    words = (rest[0] if rest else "").split(None, len(limits))
    if len(words) <= len(limits):
        raise Unusable(f"{where}: after '{kind}' come {len(limits)} numbers and a name".replace(" 1 numbers", " a number"))
    numbers = [read_number(word, limit, where) for word, limit in zip(words, limits)]
    name = words[-1]
    if not name.isprintable():
        raise Unusable(f"{where}: the name has a character that can't be shown")
    if len(name) > LONGEST:
        raise Unusable(f"{where}: the name has more than {LONGEST} characters")
    return (kind, *numbers), name


def read_number(word, limit, where):
    if not (word.isascii() and word.isdecimal() and len(word) < 4 and int(word) < limit):
        raise Unusable(f"{where}: a number from 0 to {limit - 1} should stand there, and not '{shown(word)}'")
    return int(word)


def shown(word):
    """A word of a file as a message can have it."""
    return "".join(c if c.isprintable() else "?" for c in word[:20])
