"""Pieces of the page that several of its parts use: safe text, sets as coloured marks, instances."""

from html import escape

from names import reasons_in

FIRST_NOTE = 56
# of a longer set a climb shows so many members, those first for which it was worked on; the sheets show all
MOST_SHOWN = 6


def safe(text):
    return escape(str(text), quote=True)


def hue(number):
    """A colour for a number, far from its neighbours'."""
    return (number * 67 + 20) % 360


def colours():
    """The colours of the 64 reasons and the 32 symbols, as style rules."""
    reasons = "".join(f".r{code}{{--h:{hue(code)}}}" for code in range(64))
    return reasons + "".join(f".s{symbol}{{--h:{(symbol * 97 + 210) % 360}}}" for symbol in range(32))


def reason(code, names, mark=""):
    note = " note" if code >= FIRST_NOTE else ""
    return f'<b class="r{code}{note}{mark}">{safe(names.reason(code))}</b>'


def reasons(value, names, known=None, kept=None):
    """The members of a set. Those that a known set doesn't have are marked as new, those that aren't kept as gone."""
    if not value:
        return "<u>∅</u>"

    def mark(code):
        new = known is not None and not known >> code & 1
        gone = kept is not None and not kept >> code & 1
        return " new" * new + " gone" * gone

    return "".join(reason(code, names, mark(code)) for code in reasons_in(value))


def in_short(value, names, first, **marks):
    """The members of a set in a climb, where many are too many to look at."""
    if value.bit_count() <= MOST_SHOWN:
        return reasons(value, names, **marks)
    codes = sorted(reasons_in(value), key=lambda code: not first >> code & 1)[:MOST_SHOWN]
    more = f"<u>and {value.bit_count() - MOST_SHOWN} more</u>"
    return reasons(sum(1 << code for code in codes), names, **marks) + more


def named_set(symbol, index, value, names, differs=False):
    """A set with its name in front."""
    way = "up" if index < 4 else "down"
    return (f'<span class="set{" differs" if differs else ""}"><i class="{way}">{safe(names.set(symbol, index))}</i>'
            f"<span>{reasons(value, names)}</span></span>")


def instance(number, symbol, names):
    """What a set of the tree is called: its node and its name. Not made safe yet."""
    return f"{number // 8}.{names.set(symbol, number % 8)}"
