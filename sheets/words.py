"""What the page and the plain text both say in words: refusals, commands, lines that stop a session, equations."""

from names import reasons_in
from session import DUMP, LOAD, SEVERAL

# RULES chapter 14, in short
REFUSALS = {
    1: "a count of the table is out of bounds",
    2: "a production names a symbol that there is not",
    3: "symbol 0 declares an inherited set",
    4: "an equation with an unknown operation, a stray field, or too large a count",
    5: "an equation uses a set that its production doesn't have",
    6: "a node has a production that there is not",
    7: "the nodes are not one whole subtree of the right symbol",
    8: "the tree would grow beyond 512 nodes",
    9: "a point is no node of the tree",
    10: "an update is still open",
    11: "the record is out of bounds",
    12: "there is no such set",
    13: "this is no line of hex digits",
    14: "this is no frame, or not the one that is due here",
    15: "a buffer is too short",
    16: "no tree is held",
    17: "no update is open",
    21: "a waiver inside a circle",
    22: "a replacement has one to eight points",
    23: "the points don't rise, or one is inside another's old part",
}


def refusal(number):
    return REFUSALS.get(number, "a number that no rule has")


def plural(count, word):
    return f"{count:,} {word}" if count == 1 else f"{count:,} {word}s"


def command(asked):
    """What a command asks for."""
    if asked.kind == DUMP:
        return "dump"
    if asked.kind == LOAD:
        return f"load of {plural(len(asked.nodes), 'node')}"
    points = [f"node {point} by {plural(count, 'node')}" for point, count in asked.points[:9]]
    if len(asked.points) > 9:
        points.append("and so on")
    where = ", ".join(points) or "no point"
    return f"correction at {len(asked.points)} points: {where}" if asked.kind == SEVERAL else f"correction of {where}"


def stop(day):
    """Why and where a session stopped, and a hint where its line gives one."""
    number, line = day.stopped
    said = f"The session stops at line {line}: {refusal(number)} (refusal {number})."
    over = line > 1 and not day.stopped_text or not day.stopped_text and number == 14
    return f"{said} {hint(day.stopped_text, number, over)}".strip()


def hint(text, number, over):
    """What is the matter with a line that 13 refuses, as far as its bytes show it."""
    if over:
        return "The text is over there."
    if number != 13:
        return ""
    if text.endswith(b"\r"):
        return "It ends with CR LF, and a line ends with LF alone."
    digits = text.strip()
    if not digits or set(digits) - set(b"0123456789abcdefABCDEF"):
        return "It has something else than hex digits."
    if digits != digits.lower():
        return "Its digits have large letters."
    if len(text) % 2:
        return "Its digits are odd in number."
    return "It is too long." if len(text) > 28 else "It does not end with LF."


def left_out(day):
    """What of the day is not shown because it stopped, or nothing."""
    if day.session.table is None:
        return "Its table isn't whole, so that there is nothing to run."
    cut = day.session.unfinished
    return f"The command of line {cut} isn't whole and was not run." if cut else ""


def counts(day):
    """The day in numbers."""
    loads = sum(event.done is not None and event.command.kind == LOAD for event in day.events)
    updates = sum(event.done is not None for event in day.events)
    refused = sum(event.refused is not None for event in day.events)
    return f"{plural(loads, 'load')}, {plural(updates - loads, 'correction')}, {refused} refused"


def verdict(day):
    """One sentence: whether the sheets agree."""
    if day.one is None:
        return "There is no tree to compare: no load was accepted."
    total, apart = len(day.one.sets), len(day.differing())
    if day.refused_cold is not None:
        return f"The sheets do not agree: the cold load is refused ({refusal(day.refused_cold)})."
    if apart:
        return f"The sheets do not agree: {apart} of {plural(total, 'set')} differ."
    if day.doubts:
        return f"The sheets agree in all {plural(total, 'set')}, but not the climbs: {day.doubts[0]}."
    return f"The sheets agree in all {plural(total, 'set')}." if total else "The sheets agree: the tree has no sets."


def set_text(value, names):
    """A set in plain text."""
    return "{" + ", ".join(names.reason(code) for code in reasons_in(value)) + "}" if value else "-"
