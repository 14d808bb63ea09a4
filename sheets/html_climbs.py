"""The day command by command: for each update its circles by rank, their rounds and a picture of the climb."""

from itertools import groupby

import words
from html_parts import in_short, instance, safe
from picture import drawn
from words import plural

# so many characters of circles are listed on a page; updates behind these are shown by their numbers and their picture
MOST_LISTED = 5_000_000
# updates are folded where their lists name more sets than this
LONG = 500


class Room:
    """How much a page still has room for."""

    def __init__(self, left):
        self.left = left

    def listed(self, row, names):
        """The circles of an update, or where to find them if the page is full."""
        if self.left <= 0:
            return '<p class="legend">The page would grow too long: <code>./thrummisk explain</code> lists these circles.</p>'
        text = circles(row, names)
        self.left -= len(text)
        return text


def size(event):
    """How many sets the list of an update's circles names."""
    return sum(len(worked.members) + sum(map(len, worked.found or [])) for worked in event.worked)


def the_day(day, names, room):
    opened = sum(map(size, day.events)) <= LONG
    rows = "".join(told(event, names, room, opened) for event in day.events)
    stop = f'<p class="refused">{safe(words.stop(day))} {safe(words.left_out(day))}</p>' if day.stopped else ""
    empty = "" if day.events else "<p>The day has no command.</p>"
    return f'<section id="day"><h2>The day, command by command</h2>{key()}{rows}{empty}{stop}</section>\n'


def the_cold_load(day, names, room):
    event = day.two.events[0]
    return (f'<section id="cold"><h2>The cold load</h2>{update(event, names, room, size(event) <= LONG, "")}'
            "</section>\n")


def key():
    return ('<p class="legend">In the pictures a bar is a round: as high as its circle then has members, dark where the '
            "round found them; a dot is where the circle closed. Circles stand in the order of their ranks. Underlined is what "
            "a round found, struck out what an update took away.</p>")


def told(event, names, room, opened):
    line = f'<span class="line">line {event.command.line}</span>'
    what = words.command(event.command)
    if event.refused is not None:
        return (f'<p class="refused"><span class="what">{what}</span>, line {event.command.line}, is refused: '
                f"{words.refusal(event.refused)} (refusal {event.refused})</p>")
    if event.done is None:
        return f'<p class="dumped">{what}, {line}: {plural(event.dumped[0], "set")}</p>'
    return update(event, names, room, opened, line)


def update(event, names, room, opened, line):
    done = event.done
    labels = [instance(worked.members[0], worked.symbols[0], names) for worked in event.worked]
    listed = room.listed(event.worked, names)
    return (f'<details class="update"{" open" if opened else ""}><summary><span class="what">{words.command(event.command)}</span> '
            f'{line} <span class="told">{plural(done.circles, "circle")}, {plural(done.evaluations, "evaluation")}, '
            f"{done.changed:,} changed; the tree has {plural(event.nodes, 'node')}</span></summary>"
            f"{drawn(event.worked, labels)}{listed}</details>\n")


def circles(row, names):
    """The circles by rank; neighbours that are lone share a line, since each is one set and one round."""
    if not row:
        return ""
    rows = "".join(f'<tr><td class="order">{numbers}</td>{line(group, names)}</tr>\n' for numbers, group in grouped(row))
    return ('<table class="rounds"><thead><tr><th class="order">circle</th><th class="members">its sets, before the '
            f"update</th><th>what each round found</th></tr></thead><tbody>{rows}</tbody></table>")


def grouped(row):
    """The circles' numbers from 1 on, as text, and the circles of one line."""
    number = 1
    for lone, group in groupby(row, key=lambda worked: worked.lone):
        group = list(group)
        for part in [group] if lone else [[worked] for worked in group]:
            last = number + len(part) - 1
            yield f"{number}" if last == number else f"{number}–{last}", part
            number = last + 1


def line(group, names):
    members = " ".join(before(*row, names) for worked in group
                       for row in zip(worked.members, worked.symbols, worked.before, worked.after))
    found = alone(group, names) if group[0].lone else rounds(group[0], names)
    return f'<td class="members">{members}</td><td>{found}</td>'


def alone(group, names):
    """What the one round of each lone circle found."""
    return " ".join(changed_set(worked, 0, worked.after[0], 0, names) for worked in group)


def before(member, symbol, value, after, names):
    """A set as it was before the update; what is gone behind it is struck out."""
    had = "<u>new</u>" if value is None else in_short(value, names, value & ~after, kept=after)
    return f'<span class="set"><i>{safe(instance(member, symbol, names))}</i><span>{had}</span></span>'


def rounds(worked, names):
    if worked.found is None:
        after = " ".join(changed_set(worked, place, value, 0, names) for place, value in enumerate(worked.after))
        return f'<p class="quiet">{worked.climb.rounds} rounds, not asked for one by one. In the end: {after}</p>'
    known, rows = {}, []
    for changed in worked.found:
        rows.append(" ".join(changed_set(worked, place, value, known.get(place, 0), names)
                             for place, value in changed.items()))
        known.update(changed)
    closing = '<span class="quiet">nothing new</span>'
    return "<ol>" + "".join(f"<li>{row or closing}</li>" for row in rows) + "</ol>"


def changed_set(worked, place, value, known, names):
    """A set that a round changed, with what is new in it marked."""
    label = instance(worked.members[place], worked.symbols[place], names)
    gained = value & ~(worked.before[place] or 0)
    return f'<span class="set"><i>{safe(label)}</i><span>{in_short(value, names, gained, known=known)}</span></span>'
