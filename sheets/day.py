"""The day from its first line to its verdict: sheet one, sheet two, and where they differ.

The program is run three times: on the day's text as it is, which tells what was accepted and where it stopped; on
the same commands with a dump behind each accepted update, which gives sheet one and the sets on the way; and on a
cold load of the tree that the day ended with, which gives sheet two.
"""

from dataclasses import dataclass, field, replace

import program
from answers import LENGTHS, Answers, Done, Refusal, stopped_by
from circles import worked_on
from climb import climbs_of
from session import DUMP, LOAD, Command, Session, added_dump, load_of, read_session
from tree import Tree, exchanged
from trouble import Misfit, Unusable

MOST_COMMANDS = 10_000


@dataclass
class Event:
    """What became of a command: a refusal, or an update with its circles, or a dump of so many sets.

    nodes is the size of the tree held behind it. Of a dump only the number of its sets is kept, with a mark to compare.
    """
    command: Command
    refused: int = None
    done: Done = None
    climbs: list = field(default_factory=list)
    dumped: tuple = None
    worked: list = field(default_factory=list)
    nodes: int = 0

    def answer(self):
        """What the program said to the command."""
        return self.refused, self.done, self.climbs, self.dumped


@dataclass
class Sheet:
    """A tree with its sets, and the updates that led to them."""
    tree: Tree
    sets: dict
    events: list

    def total(self):
        """Done's numbers, added up over the updates."""
        told = [event.done for event in self.events if event.done]
        return Done(*(sum(column) for column in zip(*told))) if told else Done(0, 0, 0)


@dataclass
class Day:
    """All that the page and the plain text show."""
    session: Session
    stopped: Refusal = None
    stopped_text: bytes = b""
    events: list = field(default_factory=list)
    one: Sheet = None
    two: Sheet = None
    refused_cold: int = None
    doubts: list = field(default_factory=list)

    def compared(self):
        """Instance, set of sheet one, set of sheet two, for every set of the tree."""
        other = self.two.sets if self.two else {}
        return [(instance, value, other.get(instance)) for instance, value in self.one.sets.items()]

    def differing(self):
        return [row for row in self.compared() if row[1] != row[2]] if self.one else []

    def agrees(self):
        """Whether sheet two says what sheet one does, and no climb is in doubt. Without a tree nothing can differ."""
        return self.one is None or (self.two is not None and not self.differing() and not self.doubts)


def answered(table, commands, text, look=lambda *update: None):
    """The events of commands, by what the program printed for them, and the tree held at the end.

    look is called for each command that is accepted, with its event, its dump if it is one, the tree, and for each
    node of the tree which it was before.
    """
    answers, events, tree, formerly = Answers(text), [], None, None
    for command in commands:
        event, sets = Event(command, answers.refused(command.line)), None
        if event.refused is None and command.kind == DUMP:
            if tree is None:
                raise Misfit(f"the program dumped at line {command.line}, and no tree was held")
            sets = answers.sets(tree.instances())
            event.dumped = len(sets), hash(tuple(sets.values()))
        elif event.refused is None:
            event.climbs, event.done = answers.update()
            tree, formerly = grown(table, tree, command)
        event.nodes = len(tree.nodes) if tree else 0
        if event.refused is None:
            look(event, sets, tree, formerly)
        events.append(event)
    if answers.left() and not (stopped_by(text) and answers.kind() == b"1f"):
        raise Misfit("the program printed more than its commands ask for")
    return events, tree


def grown(table, tree, command):
    """The tree behind an accepted command, and for each of its nodes which it was before."""
    try:
        if command.kind == LOAD:
            return Tree(table, command.nodes), lambda node: None
        return exchanged(tree, list(command.parts()))
    except (IndexError, AttributeError):
        raise Misfit(f"the program accepted line {command.line}, which fits no tree") from None


def with_looks(day):
    """The day's commands with a dump behind each update that was accepted."""
    commands, line = [], len(day.session.table_text) + 1
    for event in day.events:
        commands.append(replace(event.command, line=line))
        line += len(event.command.text)
        if event.done:
            commands.append(added_dump(line))
            line += 1
    return commands


class Looker:
    """Keeps of the dump behind each update what its circles ended with, and what that was before."""

    def __init__(self):
        self.sets = {}
        self.update = None

    def __call__(self, event, sets, tree, formerly):
        if event.done:
            self.update = event
        elif event.command.added:
            self.update.worked = worked_on(self.update.climbs, tree, sets, self.sets, formerly)
            changed = sum(worked.changed() for worked in self.update.worked)
            if changed != self.update.done.changed:
                raise Misfit(f"the program says that {self.update.done.changed} sets changed, and {changed} did")
            self.sets = sets


def play(session, commands):
    """Runs commands that have a dump behind each update: their events without these, the tree, and its sets."""
    text = session.table_text + [line for command in commands for line in command.text]
    looker = Looker()
    events, tree = answered(session.table, commands, program.run_lines(text), looker)
    return [event for event in events if not event.command.added], tree, looker.sets


def day_of(text):
    """The day of a session's text."""
    printed = program.run(text)
    stopped = stopped_by(printed)
    lines = text.split(b"\n")
    day = Day(read_session(lines[:stopped.line - 1] if stopped else lines[:-1]), stopped)
    if stopped:
        day.stopped_text = b"".join(lines[stopped.line - 1:stopped.line])
    session = day.session
    if session.table is None:
        if not stopped or len(printed) != LENGTHS[b"1f"]:
            raise Misfit("the table isn't whole, and the program doesn't refuse it")
        return day
    if len(session.commands) > MOST_COMMANDS:
        raise Unusable(f"the day has {len(session.commands)} commands, and a page takes {MOST_COMMANDS}")
    day.events, tree = answered(session.table, session.commands, printed)
    if tree is not None:
        grow(day)
        cold(day)
        climbs_of(day)
    return day


def grow(day):
    """Sheet one: the day's own commands once more, with a look at the sets behind each update."""
    seen, tree, sets = play(day.session, with_looks(day))
    if [event.answer() for event in seen] != [event.answer() for event in day.events]:
        raise Misfit("the program answered the day's commands otherwise when they came a second time")
    for event, again in zip(day.events, seen):
        event.worked = again.worked
    day.one = Sheet(tree, sets, day.events)


def cold(day):
    """Sheet two: a load of the tree that the day ended with, and nothing before it."""
    start = len(day.session.table_text) + 1
    load = load_of(day.one.tree.nodes, start)
    events, tree, sets = play(day.session, [load, added_dump(start + len(load.text))])
    day.refused_cold = events[0].refused
    if day.refused_cold is None:
        day.two = Sheet(tree, sets, events)
