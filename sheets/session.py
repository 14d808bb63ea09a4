"""The text of a day, taken apart: its table, and its commands with their lines.

Which lines are good is not judged here but learnt from the program: it names the line at which it stopped, and
what stands in front of that is read. So a line that can't be read is the program's misfit, and not the day's.
"""

from dataclasses import dataclass, field

from table import Table, read_table
from trouble import Misfit

LOAD, REPLACE, DUMP, SEVERAL, POINT, NODE = 6, 7, 8, 9, 11, 5


class Over(Exception):
    """The lines are over inside a table or a command."""


class Lines:
    """Lines of a session, taken one by one."""

    def __init__(self, lines):
        self.lines = lines
        self.at = 0

    def left(self):
        return self.at < len(self.lines)

    def next(self):
        """The bytes of the next line's frame."""
        if not self.left():
            raise Over
        try:
            frame = bytes.fromhex(self.lines[self.at].decode("ascii"))
        except ValueError:
            frame = b""
        if not frame:
            raise Misfit(f"line {self.at + 1} is no line of hex digits, and the program took it")
        self.at += 1
        return frame

    def take(self, kind):
        """The fields of the next line, whose frame is to be of this kind."""
        frame = self.next()
        if frame[:1] != bytes([kind]):
            raise Misfit(f"line {self.at} is no frame {kind:02x}, and the program took it")
        return frame[1:]


@dataclass
class Command:
    """A load, a replacement or a dump. A load has one point, 0, with the whole tree as its part.

    added is what the page asks for and the day doesn't.
    """
    kind: int
    line: int
    text: list
    points: list = field(default_factory=list)
    nodes: list = field(default_factory=list)
    added: bool = False

    def parts(self):
        """Each point with the nodes of its part."""
        at = 0
        for point, count in self.points:
            yield point, self.nodes[at:at + count]
            at += count


@dataclass
class Session:
    """What stands in front of the line where a session is over."""
    table: Table = None
    table_text: list = field(default_factory=list)
    commands: list = field(default_factory=list)
    unfinished: int = None


def added_dump(line):
    return Command(DUMP, line, [b"08"], added=True)


def load_of(nodes, line):
    """A load of a tree, as a command that stands at a line."""
    text = [b"06%04x" % len(nodes)] + [b"05%02x%016x" % node for node in nodes]
    return Command(LOAD, line, text, [(0, len(nodes))], list(nodes))


def read_session(lines):
    """The table and all whole commands; unfinished is the first line of a command that isn't whole."""
    reader, session = Lines(lines), Session()
    try:
        session.table = read_table(reader)
    except Over:
        return session
    except (IndexError, ValueError, TypeError):
        raise Misfit("the table can't be read, and the program took it") from None
    session.table_text = lines[:reader.at]
    while reader.left():
        start = reader.at
        try:
            session.commands.append(read_command(reader))
        except Over:
            session.unfinished = start + 1
            break
    return session


def read_command(lines):
    start = lines.at
    kind, *fields = lines.next()
    if kind == LOAD:
        points = [(0, number(fields))]
    elif kind == REPLACE:
        points = [(number(fields[:2]), number(fields[2:]))]
    elif kind == SEVERAL:
        points = [read_point(lines) for _ in range(number(fields))]
    elif kind == DUMP:
        points = []
    else:
        raise Misfit(f"line {start + 1} is no command, and the program took it")
    nodes = [read_node(lines) for _ in range(sum(count for _, count in points))]
    return Command(kind, start + 1, lines.lines[start:lines.at], points, nodes)


def read_point(lines):
    fields = lines.take(POINT)
    return number(fields[:2]), number(fields[2:])


def read_node(lines):
    fields = lines.take(NODE)
    return fields[0] if fields else 0, number(fields[1:])


def number(fields):
    return int.from_bytes(bytes(fields), "big")
