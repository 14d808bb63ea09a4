"""What the program printed, taken apart: frames 11, 12, 13 and 1f (RULES 18.1), in the order of the commands.

Every set of the page comes from here. The frames don't say which command they answer; that follows from the
commands: a refusal names the command's line, an update ends with its 12, and a dump has a 13 for each declared set.
"""

import struct
from typing import NamedTuple

from trouble import Misfit

# refusals that end a session (RULES 19.5)
STOPPING = {1, 2, 3, 4, 5, 13, 14}
# how many bytes a printed line has, by its type
LENGTHS = {b"11": 19, b"12": 19, b"13": 23, b"1f": 13}


class Climb(NamedTuple):
    """A circle that an update worked on: its least instance, its size and how many rounds were made."""
    least: int
    size: int
    rounds: int


class Done(NamedTuple):
    """What an update tells at its end."""
    circles: int
    evaluations: int
    changed: int


class Refusal(NamedTuple):
    number: int
    line: int


class Answers:
    """Printed frames, taken one by one."""

    def __init__(self, text):
        self.text = text
        self.at = 0

    def left(self):
        return self.at < len(self.text)

    def kind(self):
        return self.text[self.at:self.at + 2]

    def take(self, kind, count=1):
        """The bytes of so many frames of a kind."""
        end = self.at + LENGTHS[kind] * count
        lines = self.text[self.at:end]
        self.at = end
        try:
            frames = bytes.fromhex(lines.decode("ascii"))
        except ValueError:
            frames = b""
        size = LENGTHS[kind] // 2
        whole = len(frames) == size * count and lines[2 * size::2 * size + 1] == b"\n" * count
        if not whole or frames[::size] != bytes.fromhex(kind.decode()) * count:
            raise Misfit(f"the program was to print {count} frames {kind.decode()}, and printed something else")
        return frames

    def refusal(self):
        """The next frame, where it is a refusal."""
        if self.kind() != b"1f":
            return None
        return Refusal(*struct.unpack(">xBI", self.take(b"1f")))

    def refused(self, line):
        """The number by which the command of a line is refused, or nothing where the next frame says no such thing."""
        start = self.at
        found = self.refusal()
        if found and found.line == line:
            return found.number
        # it belongs to a later command: a dump of a tree without sets prints nothing
        self.at = start
        return None

    def update(self):
        """The circles of an update, in the order in which they were worked on, and done's numbers."""
        climbs, made = [], []
        while self.kind() == b"11":
            least, high, low, size, closed = struct.unpack(">xHBHHB", self.take(b"11"))
            made.append((least, size))
            if len(made) != (high << 16) + low or made[0] != made[-1] or closed > 1:
                raise Misfit("the program printed rounds that don't follow each other")
            if closed:
                climbs.append(Climb(least, size, len(made)))
                made = []
        if made:
            raise Misfit("the program printed rounds of a circle that never closed")
        done = Done(*struct.unpack(">xHIH", self.take(b"12")))
        if done[:2] != (len(climbs), sum(climb.size * climb.rounds for climb in climbs)):
            raise Misfit("the program printed other numbers of circles and evaluations than its rounds make")
        return climbs, done

    def sets(self, instances):
        """The sets of a dump, by their instances."""
        frames = struct.iter_unpack(">xHQ", self.take(b"13", len(instances)))
        found = dict(frames)
        if list(found) != instances:
            raise Misfit("the program dumped other sets than the tree declares")
        return found


def stopped_by(text):
    """The refusal that ended the session, if one did. It is the last frame that was printed."""
    start = text[:-1].rfind(b"\n") + 1
    found = Answers(text[start:]).refusal() if text else None
    return found if found and found.number in STOPPING else None
