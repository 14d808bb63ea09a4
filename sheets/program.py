"""Runs the proved program: whole sessions, and sessions that are asked on as the answers come.

It is run as its users run it, by ./thrummisk. Another program of the same frames can be put in its place by the
variable THRUMMISK_PROGRAM; the tests do so.
"""

import os
import select
import subprocess
from pathlib import Path

from trouble import Unusable

ROOT = Path(__file__).resolve().parent.parent
# seconds that an answer may take
PATIENCE = 60


def path_of_program():
    path = Path(os.environ.get("THRUMMISK_PROGRAM") or ROOT / "thrummisk").absolute()
    if not (path.is_file() and os.access(path, os.X_OK)):
        raise Unusable(f"no program {path} that can be run")
    return path


def started():
    try:
        return subprocess.Popen([path_of_program()], stdin=subprocess.PIPE, stdout=subprocess.PIPE)
    except OSError as error:
        raise Unusable(f"the program can't be run: {error.strerror}") from None


def run(text):
    """All that the program prints for a session."""
    process = started()
    printed, _ = process.communicate(text)
    if process.returncode != 0:
        raise Unusable(f"the program ended with status {process.returncode}")
    return printed


def run_lines(lines):
    return run(b"".join(line + b"\n" for line in lines))


class Talk:
    """A session that goes on: a load and a dump are handed in, and their answers read before the next.

    One load with its answers is less than a pipe holds, so that neither side waits for the other.
    """

    def __init__(self, table_lines):
        self.process = started()
        self.rest = b""
        self.say(table_lines)

    def say(self, lines):
        try:
            self.process.stdin.write(b"".join(line + b"\n" for line in lines))
            self.process.stdin.flush()
        except OSError:
            raise Unusable("the program ended in the midst of a session") from None

    def hear(self, sets):
        """What the program prints up to the done of an update and, behind it, so many sets."""
        heard = [self.line()]
        while heard[-1][:2] == b"11":
            heard.append(self.line())
        return b"".join(heard + [self.line() for _ in range(sets)])

    def line(self):
        """The next line, waited for only so long."""
        while b"\n" not in self.rest:
            ready, _, _ = select.select([self.process.stdout], [], [], PATIENCE)
            piece = os.read(self.process.stdout.fileno(), 1 << 16) if ready else b""
            if not piece:
                raise Unusable("the program doesn't answer while its session goes on")
            self.rest += piece
        line, _, self.rest = self.rest.partition(b"\n")
        return line + b"\n"

    def close(self):
        """Ends the session, whatever became of it."""
        self.process.stdout.close()
        self.process.kill()
        self.process.wait()
        try:
            self.process.stdin.close()
        except OSError:
            pass
