"""./thrummisk sheets and ./thrummisk explain: a day as two sheets for the wall, or as plain text.

usage: ./thrummisk sheets [FILE] [--names FILE] [-o FILE]
       ./thrummisk explain [FILE] [--names FILE] [-o FILE]

The session is read from FILE, or from standard input if there is none or it is '-'. Without a FILE on a terminal it
is the example day, examples/monday.txt with its names. The page goes to standard output or to the FILE of -o.
Exit status: 0 the sheets agree, or there is no tree to compare; 1 they do not, or the program's answers make no
sense; 2 nothing could be shown: a wrong word, file or program; 3 the session stopped early, and what is shown, in
which the sheets agree, is the day up to there.
"""

import os
import sys
from pathlib import Path

# the folder of the project is left as it is
sys.dont_write_bytecode = True

from day import day_of
from names import Names, read_names
from page import page
from plain import plain
from program import ROOT
from trouble import Misfit, Unusable

SHOW = {"sheets": page, "explain": plain}
LONGEST = 64 << 20
USAGE = "usage: ./thrummisk sheets|explain [FILE] [--names FILE] [-o FILE]"


def asked(words):
    """What is to be shown, the session's file, the names file and the file for the page."""
    what, *rest = words
    given = {"--names": None, "-o": None}
    files, plain_words = [], False
    while rest:
        word = rest.pop(0)
        if word in given and not plain_words:
            if not rest or given[word] is not None:
                raise Unusable(USAGE)
            given[word] = rest.pop(0)
        elif word == "--" and not plain_words:
            plain_words = True
        elif word.startswith("-") and word != "-" and not plain_words:
            raise Unusable(f"unknown option {word}; {USAGE}")
        else:
            files.append(word)
    if len(files) > 1:
        raise Unusable(USAGE)
    return what, files[0] if files else None, given["--names"], given["-o"]


def content(path, what):
    """The bytes of a file, which must not be longer than a page can take."""
    try:
        with open(path, "rb") as source:
            return bounded(source, path)
    except OSError as error:
        raise Unusable(f"no {what} {path}: {error.strerror}") from None


def bounded(source, path):
    read = source.read(LONGEST + 1)
    if len(read) > LONGEST:
        raise Unusable(f"{path} is longer than {LONGEST >> 20} megabytes, which is no day for a wall")
    return read


def session_and_names(file, names):
    """The session's text, its title and the names."""
    if file is None and os.isatty(0):
        file = ROOT / "examples" / "monday.txt"
        names = names or ROOT / "examples" / "monday.names"
    if file in (None, "-"):
        text, title = standard_input(), "standard input"
    else:
        text, title = content(file, "session file"), Path(file).name
    return text, title, read_names(content(names, "names file"), names) if names else Names()


def standard_input():
    try:
        with open(0, "rb", closefd=False) as source:
            return bounded(source, "standard input")
    except OSError as error:
        raise Unusable(f"standard input can't be read: {error.strerror}") from None


def write(shown, path, inputs):
    data = shown.encode("utf-8", "replace")
    try:
        if path is None:
            with open(1, "wb", closefd=False) as out:
                out.write(data)
        elif any(name and Path(path).exists() and Path(path).samefile(name) for name in inputs):
            raise Unusable(f"{path} is read from, and can't be written")
        else:
            Path(path).write_bytes(data)
    except BrokenPipeError:
        # whoever reads has seen enough
        pass
    except OSError as error:
        raise Unusable(f"{path or 'standard output'} can't be written: {error.strerror}") from None


def main(words):
    if words[1:] in (["--help"], ["-h"]):
        print(__doc__.strip())
        return 0
    try:
        what, file, names_file, out = asked(words)
        text, title, names = session_and_names(file, names_file)
        day = day_of(text)
        write(SHOW[what](day, names, title), out, [file, names_file])
    except Unusable as trouble:
        print(f"thrummisk: {trouble}", file=sys.stderr)
        return 2
    except Misfit as trouble:
        print(f"thrummisk: the sheets do not agree: {trouble}", file=sys.stderr)
        return 1
    return 1 if not day.agrees() else 3 if day.stopped else 0


if __name__ == "__main__":
    sys.exit(main(sys.argv[1:] or ["sheets"]))
