"""What the counting scripts share: instruction counts by callgrind, and tables in Markdown."""

import os
import shutil
import subprocess
import sys
from pathlib import Path

ROOT = Path(__file__).resolve().parent.parent
ROOM = ROOT / "target" / "bench"
BUILT = ROOT / "target" / "cargo"
# A repeated string instruction is one for the machine, and callgrind counts it once a byte. So the
# C library is told to fill and copy blocks by vector instructions, which count one each.
PLAIN = "glibc.cpu.x86_rep_stosb_threshold=1000000000:glibc.cpu.x86_rep_movsb_threshold=1000000000"


def stop(message, status=2):
    print(f"bench: {message}", file=sys.stderr)
    sys.exit(status)


def need(*tools):
    for tool in tools:
        if shutil.which(tool) is None:
            stop(f"{tool} is needed and not there")


def build(package):
    command = ["cargo", "build", "--release", "--offline", "--quiet", "--target-dir", BUILT,
               "--manifest-path", ROOT / package / "Cargo.toml"]
    if subprocess.run(command).returncode != 0:
        stop(f"{package} can't be built")


def made(*words):
    """A session that the generator makes."""
    command = [BUILT / "release" / "generate", *map(str, words)]
    return subprocess.run(command, stdout=subprocess.PIPE, check=True).stdout


def proved(name):
    """A proved program, which the gate builds, and `rt run`."""
    program = ROOT / "crates" / name / "out" / name
    if not program.is_file():
        stop(f"crates/{name}/out/{name} isn't built: rt run in crates/{name}")
    return program


def count(name, program, label, text, *words, blocks=PLAIN):
    """The instructions that a program takes for a text, and its answer."""
    ROOM.mkdir(parents=True, exist_ok=True)
    profile = ROOM / f"{label}.{name}.callgrind"
    command = ["valgrind", "--quiet", "--tool=callgrind", f"--callgrind-out-file={profile}"]
    run = subprocess.run([*command, program, *words], input=text, stdout=subprocess.PIPE,
                         stderr=subprocess.PIPE, env={**os.environ, "GLIBC_TUNABLES": blocks})
    if run.returncode != 0:
        stop(f"the {name} ends with status {run.returncode} on {label}", 1)
    for line in profile.read_text().splitlines():
        if line.startswith(("totals:", "summary:")):
            return int(line.split()[1]), run.stdout
    stop(f"callgrind left no total in {profile}")


def size_of(twin, text):
    """Instances and evaluations of a session of one load and a dump."""
    answer = subprocess.run([twin], input=text, stdout=subprocess.PIPE, check=True).stdout
    lines = answer.splitlines()
    done = next(line for line in lines if line.startswith(b"12"))
    return sum(line.startswith(b"13") for line in lines), int(done[6:14], 16)


def table(head, rows):
    """Prints a Markdown table; the first column is text, the others are numbers."""
    widths = [max(len(row[i]) for row in [head, *rows]) for i in range(len(head))]
    show = lambda cells: print("| " + " | ".join(
        cell.ljust(width) if i == 0 else cell.rjust(width)
        for i, (cell, width) in enumerate(zip(cells, widths))) + " |")
    show(head)
    print("|" + "|".join("-" * (width + 2) if i == 0 else "-" * (width + 1) + ":"
                         for i, width in enumerate(widths)) + "|")
    for row in rows:
        show(row)


def ratio(over, under):
    return f"{over / under:.2f}" if under else "-"
