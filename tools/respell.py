#!/usr/bin/env python3
"""Brings the repository's own definitions and lemmas to the spelling of today's Rattle, once, after its port.py.

usage: python3 tools/respell.py [--dry]      at the top of the repository

A name that a .antt file of crates/ declares, or that a contract's record has as a field, is respelled where it has a dash
or is in lower camel case: words are then joined by '_'. Names that come from a library of the kit, names that a check makes
(they follow a dot in a file of proofs/F/, and no declaration has them) and names of src/ stay. What would fall together
with another name of the same spelling is printed and left as it is. Pages name definitions too, so docs/ and README.md follow.
"""
import re
import sys
from pathlib import Path

ROOT = Path(__file__).resolve().parent.parent
DRY = "--dry" in sys.argv
IDENT = r"[^\W\d][\w'′₀-₉ᴰ⁺ⁿ≢≡⊑≤<-]*"
TOKEN = re.compile(r"(?<![\w'′-])([a-z][\w'′]*(?:-[\w'′]+)*)(?![\w'′])(?!-\w)")
DECLARED = re.compile(r"^( *)(?:(?:pub|abbrev|unfoldable|private|opaque|record|data|postulate|ruleset) +)*([a-z][\w'′-]*)((?: +[a-z][\w'′-]*)*) *:(?!:)")
CONSTRUCTOR = re.compile(r"^ +(?:pub +)?([a-z][\w'′-]*) *: ")
IMPORT = re.compile(r"^ *(?:pub )?(?:ghost )?use +([\w.'·-]+)(?:\.\{([^}]*)\})?", re.M)


def respelled(name):
    s = name.replace("-", "_")
    s = re.sub(r"(?<=[a-z0-9'])([A-Z])", lambda m: "_" + m[1].lower(), s)
    s = re.sub(r"([A-Z])", lambda m: m[1].lower(), s)
    return s


def changes(name):
    return name[0].islower() and ("-" in name or re.search(r"[a-z0-9][A-Z]", name))


def files():
    for p in sorted((ROOT / "crates").rglob("*.antt")):
        if "out" not in p.relative_to(ROOT).parts:
            yield p


own, foreign, plain = {}, {}, {}
own_crates = {p.name for p in (ROOT / "crates").iterdir() if p.is_dir()}
for path in files():
    text = path.read_text()
    for m in IMPORT.finditer(text):
        parts = m[1].split(".")
        ours = parts[0] == "Rattle" and len(parts) > 1 and parts[1] in own_crates
        if not ours:
            for n in (m[2] or "").split(","):
                n = n.strip().split(" as ")[0].strip()
                foreign[n] = str(path)
    for line in text.splitlines():
        m = DECLARED.match(line)
        if m and not line.lstrip().startswith(("use ", "let ", "--", "mod ", "pub mod")):
            for n in [m[2], *m[3].split()]:
                (own if changes(n) else plain).setdefault(n, str(path.relative_to(ROOT)))
for path in sorted((ROOT / "crates").rglob("*.rt")):
    for m in IMPORT.finditer(path.read_text()):
        parts = m[1].split(".")
        if not (parts[0] == "Rattle" and len(parts) > 1 and parts[1] in own_crates):
            for n in (m[2] or "").split(","):
                foreign[n.strip()] = str(path)

tokens = {}
for path in files():
    for m in TOKEN.finditer(path.read_text()):
        tokens.setdefault(m[1], set()).add(path)

# names chosen by hand, where a definition and a lemma beside it would fall together
turn = {
    "isOpen": "is_open_kind",
    "newOwns": "new_owns",
    "roomOwns": "room_owns",
    "heldOwns": "held_owns",
    "unlessCheck": "unless_check",
    "secondAt": "second_at",
    "second_at": "second_at_lem",
    "answerBack": "answer_back",
    "answer_back": "answer_back_lem",
    "loadMany": "load_many",
    "load_many": "load_many_lem",
    "writtenBack": "written_back",
    "written_back": "written_back_lem",
}
new = {}
# a definition before a lemma, so that where two fall together in one file the lemma has the longer name
for n, where in sorted(own.items(), key=lambda x: ("-" in x[0], x[0])):
    if n in turn:
        continue
    if n in foreign:
        print(f"left: {n} ({where}): {foreign[n]} imports a name of a library so spelled")
        continue
    s = respelled(n)
    others = [o for o in new.get(s, []) + ([s] if s in plain or s in foreign else []) if tokens[n] & tokens.get(o, set())]
    if others:
        s += "_lem"
        print(f"lemma: {n} ({where}) is {s}, beside {others}")
    if s in plain and tokens[n] & tokens.get(s, set()) or [o for o in new.get(s, []) if tokens[n] & tokens[o]]:
        print(f"clash: {n} ({where}) would be {s}")
        continue
    new.setdefault(s, []).append(n)
    turn[n] = s
print(f"respell: {len(turn)} names")


def turned(text):
    return TOKEN.sub(lambda m: turn.get(m[1], m[1]), text)


count = 0
targets = list(files()) + sorted((ROOT / "crates").rglob("src/**/*.rt")) + sorted((ROOT / "docs").rglob("*.md")) + [ROOT / "README.md"]
for path in targets:
    old = path.read_text()
    now = turned(old)
    if now != old:
        count += 1
        if not DRY:
            path.write_text(now)
print(f"respell: {count} files")
