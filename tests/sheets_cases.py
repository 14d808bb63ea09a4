"""The odd cases of tests/sheets: wrong words and files, damaged days, programs and pages that are wrong on purpose."""

import os
import random
import re
import subprocess
from pathlib import Path

ROOT = Path(__file__).resolve().parent.parent
A = (ROOT / "examples" / "session-a.txt").read_bytes()
TABLE = b"".join(A.splitlines(keepends=True)[:11])
MONDAY = (ROOT / "examples" / "monday.txt").read_bytes()
# a table with each operation once or more, and no command behind it
EVERY_OPERATION = b"""010202
020400
020402
0300020101
040000000000000000000000000a
0401000000000000000000000000
0402010000000000000000000003
0403010000000000000000000003
0404010002010000000000000000
0405010002010000000000000000
0406010002010000000000000003
0407010002010000000000000002
030100
0408000400000000000000000000
0409000400050000000000000000
0402000400000000000000000000
0400000000000000000000000000
"""
FORMULAS = ["S0.0 = 1 3", "S0.1 = S0.own", "S0.2 = S11.0 ∪ 0 1", "S0.3 = S11.0 ∩ 0 1", "S11.4 = S11.0 ∪ S12.1",
            "S11.5 = S11.0 ∩ S12.1", "S12.4 = S12.1 if 0 1 ⊆ S11.0, else ∅",
            "S12.5 = S12.1 if S11.0 has 2 or more, notes not counted, else ∅", "S1.0 = S1.4 ∪ S1.own",
            "S1.1 = S1.4 ∖ S1.5", "S1.2 = S1.4", "S1.3 = ∅"]


def doctored_pages(good):
    """What is wrong with a page, and the page."""
    def once(pattern, to, start="", flags=re.S):
        at = good.index(start)
        return good[:at] + re.sub(pattern, to, good[at:], count=1, flags=flags)
    one, two, day, cold = 'id="sheet-one"', 'id="sheet-two"', 'id="day"', 'id="cold"'
    yield "a reason less on sheet one", once(r'(<td class="sets">.*?)<b [^>]*>\d+</b>', r"\1", one)
    yield "a reason less on sheet two", once(r'(<td class="sets">.*?)<b [^>]*>\d+</b>', r"\1", two)
    yield "a reason more on sheet one", once(r"<u>∅</u></span></span></td>", '<b class="r9">9</b></span></span></td>', one)
    yield "another own set", once(r'(<td class="own">)<u>∅</u>', r'\1<b class="r9">9</b>', one)
    yield "another production", once(r'("production">P)\d+', r"\g<1>63", two)
    yield "a node less", once(r"<tr>(?:(?!<tr>).)*?</tr>\s*</tbody>", "</tbody>", two)
    yield "another number of evaluations", once(r"\d+ evaluations?,", "7777 evaluations,", day)
    yield "a round less", once(r"(<li>(?:(?!</ol>).)*)<li>(?:(?!<li>).)*</li></ol>", r"\1</ol>", day)
    yield "another round's finding", once(r"(<li>.*?)<b [^>]*>\d+</b>", r"\1", cold)
    yield "another line of a refusal", once(r", line \d+, is refused", ", line 9, is refused", day)
    yield "another refusal", once(r"\(refusal \d+\)", "(refusal 3)", day)
    yield "another verdict", good.replace("The sheets agree", "The sheets do not agree")
    yield "a tick less", once(r'<span class="tick">✓</span>', "", 'id="verdict"')
    yield "no second sheet", good.replace(two, "")


class Cases:
    """Runs ./thrummisk with words, and keeps what isn't as promised."""

    def __init__(self, room, program):
        self.room, self.program = room, program
        self.count, self.broken = 0, []

    def file(self, name, content):
        path = self.room / name
        path.write_bytes(content if isinstance(content, bytes) else content.encode())
        return path

    def script(self, name, text):
        path = self.file(name, f"#!/usr/bin/env bash\nprogram={self.program}\n{text}\n")
        path.chmod(0o755)
        return path

    def run(self, *words, program=None, given=b""):
        environment = dict(os.environ, THRUMMISK_PROGRAM=str(program or self.program))
        return subprocess.run([ROOT / "thrummisk", *words], input=given, capture_output=True, env=environment)

    def expect(self, name, status, wanted, *words, **more):
        """The status, and pieces that the page or message must have; one with ! in front it must not have."""
        self.count += 1
        run = self.run(*words, **more)
        said = (run.stdout + run.stderr).decode(errors="replace")
        missing = [piece for piece in wanted if (piece[1:] in said if piece[0] == "!" else piece not in said)]
        quiet = status != 2 or (not run.stdout and run.stderr.count(b"\n") == 1)
        if run.returncode != status or missing or not quiet or "Traceback" in said:
            self.broken.append(f"{name}: status {run.returncode} for {status}, without {missing}: {said[-200:]!r}")
        return said


def wrong_words(cases):
    a = cases.file("a.txt", A)
    cases.expect("no such file", 2, ["no session file"], "sheets", cases.room / "none.txt")
    cases.expect("a folder", 2, ["no session file"], "sheets", cases.room)
    cases.expect("two files", 2, ["usage:"], "sheets", a, a)
    cases.expect("an unknown option", 2, ["unknown option --loud"], "explain", a, "--loud")
    cases.expect("names without a file", 2, ["usage:"], "sheets", a, "--names")
    cases.expect("over its own session", 2, ["is read from"], "sheets", a, "-o", a)
    cases.expect("into a folder", 2, ["can't be written"], "sheets", a, "-o", cases.room)
    cases.expect("a word of help", 0, ["usage:", "Exit status"], "sheets", "--help")
    cases.expect("standard input", 0, ["standard input", "The sheets agree in all 5 sets."], "sheets", given=A)
    cases.expect("standard input by its name", 0, ["The sheets agree in all 5 sets."], "explain", "-", given=A)
    cases.expect("an endless file", 2, ["longer than 64 megabytes"], "sheets", "/dev/zero")
    for name, shell in (("closed", ">&-"), ("full", "> /dev/full")):
        cases.count += 1
        run = subprocess.run(["bash", "-c", f'"$0" explain "$1" {shell}', ROOT / "thrummisk", a], capture_output=True)
        if run.returncode != 2 or b"standard output can't be written" not in run.stderr or b"Traceback" in run.stderr:
            cases.broken.append(f"standard output {name}: status {run.returncode}, {run.stderr[-200:]!r}")
    if a.read_bytes() != A:
        cases.broken.append("a session was written over")


def names(cases):
    a = cases.file("a.txt", A)
    for name, text, wanted in (
            ("unknown kind", "colour 1 red", "line 1: a name is for"), ("no number", "\nreason", "line 2: after 'reason'"),
            ("no name", "reason 1", "a number and a name"), ("too large", "reason 64 x", "from 0 to 63"),
            ("set of one number", "set 1 held", "2 numbers and a name"), ("twice", "symbol 1 a\nsymbol 1 b", "line 2: symbol 1"),
            ("not UTF-8", b"reason 1 \xff", "not UTF-8"), ("unseen letters", "reason 1 a\x1b[31mb", "can't be shown"),
            ("too long", "reason 1 " + "x" * 61, "more than 60"), ("a session", A, "line 1: a name is for")):
        path = cases.file("wrong.names", text)
        cases.expect(f"names: {name}", 2, [wanted], "sheets", a, "--names", path)
    cases.expect("names: no file", 2, ["no names file"], "sheets", a, "--names", cases.room / "none")
    sharp = "<script>alert(\"1\")</script> & '\"> "
    path = cases.file("sharp.names", f"reason 1 {sharp}1\r\nsymbol 1 {sharp}2\nproduction 0 {sharp}3\nset 1 0 {sharp}4\n")
    safe = "&lt;script&gt;alert(&quot;1&quot;)&lt;/script&gt; &amp; &#x27;&quot;&gt; "
    cases.expect("sharp names", 0, ["!<script", f"{safe}1", f"{safe}2", f"{safe}3", f"{safe}4"], "sheets", a, "--names", path)
    cases.expect("a sharp file name", 0, ["!<b>x", "&lt;b&gt;x"], "sheets", cases.file("<b>x", A))


def damaged(cases):
    stop_at = lambda line: f"The session stops at line {line}:"
    for name, text, wanted in (
            ("empty", b"", [stop_at(1), "The text is over there", "There is no tree"]),
            ("binary", bytes(range(256)) * 9, [stop_at(1), "something else than hex digits"]),
            ("CR LF", A.replace(b"\n", b"\r\n"), [stop_at(1), "CR LF"]),
            ("large letters", A.replace(b"0b", b"0B").replace(b"08\n", b"0A\n"), [stop_at(18), "large letters"]),
            ("no last LF", A[:-1], [stop_at(18), "does not end with LF", "The sheets agree in all 5 sets."]),
            ("a blank line", A.replace(b"08\n", b"\n08\n"), [stop_at(18)]),
            ("cut in a command", A[:-24], [stop_at(17), "The command of line 16", "The sheets agree in all 5 sets."]),
            ("cut in the table", A[:A.index(b"0402")], [stop_at(6), "there is nothing to run"]),
            ("a bad table", A.replace(b"020100", b"020101", 1), [stop_at(2), "symbol 0 declares"]),
            ("damaged behind updates", A.replace(b"08\n", b"0707\n08\n"), [stop_at(18), "The sheets agree in all 5 sets."]),
            ("a huge count", TABLE + b"06ffff\n" + b"05020000000000000000\n" * 99, ["The command of line 12", "There is no tree"])):
        cases.expect(f"damaged: {name}", 3, wanted, "sheets", cases.file("day.txt", text))
        cases.expect(f"damaged, in plain text: {name}", 3, wanted, "explain", cases.file("day.txt", text))


def odd_days(cases):
    load = b"060003\n" + b"".join(A.splitlines(keepends=True)[12:15])
    for name, text, wanted in (
            ("only a table", TABLE, ["There is no tree to compare", "The day has no command"]),
            ("never a tree", TABLE + b"060000\n08\n070000", ["(refusal 7)", "(refusal 16)", "There is no tree"]),
            ("two loads", TABLE + load + b"060003\n" + b"05000000000000000000\n" + b"05020000000000000004\n" * 2,
             ["2 loads, 0 corrections, 0 refused", "The sheets agree"]),
            ("points", TABLE + load + b"0900\n08\n0902\n0b00010001\n0b00020001\n" + b"05020000000000000001\n" * 2,
             ["(refusal 22)", "correction at 2 points: node 1 by 1 node, node 2 by 1 node"]),
            ("the example", MONDAY, ["(refusal 9)", "(refusal 21)", "1 load, 3 corrections, 2 refused"])):
        status = 0 if text.endswith(b"\n") else 3
        cases.expect(f"odd day: {name}", status, wanted, "sheets", cases.file("day.txt", text))
    said = cases.expect("every operation", 0, ["The rule table"], "sheets", cases.file("day.txt", EVERY_OPERATION))
    cells = re.findall(r'<td class="left formula">(.*?)</td><td class="formula">(.*?)</td>', said)
    shown = [re.sub(r"<[^>]+>", "", re.sub(r"</b><b", "</b> <b", f"{left} {right}")) for left, right in cells]
    if shown != FORMULAS:
        cases.broken.append(f"formulas: {shown}")


def wrong_programs(cases):
    a = cases.file("a.txt", A)
    count = cases.room / "count"
    # the third run is the cold load, and its last line the set of node 2, index 4
    third = f'n=$(( $(cat {count} || echo 0) + 1 )) 2>/dev/null; echo $n > {count}\n[[ $n == 3 ]] || exec "$program"\n'
    for name, change, wanted in (
            ("another set", "sed '$ s/.$/2/'", ["The sheets do not agree: 1 of 5 sets differ", "Node 2, 4: sheet one has"]),
            ("a refusal", "{ cat > /dev/null; echo 1f150000000c; echo 1f1000000010; }", ["the cold load is refused"])):
        count.write_text("0")
        script = cases.script("wrong", f'{third}"$program" | {change}')
        cases.expect(f"a program with {name}", 1, wanted, "sheets", a, program=script)
    for name, text, status, wanted in (
            ("nonsense", "cat > /dev/null; echo hello", 1, "do not agree"), ("silence", "cat > /dev/null", 1, "do not agree"),
            ("other rounds", "\"$program\" | sed '1d'", 1, "do not agree"), ("a status", "cat > /dev/null; exit 5", 2, "status 5")):
        cases.expect(f"a program of {name}", status, [wanted], "sheets", a, program=cases.script("wrong", text))
    cases.expect("no program", 2, ["no program"], "sheets", a, program=cases.room / "none")


def long_day():
    """512 nodes less a few, and 1,000 corrections of lines and accounts that net with each other."""
    random.seed(27)
    table = ["010404", "020200", "020200", "020201", "020100", "030004010101" + "00", "0404010000010000000000000000",
             "0404020004000000000000000000", "030000", "0401" + "0" * 24, "0401" + "0" * 24, "0301020202",
             "0404010002000000000000000000", "0407000000000000000000000002", "0402020000000000000000000000",
             "0402010000000000000000000000", "0302020303", "0404000100040000000000000000", "0404010002000000000000000000"]
    table[0], line = "010405", ["030300", "0401" + "0" * 24]
    node = lambda production, own=0: f"05{production:02x}{own:016x}"
    a_line = lambda: node(4, random.choice([0, 0, 1 << random.randrange(64)]))
    account = lambda: [node(3), a_line(), a_line()]
    party = lambda: [node(2), *account(), *account()]
    tree = []
    while len(tree) + 22 < 512:
        tree += [node(0), *party(), *party(), *party()]
    tree.append(node(1))
    day = table + line + [f"06{len(tree):04x}", *tree]
    for _ in range(1000):
        point = random.choice([at for at, text in enumerate(tree) if text[:4] in ("0503", "0504")])
        part = [a_line()] if tree[point][:4] == "0504" else account()
        day += [f"07{point:04x}{len(part):04x}", *part]
    return "\n".join(day) + "\n"


def long_days(cases):
    path, out = cases.file("long.txt", long_day()), cases.room / "long.html"
    cases.expect("a long day", 0, [], "sheets", path, "-o", out)
    text = out.read_text() if out.exists() else ""
    if "1 load, 1,000 corrections, 0 refused" not in text or "The sheets agree in all" not in text:
        cases.broken.append("a long day: its page is another")
    if len(text) > 8_000_000:
        cases.broken.append(f"a long day: its page has {len(text)} characters")


def by_both_programs(cases):
    """The page of the example day as ./thrummisk makes it by itself, where the proved program is there."""
    if not (ROOT / "target" / "bin" / "thrummisk").exists():
        return
    cases.count += 1
    words = [ROOT / "thrummisk", "sheets", ROOT / "examples" / "monday.txt"]
    plain = {name: value for name, value in os.environ.items() if name != "THRUMMISK_PROGRAM"}
    proved = subprocess.run(words, env=plain, stdin=subprocess.DEVNULL, capture_output=True)
    if proved.returncode != 0 or proved.stdout != cases.run(*words[1:]).stdout:
        cases.broken.append("the example day has another page by the proved program")


def run(room, program):
    """How many cases there were, and which are broken."""
    cases = Cases(room, program)
    for part in (wrong_words, names, damaged, odd_days, wrong_programs, long_days, by_both_programs):
        part(cases)
    return cases.count, cases.broken
