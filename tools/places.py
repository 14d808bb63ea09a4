"""Lists the places of each point of docs/DESIGN-PASS.md in crates/*/src: python3 tools/places.py [-v] [COMMIT]; without a commit, the files as they are."""
import collections
import re
import subprocess
import sys

WORDS = [w for w in sys.argv[1:] if not w.startswith("-")]
SHOWS = "-v" in sys.argv


def git(*words):
    return subprocess.run(["git", *words], stdout=subprocess.PIPE, check=True, text=True).stdout


def sources():
    at = WORDS[0] if WORDS else "HEAD"
    names = git("ls-tree", "-r", "--name-only", at, "crates") if WORDS else git("ls-files", "crates")
    for name in names.split():
        if re.fullmatch(r"crates/\w+/src/.*\.rt", name):
            yield name[7:], git("show", f"{at}:{name}") if WORDS else open(name, encoding="utf-8").read()


def bare(text):
    """The text without comments and ghost lines, and with its lines kept."""
    return re.sub(r"//.*|^ghost use .*", "", text, flags=re.M)


def functions(text):
    """Each function: its name, the line it starts at, its parameters, its clauses and its body."""
    for m in re.finditer(r"^( *)(?:pub )?fn (\w+)", text, re.M):
        end = re.compile(rf"^{m[1]}\}}$", re.M).search(text, m.end())
        if not end:
            continue
        whole = text[m.start() : end.end()]
        body = re.search(rf"(?:^{m[1]}|\) |> |\w |\)){{\n", whole, re.M)
        body = body.end() if body else len(whole)
        head = whole[: body - 2]
        depth, start = 0, head.index("(")
        for at in range(start, len(head)):
            depth += {"(": 1, ")": -1}.get(head[at], 0)
            if depth == 0:
                break
        given = [it for it in re.split(r",\s*(?=\w+:|&?(?:mut )?self)", head[start + 1 : at].strip().rstrip(",")) if it]
        clauses = re.findall(r"^\s+((?:requires|ensures)\*?)(?: \w+)? \{ (.*) \}$", head, re.M)
        yield m[2], text.count("\n", 0, m.start()) + 1, given, clauses, whole[body:]


def shape(given, body):
    """A function with its names, numbers and types replaced by their order of appearance, so that twins are equal."""
    seen = {}
    keep = "let mut if else while for in match return true false as self Some None Ok Err".split()
    tokens = re.findall(r"\w+|[^\s\w]", " ".join(given) + " { " + body)
    return " ".join(t if not t[0].isalnum() and t[0] != "_" or t in keep else str(seen.setdefault(t, len(seen))) for t in tokens)


found = collections.defaultdict(list)
bodies, clauses_of, every = collections.defaultdict(list), collections.defaultdict(set), []
for path, text in sources():
    code = bare(text)
    where = lambda at: f"{path}:{code.count(chr(10), 0, at) + 1}"
    for m in re.finditer(r"enum (\w+)(?:<[^>]*>)? \{(.*?)^\}", code, re.M | re.S):
        if re.search(r"\(Refusal\)|refusal: Refusal", m[2]):
            found["1 an enum with a refusal among its cases"].append(f"{where(m.start())} {m[1]}")
    for m in re.finditer(r"struct (\w+)(?:<[^>]*>)? \{(.*?)^\}", code, re.M | re.S):
        if re.search(r": (Verdict|bool)\b", m[2]):
            found["1 a struct with a verdict or a flag beside its values"].append(f"{where(m.start())} {m[1]}")
        if "count: usize" in m[2] and re.search(r": \[\w+; ", m[2]):
            found["6 an array with a count beside it"].append(f"{where(m.start())} {m[1]}")
    for m in re.finditer(r"=> (?:return )?(?:\{\s*return )?(\w+::)+\w+\((\w+)\)", code):
        if re.search(rf"\({m[2]}\) => *$|\({m[2]}\) $", code[max(0, m.start() - 40) : m.start()]):
            found["1 a refusal passed on by hand"].append(where(m.start()))
    for m in re.finditer(r"match [^{]* \{\s*(?:b'|\d+ =>)", code):
        found["1 a match over numbers"].append(where(m.start()))
    for m in re.finditer(r"(?:self\.)?=> \d+,", code):
        found["1 a case that stands for a number"].append(where(m.start()))
    for name, line, given, clauses, body in functions(code):
        here = f"{path}:{line} {name}"
        every.append(here)
        if re.search(r"return (NO_SLOT|SLOTS|TOO_MANY);|^\s+return (e|i|k);$", body, re.M):
            found["1 an answer with a mark or a place past the end for none"].append(here)
        for m in re.finditer(r"while ([^{]*)\{", body):
            spent = [v for v in re.findall(r"\w+", m[1]) if re.search(rf"\b{v} [+-]= 1;", body[m.end() :])]
            found["3 a loop that counts an index by hand" if spent else "3 another while"].append(here)
        for m in re.finditer(r"for \w+ in 0\.\.=?([\w.]+\.len\(\))", body):
            found["3 a for over a slice's indices"].append(here)
        if re.fullmatch(r"\s*\w+ as \w+\s*\}\s*", body):
            found["4 a conversion written by hand"].append(here)
        if re.fullmatch(r"\s*if \w+(\.\w+)* \{ 1 \} else \{ 0 \}\s*\}\s*", body):
            found["4 a conversion written by hand"].append(here)
        if re.search(r"\b(wide|index)\(", body):
            found["4 a function that calls one"].append(here)
        if re.search(r"return (true|false);", body) and "while" not in body and "for " not in body:
            found["4 a test written as steps"].append(here)
        if re.search(r"^\s+(\w+): \1,$", body, re.M):
            found["4 a field named twice"].append(here)
        if len(given) >= 8:
            found["5 a function of eight parameters or more"].append(f"{here} {len(given)}")
        for kind, clause in clauses:
            if kind == "requires":
                clauses_of[re.sub(r"\.(now|old|new)\b", "", clause)].add(here)
        bodies[shape(given, body)].append((here, len(body.split("\n"))))
for clause, places in clauses_of.items():
    if len(places) >= 3:
        found["5 a requires of three functions or more"].append(f"{len(places)} {clause[:100]}")
for same in bodies.values():
    if len(same) > 1 and same[0][1] > 3:
        found["2 functions of one shape"].append(", ".join(it for it, _ in same))
print(f"functions {len(every)}")
for kind in sorted(found):
    print(f"{kind}: {len(found[kind])}")
    for it in found[kind] if SHOWS else []:
        print(f"    {it}")
