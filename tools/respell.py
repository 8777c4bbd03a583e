#!/usr/bin/env python3
"""Brings the names of this repository's own definitions and lemmas to one spelling: words in snake case.

usage: python3 tools/respell.py [FOLDER]     once, over the repository in FOLDER (the current one, if none is given)

Every name that is declared in specs/ or in a file of laws below proofs/ and has a dash or a capital inside it (first-one, putNumber)
becomes snake case (first_one, put_number), wherever it is used: in specs/ and proofs/, in `ghost use` lines and clauses of src/, in
must-fail/ and, between backquotes, in README.md and docs/. Types, modules and variants begin with a capital and stay. Functions of
src/, strings, inputs and outputs are not touched. Where two names would become one, nothing is written; a name that stands beside an
equal one in src/ is told, since there it may be a function of the code.
"""
import glob
import os
import re
import sys

NAME = r"[^\s(){}\[\];,.:`'\"λ∀→×⊎¬≡<>=|@?«»\\]+'*"
TOKEN = re.compile(r"[^\s(){}\[\];,.`\"«»]+")
DECLARED = re.compile(r"^\s*(?:(?:abbrev|unfoldable|pub|let|in)\s+)*((?:%s\s+)*%s)\s*:(?:\s|$)" % (NAME, NAME))
LIBRARY = re.compile(r"^use (?!Rattle\.(?:house|graph|routes|rounds|plans|planfile|desk|jiwasampu|bench_calls|cases|checker|planner)\.)\S*?\{([^}]*)\}", re.M | re.S)


def read(path):
    with open(path, encoding="utf-8") as f:
        return f.read()


# laws that would fall together with the definition that they speak of
APART = {"both-back": "both_back_known", "fault-of": "fault_of_known", "has-jump": "has_jump_known", "is-switch": "is_switch_known"}


def snake(name):
    if name in APART:
        return APART[name]
    name = name.replace("-", "_")
    return re.sub(r"(?<=[a-z0-9])([A-Z])", lambda m: "_" + m.group(1).lower(), name)


def wants(name):
    if not re.search(r"[A-Za-z]", name):
        return False
    if "-" in name:
        return re.search(r"\w-\w", name) is not None
    return name[0].islower() and re.search(r"[a-z0-9][A-Z]", name) is not None


def turn(text, names):
    return TOKEN.sub(lambda m: names.get(m.group(0), m.group(0)), text)


def turn_comment(line, names):
    # in a table the names stand before ==, elsewhere between backquotes
    if "==" in line:
        head, tail = line.split("==", 1)
        return turn(head, names) + "==" + turn_quoted(tail, names)
    return turn_quoted(line, names)


def turn_quoted(text, names):
    return re.sub(r"`([^`\n]+)`", lambda m: "`" + turn(m.group(1), names) + "`", text)


def turn_code(text, names, told, comment):
    lines = []
    for line in text.split("\n"):
        at = line.find(comment)
        if at < 0:
            lines.append(turn(line, names))
        elif line[:at].strip() == "":
            lines.append(turn_comment(line, told))
        else:
            lines.append(turn(line[:at], names) + turn_comment(line[at:], told))
    return "\n".join(lines)


def main(root):
    os.chdir(root)
    antt = sorted(p for p in glob.glob("crates/*/specs/**/*.antt", recursive=True) + glob.glob("crates/*/proofs/**/*.antt", recursive=True))
    laws = [p for p in antt if os.path.basename(p) != "Proof.antt"]
    declared, library = set(), set()
    for path in antt:
        text = read(path)
        for m in LIBRARY.finditer(text):
            library.update(w for part in m.group(1).split(",") for w in part.split())
    for path in laws:
        for line in read(path).split("\n"):
            line = line.split("-- ")[0]
            m = DECLARED.match(line)
            if m:
                declared.update(m.group(1).split())
            for m in re.finditer(r"[({]((?:%s\s+)*%s)\s*:\s" % (NAME, NAME), line):
                declared.update(m.group(1).split())
    names = {n: snake(n) for n in declared if wants(n) and n not in library}
    names = {a: b for a, b in names.items() if a != b}

    bad = []
    back = {}
    for a, b in sorted(names.items()):
        if b in declared:
            bad.append(f"{a} and {b} are both declared")
        if b in back:
            bad.append(f"{a} and {back[b]} both become {b}")
        back[b] = a
    for path in antt + sorted(glob.glob("crates/*/src/*.rt")):
        tokens = set(TOKEN.findall(read(path)))
        for a in tokens & set(names):
            if names[a] in tokens:
                bad.append(f"{path}: {a} beside {names[a]}")
    if bad and "--tell" not in sys.argv:
        print("\n".join(bad))
    hard = [b for b in bad if "both become" in b]
    if hard:
        sys.exit(1)

    # names that were snake case already, which comments and pages may still have with a dash
    told = dict(names)
    for n in declared:
        dashed = n.replace("_", "-")
        if dashed != n and dashed not in declared and dashed not in library:
            told[dashed] = n

    for path in antt:
        text = read(path)
        new = turn_code(text, names, told, "--")
        if new != text:
            open(path, "w", encoding="utf-8").write(new)
    for path in sorted(glob.glob("crates/*/src/*.rt")):
        text = read(path)
        new = turn_code(text, names, told, "//")
        if new != text:
            open(path, "w", encoding="utf-8").write(new)
    for path in sorted(glob.glob("crates/*/must-fail/*.edit")):
        text = read(path)
        new = "\n".join(turn(l, names) if re.match(r"(old|new): ", l) else l for l in text.split("\n"))
        if new != text:
            open(path, "w", encoding="utf-8").write(new)
    for path in ["README.md"] + sorted(glob.glob("docs/**/*.md", recursive=True)):
        if os.path.exists(path):
            text = read(path)
            new = turn_quoted(text, told)
            if new != text:
                open(path, "w", encoding="utf-8").write(new)
    print(f"{len(names)} names respelled")


main(next((a for a in sys.argv[1:] if not a.startswith("--")), "."))
