#!/usr/bin/env python3
"""tools/respell.py: the repository's own names in definitions and lemmas to today's spelling, run once after the port's script.

Words are in snake case: holdsBack is holds_back, live-below is live_below, SY-ERR is SY_ERR. A lemma that would then have the
name of a definition or of a function gets _lem. Names of types and modules stay, and so do names that the checker makes: those
of goals, of steps and of what a function's proof is tied by. In comments and in papers a name is respelled where it stands in
backquotes. It prints what it renamed.
"""
import glob
import os
import re
import sys

os.chdir(os.path.join(os.path.dirname(os.path.abspath(__file__)), ".."))
END = r"\s(){}\[\],;.\"`"
NAME = re.compile(rf"[^{END}]+")
DECLARED = re.compile(rf"^\s*(?:(?:abbrev|unfoldable|pub|let)\s+)*([^{END}]+)\s+:\s")
BOUND = re.compile(rf"[({{]([^(){{}}:]+) :\s|λ ([^.(){{}}]+)\.|\blet ([^{END}]+) [:=]|\bas ([^{END}-]+)(?=[,}};]|$)|^\s*[^{END}]+ ((?:[^{END}=]+ )+)=(?:\s|$)")
MADE = re.compile(r"^(returns|loop\d*|invariant|measure|decreases|preserved|falls|enum|match|in)(-|$)|-(requires|ensures|result|met|link)(-\d+)?$|^(array|shared|slice|overflow|cast|add|sub|mul|div|shr|shl)-")


def files(*patterns):
    return sorted(p for x in patterns for p in glob.glob(x, recursive=True) if "/out/" not in p)


def read(path):
    with open(path, encoding="utf-8") as f:
        return f.read()


def is_comment(line):
    return line.lstrip().startswith(("--", "//", "#"))


def of_function(path):
    """A function's proof has names that the checker made beside its own, and so has the code."""
    return path.endswith(".rt") or ("/proofs/" in path and path.count("/") > 3)


def snake(name):
    name = name.replace("′", "'")
    name = re.sub(r"(?<=[a-z0-9])([A-Z])", lambda m: "_" + m.group(1).lower(), name) if name[0].islower() else name
    return re.sub(r"(?<=[\w'])-(?=\w)", "_", name)


antt = files("crates/*/specs/**/*.antt", "crates/*/proofs/**/*.antt")
source = files("crates/*/src/*.rt")
stated, local, code = set(), set(), set()
for path in antt:
    for line in read(path).splitlines():
        if is_comment(line):
            continue
        found = [m.group(1) for m in [DECLARED.match(line)] if m]
        if not of_function(path):
            stated.update(found)
        local.update(n for n in found if not (MADE.search(n) or "Need" in line))
        for m in BOUND.finditer(line):
            local.update(next(g for g in m.groups() if g).split())
for path in source:
    for line in read(path).splitlines():
        m = None if is_comment(line) else re.search(r"\bfn (\w+)", line)
        if m:
            code.add(m.group(1))
        if line.startswith("ghost use "):
            local.update(re.findall(r"\bas (\w+)", line))

renamed, giving_way = {}, {}
for name in sorted(stated | local, key=lambda n: ("-" in n, n)):
    if not re.match(r"^[\wμ'′+-]+$", name) or name.startswith("+") or (name[0].isupper() and "-" not in name):
        continue
    to = snake(name)
    if to == name:
        continue
    renamed[name] = to
    upper = name == name.upper()
    if "-" in name and name in stated and not upper and (to in code or to in stated or to in renamed.values() and [*renamed.values()].count(to) > 1):
        giving_way[name] = to + "_lem"
    elif "-" not in name and to in stated:
        # A lemma or a field has the name: that one gives way.
        giving_way[to] = to + "_lem"
        renamed[to] = to
together = {}
for name, to in {**renamed, **giving_way}.items():
    if name in stated and together.setdefault(to, name) != name:
        sys.exit(f"{name} and {together[to]} fall together as {to}")

by_name = re.compile(rf"(?<![^{END}])(" + "|".join(re.escape(n) for n in sorted(renamed, key=len, reverse=True)) + rf")(?![^{END}])")
in_quotes = re.compile(r"`[^`\n]+`")


def turned(text, names, after_a_dot):
    def put(m):
        dotted = m.start() > 0 and text[m.start() - 1] == "."
        return (after_a_dot if dotted else names).get(m.group(1), renamed[m.group(1)])

    return by_name.sub(put, text)


for path in antt + source + files("crates/*/must-fail/*.edit") + files("README.md", "docs/*.md", "tests/README.md"):
    before = read(path)
    names, after_a_dot = giving_way, giving_way
    if of_function(path):
        used = set(NAME.findall(" ".join(l for l in before.splitlines() if l.startswith(("use ", "ghost use ")))))
        names, after_a_dot = {n: t for n, t in giving_way.items() if n in used}, {}
        if path.endswith(".rt"):
            names = {n: t for n, t in names.items() if "-" in n}
    lines = []
    for line in before.split("\n"):
        # An import names a lemma behind a path's dot, and a path's parts are functions too.
        if path.endswith(".md") or is_comment(line):
            line = in_quotes.sub(lambda m: turned(m.group(0), names, names), line)
        else:
            head, brace, tail = line.partition("{") if line.startswith(("use ", "ghost use ")) else ("", "", line)
            line = turned(head, {}, {}) + brace + turned(tail, names, after_a_dot)
        lines.append(line)
    after = "\n".join(lines)
    if after != before:
        with open(path, "w", encoding="utf-8") as f:
            f.write(after)
for name in sorted(renamed):
    print(name, giving_way.get(name, renamed[name]))
