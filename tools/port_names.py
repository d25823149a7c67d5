#!/usr/bin/env python3
"""Brings the names of this repository's own definitions and lemmas to today's spelling: snake case, and a dash only where it joins names
that are defined. Run once, at the top, after port.py: tools/port_names.txt has each old name and its new one, and
tools/port_names_by_port.txt those that port.py respelled in crates/, which edits and pages follow.

Definitions are replaced wherever they stand; a name with a dash only where code stands, or between backticks in a page."""
import pathlib
import re

here = pathlib.Path(__file__).resolve().parent


def read(name):
    return dict(line.split() for line in (here / name).read_text().splitlines() if not line.startswith("#"))


names, by_port = read("port_names.txt"), read("port_names_by_port.txt")
# Names that only a lemma gives up; in src/ a function may have them.
lemmas = {old for old in names if old == old.lower() and "-" not in old}
WORD = re.compile(r"(?<![A-Za-z0-9_'-])[A-Za-z_][A-Za-z0-9_'-]*(?![A-Za-z0-9_'-])")


def turned(text, dashes, hand_walk=False, lemma=False, also={}):
    def new(m):
        word, after_dot = m[0], text[: m.start()].endswith(".")
        if word in lemmas and (not lemma or after_dot) or "-" in word and (not dashes or hand_walk and after_dot):
            return word
        return names.get(word) or also.get(word, word)

    return WORD.sub(new, text)


def code(line, hand_walk):
    """A line of .antt: its comment keeps its dashes. In a Proof.antt what follows a dot is a step of the walk, named by the toolchain."""
    head, mark, tail = line.partition("--")
    return turned(head, True, hand_walk, True) + mark + turned(tail, False)


def source(line):
    """A line of .rt: dashes are subtractions, except where a clause or an import stands."""
    return turned(line, bool(re.match(r"\s*(ghost use|ensures|requires|ghost )", line)))


def edit(line):
    """A line of an edit."""
    if line.startswith("## "):
        head, mark, tail = line.partition(": ")
        return turned(head, True, also=by_port) + mark + turned(tail, False, also=by_port)
    return turned(line, False, also=by_port)


def page(line):
    return re.sub(r"`[^`]*`", lambda m: turned(m[0], True, also=by_port), turned(line, False, also={k: v for k, v in by_port.items() if "-" not in k and k != k.lower()}))


def run(paths, rule):
    for path in paths:
        old = path.read_text()
        new = "\n".join(rule(line) for line in old.split("\n"))
        if new != old:
            path.write_text(new)


top = here.parent
crates = [p for p in sorted((top / "crates").rglob("*")) if "out" not in p.relative_to(top).parts]
run([p for p in crates if p.suffix == ".antt" and p.name != "Proof.antt"], lambda line: code(line, False))
run([p for p in crates if p.name == "Proof.antt"], lambda line: code(line, True))
run([p for p in crates if p.suffix == ".rt"], source)
run([p for p in crates if p.suffix == ".edit"] + sorted((top / "tests" / "wrong").glob("*.edits")), edit)
run([top / "README.md", top / "CONTRIBUTING.md", *sorted((top / "docs").rglob("*.md"))], page)
