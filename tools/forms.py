#!/usr/bin/env python3
"""Finds the places in crates/*/src that an older form may have left, point by point as docs/DESIGN-PASS.md counts them.

tools/forms.py           counts
tools/forms.py --places  counts, and each place with its file and line
"""
import pathlib
import re
import sys
from collections import defaultdict

TOP = pathlib.Path(__file__).resolve().parent.parent
SHOW = "--places" in sys.argv


class Function:
    def __init__(self, path, line, name, params, contract, body):
        self.path, self.line, self.name = path, line, name
        self.params, self.contract, self.body = params, contract, body

    def __str__(self):
        return f"{self.path}:{self.line}: {self.name}"


def functions(path, text):
    for m in re.finditer(r"^ *(?:pub(?:\(crate\))? )?fn (\w+)(?:<[^(]*>)?\(", text, re.M):
        depth, i = 1, m.end()
        while depth:
            depth += {"(": 1, ")": -1}.get(text[i], 0)
            i += 1
        params = text[m.end():i - 1]
        # the body's brace stands at the end of the signature's line or alone on a line
        b = re.compile(r"(?:^ *\{$)|(?: \{$)", re.M).search(text, i)
        if not b:
            continue
        start, depth, j = b.end(), 1, b.end()
        while depth and j < len(text):
            depth += {"{": 1, "}": -1}.get(text[j], 0)
            j += 1
        yield Function(path, text.count("\n", 0, m.start()) + 1, m.group(1), params, text[i:start], text[start:j - 1])


FILES = {}
for p in sorted(TOP.glob("crates/*/src/**/*.rt")):
    FILES[str(p.relative_to(TOP))] = p.read_text()
FUNCTIONS = [f for path, text in FILES.items() for f in functions(path, text)]


def report(point, what, places):
    print(f"{point:4} {what}: {len(places)}")
    if SHOW:
        for place in places:
            print(f"       {place}")


def lines(pattern):
    found = []
    for path, text in FILES.items():
        for n, line in enumerate(text.split("\n"), 1):
            if re.search(pattern, line):
                found.append(f"{path}:{n}: {line.strip()}")
    return found


# 1
report("1a", "enums", lines(r"^ *(pub(\(crate\))? )?enum "))
report("1b", "fields and parameters that are flags", lines(r"^ *(pub(\(crate\))? )?\w+: bool,$"))
report("1c", "numbers that stand for none, by the comment that says so",
       lines(r"//.*\b(0|10|16|32|64|length|end|shorter)\b.*(where there is (none|no)|is none|there is none|for any other byte|where none|where nothing|where it cannot|where a segment may not|where the write)"))

# 2
names = defaultdict(list)
for f in FUNCTIONS:
    if f.name != "main":
        names[f.name].append(f)
report("2a", "functions of one name in several files", [f"{n}: " + ", ".join(f"{f.path}:{f.line}" for f in fs) for n, fs in sorted(names.items()) if len({f.path for f in fs}) > 1])
PAIRS = [("first", "second"), ("16", "32"), ("v4", "v6"), ("own", "server"), ("established", "waiting"), ("word", "long"), ("previous", "present"), ("source", "dest"), ("byte", "word")]
twins = []
for path in FILES:
    here = {f.name: f for f in FUNCTIONS if f.path == path}
    for name, f in here.items():
        for a, b in PAIRS + [("", "_in"), ("", "_mut")]:
            other = re.sub(a + "$" if a == "" else a, b, name, count=1) if (a in name or a == "") else None
            if other and other != name and other in here:
                twins.append(f"{path}:{f.line}: {name} and {other}")
report("2b", "functions beside one another whose names differ in a word", twins)

# 3
report("3", "loops that count by hand", [f"{f}: {m.group(0).strip()}" for f in FUNCTIONS for m in re.finditer(r"^ *(?:while|loop)\b.*$|^ *for \w+ in [^\n]*\.\.[^\n]*\{$", f.body, re.M)])

# 4
tables = [f for f in FUNCTIONS if len(re.findall(r"=> (?:true|false|\d+),", f.body)) > 1]
report("4a", "matches that give a truth or a number by hand", tables)
report("4b", "equality and conversion by hand, by name", [f for f in FUNCTIONS if re.match(r"(same_|is_word$|number$|codings_of|family_of|event_of|event_check|check_of|is_size|word16|long32|long_in|header$|head_bytes)", f.name)])

# 5
facts = defaultdict(list)
for f in FUNCTIONS:
    for m in re.finditer(r"requires (?:\w+ )?\{ (.*) \}", f.contract):
        facts[m.group(1)].append(f)
report("5a", "facts that three functions or more require", [f"{k}: " + ", ".join(f.name for f in fs) for k, fs in facts.items() if len(fs) > 2])
groups = defaultdict(list)
for f in FUNCTIONS:
    params = [re.sub(r"\s+", " ", p.strip()) for p in f.params.split(",") if p.strip()]
    params = [re.sub(r"^mut ", "", p) for p in params]
    for i in range(len(params) - 2):
        groups[f.path.split("/")[1] + ": " + ", ".join(params[i:i + 3])].append(f)
report("5b", "three parameters that go together through three functions or more", [f"{k}: " + ", ".join(f.name for f in fs) for k, fs in groups.items() if len(fs) > 2])

# 6
report("6", "a buffer with a place or a length beside it", [f for f in FUNCTIONS if re.search(r"&(?:'a )?(?:mut )?\[[^\]]*\],\s*\w*(?:at|len|from|end|next|n|i)\w*: usize", f.params)]
       + lines(r"^ *(pub(\(crate\))? )?(len|end|at|next|filled): usize,$"))

# 7
report("7", "chains of tests that choose what to run", [f for f in FUNCTIONS if len(re.findall(r"if is_(?:word|call)\(", f.body)) > 2])

# 8
proofs = sorted(str(p.relative_to(TOP)) for p in TOP.glob("crates/*/proofs/**/*.antt"))
answers = [p for p in proofs if p.endswith("Answers.antt")]
report("8a", "files of answers", answers)
report("8b", "files of invariants", [p for p in proofs if p.endswith("Invariants.antt")])
print(f"8c   lines of proofs: {sum((TOP / p).read_text().count(chr(10)) for p in proofs)}")
everything = {str(p.relative_to(TOP)): p.read_text() for pattern in ("crates/*/src/**/*.rt", "crates/*/specs/**/*.antt", "crates/*/proofs/**/*.antt") for p in TOP.glob(pattern)}
words = defaultdict(int)
for text in everything.values():
    for w in set(re.findall(r"[\w'\-]+", text)):
        words[w] += 1
docs = " ".join(p.read_text() for p in list(TOP.glob("*.md")) + list(TOP.glob("docs/**/*.md")) if p.name not in ("DESIGN-PASS.md", "PORT.md"))
uncited = []
for p in proofs:
    if p.endswith(("Answers.antt", "Invariants.antt", "Lib.antt")):
        continue
    for m in re.finditer(r"^ *pub ([\w'\-]+) :", everything[p], re.M):
        name = m.group(1)
        if words[name] == 1 and len(re.findall(r"(?<![\w'\-])" + re.escape(name) + r"(?![\w'\-])", everything[p])) <= 2 and name not in docs:
            uncited.append(f"{p}: {name}")
report("8d", "laws that nothing cites and no page names", uncited)
