#!/usr/bin/env python3
"""Counts the forms that docs/DESIGN-PASS.md is about, over crates/*/src of the work tree.

tools/forms.py            a line for each form: its point, its count, its name
tools/forms.py --list     the places of each besides
"""
import os
import re
import subprocess
import sys

LISTED = sys.argv[1:] == ["--list"]

FILES = subprocess.run(
    ["git", "ls-files", "crates/*/src/*.rt", "crates/*/src/**/*.rt"], capture_output=True, text=True, check=True
).stdout.split()
FILES = sorted(path for path in set(FILES) if os.path.exists(path))


def code_of(text):
    """The text with comments and contract clauses blanked, line by line."""
    return re.sub(r"//[^\n]*", "", text)


def functions(text):
    """(line, head, body) of every function; the head ends before its clauses."""
    for m in re.finditer(r"^([ ]*)(?:pub )?(?:extern \"C\" )?fn \w+", text, re.M):
        rest = text[m.start():]
        ends = [p for p in (rest.find("\n" + m[1] + "{"), rest.find(" {\n"), rest.find("\n" + m[1] + "    requires"),
                            rest.find("\n" + m[1] + "    ensures")) if p >= 0]
        head = rest[: min(ends)] if ends else rest.split("\n", 1)[0]
        close = rest.find("\n" + m[1] + "}")
        yield text[: m.start()].count("\n") + 1, head, rest[len(head): close]


found = {}


def note(point, name, path, line, what=""):
    found.setdefault((point, name), []).append((path, line, what.strip()))


def lines(point, name, pattern, paths=FILES, comments=False):
    found.setdefault((point, name), [])
    for path in paths:
        text = open(path, encoding="utf-8").read()
        text = text if comments else code_of(text)
        for i, line in enumerate(text.split("\n"), 1):
            for m in re.finditer(pattern, line):
                note(point, name, path, i, line)


lines(1, "own enums", r"^(pub )?enum \w+")
lines(1, "functions that answer a refusal, which may be none", r"-> (model::)?Refusal\b")
lines(1, "refusals by their number", r"\bnumber: \d+\b|refuse_if\(.*, \d+\)")
lines(1, "tests for a refusal that is none", r"\bis_none\(|\.number [!=]= 0|\bnumber != 0")
lines(1, "flags: fields that are true or false", r"^\s+(pub )?\w+: bool,")
found[(1, "functions that write to a list and say true or false")] = []
lines(1, "numbers for kinds", r"^(pub )?const [A-Z_]+: u(32|64) = \d;")
lines(1, "numbers that are written to for a caller", r"&mut u(32|64|size)\b|&mut usize\b")
lines(3, "while and loop", r"^\s*(let .* = )?(while|loop)\b")
found[(3, "of these, loops that count an index")] = []
for path in FILES:
    text = code_of(open(path, encoding="utf-8").read())
    rows = text.split("\n")
    for i, row in enumerate(rows):
        m = re.match(r"^(\s*)(let .* = )?(while|loop)\b", row)
        if not m:
            continue
        body = []
        for later in rows[i + 1:]:
            if later.startswith(m[1] + "}"):
                break
            body.append(later)
        if re.search(r"\b(i|k|n|at|band|end|place|from|to) [+-]= 1;", "\n".join(body)):
            note(3, "of these, loops that count an index", path, i + 1, row)
HAND = "plus|minus|less|lesser|greater|over|wide|low_bits|within|at|put|fill|quotient|remainder|times"
lines(4, "functions written by hand for what a library method or derive says",
      r"\bfn (%s|sum|clear|is_none|refuse_if|first_of|untried|no_turn|cleared|\w+_flat|no_\w+|fresh_shift)\(" % HAND)
lines(4, "calls of such functions on numbers and places", r"(?<![\w.!])(?<!fn )(%s)\(" % HAND)
lines(5, "clauses: a list is as long as it was", r"length [\w.]+\.new ≡ length [\w.]+\.old|length [\w.]+\.new \S+ length [\w.]+\.old")
lines(5, "clauses: Readable, Lent, PlainAt, Light", r"^(?!ghost use|    ghost use).*\b(Readable|Lent|PlainAt|Light|Startable)\b")
lines(5, "clauses that make a request of the lists", r"\bbounded_request figures\b")
found[(5, "signatures with a harvest, a least and a most")] = []
found[(6, "signatures with a list and a place in it")] = []
found[(7, "functions that choose which guess to make")] = []
for path in FILES:
    text = code_of(open(path, encoding="utf-8").read())
    for line, head, body in functions(text):
        flat = " ".join(head.split())
        if re.search(r"\bharvest: ", flat) and re.search(r"\bleast: ", flat) and re.search(r"\bmost: ", flat):
            note(5, "signatures with a harvest, a least and a most", path, line, flat)
        if re.search(r"out: &mut \[u8\], at: usize|file: &\[u8\], i: usize|bytes: &\[u8\], i: usize|first: usize, end: usize", flat):
            note(6, "signatures with a list and a place in it", path, line, flat)
        if "&mut" in flat and re.search(r"-> bool\b", flat):
            note(1, "functions that write to a list and say true or false", path, line, flat)
        if path.startswith("crates/leveller") and re.search(r"fn (by|plan|peak|one)_\w+", flat):
            note(7, "functions that choose which guess to make", path, line, flat)
lines(6, "fixed arrays", r"= \[[\w:()]+; [A-Z_a-z0-9]+\]")

if __name__ == "__main__":
    for (point, name), places in sorted(found.items()):
        print(f"{point} {len(places):4} {name}")
        if LISTED:
            for path, line, what in places:
                print(f"        {path}:{line}: {what}")
