#!/usr/bin/env python3
"""Spells the definitions and lemmas of this repository as today's Rattle spells them, once, after the kit's port.py.

Words are in snake case: a capital after a small letter, and a dash, become an underscore (atHand -> at_hand,
frames-feasible -> frames_feasible). Types, modules and facts keep their capital letter. A name is changed only where
a file of specs/ or proofs/ declares it (a definition, a lemma, a field, a constructor); it is then changed in every
.antt file, in the clauses and `ghost` lines of every .rt file, in the edits and in the pages that name it.
Run at the top of the repository: tools/respell.py [--list]"""
import collections
import glob
import re
import sys

LETTER = r"[^\s(){}\[\].,;:|@`\"«»λ]"          # what a name of antt is made of
NAME = re.compile(LETTER + "+")
# a name at the head of a signature, a field, a constructor
HEAD = re.compile(r"^\s*(?:abbrev |pub |unfoldable |data |record |private )*(" + LETTER + r"+)(?: \([^=]*\)| \{[^=]*\})* :(?:\s|$)")
MODULE = re.compile(r"^\s*(?:pub )?mod ")
# names that the checker gives to goals and the like: they are not ours
MADE = re.compile(r"^(loop|returns|need|overflow|bounds|slice_bounds|nonzero|invariant|decreases|branch|then|else)(-|$)|^(Need|Else|Then|Loop|After)")
# lemmas whose name would fall together with the definition that they are about
LEMMAS = """all-recorded are-terms bound-kind bound-step feasible-unlimited frame-room is-present leasts-from leasts-in
places-in read-refused short-by trace-losses traced-from frame-of""".split()
BY_HAND = {name: name.replace("-", "_") + "_lem" for name in LEMMAS}
# a lemma that has the name of a field, too
FIRST = [
    ("crates/model/proofs/Lowest.antt", r"(?<![\w-])takes-more(?![\w-])", "takes_more_lem"),
    ("crates/model/proofs/Request.antt", r"MostServed, takes-more,", "MostServed, takes_more_lem,"),
    ("crates/model/proofs/Request.antt", r"best\. takes-more r", "best. takes_more_lem r"),
]


def antt_files():
    return sorted(glob.glob("crates/*/specs/**/*.antt", recursive=True)
                  + glob.glob("crates/*/proofs/**/*.antt", recursive=True))


def respelled(name):
    if name in BY_HAND:
        return BY_HAND[name]
    if not re.match(r"[A-Za-z]", name) or not re.search(r"[A-Za-z]", name):
        return name
    if re.search(r"[≤≡≢∷+*<◌∙≥]", name):
        return name
    words = name.split("-")
    out = []
    for i, word in enumerate(words):
        if i == 0 and word[:1].isupper():
            out.append(word)                   # a type, a fact
            continue
        word = re.sub(r"(?<=[a-z0-9])([A-Z])", lambda m: "_" + m.group(1).lower(), word)
        out.append(word[:1].lower() + word[1:])
    return "_".join(out)


def declared():
    names = collections.defaultdict(set)
    for path in antt_files():
        by_function = path.count("/") > 3 and "/proofs/" in path
        for line in open(path, encoding="utf-8"):
            line = line.split("--")[0]
            if MODULE.match(line):
                continue
            found = HEAD.match(line)
            if found and not (by_function and MADE.match(found.group(1))):
                names[found.group(1)].add(path)
    return names


def table():
    return {n: respelled(n) for n in declared() if respelled(n) != n}


def turned(text, names):
    return NAME.sub(lambda m: names.get(m.group(0), m.group(0)), text)


def clauses(text, names):
    """The same in a .rt file: `ghost use` lines and what stands between the braces of a clause."""
    out, at = [], 0
    for found in re.finditer(r"\b(ghost use [^;]*;|(?:requires|ensures|ghost)\*?(?: \w+)?:? \{)", text):
        if found.start() < at:
            continue
        out.append(text[at:found.start()])
        if found.group(0).startswith("ghost use"):
            end = found.end()
        else:
            depth, end = 1, found.end()
            while depth:
                depth += {"{": 1, "}": -1}.get(text[end], 0)
                end += 1
        out.append(turned(text[found.start():end], names))
        at = end
    return "".join(out) + text[at:]


def rewrite(path, change):
    old = open(path, encoding="utf-8").read()
    new = change(old)
    if new != old:
        open(path, "w", encoding="utf-8").write(new)


def main():
    names = table()
    if "--list" in sys.argv:
        for old in sorted(names):
            print(old, names[old])
        return
    for path, old, new in FIRST:
        rewrite(path, lambda text: re.sub(old, new, text))
    for path in antt_files():
        rewrite(path, lambda text: turned(text, names))
    for path in glob.glob("crates/*/src/**/*.rt", recursive=True):
        rewrite(path, lambda text: clauses(text, names))
    for path in glob.glob("crates/*/must-fail/*"):
        rewrite(path, lambda text: turned(text, names) if "file: specs/" in text else text)
    for path in ["README.md", "docs/READING.md"] + sorted(glob.glob("docs/*.md")):
        if path.endswith("PORT.md"):
            continue
        rewrite(path, lambda text: re.sub(r"`[^`\n]+`", lambda m: turned(m.group(0), names), text))


if __name__ == "__main__":
    main()
