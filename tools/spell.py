#!/usr/bin/env python3
"""Brings this repository's own definitions and lemmas to the spelling of today's Rattle: words in snake case.

usage: python3 tools/spell.py            at the top of the repository, once, right behind the kit's port.py

A name of ours is one that a file of specs/ or a shared file of proofs/ defines: a definition, a lemma, a field, a constructor
or a name that a `where` or a `let` gives. Of those that have a dash each dash becomes `_`, in every .antt, .rt and .edit file
and in the code marks of the pages. A name that begins with a capital keeps its dash (a dash joins a type to a name). Names of
the kit keep theirs: a name of ours that falls together with one that a file imports from the kit is left, and printed. Names
of functions, strings and comments of src/ stay; only `ghost` lines and clauses of a .rt file are read.
"""
import glob
import os
import re
import sys

WORD = r"[A-Za-z0-9_'\u0370-\u03ff\u2080-\u2089\u2115-]"
TOKEN = re.compile(WORD + "+")
FUNCTION_FILES = ("Proof.antt", "Answers.antt", "Invariants.antt")
BINDS = [
    re.compile(r"^\s*(?:abbrev\s+|unfoldable\s+|deriving\s+)?(?:pub\s+)?(?:record\s+|data\s+)?(" + WORD + r"+)\s*(?::(?!=)|\()"),
    re.compile(r"\blet\s+(" + WORD + r"+)\s*[:=]"),
    re.compile(r"[({]\s*((?:" + WORD + r"+\s+)*" + WORD + r"+)\s*:"),
    re.compile(r"\u03bb\s+((?:" + WORD + r"+\s+)*" + WORD + r"+)\s*\."),
    re.compile(r"^\s*(" + WORD + r"+)(?:\s+[^=:]*)?\s=(?:\s|$)"),
]


def ours(p):
    return "/specs/" in p or p.count("/") == 3 or os.path.basename(p) not in FUNCTION_FILES


def bound(text):
    for line in text.splitlines():
        if line.lstrip().startswith(("--", "use ", "pub use ", "ghost use ")):
            continue
        for b in BINDS:
            for m in b.finditer(line):
                yield from m.group(1).split()


def imported_from_kit(text):
    for m in re.finditer(r"^\s*(?:pub |ghost )*use\s+(\S+?)\.\{([^}]*)\}", text, re.M):
        if not m.group(1).startswith("Rattle.") or m.group(1).startswith("Rattle.std."):
            yield from (w.strip() for w in m.group(2).split(","))


def turned(name):
    return name.replace("-", "_")


def main():
    files = sorted(glob.glob("crates/*/specs/**/*.antt", recursive=True) + glob.glob("crates/*/proofs/**/*.antt", recursive=True))
    texts = {p: open(p, encoding="utf-8").read() for p in files}
    kit = set()
    for t in texts.values():
        kit |= {w for w in imported_from_kit(t) if "-" in w}
    names = set()
    for p, t in texts.items():
        if ours(p):
            names |= {w for w in bound(t) if "-" in w.strip("-") and not w[0].isupper() and not w.startswith("-")}
    both = names & kit
    for w in sorted(both):
        print("left, a name of the kit too:", w)
    names -= both
    every = set()
    for t in texts.values():
        every |= set(TOKEN.findall(t))
    for w in sorted(names):
        if turned(w) in every:
            print("falls together with a name that stands already:", w, "->", turned(w))

    def turn(text):
        return TOKEN.sub(lambda m: turned(m.group()) if m.group() in names else m.group(), text)

    def marked(text):
        return re.sub(r"`[^`\n]+`", lambda m: turn(m.group()), text)

    def turn_line(line):
        m = re.search(r"(?:^|\s)(?:--|//)(?=\s)", line)
        return turn(line) if not m else turn(line[: m.start()]) + marked(line[m.start() :])

    changed = 0
    for p, t in texts.items():
        n = "".join(turn_line(l) for l in t.splitlines(keepends=True))
        if n != t:
            changed += 1
            open(p, "w", encoding="utf-8").write(n)
    for p in sorted(glob.glob("crates/*/src/**/*.rt", recursive=True)):
        t = open(p, encoding="utf-8").read()
        out = []
        for line in t.splitlines(keepends=True):
            s = line.lstrip()
            clause = s.startswith(("ghost use", "requires", "ensures", "ghost ")) or (not s.startswith("//") and re.search(r"[\u2261\u2264\u2192\u00d7\u2200]", s))
            out.append(turn(line) if clause else marked(line) if s.startswith("//") else line)
        n = "".join(out)
        if n != t:
            changed += 1
            open(p, "w", encoding="utf-8").write(n)
    for p in sorted(glob.glob("crates/*/must-fail/*.edit")):
        t = open(p, encoding="utf-8").read()
        n = "".join(turn(l) if l.startswith(("old:", "new:")) else l for l in t.splitlines(keepends=True))
        if n != t:
            changed += 1
            open(p, "w", encoding="utf-8").write(n)
    for p in ["README.md"] + sorted(glob.glob("docs/*.md")):
        t = open(p, encoding="utf-8").read()
        n = marked(t)
        if n != t:
            changed += 1
            open(p, "w", encoding="utf-8").write(n)
    print(len(names), "names,", changed, "files")
    return 0


if __name__ == "__main__":
    sys.exit(main())
