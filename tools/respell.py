#!/usr/bin/env python3
"""Brings the names of this repository's definitions and lemmas to Rattle's spelling, once, after /opt/rattle/port/port.py.

usage: python3 tools/respell.py          at the top of the repository

A definition, a field, a constructor or a lemma that is written with dashes gets underscores (`mark-of` becomes `mark_of`), and one
that begins with a capital, which is a fact or a type, is joined (`Fit-mark` becomes `FitMark`). Left as they are: names that a
library has too, names that Rattle makes (goals, steps), lemmas named after a fact (`All-weaker`, `Decides-like`), functions of src/, strings,
inputs and outputs. It prints the names that would fall together with another name, and leaves those.
"""
import os
import re
import sys

NAME = r"[A-Za-z][A-Za-z0-9_']*(?:-[A-Za-z0-9_']+)+"
TOKEN = re.compile(r"(?<![A-Za-z0-9_'\-])" + NAME + r"(?![A-Za-z0-9_'\-])")
WORD = re.compile(r"(?<![A-Za-z0-9_'\-])[A-Za-z][A-Za-z0-9_']*(?![A-Za-z0-9_'\-])")
DECLARED = re.compile(r"^\s*(?:(?:abbrev|unfoldable)\s+)?(?:pub\s+)?(?:(?:record|data|ruleset)\s+)?(" + NAME + r")\s*(?::|\(|\{)")
USED = re.compile(r"use\s+([A-Za-z.]+(?:\.[A-Za-z0-9_+]+)*)\.\{([^}]*)\}")
MADE = re.compile(r"^(returns|loop|invariant|decreases|overflow|in|if|else|then|bounds|slice_bounds|nonzero|offset_bounds|prove|type)-")
FACTS = ("All-", "Decides-", "IfOk-", "IsPermutation-")


def files(top, endings):
    for folder, dirs, names in os.walk(top):
        dirs[:] = sorted(d for d in dirs if d not in ("out", ".git", "target"))
        for name in sorted(names):
            if name.endswith(endings):
                yield os.path.join(folder, name)


def read(path):
    with open(path, encoding="utf-8") as f:
        return f.read()


def respelt(name):
    if name[0].isupper():
        return "".join(part[:1].upper() + part[1:] for part in name.split("-"))
    return name.replace("-", "_")


def own_names(top):
    crates = set(os.listdir(os.path.join(top, "crates")))
    own, foreign, words = set(), set(), {}
    for path in files(os.path.join(top, "crates"), (".antt", ".rt")):
        text = read(path)
        for used in USED.finditer(text):
            parts = used.group(1).split(".")
            if not (parts[0] == "Rattle" and len(parts) > 1 and parts[1] in crates):
                foreign.update(n.split(" as ")[0].strip() for n in used.group(2).split(","))
        if not path.endswith(".antt"):
            continue
        code = "\n".join(line for line in text.split("\n") if not line.lstrip().startswith("--"))
        for word in WORD.findall(code):
            words.setdefault(word, path)
        if os.path.basename(path) in ("Answers.antt", "Invariants.antt", "Proof.antt"):
            continue
        for line in code.split("\n"):
            found = DECLARED.match(line)
            if found and not MADE.match(found.group(1)):
                own.add(found.group(1))
    return own - foreign, words


def turn(text, names):
    return TOKEN.sub(lambda m: names.get(m.group(0), m.group(0)), text)


def turn_ticks(text, names):
    return re.sub(r"`[^`\n]*`", lambda m: turn(m.group(0), names), text)


def turn_comment(line, names):
    """A comment of an .antt file: its list of words begins with five spaces, and names stand in ticks."""
    found = re.match(r"^(\s*--\s{4,})(.*?)(\s{2,}.*)$", line)
    if found:
        return found.group(1) + turn(found.group(2), names) + turn_ticks(found.group(3), names)
    return turn_ticks(line, names)


def turn_antt(text, names):
    return "\n".join(turn_comment(line, names) if line.lstrip().startswith("--") else turn(line, names) for line in text.split("\n"))


def turn_rt(text, names):
    """Strings stay; a comment's names stand in ticks."""
    lines = []
    for line in text.split("\n"):
        if line.lstrip().startswith("//"):
            lines.append(turn_ticks(line, names))
            continue
        pieces = re.split(r'("(?:[^"\\]|\\.)*")', line)
        lines.append("".join(p if p.startswith('"') else turn(p, names) for p in pieces))
    return "\n".join(lines)


def main():
    top = os.getcwd()
    own, words = own_names(top)
    names, together = {}, {}
    for name in sorted(own):
        if name.startswith(FACTS):
            continue
        new = respelt(name)
        together.setdefault(new, []).append(name)
        names[name] = new
    for new, olds in together.items():
        if len(olds) > 1 or new in words:
            print("falls together:", ", ".join(olds), "->", new, words.get(new, ""))
            if len(olds) > 1:
                for old in olds:
                    names.pop(old)
    for path in files(os.path.join(top, "crates"), (".antt", ".rt", ".edit")):
        old = read(path)
        new = turn_antt(old, names) if path.endswith(".antt") else turn_rt(old, names)
        if new != old:
            with open(path, "w", encoding="utf-8") as f:
                f.write(new)
    pages = [os.path.join(top, "README.md")] + list(files(os.path.join(top, "docs"), (".md",)))
    for path in pages:
        if not os.path.exists(path):
            continue
        old = read(path)
        new = turn_ticks(old, names)
        if new != old:
            with open(path, "w", encoding="utf-8") as f:
                f.write(new)
    print(len(names), "names respelt")


if __name__ == "__main__":
    sys.exit(main())
