#!/usr/bin/env python3
"""Lists places in crates/*/src that an older form of the language left, by the points of docs/DESIGN-PASS.md.

    python3 tools/places.py [-v] [FOLDER]

FOLDER is a checkout, this one by default; -v prints each place. The patterns find candidates; docs/DESIGN-PASS.md says
which of them count and what became of each.
"""
import collections
import glob
import os
import re
import sys

verbose = "-v" in sys.argv
rest = [a for a in sys.argv[1:] if a != "-v"]
root = rest[0] if rest else os.path.join(os.path.dirname(__file__), "..")
files = sorted(glob.glob(os.path.join(root, "crates/*/src/**/*.rt"), recursive=True))
texts = {os.path.relpath(f, root): open(f).read() for f in files}


def lines_of(pattern, comment=False):
    found = []
    for name, text in texts.items():
        for number, line in enumerate(text.split("\n"), 1):
            is_comment = line.strip().startswith("//")
            if is_comment == comment and "ghost use" not in line and re.search(pattern, line):
                found.append(f"{name}:{number}: {line.strip()[:100]}")
    return found


def over_lines(pattern):
    found = []
    for name, text in texts.items():
        for m in re.finditer(pattern, text, re.S):
            number = text.count("\n", 0, m.start()) + 1
            found.append(f"{name}:{number}: {' '.join(m.group(0).split())[:100]}")
    return found


# A function: name, header up to the body, body.
FN = re.compile(r"^([ \t]*)(?:pub(?:\([a-z]+\))? )?(?:const )?fn (\w+)", re.M)


def functions():
    for name, text in texts.items():
        for m in FN.finditer(text):
            indent = m.group(1)
            start = re.compile(r"^" + indent + r"\{$|\{$", re.M).search(text, m.end())
            end = re.compile(r"^" + indent + r"\}$", re.M).search(text, m.end())
            semicolon = text.find(";\n", m.end())
            if not start or not end or (0 <= semicolon < start.start() and text[m.end():semicolon].count("{") == 0):
                continue
            # the clauses stand between the parameters and a line that is a brace alone
            alone = re.compile(r"^" + indent + r"\{$", re.M).search(text, m.end(), end.end())
            body = alone or start
            yield name, text.count("\n", 0, m.start()) + 1, m.group(2), text[m.start():body.start()], text[body.start():end.end()]


ALL = list(functions())


def shape(body):
    body = re.sub(r"//.*", "", body)
    body = re.sub(r'"[^"]*"', '"', body)
    tokens = re.findall(r"[A-Za-z_]\w*|\d[\d_a-z]*|\"|[^\s\w]", body)
    kept = {"for", "in", "if", "else", "match", "return", "let", "mut", "loop", "while", "break", "Some", "None", "Ok", "Err",
            "self", "true", "false", "as"}
    return " ".join(t if t in kept or not re.match(r"\w", t) else "x" for t in tokens)


def twins():
    groups = collections.defaultdict(list)
    for name, number, fn, header, body in ALL:
        s = shape(body)
        if len(s.split()) >= 18:
            groups[s].append(f"{name}:{number}: {fn}")
    return [" = ".join(g) for g in groups.values() if len(g) > 1]


def repeated_clauses():
    groups = collections.defaultdict(set)
    for name, number, fn, header, body in ALL:
        for clause in re.findall(r"^\s*(?:requires|ensures)(?: \w+)? \{ (.*) \}$", header, re.M):
            groups[(name.split("/")[1], clause)].add(f"{fn}")
    return [f"{c}: {clause[:80]}: {', '.join(sorted(fns))}" for (c, clause), fns in groups.items() if len(fns) >= 3]


def parameter_groups():
    groups = collections.defaultdict(set)
    for name, number, fn, header, body in ALL:
        m = re.search(r"\((.*?)\)(?: ->|\s*$|\s*\n)", header.split("ensures")[0].split("requires")[0], re.S)
        names = [p for p in re.findall(r"(\w+): ", m.group(1))] if m else []
        for i in range(len(names) - 2):
            groups[(name.split("/")[1], tuple(names[i:i + 3]))].add(fn)
    return [f"{c}: {', '.join(g)}: {', '.join(sorted(fns))}" for (c, g), fns in groups.items() if len(fns) >= 3]


def count_of(pattern):
    return len(glob.glob(os.path.join(root, pattern), recursive=True))


def lemmas():
    total = 0
    for f in glob.glob(os.path.join(root, "crates/*/proofs/**/*.antt"), recursive=True):
        if not f.endswith(("Answers.antt", "Invariants.antt", "Lib.antt")):
            total += len(re.findall(r"^\s*(?:pub )?(?:abbrev )?(?:pub )?[\w'-]+ :[^:]", open(f).read(), re.M))
    return total


POINTS = [
    ("1 outcomes", [
        ("an error handed out as an Option", lines_of(r"-> Option<Refusal>")),
        ("Ok and Err, or Some and None, wrapped again", lines_of(r"\bErr\((\w+)\) => (return )?Err\(|\bOk\((\w+)\) => (Ok\(\3\)|\3),|\bNone => None\b")),
        ("a test of a result that returns its error", over_lines(r"let (Ok|Some)\([^=]*\) = [^;]*? else \{\s*return (Err\([^;]*|Ok\(None\)|None);\s*\}")),
        ("a number for a kind, a rule or a class", lines_of(r"\b(rule|class|code): u8\b|-> (Option<)?u8>? *\{?$|Option<\(usize, u8\)>")),
        ("0 for none, said in a comment", lines_of(r"\b0 (where|for|if|past|behind|: none|none)\b|\(0: none\)|; 0 where|where .* is 0\b", comment=True)),
        ("a flag with a value beside it", lines_of(r"^\s*(pub )?is_\w+: bool,$")),
    ]),
    ("2 twins", [("functions of one shape", twins())]),
    ("3 loops", [
        ("over a range of indices", lines_of(r"\bfor \w+ in \(?[\w.()+* ]+\.\.")),
        ("loop and while", lines_of(r"^\s*('\w+: )?(loop \{|while )")),
        ("a counter by hand", lines_of(r"^\s*\w+ = \w+\.saturating_add\(1\);|^\s*\w+ [-+]= 1;")),
        ("for over items", lines_of(r"\bfor [\w(), &]+ in [^.]*?(\.iter\(\)|\.iter_mut\(\)|\.enumerate\(\))?.* \{$")),
    ]),
    ("4 by hand", [
        ("compared by a number", lines_of(r"\.(byte|kmh|number)\(\) (==|!=|<=|>=|<|>) ")),
        ("conversions", lines_of(r"fn (from_\w+|of_\w+|\w+_of)\(")),
        ("order", lines_of(r"fn (is_below|lower_of|worse|is_same\w*)\b")),
        ("bytes of a number", lines_of(r"% 256|/ 256|256 \*")),
        ("texts", lines_of(r"fn (tell_\w+|\w+_text|\w+_word|word_of|\w+_letter)\b")),
    ]),
    ("5 together", [("clauses in three or more functions of a crate", repeated_clauses()), ("parameters that go together", parameter_groups())]),
    ("6 lengths", [
        ("a count or a size beside a table", lines_of(r"^\s*(pub )?(count|size|held): usize,$|, (count|size): usize[,)]")),
    ]),
    ("7 steps", [("traits of one test, function pointers, dyn", lines_of(r"trait \w*Test|\bdyn \b|: fn\("))]),
]

for point, kinds in POINTS:
    print(f"{point}: {sum(len(found) for _, found in kinds)}")
    for kind, found in kinds:
        print(f"    {len(found):4} {kind}")
        if verbose:
            for place in found:
                print(f"         {place}")
print("8 proofs:", count_of("crates/*/proofs/**/Answers.antt"), "files of answers,", count_of("crates/*/proofs/**/Invariants.antt"),
      "of invariants,", lemmas(), "lemmas and definitions in", count_of("crates/*/proofs/*.antt"), "files")
