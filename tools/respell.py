#!/usr/bin/env python3
"""Gives this repository's own definitions and lemmas the spelling of today's Rattle.

usage: python3 tools/respell.py    at the top of the repository, once, right after the kit's port.py

A word with hyphens becomes snake case, a type or a module with hyphens camel case: first-failing is
first_failing, All-hold is AllHold. Only names that this repository declares in specs/ and proofs/, or
gives by 'as', are turned, and none that a file here imports from a library, nor names that the
toolchain makes, of invariants and measures. Turned are the .antt files but for strings, the clauses of
the .rt files, the must-fail edits, and in comments and documents the words between backquotes.
Functions of src/ and exported names stay.
"""

import collections
import glob
import os
import re
import sys

WORD = r"[A-Za-z][A-Za-z0-9_]*(?:-[A-Za-z0-9_]+)+'*"
# A whole name: no part of a longer one, and no operator's part.
NAME = re.compile(r"(?<![\w'·◌-])" + WORD + r"(?![\w'·-])")

HEAD = r"(?:(?:abbrev|unfoldable|opaque|pub|private|ruleset) )*"
DECLARED = [
    re.compile(r"(?m)^\s*" + HEAD + "(" + WORD + r")(?: [({][^=\n]*)?\s*:(?!:)"),
    re.compile(r"(?m)^\s*(?:pub )?(?:record|data|ruleset) (" + WORD + ")"),
    re.compile(r"(?m)^\s*(?:abbrev |unfoldable )?(?:pub )?(" + WORD + r") [^\n:]*=\s"),
]
# Names of parameters, of a group in parentheses or braces.
GROUP = re.compile(r"[({]((?:[A-Za-z][\w'-]* )+): ")
LAMBDA = re.compile(r"λ ((?:[\w'-]+ ?)+)\.")
ALIAS = re.compile(r"\bas (" + WORD + r")(?![\w'-])")
LET = re.compile(r"\blet (" + WORD + r")\b")

IMPORT = re.compile(r"(?m)^\s*(?:pub )?use ([\w.·-]+)\.\{([^}]*)\}")

# Names that the toolchain makes, of invariants and measures.
MADE = re.compile(r"^(?:invariant|decreases)-loop")


def turned(name):
    end = name[len(name.rstrip("'")):]
    parts = name.rstrip("'").split("-")
    if name[0].isupper():
        return "".join(p[:1].upper() + p[1:] for p in parts) + end
    return "_".join(p if i == 0 or not (p[:1].isupper() and p[1:].islower()) else p.lower() for i, p in enumerate(parts)) + end


def files(pattern):
    return sorted(f for f in glob.glob(pattern, recursive=True) if "/out/" not in f)


def read(path):
    with open(path, encoding="utf-8") as f:
        return f.read()


def code(text, mark):
    """The text without comments, for finding names."""
    return "\n".join(line.split(mark)[0] for line in text.split("\n"))


def main():
    antt = files("crates/**/*.antt")
    own_crates = set(os.listdir("crates"))
    declared, foreign = set(), set()
    for path in antt:
        text = code(read(path), "--")
        for module, names in IMPORT.findall(text):
            parts = module.split(".")
            if not (parts[0] == "Rattle" and len(parts) > 1 and parts[1] in own_crates):
                foreign |= {w for n in names.split(",") for w in n.split()}
    for path in antt:
        text = code(read(path), "--")
        for pattern in DECLARED:
            declared |= set(pattern.findall(text))
        for group in GROUP.findall(text):
            declared |= {w for w in group.split() if "-" in w}
        for group in LAMBDA.findall(text):
            declared |= {w for w in group.split() if "-" in w}
        declared |= set(LET.findall(text))
        declared |= set(ALIAS.findall(text))
    made = {n for n in declared if MADE.search(n)}
    both = declared & foreign
    names = {n: turned(n) for n in declared - foreign - made}
    # Names that would fall together.
    others = set()
    for path in antt:
        others |= set(re.findall(r"(?<![\w'·◌-])[A-Za-z][\w']*(?![\w'·-])", code(read(path), "--")))
    back = collections.defaultdict(list)
    for old, new in names.items():
        back[new].append(old)
    clash = {new: olds for new, olds in back.items() if len(olds) > 1 or new in others}
    for path in antt:
        text = read(path)
        out = "\n".join(turn_line(line, "--", names) for line in text.split("\n"))
        write(path, text, out)
    for path in files("crates/*/src/**/*.rt"):
        text = read(path)
        out = turn_source(text, names)
        write(path, text, out)
    for path in files("crates/*/must-fail/*.edit"):
        text = read(path)
        out = "\n".join(quoted(line, names) if line.startswith("#") else replaced(line, names) for line in text.split("\n"))
        write(path, text, out)
    for path in files("docs/*.md") + ["README.md"] + files("bench/*.md") + files("examples/*.md"):
        if os.path.basename(path) == "PORT.md":
            continue
        text = read(path)
        write(path, text, quoted(text, names))
    print(f"respell: {len(names)} names turned")
    print("respell: a library has these too, so they stay: " + ", ".join(sorted(both)))
    print("respell: the toolchain makes these, so they stay: " + ", ".join(sorted(made)))
    for new, olds in sorted(clash.items()):
        print(f"respell: look: {', '.join(sorted(olds))} -> {new}" + (", which stands already" if new in others else ""))


def write(path, before, after):
    if before != after:
        with open(path, "w", encoding="utf-8") as f:
            f.write(after)


def replaced(text, names):
    return NAME.sub(lambda m: names.get(m.group(), m.group()), text)


def quoted(text, names):
    return re.sub(r"`[^`\n]*`", lambda m: replaced(m.group(), names), text)


def turn_line(line, mark, names):
    at = line.find(mark)
    if at < 0 or '"' in line[:at]:
        return replaced(line, names) if '"' not in line else "".join(
            part if i % 2 else replaced(part, names) for i, part in enumerate(re.split(r'("(?:[^"\\]|\\.)*")', line)))
    return replaced(line[:at], names) + quoted(line[at:], names)


def turn_source(text, names):
    """The clauses and ghost imports of a source file, and in comments what is between backquotes."""
    out, depth, clause = [], 0, False
    for line in text.split("\n"):
        bare = line.strip()
        if bare.startswith("//"):
            out.append(quoted(line, names))
            continue
        starts = bare.startswith(("requires", "ensures", "ghost "))
        if starts or clause:
            depth = (0 if starts else depth) + line.count("{") - line.count("}")
            clause = depth > 0
            out.append(replaced(line, names))
            continue
        out.append(line)
    return "\n".join(out)


if __name__ == "__main__":
    sys.exit(main())
