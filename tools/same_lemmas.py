#!/usr/bin/env python3
"""Prints the lemmas of proofs that state the same, whatever they and their variables are called.

    tools/same_lemmas.py

A lemma is stated once, in the lowest crate that can hold it. Statements are compared with the parameters of the module
that they stand in, but without those that are types. Those of one file are not compared: there the same statement is
often a step of two proofs. Ends with 1 where some are the same.
"""
import re
import sys
from collections import defaultdict
from pathlib import Path

CRATES = Path(__file__).resolve().parent.parent / "crates"
HEAD = re.compile(r"^(\s*)(?:pub )?([^\s(){}:]+) : (.+)$")
MODULE = re.compile(r"^module _ (.*) where$")
BOUND = re.compile(r"[({]([^(){}:]+?) : |λ ([^.()]+)\.")
WORD = re.compile(r"[^\s(){}\[\],.;]+|[(){}\[\],.;]")
TYPES = re.compile(r"\( (?:v\d+ )+: Type 0 \) (?:→ )?")
# Shorter statements are of numbers or lists named in the same file.
LEAST = 40


def joined(lines, at):
    """The line with those that go on with it, further to the right."""
    margin = len(lines[at]) - len(lines[at].lstrip())
    text = lines[at].strip()
    for line in lines[at + 1:]:
        if not line.strip() or len(line) - len(line.lstrip()) < margin + 4:
            return text
        text += " " + line.strip()
    return text


def alike(statement):
    """The statement with its variables numbered in the order in which they come, and without types."""
    variables = {name for found in BOUND.findall(statement) for names in found for name in names.split()}
    numbers = {}
    words = [numbers.setdefault(it, f"v{len(numbers)}") if it in variables else it for it in WORD.findall(statement)]
    return TYPES.sub("", " ".join(words).replace("{", "(").replace("}", ")"))


def lemmas(path):
    """The name of each lemma of a file, with its statement."""
    lines = path.read_text(encoding="utf-8").split("\n")
    outer = ""
    for at, line in enumerate(lines):
        module = MODULE.match(joined(lines, at)) if line.startswith("module _") else None
        if module:
            outer = module[1] + " → "
        elif line and not line.startswith(" "):
            outer = ""
        found = HEAD.match(line)
        if found and not line.lstrip().startswith(("use ", "--", "|", "let ")):
            statement = joined(lines, at).partition(" : ")[2]
            if "→" in statement:
                yield found[2], (outer if found[1] else "") + statement


def main():
    if sys.argv[1:]:
        sys.exit(__doc__)
    places = defaultdict(dict)
    for path in sorted(CRATES.glob("*/proofs/**/*.antt")):
        for name, statement in lemmas(path):
            same = alike(statement)
            if len(same) > LEAST:
                places[same][path.relative_to(CRATES)] = name
    same = [where for where in places.values() if len(where) > 1]
    for where in same:
        print(", ".join(f"{path}: {name}" for path, name in where.items()))
    sys.exit(1 if same else 0)


main()
