#!/usr/bin/env python3
"""Counts the definitions that a spec file stands on, so that a reader knows how much there is to read.

    tools/definitions.py FILE [NAME ..] [--list]

FILE is a file of a crate's specs/; with names only its definitions of these names count, and what they stand on. A
definition stands on each that its text names, of its own file or brought in by a `use` line, and on what those stand
on. Types and constants that the sources declare are counted apart, and what std and the crates of the toolchain define
is not counted. With --list each file is printed, with its definitions that count.
"""
import re
import sys
from collections import defaultdict
from functools import lru_cache
from pathlib import Path

TOP = Path(__file__).resolve().parent.parent
USE = re.compile(r"use Rattle\.(\w+)\.specs\.([\w.]+?)(?:\.\{([^}]*)\}| as (\S+))?$", re.M)
# A definition stands at the margin, or in a module with parameters.
HEAD = re.compile(r"^(?:  )?(?:(?:abbrev|unfoldable) pub|pub (?:record|data)|abbrev|unfoldable|record|data) ([^\s:({]+)", re.M)
CASE = re.compile(r"^ {2,4}(?:pub )?(\S+) :(?= )", re.M)
NAME = re.compile(r"[^\W\d][\w'-]*(?:\.[^\W\d][\w'-]*)*")


@lru_cache(maxsize=None)
def read_file(crate, path):
    """What a spec file brings in, by the name that it has there; its definitions by name, each as the names in its text;
    and the definition to which a case or a field of one belongs."""
    text = (TOP / "crates" / crate / "specs" / Path(*path.split("."))).with_suffix(".antt").read_text(encoding="utf-8")
    text = re.sub(r'--.*|"[^"\n]*"', "", text)
    brought = {}
    for of, at, names, alias in USE.findall(text):
        if not (TOP / "crates" / of).is_dir():
            continue
        if alias:
            brought[alias] = (of, at, None)
        for it in filter(None, (it.split() for it in names.split(","))):
            brought[it[-1]] = (of, at, it[0])
    heads = list(HEAD.finditer(text))
    ends = [it.start() for it in heads[1:]] + [len(text)]
    own = {it[1]: text[it.end():end] for it, end in zip(heads, ends)}
    part_of = {part: name for name, body in own.items() for part in CASE.findall(body)}
    return brought, {name: set(NAME.findall(body)) for name, body in own.items()}, {**part_of, **{it: it for it in own}}


def declared(crate, path, name):
    """The type, or the constant, of the sources that this is."""
    inside = [it for it in path.split(".")[1:] if it not in ("TheVariants", "TheOpen", "TheFolds")]
    return crate, ".".join(inside[:-1] + [name] if inside[-1] == "TheConstants" else inside)


def named(crate, path, name):
    """What a definition names: other definitions, and what the sources declare."""
    brought, own, _ = read_file(crate, path)
    for word in own[name]:
        first, _, rest = word.partition(".")
        if word in own:
            yield crate, path, word
        elif first in brought:
            of, at, it = brought[first]
            # A variable may have the name by which a file is brought in.
            if it or rest:
                yield of, at, it or rest


def below(crate, path, names):
    """All definitions that these of a spec file stand on, themselves too, and all that the sources declare of them."""
    found, types, open_ones = set(), set(), [(crate, path, it) for it in names or read_file(crate, path)[1]]
    while open_ones:
        of, at, name = open_ones.pop()
        if at.startswith("declared."):
            types.add(declared(of, at, name))
            continue
        brought, _, part_of = read_file(of, at)
        if name not in part_of:
            # A file may give on what it brings in.
            if name not in brought:
                sys.exit(f"{of}/specs/{at} does not define {name}")
            open_ones.append(brought[name])
            continue
        one = of, at, part_of[name]
        if one not in found:
            found.add(one)
            open_ones.extend(named(*one))
    return found, types


def main(file, wanted, is_listed):
    crate, inside = re.fullmatch(r"(?:.*/)?crates/(\w+)/specs/(.*)\.antt", str(Path(file).resolve())).groups()
    path = inside.replace("/", ".")
    found, types = below(crate, path, wanted)
    files = defaultdict(list)
    for of, at, name in sorted(found):
        files[of, at].append(name)
    if is_listed:
        for (of, at), names in files.items():
            print(f"{of}/specs/{at.replace('.', '/')}: {' '.join(names)}")
    own = len(files.pop((crate, path), []))
    crates = {of for of, _ in files}
    print(f"{own} definitions, which stand on {len(found) - own} in {len(files)} spec files of {len(crates)} crates")
    print(f"{len(types)} types and constants of the sources are named")


if __name__ == "__main__":
    words = [it for it in sys.argv[1:] if it != "--list"]
    if not words:
        sys.exit(__doc__)
    main(words[0], words[1:], "--list" in sys.argv)
