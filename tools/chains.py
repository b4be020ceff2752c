#!/usr/bin/env python3
"""Counts how many of all lines stand in one chain of crates, each on the one before.

    tools/chains.py [--list]

Crates in one chain are proved one after the other, all others side by side. crates.txt says which crate depends on
which. The lines of a crate are those of its sources, definitions and proofs: of each .rt and .antt file in its src/,
specs/ and proofs/. Crates of tests, whose names end in _tests, are left out. The longest chain is the one with the most
lines. Its part of all lines is printed in tens of per cent, so that small changes leave what is printed as it is. With
--list the lines of each of its crates are printed before. Ends with 1 where it has half of all lines or more.
"""
import sys
from pathlib import Path

TOP = Path(__file__).resolve().parent.parent
FOLDERS = ("src", "specs", "proofs")
KINDS = (".rt", ".antt")


def read_crates() -> dict[str, list[str]]:
    """The crates, lowest first, each with the crates of this repository that it depends on."""
    crates: dict[str, list[str]] = {}
    for line in (TOP / "crates.txt").read_text(encoding="utf-8").splitlines():
        head, colon, words = line.partition(":")
        if colon and not line.startswith("#"):
            name = head.split()[0]
            if not name.endswith("_tests"):
                crates[name] = [it for it in words.split() if it in crates]
    return crates


def count_lines(crate: str) -> int:
    files = [it for folder in FOLDERS for it in (TOP / "crates" / crate / folder).rglob("*") if it.suffix in KINDS]
    return sum(len(it.read_text(encoding="utf-8").splitlines()) for it in files)


def longest_chain(crates: dict[str, list[str]], lines: dict[str, int]) -> list[str]:
    """The chain with the most lines, lowest crate first."""

    def weight(chain: list[str]) -> int:
        return sum(lines[it] for it in chain)

    none: list[str] = []
    ending_at: dict[str, list[str]] = {}
    for crate, below in crates.items():
        ending_at[crate] = max((ending_at[it] for it in below), key=weight, default=none) + [crate]
    return max(ending_at.values(), key=weight)


def main(is_listed: bool) -> int:
    crates = read_crates()
    lines = {it: count_lines(it) for it in crates}
    chain = longest_chain(crates, lines)
    part = sum(lines[it] for it in chain) / sum(lines.values())
    if is_listed:
        for crate in chain:
            print(f"{crate} {lines[crate]}")
    print(f"the longest chain has {len(chain)} of {len(crates)} crates, and about {round(10 * part) * 10} % of all lines")
    return 1 if part >= 0.5 else 0


if __name__ == "__main__":
    if sys.argv[1:] not in ([], ["--list"]):
        sys.exit(__doc__)
    sys.exit(main("--list" in sys.argv))
