#!/usr/bin/env python3
"""Runs the transcripts of the documents, and compares what is printed with what they show, to the byte.

    tools/transcripts.py [DOCUMENT ..]

A block that begins with a line `$ COMMAND` is a transcript: each such line is run, and the lines below it are
what it prints. A block after a line that ends with a name between backquotes and a colon, as `page.cert`:, is
what the file of this name holds by then. Without names it runs README.md and each document of docs/.

It runs in a copy of the repository, by the launcher and the program that stands in this checkout, and proves
nothing: if the program is missing, or older than its sources, it says so and ends with 1. So it does if a block
differs, with the difference. If all is as shown it prints nothing. A transcript that needs pandoc is skipped where
that is missing, which standard error says.
"""
import difflib
import os
import re
import shutil
import subprocess
import sys
import tempfile
from pathlib import Path

TOP = Path(__file__).resolve().parent.parent
PROGRAM = Path("crates/tablelayout/out/tablelayout")
# Without this file the launcher proves nothing.
PROVER = "prove_libraries.py"
FENCE = re.compile(r"^```[^\n]*\n(.*?)^```$", re.M | re.S)
NAMED = re.compile(r"`([^`\s]+)`:\s*\Z")


def copy_repository(to):
    """The repository as it stands, each file with its time, by which the launcher tells whether the program is older."""
    left_out = shutil.ignore_patterns(".git", "out", "must-fail", PROVER)
    shutil.copytree(TOP, to, ignore=left_out)
    if (TOP / PROGRAM).is_file():
        (to / PROGRAM).parent.mkdir()
        shutil.copy2(TOP / PROGRAM, to / PROGRAM)


def run(script, at):
    """What a script of bash prints on both outputs."""
    ran = subprocess.run(["bash", "-c", script], cwd=at, stdin=subprocess.DEVNULL, stdout=subprocess.PIPE,
                         stderr=subprocess.STDOUT, check=False)
    return ran.stdout.decode(errors="replace")


def as_script(transcript):
    """A script that prints each command before it is run, and keeps the status of one for the next."""
    commands = [it[2:] for it in transcript.splitlines() if it.startswith("$ ")]
    steps = [f"cat <<'COMMAND'\n$ {it}\nCOMMAND\n(exit $status)\n{it}\nstatus=$?\n" for it in commands]
    return "status=0\n" + "".join(steps)


def blocks(document):
    """The blocks of a document, each with its line, and with what it has to be: a function of the folder."""
    text = document.read_text(encoding="utf-8")
    for it in FENCE.finditer(text):
        line, named = text.count("\n", 0, it.start()) + 2, NAMED.search(text[:it.start()])
        if it[1].startswith("$ "):
            yield line, it[1], lambda at, script=as_script(it[1]): run(script, at)
        elif named:
            yield line, it[1], lambda at, name=named[1]: run(f"cat '{name}'", at)


def is_skipped(document, line, shown):
    if "$ pandoc " not in shown or shutil.which("pandoc"):
        return False
    print(f"transcripts: skipped: there is no pandoc, for {document.name}, line {line}", file=sys.stderr)
    return True


def differs(document, line, shown, given):
    if shown == given:
        return False
    name = document.relative_to(TOP)
    print("".join(difflib.unified_diff(shown.splitlines(True), given.splitlines(True), f"{name}, line {line}", "as it is run")))
    return True


def main(documents):
    failed = 0
    with tempfile.TemporaryDirectory() as room:
        at = Path(room) / "tree"
        copy_repository(at)
        if not run("./tablelayout lay 0 in page", at).startswith("usage\n"):
            sys.exit("transcripts: the program is missing or older than its sources; rt ci, or a command of ./tablelayout, builds it")
        for document in documents:
            for line, shown, made in blocks(document):
                failed += not is_skipped(document, line, shown) and differs(document, line, shown, made(at))
    return 1 if failed else 0


if __name__ == "__main__":
    os.environ["LC_ALL"] = "C"
    os.environ["TABLELAYOUT_OPTIONS"] = ""
    sys.exit(main([Path(it).resolve() for it in sys.argv[1:]] or [TOP / "README.md", *sorted((TOP / "docs").glob("*.md"))]))
