#!/usr/bin/env python3
"""Compares what the documents of the command say with the manual page, the help and the completion.

    tests/manual.py

The usage of each command, the options with their values, the settings of the filter for pandoc, the statuses with their
messages, the kinds of bad input, the limits and the reasons of a rejection have to be the same in the documents and in the
manual page; the help has the same commands, options and statuses, that of a command of the front the options of that
command, and the completion of bash offers the options and the values of each command. If all agree it prints nothing.
Otherwise it prints each difference, and ends with 1.
"""
import re
import subprocess
import sys
from pathlib import Path

TOP = Path(__file__).resolve().parent.parent
DOCUMENTS = ("docs/COMMAND.md", "docs/SHOW.md", "docs/PANDOC.md")
MANUAL = TOP / "command/tablelayout.1"
COMPLETION = TOP / "command/completion.bash"
FRONT = ("show", "page", "textconv")
# Each option of `lay`.
MORE_OPTIONS = "[OPTION ..]"
LITERAL = re.compile(r"`([^`]*)`")


def literals(text):
    return [it.replace("\\|", "|") for it in LITERAL.findall(text)]


def rows(text, header):
    """The rows of each table of a document whose header begins with these cells, each as its cells."""
    found, is_inside = [], False
    for line in text.splitlines():
        cells = [it.strip() for it in re.split(r"(?<!\\)\|", line)[1:-1]]
        if cells[:len(header)] == header:
            is_inside = True
        elif not cells:
            is_inside = False
        elif is_inside and not cells[0].startswith("---"):
            found.append(cells)
    return found


def option_of(words):
    """The name of an option and its values, from a list of words of which the first may have a value too."""
    name, *values = " ".join(words).split()
    return name, tuple(values)


def first_number(text):
    return re.search(r"\d+(?:,\d+)*", text)[0]


def read_documents(text):
    usages = re.findall(r"^    tablelayout (\w+)(.*)$", text, re.M)
    return {
        "usage": dict((command, " ".join(words.split())) for command, words in usages),
        "option": dict(option_of(literals(it[0])) for it in rows(text, ["Option"])),
        "setting": {literals(it[0])[0]: tuple(literals(it[1])) for it in rows(text, ["Setting"])},
        "status": {it[0]: set(literals(it[2])) for it in rows(text, ["Status", "When", "Message"])},
        "kind of bad input": {kind for it in re.findall(r"KIND is one of (.*?)\.", text, re.S) for kind in literals(it)},
        "limit": {literals(it[0])[0]: first_number(it[1]) for it in rows(text, ["NAME"])},
        "reason of a rejection": set(literals(re.search(r"^REASON is (.*?)\n\n", text, re.S | re.M)[1])),
    }


def sections(manual):
    """The lines of each section of the manual page, by its name."""
    parts = re.split(r"^\.Sh (.*)\n", manual, flags=re.M)
    return dict(zip(parts[1::2], (it.splitlines() for it in parts[2::2])))


def as_text(words):
    """What the words of a line of macros say."""
    text = " ".join(it for it in words if it not in ("Cm", "Ar", "Li")).replace(" | ", "|")
    return re.sub(r"\bFl -", "--", re.sub(r"\bOo ", "[", re.sub(r" Oc\b", "]", text)))


def read_synopsis(lines):
    usages = []
    for line in lines:
        macro, _, words = line[1:].partition(" ")
        if macro == "Nm":
            usages.append([])
        else:
            usages[-1].append(f"[{as_text(words.split())}]" if macro == "Op" else as_text(words.split()))
    return {it[0]: " ".join(it[1:]) for it in usages}


def read_items(lines):
    """The items of a list, each with the lines below it."""
    items = {}
    for line in lines:
        if line.startswith(".It "):
            below = items.setdefault(as_text(line.split()[1:]), [])
        elif items:
            below.append(line)
    return items


def displayed(lines):
    return {it[len(".Dl "):] for it in lines if it.startswith(".Dl ")}


def read_lists(lines):
    """The items of the lists of a section, by the word in capitals that the text above each list explains."""
    parts = re.split(r"^\.Bl [^\n]*\n(.*?)^\.El$", "\n".join(lines) + "\n", flags=re.M | re.S)
    items = {"KIND": {}, "NAME": {}, "REASON": {}}
    for before, below in zip(parts[::2], parts[1::2]):
        items[re.findall(r"\b(KIND|NAME|REASON)\b", before)[-1]].update(read_items(below.splitlines()))
    return items


def read_manual(text):
    of = sections(text)
    lists = read_lists(of["DIAGNOSTICS"])
    return {
        "usage": read_synopsis(of["SYNOPSIS"]),
        "option": dict(option_of(it.replace("|", " ").split()) for it in read_items(of["OPTIONS"])),
        "setting": dict(option_of(it.replace("|", " ").split()) for it in read_items(of["DOCUMENTS"])),
        "status": {it: displayed(below) for it, below in read_items(of["EXIT STATUS"]).items()},
        "kind of bad input": set(lists["KIND"]),
        "limit": {it: first_number(" ".join(below)) for it, below in lists["NAME"].items()},
        "reason of a rejection": set(lists["REASON"]),
    }


def read_help(text):
    # What an option says stands behind it, or below if there is no room.
    options = re.findall(r"^  (--\S+(?: \S+)*)(?:  |$)", text, re.M)
    return {
        "command": set(re.findall(r"^  tablelayout (\w+)(?: [A-Z\[].*)?$", text, re.M)),
        "option": dict(option_of(it.replace("|", " ").split()) for it in options),
        "status": set(re.findall(r"^ {2,3}(\d+)  ", text, re.M)),
    }


def read_help_of(command):
    """The options that the help of a command of the front has."""
    shown = subprocess.run([TOP / "tablelayout", command, "--help"], stdout=subprocess.PIPE, check=True).stdout.decode()
    return set(re.findall(r"^  (?:-\w, )?(--\w+)", shown, re.M)) - {"--help"}


def options_by_command(usage):
    """The names of the options that each command takes."""
    of = {command: set(re.findall(r"--\w+", words)) for command, words in usage.items()}
    return {it: own | of["lay"] if MORE_OPTIONS in usage[it] else own for it, own in of.items()}


def completed(words):
    """What the completion of bash offers for the last of these words."""
    script = f'. "$0"; COMP_WORDS=("$@"); COMP_CWORD={len(words) - 1}; _tablelayout; printf "%s\\n" "${{COMPREPLY[@]}}"'
    ran = subprocess.run(["bash", "-c", script, COMPLETION, *words], stdout=subprocess.PIPE, check=True)
    return set(ran.stdout.decode().split())


def read_completion(options, by_command):
    """What the completion offers for each command, for the first letters of each option, and for its value."""
    offered = {
        "command": completed(["tablelayout", ""]) - {"help"},
        "option of a command": {it: completed(["tablelayout", it, "a", "--"]) for it in by_command},
    }
    for name in options:
        command = next(it for it, names in by_command.items() if name in names)
        offered[f"beginning of {name}"] = completed(["tablelayout", command, "a", name[:-1]])
        offered[f"value of {name}"] = completed(["tablelayout", command, "a", name, ""])
        offered[f"{name} once given"] = completed(["tablelayout", command, name, name])
    return offered


def wanted_of_completion(options, by_command):
    wanted = {"command": set(by_command), "option of a command": by_command}
    for name, values in options.items():
        wanted[f"beginning of {name}"] = {name}
        wanted[f"value of {name}"] = {it for it in values if it.islower()}
        wanted[f"{name} once given"] = set()
    return wanted


def as_lines(facts):
    """Facts of one kind as lines, so that two can be compared."""
    if isinstance(facts, dict):
        return {f"{key}: {' '.join(sorted(it)) if isinstance(it, set) else ' '.join(it) if isinstance(it, tuple) else it}"
                for key, it in facts.items()}
    return set(facts)


def count_differences(place, wanted, found):
    count = 0
    for kind, facts in wanted.items():
        lines, others = as_lines(facts), as_lines(found[kind])
        count += len(lines ^ others)
        for it in sorted(lines - others):
            print(f"{kind}, in the documents and not in {place}: {it}")
        for it in sorted(others - lines):
            print(f"{kind}, in {place} and not in the documents: {it}")
    return count


def main():
    said = read_documents("\n".join((TOP / it).read_text(encoding="utf-8") for it in DOCUMENTS))
    by_command = options_by_command(said["usage"])
    shown = subprocess.run([TOP / "tablelayout", "help"], stdout=subprocess.PIPE, check=True).stdout.decode()
    short = {"command": set(by_command), "option": said["option"], "status": set(said["status"])}
    manual = MANUAL.read_text(encoding="utf-8")
    count = count_differences("the manual page", said, read_manual(manual))
    count += count_differences("the help", short, read_help(shown))
    helps = {it: read_help_of(it) for it in FRONT}
    count += count_differences("the help of a command", {"option": {it: by_command[it] for it in FRONT}}, {"option": helps})
    count += count_differences("the completion", wanted_of_completion(said["option"], by_command),
                               read_completion(said["option"], by_command))
    return 1 if count else 0


if __name__ == "__main__":
    sys.exit(main())
