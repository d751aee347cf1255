#!/usr/bin/env python3
"""Tells in a second what the gate would refuse only later: miscounted cases, names that are taken, and wrong bodies without their place.

usage: tools/check_cases.py, at the top of the repository; tools/check_docs.py calls it. It prints a line for each fault, changes nothing
and proves nothing. The status is 1 where there is a fault, else 0.

- crates/cases/stdout has a line "FILE: COUNT as told" for each file that crates/cases/args names, in that order, and COUNT is how many
  commands (lines "$ WORDS") that file of crates/cases/data has. No file with commands is left out of `args`.
- No module, type or trait of a crate, and nothing that a `use` renames, has the name of a library on which the crate stands, at any depth.
- Each wrong body, crates/NAME/must-fail/*.edit and bench/wrong_bodies/NAME/*.edit, can be tried: each text behind `old:` stands once in its
  file of the crate, as the pairs before it left that.
"""
import glob
import os
import re
import sys

sys.path.insert(0, os.path.dirname(os.path.abspath(__file__)))
from crates import below, kit_libraries, listed, text_of  # noqa: E402

CASES = "crates/cases"
AS_TOLD = re.compile(r"^(\S+): (\d+) as told$", re.M)
COMMAND = re.compile(rb"^\$ .", re.M)
# (comments and strings are no code)
NO_CODE = re.compile(r'//.*|"(?:[^"\\\n]|\\.)*"')
ITEM = re.compile(r"\b(?:mod|struct|enum|trait|type)\s+(\w+)")
USE = re.compile(r"(?<!ghost )\buse\b[^;]*")
RENAMED = re.compile(r"\bas\s+([a-z_]\w*)")


def commands_in(path):
    """How many commands a file of cases has."""
    with open(path, "rb") as file:
        return len(COMMAND.findall(file.read()))


def files_of_cases():
    """The files of cases that the arguments of the program name, in order."""
    words = text_of(f"{CASES}/args").splitlines()
    return words[1 : words.index("then")]


def told_counts():
    """Of each file of cases the number that the expected output has, in its order."""
    return {name: int(count) for name, count in AS_TOLD.findall(text_of(f"{CASES}/stdout"))}


def miscounted():
    """What is wrong with the numbers of cases."""
    names, told = files_of_cases(), told_counts()
    counts = {os.path.basename(path): commands_in(path) for path in sorted(glob.glob(f"{CASES}/data/*.txt"))}
    if names != list(told):
        yield f"{CASES}/stdout has its files in another order than {CASES}/args, or others: {' '.join(sorted(set(names) ^ set(told)))}"
    for name in (it for it in names if it not in counts):
        yield f"{CASES}/args names {name}, which is not in {CASES}/data"
    for name in (it for it in counts if counts[it] and it not in names):
        yield f"{CASES}/data/{name} has {counts[name]} cases, and {CASES}/args does not name it: they are never run"
    for name in (it for it in told if it in counts and counts[it] != told[it]):
        count = counts[name]
        yield f"{CASES}/stdout: '{name}: {told[name]} as told', but {CASES}/data/{name} has {count} cases: write '{count} as told'"


def names_in(text):
    """The names that a source gives to modules, types and traits, and those that its `use` items rename to."""
    text = NO_CODE.sub("", text)
    return {*ITEM.findall(text), *(name for item in USE.findall(text) for name in RENAMED.findall(item))}


def taken_names(libraries):
    """Where an item of a crate has the name of a library on which the crate stands."""
    under, of_kit = below(libraries), kit_libraries()
    for crate in libraries:
        taken = {"core", "std", *under[crate], *of_kit[crate]}
        for path in sorted(glob.glob(f"crates/{crate}/src/**/*.rt", recursive=True)):
            for name in sorted(names_in(text_of(path)) & taken):
                yield f"{path}: `{name}` is the name of a library on which `{crate}` stands; the gate refuses that: use another name"


def fault_of(edit, folder):
    """Why a wrong body of the crate in this folder cannot be tried; nothing where it can."""
    path, old, pairs, texts = "", "", 0, {}
    for line in text_of(edit).splitlines():
        if line.startswith("file: "):
            path = line.removeprefix("file: ").strip()
        elif line.startswith("old: "):
            old = line.removeprefix("old: ")
        elif line.startswith("new:"):
            if not path or not old:
                return "a line 'new:' stands before any 'file:' or 'old:'"
            if not os.path.isfile(f"{folder}/{path}"):
                return f"there is no file {path}"
            text = texts.setdefault(path, text_of(f"{folder}/{path}"))
            if text.count(old) != 1:
                return f"{path} has the text behind 'old:' {text.count(old)} times, and not once: {old}"
            texts[path] = text.replace(old, line.removeprefix("new:").removeprefix(" "))
            old, pairs = "", pairs + 1
    if not pairs:
        return "it has no pair of 'old:' and 'new:'"
    is_changed = any(text != text_of(f"{folder}/{name}") for name, text in texts.items())
    return None if is_changed else "it changes nothing"


def misplaced_edits():
    """Which wrong bodies cannot be tried, and why."""
    for edit in sorted([*glob.glob("crates/*/must-fail/*.edit"), *glob.glob("bench/wrong_bodies/*/*.edit")]):
        crate = edit.split("/")[1 if edit.startswith("crates/") else 2]
        why = fault_of(edit, f"crates/{crate}")
        if why:
            yield f"{edit}: {why}"


def faults(libraries):
    """All that is wrong."""
    yield from miscounted()
    yield from taken_names(libraries)
    yield from misplaced_edits()


def main(words):
    if words:
        sys.exit("usage: tools/check_cases.py")
    _, libraries = listed(lambda it: None)
    found = list(faults(libraries))
    print("\n".join(found) if found else f"{sum(told_counts().values())} cases: no name is taken, and each wrong body can be tried")
    return 1 if found else 0


if __name__ == "__main__":
    sys.exit(main(sys.argv[1:]))
