#!/usr/bin/env python3
"""Tells which links of the documents lead nowhere, and which of their lines are too long.

usage: tools/check_links.py, at the top of the repository; tools/check_docs.py calls it. It changes nothing. The status is 1 where there is
something to tell, else 0.

A document is a file *.md that git knows. A link to a place of the repository leads to a file or a folder that is there, and what stands
behind `#` is a heading of that document, spelled as GitHub spells it: in small letters, a hyphen for each blank, other signs left out.
"""
import functools
import os
import re
import subprocess
import sys

WIDTH = 140
# A table with a row for each kernel, which no line holds.
WIDE = ("bench/kernels/README.md",)
LINK = re.compile(r"\[(?:[^\[\]]|\[[^\]]*\])*\]\(([^()\s]+)\)")
HEADING = re.compile(r"^#+ (.+?)\s*$", re.M)
CODE = re.compile(r"^```.*?^```|^    .*?$", re.M | re.S)


def documents():
    """The documents of the repository, in order."""
    return subprocess.run(["git", "ls-files", "*.md"], capture_output=True, text=True, check=True).stdout.split()


@functools.cache
def text_of(path):
    with open(path, encoding="utf-8") as file:
        return file.read()


@functools.cache
def anchors_of(path):
    """What may stand behind `#` in a link to this document."""
    words = [re.sub(r"[^\w\- ]", "", it.lower()) for it in HEADING.findall(CODE.sub("", text_of(path)))]
    return {it.replace(" ", "-") for it in words}


def lost_links(path):
    """The links of a document that lead nowhere."""
    for target in LINK.findall(CODE.sub("", text_of(path))):
        if ":" in target:
            continue
        place, _, anchor = target.partition("#")
        file = os.path.normpath(os.path.join(os.path.dirname(path), place)) if place else path
        if not os.path.exists(file):
            yield f"{path}: the link {target} leads to no file"
        elif anchor and (not file.endswith(".md") or anchor not in anchors_of(file)):
            yield f"{path}: the link {target} leads to no heading"


def long_lines(path):
    """The lines of a document that are too long."""
    for number, line in enumerate(text_of(path).splitlines(), 1):
        if len(line) > WIDTH:
            yield f"{path}:{number}: {len(line)} characters, where a line has {WIDTH} at most"


def faults():
    """All that is wrong."""
    for path in documents():
        yield from lost_links(path)
        if path not in WIDE:
            yield from long_lines(path)


def main(words):
    if words:
        sys.exit("usage: tools/check_links.py")
    found = list(faults())
    print("\n".join(found) if found else f"{len(documents())} documents: each link leads somewhere")
    return 1 if found else 0


if __name__ == "__main__":
    sys.exit(main(sys.argv[1:]))
