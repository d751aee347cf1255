#!/usr/bin/env python3
"""Writes the lists of crates in docs/ARCHITECTURE.md, from crates.txt and the first lines of each crate.

usage: tools/crates.py [--check], at the top of the repository. It proves nothing. With `--check` it writes nothing, and the status is 1
where the page is not as it would be written.

What a crate promises, and on what it stands, is said once: in the first lines of its src/lib.rt or src/main.rt,
"//! Section: X. Promises ..; stands on `A` and `B`." The page has them by sections, each list between the two marks below, behind the
section's heading and what is said of the section by hand.
"""
import os
import re
import sys
import textwrap

PAGE = "docs/ARCHITECTURE.md"
TITLE = "## The crates"
HEADS = ("src/lib.rt", "src/main.rt")
BEGIN, END = "<!-- crates: written by tools/crates.py -->", "<!-- crates: end -->"


def text_of(path):
    with open(path, encoding="utf-8") as file:
        return file.read()


def listed(said):
    """Of crates.txt, in its order: the section of each crate, and the crates of the repository that it names as its libraries."""
    sections, names, section, comment = {}, {}, None, 0
    for number, line in enumerate(text_of("crates.txt").splitlines(), 1):
        if line.startswith("# == "):
            section = line[5:].removesuffix(" ==")
            comment = 0
        elif line.startswith("#"):
            comment += 1
        elif ":" in line:
            name, libraries = line.split(":")
            name = name.split()[0]
            if name in sections:
                said(f"crates.txt:{number}: `{name}` stands there twice")
            if comment != 1:
                said(f"crates.txt:{number}: `{name}` has {comment} lines of comment, where one is due")
            sections[name], names[name], comment = section, libraries.split(), 0
        else:
            comment = 0
    for name, libraries in names.items():
        for gone in (it for it in libraries if it not in sections and os.path.isdir(f"crates/{it}")):
            said(f"crates.txt: `{name}` uses `{gone}`, which has no line")
    return sections, {name: [it for it in libraries if it in sections] for name, libraries in names.items()}


def kit_libraries():
    """Of each crate of crates.txt the libraries that its line names and that are no crates of the repository: those of the kit."""
    lines = [it.split(":") for it in text_of("crates.txt").splitlines() if ":" in it and not it.startswith("#")]
    named = {name.split()[0]: libraries.split() for name, libraries in lines}
    return {name: [it for it in libraries if it not in named] for name, libraries in named.items()}


def below(libraries):
    """Of each crate all crates that it stands on."""
    found = {}
    for name in libraries:
        todo = list(libraries[name])
        found[name] = set()
        while todo:
            it = todo.pop()
            if it not in found[name]:
                found[name].add(it)
                todo += libraries[it]
    return found


def head_of(name):
    """The first paragraph of a crate's own comment, as one line, and the file in which it stands."""
    path = next((f"crates/{name}/{it}" for it in HEADS if os.path.isfile(f"crates/{name}/{it}")), None)
    if path is None:
        return "", ""
    lines = []
    for line in text_of(path).splitlines():
        if not line.startswith("//! "):
            break
        lines.append(line[4:])
    return path, " ".join(lines)


def section_of(head):
    """The section that a crate's first lines name; none where they do not begin as they have to."""
    found = re.match(r"Section: (.+?)\. Promises ", head)
    return found.group(1) if found else None


def promise_of(head):
    """What a crate's first lines say behind their section."""
    return re.sub(r"^Section: .+?\. ", "", head)


def wrapped(text, begin="", rest=""):
    return textwrap.wrap(text, 140, initial_indent=begin, subsequent_indent=rest, break_long_words=False, break_on_hyphens=False)


def list_of(section, crates):
    """The lines of a section's crates."""
    lines = []
    for name in (it for it in crates if crates[it] == section):
        said = promise_of(head_of(name)[1])
        lines += wrapped(f"`{name}` {said[:1].lower()}{said[1:]}", "- ", "  ")
    return lines


def written(text, crates):
    """The page, with its lists as they have to be, and the sections that have one, in order."""
    lines, sections, section, is_list, is_there = [], [], None, False, False
    for line in text.splitlines():
        if line.startswith("## "):
            is_there = line == TITLE
        elif is_there and line.startswith("### "):
            section = line[4:]
        if line == END:
            is_list = False
        if not is_list:
            lines.append(line)
        if line == BEGIN and is_there:
            is_list = True
            sections.append(section)
            lines += list_of(section, crates)
    return "\n".join(lines) + "\n", sections


def faults(crates):
    """What is wrong with the page."""
    text = text_of(PAGE)
    page, sections = written(text, crates)
    wanted = list(dict.fromkeys(crates.values()))
    if sections != wanted:
        yield f"{PAGE} has lists of the sections {', '.join(map(str, sections))}; crates.txt has {', '.join(wanted)}"
    if page != text:
        yield f"{PAGE}: its lists of crates are not what tools/crates.py writes"


def main(words):
    crates, _ = listed(lambda it: None)
    if words == ["--check"]:
        found = list(faults(crates))
        print("\n".join(found), end="\n" if found else "")
        return 1 if found else 0
    if words:
        sys.exit("usage: tools/crates.py [--check]")
    page, _ = written(text_of(PAGE), crates)
    with open(PAGE, "w", encoding="utf-8") as file:
        file.write(page)
    return 0


if __name__ == "__main__":
    sys.exit(main(sys.argv[1:]))
