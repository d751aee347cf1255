#!/usr/bin/env python3
"""Compares what the repository says of its crates: crates.txt, the first lines of each crate, and what is written from these.

usage: tools/check_docs.py [above NAME..], at the top of the repository. It prints a line for each thing that differs, changes nothing and
proves nothing. The status is 1 where something differs, else 0. With `above` it compares nothing, and prints the crates that stand on those
that are named: a change of these makes them stale.

- crates.txt: sections ("# == NAME =="), and a line for each crate, NAME: LIBRARIES, behind a comment of one line.
- The first lines of src/lib.rt or src/main.rt: "//! Section: X. Promises ..; stands on `A` and `B`." They have the section of crates.txt,
  and stand on crates that crates.txt names.
- docs/ARCHITECTURE.md: its lists of crates are what tools/crates.py writes.
- crates/PROMISES.md is what tools/promises.py writes.
- README.md: each `crates/NAME` that it names is there.
- What tools/check_links.py looks at: links of documents, and the length of their lines.
- What tools/check_cases.py looks at: numbers of cases, names that are taken, places of wrong bodies.
"""
import os
import re
import sys

sys.path.insert(0, os.path.dirname(os.path.abspath(__file__)))
import check_cases  # noqa: E402
import check_links  # noqa: E402
import crates as crate_lists  # noqa: E402
import promises  # noqa: E402
from crates import below, head_of, kit_libraries, listed, section_of, text_of  # noqa: E402

NAME = re.compile(r"`([a-z_]+)`")


def compare_stands(said, where, words, name, crates, under):
    """What is named behind "stands on" are crates that it does stand on."""
    last = re.split(r"[Ss]tands on ", words)[1:]
    for it in NAME.findall(last[-1].split("; ")[0]) if last else []:
        if it not in crates and not os.path.isdir(f"crates/{it}"):
            if it not in kit_libraries()[name]:
                said(f"{where}: `{name}` stands on `{it}`, which is no crate")
        elif it not in under[name]:
            said(f"{where}: `{name}` stands on `{it}`; by crates.txt it does not")


def tell_above(names, crates, under):
    """Prints the crates that stand on these, in the order of crates.txt."""
    for it in names:
        if it not in crates:
            sys.exit(f"tools/check_docs.py: crates.txt has no {it}")
    found = [it for it in crates if under[it].intersection(names)]
    print(f"{len(found)} of {len(crates)} crates:", *found)


def main(words):
    found = []
    said = found.append
    crates, libraries = listed(said)
    under = below(libraries)
    if words[:1] == ["above"]:
        tell_above(words[1:], crates, under)
        return 0
    if words:
        sys.exit("usage: tools/check_docs.py [above NAME..]")
    for name in sorted(os.listdir("crates")):
        if name not in crates and os.path.isdir(f"crates/{name}/src"):
            said(f"crates.txt lacks `{name}`")
    for name, section in crates.items():
        path, head = head_of(name)
        if not path:
            said(f"crates/{name} has no src/lib.rt and no src/main.rt")
            continue
        if section_of(head) is None:
            said(f"{path} does not begin with '//! Section: X. Promises ..'")
        elif section_of(head) != section:
            said(f"{path}: section {section_of(head)}; in crates.txt it is {section}")
        compare_stands(said, path, head, name, crates, under)
    found += crate_lists.faults(crates)
    if promises.differs():
        said(f"{promises.PAGE} is not what tools/promises.py writes")
    found += check_links.faults()
    found += check_cases.faults(libraries)
    for name in re.findall(r"crates/([a-z_]+)", text_of("README.md")):
        if name not in crates:
            said(f"README.md names crates/{name}, which is none")
    sections = set(crates.values())
    print("\n".join(found) if found else f"{len(crates)} crates in {len(sections)} sections: nothing differs")
    return 1 if found else 0


if __name__ == "__main__":
    sys.exit(main(sys.argv[1:]))
