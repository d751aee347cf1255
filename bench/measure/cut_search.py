#!/usr/bin/env python3
"""Measures the search for derivations over lists of facts of real kernels, and prints how its times are spread.

Build the program first: python3 tools/build.py cases
With a file's name as a word it takes that file in place of data/facts.txt. `cut_search.py make DUMP..` writes such a file to standard
output from dumps of obligations: lines `kernel NAME`, `list`, and a fact each as `C*NAME + .. + C`, two blanks before it.
"""
import os
import subprocess
import sys

sys.path.insert(0, os.path.dirname(os.path.dirname(os.path.abspath(__file__))))
from common import ROOT

CRATE = os.path.join(ROOT, "crates", "cases")
ROUNDS = "5"


def read_fact(text):
    """The constant, and the terms as (name, coefficient)."""
    *terms, constant = text.split(" + ")
    pairs = [term.split("*", 1) for term in terms]
    return int(constant), [(name, int(coefficient)) for coefficient, name in pairs]


def read_dump(path):
    """Kernels, each with its lists of facts."""
    kernels = []
    with open(path, encoding="ascii") as dump:
        for line in dump:
            if line.startswith("kernel"):
                kernels.append((line.split()[1], []))
            elif line.startswith("list"):
                kernels[-1][1].append([])
            else:
                kernels[-1][1][-1].append(line.strip())
    return kernels


def runs(numbers):
    """The numbers as first and last of each run of neighbours."""
    found = []
    for number in numbers:
        if found and found[-1][1] + 1 == number:
            found[-1][1] = number
        else:
            found.append([number, number])
    return [end for run in found for end in run]


def write_kernel(name, lists):
    numbers = {}
    numbered = [[numbers.setdefault(fact, len(numbers) + 1) for fact in facts] for facts in lists]
    read = [read_fact(fact) for fact in numbers]
    symbols = {name: place for place, name in enumerate(sorted({name for _, terms in read for name, _ in terms}))}
    print("kernel", name)
    for constant, terms in read:
        rising = sorted((symbols[name], coefficient) for name, coefficient in terms)
        print("fact", constant, *(number for symbol, coefficient in rising for number in (coefficient, symbol)))
    for facts in numbered:
        print("search", *runs(facts))


def make(paths):
    for path in paths:
        for name, lists in read_dump(path):
            write_kernel(name, lists)


def spread(what, nanoseconds):
    ordered = sorted(nanoseconds)
    at = {f"{percent}%": ordered[min(len(ordered) - 1, len(ordered) * percent // 100)] for percent in (50, 90, 99, 100)}
    print(what, ", ".join(f"{percent} {number / 1000:.1f} us" for percent, number in at.items()))


def measure(path):
    program = os.path.join(CRATE, "out", "cases")
    answer = subprocess.run([program, "cuts", path, ROUNDS], check=True, capture_output=True, text=True).stdout.splitlines()
    rows = [[int(word) for word in line.split()] for line in answer[:-1]]
    print(answer[-1])
    spread("a search:", [row[2] for row in rows])
    spread("with all facts but the last prepared:", [row[3] for row in rows])
    proofs = [row for row in rows if row[0]]
    print("lines of derivations:", sum(row[0] for row in proofs), "at most", max(row[0] for row in proofs), end=", ")
    print("weights at most", max(row[1] for row in proofs))


def main(words):
    if words[:1] == ["make"]:
        make(words[1:])
    else:
        measure(words[0] if words else os.path.join(CRATE, "data", "facts.txt"))


if __name__ == "__main__":
    main(sys.argv[1:])
