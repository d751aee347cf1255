#!/usr/bin/env python3
"""Measures the program: the run of a fill of 1,048,576 elements, and the check of a kernel of 180 stores (65,520 obligations).

Build it first: ./kverify build
"""
import os
import subprocess
import sys
import tempfile
import time

sys.path.insert(0, os.path.dirname(os.path.dirname(os.path.abspath(__file__))))
from common import KVERIFY

ITEMS = 1_048_576
STORES = 180
HEAD = "__kernel __attribute__((reqd_work_group_size(64, 1, 1))) void k(__global uint *a) {\n"

# Derivations by which two items of one group, and of two, in either order, do not meet in an element.
WITHIN = ("g 34\ng 39\ng 40\ns 64 1 1 2 1 3\n", "g 33\ng 39\ng 41\ns 64 1 1 2 1 3\n")
ACROSS = ("g 10\ng 21\ng 33\ng 34\ns 1 1 1 2 64 3 1 4\n", "g 9\ng 22\ng 33\ng 35\ns 1 1 1 2 64 3 1 4\n")

# The derivations of a fill under `length a >= 64*groups.0`: the index below the buffer's length, and no two items in an element.
FILL_CERTIFICATE = """certificate 2
ob 2 show\ng 7\ng 10\ng 12\ng 21\ns 1 1 1 4\ns 1 2 1 5\nd 64 6\ns 1 3 1 7
ob 3 show\ng 34\ng 39\ng 40\ns 64 1 1 3\ns 1 2 1 4
ob 4 show\ng 33\ng 39\ng 41\ns 64 1 1 3\ns 1 2 1 4
ob 5 show\ng 10\ng 21\ng 33\ng 34\ns 1 1 1 4\ns 1 2 1 5\nd 64 6\ns 1 3 1 7
ob 6 show\ng 9\ng 22\ng 33\ng 35\ns 1 1 1 4\ns 1 2 1 5\nd 64 6\ns 1 3 1 7
end
"""


def fill():
    """The texts of a fill, one item an element."""
    return {
        "kernel": HEAD + "  a[get_global_id(0)] = 1u;\n}\n",
        "conditions": "conditions 1\ngroups 1..16384 1..1 1..1\nlength a >= 64*groups.0\nbudget 1\n",
        "certificate": FILL_CERTIFICATE,
        "launch": f"launch 1\ngroups {ITEMS // 64} 1 1\nbuffer a fill {ITEMS} 0\nfill 0\n",
    }


def many(stores):
    """The texts of a kernel with so many stores to one element; each two of them are a pair, and each pair has an entry."""
    pairs = stores * (stores + 1) // 2
    entries = [f"ob {2 * stores + at} show\n{steps}" for at, steps in enumerate((WITHIN * pairs) + (ACROSS * pairs), 1)]
    return {
        "kernel": HEAD + "  a[get_global_id(0)] = 1u;\n" * stores + "}\n",
        "conditions": f"conditions 1\ngroups 1..1024 1..1 1..1\nlength a >= 65536\nbudget {stores}\n",
        "certificate": "certificate 2\n" + "".join(entries) + "end\n",
    }


def measured(texts, command):
    """Seconds and peak memory of one call."""
    with tempfile.TemporaryDirectory() as folder:
        for name, text in texts.items():
            with open(os.path.join(folder, name), "w", encoding="ascii") as out:
                out.write(text)
        start = time.perf_counter()
        process = subprocess.Popen([KVERIFY, command, *texts], cwd=folder, stdout=subprocess.PIPE)
        answer = process.stdout.read()
        _, status, usage = os.wait4(process.pid, 0)
        seconds = time.perf_counter() - start
    return os.waitstatus_to_exitcode(status), answer, seconds, usage.ru_maxrss * 1024


def main():
    status, answer, seconds, peak = measured(fill(), "run")
    assert status == 0 and answer.count(b" 1") == ITEMS
    print(f"run of {ITEMS} items: {seconds:.3f} seconds, {peak} bytes at most, {peak / ITEMS:.1f} an element")
    for stores in (STORES // 4, STORES // 2, STORES):
        status, answer, seconds, peak = measured(many(stores), "check")
        assert (status, answer) == (0, b"accepted\n")
        obligations = 2 * stores * (stores + 2)
        print(f"check of {stores} stores: {obligations} obligations, {seconds:.3f} seconds, {peak} bytes at most, {1e6 * seconds / obligations:.1f} microseconds an obligation")


if __name__ == "__main__":
    main()
