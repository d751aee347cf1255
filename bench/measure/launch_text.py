#!/usr/bin/env python3
"""Measures how long a launch text of 4 MB with 1,048,576 words takes to read, and in how much memory.

Build the program first: ./kverify build at the top. A launch is read whole before the conditions are looked at: this one has a buffer that is
shorter than they ask, so nothing is run.
"""
import os
import resource
import subprocess
import sys
import tempfile
import time

sys.path.insert(0, os.path.dirname(os.path.dirname(os.path.abspath(__file__))))
from common import KVERIFY

WORDS = 1_048_576
LIMIT = 4_194_304
# What a word takes, kind and number.
KEPT = 8
KERNEL = "__kernel __attribute__((reqd_work_group_size(1, 1, 1))) void k(__global uint *a) {\n  a[0] = 1u;\n}\n"
CONDITIONS = f"conditions 1\ngroups 1..1 1..1 1..1\nlength a >= {WORDS + 1}\nbudget 1\n"
CERTIFICATE = "certificate 2\nend\n"
ANSWER = "refused 40 3\n"


def text():
    """The longest text with so many words: as many of three digits as fit, the others of two."""
    head, tail = "launch 1\ngroups 1 1 1\nbuffer a list", "\nfill 0\n"
    short = WORDS * 4 + len(head) + len(tail) - LIMIT
    return head + " 12" * short + " 123" * (WORDS - short) + tail


def main():
    with tempfile.TemporaryDirectory() as folder:
        paths = []
        for name, content in (("kernel", KERNEL), ("conditions", CONDITIONS), ("certificate", CERTIFICATE), ("launch", text())):
            paths.append(os.path.join(folder, name))
            with open(paths[-1], "w", encoding="ascii") as out:
                out.write(content)
        size = os.path.getsize(paths[-1])
        start = time.perf_counter()
        answer = subprocess.run([KVERIFY, "run", *paths], check=False, capture_output=True, text=True).stdout
        seconds = time.perf_counter() - start
    if answer != ANSWER:
        raise SystemExit(f"answered {answer!r}, not {ANSWER!r}")
    peak = resource.getrusage(resource.RUSAGE_CHILDREN).ru_maxrss * 1024
    print(f"{size} bytes read")
    print(f"{seconds:.3f} seconds, {peak} bytes at most, program and text included")
    print(f"{(peak - KEPT * WORDS) / WORDS:.1f} bytes a word beyond the {KEPT} that are kept")


if __name__ == "__main__":
    main()
