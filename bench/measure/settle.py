#!/usr/bin/env python3
"""Measures how long a board of 512 candidates with 65,536 obligations takes to settle, and in how much memory.

Build the program first: python3 tools/build.py cases
"""
import os
import resource
import subprocess
import sys
import time

sys.path.insert(0, os.path.dirname(os.path.dirname(os.path.abspath(__file__))))
from common import CASES

OBLIGATIONS = 65_536
TIMES = 5


def seconds(kind, workers):
    """The least of some runs, with the table made."""
    taken = []
    for _ in range(TIMES):
        start = time.perf_counter()
        subprocess.run([CASES, "settle", kind, str(workers)], check=True, stdout=subprocess.DEVNULL)
        taken.append(time.perf_counter() - start)
    return min(taken)


def main():
    for kind in ("stand", "fall"):
        for workers in (1, 2, 4, 64):
            print(f"{kind}, {workers} workers: {seconds(kind, workers):.3f} seconds")
    peak = resource.getrusage(resource.RUSAGE_CHILDREN).ru_maxrss * 1024
    print(f"{peak} bytes at most, program and table included: {peak / OBLIGATIONS:.1f} bytes an obligation")


if __name__ == "__main__":
    main()
