#!/usr/bin/env python3
"""Runs the safe kernels of a folder and compares the buffers with what they have to be.

    run.py KERNELS [NAME ..]    NAME.cl with NAME.cond, NAME.launch, and NAME.out, the buffers after that launch; all that have one, or these

Each is proved, and its launch run with the certificate that was found and 1, 3 and 64 workers: each time it has to print NAME.out. Build
the program first: ./kverify build
"""
import os
import subprocess
import sys
import tempfile
import time

sys.path.insert(0, os.path.dirname(os.path.dirname(os.path.abspath(__file__))))
from common import KVERIFY

WORKERS = ("1", "3", "64")
LIMIT = 120


def said(words):
    """What the program prints, and the milliseconds that it took."""
    started = time.monotonic()
    try:
        done = subprocess.run([KVERIFY, *words], capture_output=True, timeout=LIMIT)
        text = done.stdout + done.stderr
    except subprocess.TimeoutExpired:
        text = b"late\n"
    return text, 1000 * (time.monotonic() - started)


def verdict(folder, place, name):
    """What is told of one kernel, and the milliseconds of each run."""
    files = [f"{place}/{name}.cl", f"{place}/{name}.cond"]
    certificate = f"{folder}/certificate.txt"
    told = said(["prove", *files, "--out", certificate])[0]
    if told != b"accepted\n":
        return told.decode(errors="replace").splitlines()[0], []
    with open(f"{place}/{name}.out", "rb") as it:
        wanted = it.read()
    runs = [said(["run", *files, certificate, f"{place}/{name}.launch", "--workers", it]) for it in WORKERS]
    wrong = [workers for workers, (text, _) in zip(WORKERS, runs) if text != wanted]
    return f"OTHER BUFFERS with {' and '.join(wrong)} workers" if wrong else "as it has to be", [it for _, it in runs]


def main():
    place, only = sys.argv[1], sys.argv[2:]
    names = sorted(it[:-4] for it in os.listdir(place) if it.endswith(".out") and (not only or it[:-4] in only))
    print("| Kernel | Buffers | ms with " + ", ".join(WORKERS) + " workers |\n|---|---|---|")
    told = []
    with tempfile.TemporaryDirectory() as folder:
        for name in names:
            what, times = verdict(folder, place, name)
            told.append(what)
            print(f"| `{name}` | {what} | {', '.join(f'{it:.0f}' for it in times)} |", flush=True)
    right, unproved = told.count("as it has to be"), sum(it.startswith("refused") for it in told)
    print(f"{right} of {len(told)} kernels print the buffers that they have to; {unproved} are refused; {len(told) - right - unproved} are wrong")
    sys.exit(right + unproved != len(told))


if __name__ == "__main__":
    main()
