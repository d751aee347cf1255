#!/usr/bin/env python3
"""Proves kernels with 1, 3 and 64 workers, and says whether each number of them tells the same and writes the same certificate.

    workers.py [KERNELS] [--wide] [--seconds N] [NAME ..]
                            the kernels of a folder, as measure/prove.py takes them, else those of bench/kernels; all of them or these;
                            --seconds: those that take longer than N seconds (60) with one worker are left out, and told

It prints a line for each kernel of which something differs, and what was compared in the end; the status is 1 where something differs. Build
the program first: ./kverify build
"""
import os
import subprocess
import sys
import tempfile

sys.path.insert(0, os.path.dirname(os.path.dirname(os.path.abspath(__file__))))
from common import KVERIFY, ROOT, number_behind

WORKERS = (1, 3, 64)


def answer(words, workers, seconds, room):
    """What the program tells of a kernel with so many workers, its status, and the certificate that it writes; none where it takes longer."""
    out = os.path.join(room, "certificate")
    if os.path.exists(out):
        os.remove(out)
    command = [KVERIFY, "prove", *words, "--workers", str(workers), "--out", out]
    try:
        ran = subprocess.run(command, capture_output=True, timeout=seconds)
    except subprocess.TimeoutExpired:
        return None
    written = None
    if os.path.exists(out):
        with open(out, "rb") as file:
            written = file.read()
    return ran.returncode, ran.stdout, ran.stderr, written


def kernels_of(folder, names):
    """The kernels of a folder by name, each with its files."""
    found = sorted(it[: -len(".cl")] for it in os.listdir(folder) if it.endswith(".cl"))
    chosen = [it for it in found if not names or it in names]
    return [(it, [os.path.join(folder, it + ".cl"), os.path.join(folder, it + ".conditions")]) for it in chosen]


def main(words):
    options = [word for word in words if word == "--wide"]
    seconds, words = number_behind(words, "--seconds", 60)
    words = [word for word in words if word != "--wide"]
    is_folder = bool(words) and os.path.isdir(words[0])
    folder = words[0] if is_folder else os.path.join(ROOT, "bench", "kernels")
    accepted = refused = late = differing = 0
    with tempfile.TemporaryDirectory(prefix="kverify-workers-") as room:
        for name, files in kernels_of(folder, words[1:] if is_folder else words):
            first = answer([*files, *options], WORKERS[0], seconds, room)
            if first is None:
                late += 1
                print(f"{name}: takes longer than {seconds} s", flush=True)
                continue
            others = [answer([*files, *options], workers, None, room) for workers in WORKERS[1:]]
            if any(other != first for other in others):
                differing += 1
                print(f"{name}: differs", flush=True)
            accepted += first[0] == 0
            refused += first[0] == 1
    print(f"{accepted} accepted, {refused} refused, {late} left out; {differing} differ with {', '.join(map(str, WORKERS))} workers")
    return 1 if differing else 0


if __name__ == "__main__":
    sys.exit(main(sys.argv[1:]))
