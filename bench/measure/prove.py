#!/usr/bin/env python3
"""Proves the kernels of a folder and prints a table: kernel, what it is, verdict and first finding, milliseconds, certificate.

    prove.py KERNELS [--wide] [--budgets N] [--seconds N] [--beside N] [WORKERS] [NAME ..]
        NAME.cl with NAME.conditions, and a table in README.md that says which are safe, as bench/kernels; or with NAME.cond, and
        NAME.expect, which begins with safe or unsafe KIND; all, or these names
        --budgets: of each safe kernel N times the budget of its conditions
        --wide: with that word, and of certificates of version 4 it is told how many there are, and what they have
        --seconds: of processor, after which a process is late; 120 if that is not told
        --beside: so many kernels are proved beside each other

Milliseconds are those of the processor, for the whole process. Each certificate is given to `check`, which has to accept it. A finding has
to have the kind of an unsafe kernel. Build the program first: ./kverify build
"""
import collections
import concurrent.futures
import os
import re
import resource
import statistics
import subprocess
import sys
import tempfile

sys.path.insert(0, os.path.dirname(os.path.dirname(os.path.abspath(__file__))))
from common import KVERIFY

def said(words, seconds):
    """The lines that the program prints, and the milliseconds of processor that it took."""
    with tempfile.TemporaryFile() as out:
        ran = subprocess.Popen([KVERIFY, *words], stdin=subprocess.DEVNULL, stdout=out, stderr=out,
                               preexec_fn=lambda: resource.setrlimit(resource.RLIMIT_CPU, (seconds, seconds)))
        _, status, used = os.wait4(ran.pid, 0)
        ran.returncode = os.waitstatus_to_exitcode(status)
        out.seek(0)
        lines = out.read().decode("utf-8").splitlines()
    return lines or ["late" if ran.returncode < 0 else f"status {ran.returncode}"], 1000 * (used.ru_utime + used.ru_stime)


# What certificates of version 4 may have, and how such a line begins.
KINDS_OF_LINES = (("products", "p"), ("lemmas", "l"), ("multiples", "multiple"))
Row = collections.namedtuple("Row", "text kind is_accepted line taken checking size is_wide kinds")


# What the table of a folder calls a fault, as findings name it.
KINDS = {"index": "F3", "overflow": "F2", "division": "F1"}


def expected(place, name):
    """What a kernel is: safe, or unsafe with the kind of what goes wrong."""
    if os.path.exists(f"{place}/{name}.expect"):
        with open(f"{place}/{name}.expect", encoding="utf-8") as it:
            return " ".join(it.readline().split())
    with open(f"{place}/README.md", encoding="utf-8") as it:
        cells = next(line.split("|") for line in it if line.startswith(f"| `{name}` |"))
    word = cells[4].split(":")[0].strip()
    return "safe" if cells[2].strip() == "safe" else f"unsafe {KINDS.get(word, word)}"


def is_told(kind, lines):
    """Whether a refusal tells the kind of an unsafe kernel: its budget, or a finding."""
    what = kind.split(" ")[1]
    if what == "budget":
        return lines[0] == "refused 56"
    return any(re.match(f"(fault )?{what} (possible|confirmed): ", it) for it in lines[1:])


def conditions_of(folder, place, name, times):
    """The conditions of a kernel, or a copy of them with so many times their budget."""
    conditions = f"{place}/{name}.conditions"
    conditions = conditions if os.path.exists(conditions) else f"{place}/{name}.cond"
    if times == 1 or expected(place, name) != "safe":
        return conditions
    with open(conditions, encoding="utf-8") as given, open(f"{folder}/conditions.txt", "w", encoding="utf-8") as changed:
        changed.write(re.sub(r"(?m)^budget (\d+)$", lambda it: f"budget {times * int(it[1])}", given.read()))
    return f"{folder}/conditions.txt"


def row(place, name, words, options):
    """One kernel's row, in a folder of its own."""
    with tempfile.TemporaryDirectory() as folder:
        return row_in(folder, place, name, words, options)


def row_in(folder, place, name, words, options):
    """One kernel's row: the safe ones are to be accepted, and their certificates checked."""
    files = [f"{place}/{name}.cl", conditions_of(folder, place, name, options["--budgets"])]
    out = f"{folder}/certificate.txt"
    told, taken = said(["prove", *files, *words, "--out", out], options["--seconds"])
    line = told[0]
    kind = expected(place, name)
    lines = size = entries = checking = 0
    is_wide, kinds = False, []
    is_accepted = line == "accepted"
    if is_accepted:
        with open(out, encoding="utf-8") as it:
            text = it.read()
        size, entries = len(text), len(re.findall("(?m)^ob ", text))
        is_wide = text.startswith("certificate 4\n")
        lines = len(re.findall("(?m)^(same|fact|mod|multiple) ", text))
        kinds = [word for word, sign in KINDS_OF_LINES if re.search(f"(?m)^{sign} ", text)]
        checked, checking = said(["check", *files, out, *(["--wide"] if "--wide" in words else [])], options["--seconds"])
        if checked != ["accepted"]:
            is_accepted, line = False, f"BROKEN: check says {checked}"
    is_right = is_accepted if kind == "safe" else line.startswith("refused ") and is_told(kind, told)
    if len(told) > 1:
        line += "; " + told[1].split(":")[0]
    mark = "" if is_right else " <--"
    text = f"| `{name}` | {kind} | {line} | {taken:.0f} | {lines} | {entries} | {size} |{mark}"
    return Row(text, kind, is_accepted, line, taken, checking, size, is_wide, kinds)


def spread(numbers, unit):
    return f"median {statistics.median(numbers):.0f}, worst {max(numbers):.0f} {unit}"


def told_of_wide(rows):
    """Tells how many certificates of version 4 there are, and how many of them have each kind of line."""
    kinds = collections.Counter(kind for it in rows for kind in it.kinds)
    print(f"{len(rows)} certificates of version 4: " + ", ".join(f"{kinds[kind]} with {kind}" for kind, _ in KINDS_OF_LINES))
    if rows:
        print(f"these: {spread([it.taken for it in rows], 'ms')}, {spread([it.size for it in rows], 'bytes')}; "
              f"check: {spread([it.checking for it in rows], 'ms')}")


def main():
    place, *words = sys.argv[1:]
    wide = [it for it in words if it == "--wide"]
    words = [it for it in words if it != "--wide"]
    options = {"--budgets": 1, "--seconds": 120, "--beside": 1}
    while words and words[0] in options:
        options[words[0]] = int(words[1])
        words = words[2:]
    workers, only = words[0] if words else "1", words[1:]
    names = sorted(it[:-3] for it in os.listdir(place) if it.endswith(".cl") and (not only or it[:-3] in only))
    print("| Kernel | What it is | Verdict | ms | Lines of places | Entries | Bytes |\n|---|---|---|---|---|---|---|")
    with concurrent.futures.ThreadPoolExecutor(options["--beside"]) as pool:
        rows = []
        for it in pool.map(lambda name: row(place, name, ["--workers", workers, *wide], options), names):
            print(it.text, flush=True)
            rows.append(it)
    safe = [it for it in rows if it.kind == "safe"]
    proved = [it for it in safe if it.is_accepted]
    wrong = [it for it in rows if it.kind != "safe" and it.is_accepted]
    print(f"{len(proved)} of {len(safe)} safe kernels accepted, {len(wrong)} of {len(rows) - len(safe)} unsafe ones")
    refused = collections.Counter(it.line.split(";")[0] for it in safe if not it.is_accepted)
    print("safe ones: " + ", ".join(f"{line} {many}" for line, many in sorted(refused.items())))
    if wide:
        told_of_wide([it for it in rows if it.is_wide])
    if proved:
        print(f"accepted ones: {spread([it.taken for it in proved], 'ms')}, {spread([it.size for it in proved], 'bytes')}, "
              f"{sum(it.size for it in proved)} bytes in all; check: {spread([it.checking for it in proved], 'ms')}")
    print(f"all: {spread([it.taken for it in rows], 'ms')}; "
          f"memory of the largest {resource.getrusage(resource.RUSAGE_CHILDREN).ru_maxrss // 1024} MiB")


if __name__ == "__main__":
    main()
