#!/usr/bin/env python3
"""Measures certificates in both versions: the bytes of those that `prove` finds, and what the longest texts cost to read.

    certificates.py [KERNELS] [--budgets N]     the kernels of a folder, as measure/prove.py takes them, else those of bench/kernels; N
                                                times the budget of each safe one
    certificates.py longest                     the longest texts

Of each certificate that is found the text of version 1 is made here, and `migrate` has to make the same certificate of it again. The
longest texts, of up to 16,777,216 bytes, are of one kind of line each; `check` reads them for a kernel of one store, and refuses what they say.
`migrate` writes those of version 1 anew. Memory is that of the whole process, text included, which may take 4 GiB. Build the program
first: ./kverify build
"""
import itertools
import os
import re
import resource
import statistics
import subprocess
import sys
import tempfile
import time

sys.path.insert(0, os.path.dirname(os.path.dirname(os.path.abspath(__file__))))
from common import KVERIFY, ROOT, certificate_lines, certificate_text, number_behind
from prove import conditions_of

LIMIT = 16_777_216
MEMORY = 2**32
TIMES = 3
PATIENCE = 20


# ---- the certificates that are found

def found_certificate(folder, kernel, conditions):
    """The text of the certificate that `prove` finds, in time; else None."""
    out = f"{folder}/found.txt"
    try:
        done = subprocess.run([KVERIFY, "prove", kernel, conditions, "--out", out], capture_output=True, timeout=PATIENCE)
    except subprocess.TimeoutExpired:
        return None
    return read(out) if done.returncode == 0 else None


def read(name):
    with open(name, encoding="ascii") as found:
        return found.read()


def write(name, text):
    with open(name, "w", encoding="ascii") as out:
        out.write(text)
    return name


def version_one(folder, certificate):
    """The text of version 1 of a certificate of version 2, if `migrate` makes that of it again."""
    text = certificate_text(certificate_lines(certificate), 1)
    old, new = write(f"{folder}/old.txt", text), f"{folder}/new.txt"
    subprocess.run([KVERIFY, "migrate", old, new], check=True, capture_output=True)
    assert read(new) == certificate
    return text


def sizes(place, times):
    """The bytes of all certificates, of both versions."""
    found = []
    with tempfile.TemporaryDirectory() as folder:
        for name in sorted(it[:-3] for it in os.listdir(place) if it.endswith(".cl")):
            two = found_certificate(folder, f"{place}/{name}.cl", conditions_of(folder, place, name, times))
            if two is not None:
                one = version_one(folder, two)
                found.append((len(one), len(two)))
                print(f"{name}: {len(one)} bytes, {len(two)} bytes", file=sys.stderr, flush=True)
    return found


def print_sizes(found):
    print("| Bytes | Version 1 | Version 2 | Ratio |\n|---|---|---|---|")
    columns = [sorted(it) for it in zip(*found)]
    last = len(found) - 1
    rows = (("half are within", statistics.median), ("90% are within", lambda it: it[last * 9 // 10]), ("the largest", max), ("all", sum))
    for what, figure in rows:
        one, two = (figure(it) for it in columns)
        print(f"| {what} | {one:,.0f} | {two:,.0f} | {two / one:.2f} |")
    print(f"{len(found)} certificates; each ratio is {min(two / one for one, two in found):.2f} to {max(two / one for one, two in found):.2f}")


# ---- the longest texts

KERNEL = "__kernel __attribute__((reqd_work_group_size(1, 1, 1))) void k(__global uint *a) {\n  a[0] = 1u;\n}\n"
CONDITIONS = "conditions 1\ngroups 1..1 1..1 1..1\nlength a >= 1\nbudget 1\n"
EXAMPLE = os.path.join(ROOT, "examples", "tree_reduction.certificate")
LONG = " + ".join([*(f"1*v{at:04}" for at in range(1000)), "0"])


def derivations():
    """The entries of an example, again and again, with numbers that rise."""
    lines = [line for line in certificate_lines(read(EXAMPLE)) if line[0].startswith(("ob ", "g ", "s ", "d "))]
    number = 0
    while True:
        for front, form in lines:
            number += front.startswith("ob ")
            yield re.sub(r"^ob \d+", f"ob {number}", front), form


def behind(first, lines):
    yield first
    yield from lines


PLACE = "place b1", None
ENTRY = "ob 1 show", None
COUNT = itertools.count
# What lines they are: a first line that others need, and then without end.
KINDS = {
    "an example's entries": derivations,
    "`g 34`": lambda: behind(ENTRY, itertools.repeat(("g 34", None))),
    "`s 1 1`": lambda: behind(ENTRY, itertools.repeat(("s 1 1", None))),
    "`s 1 1 1 2 1 3 1 4`": lambda: behind(ENTRY, itertools.repeat(("s 1 1 1 2 1 3 1 4", None))),
    "`ob N show`": lambda: ((f"ob {n} show", None) for n in COUNT(1)),
    "`same x`": lambda: behind(PLACE, itertools.repeat(("same x", None))),
    "`fact 0`": lambda: behind(PLACE, itertools.repeat(("fact", "0"))),
    "`fact 1*x + 0`": lambda: behind(PLACE, itertools.repeat(("fact", "1*x + 0"))),
    "`fact 1*x + N`": lambda: behind(PLACE, (("fact", f"1*x + {n}") for n in COUNT())),
    "`fact -64*group.0 + 1*i + -1*local.0 + N`": lambda: behind(PLACE, (("fact", f"-64*group.0 + 1*i + -1*local.0 + {n}") for n in COUNT())),
    "`ob N quot 1*#1 + N`": lambda: ((f"ob {n} quot", f"1*#1 + {n}") for n in COUNT(1)),
    "`fact` and a form of 1,000 terms": lambda: behind(PLACE, itertools.repeat(("fact", LONG))),
}


def longest(lines, version):
    """The longest text that begins with such lines and has no more bytes than may be read."""
    taken, left, forms = [], LIMIT - len(f"certificate {version}\nend\n"), {}
    for front, form in lines:
        left -= len(front) + 1
        if form is not None and version == 2 and form not in forms:
            forms[form] = len(forms) + 1
            left -= len(f"form {form}\n")
        if form is not None:
            left -= len(str(forms[form]) if version == 2 else form) + 1
        if left < 0:
            break
        taken.append((front, form))
    return certificate_text(taken, version)


def limited():
    resource.setrlimit(resource.RLIMIT_AS, (MEMORY, MEMORY))


def measured(words):
    """The answer, the least seconds of some calls and of the processor, and the bytes of memory of one."""
    seconds, busy = [], []
    for _ in range(TIMES):
        start = time.perf_counter()
        process = subprocess.Popen([KVERIFY, *words], stdout=subprocess.PIPE, stderr=subprocess.STDOUT, text=True, preexec_fn=limited)
        told = process.stdout.read()
        _, _, usage = os.wait4(process.pid, 0)
        seconds.append(time.perf_counter() - start)
        busy.append(usage.ru_utime + usage.ru_stime)
    return told.strip(), min(seconds), min(busy), usage.ru_maxrss * 1024


def costs(words, size):
    told, seconds, busy, peak = measured(words)
    return f"{told} | {seconds:.2f}, {busy:.2f} | {peak / size:.1f}"


def print_longest():
    with tempfile.TemporaryDirectory() as folder:
        kernel, conditions = write(f"{folder}/kernel.cl", KERNEL), write(f"{folder}/conditions.txt", CONDITIONS)
        *_, least = measured(["check", kernel, conditions, write(f"{folder}/text.txt", "certificate 2\nend\n")])
        print(f"the least memory of a call: {least} bytes")
        print("| Lines | Version | Bytes | Command | Answer | Seconds, of a processor | Bytes of memory a byte |\n|---|---|---|---|---|---|---|")
        for what, lines in KINDS.items():
            for version in (1, 2):
                text = longest(lines(), version)
                name = write(f"{folder}/text.txt", text)
                commands = [["check", kernel, conditions, name], ["migrate", name, f"{folder}/new.txt"]]
                for words in commands[:3 - version]:
                    print(f"| {what} | {version} | {len(text):,} | `{words[0]}` | {costs(words, len(text))} |", flush=True)


def main():
    words = sys.argv[1:]
    if words == ["longest"]:
        print_longest()
        return
    times, words = number_behind(words, "--budgets", 1)
    print_sizes(sizes(words[0] if words else os.path.join(ROOT, "bench", "kernels"), times))


if __name__ == "__main__":
    main()
