#!/usr/bin/env python3
"""Looks for acceptances of `prove --wide` that are lost where fewer launches are allowed.

    tighter.py COUNT SEED KERNELS ..     so many tries on kernels of these folders

KERNELS has files NAME.cl with NAME.cond or NAME.conditions. Each kernel that is accepted is proved again, with conditions made tighter at
random: ranges of arguments and group counts are halved or fixed to one number, and lengths raised by a number. Whoever allows fewer
launches is to lose no acceptance: what is lost is printed, with the lines that were changed. A try is told by its seed; `only=SEED` in the
place of COUNT tries one alone, and prints its conditions. The status is 1 if anything is lost. Build the program first: ./kverify build
"""
import collections
import concurrent.futures
import glob
import os
import random
import re
import subprocess
import sys
import tempfile

sys.path.insert(0, os.path.dirname(os.path.dirname(os.path.abspath(__file__))))
from common import first_line

# Seconds for each call of the program, and how many calls are made at once.
LIMIT = 120
AT_ONCE = 3


def bases_of(folders):
    """Of each kernel its file and its conditions, as lines of the second version."""
    bases = []
    for folder in folders:
        for file in sorted(glob.glob(f"{folder}/*.cl")):
            told = next(it for it in (f"{file[:-3]}.cond", f"{file[:-3]}.conditions") if os.path.exists(it))
            with open(told, encoding="ascii") as conditions:
                lines = conditions.read().splitlines()
            bases.append((file, ["conditions 2", *lines[1:]]))
    return bases


def answer(file, lines):
    """The first line of what the program prints of a kernel with these conditions."""
    with tempfile.NamedTemporaryFile("w", suffix=".conditions") as conditions:
        conditions.write("\n".join(lines) + "\n")
        conditions.flush()
        try:
            return first_line("prove", "--wide", "--workers", "1", file, conditions.name, timeout=LIMIT)
        except subprocess.TimeoutExpired:
            return "no answer"


def narrowed(rng, low, high):
    """A range within another one: a half of it, one end, or one number."""
    middle = low + (high - low) // 2
    number = rng.randint(low, high)
    return rng.choice(((low, middle), (middle, high), (low, low), (high, high), (number, number), (min(low + 1, high), high)))


def range_text(rng, text):
    low, high = map(int, text.split(".."))
    return "%d..%d" % narrowed(rng, low, high)


def tighter(rng, line):
    """A line that allows less than another one; the same where it may say no less."""
    words = line.split(" ")
    if words[0] == "groups":
        at = rng.choice([it for it in (1, 2, 3) if words[it] != "1..1"] or [1])
        words[at] = range_text(rng, words[at])
    elif words[0] == "arg":
        words[2] = range_text(rng, words[2])
    elif words[0] == "length" and line.count("+") < 7:
        words += ["+", str(rng.choice((1, 7, 64, 1000)))]
    return " ".join(words)


def attempt(seed, bases):
    """A kernel, its tighter conditions, and what the program answers; no answer where nothing was made tighter."""
    rng = random.Random(seed)
    file, lines = rng.choice(bases)
    own = list(lines)
    may = [at for at, it in enumerate(lines) if re.match("groups|arg|length", it)]
    for at in rng.sample(may, min(len(may), rng.choice((1, 1, 2, 3)))):
        own[at] = tighter(rng, own[at])
    return file, own, [it for it in own if it not in lines], answer(file, own)


def main(words):
    bases = bases_of(words[2:])
    if words[0].startswith("only="):
        file, lines, _, told = attempt(int(words[0][5:]), accepted_of(bases))
        print(file, *lines, told, sep="\n")
        return
    accepted = accepted_of(bases)
    print(f"{len(bases)} kernels, {len(accepted)} accepted", flush=True)
    seeds = range(int(words[1]), int(words[1]) + int(words[0]))
    counts = collections.Counter()
    with concurrent.futures.ThreadPoolExecutor(AT_ONCE) as calls:
        for seed, (file, _, changed, told) in zip(seeds, calls.map(lambda it: attempt(it, accepted), seeds)):
            counts[told] += 1
            if changed and told != "accepted":
                print(f"  {seed}: {os.path.basename(file)[:-3]}: {told}: {'; '.join(changed)}", flush=True)
    print(", ".join(f"{told} {count}" for told, count in counts.most_common()))
    sys.exit(1 if set(counts) != {"accepted"} else 0)


def accepted_of(bases):
    """The kernels that are accepted with the conditions that they have."""
    with concurrent.futures.ThreadPoolExecutor(AT_ONCE) as calls:
        return [base for base, told in zip(bases, calls.map(lambda it: answer(*it), bases)) if told == "accepted"]


if __name__ == "__main__":
    main(sys.argv[1:])
