#!/usr/bin/env python3
"""Measures two builds of the program beside each other: what `prove` accepts, its certificates, and processor time of `prove` and `check`.

    beside.py BEFORE AFTER KERNELS [--budgets N] [--oracle FOLDER] [NAME ..]
                                            BEFORE and AFTER are programs; KERNELS is a folder, as measure/prove.py takes it, of which all
                                            kernels are taken or these names; --budgets: of each safe kernel N times the budget;
                                            --oracle: the folder of an independent program, which counts the obligations of what AFTER
                                            accepts, and those of them that the domain settles with known bits and without

Each certificate is given to `check` of its own program, which has to accept it. The two programs take turns, so that what else the machine
does slows both alike. A ratio is AFTER's processor seconds by BEFORE's, of the medians of some runs each. Both are to be optimized.
"""
import os
import re
import resource
import statistics
import subprocess
import sys
import tempfile

sys.path.insert(0, os.path.dirname(os.path.dirname(os.path.abspath(__file__))))
from prove import conditions_of, expected, is_told

# Processor seconds after which a run is given up, and runs of each program: fewer of those that take long.
PATIENCE = 120
PROOFS, CHECKS, LONG = 5, 15, 1.0


def limited():
    resource.setrlimit(resource.RLIMIT_CPU, (PATIENCE, PATIENCE))


def ran(program, words):
    """The lines that a program prints, and its processor seconds."""
    process = subprocess.Popen([program, *words], stdout=subprocess.PIPE, stderr=subprocess.STDOUT, text=True, preexec_fn=limited)
    told = process.stdout.read()
    _, status, usage = os.wait4(process.pid, 0)
    process.returncode = status
    return (["late"] if os.WIFSIGNALED(status) else told.splitlines()), usage.ru_utime + usage.ru_stime


def by_turns(programs, words, times):
    """What each program says, and the median of its processor seconds; words are its own."""
    said, seconds = [None, None], ([], [])
    for turn in range(times):
        for at in (0, 1) if turn % 2 == 0 else (1, 0):
            said[at], taken = ran(programs[at], words[at])
            seconds[at].append(taken)
        if max(map(max, seconds)) > LONG:
            break
    return said, [statistics.median(it) for it in seconds]


def text_of(name):
    if not os.path.exists(name):
        return ""
    with open(name, encoding="ascii") as it:
        return it.read()


class Counted:
    """Obligations of a kernel with its certificate, counted by the independent program."""

    def __init__(self, folder):
        sys.path.insert(0, folder)
        import cert
        import check
        import config
        import domain
        import obligations
        import walk

        config.stage("e")
        self.cert, self.check, self.domain, self.walk, self.pairs = cert, check, domain, walk, obligations.Pairs

    def of(self, kernel, conditions, certificate):
        """All obligations, those that are settled with known bits, and without."""
        read = self.cert.read(certificate, (1, 2))
        settled = []
        for with_bits in (True, False):
            typed, told, places = self.check.front(kernel, conditions)
            has_entry = lambda it: it.number in read.obs
            walker = self.walk.Walker(typed, told, self.domain.checker_domain(with_bits), places, read.places, read.loops, has_entry).all()
            found = [*walker.claims, *self.pairs(walker).all()]
            settled.append(sum(it.settled for it in found))
        return len(found), *settled


def row(folder, programs, place, name, times, counted):
    """What was measured of one kernel, printed as a row."""
    files = [f"{place}/{name}.cl", conditions_of(folder, place, name, times)]
    outs = [f"{folder}/{at}.txt" for at in (0, 1)]
    for it in outs:
        if os.path.exists(it):
            os.remove(it)
    kind = expected(place, name)
    said, seconds = by_turns(programs, [["prove", *files, "--out", it] for it in outs], PROOFS)
    texts = [text_of(it) for it in outs]
    is_accepted = [it[:1] == ["accepted"] for it in said]
    is_right = all(it if kind == "safe" else not it and is_told(kind, told) for it, told in zip(is_accepted, said))
    checks = None
    if all(is_accepted):
        checked, checks = by_turns(programs, [["check", *files, it] for it in outs], CHECKS)
        is_right = is_right and checked == [["accepted"], ["accepted"]]
    entries = [len(re.findall("(?m)^ob ", it)) for it in texts]
    count = None
    if counted and is_accepted[1]:
        read = [open(it, "rb").read() for it in (*files, outs[1])]
        count = counted.of(*read)
    cells = [f"`{name}`", kind, *(it[0] if it else "nothing" for it in said), *map(str, entries), *(str(len(it)) for it in texts)]
    cells += [f"{1000 * it:.1f}" for it in seconds] + [f"{1000 * it:.2f}" for it in checks or ()] + [str(it) for it in count or ()]
    print("| " + " | ".join(cells) + (" |" if is_right else " | <--"), flush=True)
    sizes = [len(it) for it in texts]
    return dict(kind=kind, said=said, accepted=is_accepted, entries=entries, bytes=sizes, prove=seconds, check=checks, count=count)


def print_ratios(what, pairs):
    ratios = sorted(after / before for before, after in pairs)
    before, after = (sum(it) for it in zip(*pairs))
    print(f"{what}, {len(pairs)} kernels: half of the ratios within {statistics.median(ratios):.3f}, from {ratios[0]:.3f} to {ratios[-1]:.3f}")
    print(f"    all {before:.3f} and {after:.3f} s, {after / before:.3f}")


def print_sums(rows):
    safe, unsafe = ([it for it in rows if (it["kind"] == "safe") == is_safe] for is_safe in (True, False))
    for at, which in enumerate(("before", "after")):
        accepted, wrong = (sum(it["accepted"][at] for it in some) for some in (safe, unsafe))
        print(f"{which}: {accepted} of {len(safe)} safe kernels accepted, {wrong} of {len(unsafe)} unsafe ones")
    both = [it for it in rows if all(it["accepted"])]
    for what in ("entries", "bytes"):
        before, after = (sum(it[what][at] for it in both) for at in (0, 1))
        fewer, more = sum(it[what][1] < it[what][0] for it in both), sum(it[what][1] > it[what][0] for it in both)
        print(f"{what} of the {len(both)} that both accept: {before} and {after}, fewer in {fewer}, more in {more}")
    counts = [it["count"] for it in rows if it["count"]]
    if counts:
        every, settled, without = (sum(it) for it in zip(*counts))
        print(f"obligations of {len(counts)} accepted kernels: {every}; settled {settled}, without known bits {without}")
    in_time = [it for it in rows if ["late"] not in it["said"]]
    print_ratios("prove", [it["prove"] for it in in_time])
    if both:
        print_ratios("prove, of those accepted", [it["prove"] for it in both])
        print_ratios("check", [it["check"] for it in both])
    print(f"{len(rows) - len(in_time)} kernels had no answer in {PATIENCE} processor seconds by one of the programs")


def option(words, name, default):
    """The word behind an option, which is taken out of the words."""
    if name not in words:
        return default
    at = words.index(name)
    value = words[at + 1]
    del words[at:at + 2]
    return value


def main():
    words = sys.argv[1:]
    times, folder = int(option(words, "--budgets", "1")), option(words, "--oracle", None)
    if len(words) < 3:
        sys.exit(__doc__)
    programs, place, only = words[:2], words[2], words[3:]
    counted = Counted(folder) if folder else None
    names = sorted(it[:-3] for it in os.listdir(place) if it.endswith(".cl") and (not only or it[:-3] in only))
    heads = ["Kernel", "What it is", "Before", "After", "Entries", "after", "Bytes", "after", "`prove`, ms", "after", "`check`, ms", "after"]
    heads += ["Obligations", "settled", "without known bits"]
    print("| " + " | ".join(heads) + " |\n" + "|---" * len(heads) + "|")
    with tempfile.TemporaryDirectory() as work:
        rows = [row(work, programs, place, name, times, counted) for name in names]
    print_sums(rows)


if __name__ == "__main__":
    main()
