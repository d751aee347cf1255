#!/usr/bin/env python3
"""Runs small kernels that `prove --wide` accepts, by an independent program, and compares with its search.

    wide.py run FOLDER COUNT SEED KERNELS ..        changed kernels of these folders; what is accepted is run
    wide.py values FOLDER COUNT SEED KERNELS ..     the same, with lines of what buffers hold, their own and others that are made up
    wide.py search FOLDER COUNT SEED KERNELS ..     the same kernels; `prove --wide` and the other program's search answer

FOLDER has the modules of the independent program, KERNELS files NAME.cl with NAME.cond or NAME.conditions. A kernel gets small groups, few
of them, and small arguments; most get changed words too. What is accepted is checked, and run at random launches that meet its conditions:
single items whose loads are answered at random, pairs of them, and random schedules. What the certificate says of places and loops has to
be so wherever an item comes. Then the certificate is changed at random, and where `check --wide` takes it, it is judged alike. A try is
told by its seed; `only=SEED` in the place of COUNT tries one alone. The status is 1 if anything is broken. Build the program first.
"""
import collections
import glob
import os
import random
import re
import select
import subprocess
import sys
import tempfile
import time
import traceback

sys.path.insert(0, os.path.dirname(os.path.dirname(os.path.abspath(__file__))))
from common import KVERIFY
import held

# Seconds for each call of the program; three times as many for a try.
LIMIT = 240
# After so many tries the counts are printed; so often each certificate is changed.
CHUNK = 100
FORGED = 4
GROUPS = ("1..1", "1..2", "2..2", "1..3")
LENGTHS = (4, 8, 12, 16, 24, 36, 64, 100, 150, 216)
ENDS = (0, 1, 2, 3, 4, 7, 15, 63, 255)
# Of the other program's search: what of the wide walk it knows.
SWITCHES = ("MODF", "DOUBLE", "SINGLE", "DEAD", "DIVU", "DIVC", "MASKI", "BITS", "XORC", "REM", "SHARE", "NARROW")


def modules(folder):
    """The modules of the independent program, with all that it may know of the wide walk."""
    sys.path.insert(0, folder)
    import config
    import cert
    import check
    import fuzz
    import launch
    import prove
    import tool

    config.X_POLY = 3
    config.X_VALUES = config.X_CELLS = True
    held.teach(fuzz, launch)
    for name in SWITCHES:
        setattr(config, f"X_{name}", True)
    return config, cert, check, fuzz, prove, tool


def reader_of(cert):
    """Reads certificates of version 4 as the other program reads those of version 2."""

    class Reader(cert.Reader):
        def lines(self):
            told = cert.Lines()
            while self.word() == "same":
                told.sames.append(self.row()[5:])
                self.i += 1
            while self.word() == "fact":
                told.facts.append(self.form(self.row()[5:]))
                self.i += 1
            while self.word() in ("mod", "multiple"):
                words = self.row().split(" ")
                if words[0] == "mod":
                    told.mods.append((self.num(words[1], 2), self.form(words[2])))
                else:
                    form = self.form(words[1])
                    told.mods.append((self.form(words[3]), form))
                self.i += 1
            return told

    def read(text):
        first, rest = text.split("\n", 1)
        if first == "certificate 4":
            first = "certificate 2"
            rest = rest.removeprefix("join\n")
        return Reader((first + "\n" + rest).encode(), (1, 2)).read()

    return read


def bases_of(folders, has_lines):
    """Of each kernel its name, its text and its conditions; those with lines of what buffers hold only where that is asked for."""
    bases = []
    for folder in folders:
        for file in sorted(glob.glob(f"{folder}/*.cl")):
            name = file[:-3]
            told = f"{name}.cond" if os.path.exists(f"{name}.cond") else f"{name}.conditions"
            with open(file, encoding="ascii") as kernel, open(told, encoding="ascii") as conditions:
                bases.append((os.path.basename(name), kernel.read(), conditions.read()))
    return [it for it in bases if has_lines or not re.search("(?m)^values ", it[2])]


def sizes_of(rng, kernel):
    """Small sizes of a group in as many dimensions as those of the kernel."""
    told = re.search(r"reqd_work_group_size\((\d+), (\d+), (\d+)\)", kernel)
    large = [int(it) for it in told.groups()]
    many = sum(it > 1 for it in large)
    small = {1: (2, 3, 4), 2: (2, 3), 3: (2,)}.get(many, (1,))
    return large, [rng.choice(small) if it > 1 else 1 for it in large]


def line_of(rng, line):
    """A line of the conditions, with small numbers in the place of its own; empty where it goes."""
    words = line.split(" ")
    if words[0] == "groups":
        return " ".join(["groups", *(it if it == "1..1" else rng.choice(GROUPS) for it in words[1:])])
    if words[0] == "arg":
        low = rng.choice((0, 0, 1, 1, 1, 2, 3))
        return f"arg {words[1]} {low}..{low + rng.choice((0, 1, 2, 3, 5))}"
    if words[0] == "length" and words[3].isdigit() and rng.random() < 0.8:
        return f"length {words[1]} >= {rng.choice(LENGTHS)}"
    if words[0] == "require" and rng.random() < 0.25:
        return ""
    if words[0] == "values" and rng.random() < 0.5:
        return re.sub(r"= \d+$", f"= {rng.choice(ENDS)}", line)
    return "budget 1000000" if words[0] == "budget" else line


def made_up(rng, lines):
    """The lines of conditions with some more, of what buffers hold, in front of the last one."""
    names = [line.split(" ")[1] for line in lines if line.startswith("length ")]
    ends = [("<=", it) for it in names if rng.random() < 0.4] + [(">=", it) for it in names if rng.random() < 0.15]
    return [*lines[:-1], *(f"values {it} {sign} {rng.choice(ENDS) if sign == '<=' else 0}" for sign, it in ends), lines[-1]]


def variant(rng, base, mutate, has_lines):
    """A small kernel with its conditions: of each one the text of the program, and of the conditions that of the other program too."""
    name, kernel, conditions = base
    large, small = sizes_of(rng, kernel)
    kernel = re.sub(r"reqd_work_group_size\([^)]*\)", "reqd_work_group_size(%d, %d, %d)" % tuple(small), kernel)
    if large[0] > 1:
        kernel = re.sub(rf"\b{large[0]}u\b", f"{small[0]}u", kernel)
        conditions = re.sub(rf"\b{large[0]}\*", f"{small[0]}*", conditions)
    if rng.random() < 0.6:
        kernel = mutate(rng, kernel)
    lines = [line_of(rng, line) for line in conditions.splitlines()[1:]]
    lines = [it for it in lines if it]
    if has_lines:
        lines = made_up(rng, lines)
    text = "".join(f"{it}\n" for it in lines)
    version = 2 if has_lines or re.search(r"[a-z_]\w*(\.\d)?\*[a-z_]", text) else 1
    return kernel, f"conditions {version}\n{text}", f"conditions 1\n{text}"


def answer(*words):
    """The first line of what the program prints, and `late` where that takes too long."""
    try:
        done = subprocess.run([KVERIFY, *words], capture_output=True, text=True, timeout=LIMIT)
        return ((done.stdout + done.stderr).splitlines() or [f"status {done.returncode}"])[0]
    except subprocess.TimeoutExpired:
        return "late"


class Tries:
    def __init__(self, words):
        self.kind, self.folder, count, self.seed, *folders = words
        self.config, self.cert, self.check, self.fuzz, self.prove, self.tool = modules(self.folder)
        self.has_lines = self.kind == "values"
        self.read, self.bases = reader_of(self.cert), bases_of(folders, self.has_lines)
        self.only = count[5:] if count.startswith("only=") else None
        self.count = 0 if self.only else int(count)
        self.counts, self.names = collections.Counter(), collections.Counter()

    def seeds(self):
        return [self.only] if self.only else [f"{self.seed}:{it}" for it in range(self.count)]

    def files(self, folder, kernel, conditions):
        files = [f"{folder}/kernel.cl", f"{folder}/conditions.txt"]
        for file, text in zip(files, (kernel, conditions)):
            with open(file, "w", encoding="ascii") as out:
                out.write(text)
        return files

    def judged(self, rng, front, text, much):
        """What is wrong with an accepted certificate, or nothing."""
        typed, conditions, places = front
        launches, runs, pairs = (6, 2, 30) if much else (2, 1, 15)
        broken = self.fuzz.exercise(rng, typed, conditions, self.read(text), places, launches, runs, pairs)
        return f"{broken[0]} at {broken[1].__dict__ if broken[1] else None}" if broken else ""

    def forged(self, rng, files, folder, front, text):
        """The same of changed certificates that are accepted."""
        for _ in range(FORGED):
            forged = self.fuzz.forge_text(rng, text.encode()).decode()
            with open(f"{folder}/forged.txt", "w", encoding="ascii") as out:
                out.write(forged)
            if forged == text or answer("check", *files, f"{folder}/forged.txt", "--wide") != "accepted":
                continue
            broken = self.judged(rng, front, forged, False)
            if broken:
                return f"forged: {broken}\n{forged}"
        return ""

    def run_of(self, rng, folder, files, front):
        """How a kernel is answered, and what is wrong with that."""
        out = f"{folder}/certificate.txt"
        told = answer("prove", *files, "--workers", "1", "--wide", "--out", out)
        if told != "accepted":
            is_answer = told.startswith("refused ") or told == "late"
            return (told[:10], "") if is_answer else ("broken", told)
        checked = answer("check", *files, out, "--wide")
        if checked != "accepted":
            return "broken", f"check says {checked}"
        with open(out, encoding="ascii") as it:
            text = it.read()
        broken = self.judged(rng, front, text, True) or self.forged(rng, files, folder, front, text)
        if broken:
            return "broken", broken
        kinds = [it for it, sign in (("p", "p "), ("lemmas", "l "), ("multiple", "multiple ")) if f"\n{sign}" in text]
        version = "4" if text.startswith("certificate 4\n") else "1, 2"
        return " ".join([f"accepted, held, version {version}", *kinds]), ""

    def search_of(self, files, kernel, conditions):
        """Whom a kernel is accepted by."""
        mine = answer("prove", *files, "--workers", "1", "--wide") == "accepted"
        try:
            self.prove.verify(kernel.encode(), conditions.encode())
            theirs = True
        except self.config.Refused:
            theirs = False
        return ("none", "the other alone", "the program alone", "both")[2 * mine + theirs]

    def one(self, seed):
        """Tries a kernel, and prints what it came to; in a process of its own, since the other program may take long."""
        rng = random.Random(seed)
        base = rng.choice(self.bases)
        try:
            kernel, mine, theirs = variant(rng, base, self.fuzz.mutate, self.has_lines)
            front = self.check.front(kernel.encode(), theirs.encode())
        except self.config.Refused:
            return "no kernel", base[0], ""
        with tempfile.TemporaryDirectory() as folder:
            files = self.files(folder, kernel, mine)
            if self.kind != "search":
                what, broken = self.run_of(rng, folder, files, front)
            else:
                what, broken = self.search_of(files, kernel, theirs), ""
        if self.kind == "search" and what.endswith("alone"):
            broken = what
        return what, base[0], f"{broken}\n{kernel}{mine}" if broken else ""

    def child(self, seed, out):
        try:
            what, name, broken = self.tool.big(lambda: self.one(seed))
        except Exception:
            what, name, broken = "crash", "", traceback.format_exc()
        os.write(out, f"{what}\n{name}\n{broken}".encode())
        os._exit(0)

    def tried(self, seed):
        """What a try came to; `late` where it takes too long."""
        come, out = os.pipe()
        pid = os.fork()
        if not pid:
            os.close(come)
            self.child(seed, out)
        os.close(out)
        text, until = b"", time.monotonic() + 3 * LIMIT
        while select.select([come], [], [], max(0, until - time.monotonic()))[0]:
            more = os.read(come, 65536)
            if not more:
                break
            text += more
        else:
            os.kill(pid, 9)
        os.waitpid(pid, 0)
        os.close(come)
        return text.decode().split("\n", 2) if text else ["late", "", ""]

    def all(self):
        for seed in self.seeds():
            what, name, broken = self.tried(seed)
            self.counts[what] += 1
            self.names[name] += what.startswith("accepted") or what in ("both", "the program alone")
            if broken:
                print(f"{what}: {seed} {name}: {broken}", flush=True)
            if self.counts.total() % CHUNK == 0:
                print(dict(self.counts), flush=True)
        for what, many in sorted(self.counts.items()):
            print(f"{what}: {many}")
        print(", ".join(f"{name} {many}" for name, many in sorted(self.names.items()) if many))
        return not (self.counts["broken"] or self.counts["crash"])


if __name__ == "__main__":
    sys.exit(0 if Tries(sys.argv[1:]).all() else 1)
