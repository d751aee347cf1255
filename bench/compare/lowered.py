#!/usr/bin/env python3
"""Compares what is made of OpenCL C as people write it with what clang's typed tree of the same text says, without a compiler's code and a
device: the tree is interpreted for one launch, in a random order of items and groups, and all buffers are compared, word by word.

    lowered.py COUNT SEED [--new] [--seconds N] [--first N] [--folder FOLDER]
        COUNT random kernels, as front.py makes them; what differs is kept in FOLDER (lowered_differs)
    lowered.py files [--seconds N] [--launches N] [--folder FOLDER] [PLACE ..]
        the kernels of these folders and files of cases, or of the repository, that have conditions. Where there is no launch, N are made
        that meet the conditions (3)

Types, conversions and overloads are those of clang's tree; what operators and functions do is written here by the standard. An accepted
kernel never has a signed overflow, a division by zero, an access outside of an array, a race and so on: these are printed in capitals and
kept. What the interpreter does not know is counted as "not interpreted", with its name. `size_t` has 64 bits here. Of a `float` only the
bits are known. Wants clang 14 or later. Build the program first: ./kverify build
"""
import collections
import glob
import os
import random
import re
import signal
import sys
import tempfile
import time

sys.path.insert(0, os.path.dirname(os.path.dirname(os.path.abspath(__file__))))
from clang_tree import Launch, NotMade, Program  # noqa: E402
from clang_words import FAULTS, Fault, NotInterpreted  # noqa: E402
from common import ROOT, number_behind, print_counts, put, put_all  # noqa: E402
from front import Front, compare_random, difference_text, text_behind  # noqa: E402
from lowered_texts import Conditions, cases_of, kinds_of, made_launch, read_launch  # noqa: E402

PLACES = ["examples", "bench/kernels", "crates/cases/data"]
# The fill word of random kernels, with which the program was not run.
FILL = 123_456_789


class Interpreted:
    """A kernel's text under conditions, as clang reads it."""

    def __init__(self, text, conditions):
        self.conditions = Conditions(conditions)
        with tempfile.TemporaryDirectory() as folder:
            self.program = Program(text, self.conditions.defines, folder)
        self.kernel = self.program.kernel(self.conditions.kernel)
        self.size = self.conditions.size or self.program.size(self.kernel)

    def run(self, launch, dice):
        """The buffers behind a launch."""
        groups, arguments, words, fill = read_launch(launch)
        made = Launch(self.program, self.kernel, groups, self.size, arguments, words, self.conditions.locals, fill, dice)
        made.run()
        return made.results()

    def within(self, buffers):
        """Buffers of the program, whose launches may have more in an element than its type holds; a device's have not."""
        kinds = kinds_of(self)
        return {name: [it % 2**kinds[name].bits if kinds[name].bits < 32 else it for it in words] for name, words in buffers.items()}


def told_of(run):
    """What comes of a call, or why nothing does."""
    try:
        return {"buffers": run()}
    except NotMade as error:
        return {"error": str(error)}
    except NotInterpreted as error:
        return {"told": f"not interpreted: {error}", "error": str(error)}
    except Fault as fault:
        return {"told": fault.kind, "error": f"{fault.kind}: {fault.what}"}


class Tree:
    """The interpreter in the place of a device."""

    name, faults = "clang's tree", FAULTS

    def run(self, kernel, text):
        dice = random.Random(f"{kernel.name}:order")

        def each():
            made = Interpreted(text, kernel.conditions)
            return [made.run(kernel.launch(words, FILL), dice) for words in kernel.words]

        return told_of(each)

    def close(self):
        """Nothing is open."""


# ---- kernels of files

def kernels_at(place):
    """Name, kernel, conditions and launch, or none, of what a folder or a file of cases has."""
    if os.path.isfile(place):
        yield from cases_of(place)
        return
    for path in sorted(glob.glob(os.path.join(place, "*.cl"))):
        front = path[:-3]
        texts = [read(it) for end in ("conditions", "cond") for it in [f"{front}.{end}"] if os.path.exists(it)]
        if texts:
            launch = f"{front}.launch"
            name = os.path.join(os.path.basename(os.path.abspath(place)), os.path.basename(path))
            yield name, read(path), texts[0], read(launch) if os.path.exists(launch) else None
    for path in sorted(glob.glob(os.path.join(place, "*.txt"))):
        yield from cases_of(path)


def read(path):
    with open(path, encoding="latin-1", newline="") as file:
        return file.read()


class Files:
    """The kernels of files, by the program and by the tree."""

    def __init__(self, front, folder, count):
        self.front, self.folder, self.count, self.found = front, folder, count, collections.Counter()

    def compared(self, text, conditions, launch, dice):
        """What is told of a kernel with one launch, or with each of some that are made; both results or a fault's text; and the launch."""
        names = put_all(self.front.place, {"kernel.cl": text.encode("latin-1"), "conditions": conditions.encode("latin-1")})
        names.append(os.path.join(self.front.place, "certificate"))
        if os.path.exists(names[2]):
            os.remove(names[2])
        status, answer = self.front.said("prove", *names[:2], "--out", names[2], seconds=self.front.seconds)
        if status != 0:
            return [("no answer in time" if status is None else " ".join(answer.split()[:2]) or f"status {status}", None, None)]
        made = {}
        error = told_of(lambda: made.update(it=Interpreted(text, conditions)))
        if "error" in error:
            return [(error.get("told", "not made by clang"), error["error"], None)]
        launches = [launch] if launch is not None else [made_launch(made["it"], dice) for _ in range(self.count)]
        return [self.of_launch(names, made["it"], it, dice) if it else ("no launch made", None, None) for it in launches]

    def of_launch(self, names, made, launch, dice):
        path = os.path.join(self.front.place, "launch")
        put(path, launch)
        status, answer = self.front.said("run", *names, path)
        if status != 0:
            return "not run: " + (" ".join(answer.split()[:2]) or f"status {status}"), None, launch
        rows = [line.split() for line in answer.splitlines()]
        wanted = made.within({row[1]: [int(it) for it in row[3:]] for row in rows if row[:1] == ["buffer"]})
        told = told_of(lambda: made.run(launch, dice))
        if "error" in told:
            return told.get("told"), told["error"], launch
        return ("the same", None, launch) if told["buffers"] == wanted else ("DIFFERENT", ([wanted], [told["buffers"]]), launch)

    def all(self, places):
        seen = set()
        for place in places:
            for name, text, conditions, launch in kernels_at(place):
                if (text, conditions, launch) in seen:
                    continue
                seen.add((text, conditions, launch))
                for told, results, launch in self.compared(text, conditions, launch, random.Random(name)):
                    self.found[told] += 1
                    if told == "DIFFERENT" or told in FAULTS:
                        print(f"{name}: {told} {self.keep(name, text, conditions, launch, results)}", flush=True)
                    elif told.startswith("not"):
                        print(f"{name}: {told} {(results or '').strip()[-200:]}", flush=True)

    def keep(self, name, text, conditions, launch, results):
        place = os.path.join(self.folder, re.sub(r"\W", "_", name))
        os.makedirs(place, exist_ok=True)
        texts = {"kernel.cl": text, "conditions": conditions, "launch": launch, "kernel.txt": difference_text(results, Tree.name)}
        for each, held in texts.items():
            put(os.path.join(place, each), held.encode("latin-1"))
        return place


def compare_files(words):
    seconds, words = number_behind(words, "--seconds", 10)
    count, words = number_behind(words, "--launches", 3)
    folder, words = text_behind(words, "--folder", "lowered_differs")
    started = time.monotonic()
    # whoever ends it is told what was found till then
    signal.signal(signal.SIGTERM, lambda *_: sys.exit(1))
    with tempfile.TemporaryDirectory() as place:
        files = Files(Front(place, seconds, Tree()), folder, count)
        try:
            files.all(words or [os.path.join(ROOT, it) for it in PLACES])
        finally:
            print(f"{sum(files.found.values())} launches of kernels of files, {time.monotonic() - started:.0f} s")
            print_counts(dict(sorted(files.found.items())))
    return 1 if files.found["DIFFERENT"] or any(files.found[it] for it in FAULTS) else 0


def main():
    words = sys.argv[1:]
    if words[:1] == ["files"]:
        return compare_files(words[1:])
    return compare_random(Tree(), words, "lowered_differs", __doc__)


if __name__ == "__main__":
    sys.exit(main())
