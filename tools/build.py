#!/usr/bin/env python3
"""Proves and links a program of this repository: the libraries below it first, as many side by side as there are processors and memory.

usage: tools/build.py PROGRAM, at the top of the repository; `../kverify build` calls it.

Each crate is proved from nothing, by the parts of `rt` that `rt ci` is made of, without tests and edits. A library stays in the folder
out/rlib/proved of its crate, beside a sum of all that it was proved from, and what no change reaches is not proved again. So a run that was
broken off is taken up by the next one. What `rt ci` proved on this machine, and keeps beside the kit by sums of all that it read, is taken
from there. `rt run` in the program's folder makes the same program, one crate after another.

At the end a record names the program and what it was proved from (records.py), if nothing was changed meanwhile.
"""
import functools
import hashlib
import os
import re
import shutil
import signal
import sys
import tempfile
import threading
import time
import types

# (no file is to appear beside this one)
sys.dont_write_bytecode = True
import records
from rt_parts import parts_of_rt

rt = parts_of_rt()
# Lines of the prover that say what it read and what is proved.
PLAIN = re.compile(r"(fn|struct|enum|impl|trait|const) .*: proved\b|(logic|statements|library|crate|by-macro|so far:|axioms)")
PRINTING = threading.Lock()
# What a crate costs, for an estimate: so many lines' worth whatever it contains, and more where it is a program, which LLVM compiles whole.
LINES_A_CRATE, LINES_A_PROGRAM = 50, 1000
# The seconds that a line costs, as told by a run of the gate, and how many lines' worth of proofs weigh as much as that.
SECONDS_A_LINE, LINES_TOLD = 0.15, 2000


def say(text):
    print(f"kverify: {text}", file=sys.stderr, flush=True)


def end(text, status=1):
    say(text)
    os._exit(status)


def put(made, program):
    """Puts a program in place, whole."""
    os.chmod(made, 0o755)
    os.replace(made, program)


def minutes(seconds):
    return f"{max(1, round(seconds / 60))} min"


class Progress:
    """How far a run is, and how long it may take: by the lines that are left, at the speed of what was proved so far."""

    def __init__(self, crates):
        self.left = {it: LINES_A_CRATE + it.count(rb"\n") + LINES_A_PROGRAM * it.is_program for it in crates}
        self.of_all, self.begun, self.started = len(crates), {}, time.monotonic()
        self.lines, self.seconds = LINES_TOLD, LINES_TOLD * SECONDS_A_LINE

    def begin(self, crate):
        self.begun[crate] = time.monotonic()

    def finish(self, crate):
        """Returns the seconds that the crate took."""
        took = time.monotonic() - self.begun.pop(crate)
        self.lines += self.left.pop(crate)
        self.seconds += took
        return took

    def gone(self):
        return time.monotonic() - self.started

    def seconds_of(self, crate):
        """What the crate may still take."""
        whole = self.left[crate] * self.seconds / self.lines
        return max(whole - (time.monotonic() - self.begun.get(crate, time.monotonic())), whole / 10)

    def longest_chain(self):
        """The crates that have to be proved one after another and may take longest, and their seconds."""
        chains = {}
        # (a crate comes after those that it stands on)
        for crate in reversed(self.left):
            above = [chains[it] for it in chains if crate in it.deps]
            names, seconds = max(above, key=lambda it: it[1], default=([], 0))
            chains[crate] = [crate.name, *names], seconds + self.seconds_of(crate)
        return max(chains.values(), key=lambda it: it[1], default=([], 0))

    def seconds_left(self):
        whole = sum(self.seconds_of(it) for it in self.left)
        return max(self.longest_chain()[1], whole / rt.processors())

    def told(self):
        left = f", some {minutes(self.seconds_left())} left" if self.left else ""
        return f"[{self.of_all - len(self.left)}/{self.of_all}] {minutes(self.gone())} gone{left}"


class Crate(rt.Crate):
    """A crate, and where what was proved and built of it is kept."""

    def __init__(self, *given, **named):
        super().__init__(*given, **named)
        # (`rt ci`, which takes away what else is in out/, gives out/rlib back)
        self.kept = f"{self.folder}/out/rlib/proved"
        self.rlib = f"{self.kept}/out/rlib/{self.name}.rlib"
        self.made = f"{self.folder}/out/{self.name}" if self.is_program else self.rlib
        self.parts = [f"{self.folder}/{it}" for it in rt.rtlib.PARTS]

    def sum(self):
        """A sum of what the crate is proved from: the kit, its line of crates.txt, its files, and the sums of its libraries."""
        parts = [rt.rtlib.sum_of(f"{rt.KIT}/WHAT"), self.said, [it.first_sum for it in self.deps]]
        parts += sorted((os.path.relpath(name, self.folder), total) for name, total in records.sums_of(self.parts).items())
        return hashlib.sha256(repr(parts).encode()).hexdigest()

    first_sum = functools.cached_property(sum)

    def stamp(self):
        """What is kept is told by what it was made from and by itself; a library has sums of its files in its file `format`."""
        return f"{self.first_sum} {rt.rtlib.sum_of(self.made if self.is_program else f'{self.rlib}/format')}"

    def is_kept(self):
        return os.path.exists(self.made) and rt.rtlib.text_of(f"{self.kept}/sum") == self.stamp()

    def keep(self):
        """Keeps what was made, if the crate is what it was when this process began."""
        if self.sum() == self.first_sum:
            records.write_whole(f"{self.kept}/sum", self.stamp())

    def make_room(self):
        shutil.rmtree(self.kept, ignore_errors=True)
        os.makedirs(f"{self.kept}/out/rlib")

    def prove_and_build(self, jobs):
        """Returns 0 where all is well."""
        # (a program has few functions of its own, so that more jobs only cost)
        words = self.words(["--jobs", "1" if self.is_program else str(jobs)], keeps=False)
        made = f"out/{self.name}"
        if not self.is_program:
            return self.call(rt.rtlib.RATTLE, "build", *words, "--statements", "-o", self.rlib)
        words += ["--toolchain", f"{rt.KIT}/toolchain", "--backend", "llvm", "-o", f"{made}.o"]
        status = self.call(rt.rtlib.RATTLE, "build", *words) or self.link(f"{made}.o", f"{made}.new")
        if not status:
            put(f"{self.folder}/{made}.new", self.made)
        return status

    def work(self, progress, jobs):
        """Proves the crate and says so; where it is not proved, the whole run ends."""
        progress.begin(self)
        try:
            said = self.prove_anew(jobs)
        except OSError as error:
            end(f"{self.name} cannot be kept ({error}); what was proved before stays")
        with PRINTING:
            took = progress.finish(self)
            if said is not None:
                end("\n".join([f"{self.name} is not proved; what was proved before stays:", *said]))
            say(f"{progress.told()}: {self.name} is proved ({took:.0f} s)")

    def prove_anew(self, jobs):
        """Returns nothing where all is well, else what the prover says."""
        self.make_room()
        seen = records.look_at(self.parts)
        with tempfile.TemporaryFile("w+", errors="replace") as self.out:
            if self.prove_and_build(jobs):
                self.out.seek(0)
                return [it for it in self.out.read().splitlines() if not PLAIN.match(it)]
        # where a file was changed meanwhile, and be it changed back, the next call proves the crate again
        if records.look_at(self.parts) == seen:
            self.keep()
        return None


class Earlier:
    """What `rt ci` proved on this machine and keeps beside the kit, under sums of all that it read."""

    def __init__(self, crates):
        self.store = rt.Kept(crates) if hasattr(rt, "Kept") else None

    def seen_by_store(self, crate):
        """The crate for the functions of the store, which look for what was made in out/ of a crate's folder."""
        return types.SimpleNamespace(name=crate.name, folder=crate.kept, is_program=crate.is_program, is_static=crate.is_static)

    def note(self, crate):
        """Notes the library of a crate: what stands on it is kept under sums of what is below."""
        if self.store:
            self.store.is_built(self.seen_by_store(crate))

    def gives(self, crate):
        """Takes what was made of just this crate over just these libraries, and returns whether it could."""
        if not self.store:
            return False
        crate.make_room()
        if not self.store.give(self.seen_by_store(crate), False, self.store.key(crate)):
            return False
        if crate.is_program:
            put(f"{crate.kept}/out/{crate.name}", crate.made)
        crate.keep()
        return crate.is_kept()


def stale_of(crates):
    """Those that are to be proved: what changed, and what stands on it."""
    stale = []
    for it in crates:
        stale += [it] * (not it.is_kept() or any(below in stale for below in it.below()))
    return stale


def left_of(stale, crates):
    """Those that are still to be proved once what an earlier `rt ci` proved is taken."""
    earlier, left = Earlier(crates), []
    for it in crates:
        if it in stale and (any(below in left for below in it.below()) or not earlier.gives(it)):
            left.append(it)
        else:
            earlier.note(it)
    if len(left) < len(stale):
        say(f"of {len(stale)} crates that are to be proved {len(stale) - len(left)} were by an earlier rt ci on this machine")
    return left


def prove(stale, of_all):
    """Proves these crates, side by side."""
    progress, tasks = Progress(stale), {}
    chain = progress.longest_chain()[0]
    say(f"proving {len(stale)} of {of_all} crates on {rt.processors()} processors: some {minutes(progress.seconds_left())}, by an estimate")
    say(f"the longest chain has {len(chain)} crates, from {chain[0]} to {chain[-1]}; what is proved stays where this run is broken off")
    for it in stale:
        waits = [(below.name, "proof") for below in it.below() if below in stale]
        tasks[it.name, "proof"] = (waits, it.count(rb"\n"), rt.need(it), lambda _, jobs, it=it: it.work(progress, jobs))
    rt.in_lanes(tasks)
    say(f"all is proved ({minutes(progress.gone())})")


def places_of(crates):
    """The program, and what it is proved from."""
    parts = [part for it in crates for part in it.parts]
    return [os.path.relpath(it) for it in [crates[-1].made, "crates.txt", "HANDLES", *parts]]


def note(crates, sums):
    """Writes the record of the program, where all that it was proved from is as it was when this process began."""
    places, program = places_of(crates), crates[-1]
    is_well = all(it.sum() == it.first_sum and it.is_kept() for it in crates)
    if not (is_well and records.write(f"{program.kept}/record", places, {places[0]: records.sum_of(program.made), **sums})):
        end("a source was changed meanwhile, so the program is not told to be proved; the next run proves what has changed")


def main(program):
    root = os.getcwd()
    # what this process starts ends with it, however it ends
    rt.rtlib.guarded()
    signal.signal(signal.SIGINT, lambda *_: end("broken off; what was proved stays, and the next run goes on from there", 130))
    rt.rtlib.Crate, rt.Crate.allowed = Crate, rt.handles_of(root)
    crates = rt.rtlib.crates_below(f"{root}/crates/{program}")
    held = rt.rtlib.lock(crates)
    sums = records.sums_of(places_of(crates)[1:])
    stale = stale_of(crates)
    if stale:
        stale = left_of(stale, crates)
    if stale:
        prove(stale, len(crates))
    note(crates, sums)
    del held


if __name__ == "__main__":
    try:
        main(sys.argv[1])
    except AttributeError as error:
        sys.exit(f"kverify: tools/build.py does not fit this rt ({error}): rt run in crates/{sys.argv[1]} makes the program")
