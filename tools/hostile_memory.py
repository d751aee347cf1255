"""The part `memory` of hostile.py: each allocation of a command refused in turn, and limits of the address space."""
import os
import re
import resource
import signal
import subprocess

from hostile_common import judge, parts, read, remove
from hostile_sheets import MARK, Sheet, answers_of, common

OUT_OF_MEMORY = (4, b"out of memory\n")


class Refusals:
    """A command, with each of its allocations refused in turn."""

    # What it is to have been in the end, at least once.
    due = ()

    def __init__(self, trial, words, ends):
        self.trial, self.words, self.ends = trial, words, ends
        self.watched, self.step = {"LD_PRELOAD": trial.library, "HOSTILE_MARK": str(MARK)}, 1
        self.files = {name: trial.files[name] for name in words.split() if name in trial.files}
        first = answers_of(trial.folder, self.files, [words.replace("NEW", "whole")])[0]
        self.whole, self.writes = first, "NEW" in words

    def sheet(self, tries):
        sheet = Sheet({**self.files, **{f"{name}_kept": text for name, text in self.files.items()}})
        if self.writes:
            sheet.ask(self.words.replace("NEW", "whole"), self.whole)
            sheet.ask(self.words.replace("NEW", "made"), self.whole)
        for _ in range(tries):
            sheet.mark()
            sheet.ask(self.words.replace("NEW", "made"), self.whole)
            self.compare(sheet)
        sheet.mark()
        return sheet

    def compare(self, sheet):
        """Asks that the texts are as they were, and that what is written is what is written with all memory."""
        for name in self.files:
            sheet.ask(f"same {name} {name}_kept", (0, b""))
        if self.writes:
            sheet.ask("same made whole", (0, b""))

    def refused(self, first, tries):
        """The answers of so many tries, the first of which refuses this call; None where the tests' own allocation was refused."""
        sheet = self.sheet(tries)
        found = sheet.answers(self.trial.folder, **self.watched, HOSTILE_FIRST=str(first), HOSTILE_STEP=str(self.step))
        if found is None:
            if sheet.status not in (3, 1):
                where = f"{self.words}: allocation {first} or one of {tries - 1} more"
                self.trial.table.fault(f"{where}: status {sheet.status}, {sheet.told[:200]!r}")
            return None
        # (a try is the mark, the command, and what compares; the first mark of a sheet and what is written before come first)
        size, own = 2 + len(self.files) + self.writes, 2 * self.writes
        answers = []
        for number in range(tries):
            begin = own + number * size
            mine = {at - begin: it for at, it in found.items() if begin <= at < begin + size}
            answers.append(mine)
        return answers

    def calls(self):
        """The numbers of calls behind a mark of twenty times, in order, and how many of these come behind the command."""
        sheet = self.sheet(20)
        for _ in range(2):
            self.compare(sheet)
            sheet.mark()
        assert sheet.answers(self.trial.folder, **self.watched, HOSTILE_TELL="1") == {}
        told = [int(it) for it in sheet.told.split()]
        return sorted(told[-22:-2]), told[-1]

    def note(self, number, mine):
        if not mine:
            self.ends["as with all memory"] += 1
        elif mine == {1: OUT_OF_MEMORY}:
            self.ends["out of memory"] += 1
        elif mine == {1: (3, b"")}:
            # (the tests keep what is printed in memory; where that is refused, the output fails)
            self.ends["the tests' own output failed"] += 1
        else:
            self.ends["other"] += 1
            self.trial.table.fault(f"{self.words}: allocation {number}: {mine}")

    def sweep(self, first, last, most=1000):
        """Tries these calls, in as few processes as may be, and returns whether each was tried."""
        number = first
        all_tried = True
        while number <= last:
            tries = min(most, (last - number) // self.step + 1)
            answers = self.refused(number, tries)
            if answers is None and tries > 1:
                all_tried = self.sweep(number, number + (tries - 1) * self.step, max(1, tries // 8)) and all_tried
            elif answers is None:
                all_tried = False
            else:
                for at, it in enumerate(answers):
                    self.note(number + at * self.step, it)
            number += tries * self.step
        return all_tried

    def run(self):
        """Tries all calls that are the program's own, the tests' own left out, which read its words."""
        low, high = 0, 64
        while high - low > 1:
            middle = (low + high) // 2
            low, high = (middle, high) if self.refused(middle, 1) is None else (low, middle)
        calls, behind = self.calls()
        most, count = self.trial.asked.most, calls[0] - behind - high + 1
        if 0 < most < count:
            self.step = -(-count // most)
            self.ends.more = f", one of {self.step} of {count:,}"
        if not self.sweep(high, calls[0] - behind):
            self.trial.table.fault(f"{self.words}: some of {calls[0] - behind} allocations were not tried")
        # (with several workers some runs have more than others, and these come as far only sometimes)
        self.sweep(calls[0] - behind + 1, calls[-1] - behind, 1)
        for it in self.due:
            if not self.ends[it]:
                self.trial.table.fault(f"{self.words}: never {it}")


class Watched(Refusals):
    """A run by one worker that tells how many groups it has claimed, how many of these it has run, and what the launch then holds."""

    due = "a group claimed and not run, and the bytes as with all memory",

    def note(self, number, mine):
        status, out = mine.get(1, (None, b""))
        told = re.fullmatch(rb"(\d+) claimed, (\d+) run\n(.*)", out, re.DOTALL)
        if set(mine) != {1} or status != 0 or not told:
            # (a part of the program has no status of its own)
            return super().note(number, {1: OUT_OF_MEMORY} if mine == {1: (0, b"refused 90\n")} else mine)
        has_lost, rest = int(told[1]) > int(told[2]), told[3]
        _, left, lent = self.whole[1].split(b"\n", 2)
        if rest == left + b"\n" + lent:
            self.ends[self.due[0] if has_lost else "as with all memory"] += 1
        else:
            super().note(number, {1: OUT_OF_MEMORY} if rest == b"refused 90\n" + lent and not has_lost else mine)


MEMORY = {
    "prove, a tree reduction": "prove tree tree.c --out NEW",
    "prove, a loop by the number of items": "prove loop loop.c --out NEW",
    "prove, a loop by the number of items, 3 workers": "prove loop loop.c --workers 3 --out NEW",
    "prove, a data race behind the other fence": "prove fence fence.c",
    "check, a fill, version 1": "check fill fill.c fill.1",
    "check, a fill, version 2": "check fill fill.c fill.2",
    "check, a fill with a smaller weight": "check fill fill.c fill.less",
    "print, a tree reduction": "print tree",
    "migrate, a tree reduction's certificate": "migrate tree.1 NEW",
    "run, a loop by the number of items, 1 worker": "run loop loop.c loop.p loop.l",
    "run, a loop by the number of items, 3 workers": "run loop loop.m loop.p loop.l --workers 3",
    "run, elements that move, 1 worker": "run turned turned.c turned.p turned.l",
    "run, elements that move, 3 workers": "run turned turned.m turned.p turned.l --workers 3",
}


def memory(trial):
    """All of this part."""
    for what, words in MEMORY.items():
        with trial.table.row(f"an allocation refused: {what}") as ends:
            Refusals(trial, words, ends).run()
    watched = "an allocation refused: run, 1 worker that is watched, a loop by the number of items"
    for what, launch in (("65,536", "loop.l"), ("3,000", "few.l")):
        with trial.table.row(f"{watched}, {what} elements") as ends:
            Watched(trial, f"watched loop loop.m loop.p {launch}", ends).run()
    trial.put(trial.files)
    with trial.table.row("an allocation refused in the program itself: check, a fill") as ends:
        for number in [*range(1, 12), *range(12, 300, 41)]:
            found = trial.program("check fill fill.c fill.1", LD_PRELOAD=trial.library, HOSTILE_FIRST=str(number))
            judge(trial, ends, f"check fill, allocation {number}", found, (0, b"accepted\n", b""), (4, b"", b"out of memory\n"))
    for words in LIMITED:
        with trial.table.row(f"a limit of the address space, from 1 to 1,024 MiB: {words}") as ends:
            limited(trial, ends, words)


# Commands that are tried under limits of the address space.
LIMITED = (
    "prove tree tree.c --out made", "prove fence fence.c --workers 3", "check fill fill.c fill.1", "explain fence fence.c", "print tree",
    "migrate tree.1 made", "run loop loop.m loop.p loop.l", "run loop loop.m loop.p loop.l --workers 64",
)


def limited(trial, ends, words):
    """A command under limits of the address space: it answers as without one, or is out of memory and writes no file, nor a part of one."""
    remove(trial, "made")
    whole = trial.program(words), parts(trial) and read(trial, "made")
    # (below this the system does not begin the program)
    least = 8 + (os.path.getsize(common.KVERIFY) >> 20)
    for limit in [*range(1, 33), *range(36, 64, 4), *range(64, 1025, 96)]:
        remove(trial, "made")
        try:
            found = trial.program(words, before=lambda: resource.setrlimit(resource.RLIMIT_AS, (limit << 20, limit << 20)))
        except (OSError, subprocess.SubprocessError):
            found = None
        is_ended = found and found[0] in (-signal.SIGKILL, -signal.SIGSEGV) and found[1:] == (b"", b"") and limit < least
        if found is None or is_ended or found[0] == 127 and b": error while loading shared libraries: " in found[2]:
            ends["not begun by the system"] += 1
        else:
            made = parts(trial) and read(trial, "made")
            judge(trial, ends, f"{words}, {limit} MiB", (found, made), whole, ((4, b"", b"out of memory\n"), []))
