#!/usr/bin/env python3
"""Runs the gate, `rt ci`, and prints as a Markdown table what each crate cost it: processor seconds of its proof, its tests and its edits.

usage: tools/gate_times.py > TABLE, at the top of the repository. The gate's own words go to standard error; its status is passed on.

Each process of the prover is started through this very script, which notes what it took. The proof of a program has in it both of its
builds; running the tests and the programs, and linking, are in the last row alone.

A fixed loop of Python is run before and after. The last column has each crate's seconds divided by the mean of the two, so that machines
can be compared, and hours of one machine.
"""
import collections
import contextlib
import os
import resource
import sys
import tempfile
import time

from rt_parts import PARTS_OF_TRIALS, parts_of_rt

NOTES, PROVER = "GATE_TIMES_NOTES", "GATE_TIMES_PROVER"
KINDS = ("proof", "tests", "edits")
# The fixed loop, as a script has it at its top: in a function it takes less than half as long.
LOOP = """x = 0
for i in range(20_000_000):
    x += i & 7
"""


def run_prover(words):
    """Runs the prover in this script's place, notes its crate, its kind and its processor seconds, and ends as it ended."""
    child = os.fork()
    if child == 0:
        os.execv(os.environ[PROVER], [os.environ[PROVER], *words])
    _, status, used = os.wait4(child, 0)
    if "--crate-name" in words:
        crate = words[words.index("--crate-name") + 1]
        is_edit = os.path.basename(os.getcwd()).startswith("rt-edit-")
        kind = "edits" if is_edit else "tests" if "--test" in words else "proof"
        with open(os.environ[NOTES], "ab", buffering=0) as notes:
            notes.write(f"{crate} {kind} {used.ru_utime + used.ru_stime:.2f}\n".encode())
    if os.WIFSIGNALED(status):
        os.kill(os.getpid(), os.WTERMSIG(status))
    sys.exit(os.WEXITSTATUS(status))


def seconds_of_loop():
    begun = time.process_time()
    exec(compile(LOOP, "the fixed loop", "exec"), {})
    return time.process_time() - begun


def table(notes, edits, loop):
    """The rows of the table, the dearest crate first, and their sum; `loop` is what the fixed loop took."""
    spent = collections.defaultdict(lambda: dict.fromkeys(KINDS, 0.0))
    for line in notes:
        crate, kind, seconds = line.split()
        spent[crate][kind] += float(seconds)
    rows = sorted(spent.items(), key=lambda it: -sum(it[1].values()))
    rows.append(("**all crates**", {kind: sum(it[kind] for it in spent.values()) for kind in KINDS}))
    edits["**all crates**"] = sum(edits.values())
    yield "| Crate | Proof | Tests | Edits | Number of edits | Together | In loops |"
    yield "|---|---|---|---|---|---|---|"
    for crate, cost in rows:
        seconds = [f"{cost[it]:.0f}" if cost[it] else "" for it in KINDS]
        together = sum(cost.values())
        yield f"| {crate} | {' | '.join(seconds)} | {edits[crate] or ''} | {together:.0f} | {together / loop:.1f} |"


def seconds_used():
    """The processor seconds of this process and of all that it started and that ended."""
    used = [resource.getrusage(it) for it in (resource.RUSAGE_SELF, resource.RUSAGE_CHILDREN)]
    return sum(it.ru_utime + it.ru_stime for it in used)


def main():
    rt, edits, before, started = parts_of_rt(PARTS_OF_TRIALS), collections.Counter(), seconds_of_loop(), time.monotonic()
    for crate in os.listdir("crates"):
        folder = f"crates/{crate}/must-fail"
        edits[crate] = sum(it.endswith(".edit") for it in os.listdir(folder)) if os.path.isdir(folder) else 0
    with tempfile.TemporaryDirectory() as room:
        notes = f"{room}/notes"
        os.environ.update({NOTES: notes, PROVER: rt.rtlib.RATTLE})
        rt.rtlib.RATTLE = os.path.abspath(__file__)
        open(notes, "wb").close()
        with contextlib.redirect_stdout(sys.stderr):
            status = rt.main(["ci"])
        wall, whole, after = time.monotonic() - started, seconds_used() - before, seconds_of_loop()
        loop = (before + after) / 2
        with open(notes, encoding="utf-8") as lines:
            print(*table(lines, edits, loop), sep="\n")
    print(f"| **the whole run** | | | | | {whole:.0f} | {whole / loop:.1f} |\n")
    print(f"Processor seconds. The run took {wall / 60:.1f} minutes and ended with status {status}.")
    print(f"The fixed loop took {before:.2f} s before and {after:.2f} s after it.")
    return status


if __name__ == "__main__":
    sys.exit(run_prover(sys.argv[1:]) if PROVER in os.environ else main())
