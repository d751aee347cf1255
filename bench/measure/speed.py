#!/usr/bin/env python3
"""Measures runs of four kernels, those of speed/ and the tree reduction of the examples, beside other programs.

These are a compiler for processors (pocl) and a simulator (oclgrind), where they are installed.

    speed.py [KERNEL ..]    fill, reduction, matmul, transpose; all of them, or these

A run of kverify is timed with all groups and with one group over the same buffers; the difference is what is told, so that reading and
writing texts is left out. Each time is the least of some runs. The other two are timed from a launch to its end, without the first launch,
which compiles. All have to leave buffers with the same sums. It needs a C compiler, and the headers of OpenCL for the other two. Build
the program first: ./kverify build
"""
import os
import shutil
import subprocess
import sys
import tempfile
import time
from typing import NamedTuple

sys.path.insert(0, os.path.dirname(os.path.dirname(os.path.abspath(__file__))))
from common import KVERIFY, ROOT

PLACE = os.path.join(os.path.dirname(os.path.abspath(__file__)), "speed")
RUNS = 3
WARM_RUNS = 8


class Kernel(NamedTuple):
    """A kernel with its launch."""

    # number of groups and size of a group along each dimension
    groups: tuple
    size: tuple
    # as the host takes them: LENGTH:WORD for a buffer, =WORD for an argument
    arguments: tuple
    # the statements and tests that an item executes
    steps: float
    # the simulator gets one row of so many
    share: int = 1


KERNELS = {
    "fill": Kernel((4096, 1, 1), (256, 1, 1), ("1048576:0", "=7"), 1),
    # 4 up to the loop, 8 turns of 4, a turn's store by 255 items in all, its last test, the last `if` and its store
    "reduction": Kernel((4080, 1, 1), (256, 1, 1), ("1044480:3", "4080:0"), 4 + 8 * 4 + 2 + 1),
    # 4 up to the loop, 256 turns of 3, its last test, a store
    "matmul": Kernel((16, 16, 1), (16, 16, 1), ("65536:3", "65536:5", "65536:0"), 4 + 256 * 3 + 2, 16),
    "transpose": Kernel((64, 32, 1), (16, 16, 1), ("524288:3", "524288:0"), 5),
}


def kernel_file(folder, name):
    """The file of a kernel; the reduction is the example's, with 256 items in place of 64."""
    if name != "reduction":
        return f"{PLACE}/{name}.cl"
    with open(f"{ROOT}/examples/tree_reduction.cl", encoding="utf-8") as it:
        text = it.read().replace("64", "256").replace("32u", "128u").replace("tree_reduction", name)
    with open(f"{folder}/{name}.cl", "w", encoding="utf-8") as it:
        it.write(text)
    return it.name


def launch_text(name, kernel, groups):
    """The launch of a kernel with so many groups."""
    with open(f"{PLACE}/{name}.launch", encoding="utf-8") as it:
        lines = it.read().splitlines()
    lines[1] = "groups " + " ".join(map(str, groups))
    return "\n".join(lines) + "\n"


def timed(words):
    """What a command prints, and the least milliseconds of its runs."""
    least = float("inf")
    for _ in range(RUNS):
        started = time.monotonic()
        done = subprocess.run(words, capture_output=True, check=True)
        least = min(least, 1000 * (time.monotonic() - started))
    return done.stdout.decode(), least


def sums(text):
    """The sums of the words of buffers, as `run` prints them."""
    told = []
    for line in text.splitlines():
        words = line.split()
        if words[0] == "buffer":
            told.append(sum(map(int, words[3:])) if words[2] == "list" else int(words[3]) * int(words[4]))
    return told


def own(folder, name, kernel, workers):
    """The sums of the buffers after a run, and the milliseconds that its groups took."""
    words = [KVERIFY, "run", kernel_file(folder, name), f"{PLACE}/{name}.cond", f"{folder}/{name}.certificate"]
    files = []
    for groups in (kernel.groups, (1, 1, 1)):
        files.append(f"{folder}/{name}.{groups[0]}.launch")
        with open(files[-1], "w", encoding="utf-8") as it:
            it.write(launch_text(name, kernel, groups))
    text, whole = timed([*words, files[0], "--workers", str(workers)])
    _, base = timed([*words, files[1], "--workers", str(workers)])
    return sums(text), whole - base


def other(folder, name, kernel, before, runs, share=1):
    """The same by OpenCL: of all runs but the first, or of the only one. A share of the groups is told as a whole."""
    groups = (kernel.groups[0], kernel.groups[1] // share, kernel.groups[2])
    words = [*before, f"{folder}/host", str(runs), kernel_file(folder, name), name, *map(str, (*groups, *kernel.size)), *kernel.arguments]
    done = subprocess.run(words, capture_output=True, text=True, check=True)
    lines = done.stdout.split("\n")
    told = [int(it.split()[1]) for it in lines if it.startswith("sum ")]
    times = [float(it) for it in lines[:runs]]
    return told, share * min(times[1:] or times)


def has_host(folder):
    """Whether the host could be built."""
    words = ["cc", "-O2", "-o", f"{folder}/host", f"{PLACE}/host.c", "-lOpenCL"]
    return subprocess.run(words, capture_output=True).returncode == 0


def row(folder, name, with_host):
    """The line of a kernel."""
    kernel = KERNELS[name]
    subprocess.run(
        [KVERIFY, "prove", kernel_file(folder, name), f"{PLACE}/{name}.cond", "--out", f"{folder}/{name}.certificate"], check=True, capture_output=True
    )
    steps = kernel.steps
    for count in (*kernel.groups, *kernel.size):
        steps *= count
    told, one = own(folder, name, kernel, 1)
    again, four = own(folder, name, kernel, 4)
    cells = [f"{one:.0f}", f"{four:.0f}", f"{one / four:.1f}", f"{1e6 * one / steps:.1f}", f"{1e6 * four / steps:.1f}"]
    same = told == again
    if with_host:
        there, compiled = other(folder, name, kernel, [], WARM_RUNS)
        same = same and told == there
        cells += [f"{compiled:.1f}", f"{four / compiled:.1f}"]
    if with_host and shutil.which("oclgrind"):
        there, simulated = other(folder, name, kernel, ["oclgrind"], 1, kernel.share)
        same = same and (kernel.share > 1 or told == there)
        cells += [f"{simulated:.0f}", f"{simulated / one:.0f}", f"{simulated / four:.0f}"]
    return f"| `{name}` | {steps / 1e6:.0f} | " + " | ".join(cells) + (" |" if same else " | OTHER BUFFERS |"), same


def main():
    names = sys.argv[1:] or [*KERNELS]
    heads = ["Kernel", "million steps", "1 worker, ms", "4 workers, ms", "1 : 4", "ns a step, 1", "ns a step, 4"]
    heads += ["pocl, ms", "4 workers : pocl", "oclgrind, ms", "oclgrind : 1 worker", "oclgrind : 4 workers"]
    right = True
    with tempfile.TemporaryDirectory() as folder:
        with_host = has_host(folder)
        if not with_host:
            heads = heads[:7]
        elif not shutil.which("oclgrind"):
            heads = heads[:9]
        print("| " + " | ".join(heads) + " |\n" + "|---" * len(heads) + "|")
        for name in names:
            line, same = row(folder, name, with_host)
            right = right and same
            print(line, flush=True)
    sys.exit(not right)


main()
