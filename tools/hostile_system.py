"""The part `system` of hostile.py: outputs that take nothing, files that fail, no thread to be had."""
import os
import signal
import subprocess

from hostile_common import judge, parts, read, remove
from hostile_sheets import common

COMMANDS = (
    "check fill fill.c fill.1", "prove fill fill.c", "prove fence fence.c", "run fill fill.c fill.1 fill.l", "print tree",
    "migrate fill.1 made", "explain fence fence.c", "check fill fill.c fill.less",
)
THREADED = (
    "prove tree tree.c --workers 3 --out {0}", "prove fence fence.c --workers 64", "run fill fill.m fill.1 fill.l --workers 64",
    "run loop loop.m loop.p loop.l --workers 3",
)
# Commands that read a text from the standard input, and the most bytes that it may have.
READERS = {
    "print /dev/stdin": 65_536, "prove fill /dev/stdin": 65_536, "check fill fill.c /dev/stdin": 16_777_216,
    "migrate /dev/stdin made": 16_777_216, "run fill fill.c fill.1 /dev/stdin": 4_194_304,
}


def without(trial, what, **outputs):
    """Each command with an output that takes nothing: status 3, and nothing on the standard error."""
    with trial.table.row(what) as ends:
        for words in COMMANDS:
            found = trial.program(words, stdin=subprocess.DEVNULL, **outputs)
            judge(trial, ends, f"{words}, {what}", (found[0], found[2]), (3, b""))


def system(trial):
    """All of this part."""
    trial.put(trial.files)
    lost_outputs(trial)
    no_threads(trial)
    broken_files(trial)
    with trial.table.row("at most one byte past a text's limit is read") as ends:
        for words, limit in READERS.items():
            judge(trial, ends, words, (taken(trial, words, limit + 100_000),), (limit + 1,))


def lost_outputs(trial):
    """Outputs that take nothing, of three kinds."""
    with open("/dev/full", "wb") as full:
        without(trial, "the output is /dev/full", stdout=full)
    read_end, write_end = os.pipe()
    os.close(read_end)
    without(trial, "the output is a pipe that nobody reads", stdout=write_end)
    os.close(write_end)
    without(trial, "the output is closed", stdout=None, before=lambda: os.close(1))


def no_threads(trial):
    """Commands that ask for workers where the system starts none: the same answers and certificates."""
    with trial.table.row("no thread to be had") as ends:
        for words in THREADED:
            found = trial.program(words.format("made"), LD_PRELOAD=trial.library, HOSTILE_NO_THREAD="1")
            judge(trial, ends, words, found, trial.program(words.format("whole")))
        judge(trial, ends, "the certificates", read(trial, "made"), read(trial, "whole"))


def broken_files(trial):
    """Reads and writes of which one fails."""
    with trial.table.row("a read that fails in the middle: nothing is written") as ends:
        for number in (1, 2, 9, 40, 50):
            remove(trial, "made")
            found = trial.program("prove tree tree.c --out made", LD_PRELOAD=trial.library, HOSTILE_READ=str(number))
            name = b"tree" if number <= len(trial.files["tree"]) // 10 + 1 else b"tree.c"
            judge(trial, ends, f"the read {number}", (*found, parts(trial)), (3, b"", b"file: " + name + b"\n", []))
    with trial.table.row("a write that fails in the middle: no part of the file is left") as ends:
        for number in (1, 2, 100):
            remove(trial, "made")
            found = trial.program("prove tree tree.c --out made", LD_PRELOAD=trial.library, HOSTILE_WRITE=str(number))
            judge(trial, ends, f"the write {number}", (*found, parts(trial)), (3, b"", b"file: made\n", []))


def taken(trial, words, count):
    """How many bytes of its standard input the program takes, of so many blanks."""
    read_end, write_end = os.pipe()
    child = os.fork()
    if not child:
        os.close(read_end)
        signal.signal(signal.SIGPIPE, signal.SIG_DFL)
        left = count
        while left:
            left -= os.write(write_end, b" " * min(left, 65_536))
        os._exit(0)
    os.close(write_end)
    ran = subprocess.run([common.KVERIFY, *words.split()], cwd=trial.folder, stdin=read_end, capture_output=True)
    rest = 0
    while more := len(os.read(read_end, 1 << 20)):
        rest += more
    os.close(read_end)
    os.waitpid(child, 0)
    return count - rest if ran.returncode == 1 else -1
