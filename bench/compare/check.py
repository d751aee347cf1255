#!/usr/bin/env python3
"""Compares `check` with an independent program, and measures it.

    check.py compare FOLDER COUNT SEED [exits]
                                            COUNT random kernels, half of them with loops or barriers; FOLDER has the modules of the
                                            independent program; each kernel with a certificate that was made for it, and with changed ones;
                                            what is accepted is run at a random launch with three workers, too; with `exits` each kernel
                                            has a `return`, `break` or `continue`
    check.py kernels FOLDER KERNELS         the kernels of a folder: NAME.cl with NAME.cond, and NAME.expect, which begins with safe or unsafe
    check.py reductions FOLDER              tree reductions of 2 to 1,024 items under other names, with the least budget and one step less
    check.py measure FOLDER                 seconds and memory of `check` with 256 paths and with 65,520 obligations

Build the program first: ./kverify build
"""
import os
import re
import signal
import subprocess
import sys
import tempfile
import time

sys.path.insert(0, os.path.dirname(os.path.dirname(os.path.abspath(__file__))))
from common import KVERIFY, ROOT, dice_of, first_line, has_exit, launch_text, print_counts, put, put_all
from makers import HEAD, Guarded

EMPTY = b"certificate 2\nend\n"
CHANGES = 3
TIMES = 5
# Seconds after which the independent program is given up: it makes a certificate for all but few kernels in less.
PATIENCE = 60


def within(seconds, function, *words):
    """What a function answers in so many seconds; past them it is a TimeoutError."""

    def late(_signal, _frame):
        raise TimeoutError

    signal.signal(signal.SIGALRM, late)
    signal.alarm(seconds)
    try:
        return function(*words)
    finally:
        signal.alarm(0)


def checked(folder, kernel, conditions, certificate):
    """The first line of what the program prints."""
    return first_line("check", *put_all(folder, {"kernel.cl": kernel, "conditions.txt": conditions, "certificate.txt": certificate}))


def ran(folder, launch):
    """What is written of a run of what was checked last."""
    names = [os.path.join(folder, name) for name in ("kernel.cl", "conditions.txt", "certificate.txt", "launch.txt")]
    put(names[-1], launch)
    return subprocess.run([KVERIFY, "run", *names, "--workers", "3"], capture_output=True, text=True, timeout=600).stdout


class Answers:
    """The independent program's answers."""

    def __init__(self, folder):
        sys.path.insert(0, folder)
        import check
        import config
        import fuzz
        import launch
        import prove
        import runner
        import tree

        config.stage("e")
        self.check, self.config, self.fuzz, self.prove, self.tree = check, config, fuzz, prove, tree
        self.launch, self.runner = launch, runner

    def is_simple(self, typed):
        others = (self.tree.Barrier, self.tree.Local)
        return not typed.loops and not any(isinstance(it, others) for it in typed.stmts.values())

    def changed_example(self, rng):
        text, groups, values, lengths = rng.choice(self.fuzz.CORPUS)
        return self.fuzz.mutate(rng, text), self.fuzz.as_cond(groups, values, dict(lengths))

    def of(self, kernel, conditions, certificate):
        try:
            self.check.check(kernel, conditions, certificate)
            return "accepted"
        except self.config.Refused as error:
            return error.line()

    def run_of(self, rng, typed, conditions):
        """A random launch that meets the conditions, as a text, and the text of the buffers after it."""
        launch = self.fuzz.random_launch(rng, typed, conditions)
        if launch is None:
            return None
        buffers = self.launch.write_buffers(typed, self.runner.run(typed, launch))
        return launch_text(typed, launch), buffers if isinstance(buffers, str) else buffers.decode()

    def made(self, kernel, conditions):
        try:
            return self.prove.verify(kernel, conditions, 1)[1]
        except self.config.Refused:
            return EMPTY


def compare(folder, count, seed, exits):
    answers = Answers(folder)
    found = dict.fromkeys(("kernels", "without loops and barriers", "certificates", "accepted", "refused", "changed ones accepted", "runs", "given up", "different"), 0)
    with tempfile.TemporaryDirectory() as place:
        for attempt, rng in dice_of(seed):
            if found["kernels"] >= count:
                break
            source = rng.choice([lambda: answers.fuzz.Gen(rng).kernel(), lambda: Guarded(rng).kernel(), lambda: answers.changed_example(rng)])
            kernel, conditions = (text.encode() for text in source())
            if exits and not has_exit(kernel.decode()):
                continue
            try:
                typed, read, _ = answers.check.front(kernel, conditions)
            except answers.config.Refused:
                continue
            is_simple = answers.is_simple(typed)
            if is_simple and found["without loops and barriers"] > count // 2:
                continue
            try:
                made = within(PATIENCE, answers.made, kernel, conditions)
            except TimeoutError:
                found["given up"] += 1
                continue
            found["kernels"] += 1
            found["without loops and barriers"] += is_simple
            changed = [answers.fuzz.forge_text(rng, made) for _ in range(CHANGES)]
            for certificate in dict.fromkeys([made, EMPTY, *changed]):
                wanted = answers.of(kernel, conditions, certificate)
                got = checked(place, kernel, conditions, certificate)
                found["certificates"] += 1
                found["accepted" if wanted == "accepted" else "refused"] += 1
                found["changed ones accepted"] += wanted == "accepted" and certificate != made
                if got != wanted:
                    found["different"] += 1
                    print(f"kernel {seed}:{attempt}: {got}, not {wanted}")
                run = answers.run_of(rng, typed, read) if got == wanted == "accepted" and certificate == made else None
                if run:
                    found["runs"] += 1
                    if ran(place, run[0]) != run[1]:
                        found["different"] += 1
                        print(f"kernel {seed}:{attempt}: its run differs")
    print_counts(found)
    return found["different"]


def kernels(folder, place):
    answers = Answers(folder)
    different = 0
    with tempfile.TemporaryDirectory() as work:
        for name in sorted(it[:-3] for it in os.listdir(place) if it.endswith(".cl")):
            kernel, conditions, expected = (open(os.path.join(place, name + end), "rb").read() for end in (".cl", ".cond", ".expect"))
            made = answers.made(kernel, conditions)
            wanted = answers.of(kernel, conditions, made)
            start = time.perf_counter()
            got = checked(work, kernel, conditions, made)
            taken = time.perf_counter() - start
            is_wrong = got != wanted or got == "accepted" and not expected.startswith(b"safe")
            different += is_wrong
            print(f"{name}: {got}{f', not {wanted}' if got != wanted else ''}; {1000 * taken:.0f} ms, {len(made)} bytes{' WRONG' if is_wrong else ''}")
    print(f"{different} different")
    return different


NAMES = {"tree_reduction": "total", "lid": "me", "t": "tile", "in": "source", "out": "sums", "s": "step"}


def reduction(items, budget):
    """The example's texts for so many items, with other names."""
    texts = []
    for end in ("cl", "conditions"):
        with open(os.path.join(ROOT, "examples", "tree_reduction." + end)) as found:
            text = re.sub(r"\b[a-z_]+\b", lambda it: NAMES.get(it[0], it[0]), found.read())
        text = re.sub(r"\b64\b", str(items), text).replace("32u", f"{items // 2}u").replace("budget 51", f"budget {budget}")
        texts.append(text.encode())
    return texts


def reductions(folder):
    answers = Answers(folder)
    different = 0
    with tempfile.TemporaryDirectory() as work:
        for k in range(1, 11):
            least = 7 * k + 9
            made = answers.made(*reduction(2**k, least))
            got = [checked(work, *reduction(2**k, budget), made) for budget in (least, least - 1)]
            different += got != ["accepted", "refused 56"]
            print(f"{2**k} items: {got[0]}, with one step less {got[1]}; {len(made)} bytes")
    print(f"{different} different")
    return different


# ---- the measurements

def paths(tests):
    """So many tests that fork: two paths each."""
    lines = ["uint x = get_local_id(0);", "uint s = 0u;"]
    lines += ["if (a[x] < 1u) s = s + 1u;"] * tests
    return HEAD % (1, "__global const uint *a, __global uint *b") + "\n".join(lines) + "\nb[s] = s;\n}\n"


def stores(number):
    return HEAD % (64, "__global uint *a") + "a[get_global_id(0)] = 1u;\n" * number + "}\n"


def measured(names):
    """The least seconds of some calls, the most memory of one, and what it said. A process of its own makes the call, since what a child
    takes is counted from what its parent has."""
    call = "import resource, subprocess, time\nstart = time.perf_counter()\n"
    call += f"done = subprocess.run({[KVERIFY, 'check', *names]!r}, capture_output=True, text=True)\n"
    call += "print(time.perf_counter() - start, resource.getrusage(resource.RUSAGE_CHILDREN).ru_maxrss, done.stdout.strip())"
    found = [subprocess.run([sys.executable, "-S", "-c", call], capture_output=True, text=True).stdout.split(None, 2) for _ in range(TIMES)]
    return min(float(it[0]) for it in found), max(int(it[1]) for it in found) // 1024, found[0][2].strip()


def measure(folder):
    answers = Answers(folder)
    cases = (
        ("256 paths", paths(8), "groups 1..1 1..1 1..1\nlength a >= 1\nlength b >= 9\nbudget 100\n"),
        ("180 stores, 65,520 obligations", stores(180), "groups 1..1024 1..1 1..1\nlength a >= 65536\nbudget 200\n"),
    )
    with tempfile.TemporaryDirectory() as place:
        for what, kernel, lines in cases:
            conditions = "conditions 1\n" + lines
            certificate = answers.made(kernel.encode(), conditions.encode())
            names = [os.path.join(place, name) for name in ("kernel.cl", "conditions.txt", "certificate.txt")]
            for name, text in zip(names, (kernel.encode(), conditions.encode(), certificate)):
                with open(name, "wb") as out:
                    out.write(text)
            taken, most, told = measured(names)
            print(f"{what}: {told}; {taken:.3f} s, {most} MiB at most, a certificate of {len(certificate)} bytes")


def main():
    if sys.argv[1:2] == ["compare"] and sys.argv[5:] in ([], ["exits"]) and len(sys.argv) > 4:
        return 1 if compare(sys.argv[2], int(sys.argv[3]), int(sys.argv[4]), bool(sys.argv[5:])) else 0
    if sys.argv[1:2] == ["kernels"] and len(sys.argv) == 4:
        return 1 if kernels(sys.argv[2], sys.argv[3]) else 0
    if sys.argv[1:2] == ["reductions"] and len(sys.argv) == 3:
        return 1 if reductions(sys.argv[2]) else 0
    if sys.argv[1:2] == ["measure"] and len(sys.argv) == 3:
        return measure(sys.argv[2])
    sys.exit(__doc__)


if __name__ == "__main__":
    sys.exit(main())
