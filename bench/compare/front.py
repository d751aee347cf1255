#!/usr/bin/env python3
"""Compares what is made of OpenCL C as people write it with what a compiler makes of it: random kernels are proved under the conditions of
one launch, checked and run, and the same is run by OpenCL. All buffers are compared, word by word.

    front.py COUNT SEED [--new] [--seconds N] [--first N] [--folder FOLDER]
        COUNT kernels that are accepted and run, of a seed; with --new small ones, with `switch`, `continue` in a `do` and `return` anywhere
        in functions. Each search may take N seconds of a processor (4). Kernels that differ are written to FOLDER (front_differs), with
        both results, and the same with statements left out while they differ. --first N begins at the kernel of this number
    front.py show SEED NUMBER [--new]
        prints one kernel, its conditions and its first launch

Whatever is refused is counted by its number. Wants Debian's python3-pyopencl and pocl-opencl-icd, or another device of OpenCL. Build the
program first: ./kverify build
"""
import collections
import json
import os
import random
import re
import resource
import signal
import subprocess
import sys
import tempfile
import time

sys.path.insert(0, os.path.dirname(os.path.dirname(os.path.abspath(__file__))))
from common import KVERIFY, number_behind, print_counts, put, put_all  # noqa: E402
from front_kernels import BITS, RANGES, SIGNED, Maker, flat  # noqa: E402

OPTIONS = ["--wide", "--opencl", "--devices", "any"]
LAUNCHES = 2
# What is told of a kernel that its maker is not to make.
UNEXPECTED = ("ACCEPTED BY PROVE, AND NOT BY CHECK", "depends on what arrays begin with", "not made by the compiler")
# The seconds of a processor that a check and a run may take.
LIMIT = 60


class Kernel:
    """A kernel with its conditions and launches."""

    def __init__(self, seed, number, is_new):
        self.name = f"{seed}:{number}"
        dice = random.Random(self.name)
        self.statements, self.conditions, self.groups, self.size, self.arguments, self.buffers = Maker(dice, is_new).kernel()
        self.words = [{it: some_words(dice, *shape) for it, shape in self.buffers.items()} for _ in range(8 if is_new else LAUNCHES)]

    def text(self, statements):
        return "\n".join(flat(statements)) + "\n"

    def launch(self, words, fill):
        lines = ["launch 1", f"groups {self.groups} 1 1", *(f"arg {name} {word}" for name, word in self.arguments.items())]
        lines += [f"buffer {name} list {' '.join(map(str, words[name]))}" for name in self.buffers]
        return "\n".join([*lines, f"fill {fill}", ""])

    def shown(self, name, word):
        """A word of a buffer as texts of launches have it: elements of fewer than 32 bits have no sign."""
        kind = self.buffers[name][0]
        return word % 2 ** BITS[kind] if BITS[kind] < 32 else word


def some_words(dice, kind, count):
    """Words at the ends of their range and between, as a launch has them."""
    low, high = RANGES[kind]
    ends = [0, 1, 2, 3, low, low + 1, high, high - 1]
    some = lambda: [*ends, dice.randint(low, high), *(dice.randint(max(low, -most), most) for most in (9, 9, 99))]
    words = [dice.choice(some()) for _ in range(count)]
    return [it % 2 ** BITS[kind] for it in words] if BITS[kind] < 32 else words


# ---- the device, in a process of its own, which a faulty compiler may end

def serve():
    """Answers each line, a kernel with its launches, by a line: the buffers behind each launch."""
    import numpy
    import pyopencl
    from compiler import Device

    kinds = {"char": "i1", "uchar": "u1", "short": "i2", "ushort": "u2", "int": "i4", "uint": "u4"}
    device = Device()

    def values(wanted):
        """The arguments of one launch, and its buffers by their names."""
        arguments, memory = [], {}
        for name, kind, width in wanted["parameters"]:
            if name in wanted["words"]:
                words = numpy.array([it - 2 ** BITS[kind] if kind in SIGNED.values() and it >= 2 ** (BITS[kind] - 1) else it
                                     for it in wanted["words"][name]], dtype=kinds[kind])
                memory[name] = (pyopencl.Buffer(device.context, pyopencl.mem_flags.READ_WRITE, words.nbytes), words)
                pyopencl.enqueue_copy(device.queue, memory[name][0], words)
                arguments.append(memory[name][0])
            elif width == 1:
                arguments.append(numpy.dtype(kinds[kind]).type(wanted["arguments"][name]))
            else:
                arguments.append(numpy.array([wanted["arguments"][f"{name}_s{at}"] for at in range(width)], dtype=kinds[kind]))
        return arguments, memory

    for line in sys.stdin:
        asked = json.loads(line)
        try:
            program = pyopencl.Program(device.context, asked["text"]).build(["-cl-std=CL1.2"])
        except pyopencl.RuntimeError as error:
            print(json.dumps({"error": str(error)[:2000]}), flush=True)
            continue
        kernel, found = program.all_kernels()[0], []
        for words in asked["launches"]:
            arguments, memory = values({**asked, "words": words})
            kernel.set_args(*arguments)
            pyopencl.enqueue_nd_range_kernel(device.queue, kernel, [asked["groups"] * asked["size"], 1, 1], [asked["size"], 1, 1])
            for buffer, host in memory.values():
                pyopencl.enqueue_copy(device.queue, host, buffer)
            device.queue.finish()
            found.append({name: [int(it) for it in host] for name, (_, host) in memory.items()})
        print(json.dumps({"buffers": found}), flush=True)


class Apart:
    """The device in another process, which is begun anew where it ended. Another one is in lowered.py."""

    # how it is called, and what it may tell of a kernel that is a fault of the program
    name, faults = "the compiler", ()

    def __init__(self):
        self.process = None

    def run(self, kernel, text):
        if self.process is None or self.process.poll() is not None:
            environment = {**os.environ, "POCL_KERNEL_CACHE": "0"}
            ways = {"stdin": subprocess.PIPE, "stdout": subprocess.PIPE, "stderr": subprocess.DEVNULL}
            self.process = subprocess.Popen([sys.executable, os.path.abspath(__file__), "serve"], text=True, env=environment, **ways)
        asked = {"text": text, "parameters": parameters_of(kernel), "arguments": kernel.arguments, "groups": kernel.groups}
        asked |= {"size": kernel.size, "launches": kernel.words}
        try:
            self.process.stdin.write(json.dumps(asked) + "\n")
            self.process.stdin.flush()
            line = self.process.stdout.readline()
        except BrokenPipeError:
            line = ""
        return json.loads(line) if line else {"error": "the device ended"}

    def close(self):
        if self.process is not None:
            self.process.stdin.close()
            self.process.wait()


def parameters_of(kernel):
    """Name, kind and width of each parameter, as the head has them; the width of a buffer is not asked for."""
    head = next(it for it in flat(kernel.statements) if "void k(" in it).split("void k(")[1].rsplit(")", 1)[0]
    found = []
    for part in head.split(", "):
        words = part.replace("*", " ").split()
        kind = next(it.rstrip("0123456789") for it in words if it.rstrip("0123456789") in BITS)
        width = next(it[len(kind):] for it in words if it.rstrip("0123456789") == kind)
        found.append((words[-1], kind, int(width or 1)))
    return found


# ---- the comparison

class Front:
    """The program and the device, and what came of both."""

    def __init__(self, place, seconds, device):
        self.place, self.seconds, self.device = place, seconds, device

    def said(self, *words, seconds=LIMIT):
        """The status of the program and what it prints; None where it took too long."""
        def limit():
            resource.setrlimit(resource.RLIMIT_CPU, (seconds, seconds))

        done = subprocess.run([KVERIFY, words[0], *OPTIONS, *words[1:]], capture_output=True, text=True, preexec_fn=limit)
        is_over = done.returncode in (-signal.SIGXCPU, -signal.SIGKILL)
        return (None, "") if is_over else (done.returncode, done.stdout)

    def ran(self, kernel, statements):
        """What is told of a kernel, and the buffers behind each launch by the program."""
        texts = {"kernel.cl": kernel.text(statements), "conditions": kernel.conditions}
        names = put_all(self.place, texts) + [os.path.join(self.place, "certificate")]
        status, answer = self.said("prove", *names[:2], "--out", names[2], seconds=self.seconds)
        if status is None:
            return "no answer in time", None
        if status:
            return " ".join(answer.split()[:2]) or f"status {status} of prove", None
        status, answer = self.said("check", *names)
        if status:
            return "ACCEPTED BY PROVE, AND NOT BY CHECK", None
        found = []
        for words in kernel.words:
            ends = []
            for fill in (0, 77) if any(re.search(r"\w\[\w*\];|\] = \{", it) for it in flat(statements)) else (0,):
                launch = os.path.join(self.place, "launch")
                put(launch, kernel.launch(words, fill))
                status, answer = self.said("run", *names, launch)
                if status:
                    return "not run: " + (" ".join(answer.split()[:2]) or f"status {status}"), None
                rows = [line.split() for line in answer.splitlines()]
                ends.append({row[1]: [int(it) for it in row[3:]] for row in rows if row[:1] == ["buffer"]})
            if ends[0] != ends[-1]:
                return "depends on what arrays begin with", None
            found.append(ends[0])
        return "ran", found

    def compared(self, kernel, statements):
        """What is told of a kernel, and both results where they differ."""
        told, wanted = self.ran(kernel, statements)
        if wanted is None:
            return told, None
        made = self.device.run(kernel, kernel.text(statements))
        if "error" in made:
            return made.get("told", "not made by the compiler"), made["error"]
        buffers = [{name: [kernel.shown(name, it) for it in words] for name, words in it.items()} for it in made["buffers"]]
        return ("the same", None) if buffers == wanted else ("DIFFERENT", (wanted, buffers))

    def smaller(self, kernel, told):
        """The statements, with some left out while the same is told."""
        statements, is_less = kernel.statements, True
        while is_less:
            is_less = False
            for fewer in list(shorter(statements)):
                if self.compared(kernel, fewer)[0] == told:
                    statements, is_less = fewer, True
                    break
        return statements


def shorter(statements):
    """All that is left where one statement is left out, or has what is in it in its place."""
    for at, it in enumerate(statements):
        front, behind = statements[:at], statements[at + 1:]
        if not isinstance(it, str) or not it.startswith("__kernel"):
            yield [*front, *behind]
        if isinstance(it, str):
            continue
        for number, part in enumerate(it):
            if isinstance(part, str):
                continue
            if it[0] != "{":
                yield [*front, *part, *behind]
            for fewer in shorter(part):
                yield [*front, (*it[:number], fewer, *it[number + 1:]), *behind]


def difference_text(results, by):
    """The words that differ, or what else is told of a kernel."""
    if not isinstance(results, tuple):
        return f"{results}\n"
    lines = []
    for number, (wanted, made) in enumerate(zip(*results), 1):
        for name, words in wanted.items():
            for at, (one, other) in enumerate(zip(words, made[name])):
                if one != other:
                    lines.append(f"launch {number}: {name}[{at}] is {one} here, {other} by {by}")
    return "\n".join(lines) + "\n"


def keep(front, kernel, folder, wanted):
    """Writes a kernel of which this is told, with both results, and a smaller one."""
    place = os.path.join(folder, kernel.name.replace(":", "_"))
    os.makedirs(place, exist_ok=True)
    for name, statements in (("kernel", kernel.statements), ("smaller", front.smaller(kernel, wanted))):
        told, results = front.compared(kernel, statements)
        put(os.path.join(place, f"{name}.cl"), kernel.text(statements))
        put(os.path.join(place, f"{name}.txt"), f"{told}\n" + difference_text(results, front.device.name))
    put(os.path.join(place, "conditions"), kernel.conditions)
    for number, words in enumerate(kernel.words, 1):
        put(os.path.join(place, f"launch{number}"), kernel.launch(words, 0))
    return place


def compare(device, count, seed, is_new, seconds, first, folder):
    found, started, number = collections.Counter(), time.monotonic(), first
    # whoever ends it is told what was found till then
    signal.signal(signal.SIGTERM, lambda *_: sys.exit(1))
    with tempfile.TemporaryDirectory() as place:
        front = Front(place, seconds, device)
        try:
            while found["the same"] + found["DIFFERENT"] < count:
                kernel = Kernel(seed, number, is_new)
                told, results = front.compared(kernel, kernel.statements)
                found[told] += 1
                if told == "DIFFERENT" or told in device.faults:
                    print(f"{kernel.name}: {told} {keep(front, kernel, folder, told)}", flush=True)
                elif told in UNEXPECTED:
                    print(f"{kernel.name}: {told} {(results or '').strip()[-300:]}", flush=True)
                number += 1
        finally:
            device.close()
            how = ", with --new" if is_new else ""
            print(f"{number - first} kernels of seed {seed} from number {first}{how}, {time.monotonic() - started:.0f} s")
            print_counts(dict(sorted(found.items())))
    return found["DIFFERENT"] + sum(found[it] for it in device.faults)


def text_behind(words, option, default):
    """The word behind an option, and the words without both; the default where the option is not there."""
    if option not in words:
        return default, words
    at = words.index(option)
    return words[at + 1], words[:at] + words[at + 2:]


def compare_random(device, words, folder, usage):
    """What the words of a call ask for, of random kernels."""
    is_new, words = "--new" in words, [it for it in words if it != "--new"]
    seconds, words = number_behind(words, "--seconds", 4)
    first, words = number_behind(words, "--first", 0)
    folder, words = text_behind(words, "--folder", folder)
    if len(words) != 2 or not words[0].isdigit():
        sys.exit(usage)
    return 1 if compare(device, int(words[0]), words[1], is_new, seconds, first, folder) else 0


def main():
    words = sys.argv[1:]
    if words == ["serve"]:
        return serve()
    if len(words) in (3, 4) and words[0] == "show":
        kernel = Kernel(words[1], int(words[2]), "--new" in words)
        print(kernel.text(kernel.statements), kernel.conditions, kernel.launch(kernel.words[0], 0), sep="\n")
        return 0
    return compare_random(Apart(), words, "front_differs", __doc__)


if __name__ == "__main__":
    sys.exit(main())
