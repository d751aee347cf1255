#!/usr/bin/env python3
"""Compares what kernels mean here with what a compiler makes of them: runs each by the program and by OpenCL, and compares all buffers.

    compiler.py KERNELS [NAME ..]        NAME.cl with NAME.cond and NAME.launch; all that have one, or these
    compiler.py random SECONDS SEED      kernels made at random: expressions of all operators over words at the ends of their ranges, and
                                         loops, jumps and barriers over a local array
    compiler.py ids SECONDS SEED         kernels made at random of ids and sizes that are not cast, read for any devices: those that are
                                         accepted are to have the same buffers whatever bits the device's `size_t` has

A kernel that is not accepted is passed over, as is one whose buffers depend on what a local array begins with. The compiler is given
exactly the bytes that were checked, and no `-D`. The ids of a launch are `size_t` in OpenCL, which may have 64 bits: the random kernels
cast each, as the premises have it. Wants Debian's python3-pyopencl and pocl-opencl-icd, or another device of OpenCL. Build the program
first: ./kverify build
"""
import os
import random
import re
import subprocess
import sys
import tempfile
import time
import warnings

import numpy

# read as the library is loaded: without it, it puts a line behind the kernel's text
os.environ["PYOPENCL_NO_CACHE"] = "1"
import pyopencl  # noqa: E402

sys.path.insert(0, os.path.dirname(os.path.dirname(os.path.abspath(__file__))))
from common import KVERIFY, put  # noqa: E402

RANGES = {"uint": (0, 2**32 - 1), "int": (-(2**31), 2**31 - 1)}
TYPES = {"uint": numpy.uint32, "int": numpy.int32}


class Launch:
    """Groups, arguments and buffers of a launch."""

    def __init__(self, groups, arguments, buffers):
        self.groups, self.arguments, self.buffers = groups, arguments, buffers

    @staticmethod
    def read(text):
        rows = [line.split() for line in text.splitlines()]
        groups = next([int(it) for it in row[1:]] for row in rows if row[:1] == ["groups"])
        return Launch(groups, {row[1]: int(row[2]) for row in rows if row[:1] == ["arg"]}, buffers_of(rows))

    def text(self, fill):
        lines = ["launch 1", "groups " + " ".join(map(str, self.groups))]
        lines += [f"arg {name} {word}" for name, word in self.arguments.items()]
        lines += [f"buffer {name} list {' '.join(map(str, words))}" for name, words in self.buffers.items()]
        return "\n".join(lines) + f"\nfill {fill}\n"


def buffers_of(rows):
    """The words of each line that tells a buffer."""

    def words(row):
        return [int(row[4])] * int(row[3]) if row[2] == "fill" else [int(it) for it in row[3:]]

    return {row[1]: words(row) for row in rows if row[:1] == ["buffer"]}


class Device:
    """A device of OpenCL."""

    def __init__(self):
        warnings.simplefilter("ignore")
        # what the library would say to the compiler besides
        pyopencl._DEFAULT_INCLUDE_OPTIONS.clear()
        pyopencl._PLAT_BUILD_OPTIONS.clear()
        self.context = pyopencl.Context([pyopencl.get_platforms()[0].get_devices()[0]])
        self.queue = pyopencl.CommandQueue(self.context)

    def run(self, text, launch):
        """The buffers behind a launch of the text's kernel, or None where the compiler makes no program of it."""
        try:
            program = pyopencl.Program(self.context, text).build(["-cl-std=CL1.2"])
        except pyopencl.RuntimeError:
            return None
        head = re.search(r"reqd_work_group_size\s*\(\s*(\w+)\s*,\s*(\w+)\s*,\s*(\w+)\s*\)[^(]*\(([^)]*)\)", text)
        sizes = [int(it.rstrip("uU"), 0) for it in head.groups()[:3]]
        memory, arguments = {}, []
        for parameter in filter(str.strip, head.group(4).split(",")):
            name, kind = re.findall(r"\w+", parameter)[-1], TYPES[re.search(r"\bu?int\b", parameter).group()]
            if "*" in parameter:
                words = numpy.array(launch.buffers[name], dtype=numpy.int64).astype(kind)
                memory[name] = (pyopencl.Buffer(self.context, pyopencl.mem_flags.READ_WRITE, max(4, words.nbytes)), words)
                if len(words):
                    pyopencl.enqueue_copy(self.queue, memory[name][0], words)
                arguments.append(memory[name][0])
            else:
                arguments.append(kind(launch.arguments[name]))
        kernel = program.all_kernels()[0]
        kernel.set_args(*arguments)
        pyopencl.enqueue_nd_range_kernel(self.queue, kernel, [count * size for count, size in zip(launch.groups, sizes)], sizes)
        for buffer, words in memory.values():
            if len(words):
                pyopencl.enqueue_copy(self.queue, words, buffer)
        self.queue.finish()
        return {name: [int(it) for it in words] for name, (_, words) in memory.items()}


def said(words):
    """The status of the program, and what it prints."""
    done = subprocess.run([KVERIFY, *words], capture_output=True, text=True)
    return done.returncode, done.stdout


def compare(device, text, conditions, launches, options=()):
    """What is told of a kernel: passed over, the same or not; with these options of the program."""
    with tempfile.TemporaryDirectory() as folder:
        names = [os.path.join(folder, it) for it in ("kernel.cl", "conditions", "certificate", "launch")]
        put(names[0], text)
        put(names[1], conditions)
        status, answer = said(["prove", *names[:2], "--out", names[2], *options])
        if status:
            return " ".join(answer.split()[:2])
        for launch in launches:
            wanted = []
            for fill in (0, 77):
                put(names[3], launch.text(fill))
                status, answer = said(["run", *names, *options])
                wanted.append(buffers_of([line.split() for line in answer.splitlines()]))
                if status:
                    return "not run"
            if wanted[0] != wanted[1]:
                return "depends on what local arrays begin with"
            made = device.run(text, launch)
            if made is None:
                return "no program of it"
            if made != wanted[0]:
                return "NOT THE SAME"
    return "the same"


class Term:
    """An expression with its type and the ends between which its value is."""

    def __init__(self, text, kind, low=None, high=None):
        least, most = RANGES[kind]
        self.text, self.kind = text, kind
        self.low, self.high = (least, most) if low is None else (low, high)


class Terms:
    """Makes expressions that keep to the rules: no result leaves its type, no divisor is 0."""

    def __init__(self, dice, names):
        self.dice, self.names = dice, names

    def leaf(self):
        if self.dice.random() < 0.6:
            return self.dice.choice(self.names)
        kind = self.dice.choice(["int", "uint"])
        number = self.dice.choice([0, 1, 2, 3, 7, 31, 255, 2**31 - 1, self.dice.randrange(2**31)] + [2**31, 2**32 - 1] * (kind == "uint"))
        spelling = self.dice.choice(["%d", "0x%x"]) % number + ("u" if kind == "uint" else "")
        return Term(spelling, kind, number, number)

    def bounded(self, term, most):
        """The nearest number to a term's value up to a size."""
        if term.kind == "uint":
            return Term(f"min({term.text}, {most}u)", "uint", min(term.low, most), min(term.high, most))
        ends = [max(min(it, most), -most) for it in (term.low, term.high)]
        return Term(f"max(min({term.text}, {most}), -{most})", "int", *ends)

    def cast(self, term, kind):
        if term.kind == kind:
            return term
        if kind == "int" and term.high > RANGES["int"][1]:
            term = self.bounded(term, self.dice.choice([1000, 2**31 - 1]))
        fits = RANGES[kind][0] <= term.low
        return Term(f"({kind})({term.text})", kind, *((term.low, term.high) if fits else ()))

    def make(self, depth):
        if depth == 0 or self.dice.random() < 0.1:
            return self.leaf()
        steps = [self.convert, self.flip, self.minus, self.shift, self.test, self.least, self.divide, self.sum]
        step = self.dice.choice(steps * 3 + [self.negate, self.both, self.choose])
        return step(self.make(depth - 1), depth)

    def convert(self, left, _depth):
        return self.cast(left, self.dice.choice(["int", "uint"]))

    def negate(self, left, _depth):
        return Term(f"!({left.text})", "int", 0, 1)

    def flip(self, left, _depth):
        return Term(f"~({left.text})", left.kind, *((-left.high - 1, -left.low - 1) if left.kind == "int" else ()))

    def minus(self, left, _depth):
        if left.kind == "uint":
            return Term(f"-({left.text})", "uint")
        left = self.bounded(left, RANGES["int"][1])
        return Term(f"-({left.text})", "int", -left.high, -left.low)

    def shift(self, left, _depth):
        left, count = self.cast(left, "uint"), self.dice.choice([0, 1, 2, 8, 16, 31])
        if self.dice.random() < 0.5:
            return Term(f"(({left.text}) << {count})", "uint")
        return Term(f"(({left.text}) >> {count}u)", "uint", left.low >> count, left.high >> count)

    def test(self, left, depth):
        sign = self.dice.choice(["<", "<=", ">", ">=", "==", "!="])
        return Term(f"(({left.text}) {sign} ({self.make(depth - 1).text}))", "int", 0, 1)

    def both(self, left, depth):
        return Term(f"(({left.text}) {self.dice.choice(['&&', '||'])} !({self.make(depth - 1).text}))", "int", 0, 1)

    def least(self, left, depth):
        right = self.cast(self.make(depth - 1), left.kind)
        which = self.dice.choice([min, max])
        return Term(f"{which.__name__}({left.text}, {right.text})", left.kind, which(left.low, right.low), which(left.high, right.high))

    def choose(self, left, depth):
        first, second = self.make(depth - 1), self.make(depth - 1)
        text = f"(({left.text}) ? ({first.text}) : ({second.text}))"
        if first.kind == second.kind:
            return Term(text, first.kind, min(first.low, second.low), max(first.high, second.high))
        return Term(text, "uint")

    def divide(self, left, depth):
        right, sign = self.make(depth - 1), self.dice.choice("/%")
        if "uint" in (left.kind, right.kind):
            return Term(f"(({left.text}) {sign} max({self.cast(right, 'uint').text}, 1u))", "uint")
        left = self.bounded(left, RANGES["int"][1])
        right = self.dice.choice([f"max({right.text}, 1)", f"min({right.text}, -1)"])
        most = max(abs(left.low), abs(left.high))
        return Term(f"(({left.text}) {sign} {right})", "int", -most, most)

    def sum(self, left, depth):
        right, sign = self.make(depth - 1), self.dice.choice("+-*&|^")
        if "uint" in (left.kind, right.kind):
            return Term(f"(({left.text}) {sign} ({right.text}))", "uint")
        if sign in "&|^":
            return Term(f"(({left.text}) {sign} ({right.text}))", "int")
        left, right = (self.bounded(it, 30_000 if sign == "*" else 10**9) for it in (left, right))
        pairs = [(a, b) for a in (left.low, left.high) for b in (right.low, right.high)]
        ends = [{"+": a + b, "-": a - b, "*": a * b}[sign] for a, b in pairs]
        return Term(f"(({left.text}) {sign} ({right.text}))", "int", min(ends), max(ends))


def some_words(dice, kind, count):
    """Words at the ends of their range, and between them."""
    least, most = RANGES[kind]
    ends = [0, 1, 2, least, least + 1, most, most - 1, 2**31 - 1, max(least, -1)]
    return [dice.choice([*ends, dice.randint(least, most)]) for _ in range(count)]


def expressions(dice):
    """The body of a kernel of expressions."""
    names = [Term(it, "uint") for it in ("u[g]", "v[g]", "n", "g", "(uint)get_local_id(0)")] + [Term(it, "int") for it in ("s[g]", "m")]
    terms, lines = Terms(dice, names), []
    for number in range(dice.randint(0, 3)):
        kind = dice.choice(["int", "uint"])
        value = terms.cast(terms.make(dice.randint(1, 2)), kind)
        lines.append(f"{kind} x{number} = {value.text};")
        if kind == "uint" and dice.random() < 0.4:
            lines.append(f"x{number} {dice.choice('+-*&|^')}= {terms.make(1).text};")
            value = Term("", "uint")
        names.append(Term(f"x{number}", kind, value.low, value.high))
    lines.append(f"o[g] = {terms.cast(terms.make(dice.randint(1, 3)), 'uint').text};")
    lines.append(f"p[g] = {terms.cast(terms.make(dice.randint(1, 3)), 'int').text};")
    return lines


def turns(dice, size):
    """The body of a kernel of loops with jumps, and of barriers between which each item stores to its own element."""
    test = dice.choice(["(x & 1u) == 0u", "x > 77u", "i == l", "n < x", "i * 2u > l"])
    jump = dice.choice(["break", "continue"])
    own = f"for (uint i = 0u; i < {dice.randint(1, 9)}u; i += 1u) {{ x = x * 1664525u + i; if ({test}) {jump}; o[g] ^= x; }}"
    halving = f"uint k = {dice.randint(1, 40)}u; while (k > 0u) {{ x += k ^ l; k = k >> 1; if (k == l) break; }}"
    steps = [f"x ^= t[(l + {dice.randint(0, size)}u) & {size - 1}u];", own, halving, "if (l > 1u) x = x + v[g]; else x = x ^ 3u;"]
    lines = ["uint l = (uint)get_local_id(0);", "uint x = u[g];", "t[l] = x;", "barrier(CLK_LOCAL_MEM_FENCE);", steps[0]]
    fence = "barrier(CLK_LOCAL_MEM_FENCE | CLK_GLOBAL_MEM_FENCE);"
    lines += [f"for (uint r = 0u; r < {dice.randint(1, 4)}u; r += 1u) {{", fence, "t[l] = x;", fence, dice.choice(steps), "}"]
    lines += [dice.choice(["if (x < n) return;", "if (m < 0) return;", ""]), "o[g] += x;", "p[g] = (int)(x >> 1);"]
    return lines


def random_kernel(dice):
    """A kernel, its conditions and launches."""
    size, groups = dice.choice([1, 2, 4, 8]), dice.choice([1, 2, 3])
    kinds = {"u": "uint", "v": "uint", "s": "int", "o": "uint", "p": "int"}
    body = [f"__local uint t[{size}];", "uint g = (uint)get_global_id(0);"]
    body += expressions(dice) if dice.random() < 0.5 else turns(dice, size)
    conditions = conditions_text(groups, size, kinds, "-2147483648..2147483647", "0..4294967295")
    arguments = lambda: {"m": some_words(dice, "int", 1)[0], "n": some_words(dice, "uint", 1)[0]}
    return kernel_text(size, kinds, body), conditions, launches_of(dice, groups, size, kinds, arguments)


def kernel_text(size, kinds, body):
    """The text of a kernel with buffers of these kinds and the arguments m and n."""
    parameters = [f"__global {kind} *{name}" for name, kind in kinds.items()] + ["int m", "uint n"]
    head = f"__kernel __attribute__((reqd_work_group_size({size}, 1, 1)))\nvoid k({', '.join(parameters)}) {{\n"
    return head + "\n".join(body) + "\n}\n"


def conditions_text(groups, size, kinds, range_of_m, range_of_n):
    """Conditions of such a kernel: an element of each buffer for each work-item."""
    lengths = "".join(f"length {name} >= {size}*groups.0\n" for name in kinds)
    return f"conditions 1\ngroups 1..{groups} 1..1 1..1\narg m {range_of_m}\narg n {range_of_n}\n{lengths}budget 1000\n"


def launches_of(dice, groups, size, kinds, arguments):
    """Three launches of such a kernel, each with new arguments and words."""
    count = size * groups
    return [Launch([groups, 1, 1], arguments(), {name: some_words(dice, kind, count) for name, kind in kinds.items()}) for _ in range(3)]


IDS = [f"get_{it}(0)" for it in ("global_id", "local_id", "group_id", "global_size", "local_size", "num_groups")]


def of_ids(dice, depth):
    """An expression of ids and sizes beside other words, many of which stay within 32 bits."""
    if depth == 0 or dice.random() < 0.15:
        return dice.choice([*IDS, *IDS, dice.choice("0123456789"), dice.choice(["1u", "3u", "64u", "1000u"]), "m", "n", "(u[g] & 255u)", "(s[g] & 15)"])
    left, right = of_ids(dice, depth - 1), of_ids(dice, depth - 1)
    small = dice.randint(1, 9)
    if dice.random() < 0.02:
        return dice.choice([f"({left} - {right})", f"(~({left}))", f"(-({left}))", f"({left} << 31)", f"min({left}, {right})"])
    return dice.choice([
        f"({left} + {right})", f"({left} + {right})", f"({left} * {small}u)", f"({left} + 100000u - (uint)({right}) % 4096u)",
        f"({left} {dice.choice('&|^')} {right})", f"({left} {dice.choice('/%')} {small}u)", f"({left} / ({right} % 7u + 1u))",
        f"({left} {dice.choice(['<<', '>>'])} {small})", f"({left} {dice.choice(['<', '<=', '==', '!=', '>'])} {right})",
        f"({left} < {right} ? {left} : {right})", f"(uint)({left})", f"(int)({left} % 1000u)", f"(!({left}))",
        f"min(get_global_id(0), {dice.choice(IDS)})", f"({left} | {right})",
    ])


def kernel_of_ids(dice):
    """A kernel that computes with ids, its conditions and launches."""
    size, groups = dice.choice([1, 2, 4, 8]), dice.choice([1, 2, 3])
    kinds = {"u": "uint", "s": "int", "o": "uint", "p": "int"}
    body = ["uint g = get_global_id(0);", f"uint x = {of_ids(dice, 2)};"]
    body += [f"if ({of_ids(dice, 2)}) x ^= {of_ids(dice, 1)};"] if dice.random() < 0.5 else []
    body += [f"o[get_global_id(0)] = {of_ids(dice, 3)} + x;", f"p[g] = (int)({of_ids(dice, 2)} % 65536u);"]
    conditions = conditions_text(groups, size, kinds, f"{dice.choice([-3, 0])}..100", "0..1000")
    arguments = lambda: {"m": dice.randint(0, 100), "n": dice.randint(0, 1000)}
    return kernel_text(size, kinds, body), conditions, launches_of(dice, groups, size, kinds, arguments)


def random_kernels(make, seconds, seed):
    """Kernels made at random for so long."""
    end, number = time.monotonic() + seconds, 0
    while time.monotonic() < end:
        yield f"{seed}:{number}", *make(random.Random(f"{seed}:{number}"))
        number += 1


def kernels_of(place, names):
    """The kernels of a folder."""
    for name in names or sorted(it[:-7] for it in os.listdir(place) if it.endswith(".launch")):
        texts = []
        for ending in ("cl", "cond", "launch"):
            with open(f"{place}/{name}.{ending}", encoding="ascii", newline="") as it:
                texts.append(it.read())
        yield name, texts[0], texts[1], [Launch.read(texts[2])]


def main():
    words = sys.argv[1:]
    makers = {"random": random_kernel, "ids": kernel_of_ids}
    if not words or words[0] in makers and len(words) != 3:
        sys.exit(__doc__)
    is_made = words[0] in makers
    kernels = random_kernels(makers[words[0]], float(words[1]), words[2]) if is_made else kernels_of(words[0], words[1:])
    options = ["--devices", "any"] if words[0] == "ids" else []
    device, counts = Device(), {}
    for name, text, conditions, launches in kernels:
        told = compare(device, text, conditions, launches, options)
        counts[told] = counts.get(told, 0) + 1
        if told == "NOT THE SAME":
            print(f"{name}: {told}\n{text}")
    for told, count in sorted(counts.items()):
        print(f"{told}: {count}")
    return "NOT THE SAME" in counts


if __name__ == "__main__":
    sys.exit(main())
