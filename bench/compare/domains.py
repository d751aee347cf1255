#!/usr/bin/env python3
"""Compares the operations of the checker's domain with those of an independent program.

    domains.py FOLDER COUNT SEED            COUNT random operations on known bits, and as many on the checker's domain, the product of
                                            intervals, congruences and known bits; FOLDER has the modules of the independent program

Of each result the element itself is compared, its bounds and its residue. Elements are made of numbers, joined and narrowed, and of what
operations made of others. The independent program knows nothing of a difference of known bits, and the domain here the low bits that both
know: the script has it know those.

The program of the domain's operations, `domains.txt`, is compiled from here without proofs, in some twenty processor seconds.
"""
import contextlib
import os
import random
import re
import shutil
import subprocess
import sys
import tempfile

sys.path.insert(0, os.path.dirname(os.path.dirname(os.path.abspath(__file__))))
from common import ROOT

PROGRAM = os.path.join(os.path.dirname(os.path.abspath(__file__)), "domains.txt")
BELOW = ("semantics", "domain")
LOW, HIGH, WORD = -(2**63), 2**63 - 1, 2**32
# Elements that a block begins with, and operations on them and on what was made of them.
FIRST, BLOCK = 4, 12
OF_TWO = ("join", "add", "sub", "mul", "div", "rem", "mask")
OF_NUMBER = {"shl": 32, "shr": 32, "at_least": None, "at_most": None}


@contextlib.contextmanager
def program():
    """A program of the domain's operations, compiled in a folder of its own."""
    with tempfile.TemporaryDirectory() as folder:
        for crate in BELOW:
            for part in ("src", "specs", "proofs"):
                shutil.copytree(f"{ROOT}/crates/{crate}/{part}", f"{folder}/crates/{crate}/{part}")
        os.makedirs(f"{folder}/crates/domains/src")
        shutil.copy(PROGRAM, f"{folder}/crates/domains/src/main.rt")
        with open(f"{folder}/crates.txt", "w", encoding="ascii") as out:
            out.write("semantics:\ndomain: semantics\ndomains: domain\n")
        subprocess.run([sys.executable, f"{ROOT}/tools/compile.py", "domains"], cwd=folder, check=True)
        yield f"{folder}/crates/domains/out/unproved/domains"


# ---- random operations

def word(rng):
    """32 bits: few, many, or such as masks have."""
    kind = rng.randrange(6)
    if kind < 3:
        low, high = sorted((rng.randrange(33), rng.randrange(33)))
        return (2**high - 1, 2**high - 2**low, WORD - 1 - (2**high - 2**low))[kind]
    return (rng.getrandbits(32), rng.getrandbits(32) & rng.getrandbits(32), rng.randrange(16))[kind - 3]


def number(rng):
    kind = rng.randrange(8)
    if kind < 2:
        return rng.randrange(-2, 3) if kind else rng.randrange(-40, 41)
    if kind < 4:
        return rng.choice([1, -1]) * (2 ** rng.randrange(63) + rng.randrange(-2, 3)) if kind == 2 else rng.choice([1, -1]) * word(rng)
    if kind < 6:
        return word(rng) + WORD * rng.randrange(-3, 4) if kind == 4 else rng.randrange(LOW, HIGH + 1)
    return LOW + rng.randrange(3) if kind == 6 else HIGH - rng.randrange(3)


class Block:
    """Lines of operations, of which each makes an element out of those before."""

    def __init__(self, kind, rng):
        self.kind, self.rng, self.lines, self.counted = kind, rng, [], []
        self.roots = [self.root() for _ in range(FIRST)]
        for _ in range(BLOCK):
            self.counted.append(self.operation())

    def line(self, text):
        self.lines.append(text)
        return len(self.lines) - 1

    def root(self):
        rng = self.rng
        kind = rng.choice([0, 1, 2, 3, 4] if self.kind == "product" else [0, 1, 2, 2, 2, 2, 2, 2, 3])
        if kind == 0:
            return self.line("top")
        if kind == 1:
            return self.line(f"of {number(rng)}")
        if kind == 2:
            # what both numbers have at the places that are known
            known, value, far = word(rng) | 2 ** rng.randrange(33) - 1, word(rng), WORD * rng.choice([0, 0, 0, 1, -1, 2**20])
            one = self.line(f"of {value}")
            return self.line(f"join {one} {self.line(f'of {(value | known ^ WORD - 1) + far}')}")
        if kind == 3:
            modulus, rest = rng.choice([2 ** rng.randrange(20), rng.randrange(1, 100)]), number(rng)
            one = self.line(f"of {rest}")
            return self.line(f"join {one} {self.line(f'of {max(LOW, rest - modulus)}')}")
        low, high = sorted((number(rng), number(rng)))
        ends = rng.randrange(3)
        one = self.line(f"at_least {self.line('top')} {low}") if ends != 1 else self.line("top")
        return self.line(f"at_most {one} {high}") if ends != 2 else one

    def operation(self):
        rng = self.rng
        one, other = (rng.choice([*self.roots, *self.roots, *self.counted]) for _ in range(2))
        # (known bits know nothing of quotients and remainders)
        name = rng.choice([*OF_TWO, *OF_NUMBER, *(() if self.kind == "product" else 4 * ("join", "add", "sub", "mul", "mask", "shl", "shr"))])
        if name in OF_TWO:
            return self.line(f"{name} {one} {other}")
        most = OF_NUMBER[name]
        return self.line(f"{name} {one} {rng.randrange(most) if most else number(rng)}")


# ---- the independent program

class Answers:
    """The independent program's elements, as lists of numbers and open ends."""

    def __init__(self, folder):
        sys.path.insert(0, folder)
        import domain

        class Bits(domain.KnownBits):
            """Its known bits, and of a difference the low bits that both know."""

            def sub(self, a, b):
                return self.make(2 ** min(self.low(a), self.low(b)) - 1, a[1] - b[1])

        product = domain.Product(domain.Interval(), domain.Congruence())
        self.domains = {"bits": Bits(), "product": domain.Product(product, Bits())}

    def of(self, kind, lines):
        """What is made of a block's lines, each with its bounds and its residue."""
        domain = self.domains[kind]
        made = []
        for line in lines:
            name, *words = line.split()
            ns = [int(it) for it in words]
            if name == "top":
                made.append(domain.top)
            elif name == "of":
                made.append(domain.of(ns[0]))
            elif name in OF_TWO:
                made.append(getattr(domain, name)(made[ns[0]], made[ns[1]]))
            else:
                made.append(getattr(domain, name)(made[ns[0]], ns[1]))
        return [flat((it, domain.bounds(it), domain.residue(it))) for it in made]


def flat(it):
    return [number for part in it for number in flat(part)] if isinstance(it, tuple) else [it]


def shown(told):
    """The numbers and open ends of a line that the program prints."""
    return [None if it == "None" else int(it) for it in re.findall(r"None|-?\d+", told)]


def told_of(command, kind, blocks):
    """What the program prints of each line of these blocks."""
    with tempfile.NamedTemporaryFile("w", encoding="ascii") as out:
        for block in blocks:
            out.write("\n".join(["new", *block.lines, ""]))
        out.flush()
        return subprocess.run([command, kind, out.name], capture_output=True, text=True, check=True).stdout.splitlines()


def compare(command, answers, kind, blocks):
    """Prints the shortest example of each operation that differs, and how many do so."""
    told = iter(told_of(command, kind, blocks))
    different, open_ones, examples = {}, 0, {}
    for block in blocks:
        wanted = answers.of(kind, block.lines)
        got = [shown(next(told)) for _ in block.lines]
        top = flat((answers.domains[kind].top,))
        for at in block.counted:
            open_ones += wanted[at][:len(top)] == top
        for at, line in enumerate(block.lines):
            if got[at] != wanted[at]:
                name, *words = line.split()
                different[name] = different.get(name, 0) + 1
                operands = [str(wanted[int(it)]) for it in words[:2 if name in OF_TWO else 1]] + words[2 if name in OF_TWO else 1:]
                example = f"{name} of {', '.join(operands)} is {got[at]}, not {wanted[at]}"
                examples[name] = min(example, examples.get(name, example), key=len)
                break
    assert next(told, None) is None
    for example in examples.values():
        print(f"{kind}: {example}")
    count = sum(len(it.counted) for it in blocks)
    print(f"{kind}: {count} operations, {open_ones} of them know nothing; {sum(different.values())} blocks of {BLOCK} differ")
    return sum(different.values())


def main():
    if len(sys.argv) != 4:
        sys.exit(__doc__)
    folder, count, seed = sys.argv[1], int(sys.argv[2]), sys.argv[3]
    answers = Answers(folder)
    with program() as command:
        different = 0
        for kind in ("bits", "product"):
            blocks = [Block(kind, random.Random(f"{seed}:{at}")) for at in range(-(-count // BLOCK))]
            different += compare(command, answers, kind, blocks)
    sys.exit(1 if different else 0)


if __name__ == "__main__":
    main()
