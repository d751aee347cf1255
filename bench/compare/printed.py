#!/usr/bin/env python3
"""Compares `kverify print` with another program that prints canonical texts.

Each kernel (`*.cl`) below the folders is printed by both: standard output and status have to be the same. What is printed is printed
again, and has to stay. With --make the folder is first filled with random kernels that use the whole language, spelt at random. With
--exits only kernels with a `return`, `break` or `continue` are compared.

    printed.py [--make COUNT SEED] [--exits] COMMAND FOLDER ..

COMMAND is the other program with its words, to which the name of a file is added, as 'python3 other.py print'.
"""
import collections
import concurrent.futures
import pathlib
import random
import shlex
import subprocess
import sys
import tempfile

sys.path.insert(0, str(pathlib.Path(__file__).resolve().parent.parent))
from common import KVERIFY, has_exit

INFIX = ["*", "/", "%", "+", "-", "<<", ">>", "<", ">", "<=", ">=", "==", "!=", "&", "^", "|", "&&", "||"]
ASSIGN = ["=", "+=", "-=", "*=", "/=", "%=", "&=", "|=", "^="]


class Maker:
    """A random kernel with two buffers, two arguments, a local array and private variables."""

    def __init__(self, seed):
        self.random = random.Random(seed)
        self.names = ["n", "m"]
        self.made = 0
        self.loops = 0

    def one_of(self, *these):
        return self.random.choice(these)

    def gap(self):
        return self.one_of("", "", " ", "  ", "\n", "\t", " /* ) */ ", " // }\n")

    def joined(self, *parts):
        return "".join(part + (self.gap() or " ") for part in parts)

    def number(self):
        value = self.one_of(0, 1, 2, 7, 31, 4095, 2147483647, self.random.randrange(2**31))
        return self.one_of("{}", "{}u", "{}U", "0x{:x}", "0X{:X}u").format(value)

    def operand(self, depth):
        text = self.expression(depth)
        return f"({self.gap()}{text})" if self.random.random() < 0.7 else text

    def expression(self, depth):
        kind = self.random.randrange(12) if depth else self.random.randrange(3)
        if kind < 2:
            return self.one_of(*self.names)
        if kind == 2:
            return self.one_of(self.number(), f"get_global_id({self.random.randrange(3)})")
        if kind == 3:
            return f"{self.one_of('a', 'b', 't')}[{self.gap()}{self.expression(depth - 1)}]"
        if kind == 4:
            kind = self.one_of("uint", "int")
            return f"{self.one_of('min', 'max')}(({kind})({self.expression(depth - 1)}),{self.gap()}({kind})({self.expression(depth - 1)}))"
        if kind == 5:
            return f"{self.one_of('-', '!', '~')}{self.gap()}({self.expression(depth - 1)})"
        if kind == 6:
            return f"({self.one_of('int', 'uint')}){self.gap()}{self.operand(depth - 1)}"
        if kind == 7:
            return self.joined(self.operand(depth - 1), "?", self.operand(depth - 1), ":", self.operand(depth - 1))
        sign = self.one_of(*INFIX)
        if sign in ("<<", ">>"):
            return self.joined(f"((uint)({self.expression(depth - 1)}))", sign, str(self.random.randrange(32)))
        return self.joined(self.operand(depth - 1), sign, self.operand(depth - 1))

    def assignment(self):
        sign = self.one_of(*ASSIGN)
        target = self.one_of(*self.names, f"b[{self.one_of(*self.names)}]", f"t[{self.number()}]")
        return self.joined(target, sign, self.expression(4))

    def declaration(self):
        self.made += 1
        name = f"v{self.made}"
        return name, self.joined(self.one_of("int", "uint"), name, "=", self.expression(3))

    def jump(self):
        """An early exit; outside all loops seldom one of a loop, which is refused."""
        words = ["return", "break", "continue"] if self.loops or self.random.random() < 0.02 else ["return"]
        return f"{self.one_of(*words)}{self.gap()};"

    def part(self, depth):
        chance = self.random.random()
        if chance < 0.2:
            return self.jump()
        if chance < 0.4:
            return self.assignment() + ";"
        return "{" + self.statements(depth) + "}"

    def body(self, depth):
        self.loops += 1
        text = self.part(depth)
        self.loops -= 1
        return text

    def statement(self, depth):
        kind = self.random.randrange(10) if depth else self.random.randrange(4)
        if kind < 2:
            return self.jump() if self.random.random() < 0.1 else self.assignment() + ";"
        if kind == 2:
            name, text = self.declaration()
            self.names.append(name)
            return text + ";"
        if kind == 3:
            return f"barrier({self.one_of('CLK_LOCAL_MEM_FENCE', 'CLK_GLOBAL_MEM_FENCE', 'CLK_LOCAL_MEM_FENCE|CLK_GLOBAL_MEM_FENCE')});"
        outer = list(self.names)
        if kind < 6:
            text = f"if{self.gap()}({self.expression(3)}){self.part(depth - 1)}"
            self.names = list(outer)
            text += self.one_of("", " else " + self.part(depth - 1), f" else if ({self.expression(2)}) {self.part(depth - 1)}")
        elif kind == 6:
            text = f"while ({self.expression(3)}) {self.body(depth - 1)}"
        elif kind == 7:
            text = "{" + self.statements(depth - 1) + "}"
        else:
            first = self.assignment()
            if self.random.random() < 0.5:
                name, first = self.declaration()
                self.names.append(name)
            text = f"for ({first};{self.expression(3)};{self.assignment()}) {self.body(depth - 1)}"
        self.names = outer
        return text

    def statements(self, depth):
        outer = list(self.names)
        text = "".join(self.statement(depth) + self.gap() for _ in range(self.random.randrange(5)))
        self.names = outer
        return text

    def kernel(self):
        sizes = ",".join(self.one_of("1", "2", "0x4", "8u") for _ in range(3))
        head = f"{self.one_of('kernel', '__kernel')} __attribute__((reqd_work_group_size({sizes}))) void k"
        space = self.one_of("global", "__global")
        parameters = f"({space} {self.one_of('', 'const ')}uint*a,{space} int *{self.gap()}b, int n,uint{self.gap() or ' '}m)"
        return f"{head}{self.gap()}{parameters}{self.gap()}{{{self.one_of('local', '__local')} uint t[{self.one_of('16', '0x10u')}];{self.statements(3)}}}\n"


def answer(words, file):
    done = subprocess.run([*words, str(file)], capture_output=True, check=False)
    return done.returncode, done.stdout


def compared(other, file):
    """How the kernel was answered, and what is wrong, if anything is."""
    mine = answer([KVERIFY, "print"], file)
    if mine != answer(other, file):
        return "differs", file
    if mine[0] != 0:
        return mine[1].split(b":")[0].rsplit(b" ", 1)[0].decode(), None
    with tempfile.NamedTemporaryFile(suffix=".cl") as again:
        again.write(mine[1])
        again.flush()
        second = answer([KVERIFY, "print"], again.name)
    if second == mine:
        return "printed, and again", None
    if len(mine[1]) > 65536 and second == (1, b"refused 5 1:1\n"):
        return "printed, too long to be read", None
    return "changes when printed again", file


def main():
    words = sys.argv[1:]
    count = 0
    if words[:1] == ["--make"]:
        count, seed = int(words[1]), int(words[2])
        words = words[3:]
    exits = words[:1] == ["--exits"]
    words = words[exits:]
    if len(words) < 2:
        sys.exit(__doc__)
    other, folders = shlex.split(words[0]), [pathlib.Path(it) for it in words[1:]]
    for n in range(count):
        (folders[0] / f"random_{seed + n}.cl").write_text(Maker(seed + n).kernel())
    files = sorted(file for folder in folders for file in folder.rglob("*.cl"))
    if exits:
        files = [file for file in files if has_exit(file.read_text())]
    found, wrong = collections.Counter(), []
    with concurrent.futures.ThreadPoolExecutor(2) as pool:
        for how, file in pool.map(lambda file: compared(other, file), files):
            found[how] += 1
            if file is not None:
                wrong.append(file)
    for how, times in sorted(found.items()):
        print(f"{times:6} {how}")
    for file in wrong:
        print(f"wrong: {file}")
    sys.exit(1 if wrong or not files else 0)


if __name__ == "__main__":
    main()
