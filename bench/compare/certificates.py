#!/usr/bin/env python3
"""Compares with an independent program how texts of certificates are read and migrated, in both versions.

    certificates.py FOLDER COUNT SEED       COUNT random certificates; FOLDER has the modules of the independent program; each certificate
                                            in both versions, and of each text two changed ones

Half of the certificates have random lines, and are for a kernel with a barrier and two loops; the others are those of examples/ and two
that `prove` finds, with some lines changed. Each text is given to `migrate`, of which the status, what is printed and the file are
compared, and to `check`. What `check` answers of a text that is none, 50 with a line or 51, is compared as strictly; what it answers of others is
told, too, where it differs, as it does where a certificate has numbers at the ends of 64 bits.

Build the program first: ./kverify build
"""
import itertools
import os
import re
import subprocess
import sys
import tempfile

sys.path.insert(0, os.path.dirname(os.path.dirname(os.path.abspath(__file__))))
from common import KVERIFY, ROOT, certificate_lines, certificate_text, dice_of, print_counts, put

CHANGED = 2
LOOPS = """__kernel __attribute__((reqd_work_group_size(8, 1, 1))) void k(__global uint *a, __global const int *b, uint n, int m) {
  uint x = get_local_id(0);
  int y = m;
  __local uint t[8];
  for (uint i = 0u; i < n; i += 1u) {
    t[x] = i;
    barrier(CLK_LOCAL_MEM_FENCE);
  }
  while (x > 0u) {
    x = x / 2u;
    y = y % 3;
  }
  a[get_global_id(0)] = x / n;
}
"""
LOOPS_CONDITIONS = """conditions 1
groups 1..2 1..1 1..1
arg n 1..9
arg m -5..5
length a >= 16
length b >= n
budget 1000
"""
STRIDE = """__kernel __attribute__((reqd_work_group_size(64, 1, 1))) void k(__global uint *a, uint n) {
  for (uint i = get_global_id(0); i < n; i += 1024u) a[i] = 0u;
}
"""
STRIDE_CONDITIONS = """conditions 1
groups 16..16 1..1 1..1
arg n 0..65536
length a >= n
budget 1000
"""
EXAMPLES = ("fill", "fill_argument", "guard", "halve", "tree_reduction", "two_dimensions")
LOW, HIGH = -(2**63), 2**63 - 1
NAMES = ["x", "y", "i", "@x", "@y", "@i", "$4", "$9", "#1", "#2", "arg.n", "arg.m", "len.a", "len.b", "groups.0", "groups.1", "group.0", "group.1",
         "group.2", "local.0", "local.1"]
OTHERS = ["z", "_", "_x9", "X", "arg.arg", "len.x", "arg.groups", "groups", "local", "$0", "#0", "#4294967296", f"${HIGH}", "e" * 40]


def small(rng):
    return rng.choice([0, 1, 1, 2, 3, 4, 7, 8, 16, 64, 1024])


def whole(rng):
    """A number of a form, a weight or the like."""
    return rng.choice([small(rng), small(rng), -small(rng), rng.randrange(-100, 100), rng.choice([LOW, LOW + 1, HIGH, HIGH - 1, 2**32, -(2**31)])])


def natural(rng, least):
    return max(least, rng.choice([small(rng), small(rng), rng.randrange(1, 100), rng.choice([HIGH, HIGH - 1, 2**32])]))


def rising(rng, count, number):
    return sorted({number(rng) for _ in range(count)})


class Random:
    """Lines of a random certificate: each a text, and the form that stands at its end or none."""

    def __init__(self, rng):
        self.rng = rng
        self.forms = [self.form() for _ in range(rng.randrange(1, 6))]

    def form(self):
        rng = self.rng
        names = sorted({rng.choice(NAMES if rng.random() < 0.9 else OTHERS) for _ in range(rng.randrange(4))})
        return " + ".join([f"{whole(rng) or 1}*{name}" for name in names] + [str(whole(rng))])

    def one_form(self):
        """One that another line may have, too."""
        return self.rng.choice(self.forms) if self.rng.random() < 0.7 else self.form()

    def spots(self):
        found = set()
        for _ in range(self.rng.randrange(4)):
            anchor = self.rng.choice([-1, 8, 8, 0, natural(self.rng, 0)])
            found.add((anchor, self.rng.choice([-1, -1, 9, 9, 4, natural(self.rng, 0)])))
        names = ["entry" if anchor < 0 else f"b{anchor}" for anchor, _ in sorted(found)]
        return [name + (f"/h{head}" if head >= 0 else "") for name, (_, head) in zip(names, sorted(found))]

    def places(self):
        rng = self.rng
        for spot in self.spots():
            same = [(f"same {rng.choice(['x', 'y', 'i', 'n', '_', 'Zz0'])}", None) for _ in range(rng.choice([0, 0, 1, 2]))]
            facts = [("fact", self.one_form()) for _ in range(rng.randrange(3))]
            mods = [(f"mod {natural(rng, 2)}", self.one_form()) for _ in range(rng.choice([0, 0, 1, 2]))]
            yield f"place {spot}", None
            yield from same + facts + mods or [("fact", self.one_form())]

    def bounds(self):
        rng = self.rng
        numbers = [4, 9] if rng.random() < 0.7 else rising(rng, rng.randrange(4), lambda it: natural(it, 0))
        for number in numbers:
            yield f"loop {number} {rng.choice(['halve', f'down {natural(rng, 1)}'])} {whole(rng)}", self.one_form()

    def step(self):
        rng = self.rng
        kind = rng.randrange(4)
        if kind == 0:
            return f"d {whole(rng)} {whole(rng)}"
        if kind == 1:
            return " ".join(["s", *(f"{whole(rng)} {line}" for line in rising(rng, rng.randrange(1, 4), whole))])
        return f"g {whole(rng)}"

    def entries(self):
        rng = self.rng
        for number in rising(rng, rng.randrange(6), lambda it: natural(it, 1)):
            word = rng.choice(["show", "show", "pos", "neg", "quot", "quot"])
            yield f"ob {number} {word}", self.one_form() if word == "quot" else None
            yield from ((self.step(), None) for _ in range(rng.randrange(4)))

    def lines(self):
        return [*self.places(), *self.bounds(), *self.entries()]


def changed_lines(rng, certificate):
    """The lines of a certificate of version 2; in some texts a number or a form is another one."""
    lines = certificate_lines(certificate.decode())
    forms = [form for _, form in lines if form is not None]
    for _ in range(rng.choice([0, 0, 1, 1, 2])):
        at = rng.randrange(len(lines))
        front, form = lines[at]
        if form is not None and rng.random() < 0.5:
            lines[at] = front, rng.choice([*forms, Random(rng).form()])
        elif front.startswith(("g ", "s ", "d ")):
            lines[at] = re.sub(r"\d+$", str(small(rng)), front) if rng.random() < 0.5 else f"g {small(rng)}", None
    return lines


# ---- changed texts

def with_number(rng, line):
    """A line in which a number is another one, or is spelt otherwise."""
    found = list(re.finditer(r"-?\d+", line))
    if not found:
        return line + rng.choice([" 1", "1", " "])
    it = rng.choice(found)
    number = int(it[0])
    others = [number + 1, number + 2, number - 1, -number, 0, LOW - 1, HIGH + 1, HIGH, 10**40, f"0{it[0]}", f"+{it[0]}", "-0", "", f"{it[0]}.", "x"]
    return f"{line[:it.start()]}{rng.choice(others)}{line[it.end():]}"


WORDS = ["certificate", "form", "place", "same", "fact", "mod", "loop", "down", "halve", "ob", "show", "pos", "neg", "quot", "g", "s", "d",
         "end", "entry", "Form", "", "+", "*", "x", "1*x"]


def with_word(rng, line):
    words = line.split(" ")
    words[rng.randrange(len(words))] = rng.choice(WORDS)
    return " ".join(words)


def with_table(rng, lines):
    """A form twice, one that no line uses, or the table in another order."""
    forms = [at for at, it in enumerate(lines) if it.startswith("form ")]
    kind = rng.randrange(3)
    if kind == 0 and forms:
        lines.insert(rng.choice(forms) + rng.randrange(3), lines[rng.choice(forms)])
    elif kind == 1 and len(forms) > 1:
        i, j = rng.sample(forms, 2)
        lines[i], lines[j] = lines[j], lines[i]
    else:
        lines.insert(1 + rng.randrange(len(forms) + 1), f"form {Random(rng).form()}")


def with_use(rng, lines):
    """A line that uses another form: none of the table, or one too early or late."""
    users = [at for at, it in enumerate(lines) if re.match("(fact|mod|loop) |ob -?[0-9]+ quot ", it)]
    forms = sum(it.startswith("form ") for it in lines)
    if users:
        at = rng.choice(users)
        front = lines[at].rsplit(" ", 1)[0]
        others = [0, 1, 2, forms, forms + 1, forms + 2, rng.randrange(forms + 3), HIGH, HIGH + 1, -1, "01", "1 + 1", "1*x + 1"]
        lines[at] = f"{front} {rng.choice(others)}"


def with_lines(rng, lines):
    """Lines in another order, one less or one twice."""
    i, j = rng.randrange(len(lines)), rng.randrange(len(lines))
    kind = rng.randrange(3)
    if kind == 0:
        lines[i], lines[j] = lines[j], lines[i]
    elif kind == 1:
        del lines[i]
    else:
        lines.insert(i, lines[j])


def with_bytes(rng, text):
    """A byte less, more or another one, or the text's end."""
    at = rng.randrange(len(text) + 1)
    byte = rng.choice(["\n", " ", "\r", "\t", "\0", "\xe9", "0", "1", "-", "*", "+", "#", "$", "@", "/", ".", "x", "E"])
    return rng.choice([text[:at] + text[at + 1:], text[:at] + byte + text[at:], text[:at] + byte + text[at + 1:], text[:at], text[:-1], text + byte])


def changed(rng, text):
    for _ in range(rng.choice([1, 1, 1, 2])):
        lines = text.split("\n")
        kind = rng.randrange(9)
        if kind < 2:
            with_table(rng, lines)
        elif kind < 4:
            with_use(rng, lines)
        elif kind == 4:
            with_lines(rng, lines)
        elif kind < 7:
            at = rng.randrange(len(lines))
            lines[at] = (with_number if kind == 5 else with_word)(rng, lines[at])
        elif kind == 7:
            heads = [f"certificate {it}" for it in (0, 1, 2, 3, 4, -1, "01", "02", HIGH, HIGH + 1, LOW, "", "2 ", "x")]
            lines[0] = rng.choice([*heads, "certificate", "certificates 2", "Certificate 2", " certificate 2", ""])
        text = "\n".join(lines)
        if kind == 8:
            text = with_bytes(rng, text)
    return text


# ---- the comparison

class Answers:
    """The independent program's answers."""

    def __init__(self, folder):
        sys.path.insert(0, folder)
        import cert
        import check
        import config

        config.stage("e")
        self.cert, self.check, self.refusal = cert, check, config.Refused

    def migrated(self, text):
        """The status, what is printed, and the new text."""
        try:
            return 0, b"migrated\n", self.cert.migrate(text)
        except self.refusal as error:
            return 1, error.line().encode() + b"\n", None

    def checked(self, kernel, conditions, text):
        try:
            self.check.check(kernel, conditions, text)
            return 0, b"accepted\n"
        except self.refusal as error:
            return 1, error.line().encode() + b"\n"


class Program:
    """The program's answers, by files in a folder."""

    def __init__(self, folder):
        names = ("kernel.cl", "conditions.txt", "old.txt", "new.txt")
        self.kernel, self.conditions, self.old, self.new = (os.path.join(folder, it) for it in names)

    def said(self, *words):
        done = subprocess.run([KVERIFY, *words], capture_output=True, timeout=600)
        return done.returncode, done.stdout

    def migrated(self, text):
        put(self.old, text)
        status, told = self.said("migrate", self.old, self.new)
        if not os.path.exists(self.new):
            return status, told, None
        with open(self.new, "rb") as found:
            made = found.read()
        os.remove(self.new)
        return status, told, made

    def proved(self, kernel, conditions):
        """The certificate that is found."""
        put(self.kernel, kernel)
        put(self.conditions, conditions)
        assert self.said("prove", self.kernel, self.conditions, "--out", self.old) == (0, b"accepted\n")
        with open(self.old, "rb") as found:
            return found.read()

    def checked(self, kernel, conditions, text):
        for name, content in ((self.kernel, kernel), (self.conditions, conditions), (self.old, text)):
            put(name, content)
        return self.said("check", self.kernel, self.conditions, self.old)


def sources(program):
    """Kernels with their conditions and a certificate: the examples, and those above with the certificate that `prove` finds."""
    for name in EXAMPLES:
        texts = []
        for end in ("cl", "conditions", "certificate"):
            with open(os.path.join(ROOT, "examples", f"{name}.{end}"), "rb") as found:
                texts.append(found.read())
        yield texts
    for kernel, conditions in ((LOOPS, LOOPS_CONDITIONS), (STRIDE, STRIDE_CONDITIONS)):
        yield kernel.encode(), conditions.encode(), program.proved(kernel.encode(), conditions.encode())


def is_read(told):
    """Whether `check`, which answered so, read the certificate's text."""
    return not told.startswith((b"refused 50 ", b"refused 51\n"))


def compare(folder, count, seed):
    answers = Answers(folder)
    names = ("certificates", "texts", "migrated", "of version 2 and read", "refused 50", "refused 51", "accepted")
    found = dict.fromkeys([*names, "read alike, but checked otherwise", "different"], 0)
    with tempfile.TemporaryDirectory() as place:
        program = Program(place)
        proved = list(sources(program))
        for attempt, rng in itertools.islice(dice_of(seed), count):
            kernel, conditions, certificate = rng.choice(proved) if attempt % 2 else (LOOPS.encode(), LOOPS_CONDITIONS.encode(), None)
            lines = changed_lines(rng, certificate) if certificate else Random(rng).lines()
            texts = [certificate_text(lines, version) for version in (1, 2)]
            texts += [changed(rng, text) for text in texts for _ in range(CHANGED)]
            found["certificates"] += 1
            for at, text in enumerate(it.encode("latin-1") for it in texts):
                moved, verdict = program.migrated(text), program.checked(kernel, conditions, text)
                found["texts"] += 1
                found["migrated"] += moved[0] == 0
                found["of version 2 and read"] += text.startswith(b"certificate 2\n") and is_read(verdict[1])
                found["refused 50"] += verdict[1].startswith(b"refused 50 ")
                found["refused 51"] += verdict[1] == b"refused 51\n"
                found["accepted"] += verdict == (0, b"accepted\n")
                both = (moved, answers.migrated(text)), (verdict, answers.checked(kernel, conditions, text))
                for command, (got, wanted) in zip(("migrate", "check"), both):
                    if got != wanted:
                        is_alike = command == "check" and is_read(got[1]) and is_read(wanted[1])
                        found["read alike, but checked otherwise" if is_alike else "different"] += 1
                        print(f"certificate {seed}:{attempt}, text {at}: {command} gives {got}, not {wanted}: {text!r}")
    print_counts(found)
    return found["different"]


def main():
    if len(sys.argv) != 4:
        sys.exit(__doc__)
    sys.exit(1 if compare(sys.argv[1], int(sys.argv[2]), int(sys.argv[3])) else 0)


if __name__ == "__main__":
    main()
