"""What the parts of hostile.py write of texts: the files of cases, and sheets of commands that the program of the tests of texts runs."""
import os
import re
import subprocess
import sys

sys.path.insert(0, os.path.join(os.path.dirname(os.path.dirname(os.path.abspath(__file__))), "bench"))
import common  # noqa: E402

CASES = os.environ.get("CASES", common.CASES)
DATA = os.path.join(common.ROOT, "crates", "cases", "data")
# The length of a file whose reading tells hostile_refusing.c that a command comes next.
MARK = 77_777
LIMIT = 3600


def unescaped(text):
    """The bytes of a text with `\\n`, `\\xHH` and the like."""
    plain = {b"n": b"\n", b"r": b"\r", b"t": b"\t", b"\\": b"\\"}
    return re.sub(rb"\\(x[0-9a-fA-F]{2}|.)", lambda it: plain.get(it[1]) or bytes([int(it[1][1:], 16)]), text)


def escaped(text):
    return re.sub(rb"[^ -\[\]-~]", lambda it: b"\\x%02x" % it[0][0], text)


class Page:
    """A file of cases: under each heading, its files as they stand there, and its commands."""

    def __init__(self, name):
        self.files, self.headed, self.commands, heading = {}, {}, [], None
        with open(os.path.join(DATA, name), "rb") as lines:
            for line in lines.read().split(b"\n"):
                mark, _, text = line.partition(b" ")
                if mark == b"#":
                    heading = text.decode()
                elif mark == b"file":
                    told = text.decode()
                    self.files[told] = b""
                elif mark == b"$":
                    self.commands.append((text.decode("utf-8", "replace").split(), dict(self.files)))
                    self.headed.setdefault(heading, dict(self.files))
                elif mark == b"|<":
                    named, first, last = text.decode().split()
                    kept = self.files.get(named, b"").split(b"\n")[int(first) - 1:int(last)]
                    self.files[told] += b"".join(it + b"\n" for it in kept)
                elif mark == b"|*":
                    count, _, often = text.partition(b" ")
                    self.files[told] += unescaped(often) * int(count)
                elif mark.startswith(b"|"):
                    self.files[told] += unescaped(text) if mark == b"|\\" else text + b"\n"


class Sheet:
    """Commands over files in memory, which one process runs one after the other."""

    def __init__(self, files=()):
        self.text, self.asked = [], []
        self.add(dict(files))
        self.add({"mark": b"x" * MARK})

    def add(self, files):
        for name, text in files.items():
            self.text += [b"file " + name.encode(), *(b"|\\ " + escaped(it) for it in re.findall(rb"(?s).{1,4096}", text))]

    def ask(self, words, told=None):
        """A command, and what it is to answer, a status and its output; without it the answer is told in any case."""
        self.text.append(b"$ " + words.encode())
        self.asked.append(len(self.text))
        status, out = (255, b"") if told is None else told
        lines = out.split(b"\n")
        self.text += [b"! " + out[:-1]] if status == 4 else [b">\\ " + escaped(it + b"\n") for it in lines[:-1]]
        self.text.append(b"= %d" % status)

    def mark(self):
        self.ask("same mark mark", (0, b""))

    def answers(self, folder, **environment):
        """What differs from what was told, by the numbers of the commands; None where the process ended early."""
        file = os.path.join(folder, "sheet.txt")
        with open(file, "wb") as out:
            out.write(b"\n".join(self.text) + b"\n")
        done = subprocess.run([CASES, "cases", file], capture_output=True, env={**os.environ, **environment}, timeout=LIMIT)
        self.status, self.told = done.returncode, done.stderr
        if done.returncode not in (0, 1) or b" as told\n" not in done.stdout:
            return None
        numbers = {line: at for at, line in enumerate(self.asked)}
        found = re.finditer(rb"line (\d+): [^\n]*\nfound: status (\d+)\n(.*?)told: status \d+\n", done.stdout, re.DOTALL)
        return {numbers[int(it[1])]: (int(it[2]), it[3]) for it in found}


def answers_of(folder, files, words):
    """The answers to commands that are asked one after the other."""
    sheet = Sheet(files)
    for it in words:
        sheet.ask(it)
    found = sheet.answers(folder)
    return [found[at] for at in range(len(words))]
