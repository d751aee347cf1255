"""What the parts of hostile.py have in common: the table of what was tried, the kernels that are used, and runs of the program."""
import collections
import contextlib
import os
import re
import subprocess
import time

from hostile_sheets import DATA, LIMIT, Page, Sheet, common

REFUSING = os.path.join(os.path.dirname(os.path.abspath(__file__)), "hostile_refusing.c")
# Files of data/ that are no files of cases.
OTHERS = ("facts.txt", "launch.txt", "schedule.txt")


class Table:
    """What was tried, a row each, and what was not as it has to be."""

    def __init__(self):
        self.rows, self.faults = [], []

    @contextlib.contextmanager
    def row(self, what):
        """A row of the table: its outcomes are counted in what is given."""
        begun, ends, before = time.monotonic(), collections.Counter(), len(self.faults)
        ends.more = ""
        yield ends
        is_well = len(self.faults) == before and ends
        what += ends.more
        told = ", ".join(f"{count:,} {end}" for end, count in sorted(ends.items()))
        seconds, verdict = time.monotonic() - begun, "yes" if is_well else "**no**"
        self.rows.append(f"| {what} | {sum(ends.values()):,} | {told} | {seconds:.1f} | {verdict} |")
        print(self.rows[-1], flush=True)
        if not ends:
            self.faults.append(f"{what}: nothing was tried")

    def fault(self, what):
        self.faults.append(what)
        print(f"    {what if len(what) < 1200 else what[:700] + ' .. ' + what[-400:]}", flush=True)


class Trial:
    """What all parts share."""

    def __init__(self, folder, asked):
        self.folder, self.asked, self.table = folder, asked, Table()
        self.pages = {it: Page(it) for it in sorted(os.listdir(DATA)) if it.endswith(".txt") and it not in OTHERS}
        self.library = os.path.join(folder, "refusing.so")
        subprocess.run(["cc", "-shared", "-fPIC", "-O1", "-o", self.library, REFUSING, "-ldl"], check=True)
        self.take_files()
        self.make_certificates()

    def take_files(self):
        """The kernels that are used, each by its heading in the tests of texts, and texts that belong to them."""
        rows, runs = self.pages["rows.txt"].headed, self.pages["runs.txt"].headed
        fill, lines = rows["A fill."], self.pages["lines.txt"].files
        tree, loop = rows["A tree reduction."], rows["A loop by the number of items."]
        fence, turned = rows["The other fence."], runs["What was stored before a barrier is loaded behind it."]
        trees = self.pages["barriers.txt"].files
        self.files = {
            "fill": fill["kernel"], "fill.c": fill["conditions"], "fill.1": lines["p"], "fill.l": lines["l"],
            "tree": tree["kernel"], "tree.c": tree["conditions"], "tree.1": trees["tree.p"],
            "loop": loop["kernel"], "loop.c": loop["conditions"], "loop.l": self.pages["runs.txt"].files["stride.l"],
            "fence": fence["kernel"], "fence.c": fence["conditions"],
            "turned": turned["turned"], "turned.c": turned["turned.c"], "turned.l": turned["turned.l"],
        }
        weight = b"s 64 1 1 2 1 3\n"
        assert weight in lines["p"]
        self.files["fill.less"] = lines["p"].replace(weight, b"s 63 1 1 2 1 3\n", 1)
        own = self.pages["runs.txt"].files
        self.files |= {"own": own["own"], "own.c": own["own.c"], "own.l": own["own.l"], "few.l": own["stride.few"]}
        # (with these budgets each of 64 workers has enough to do, so that a run starts as many as it is told)
        for name in ("fill", "loop", "turned", "own"):
            self.files[f"{name}.m"] = re.sub(rb"budget \d+\n", b"budget 10000000\n", self.files[f"{name}.c"])

    def make_certificates(self):
        """Adds what `prove` finds for some of the kernels, and certificates of the others in version 2."""
        sheet = Sheet(self.files)
        for name in ("loop", "turned", "own"):
            sheet.ask(f"prove {name} {name}.c --out {name}.p", (0, b"accepted\n"))
            sheet.ask(f"certificate {name}.p")
        found = sheet.answers(self.folder)
        self.files |= {f"{name}.p": found[at][1] for at, name in ((1, "loop"), (3, "turned"), (5, "own"))}
        for name in ("fill", "tree"):
            self.files[f"{name}.2"] = common.certificate_text(lines_of_one(self.files[f"{name}.1"].decode()), 2).encode()

    def put(self, files):
        """Writes files to the folder in which the program runs."""
        for name, text in files.items():
            with open(os.path.join(self.folder, name), "wb") as out:
                out.write(text)

    def program(self, words, timeout=LIMIT, before=None, **more):
        """One run of the program on files of the folder: its status and its outputs."""
        environment = {**os.environ, **{key: value for key, value in more.items() if key.isupper()}}
        given = {"stdout": subprocess.PIPE, "stderr": subprocess.PIPE, **{key: value for key, value in more.items() if not key.isupper()}}
        how = {"cwd": self.folder, "env": environment, "preexec_fn": before, "timeout": timeout, **given}
        done = subprocess.run([common.KVERIFY, *words.split()], **how)
        return done.returncode, done.stdout, done.stderr


def lines_of_one(certificate):
    """The lines of a certificate of version 1 between the first and the last, each with the form at its end, or none, apart."""
    lines = []
    for text in certificate.splitlines()[1:-1]:
        found = re.match(r"(fact|mod \d+|loop \d+ (?:down \d+|halve) -?\d+|ob \d+ quot) (.*)$", text)
        lines.append((found[1], found[2]) if found else (text, None))
    return lines


def judge(trial, ends, what, found, *wanted):
    """Counts an outcome; one that is not among those that are wanted is a fault."""
    if found in wanted:
        ends[("as it has to be", "out of memory")[wanted.index(found)] if len(wanted) == 2 else "as it has to be"] += 1
    else:
        ends["other"] += 1
        trial.table.fault(f"{what}: {found!r:.500}")


def count(trial, ends, what, sheet, well):
    """Runs a sheet, and counts what is as told."""
    found = sheet.answers(trial.folder)
    if found is None:
        trial.table.fault(f"{what}: status {sheet.status}, {sheet.told[:200]!r}")
        return
    ends[well] += len(sheet.asked) - len(found)
    for at, it in found.items():
        ends["other"] += 1
        trial.table.fault(f"{what}: the command {at}, {sheet.text[sheet.asked[at] - 1].decode()}: {it}")


def read(trial, name):
    with open(os.path.join(trial.folder, name), "rb") as found:
        return found.read()


def remove(trial, name):
    with contextlib.suppress(FileNotFoundError):
        os.remove(os.path.join(trial.folder, name))


def parts(trial):
    """What there is of a file that was to be written."""
    return [it for it in os.listdir(trial.folder) if it.startswith("made")]
