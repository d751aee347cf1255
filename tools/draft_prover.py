"""What the program says of a kernel under a text of conditions, within a limit of work."""
import os
import re
import resource
import subprocess

WORDS = ["--wide", "--opencl", "--devices", "any"]
REMEDY = re.compile(r"^     =   ((?:arg|length|require|values) .*)$", re.M)
BUDGET = re.compile(r"budget\s+(\d+)\s+is\s+enough")


class OutOfTime(Exception):
    """The limit of work is passed."""


class Answer:
    """What the program said: `number` is 0 where it accepted, that of a refusal, or None where it did not end in time."""

    def __init__(self, status, text):
        self.text = text
        first = text.split("\n", 1)[0]
        refused = re.match(r"refused (\d+)", first)
        self.number = 0 if status == 0 and first == "accepted" else int(refused.group(1)) if refused else None
        told = text.split("\n\n", 1)[0].splitlines()
        # The findings, as they are printed.
        self.findings = [it for it in told[1:] if it != "no launch found at least values"] if self.number == 60 else []

    def is_accepted(self):
        return self.number == 0

    def head(self):
        """What `prove` prints, without what `explain` says behind it."""
        return self.text.split("\n\n", 1)[0].rstrip("\n")

    def confirmed(self):
        return [it for it in self.findings if " confirmed: " in it]

    def remedies(self):
        """Lines of the conditions that `explain` says to help, each once."""
        return list(dict.fromkeys(REMEDY.findall(self.text)))

    def enough(self):
        """The budget that `explain` says to be enough."""
        found = BUDGET.search(self.text)
        return int(found.group(1)) if found else None

    def left(self):
        """How much is left to be shown; what did not end, or was refused otherwise, counts as much."""
        return 0 if self.is_accepted() else len(self.findings) or 100


class Prover:
    """Asks the program of a kernel. `tell` is told before each question."""

    def __init__(self, program, kernel, folder, seconds, tell=lambda spent: None):
        self.program, self.kernel, self.folder, self.seconds, self.tell = program, kernel, folder, seconds, tell
        self.spent, self.asked, self.known = 0.0, 0, {}

    def ask(self, command, conditions, most):
        """What the program says; each question is asked once. One that takes more than so many processor seconds has no answer."""
        text = str(conditions)
        if (command, text) not in self.known:
            left = self.seconds - self.spent
            if left <= 0:
                raise OutOfTime
            self.tell(self.spent)
            self.known[command, text] = self.run(command, text, max(1, round(min(left, most))))
        return self.known[command, text]

    def run(self, command, text, seconds):
        path = os.path.join(self.folder, "conditions")
        with open(path, "w", encoding="ascii") as file:
            file.write(text)
        before = spent_by_children()
        with subprocess.Popen([self.program, command, self.kernel, path, *WORDS], stdin=subprocess.DEVNULL, stdout=subprocess.PIPE,
                              stderr=subprocess.PIPE, text=True, errors="replace", preexec_fn=lambda: limit(seconds)) as process:
            told, faults = process.communicate()
        self.spent += spent_by_children() - before
        self.asked += 1
        if process.returncode in (2, 3, 4):
            raise OSError(faults.strip() or told.strip())
        return Answer(process.returncode, told if process.returncode in (0, 1) else "")


def limit(seconds):
    resource.setrlimit(resource.RLIMIT_CPU, (seconds, seconds + 1))
    # (no file of a process that was ended is to be left)
    resource.setrlimit(resource.RLIMIT_CORE, (0, 0))


def spent_by_children():
    used = resource.getrusage(resource.RUSAGE_CHILDREN)
    return used.ru_utime + used.ru_stime
