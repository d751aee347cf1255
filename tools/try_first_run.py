#!/usr/bin/env python3
"""Tries the first calls of ../kverify on a clean clone, and prints as a Markdown table how long they take and whether all went well.

usage: tools/try_first_run.py > TABLE, at the top of the repository: some fifteen minutes. It tries what is committed.

What the calls write to the standard error comes there. Seconds are those of the clock; behind those of a call that compiles stand its
processor seconds. The status is 1 where something is not as it has to be.

Proofs would take an hour. So a script that prints its words stands in for the proved program, with a record as tools/build.py writes it.
"""
import contextlib
import datetime
import glob
import os
import resource
import shutil
import signal
import subprocess
import sys
import tempfile
import time

# (no file is to appear beside this one)
sys.dont_write_bytecode = True
import records

LABEL = "kverify: nothing is proved of the program that answers here; ./kverify build proves it"
LIMIT = 1800
QUIET = {"stdin": subprocess.DEVNULL, "stdout": subprocess.PIPE, "text": True}
# A word of the program's usage, in the file that has it, and words that take its place.
CHANGED, USAGE, OTHERS = "crates/program/src/one_run.rt", b"usage: kverify", (b"usage: KVERIFY", b"usage: Kverify")
# The program that stands in for the proved one, and what it prints where the caller says little.
STAND_IN, FILL = "#!/bin/sh\necho $*\n", ("examples/fill.cl", "examples/fill.conditions")
PRINTED = "prove --wide --devices any " + " ".join(FILL) + "\n"
# Files of the proved program's sources: one that the unproved program is not compiled from, and a folder of code.
SPEC, CODE = "crates/words/specs/View.antt", "crates/words/src"
# The seconds that a look may take.
LOOK = 0.05


def processor():
    used = resource.getrusage(resource.RUSAGE_CHILDREN)
    return used.ru_utime + used.ru_stime


class Call:
    """A call of ./kverify, in a process group of its own."""

    def __init__(self, clone, *words, program="./kverify", before_path=""):
        self.started, self.used, self.errors = time.monotonic(), processor(), tempfile.TemporaryFile("w+")
        how = {"cwd": clone, "start_new_session": True, "stderr": self.errors, **QUIET}
        how["env"] = {**os.environ, "PATH": before_path + os.environ["PATH"]}
        self.ran = subprocess.Popen([program, *words], **how)

    def said(self):
        """What it wrote to the standard error so far."""
        self.errors.seek(0)
        return self.errors.read()

    def ended(self):
        self.out, _ = self.ran.communicate(timeout=LIMIT)
        self.seconds, self.used, self.err = time.monotonic() - self.started, processor() - self.used, self.said()
        sys.stderr.write(self.err)
        return self

    def broken_off(self, by):
        os.killpg(self.ran.pid, by)
        return self.ended()

    def is_labelled(self):
        return self.err.splitlines().count(LABEL) == 1

    def has_compiled(self):
        return "compiling" in self.err

    def is_right(self, out="accepted\n", status=0):
        return self.out == out and self.ran.returncode == status and self.is_labelled()


class Trial:
    def __init__(self, clone):
        self.clone, self.folder, self.rows, self.all_well = clone, f"{clone}/crates/kverify/out/unproved", [], True

    def told(self, what, seconds, is_well):
        self.rows.append(f"| {what} | {seconds} | {'yes' if is_well else '**no**'} |")
        self.all_well = self.all_well and is_well

    def prove(self, name="fill", **how):
        return Call(self.clone, "prove", f"examples/{name}.cl", f"examples/{name}.conditions", **how)

    def dearest(self, when):
        """Proves all examples, and tells of the one that took longest."""
        names = sorted(os.path.basename(it)[:-3] for it in glob.glob(f"{self.clone}/examples/*.cl"))
        calls = {it: self.prove(it).ended() for it in names}
        longest = max(calls, key=lambda it: calls[it].seconds)
        is_well = all(it.is_right() and not it.has_compiled() for it in calls.values())
        self.told(f"the example that takes longest, {when}: `{longest}`", f"{calls[longest].seconds:.2f}", is_well)

    def wait_until_optimized(self):
        started = time.monotonic()
        while os.path.exists(f"{self.folder}/module") and time.monotonic() < started + LIMIT:
            time.sleep(0.2)
        return not os.path.exists(f"{self.folder}/module")

    def first_calls(self):
        first = self.prove().ended()
        self.told("the first call, from an empty `out/`", both(first), first.is_right() and first.has_compiled())
        second = self.prove().ended()
        self.told("the second call", f"{second.seconds:.2f}", second.is_right() and not second.has_compiled())
        self.dearest("before the program is optimized")
        is_optimized = self.wait_until_optimized()
        self.told("from the first call until the program is optimized", f"{time.monotonic() - first.started:.0f}", is_optimized)
        self.dearest("afterwards")
        usage = Call(self.clone, "no", "command").ended()
        self.told("words that are no command: the program's own usage, with its status", f"{usage.seconds:.2f}", usage.is_right("", 2))

    def is_empty(self):
        """Whether nothing that could be taken for a program is there."""
        return not any(os.path.exists(f"{self.folder}/{it}") for it in ("kverify", "module", "record"))

    def broken_off(self, by, seconds):
        call = self.prove()
        time.sleep(seconds)
        call.broken_off(by)
        is_well = self.is_empty() and call.ran.returncode != 0
        self.told(f"a first call, ended by {by.name} after {seconds} s, leaves nothing in place", "", is_well)

    def two_at_once(self):
        one, other = self.prove(), self.prove()
        calls = [one.ended(), other.ended()]
        made = sum("read (" in it.err for it in calls)
        is_well = made == 1 and all(it.is_right() for it in calls)
        self.told("two calls at once behind it: one compiles, both answer", " and ".join(f"{it.seconds:.0f}" for it in calls), is_well)

    def touched(self):
        os.utime(f"{self.clone}/{CHANGED}")
        call = self.prove().ended()
        self.told("a source that bears a new time, and is the same", f"{call.seconds:.2f}", call.is_right() and not call.has_compiled())

    def write_usage(self, word):
        with open(f"{self.clone}/{CHANGED}", "rb+") as source:
            text = source.read()
            source.seek(0)
            for old in (USAGE, *OTHERS):
                text = text.replace(old, word)
            source.write(text)

    def usage(self, word):
        """Whether a call prints the usage with this word, and what it took."""
        call = Call(self.clone, "no", "command").ended()
        return word.decode() in call.out + call.err and call.is_labelled(), call

    def changed(self):
        """A source is changed while the program of the one before is optimized, and once more while the new one is compiled."""
        before = os.path.isdir(f"{self.folder}/module")
        self.write_usage(OTHERS[0])
        call = Call(self.clone, "no", "command")
        while "read (" not in call.said() and call.ran.poll() is None:
            time.sleep(0.1)
        self.write_usage(OTHERS[1])
        call.ended()
        is_new = OTHERS[0].decode() in call.out + call.err and call.is_labelled()
        self.told("a source that has changed: the program is made anew", both(call), before and call.has_compiled() and is_new)
        is_new, call = self.usage(OTHERS[1])
        self.told("a source that changed while it was compiled: it is made anew", both(call), call.has_compiled() and is_new)
        is_optimized = self.wait_until_optimized()
        is_new, call = self.usage(OTHERS[1])
        self.told("once that is optimized", f"{call.seconds:.2f}", is_optimized and is_new and not call.has_compiled())

    def without_kit(self):
        """No `rt` on the PATH: what is missing is said, and nothing is made."""
        os.remove(f"{self.folder}/kverify")
        words = {"cwd": self.clone, "env": {"PATH": os.path.dirname(sys.executable) + ":/usr/bin:/bin"}, "stderr": subprocess.PIPE, **QUIET}
        ran = subprocess.run(["./kverify"], **words)
        is_well = ran.returncode == 3 and "rt, the command of the kit, is not on the PATH" in ran.stderr
        self.told("a call without the kit says so, with status 3", "", is_well and not os.path.exists(f"{self.folder}/kverify"))

    def through_link(self):
        """The script is called by a link to it in a folder of the PATH, from elsewhere."""
        with tempfile.TemporaryDirectory() as room:
            os.symlink(f"{self.clone}/kverify", f"{room}/kverify")
            words = [f"{self.clone}/{it}" for it in FILL]
            call = Call(room, "prove", *words, program="kverify", before_path=f"{room}:").ended()
        self.told("a call through a symbolic link", f"{call.seconds:.2f}", call.is_right() and not call.has_compiled())

    def other_setpriv(self):
        """A command `setpriv` that knows no `--pdeathsig`, as small systems have it."""
        with command("setpriv", "echo usage >&2; exit 1") as path:
            call = self.prove(before_path=path).ended()
        self.told("a `setpriv` without `--pdeathsig` changes no status", f"{call.seconds:.2f}", call.is_right())


class Proved:
    """Ways past a look at a proved program: behind none of them it is to answer."""

    def __init__(self, trial):
        self.trial, self.clone = trial, trial.clone
        self.program = f"{self.clone}/crates/kverify/out/kverify"
        self.folder = f"{self.clone}/crates/kverify/out/rlib/proved"

    def put(self, text=STAND_IN):
        """Puts a program in the proved one's place, as a linker does."""
        with open(f"{self.program}.new", "w", encoding="utf-8") as file:
            file.write(text)
        os.chmod(f"{self.program}.new", 0o755)
        os.replace(f"{self.program}.new", self.program)

    def begin(self):
        self.put()
        os.makedirs(self.folder)
        parts = [f"crates/{it}/{part}" for it in sorted(os.listdir(f"{self.clone}/crates")) for part in ("src", "specs", "proofs")]
        places = ["crates/kverify/out/kverify", "crates.txt", "HANDLES", *parts]
        with contextlib.chdir(self.clone):
            records.write(f"{self.folder}/record", places, records.sums_of(places))

    def answers(self, told, seconds=""):
        call = self.trial.prove().ended()
        self.trial.told(told, seconds, call.out == PRINTED and not call.err)

    def answers_not(self, told, before_path=""):
        call = self.trial.prove(before_path=before_path).ended()
        self.trial.told(told, "", call.is_right() and not call.has_compiled())

    def tells_not(self, told):
        call = Call(self.clone, "--version").ended()
        self.trial.told(told, "", "Nothing is proved" in call.out)

    def looks(self):
        """What a look takes: a call, less the program itself. The processor's seconds judge it, since others may be at work."""
        whole, alone = ([call().ended() for _ in range(9)] for call in (self.trial.prove, self.call_program))
        took, used = (min(map(what, whole)) - min(map(what, alone)) for what in (lambda it: it.seconds, lambda it: it.used))
        self.trial.told(f"the look at all sources, in a call of a proved program: at most {LOOK}", f"{took:.3f} ({used:.3f})", used <= LOOK)

    def call_program(self):
        return Call(self.clone, program=self.program)

    def words(self):
        call = Call(self.clone, "prove", *FILL, "--devices", "32", "--narrow").ended()
        is_well = call.out == f"prove {' '.join(FILL)} --devices 32\n"
        self.trial.told("`--devices 32` and `--narrow` of the caller take the place of what the script says", "", is_well)

    @contextlib.contextmanager
    def edited(self, file):
        """A file with another line, meanwhile."""
        with open(f"{self.clone}/{file}", "rb+") as source:
            text = source.read()
            source.write(b"\n")
        yield
        with open(f"{self.clone}/{file}", "wb") as source:
            source.write(text)

    @contextlib.contextmanager
    def moved(self, is_linked):
        """A folder of code is elsewhere, meanwhile, and a link leads there or none."""
        there = f"{self.clone}/{CODE}"
        os.rename(there, f"{there}.kept")
        if is_linked:
            os.symlink(os.path.basename(f"{there}.kept"), there)
        yield
        if is_linked:
            os.remove(there)
        os.rename(f"{there}.kept", there)

    def edits(self):
        with self.edited(SPEC):
            self.put()
            self.answers_not("a source that was edited before the program was linked, as during `rt ci`")
            os.utime(self.program)
            self.answers_not("a source that was edited, and a `touch` of the program")
            for does in ("exit 1", "exit 0"):
                with command("find", does) as path:
                    self.answers_not(f"a source that was edited, and a `find` that does just `{does}`", path)

    def folders(self):
        with self.moved(is_linked=False):
            os.utime(self.program)
            self.tells_not("the `src` of a crate is gone")
        with self.moved(is_linked=True):
            os.utime(self.program)
            with self.edited(f"{CODE}.kept/lib.rt"):
                self.tells_not("the `src` of a crate is a link, and a file behind it was edited")

    def ways_past(self):
        self.begin()
        self.answers("a proved program that its record names answers, for any devices")
        self.looks()
        self.words()
        self.edits()
        self.folders()
        self.put(STAND_IN + "# another one\n")
        self.answers_not("another program in the proved one's place")
        self.put()
        self.answers("all as it was again")
        os.remove(self.program)
        shutil.rmtree(self.folder)


@contextlib.contextmanager
def command(name, does):
    """A folder to stand first in the PATH, with a command of this name."""
    with tempfile.TemporaryDirectory() as room:
        with open(f"{room}/{name}", "w", encoding="utf-8") as file:
            file.write(f"#!/bin/sh\n{does}\n")
        os.chmod(f"{room}/{name}", 0o755)
        yield f"{room}:"


def both(call):
    return f"{call.seconds:.0f} ({call.used:.0f})"


def main():
    load, commit = os.getloadavg()[0], subprocess.check_output(["git", "rev-parse", "--short=8", "HEAD"], text=True).strip()
    with tempfile.TemporaryDirectory(prefix="kverify-first-run-") as room:
        subprocess.run(["git", "clone", "--quiet", "--no-hardlinks", ".", f"{room}/clone"], check=True)
        trial = Trial(f"{room}/clone")
        trial.first_calls()
        trial.through_link()
        trial.other_setpriv()
        Proved(trial).ways_past()
        subprocess.run(["rm", "-r", trial.folder], check=True)
        trial.broken_off(signal.SIGINT, 10)
        trial.broken_off(signal.SIGKILL, 20)
        trial.two_at_once()
        trial.touched()
        trial.changed()
        trial.without_kit()
    print(f"{datetime.date.today()}, commit {commit}, {len(os.sched_getaffinity(0))} processors, with a load of {load:.1f} at the start.\n")
    print("| What | Seconds (of processor) | As it has to be |", "|---|---|---|", *trial.rows, sep="\n")
    print(f"\nEach answer's line on the standard error: `{LABEL}`")
    return not trial.all_well


if __name__ == "__main__":
    sys.exit(main())
