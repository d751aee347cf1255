#!/usr/bin/env python3
"""Runs all cases of crates/cases/data and all tests of three crates, by programs that are compiled without any proof.

usage: tools/test.py, at the top of the repository; `../kverify test` calls it.

Nothing is proved by it: the gate is `rt ci`, which runs the same cases and tests by proved programs. The last line is `N passed, N failed`.
The status is 1 where one failed. A file of cases whose process does not end well counts as failed whole.
"""
import os
import re
import shutil
import subprocess
import sys
import time
from concurrent.futures import ThreadPoolExecutor, as_completed

from check_cases import AS_TOLD, CASES, files_of_cases, miscounted, told_counts
from crates import text_of

TESTS = ("basics_tests", "opencl_tests", "host_tests")
PROGRAM = os.path.abspath(f"{CASES}/out/unproved/cases")
RESULT = re.compile(r"^test result: .*?(\d+) passed; (\d+) failed", re.M)
QUIET = {"stdin": subprocess.DEVNULL, "stdout": subprocess.PIPE, "stderr": subprocess.STDOUT, "text": True, "errors": "replace"}
# The seconds after which a process counts as hung, on a slow machine, too.
LIMIT = 1200


def say(text):
    print(f"kverify: {text}", file=sys.stderr, flush=True)


def ran(words, folder):
    """Runs a command to its end, and returns its text and its status; one that hangs has none."""
    with subprocess.Popen(words, cwd=folder, **QUIET) as process:
        try:
            return process.communicate(timeout=LIMIT)[0], process.returncode
        except subprocess.TimeoutExpired:
            process.kill()
            return f"{process.communicate()[0]}\nit had not ended after {LIMIT} seconds", None


class Job:
    """Some cases or tests that one process runs."""

    def __init__(self, name, run, count):
        self.name, self.run, self.count, self.passed, self.text = name, run, count, 0, ""

    def done(self):
        """Runs them, and counts those that passed."""
        started = time.monotonic()
        self.passed, self.text = self.run()
        self.seconds = time.monotonic() - started
        return self

    def failed(self):
        return self.count - self.passed


def cases_of(name, count):
    """A job for a file of cases, of which so many are to be as they are told."""

    def run():
        text, status = ran([PROGRAM, "cases", name], f"{CASES}/data")
        found = dict(AS_TOLD.findall(text))
        if status not in (0, 1) or name not in found:
            return 0, f"{text}\nit ended with status {status}"
        return min(int(found[name]), count), text

    return Job(name, run, count)


def others(words, told):
    """A job for what else the program of cases is asked, and what it is to write."""

    def run():
        text, status = ran([PROGRAM, *words], f"{CASES}/data")
        return int(status == 0 and text == told), f"told:\n{told}\nfound, with status {status}:\n{text}"

    return Job(" ".join(it for it in words if it in ("cuts", "settle", "replay")), run, 1)


def tests_of(crate):
    """A job for the tests of a crate, which `rt try` compiles and runs."""
    folder = f"crates/{crate}"
    functions = sum(text_of(f"{folder}/src/{it}").count("#[test]") for it in os.listdir(f"{folder}/src"))

    def run():
        text, status = ran(["rt", "try", "--test"], folder)
        passed, failed = map(int, (RESULT.findall(text) or [(0, functions)])[-1])
        return (passed if status == 0 or failed else 0), text

    return Job(crate, run, functions)


def miscounts(faults):
    """A job that fails by these faults of the numbers of cases, which the gate compares, too."""
    return Job("stdout", lambda: (0, "\n".join(faults)), 1)


def jobs_of_cases():
    """What the files `args` and `stdout` of the program of cases ask for, with a process for each file of cases."""
    names, counts, faults = files_of_cases(), told_counts(), list(miscounted())
    unlike = set(names) ^ set(counts)
    if unlike:
        sys.exit(f"kverify: {CASES}/args and {CASES}/stdout do not name the same files: {', '.join(sorted(unlike))}")
    words = text_of(f"{CASES}/args").splitlines()[len(names) + 2 :]
    rest = AS_TOLD.sub("", text_of(f"{CASES}/stdout")).lstrip("\n")
    return [*(cases_of(it, counts[it]) for it in names), others(words, rest), *([miscounts(faults)] if faults else [])]


def is_compiled():
    """Compiles the program of cases, where it is not there."""
    if subprocess.run([sys.executable, "tools/compile.py", "cases"], stdin=subprocess.DEVNULL, stdout=sys.stderr).returncode:
        say("the program of cases could not be compiled")
        return False
    return True


def tell(job, number, of_all, gone):
    """Says how a job ended, and shows what did not come out as told."""
    say(f"[{number}/{of_all}] {job.name}: {job.passed} passed, {job.failed()} failed ({job.seconds:.0f} s; {gone:.0f} s gone)")
    if job.failed():
        print(f"{job.name}:\n{job.text}", flush=True)


def main():
    started, of_cases, of_tests = time.monotonic(), jobs_of_cases(), [tests_of(it) for it in TESTS]
    if not shutil.which("rt"):
        sys.exit("kverify: rt, the command of the kit, is not on the PATH")
    with ThreadPoolExecutor(len(os.sched_getaffinity(0))) as pool:
        begun = [pool.submit(it.done) for it in of_tests]
        begun += [pool.submit(it.done) for it in of_cases] if is_compiled() else []
        for number, it in enumerate(as_completed(begun), 1):
            tell(it.result(), number, len(begun), time.monotonic() - started)
    passed = sum(it.passed for it in [*of_cases, *of_tests])
    failed = sum(it.failed() for it in [*of_cases, *of_tests])
    say("nothing is proved by this; the gate, with all proofs, is rt ci")
    print(f"{passed} passed, {failed} failed")
    return 1 if failed else 0


if __name__ == "__main__":
    try:
        sys.exit(main())
    except KeyboardInterrupt:
        sys.exit("kverify: broken off")
