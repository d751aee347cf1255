#!/usr/bin/env python3
"""Tests of the OpenCL layer, on what is here of OpenCL (pocl).

usage: layer/test.py LIBRARY PROGRAM [--table FILE] [--only PART] [--folder FOLDER]

LIBRARY is libkverify.a, PROGRAM the program `kverify`. What is missing on the machine is said, and its tests are skipped. The parts are
`cases`, `sanitizers`, `allocations` and `real`. With --table the figures of the real programs are written to a file, too. With --folder
what is compiled stays there for another call. The last line is `N passed, N failed`, and the status 1 where one failed.
"""
import argparse
import concurrent.futures
import os
import re
import shutil
import subprocess
import sys
import tempfile
import time

sys.dont_write_bytecode = True
HERE = os.path.dirname(os.path.abspath(__file__))
NEEDED = {
    "/usr/include/CL/cl_layer.h": "opencl-c-headers",
    "/usr/lib/x86_64-linux-gnu/libOpenCL.so": "ocl-icd-opencl-dev",
    "/etc/OpenCL/vendors/pocl.icd": "pocl-opencl-icd",
}
# What each case of tests/launches.c comes to under `refuse`: its error, and what is told of its kernel.
CASES = {
    "axpy": (0, "accepted"),
    "turn": (0, "accepted"),
    "fill": (0, "accepted"),
    "sized": (0, "accepted"),
    "task": (0, "accepted"),
    "parts": (0, "accepted"),
    "defined": (0, "accepted"),
    "in_program": (0, "accepted"),
    "cloned": (0, "accepted"),
    "language_1": (0, "accepted"),
    "race": (-59, "race confirmed: store 6:39"),
    "children": (-59, "race confirmed: store 6:39"),
    "past": (-59, "fault F3 confirmed: 7:39"),
    "defined_past": (-59, "fault F3 confirmed: 10:44"),
    "twice": (-59, "refused 44: argument 1"),
    "parts_overlap": (-59, "refused 44: argument 1"),
    "host_memory": (-59, "refused 44: argument 1"),
    "no_size": (-59, "no local size"),
    "offset": (-59, "a global offset in dimension 0"),
    "read_only": (-59, "the buffer of argument 0 is read-only"),
    "let_go": (-59, "the buffer of argument 0 was let go"),
    "contents": (-59, "fault F3 possible: 20:"),
    "language": (0, "not read: the option -cl-std=CL2.0"),
    "relaxed": (0, "not read: the option -cl-fast-relaxed-math"),
    "function": (0, "not read: the option -D mul24=mad24"),
    "binary": (0, "not read: its program is a binary"),
    "linked": (0, "not read: its program was linked"),
    "svm": (0, "not read: argument 0 is of a kind that is not read"),
    "built_again": (0, "not read: a build of it failed"),
}
# The same with KVERIFY_READ=1, and what each comes to without it.
POSSIBLE = "refused 60: fault F"
READ = {
    "gather": (0, "gather: accepted", POSSIBLE),
    "gather_waiting": (0, "gather: accepted", POSSIBLE),
    "look_up": (0, "look_up: accepted", POSSIBLE),
    "gather_past": (-59, POSSIBLE, POSSIBLE),
    "gather_negative": (-59, POSSIBLE, POSSIBLE),
    "gather_changed": (-59, POSSIBLE, None),
    "gather_waiting_past": (-59, POSSIBLE, POSSIBLE),
    "gather_hidden": (-59, POSSIBLE, POSSIBLE),
    "gather_large": (-59, "a buffer of over 64 MiB is not read", POSSIBLE),
    "gather_late": (-59, "its queue took too long", None),
    "look_up_past": (-59, POSSIBLE, POSSIBLE),
    "look_up_negative": (-59, POSSIBLE, POSSIBLE),
}
# Those of them that are safe to run, whatever is said of them.
SAFE = ["gather_waiting", "look_up", "gather_hidden", "gather_large"]
# What a draft is made of, and what it allows afterwards: also launches that were not seen.
DRAFTED = ["fill", "fill_twice", "axpy_64", "axpy", "axpy_in_more", "turn", "gather_more", "gather"]
TABLE = r"(\d+) launches: (\d+) accepted, (\d+) not shown, (\d+) not read; 0 refused; (\d+) ms to ask, ([0-9.]+) ms"
# Each of these would leave a buffer, or is undefined for OpenCL itself; so it never runs.
NEVER_RUN = ("past", "defined_past", "let_go")
GATHER = """conditions 3
kernel gather
local_size 64 1 1
groups 1..64 1..1 1..1
arg n 1..4096
length y >= n
length x >= n
length idx >= n
require 64*groups.0 >= n
values idx <= n + -1
values idx >= 0
budget 100
"""
CONTENTS = """conditions 3
kernel sum
local_size 64 1 1
groups 1..16 1..1 1..1
arg n 0..1024
length a >= n
length idx >= n
require n >= 1
values idx >= 0
values idx <= n + -1
budget 100
"""
# A program that remembers what `kverify` answered of the same texts, for tests that ask the same again and again.
REMEMBERS = """#!/bin/sh
key={folder}/$1-$(cat "$2" "$3" | sha256sum | cut -c 1-32)
if ! [ -f "$key" ]; then
    if [ -n "$9" ]; then {program} "$1" "$2" "$3" "$4" "$5" "$6" "$7" --out "$key.$$.certificate" > "$key.$$"
    else {program} "$@" > "$key.$$"; fi
    ! [ -f "$key.$$.certificate" ] || mv "$key.$$.certificate" "$key.certificate"
    mv "$key.$$" "$key"
fi
[ -z "$9" ] || ! [ -f "$key.certificate" ] || cat "$key.certificate" > "$9"
cat "$key"
"""
WRAPPED = "-Wl," + ",".join(f"--wrap={it}" for it in ("malloc", "calloc", "realloc", "strdup"))
OWN = "-DOWN " + " ".join(f"-D{it}=own_{it}" for it in ("malloc", "calloc", "realloc", "strdup"))


class Tests:
    def __init__(self, library, program, kept):
        self.library, self.program = os.path.abspath(library), os.path.abspath(program)
        self.folder = tempfile.mkdtemp(prefix="kverify-layer-")
        self.kept = os.path.abspath(kept or self.folder)
        os.makedirs(self.kept, exist_ok=True)
        self.layer = f"{self.kept}/layer_plain/libkverify_layer.so"
        self.passed = self.failed = 0
        self.rows, self.reasons = [], []

    def expect(self, what, is_so, more=""):
        if is_so:
            self.passed += 1
        else:
            self.failed += 1
            print(f"failed: {what}\n{more}".rstrip(), flush=True)

    def environment(self, layer, **more):
        words = {key: it for key, it in os.environ.items() if not key.startswith(("KVERIFY_", "OPENCL_LAYERS"))}
        words.update(KVERIFY_PROGRAM=self.program, PYOPENCL_NO_CACHE="1", **more)
        if layer:
            words["OPENCL_LAYERS"] = layer
        return words

    def run(self, words, layer=None, seconds=600, **more):
        """Runs a program, and returns its status, its output, what it told, and the seconds it took."""
        began = time.monotonic()
        ran = subprocess.run(words, env=self.environment(layer, **more), capture_output=True, text=True, timeout=seconds, errors="replace")
        return ran.returncode, ran.stdout, ran.stderr, time.monotonic() - began

    def build(self, name, flags="-O2 -g", extra="", linking=""):
        words = ["make", "-s", "-C", HERE, f"OUT={self.kept}/layer_{name}", f"KVERIFY_LIBRARY={self.library}", f"CFLAGS={flags}"]
        ran = subprocess.run([*words, f"EXTRA={extra}", f"LDFLAGS={linking}"], capture_output=True, text=True)
        self.expect(f"the layer is built ({name})", ran.returncode == 0 and not ran.stderr, ran.stderr)
        return f"{self.kept}/layer_{name}/libkverify_layer.so"

    def compile(self, source, name, *flags):
        is_cpp = source.endswith(".cpp")
        words = ["g++", "-std=c++14", "-w"] if is_cpp else "gcc -std=c11 -D_DEFAULT_SOURCE -Wall -Wextra -Werror -pthread".split()
        made = f"{self.kept}/{name}"
        if os.path.exists(made) and os.path.getmtime(made) > os.path.getmtime(f"{HERE}/tests/{source}"):
            return made
        ran = subprocess.run([*words, "-O1", f"{HERE}/tests/{source}", "-o", made, *flags, "-lOpenCL"], capture_output=True, text=True)
        self.expect(f"{source} is compiled", ran.returncode == 0, ran.stderr[-2000:])
        return made

    # ---- what each launch comes to ----

    def cases(self):
        launches = self.compile("launches.c", "launches")
        safe = [it for it in CASES if it not in NEVER_RUN]
        without = self.run([launches, *safe])
        report = self.run([launches, *safe], self.layer)
        self.expect("each case runs without the layer", without[0] == 0 and without[1].count(": 0\n") == len(safe), without[1])
        self.expect("under report all is as without the layer", report[:2] == without[:2], report[1])
        for policy in ("refuse", "require"):
            status, out, told, _ = self.run([launches, *CASES], self.layer, KVERIFY_POLICY=policy)
            self.expect(f"the program ends well under {policy}", status == 0, told)
            for name, (error, words) in CASES.items():
                wanted = -59 if policy == "require" and words != "accepted" else error
                self.expect(f"{policy}: {name}", f"{name}: {wanted}\n" in out and words in told, f"{out}{told}")
        self.threads(launches)
        self.folders(launches)
        self.contents(launches)
        self.drafts(launches)

    def given_gather(self, name):
        os.mkdir(f"{self.folder}/{name}")
        with open(f"{self.folder}/{name}/gather.conditions", "w", encoding="utf-8") as file:
            file.write(GATHER)
        return f"{self.folder}/{name}"

    def contents(self, launches):
        """What buffers hold is read where that is wanted, and only what they hold counts."""
        given = self.given_gather("given_gather")
        # (whoever answers for `values` lines answers for those of a file)
        for name, (error, words, without) in READ.items():
            more = {"KVERIFY_POLICY": "refuse", "KVERIFY_SECONDS": "2" if name == "gather_late" else "60"}
            _, out, told, _ = self.run([launches, name], self.layer, KVERIFY_READ="1", KVERIFY_HELD="1", **more)
            self.expect(f"{name}, with what buffers hold", out == f"{name}: {error}\n" and words in told, out + told)
            if without:
                _, out, told, _ = self.run([launches, name], self.layer, **more)
                self.expect(f"{name}, without", out == f"{name}: -59\n" and without in told, out + told)
            if name.startswith("gather"):
                _, out, told, _ = self.run([launches, name], self.layer, KVERIFY_READ="1", KVERIFY_CONDITIONS=given, **more)
                self.expect(f"{name}, by conditions of a file", out == f"{name}: {error}\n", out + told)
        cache = {"KVERIFY_POLICY": "refuse", "KVERIFY_CACHE": f"{self.folder}/cache_gather", "KVERIFY_SECONDS": "60"}
        self.run([launches, "gather"], self.layer, KVERIFY_READ="1", **cache)
        for read, held, error in (("1", "0", 0), ("0", "1", -59)):
            more = {**cache, "KVERIFY_READ": read, "KVERIFY_HELD": held, "KVERIFY_PROGRAM": "/bin/false"}
            _, out, told, _ = self.run_with(more, [launches, "gather"])
            self.expect(f"a cache with `values` lines, read {read}, held {held}", out == f"gather: {error}\n", out + told)
        status, out, told, _ = self.run([launches, "gather", "gather", "fill"], self.layer, KVERIFY_READ="1", KVERIFY_SECONDS="60")
        self.expect("what buffers hold, under report", status == 0 and "3 launches: 3 accepted" in told, told)

    def drafts(self, launches):
        """A draft is accepted by prove, and allows all launches that were seen."""
        folder, more = f"{self.folder}/drafts", {"KVERIFY_POLICY": "refuse", "KVERIFY_READ": "1", "KVERIFY_SECONDS": "60"}
        _, out, told, _ = self.run([launches, *DRAFTED, "race", "gather_past"], self.layer, KVERIFY_DRAFT=folder, **more)
        made = sorted(os.listdir(folder))
        self.expect("all is accepted while it is drafted", out.count(": 0\n") == len(DRAFTED), out + told)
        self.expect("what is not shown has no draft", made == [f"{it}.conditions" for it in ("axpy", "fill", "gather", "turn")], str(made))
        none = {"KVERIFY_CONDITIONS": folder, "KVERIFY_CACHE": f"{self.folder}/cache_drafts"}
        for again in ("without", "with"):
            _, out, told, _ = self.run([launches, *DRAFTED, "gather_past"], self.layer, **none, **more)
            self.expect(f"a draft allows what was seen, {again} a cache", out.count(": 0\n") == len(DRAFTED) and "gather_past: -59" in out, out + told)
        _, out, told, _ = self.run([launches, "fill_by_32"], self.layer, **none, **more)
        self.expect("a draft is not for another size of a work-group", out == "fill_by_32: -59\n" and "refused 42" in told, out + told)
        _, out, told, _ = self.run([launches, "fill", "fill_by_32", "fill"], self.layer, KVERIFY_DRAFT=f"{self.folder}/two", **more)
        is_told = "fill: its draft does not cover all launches" in told
        self.expect("what a draft cannot cover is told", "3 launches: 3 accepted" in told and is_told, out + told)

    def threads(self, launches):
        for policy, more in (("report", {}), ("refuse", {"LAUNCHES_REFUSED": "1"})):
            status, out, told, _ = self.run([launches, "threads", "8"], self.layer, KVERIFY_POLICY=policy, **more)
            self.expect(f"8 threads under {policy}", status == 0 and "threads: 0 of 8" in out and "160 launches: 80 accepted" in told, told)

    def folders(self, launches):
        cache, log, given = (f"{self.folder}/{it}" for it in ("cache", "log", "given"))
        os.mkdir(given)
        self.run([launches, "fill", "turn"], self.layer, KVERIFY_CACHE=cache)
        none = {"KVERIFY_PROGRAM": "/bin/false", "KVERIFY_CACHE": cache, "KVERIFY_POLICY": "require"}
        _, out, told, _ = self.run_with(none, [launches, "fill", "turn", "race"])
        self.expect("certificates of the cache are enough", out == "fill: 0\nturn: 0\nrace: -59\n", out + told)
        files = sorted(os.listdir(cache))
        self.expect("the cache has two certificates", len(files) == 4, str(files))
        for name in files:
            if name.startswith("fill") and name.endswith(".conditions"):
                with open(f"{cache}/{name}", "r+", encoding="utf-8") as file:
                    text = file.read().replace("64*groups.0", "1")
                    file.seek(0)
                    file.truncate()
                    file.write(text)
        _, out, told, _ = self.run_with(none, [launches, "fill"])
        self.expect("a cache that was changed is not believed", out == "fill: -59\n" and "is not taken" in told, out + told)
        self.run([launches, "race"], self.layer, KVERIFY_LOG=log)
        kinds = sorted(it.rsplit(".", 1)[1] for it in os.listdir(log))
        self.expect("the log has what is needed", kinds == ["cl", "conditions", "txt"], str(kinds))
        with open(f"{given}/sum.conditions", "w", encoding="utf-8") as file:
            file.write(CONTENTS)
        for held, wanted in (("0", "refused 45"), ("1", "sum: accepted")):
            _, _, told, _ = self.run([launches, "contents"], self.layer, KVERIFY_CONDITIONS=given, KVERIFY_HELD=held)
            self.expect(f"conditions from a file, held {held}", wanted in told, told)

    def run_with(self, more, words):
        environment = {**self.environment(self.layer), **more}
        ran = subprocess.run(words, env=environment, capture_output=True, text=True, timeout=600)
        return ran.returncode, ran.stdout, ran.stderr, 0

    # ---- what the layer itself does wrong ----

    def remembering(self):
        place = f"{self.folder}/remembers"
        with open(place, "w", encoding="utf-8") as file:
            file.write(REMEMBERS.format(folder=self.folder, program=self.program))
        os.chmod(place, 0o755)
        return place

    def sanitizers(self):
        silent = f"{self.folder}/silent"
        with open(silent, "w", encoding="utf-8") as file:
            file.write("leak:libpocl\nleak:libLLVM\nleak:libclang\n")
        cases = [it for it in CASES if it not in NEVER_RUN]
        for name, flags in (("address", "address,undefined"), ("thread", "thread")):
            layer = self.build(name, f"-O1 -g -fsanitize={flags} -fno-omit-frame-pointer")
            launches = self.compile("launches.c", f"launches_{name}", f"-fsanitize={flags}")
            more = {"LSAN_OPTIONS": f"suppressions={silent}", "KVERIFY_PROGRAM": self.remembering(), "KVERIFY_SECONDS": "600"}
            more["KVERIFY_CACHE"] = f"{self.folder}/cache_{name}"
            log = {"KVERIFY_LOG": f"{self.folder}/log_{name}"}
            draft = {"KVERIFY_READ": "1", "KVERIFY_DRAFT": f"{self.folder}/draft_{name}", "LAUNCHES_GATHER": "1"}
            for policy in ("report", "refuse"):
                runs = [(["threads", "8"], {}), (["threads", "4"], draft), (cases, log), ([*DRAFTED, *SAFE], draft)]
                for words, how in runs if name == "address" else runs[:2]:
                    now = {"OPENCL_LAYERS": layer, "KVERIFY_POLICY": policy, **more, **how}
                    status, _, told, _ = self.run_with(now, [launches, *words])
                    is_clean = not re.search("ERROR|WARNING: Thread|runtime error", told)
                    self.expect(f"{name} sanitizer, {policy}, {words[0]} {words[1]}", status == 0 and is_clean, told[-3000:])

    def allocations(self):
        """Each allocation of the layer fails in turn, and each 61st of its library's."""
        launches = self.compile("launches.c", "launches_failing", "-fsanitize=address")
        flags = "-O1 -g -fsanitize=address"
        own = self.build("failing_own", f"{flags} {OWN}", "tests/failing.c")
        whole = self.build("failing", flags, "tests/failing.c", WRAPPED)
        more = {"ASAN_OPTIONS": "detect_leaks=0", "KVERIFY_POLICY": "refuse", "KVERIFY_READ": "1", "KVERIFY_SECONDS": "600"}
        more["KVERIFY_PROGRAM"] = self.remembering()
        given = {"KVERIFY_CONDITIONS": self.given_gather("given_failing")}
        draft = {"KVERIFY_DRAFT": f"{self.folder}/draft_failing"}
        workers = concurrent.futures.ThreadPoolExecutor(4)
        safe, unsafe = ["fill", "fill_twice", "gather"], ["race", "twice", "gather_past"]
        for layer, step, words, how in (
            (own, 1, ["fill", "race", "twice", "fill_twice"], draft),
            (own, 1, ["gather"], draft),
            (own, 1, ["gather", "gather_past"], given),
            (whole, 61, ["fill", "race", "twice"], draft),
            (whole, 61, ["gather", "gather_past"], given),
        ):
            now = {**more, **how}
            found = re.search(r"allocations: (\d+)", self.run_with({**now, "OPENCL_LAYERS": layer}, [launches, *words])[2])
            n = int(found.group(1)) if found else 0
            self.expect("allocations are counted", n > 0)
            pattern = "".join(f"{it}: {'-59' if it in unsafe else '(0|-59)'}\n" for it in words)
            wrong = refused = 0
            fails = [{**now, "OPENCL_LAYERS": layer, "KVERIFY_TEST_FAIL": str(at)} for at in range(1, n + 1, step)]
            for fail, (status, out, told, _) in zip(fails, workers.map(lambda it: self.run_with(it, [launches, *words]), fails)):
                is_right = status == 0 and re.fullmatch(pattern, out)
                wrong += not is_right
                refused += any(f"{it}: -59" in out.splitlines() for it in safe)
                if not is_right:
                    print(f"allocation {fail['KVERIFY_TEST_FAIL']}: status {status}\n{out}{told[-2000:]}", flush=True)
            what = f"{words[0]}: {n} allocations, each {step}. fails in turn: {wrong} runs went wrong, {refused} refused a launch for it"
            self.expect(what, not wrong)
            print(what, flush=True)

    # ---- real programs ----

    def programs(self):
        """Each program that is here, with the words that call it."""
        made = {}
        have = lambda place, package: os.path.exists(place) or print(f"missing: {package}")
        if have("/usr/bin/clinfo", "clinfo"):
            made["clinfo"] = ["/usr/bin/clinfo"]
        if have("/usr/bin/clpeak", "clpeak"):
            made["clpeak"] = ["/usr/bin/clpeak", "--kernel-latency"]
        if have("/usr/lib/python3/dist-packages/pyopencl", "python3-pyopencl"):
            made["PyOpenCL arrays"] = ["/usr/bin/python3", f"{HERE}/tests/pyopencl_arrays.py"]
        if have("/usr/include/boost/compute.hpp", "libboost-dev"):
            made["Boost.Compute"] = [self.compile("boost_compute.cpp", "boost_compute")]
        if have("/usr/include/viennacl/vector.hpp", "libviennacl-dev"):
            made["ViennaCL"] = [self.compile("viennacl.cpp", "viennacl")]
        if have("/usr/include/clblast_c.h", "libclblast-dev"):
            made["CLBlast"] = [self.compile("clblast.c", "clblast", "-lclblast", "-lm")]
        return made

    def real(self):
        for name, words in self.programs().items():
            changes = name == "clpeak"
            # (the first run fills pocl's own cache of builds)
            self.run(words)
            before = self.run(words)
            status, out, told, seconds = self.run(words, self.layer, KVERIFY_SECONDS="60", KVERIFY_CACHE=f"{self.folder}/real")
            self.expect(f"{name}: status and output are as without", status == before[0] and (changes or out == before[1]), out + told)
            found = re.search(TABLE, told)
            has_none = "0 launches" in told
            self.expect(f"{name}: a table is told", bool(found) or has_none, told)
            again = self.run(words, self.layer, KVERIFY_SECONDS="60", KVERIFY_CACHE=f"{self.folder}/real")
            refuse = self.run(words, self.layer, KVERIFY_POLICY="refuse", KVERIFY_SECONDS="60", KVERIFY_CACHE=f"{self.folder}/real")
            # (a program that does not expect an error may abort at it: there is no table then)
            is_same = refuse[0] == before[0] and (changes or refuse[1] == before[1])
            self.expect(f"{name}: without a refusal it is as without the layer", is_same or "not shown: " in refuse[2], refuse[2])
            counted = re.search(r"(\d+) refused;", refuse[2])
            n = f"{counted.group(1)}" if counted else "the first one"
            if found:
                self.rows.append([name, *found.groups(), before[3], seconds, again[3], n, refuse[0]])
                self.reasons += [f"{name}: {it}" for it in re.findall(r"^kverify:     (\d+ not (?:shown|read): .*)$", told, re.M)]
                print(name, *self.rows[-1][1:], flush=True)

    def table(self, path):
        with open(path, "w", encoding="utf-8") as file:
            for row in self.rows:
                name, launches, accepted, shown, read, asked, here, before, seconds, again, refused, status = row
                per = 1000 * float(here) / max(int(launches), 1)
                file.write(f"| {name} | {launches} | {accepted} | {shown} | {read} | {before:.1f} | {seconds:.1f} | {again:.1f} ")
                file.write(f"| {int(asked) / 1000:.1f} | {per:.1f} | {refused}, status {status} |\n")
            file.writelines(f"{it}\n" for it in self.reasons)


def main():
    parser = argparse.ArgumentParser(usage="layer/test.py LIBRARY PROGRAM [--table FILE] [--only PART] [--folder FOLDER]")
    parser.add_argument("library")
    parser.add_argument("program")
    parser.add_argument("--table")
    parser.add_argument("--only")
    parser.add_argument("--folder")
    words = parser.parse_args()
    missing = [package for place, package in NEEDED.items() if not os.path.exists(place)]
    if missing:
        print(f"missing: {' '.join(missing)}; nothing is tested")
        return 1
    tests = Tests(words.library, words.program, words.folder)
    try:
        tests.build("plain")
        for part in (tests.cases, tests.sanitizers, tests.allocations, tests.real):
            if words.only in (None, part.__name__):
                part()
        if words.table:
            tests.table(words.table)
    finally:
        shutil.rmtree(tests.folder, ignore_errors=True)
    print(f"{tests.passed} passed, {tests.failed} failed")
    return 1 if tests.failed else 0


if __name__ == "__main__":
    sys.exit(main())
