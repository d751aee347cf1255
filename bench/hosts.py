#!/usr/bin/env python3
"""Measures the library for hosts, and prints the figures of bench/hosts.md as a table: checks of the kernels of bench/kernels, what asking
costs before a launch beside the launch itself, the size of the archive, and what linking costs.

usage: bench/hosts.py PREFIX > TABLE, at the top of the repository. PREFIX is what `./kverify install` laid down. It needs a C compiler,
and an OpenCL device with its header files (pocl).

Times are of the processor, since others may be at work; how busy the machine was stands behind the table. Kernels have ten times the steps
of their budget, and those are measured for which `kverify prove` finds a certificate in 20 seconds.
"""
import datetime
import glob
import os
import re
import resource
import statistics
import subprocess
import sys
import tempfile
from concurrent.futures import ThreadPoolExecutor

KERNELS, TESTS, LIMIT = "bench/kernels", "hosts/tests", 20
FIGURE = re.compile(r"^(check (?P<name>\S+)|allows|enqueue) (?P<time>-?[\d.]+)$", re.M)
NOTHING = subprocess.DEVNULL


def run(*words, folder=None):
    return subprocess.run(words, cwd=folder, stdin=NOTHING, stdout=subprocess.PIPE, text=True, check=True).stdout


def with_larger_budget(text):
    return re.sub(r"^budget (\d+)$", lambda it: f"budget {min(10 * int(it.group(1)), 10**12)}", text, flags=re.M)


class Trial:
    def __init__(self, prefix, room):
        self.prefix, self.room = os.path.abspath(prefix), room
        self.program, self.archive = f"{self.prefix}/bin/kverify", f"{self.prefix}/lib/libkverify.a"

    def proved(self, kernel):
        """The name and the three files of a kernel, where it is proved in time."""
        name = os.path.basename(kernel).removesuffix(".cl")
        conditions, certificate = f"{self.room}/{name}.conditions", f"{self.room}/{name}.certificate"
        with open(kernel.replace(".cl", ".conditions"), encoding="utf-8") as file, open(conditions, "w", encoding="utf-8") as larger:
            larger.write(with_larger_budget(file.read()))
        words = ["timeout", str(LIMIT), self.program, "prove", kernel, conditions, "--out", certificate]
        subprocess.run(words, stdin=NOTHING, stdout=NOTHING, stderr=NOTHING, check=False)
        return [name, os.path.abspath(kernel), conditions, certificate] if os.path.exists(certificate) else None

    def embedded(self):
        """The texts of the kernels of hosts/tests as data in C, in the folder `room`."""
        words = []
        run("make", "-s", "-f", f"{self.prefix}/share/kverify/kernels.mk", f"KERNELS={TESTS}/kernels", f"OUT={self.room}/tests")
        for conditions in sorted(glob.glob(f"{TESTS}/kernels/*.conditions")):
            name = os.path.basename(conditions).removesuffix(".conditions")
            kernel = f"{TESTS}/kernels/{name.split('.', 1)[0]}.cl"
            words += [name.replace(".", "_"), kernel, conditions, f"{self.room}/tests/{name}.certificate"]
        run("sh", f"{self.prefix}/share/kverify/embed.sh", f"{self.room}/kernels.c", f"{self.room}/kernels.h", *words)

    def compile(self):
        for source in (f"{TESTS}/figures.c", f"{self.room}/kernels.c"):
            made = f"{self.room}/{os.path.basename(source)}.o"
            run("cc", "-std=c11", "-O2", f"-I{self.prefix}/include", f"-I{self.room}", "-c", source, "-o", made)

    def link(self):
        """Links the program of figures, and returns the seconds of processor that it took."""
        before = resource.getrusage(resource.RUSAGE_CHILDREN)
        run("cc", "figures.c.o", "kernels.c.o", self.archive, "-lOpenCL", "-o", "figures", folder=self.room)
        after = resource.getrusage(resource.RUSAGE_CHILDREN)
        return after.ru_utime + after.ru_stime - before.ru_utime - before.ru_stime

    def figures(self, kernels):
        """Times by what they are of: a kernel's name, `allows` or `enqueue`."""
        found = FIGURE.finditer(run("./figures", *(word for it in kernels for word in it), folder=self.room))
        return {it.group("name") or it.group(1): float(it.group("time")) for it in found}


def rows(trial):
    kernels = sorted(glob.glob(f"{KERNELS}/*.cl"))
    with ThreadPoolExecutor(max(1, len(os.sched_getaffinity(0)) // 2)) as pool:
        proved = [it for it in pool.map(trial.proved, kernels) if it]
    trial.embedded()
    trial.compile()
    links = [trial.link() for _ in range(5)]
    figures = trial.figures(proved)
    asked, launched = figures.pop("allows"), figures.pop("enqueue")
    checks = sorted(figures.items(), key=lambda it: it[1])
    if len(checks) != len(proved) or checks[0][1] < 0:
        sys.exit(f"bench/hosts.py: kv_check refuses what kverify accepts: {checks[0]}")
    times, (slowest, most) = [it for _, it in checks], checks[-1]
    half = statistics.median(times)
    yield f"`kv_check` of {len(checks)} of the {len(kernels)} kernels of `bench/kernels`: half within", f"{half:.0f} µs"
    yield f"nine of ten within; the slowest, `{slowest}`", f"{times[len(times) * 9 // 10]:.0f} µs; {most / 1000:.1f} ms"
    yield "those that take at most 1 ms", f"{sum(it <= 1000 for it in times)}"
    yield "`kv_allows` of a launch with 8 arguments, which reads kernel and conditions", f"{asked:.1f} µs"
    yield "`clEnqueueNDRangeKernel` of the same launch, in the same run", f"{launched:.2f} µs"
    yield "the archive `libkverify.a`", f"{os.path.getsize(trial.archive) / 2**20:.2f} MiB"
    yield "a link step of a host with it, seconds of processor", f"{statistics.median(links):.2f} s"


def main(prefix):
    with open(f"{prefix}/share/kverify/version", encoding="utf-8") as file:
        version = file.read().splitlines()
    load = os.getloadavg()
    with tempfile.TemporaryDirectory() as room:
        table = list(rows(Trial(prefix, room)))
    print(f"{datetime.date.today()}, {len(os.sched_getaffinity(0))} processors, with a load of {load[0]:.1f} at the start and ", end="")
    print(f"{os.getloadavg()[0]:.1f} at the end. {' '.join(version[2:])}\n\n| What | Result |\n|---|---|")
    for what, result in table:
        print(f"| {what} | {result} |")


if __name__ == "__main__":
    if len(sys.argv) != 2:
        sys.exit("usage: bench/hosts.py PREFIX")
    main(sys.argv[1])
