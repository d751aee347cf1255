#!/usr/bin/env python3
"""Runs a program again and again, each time with another allocation refused, and counts how it ended.

    refuse.py WORD..      a command line, as crates/kverify/out/kverify prove KERNEL CONDITIONS

What it wrote has to be what it writes with all memory, or it has to end as out of memory. It needs a C compiler.
"""
import collections
import os
import subprocess
import sys
import tempfile

# malloc and realloc count their calls, refuse the one that REFUSED names, and say by a file that they did
COUNTING = r"""
#define _GNU_SOURCE
#include <dlfcn.h>
#include <fcntl.h>
#include <stdlib.h>
#include <unistd.h>

static long calls;

static int refused(void) {
    const char *which = getenv("REFUSED");
    if (!which || ++calls != atol(which)) return 0;
    int file = open(getenv("REFUSED_FILE"), O_WRONLY | O_CREAT, 0600);
    if (file >= 0) close(file);
    return 1;
}

void *malloc(size_t size) {
    static void *(*real)(size_t);
    if (!real) real = (void *(*)(size_t))dlsym(RTLD_NEXT, "malloc");
    return refused() ? 0 : real(size);
}

void *realloc(void *old, size_t size) {
    static void *(*real)(void *, size_t);
    if (!real) real = (void *(*)(void *, size_t))dlsym(RTLD_NEXT, "realloc");
    return refused() ? 0 : real(old, size);
}
"""


def main():
    command = sys.argv[1:]
    if not command:
        sys.exit(__doc__)
    whole = subprocess.run(command, capture_output=True)
    ends = collections.Counter()
    with tempfile.TemporaryDirectory() as folder:
        source, library, mark = (os.path.join(folder, name) for name in ("counting.c", "counting.so", "mark"))
        with open(source, "w") as out:
            out.write(COUNTING)
        subprocess.run(["cc", "-shared", "-fPIC", "-O1", "-o", library, source, "-ldl"], check=True)
        for number in range(1, 1_000_000):
            ours = dict(os.environ, LD_PRELOAD=library, REFUSED=str(number), REFUSED_FILE=mark)
            run = subprocess.run(command, capture_output=True, env=ours)
            if not os.path.exists(mark):
                break
            os.remove(mark)
            if run.returncode == whole.returncode and run.stdout == whole.stdout:
                ends["the same"] += 1
            elif run.returncode and b"emory" in run.stderr or run.stdout == b"refused 90\n":
                ends["out of memory"] += 1
            else:
                ends["other"] += 1
                print(f"allocation {number}: status {run.returncode}, {run.stdout[:200]!r}, {run.stderr[:200]!r}")
    print(f"{number - 1} allocations, each refused once:", ", ".join(f"{count} {end}" for end, count in sorted(ends.items())))
    return 1 if ends["other"] else 0


if __name__ == "__main__":
    sys.exit(main())
