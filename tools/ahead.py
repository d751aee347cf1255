#!/usr/bin/env python3
"""Proves the longest chain of crates ahead of the gate, the dearest with two processes of the prover each, so that the gate finds them kept.

usage: tools/ahead.py, at the top of the repository; `.ci/run` calls it before `rt ci`.

`rt ci` gives each crate one process where it is told how many lanes there are. Then the front's crates, which wait for one another, take
longer than all the others side by side. So this runs `rt ci` for that chain, and for crates that fill the other lanes meanwhile. It changes
how many processes a proof gets, and nothing else. What passes is kept beside the kit, as every run of `rt ci` keeps it, and the gate itself
decides. Where nothing can be kept, nothing is done.
"""
import os
import shutil
import subprocess
import sys

from rt_parts import parts_of_rt

# The end of the chain, and crates that do not stand on it.
WANTED = ("opencl_core", "candidates", "cut_search")
DEAREST = ("opencl_values", "opencl_core")
PROCESSES = 2
# The free disk that is wanted, in bytes: with little of it `rt` keeps nothing.
DISK = 12_000_000_000


def is_kept(store):
    """Whether `rt` can keep in this folder what it passes."""
    try:
        os.makedirs(store, 0o700, exist_ok=True)
    except OSError:
        return False
    return os.stat(store).st_uid == os.geteuid() and os.access(store, os.W_OK) and shutil.disk_usage(store).free >= DISK


def main():
    rt = parts_of_rt(("STORE", "main", "in_lanes"))
    if not is_kept(rt.STORE):
        print("kverify: nothing can be kept on this machine: the gate proves all by itself", flush=True)
        return
    in_lanes = rt.in_lanes

    def with_processes(call):
        return lambda given, jobs: call(given, max(jobs, PROCESSES))

    def in_wider_lanes(tasks):
        """As `rt` has it, with more processes for the proofs of the dearest crates."""
        for name in DEAREST:
            waits, lines, needs, call = tasks[name, "proof"]
            tasks[name, "proof"] = waits, lines, needs, with_processes(call)
        return in_lanes(tasks)

    rt.in_lanes = in_wider_lanes
    os.environ.setdefault("RT_JOBS", subprocess.run([sys.executable, os.path.join(os.path.dirname(__file__), "lanes.py")], text=True,
                                                    capture_output=True, check=True).stdout.strip())
    rt.main(["ci", *WANTED])


if __name__ == "__main__":
    main()
