#!/usr/bin/env python3
"""Prints how many crates `rt ci` is to prove side by side here: one a processor, as far as there are 5 GB of free memory for each.

usage: tools/lanes.py, at the top of the repository; `.ci/run` gives what it prints to `rt ci` as RT_JOBS.

`rt ci` by itself sets aside more than twice what a proof takes (the dearest crate takes 5 GB, most one or two), so that above half of the
tree a machine of 24 GB proves one crate or two at a time, whatever processors it has.
"""
from rt_parts import parts_of_rt

EACH = 5_000_000_000


def main():
    rt = parts_of_rt(("processors", "free"))
    print(max(1, min(rt.processors(), int(rt.free() / EACH))))


if __name__ == "__main__":
    main()
