#!/usr/bin/env python3
"""Tries the wrong bodies that the gate leaves out for its time: bench/wrong_bodies/CRATE/NAME.edit, each of which the proof of CRATE must
refuse. They have the form of the edits in crates/CRATE/must-fail, and are tried as the gate tries those.

usage: tools/wrong_bodies.py [CRATE..], at the top of the repository; without a crate, all. The libraries below a crate are built where they
are not. The status is 1 where one is not refused. Whether each can be tried at all tools/check_cases.py says at once.
"""
import glob
import os
import sys
import tempfile

from rt_parts import PARTS_OF_EDITS, parts_of_rt

FOLDER = "bench/wrong_bodies"
FLAGS = ["--jobs", "1"]


def tries(rt, crate):
    """What the prover says to each wrong body of the crate: whether it is refused, and the line that tells it."""
    if any(below.build_rlib(FLAGS, anew=False) for below in crate.below()):
        return [(False, f"{crate.name}: a library below it is not proved")]
    edits = [os.path.abspath(it) for it in sorted(glob.glob(f"{FOLDER}/{crate.name}/*.edit"))]
    kept = f"{crate.folder}/out/incremental"
    seed = rt.seeded(crate, FLAGS, kept if os.path.isdir(kept) else None)
    if seed is None:
        return [(False, f"{crate.name}: it is not proved as it stands")]
    return [tried(rt, crate, edit, f"{seed}/seed") for edit in edits]


def tried(rt, crate, edit, seed):
    """What the prover says to one wrong body, over a copy of what it proved of the crate as it stands."""
    with tempfile.TemporaryDirectory() as room:
        rt.linked(seed, f"{room}/seed")
        kind, line = rt.must_fail(crate, edit, FLAGS, f"{room}/seed")
    return kind in (rt.REFUSED, rt.AT_LIMIT), line


def main(names):
    rt = parts_of_rt(PARTS_OF_EDITS)
    rt.rtlib.guarded()
    known = sorted(os.listdir(FOLDER))
    if unknown := [it for it in names if it not in known]:
        sys.exit(f"there is no folder of these crates in {FOLDER}: {' '.join(unknown)}")
    failed = 0
    for crate in rt.rtlib.crates_below(os.getcwd()):
        if crate.name in (names or known):
            for is_refused, line in tries(rt, crate):
                print(line, flush=True)
                failed += not is_refused
    print(f"{failed} not refused")
    return 1 if failed else 0


if __name__ == "__main__":
    sys.exit(main(sys.argv[1:]))
