"""The parts of `rt`, the command of the kit. The kit does not document them: where a later kit has others, this says so."""
import importlib.machinery
import importlib.util
import os
import shutil
import sys

# What is used of `rt`: by build.py and compile.py; by what notes times; by what tries wrong bodies.
PARTS = ("rtlib", "KIT", "Crate", "handles_of", "need", "processors", "in_lanes")
PARTS_OF_TRIALS = ("rtlib", "main")
PARTS_OF_EDITS = ("rtlib", "must_fail", "seeded", "linked", "REFUSED", "AT_LIMIT")


def parts_of_rt(used=PARTS):
    """The script `rt` as a module, which has all that is used of it; else the process ends and says what is missing."""
    file = os.path.realpath(shutil.which("rt") or sys.exit("kverify: rt, the command of the kit, is not on the PATH"))
    loader = importlib.machinery.SourceFileLoader("rt", file)
    module = importlib.util.module_from_spec(importlib.util.spec_from_loader("rt", loader))
    loader.exec_module(module)
    missing = [it for it in used if not hasattr(module, it)]
    if missing:
        sys.exit(f"kverify: this kit's rt has no {', '.join(missing)}: tools/ does not fit it. rt run in crates/kverify proves the program")
    return module
