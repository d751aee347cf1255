#!/usr/bin/env python3
"""Uses the program as nobody should: memory that is refused, texts that are cut or forged, outputs that take nothing, held threads.

    hostile.py [PART..] [--most MOST] [--count COUNT] [--seed SEED] [--oracle FOLDER]

    memory     each allocation refused in turn, or with MOST about so many of each command, evenly; a limit of the system
    system     outputs that take nothing, files that fail, no thread to be had
    texts      certificates cut at each byte, texts at their limits and past them
    bytes      COUNT changed texts for each reader (5,000), made of those of crates/cases/data by SEED (1), against the independent program
               whose modules are in FOLDER; without a FOLDER for their form alone
    threads    the same answer with each number of workers, again and again, and with one that is held at each of its moments

Without a PART all are tried. It prints a table, and ends with status 1 where something is not as it has to be; what that is stands in front
of its line. To be quick on machines on which a process takes long to start, most is tried by the program of the tests of texts, which runs
the program on many texts, one after the other; a few of each kind are tried by the program itself. It needs a C compiler.

Build both programs first, by `rt run` in crates/kverify and crates/cases, or name others by KVERIFY and CASES.
"""
import argparse
import sys
import tempfile
import threading

from hostile_bytes import fuzz
from hostile_common import Trial
from hostile_memory import memory
from hostile_system import system
from hostile_texts import texts
from hostile_threads import threads

PARTS = {"memory": memory, "system": system, "texts": texts, "bytes": fuzz, "threads": threads}


def main():
    asking = argparse.ArgumentParser(description=__doc__, formatter_class=argparse.RawDescriptionHelpFormatter)
    asking.add_argument("parts", nargs="*", choices=[[], *PARTS], metavar="PART")
    asking.add_argument("--most", type=int, default=0)
    asking.add_argument("--count", type=int, default=5000)
    asking.add_argument("--seed", type=int, default=1)
    asking.add_argument("--sample", type=int, default=20)
    asking.add_argument("--oracle")
    asked = asking.parse_args()
    with tempfile.TemporaryDirectory(prefix="kverify-hostile-") as folder:
        trial = Trial(folder, asked)
        print("| What | Tries | Outcomes | Seconds | As it has to be |\n|---|---|---|---|---|", flush=True)
        for part in asked.parts or PARTS:
            PARTS[part](trial)
    print(f"\n{len(trial.table.faults)} differences")
    return 1 if trial.table.faults else 0


if __name__ == "__main__":
    threading.stack_size(512 << 20)
    ended = []
    deep = threading.Thread(target=lambda: ended.append(main()))
    deep.start()
    deep.join()
    sys.exit(ended[0] if ended else 2)
