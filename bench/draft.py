#!/usr/bin/env python3
"""Says for how many kernels `./kverify draft` proposes conditions, and how these compare with those that were written by hand.

    draft.py [--program PROGRAM] [--seconds N] [--workers N] [--only PART] [--list FILE] [--out FILE] [FOLDER ..]

A FOLDER has kernels NAME.cl, each with the conditions that were written for it (NAME.conditions or NAME.cond), and says which are safe
(NAME.expect begins with `safe` or `unsafe`, or README.md has a table with the name and the verdict); without either they count as safe.
The folders of this repository are taken where none is named. Of what was written by hand the head alone is given to `draft`.

A draft is *not stronger* where each of 20 random launches that meet the conditions written by hand meets it. Such a launch mostly has the
least lengths, and its buffers have the outermost words that are allowed. Of the draft of an unsafe kernel it is told which lines keep these
launches out, and whether it lets NAME.witness and NAME.launch in, as far as they are there: launches of which one has the fault.
"""
import argparse
import collections
import concurrent.futures
import glob
import json
import os
import random
import re
import resource
import subprocess
import sys
import tempfile

HERE = os.path.dirname(os.path.abspath(__file__))
ROOT = os.path.dirname(HERE)
sys.dont_write_bytecode = True
sys.path.insert(0, os.path.join(ROOT, "tools"))
from draft import head_of  # noqa: E402 (its folder is named above)
from draft_conditions import Conditions, Launch, some_launch  # noqa: E402
from draft_kernels import Kernel, Unread  # noqa: E402

LAUNCHES = 20
WORDS = ["--wide", "--opencl", "--devices", "any"]


def read(path):
    with open(path, encoding="utf-8", errors="replace", newline="") as file:
        return file.read()


def verdicts(folder):
    """Which kernels of a folder are safe, by its table."""
    path = os.path.join(folder, "README.md")
    rows = re.findall(r"^\| `(\w+)` \| (safe|unsafe) \|", read(path), re.M) if os.path.exists(path) else []
    return {name: verdict == "safe" for name, verdict in rows}


def kernels_of(folder):
    """The kernels of a folder: path, conditions, and whether it is safe."""
    told = verdicts(folder)
    for path in sorted(glob.glob(os.path.join(folder, "*.cl"))):
        base = path.removesuffix(".cl")
        written = next((base + it for it in (".conditions", ".cond") if os.path.exists(base + it)), None)
        expected = read(base + ".expect") if os.path.exists(base + ".expect") else ""
        if written:
            yield path, written, not expected.startswith("unsafe") and told.get(os.path.basename(base), True)


def spent():
    used = resource.getrusage(resource.RUSAGE_CHILDREN)
    return used.ru_utime + used.ru_stime


def run(words):
    return subprocess.run(words, stdin=subprocess.DEVNULL, capture_output=True, text=True, errors="replace")


def measured(program, seconds, path, written, is_safe):
    """What is drafted for a kernel, and how it compares."""
    before = spent()
    with tempfile.TemporaryDirectory(prefix="kverify-draft-") as folder:
        head = os.path.join(folder, "head")
        with open(head, "w", encoding="utf-8") as file:
            file.write("\n".join(head_of(written)) + "\n")
        said = run([sys.executable, os.path.join(ROOT, "tools", "draft.py"), program, path, "--head", head, "--seconds", str(seconds)])
        row = {"folder": os.path.basename(os.path.dirname(path)), "name": os.path.basename(path)[:-3], "safe": is_safe,
               "status": said.returncode, "drafted": said.stdout, "told": said.stderr, "seconds": round(spent() - before, 1)}
        if said.returncode == 0:
            drafted = os.path.join(folder, "drafted")
            with open(drafted, "w", encoding="utf-8") as file:
                file.write(said.stdout)
            row["again"] = run([program, "prove", path, drafted, *WORDS]).stdout.split("\n")[0]
            row |= compared(path, Conditions.of(read(written)), Conditions.of(said.stdout))
    return row


def compared(path, written, drafted):
    """How many random launches of what was written meet what was drafted, what keeps the others out, and which known launches meet it."""
    defines = [it.split(" ", 1)[1] for it in written.head if it.startswith("define ")]
    name = next((it.split()[1] for it in written.head if it.startswith("kernel ")), None)
    try:
        kinds = Kernel(read(path), defines, name).buffers()
    except Unread:
        return {}
    chance, met, out = random.Random(7), 0, collections.Counter()
    for _ in range(LAUNCHES):
        launch = some_launch(chance, written, kinds)
        unmet = drafted.unmet(launch) if launch else ["no launch was found"]
        met += not unmet
        out.update(unmet)
    known = {}
    for it in ("witness", "launch"):
        if os.path.exists(path[:-2] + it):
            known[it] = drafted.unmet(Launch.of(read(path[:-2] + it)))
    return {"met": met, "out": out.most_common(4), "known": known}


def is_not_stronger(row):
    return row["status"] == 0 and row.get("met") == LAUNCHES


def table(rows):
    lines = ["| Folder | Safe kernels | Accepted draft | Not stronger | Unsafe kernels | Accepted draft |", "|" + "---|" * 6]
    for folder in [*dict.fromkeys(it["folder"] for it in rows), None]:
        of = [it for it in rows if folder in (None, it["folder"])]
        safe, unsafe = [it for it in of if it["safe"]], [it for it in of if not it["safe"]]
        cells = [folder or "all", len(safe), sum(it["status"] == 0 for it in safe), sum(map(is_not_stronger, safe)), len(unsafe),
                 sum(it["status"] == 0 for it in unsafe)]
        lines.append("| " + " | ".join(map(str, cells)) + " |")
    return "\n".join(lines) + "\n"


def told_of_unsafe(rows):
    """What was drafted for unsafe kernels, and which launches it leaves out."""
    told = []
    for row in rows:
        if not row["safe"] and row["status"] == 0:
            known = "; ".join(f"the {it} is {'kept out by ' + ', '.join(unmet) if unmet else 'met'}" for it, unmet in row["known"].items())
            out = ", ".join(f"{line} ({times})" for line, times in row["out"])
            told.append(f"{row['name']}: {row['met']} of {LAUNCHES} random launches meet it; {out}; {known or 'no launch is known'}")
    return "\n".join(told)


def main():
    parser = argparse.ArgumentParser(usage=__doc__)
    parser.add_argument("--program", default=os.path.join(ROOT, "crates", "kverify", "out", "unproved", "kverify"))
    parser.add_argument("--seconds", type=int, default=30)
    parser.add_argument("--workers", type=int, default=1)
    parser.add_argument("--only", default="")
    parser.add_argument("--list")
    parser.add_argument("--out")
    parser.add_argument("folders", nargs="*", default=[os.path.join(HERE, "kernels"), os.path.join(ROOT, "examples")])
    words = parser.parse_args()
    kernels = [it for folder in words.folders for it in kernels_of(os.path.abspath(folder)) if words.only in it[0]]
    rows = []
    with concurrent.futures.ProcessPoolExecutor(words.workers) as pool:
        begun = [pool.submit(measured, words.program, words.seconds, *it) for it in kernels]
        for number, it in enumerate(concurrent.futures.as_completed(begun), 1):
            row = it.result()
            rows.append(row)
            print(f"[{number}/{len(begun)}] {row['name']}: status {row['status']}, {row.get('again', '')}, "
                  f"{row.get('met', '-')} of {LAUNCHES}, {row['seconds']} s", file=sys.stderr, flush=True)
    rows.sort(key=lambda it: [os.path.basename(os.path.dirname(path)) + "/" + os.path.basename(path)[:-3] for path, *_ in kernels].index(
        it["folder"] + "/" + it["name"]))
    if words.list:
        with open(words.list, "w", encoding="utf-8") as file:
            json.dump(rows, file, indent=1)
    told = table(rows) + "\n" + told_of_unsafe(rows) + "\n"
    if words.out:
        with open(words.out, "w", encoding="utf-8") as file:
            file.write(told)
    print(told)
    return 0


if __name__ == "__main__":
    sys.exit(main())
