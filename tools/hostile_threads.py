"""The part `threads` of hostile.py: the same answer with each number of workers, and with one that is held."""
import subprocess

from hostile_common import count, judge
from hostile_sheets import CASES, Sheet


def threads(trial):
    """All of this part."""
    trial.put(trial.files)
    settled(trial)
    whole = proved_and_run(trial)
    run_often(trial, whole)
    with trial.table.row("a run by two workers, the first held at each of its first 200 moments: equal bytes") as ends:
        held = Sheet(trial.files)
        for name in ("loop", "turned", "own"):
            held.ask(f"stalled {name} {name}.m {name}.p {name}.l", (0, b"0 of 200 runs differ\n"))
        count(trial, ends, "a run with a worker that is held", held, "of 200 runs that are equal")


def settled(trial):
    """Candidates, settled by several numbers of workers."""
    with trial.table.row("the candidates that are left, with 1, 3 and 64 workers") as ends:
        for kind, told in (("stand", b"512 left\n"), ("fall", b"0 left\n")):
            for workers in (1, 3, 64):
                done = subprocess.run([CASES, "settle", kind, str(workers)], capture_output=True)
                judge(trial, ends, f"settle {kind} {workers}", (done.returncode, done.stdout), (0, told))


def proved_and_run(trial):
    """Certificates of several numbers of workers, and what a run of each kernel leaves, by the words of its command."""
    with trial.table.row("one certificate and equal bytes, with 1, 3 and 64 workers") as ends:
        sheet = Sheet(trial.files)
        for name in ("tree", "loop", "turned", "own", "fill"):
            sheet.ask(f"prove {name} {name}.c --out one", (0, b"accepted\n"))
            for workers in (3, 64):
                sheet.ask(f"prove {name} {name}.c --workers {workers} --out other", (0, b"accepted\n"))
                sheet.ask("same one other", (0, b""))
            if name != "tree":
                sheet.ask(f"run {name} {name}.c one {name}.l")
        found = sheet.answers(trial.folder) or {}
        asked = {at: sheet.text[sheet.asked[at] - 1] for at in found}
        whole = {asked[at]: it for at, it in found.items() if asked[at].startswith(b"$ run")}
        ends["one certificate"] += len(sheet.asked) - len(found)
        if len(found) != 4 or len(whole) != 4:
            trial.table.fault(f"one certificate: {list(found.items())[:3]}")
    return whole


def run_often(trial, whole):
    """Runs by several numbers of workers, again and again, against what one run left."""
    with trial.table.row("a run 200 times each with 4 and 64 workers: equal bytes") as ends:
        for name in ("loop", "turned", "own"):
            told = next(it for words, it in whole.items() if b" %s " % name.encode() in words)
            often = Sheet(trial.files)
            often.ask(f"prove {name} {name}.c --out one", (0, b"accepted\n"))
            for _ in range(200):
                for workers in (1, 3, 4, 64):
                    often.ask(f"run {name} {name}.m one {name}.l --workers {workers}", told)
            count(trial, ends, f"run {name}", often, "equal")
