#!/usr/bin/env python3
"""Compares the machine with an independent program, and measures it.

    replay.py compare FOLDER COUNT SEED [exits]
                                            COUNT random kernels under random schedules; FOLDER has the modules of the independent program;
                                            with `exits` each kernel has a `return`, `break` or `continue`
    replay.py measure                       nanoseconds an event of a tree reduction, and events a second of a long history

Build the program first: python3 tools/build.py cases
"""
import os
import resource
import subprocess
import sys
import tempfile
import time

sys.path.insert(0, os.path.dirname(os.path.dirname(os.path.abspath(__file__))))
from common import CASES, ROOT, dice_of, has_exit, launch_text, print_counts, put_all

EVENTS = 400
TIMES = 3


def replayed(folder, kernel, launch, schedule):
    """What the program of the tests of texts prints of a schedule."""
    names = put_all(folder, {"kernel.cl": kernel, "launch.txt": launch, "schedule.txt": schedule})
    return subprocess.run([CASES, "replay", *names], check=True, capture_output=True, text=True).stdout


# ---- the comparison

def wild_event(rng, world):
    """One that need not be possible."""
    items = len(world.items)
    if rng.random() < 0.5:
        return ("step", rng.randrange(items + 2))
    return ("release", rng.randrange(items // world.group_size + 2))


def next_event(rng, machine, world, style, current):
    """Mostly of one item, of the first that runs, or of any."""
    running = [i for i, item in enumerate(world.items) if item.status == machine.RUNNING]
    if not running or rng.random() < 0.05:
        groups = len(world.items) // world.group_size
        return ("release", rng.randrange(groups)) if rng.random() < 0.8 else wild_event(rng, world)
    if style == 0:
        return ("step", rng.choice(running))
    if style == 1:
        return ("step", running[0])
    return ("step", current if current in running and rng.random() < 0.9 else rng.choice(running))


def told(outcome):
    if isinstance(outcome, str):
        return outcome
    return "fault %s %d:%d" % (outcome.name, *outcome.site)


def owned(typed, access):
    """Who has the array, and its number among its like."""
    if isinstance(access.buffer, tuple):
        group, name = access.buffer
        return "group %d array %d" % (group, [a.name for a in typed.local_arrays()].index(name))
    return "launch array %d" % [p.name for p in typed.buffers].index(access.buffer)


def access_text(typed, access):
    sort = "store" if access.store else "load"
    site = "%d:%d" % access.site
    return "%s %s item %d of %s element %d epoch %d" % (sort, site, access.item, owned(typed, access), access.element, access.epoch)


def end_text(machine, typed, world):
    lines = [" ".join(["buffer", *map(str, world.memory[p.name])]) for p in typed.buffers]
    race = machine.clash(world)
    lines.append("clash " + " ".join(access_text(typed, a) for a in race) if race else "no clash")
    pair = machine.divergence(world)
    lines.append("divergence %d %d" % pair if pair else "no divergence")
    return lines


def compare(folder, count, seed, exits):
    sys.path.insert(0, folder)
    import check
    import config
    import fuzz
    import machine

    config.stage("b")
    config.R15 = True
    found = dict.fromkeys(("kernels", "events", "done", "not possible", "faults", "races", "divergences", "over", "different"), 0)
    with tempfile.TemporaryDirectory() as place:
        for attempt, rng in dice_of(seed):
            if found["kernels"] >= count:
                break
            kernel, conditions = fuzz.Gen(rng).kernel()
            if exits and not has_exit(kernel):
                continue
            try:
                typed, read, _ = check.front(kernel.encode(), conditions.encode())
            except config.Refused:
                continue
            launch = fuzz.random_launch(rng, typed, read)
            if launch is None:
                continue
            world = machine.World(typed, launch)
            events, lines, style, current = [], [], rng.randrange(3), 0
            for _ in range(rng.choice([EVENTS // 10, EVENTS])):
                event = next_event(rng, machine, world, style, current)
                current = event[1] if event[0] == "step" else current
                events.append("%s %d" % event)
                lines.append(told(machine.apply(world, event)))
                if lines[-1] == "not possible" and machine.over(world) and rng.random() < 0.3:
                    break
            found["kernels"] += 1
            found["events"] += len(lines)
            found["done"] += lines.count("done")
            found["not possible"] += lines.count("not possible")
            found["faults"] += sum(line.startswith("fault") for line in lines)
            lines += end_text(machine, typed, world)
            found["races"] += lines[-2] != "no clash"
            found["divergences"] += lines[-1] != "no divergence"
            found["over"] += machine.over(world)
            text = replayed(place, kernel, launch_text(typed, launch), "\n".join(events) + "\n")
            if text.splitlines() != lines:
                found["different"] += 1
                print(f"kernel {seed}:{attempt} differs")
    print_counts(found)
    return found["different"]


# ---- the measurements

HEAD = "__kernel __attribute__((reqd_work_group_size(64, 1, 1))) void k(%s) {\n"

with open(os.path.join(ROOT, "examples", "tree_reduction.cl")) as found:
    REDUCTION = found.read()

SUMS = HEAD % "__global uint *a, uint n" + """\
  uint gid = get_global_id(0);
  for (uint i = 0u; i < n; i += 1u) a[i * 64u + gid] = a[gid] + i;
}
"""

SHARED = HEAD % "__global uint *a, uint n" + """\
  uint x = 0u;
  for (uint i = 0u; i < n; i += 1u) x = x + a[0] + a[i];
  a[0] = x;
}
"""


def seconds(folder, kernel, launch, schedule):
    """The least of some runs, and what the last one wrote."""
    taken = []
    for _ in range(TIMES):
        start = time.perf_counter()
        text = replayed(folder, kernel, launch, schedule)
        taken.append(time.perf_counter() - start)
    return min(taken), text


def measured(what, kernel, launch, rounds, items, groups):
    with tempfile.TemporaryDirectory() as folder:
        least, _ = seconds(folder, kernel, launch, f"rounds 0 {items} {groups}\n")
        taken, text = seconds(folder, kernel, launch, f"rounds {rounds} {items} {groups}\n")
    counts, *_, race, _ = text.splitlines()
    done = int(counts.split()[0])
    print(f"{what}: {counts}; {(taken - least) / done * 1e9:.0f} ns an event, {done / (taken - least):,.0f} events a second; {race[:60]}")


def measure():
    for groups in (1, 16, 256):
        words = f"buffer in fill {64 * groups} 1\nbuffer out fill {groups} 0\n"
        measured(f"tree reduction, {groups} groups", REDUCTION, f"launch 1\ngroups {groups} 1 1\n{words}fill 0\n", 80, 64 * groups, groups)
    for turns in (782, 7_813):
        launch = f"launch 1\ngroups 1 1 1\narg n {turns}\nbuffer a fill {64 * turns} 1\nfill 0\n"
        measured(f"a load and a store, {turns} turns", SUMS, launch, 4 * turns + 10, 64, 1)
        measured(f"two loads, {turns} turns, and a race at the end", SHARED, launch, 5 * turns + 10, 64, 1)
    peak = resource.getrusage(resource.RUSAGE_CHILDREN).ru_maxrss
    print(f"{peak} KiB at most")


def main():
    if sys.argv[1:2] == ["compare"] and sys.argv[5:] in ([], ["exits"]) and len(sys.argv) > 4:
        sys.exit(1 if compare(sys.argv[2], int(sys.argv[3]), int(sys.argv[4]), bool(sys.argv[5:])) else 0)
    if sys.argv[1:] == ["measure"]:
        return measure()
    sys.exit(__doc__)


if __name__ == "__main__":
    main()
