#!/usr/bin/env python3
"""Looks for small kernels that `prove` accepts at some launches and refuses where fewer are allowed, or refuses though they are safe.

    narrower.py [--oracle FOLDER] [NAME ..]     all templates, or these

Each template is a kernel with the lengths of its buffers and `require` lines. It is proved with each choice of these lines, with ranges of
the group count and of its arguments that are equal, nested, of one number, or touch at an end, and with one or many items in a group.
Whoever allows fewer launches, by narrower ranges or by one more `require` line, is to lose no acceptance: what is lost is printed, with
something wider that is accepted. Most templates say of each launch whether it is safe, so what is refused though each launch is safe is
printed too. With --oracle, whose folder has the modules of the independent program, each kernel that is refused is given to that one's
search, and what it proves is printed. Build the program first: ./kverify build
"""
import itertools
import os
import sys
import tempfile

sys.path.insert(0, os.path.dirname(os.path.dirname(os.path.abspath(__file__))))
from common import first_line, put_all

SIZES = (32, 1)
# Ranges of the group count, of a `uint` and of an `int`: of kernels with one argument, and of those with more.
COUNTS = ((1, 32), (1, 1), (1, 33), (2, 32), (32, 32))
NUMBERS = ((0, 64), (1, 64), (1, 32), (1, 31), (2, 32), (1, 1), (32, 32), (32, 64), (0, 0))
SIGNED = ((-64, 64), (-32, 32), (1, 32), (-1, 32), (-1, -1), (-32, 0), (0, 0))
FEW_COUNTS = ((1, 32), (1, 1), (2, 32))
FEW_NUMBERS = ((0, 64), (1, 32), (1, 1), (2, 32))
FEW_SIGNED = ((-32, 32), (1, 32), (-1, -1))

# Of each template its parameters, its body, the lengths of its buffers, `require` lines, of which each choice is tried, and when a launch
# is safe, in the numbers of the conditions; '' where that is not told. S is the local size.
TEMPLATES = {
    "group_leader": (
        "global uint *o, uint n",
        "if (get_local_id(0) == 0u) o[get_group_id(0)] = 1u;",
        ("o >= n",),
        ("n >= groups.0", "groups.0 >= n"),
        "groups <= n",
    ),
    "group_leader_back": (
        "global uint *o, uint n",
        "if (get_local_id(0) == 0u) o[n - 1u - get_group_id(0)] = 1u;",
        ("o >= n",),
        ("n >= groups.0", "groups.0 >= n"),
        "groups <= n",
    ),
    "two_leaders": (
        "global uint *o, uint n",
        "if (get_local_id(0) == 0u) { o[get_group_id(0) * 2u] = 1u; o[get_group_id(0) * 2u + 1u] = 2u; }",
        ("o >= n",),
        ("n >= 2*groups.0", "n >= groups.0"),
        "2 * groups <= n",
    ),
    "group_guard": (
        "global uint *o, uint n",
        "if (get_group_id(0) < n) o[get_global_id(0)] = 1u;",
        ("o >= S*n",),
        ("n >= groups.0", "n >= 1"),
        "True",
    ),
    "count_guard": (
        "global uint *o, uint n",
        "if (get_num_groups(0) <= n) o[get_global_id(0)] = 1u;",
        ("o >= S*n",),
        ("n >= groups.0", "groups.0 >= n"),
        "True",
    ),
    "global_guard": (
        "global uint *o, uint n",
        "uint i = get_global_id(0); if (i < n) o[i] = 1u;",
        ("o >= n",),
        ("n >= groups.0", "n >= S", "S*groups.0 >= n"),
        "True",
    ),
    "global_int_guard": (
        "global int *o, int n",
        "int i = (int)get_global_id(0); if (i < n) o[i] = i;",
        ("o >= n",),
        ("n >= groups.0", "S*groups.0 >= n"),
        "True",
    ),
    "no_guard": (
        "global uint *o, uint n",
        "o[get_global_id(0)] = 1u;",
        ("o >= S*n",),
        ("n >= groups.0", "groups.0 >= n"),
        "groups <= n",
    ),
    "early_exit": (
        "global uint *o, uint n",
        "uint i = get_global_id(0); if (i >= n) return; o[n - 1u - i] = i;",
        ("o >= n",),
        ("n >= groups.0", "groups.0 >= n"),
        "True",
    ),
    "last_element": (
        "global uint *o, global const uint *a, uint n",
        "uint i = get_global_id(0); o[i] = a[min(i, n - 1u)];",
        ("o >= S*groups.0", "a >= n"),
        ("n >= groups.0", "groups.0 >= n"),
        "n >= 1",
    ),
    "quotient": (
        "global uint *o, uint n",
        "o[get_global_id(0)] = get_global_id(0) / n;",
        ("o >= S*groups.0",),
        ("n >= groups.0", "n >= 1", "groups.0 >= n"),
        "n >= 1",
    ),
    "stride": (
        "global uint *o, uint n",
        "if (get_group_id(0) == 0u) for (uint i = get_local_id(0); i < n; i += Su) o[i] = 1u;",
        ("o >= n",),
        ("n >= groups.0", "n >= S"),
        "True",
    ),
    "stride_of_groups": (
        "global uint *o, uint n",
        "if (get_local_id(0) == 0u) for (uint i = get_group_id(0); i < n; i += get_num_groups(0)) o[i] = 1u;",
        ("o >= n",),
        ("n >= groups.0", "groups.0 >= n"),
        "",
    ),
    "sum_of_group": (
        "global uint *o, global const uint *a, uint n",
        "uint s = 0u; for (uint k = 0u; k < n; k += 1u) s += a[k]; if (get_local_id(0) == 0u) o[get_group_id(0)] = s;",
        ("o >= n", "a >= n"),
        ("n >= groups.0",),
        "groups <= n",
    ),
    "loop_down": (
        "global uint *o, global const uint *a, uint n",
        "uint s = 0u; for (uint k = n; k > 0u; k -= 1u) s += a[k - 1u]; o[get_global_id(0)] = s;",
        ("o >= S*groups.0", "a >= n"),
        ("n >= groups.0", "groups.0 >= n"),
        "True",
    ),
    "loop_of_groups": (
        "global uint *o, global const uint *a, uint n",
        "uint s = 0u; for (uint k = 0u; k < get_num_groups(0); k += 1u) s += a[k]; o[get_global_id(0)] = s;",
        ("o >= S*groups.0", "a >= n"),
        ("n >= groups.0",),
        "groups <= n",
    ),
    "turned_tile": (
        "global uint *o, global const uint *a, uint n",
        "local uint t[S]; uint l = get_local_id(0); t[l] = a[get_global_id(0)]; barrier(CLK_LOCAL_MEM_FENCE);"
        " o[get_global_id(0)] = t[Su - 1u - l];",
        ("o >= S*n", "a >= S*n"),
        ("n >= groups.0",),
        "groups <= n",
    ),
    "tiles": (
        "global uint *o, global const uint *a, uint n",
        "local uint t[S]; uint l = get_local_id(0); uint s = 0u;"
        " for (uint k = 0u; k < n; k += 1u) { t[l] = a[k * Su + l]; barrier(CLK_LOCAL_MEM_FENCE);"
        " s += t[Su - 1u - l]; barrier(CLK_LOCAL_MEM_FENCE); } o[get_global_id(0)] = s;",
        ("o >= S*groups.0", "a >= S*n"),
        ("n >= groups.0", "groups.0 >= n"),
        "True",
    ),
    "two_guards": (
        "global uint *o, global const uint *a, uint m, uint n",
        "uint i = get_global_id(0); if (i >= m && i < n) o[i - m] = a[i];",
        ("o >= n", "a >= n"),
        ("n >= m", "n >= groups.0", "m >= groups.0"),
        "True",
    ),
    "two_lengths": (
        "global uint *o, global const uint *a, uint m, uint n",
        "uint i = get_global_id(0); if (i < m) o[i] = a[i];",
        ("o >= m", "a >= n"),
        ("n >= m", "m >= groups.0", "groups.0 >= m"),
        "min(m, S * groups) <= n",
    ),
    "offset": (
        "global uint *o, uint m, uint n",
        "if (get_local_id(0) == 0u) o[m + get_group_id(0)] = 1u;",
        ("o >= m + n",),
        ("n >= groups.0", "m >= groups.0", "n >= m"),
        "groups <= n",
    ),
    "difference": (
        "global uint *o, uint m, uint n",
        "if (get_local_id(0) == 0u && get_group_id(0) + m < n) o[get_group_id(0)] = 1u;",
        ("o >= n + -1*m",),
        ("n >= m", "n >= groups.0", "m >= groups.0"),
        "True",
    ),
    "range_loop": (
        "global uint *o, global const uint *a, uint m, uint n",
        "uint s = 0u; for (uint k = m; k < n; k += 1u) s += a[k]; o[get_global_id(0)] = s;",
        ("o >= S*groups.0", "a >= n"),
        ("n >= m", "n >= groups.0"),
        "True",
    ),
    "shifted": (
        "global uint *o, int d, uint n",
        "int i = (int)get_global_id(0) + d; if (i >= 0 && (uint)i < n) o[(uint)i] = 1u;",
        ("o >= n",),
        ("n >= d", "d >= groups.0", "n >= groups.0"),
        "True",
    ),
    "three": (
        "global uint *o, global const uint *a, uint p, uint m, uint n",
        "uint i = get_global_id(0); if (i >= p && i < m) o[i] = a[i - p];",
        ("o >= m", "a >= n"),
        ("n >= m", "m >= p", "p >= groups.0"),
        "min(m, S * groups) - p <= n",
    ),
}


def kernel_of(name, size):
    parameters, body = TEMPLATES[name][:2]
    body = body.replace("Su", f"{size}u").replace("[S", f"[{size}")
    return f"kernel __attribute__((reqd_work_group_size({size}, 1, 1))) void k({parameters}) {{\n  {body}\n}}\n"


def arguments_of(name):
    """Of each value parameter its type and its name."""
    return [it.split() for it in TEMPLATES[name][0].split(", ") if "*" not in it]


def conditions_of(name, size, ranges, required):
    """The text of conditions, with the range of the group count and of each argument."""
    lines = ["conditions 1", "groups %d..%d 1..1 1..1" % ranges[0]]
    lines += ["arg %s %d..%d" % (argument, *it) for (_, argument), it in zip(arguments_of(name), ranges[1:])]
    lines += [f"length {it}" for it in TEMPLATES[name][2]] + [f"require {it}" for it in required]
    return "\n".join(lines).replace("S*", f"{size}*").replace(">= S", f">= {size}") + "\nbudget 1000000\n"


def choices_of(name):
    """All ranges with all choices of `require` lines."""
    kinds = [kind for kind, _ in arguments_of(name)]
    counts, numbers, signed = (COUNTS, NUMBERS, SIGNED) if len(kinds) == 1 else (FEW_COUNTS, FEW_NUMBERS, FEW_SIGNED)
    ranges = itertools.product(counts, *(signed if kind == "int" else numbers for kind in kinds))
    lines = TEMPLATES[name][3]
    required = [choice for many in range(len(lines) + 1) for choice in itertools.combinations(lines, many)]
    return list(itertools.product(ranges, required))


def answer(folder, kernel, conditions):
    """The first line of what the program prints."""
    return first_line("prove", *put_all(folder, {"kernel.cl": kernel, "conditions.txt": conditions}))


def is_narrower(one, other):
    """Whether each launch of one choice is one of the other."""
    is_within = all(low >= least and high <= most for (low, high), (least, most) in zip(one[0], other[0]))
    return one != other and is_within and set(one[1]) >= set(other[1])


def is_safe(name, size, choice):
    """Whether each launch is safe, as the template tells it; not where it does not."""
    safe = TEMPLATES[name][4]
    if not safe:
        return False
    names = ", ".join(["groups", *(argument for _, argument in arguments_of(name))])
    wrong = " and ".join([*(it.replace("groups.0", "groups") for it in choice[1]), f"not ({safe})"])
    is_wrong = eval(f"lambda {names}: {wrong}", {"min": min, "S": size})
    return not any(itertools.starmap(is_wrong, itertools.product(*(range(low, high + 1) for low, high in choice[0]))))


def is_proved_by(folder, kernel, conditions):
    """Whether the independent program's search shows a kernel."""
    sys.path.insert(0, folder)
    import config
    import prove

    config.stage("b")
    config.R15 = True
    try:
        prove.verify(kernel.encode(), conditions.encode(), 1)
        return True
    except config.Refused:
        return False


def fault(name, size, choice, accepted, oracle):
    """What is wrong with a refusal; an empty text where nothing is known to be."""
    wider = next((it for it in accepted if is_narrower(choice, it)), None)
    if wider is not None:
        return f"is accepted at {told(wider)}"
    if is_safe(name, size, choice):
        return "is safe"
    if oracle and is_proved_by(oracle, kernel_of(name, size), conditions_of(name, size, *choice)):
        return "is proved by the independent program"
    return ""


def told(choice):
    return ", ".join("%d..%d" % it for it in choice[0]) + "".join(f"; {it}" for it in choice[1])


def sweep(folder, name, size, oracle):
    """Proves a template with all choices, prints the faults, and returns how many were proved, accepted and at fault."""
    kernel = kernel_of(name, size)
    answers = {choice: answer(folder, kernel, conditions_of(name, size, *choice)) for choice in choices_of(name)}
    accepted = [choice for choice, it in answers.items() if it == "accepted"]
    faults = 0
    for choice, line in answers.items():
        what = fault(name, size, choice, accepted, oracle) if line != "accepted" else ""
        if what:
            faults += 1
            print(f"  {line} at {told(choice)}: {what}", flush=True)
    print(f"{name} of {size}: {len(answers)} proved, {len(accepted)} accepted, {faults} faults", flush=True)
    return len(answers), len(accepted), faults


def main(words):
    oracle = None
    if words[:1] == ["--oracle"]:
        oracle, words = words[1], words[2:]
    with tempfile.TemporaryDirectory() as folder:
        counts = [sweep(folder, name, size, oracle) for name in words or TEMPLATES for size in SIZES]
    print("all: %d proved, %d accepted, %d faults" % tuple(map(sum, zip(*counts))))
    sys.exit(1 if any(it[2] for it in counts) else 0)


if __name__ == "__main__":
    main(sys.argv[1:])
