#!/usr/bin/env python3
"""Tests of drafts: of the texts of conditions, of what is read of kernels, of the search with a stand-in, and of drafts by the program.

usage: tools/test_draft.py PROGRAM; `./kverify test --draft` calls it. The last line is `N passed, N failed`; status 1 where one failed.
"""
import os
import random
import subprocess
import sys
import tempfile
import traceback

sys.dont_write_bytecode = True
from draft_conditions import LONGEST, Conditions, Launch, Sum, least_launch, some_launch
from draft_kernels import Kernel, Unread, is_true, kernel_names
from draft_prover import Answer, Prover
from draft_search import Search, joined

HERE = os.path.dirname(os.path.abspath(__file__))
WORDS = ["--wide", "--opencl", "--devices", "any"]
LINE = "__kernel __attribute__((reqd_work_group_size(64, 1, 1))) "
PLANE = "__kernel __attribute__((reqd_work_group_size(8, 8, 1))) "


class Wrong(Exception):
    """A test failed."""


def expect(is_so, what):
    if not is_so:
        raise Wrong(what)


def expect_same(found, told):
    expect(found == told, f"told:\n{told}\nfound:\n{found}")


# Texts of conditions and launches

TEXT = """conditions 3
kernel k
local_size 8 8 1
groups 1..16 1..4 1..1
arg w 1..100
arg pitch 1..4294967295
length src >= pitch*w + -3
length dst >= 8*groups.0 + w
require pitch >= w + 1
values src <= w + -1
budget 10
"""


def launch_of(text):
    return Launch.of("launch 1\n" + text + "fill 0\n")


def test_a_text_is_written_as_it_was_read():
    expect_same(str(Conditions.of(TEXT)), TEXT)


def test_sums():
    expect_same(str(Sum.of("3 + n + 2*n + n*m + -1*m*n + -3")), "3*n")
    expect_same(Sum.of("-1*a*b + 7").value({"a": 2, "b": 5}), -3)
    expect(not Sum.of("4294967296*n").may_be_said(), "a factor that is too large")


def test_a_launch_meets_conditions_or_not():
    conditions = Conditions.of(TEXT)
    meets = "groups 2 1 1\narg w 2\narg pitch 3\nbuffer src list 1 0 1\nbuffer dst fill 18 7\n"
    expect_same(conditions.unmet(launch_of(meets)), [])
    for changed, line in [(("arg w 2", "arg w 3"), "require pitch >= w + 1"), (("list 1 0 1", "list 1 2 1"), "values src <= w + -1"),
                          (("fill 18", "fill 17"), "length dst >= 8*groups.0 + w"), (("groups 2", "groups 17"), "groups.0 1..16")]:
        expect(any(line in it for it in conditions.unmet(launch_of(meets.replace(*changed)))), f"{line} is not met")


def test_random_launches_meet_conditions():
    conditions, chance = Conditions.of(TEXT), random.Random(3)
    launches = [some_launch(chance, conditions, {"src": (0, 255), "dst": (0, 255)}) for _ in range(50)]
    expect(all(it and not conditions.unmet(it) for it in launches), "50 launches that meet them")
    expect(len({it.arguments["w"] for it in launches}) > 5, "they are not all alike")


def test_conditions_that_no_launch_meets():
    conditions = Conditions.of(TEXT.replace("arg pitch 1..4294967295", "arg pitch 1..1"))
    expect_same(least_launch(conditions, {"src": (0, 255), "dst": (0, 255)}), None)
    conditions = Conditions.of("conditions 2\ngroups 1..1 1..1 1..1\nlength a >= 0\nvalues a <= -1\nbudget 1\n")
    expect_same(least_launch(conditions, {"a": (0, 255)}), None)


# What is read of kernels

SEVERAL = """#define GLOBAL __global
#define W 16
typedef unsigned int word;
float at(GLOBAL const float *p, int i) { return p[i + get_global_id(1)]; }
kernel void first(GLOBAL word *a, const float x, short2 n) { a[get_global_id(0)] = n.x; }
__kernel void __attribute__((reqd_work_group_size(W, W, 1))) second(GLOBAL const float *restrict a, __constant char tab[4], /* , */
    __local uchar4 *s, const unsigned char c, GLOBAL int *b) { b[get_group_id(0)] = at(a, tab[c + 0x20]); }
__kernel void third(GLOBAL uint *a) __attribute__((reqd_work_group_size(8, 1, 1))) { a[get_local_id(2)] = 1u; }
"""


def test_kernels_of_a_file():
    expect_same(kernel_names(SEVERAL), ["first", "second", "third"])
    first, second, third = (Kernel(SEVERAL, (), it) for it in ("first", "second", "third"))
    expect_same((first.size, second.size, third.size), (None, (16, 16, 1), (8, 1, 1)))
    expect_same((first.dimensions, second.dimensions, third.dimensions), ({0}, {0, 1}, set()))
    expect_same(first.values(), [("x", 0, LONGEST), ("n_s0", -32768, 32767), ("n_s1", -32768, 32767)])
    expect_same((second.values(), second.locals()), ([("c", 0, 255)], {"s": 4}))
    expect_same((list(second.buffers()), list(second.loaded())), (["a", "tab", "b"], ["tab"]))
    expect(32 in second.numbers, "the number 0x20")
    expect_same(third.default_size(), (8, 8, 4))


def test_what_a_host_defines():
    expect_same(Kernel("__kernel void k(T *a) { }", ["T __global uchar"]).buffers(), {"a": (0, 255)})


BRANCHES = """#ifndef T
#define T uint
#endif
#if defined(WIDE) && WIDE > 1 || T
__kernel void k(__global T *a, uint wide) {
#elif __OPENCL_VERSION__ >= 120
__kernel void k(__global T *a) {
#else
__kernel void k(__global T *a, uint old) {
#endif
#ifdef WIDE
  if (wide) {
#else
  if (a[0]) {
#endif
    a[1] = 0; } }
"""


def test_directives():
    expect_same(Kernel(BRANCHES).values(), [])
    expect_same(Kernel(BRANCHES, ["WIDE 2", "T uchar"]).values(), [("wide", 0, LONGEST)])
    expect_same(Kernel(BRANCHES, ["WIDE (1 << 1) - 1", "T uchar"]).buffers(), {"a": (0, 255)})
    for text in ("9**9**9", "1 << 999999999", "1 << 9*9*9*9*9*9*9*9*9*9*9", "(", "1 / 0", "f(1)", "((" * 600):
        expect(not is_true(text, {}), f"{text} does not hold")
    expect(is_true("012 == 0xAu && !defined(A)", {}), "numbers of other bases")


def test_texts_of_which_nothing_is_known():
    for text in ("", "void k(int n) { }", "__kernel void k(int n);", "__kernel void k(int n) {"):
        try:
            Kernel(text)
        except Unread:
            continue
        raise Wrong(f"this counts as read: {text}")


# The search, with a stand-in for the program: it accepts a text where each of some launches that meet it meets the lines that are needed


class StandIn(Prover):
    def __init__(self, kernel, needed, helps):
        super().__init__("", "", "", 1000)
        self.buffers, self.needed, self.helps = kernel.buffers(), needed, helps
        self.widest = Search(kernel, self).text({**{f"groups.{at}": (1, 65536) for at in range(3)}, **Search(kernel, self).types})

    def run(self, command, text, seconds):
        self.asked += 1
        conditions, chance = Conditions.of(text), random.Random(1)
        launches = [it for it in (some_launch(chance, conditions, self.buffers, 40) for _ in range(40)) if it]
        left = [it for it in self.needed if any(joined(self.widest, it).unmet(launch) for launch in launches)]
        if left:
            told = ["refused 60", *(f"fault F3 possible: {self.needed.index(it)}:1" for it in left), ""]
            told += [f"     =   {it}" for it in left if it in self.helps and command == "explain"]
            return Answer(1, "\n".join(told) + "\n")
        if conditions.budget < 7:
            return Answer(1, "refused 56\n\nAs far as is known, it takes at most 7 steps: budget 7 is enough.\n")
        return Answer(0, "accepted\n")


COPY = LINE + "void k(__global const uint *a, __global uint *b, uint n, int m) { b[get_global_id(0)] = a[n]; }"


def drafted(needed, helps, launch=None):
    kernel = Kernel(COPY)
    return Search(kernel, StandIn(kernel, needed, helps), (), launch).run()


def test_lines_that_help_are_taken_and_no_others():
    found = drafted(["length a >= n + 1", "arg m 0..2147483647"], ["length a >= n + 1", "arg m 0..2147483647"])
    lines = ["conditions 2", "groups 1..65536 1..1 1..1", "arg n 0..4294967295", "arg m 0..2147483647", "length a >= n + 1"]
    expect_same(str(found), "\n".join([*lines, "length b >= 0", "budget 7", ""]))


def test_ranges_grow_to_what_is_accepted():
    found = drafted(["arg n 3..5000", "arg m 0..2147483647"], [])
    expect_same((found.ranges()["n"], found.requires), ((3, 4096), ()))
    expect_same(drafted(["arg n 33..33"], []), None)
    found = drafted(["arg n 0..5000", "arg m 0..2147483647", "length b >= 64*groups.0"], [])
    expect_same(found.ranges()["n"], (0, 4096))
    expect_same(str(found.length("b")), "64*groups.0")


def test_requirements_and_values():
    found = drafted(["require n >= m", "values a <= 700"], [])
    expect(("a", "<=", Sum.number(512)) in found.values, "what a holds is bounded by a power of two")
    expect((Sum.of("n"), Sum.of("m")) in found.requires, "what is required")


def test_lengths_are_guessed():
    found = drafted(["length a >= n", "length b >= n + 1"], ["length b >= n + 1"])
    expect_same((str(found.length("a")), str(found.length("b"))), ("n", "n + 1"))


def test_a_launch_is_met():
    launch = launch_of("groups 1 1 1\narg n 33\narg m -3\nbuffer a fill 40 1\nbuffer b fill 50 1\n")
    found = drafted(["arg n 33..33", "length a >= n"], ["length a >= n"], launch)
    expect_same((found.ranges()["n"], found.unmet(launch)), ((33, 33), []))


# Drafts by the program. Of each kernel: its head, launches that meet the draft, and launches at which it has a fault.

FILL = LINE + "void fill(__global uint *a) { a[get_global_id(0)] = 1u; }"
GUARD = LINE + "void guard(__global int *a, uint n) { uint i = get_global_id(0); if (i < n) a[i] = 1; }"
ROWS = PLANE + """void rows(__global uint *dst, uint w, uint h, uint pitch) {
  uint x = get_global_id(0), y = get_global_id(1);
  if (x < w && y < h) dst[y * pitch + x] = x;
}"""
TABLE = LINE + """void table(__global const uchar *in, __global uint *out, __constant uint *squares, uint n) {
  uint i = get_global_id(0);
  if (i < n) out[i] = squares[in[i]];
}"""
GATHER = LINE + """void gather(__global const uint *at, __global const float *in, __global float *out, uint n, uint m) {
  for (uint i = get_global_id(0); i < n; i += get_global_size(0)) out[i] = in[at[i]];
}"""
DIVIDE = LINE + "void divide(__global uint *a, uint n) { uint i = get_global_id(0); a[i] = i / n; }"
OFFSET = LINE + "void offset(__global uint *a, int first, int n) { int i = get_global_id(0); if (i < n) a[first + i] = 0u; }"
SUM = LINE + """void sum(__global const int *a, __global int *out) {
  int s = 0;
  for (int i = 0; i < 64; i += 1) s += a[i];
  out[get_global_id(0)] = s;
}"""
SMALL = LINE + """void small(__global uint *a, uint n) {
  __local uint row[32];
  uint l = get_local_id(0);
  if (l < n) row[l] = l;
  barrier(CLK_LOCAL_MEM_FENCE);
  a[get_global_id(0)] = row[31u - (l & 31u)];
}"""
NOTHING = LINE + "void nothing(__global uint *a, uint n) { uint i = get_global_id(0); if (i < n && n < i) a[i] = 1u; }"
SHARED = LINE + "void shared(__global uint *a) { a[0] = get_global_id(0); }"
DOUBLE = LINE + "void twice(__global double *a) { a[0] = 1.0; }"
REDUCE = """__kernel void other(__global uint *a) { a[0] = 1u; }
__kernel void reduce(__global const float *a, __global float *out, __local float *part, uint n) {
  uint l = get_local_id(0), i = get_global_id(0);
  part[l] = i < n ? a[i] : 0.0f;
  barrier(CLK_LOCAL_MEM_FENCE);
  if (l == 0u) out[get_group_id(0)] = part[0] + part[1];
}"""


class Program:
    """The program, and the folder in which drafts are made."""

    def __init__(self, path, folder):
        self.path, self.folder = path, folder

    def write(self, name, text):
        path = os.path.join(self.folder, name)
        with open(path, "w", encoding="utf-8") as file:
            file.write(text)
        return path

    def draft(self, text, *words):
        how = {"stdin": subprocess.DEVNULL, "capture_output": True, "text": True}
        return subprocess.run([sys.executable, os.path.join(HERE, "draft.py"), self.path, self.write("k.cl", text), *words], **how)

    def expect_draft(self, text, meets=(), faulty=(), head=""):
        """A draft is accepted, these launches meet it, and those do not."""
        said = self.draft(text, "--head", self.write("head", head))
        expect_same(said.returncode, 0)
        path = self.write("drafted", said.stdout)
        how = {"stdin": subprocess.DEVNULL, "capture_output": True, "text": True}
        proved = subprocess.run([self.path, "prove", os.path.join(self.folder, "k.cl"), path, *WORDS], **how)
        expect_same(proved.stdout.split("\n")[0], "accepted")
        conditions = Conditions.of(said.stdout)
        for launch in meets:
            expect_same(conditions.unmet(launch_of(launch)), [])
        for launch in faulty:
            expect(conditions.unmet(launch_of(launch)), f"met by {launch}:\n{said.stdout}")
        return said


def test_of_program_lengths(program):
    program.expect_draft(FILL, ["groups 500 1 1\nbuffer a fill 32000 0\n"], ["groups 500 1 1\nbuffer a fill 31999 0\n"])
    program.expect_draft(GUARD, ["groups 3 1 1\narg n 100\nbuffer a fill 100 0\n"], ["groups 3 1 1\narg n 100\nbuffer a fill 99 0\n"])


def test_of_program_rows(program):
    meets = "groups 2 2 1\narg w 10\narg h 12\narg pitch 13\nbuffer dst fill 156 0\n"
    faulty = [meets.replace("fill 156", "fill 100"), meets.replace("pitch 13", "pitch 9").replace("fill 156", "fill 100")]
    program.expect_draft(ROWS, [meets], faulty)


def test_of_program_what_buffers_hold(program):
    meets = "groups 1 1 1\narg n 3\nbuffer in list 0 255 7\nbuffer out fill 3 0\nbuffer squares fill 256 0\n"
    program.expect_draft(TABLE, [meets], [meets.replace("fill 256", "fill 100")])
    meets = "groups 1 1 1\narg n 2\narg m 9\nbuffer at list 8 0\nbuffer in fill 9 0\nbuffer out fill 2 0\n"
    program.expect_draft(GATHER, [], [meets.replace("list 8 0", "list 9 0")])
    program.expect_draft(SUM, [], ["groups 1 1 1\nbuffer a fill 64 2147483647\nbuffer out fill 64 0\n"])


def test_of_program_ranges(program):
    meets = "groups 1 1 1\narg n 7\nbuffer a fill 64 0\n"
    program.expect_draft(DIVIDE, [meets], [meets.replace("n 7", "n 0")])
    meets = "groups 1 1 1\narg first 5\narg n 10\nbuffer a fill 15 0\n"
    program.expect_draft(OFFSET, [meets], [meets.replace("first 5", "first -1"), meets.replace("fill 15", "fill 14")])
    meets = "groups 1 1 1\narg n 32\nbuffer a fill 64 0\n"
    program.expect_draft(SMALL, [meets], [meets.replace("n 32", "n 33")])


def test_of_program_heads(program):
    meets = "groups 4 1 1\narg n 100\nbuffer a fill 100 0\nbuffer out fill 4 0\n"
    said = program.expect_draft(REDUCE, [meets], head="kernel reduce\nlocal_size 32 1 1\nlocal part 32\n")
    expect(said.stdout.startswith("conditions 3\nkernel reduce\nlocal_size 32 1 1\nlocal part 32\ngroups "), said.stdout)
    said = program.draft(REDUCE.replace("__kernel void other", "void other"))
    expect_same((said.returncode, said.stdout.split("\n")[1:3]), (0, ["local_size 64 1 1", "local part 64"]))
    expect("taken is local_size 64 1 1" in said.stderr, said.stderr)


def test_of_program_nothing_stored(program):
    told = "no buffer needs an element"
    expect(told in program.expect_draft(NOTHING).stderr, "it is told that nothing is stored")
    expect(told not in program.expect_draft(FILL).stderr, "something is stored")


def test_of_program_no_conditions(program):
    said = program.draft(SHARED)
    expect(said.returncode == 1 and said.stdout.startswith("refused 60\nrace confirmed: "), said.stdout)
    said = program.draft(DOUBLE)
    expect(said.returncode == 1 and said.stdout.startswith("refused 15 "), said.stdout)


def test_of_program_launches(program):
    launch = "groups 1 1 1\narg first 5\narg n 10\nbuffer a fill 20 0\n"
    said = program.draft(OFFSET, "--launch", program.write("launch", "launch 1\n" + launch + "fill 0\n"))
    expect(said.returncode == 0 and not Conditions.of(said.stdout).unmet(launch_of(launch)), said.stdout + said.stderr)


def test_of_program_files(program):
    path = os.path.join(program.folder, "out")
    said = program.draft(FILL, "--out", path)
    expect_same((said.returncode, said.stdout), (0, "accepted\n"))
    with open(path, encoding="utf-8") as file:
        expect(file.read().startswith("conditions 2\n"), "the text is in the file")
    said = program.draft(FILL, "--head", os.path.join(program.folder, "none"))
    expect_same(said.returncode, 3)


def main(path):
    counts = {True: 0, False: 0}
    tests = {name: test for name, test in globals().items() if name.startswith("test_")}
    with tempfile.TemporaryDirectory(prefix="kverify-test-") as folder:
        program = Program(os.path.abspath(path), folder)
        for name, test in tests.items():
            try:
                test(*[program] * name.startswith("test_of_program"))
                counts[True] += 1
            except Exception:  # noqa: BLE001 (whatever goes wrong is told, and the other tests run)
                counts[False] += 1
                print(f"{name} failed:\n{traceback.format_exc()}", flush=True)
    print(f"{counts[True]} passed, {counts[False]} failed")
    return 1 if counts[False] else 0


if __name__ == "__main__":
    if len(sys.argv) != 2:
        sys.exit("usage: tools/test_draft.py PROGRAM")
    sys.exit(main(sys.argv[1]))
