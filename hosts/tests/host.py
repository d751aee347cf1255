#!/usr/bin/env python3
"""A host in Python on PyOpenCL: as host.c, by the package kverify. What is refused is raised before anything is launched.

usage: host.py KERNELS CERTIFICATES: two folders. Each test prints a line, `ok` or `FAILED`.
"""
import os
import sys

import numpy
import pyopencl
from pyopencl import cltypes

import kverify
import kverify.opencl

FOLDER, CERTIFICATES = sys.argv[1:]
FLAGS = pyopencl.mem_flags.READ_WRITE | pyopencl.mem_flags.COPY_HOST_PTR


def text_of(path):
    with open(path, "rb") as file:
        return file.read()


def texts_of(name):
    """The three texts of a kernel by the name of its conditions."""
    kernel = name if os.path.exists(f"{FOLDER}/{name}.cl") else name.split(".", 1)[0]
    return text_of(f"{FOLDER}/{kernel}.cl"), text_of(f"{FOLDER}/{name}.conditions"), text_of(f"{CERTIFICATES}/{name}.certificate")


class Trial:
    def __init__(self):
        self.context = pyopencl.Context([pyopencl.get_platforms()[0].get_devices()[0]])
        self.queue = pyopencl.CommandQueue(self.context)
        self.passed = self.failed = 0

    def expect(self, what, is_right):
        print(f"{'ok' if is_right else 'FAILED'}: {what}")
        self.passed += is_right
        self.failed += not is_right

    def kernel(self, name):
        return kverify.opencl.Kernel(self.context, *texts_of(name))

    def buffer(self, content):
        return pyopencl.Buffer(self.context, FLAGS, hostbuf=content)

    def expect_content(self, what, buffer, wanted):
        got = numpy.empty_like(wanted)
        pyopencl.enqueue_copy(self.queue, got, buffer)
        self.expect(what, got.tobytes() == wanted.tobytes())

    def expect_refusal(self, what, number, place, call):
        try:
            call()
            found = "nothing"
        except kverify.Refused as why:
            found = why.number, why.place
        self.expect(what if found == (number, place) else f"{what} (found: {found})", found == (number, place))


def guards(trial):
    numbers = numpy.arange(100, dtype=numpy.uint32)
    a, guard, queue, u = trial.buffer(numbers), trial.kernel("guard"), trial.queue, numpy.uint32
    refuses = trial.expect_refusal
    refuses("n past the buffer's end is 40", 40, 4, lambda: guard(queue, (128,), (64,), a, u(101)))
    refuses("an argument that is not given is 41", 41, 1, lambda: guard(queue, (128,), (64,), a))
    refuses("eight bytes for a uint are 41", 41, 1, lambda: guard(queue, (128,), (64,), a, numpy.uint64(100)))
    refuses("local memory for a uint is 41", 41, 1, lambda: guard(queue, (128,), (64,), a, pyopencl.LocalMemory(4)))
    refuses("100 items in groups of 64 are 42", 42, 0, lambda: guard(queue, (100,), (64,), a, u(100)))
    refuses("1025 groups are 40", 40, 2, lambda: guard(queue, (64 * 1025,), (64,), a, u(100)))
    trial.expect_content("nothing was launched of guard", a, numbers)
    guard(queue, (128,), (64,), a, u(100))
    trial.expect_content("guard adds one", a, numbers + u(1))
    try:
        guard(queue, (128,), (64,), a, 100)
        trial.expect("a number of no size is no argument", False)
    except TypeError:
        trial.expect("a number of no size is no argument", True)


def as_people_write(trial):
    pixels = (numpy.arange(140) * 11).astype(numpy.uint8)
    buffer, brighten, i = trial.buffer(pixels), trial.kernel("brighten"), numpy.int32
    brighten(trial.queue, (32, 8), (16, 4), buffer, numpy.int8(30), i(20), i(7))
    trial.expect_content("brighten makes pixels brighter by 30", buffer, numpy.minimum(pixels.astype(i) + 30, 255).astype(numpy.uint8))

    points = numpy.arange(128, dtype=numpy.float32)
    buffer, scale, factors = trial.buffer(points), trial.kernel("scale"), cltypes.make_float4(2, -1, 0.5, 0)
    scale(trial.queue, (32,), (32,), buffer, factors, numpy.uint32(32))
    scaled = (points.reshape(32, 4) * numpy.array([2, -1, 0.5, 0], dtype=numpy.float32)).reshape(128)
    trial.expect_content("scale scales", buffer, scaled)
    wrong = lambda: scale(trial.queue, (32,), (32,), buffer, numpy.float32(1), numpy.uint32(32))
    trial.expect_refusal("a float for a float4 is 41", 41, 1, wrong)

    numbers = (numpy.arange(128) * 517).astype(numpy.uint16)
    in_, out, sums = trial.buffer(numbers), trial.buffer(numpy.zeros(2, numpy.uint32)), trial.kernel("group_sums")
    small, enough = pyopencl.LocalMemory(63 * 4), pyopencl.LocalMemory(64 * 4)
    trial.expect_refusal("local memory of 63 elements is 41", 41, 2, lambda: sums(trial.queue, (128,), (64,), in_, out, small))
    sums(trial.queue, (128,), (64,), in_, out, enough)
    trial.expect_content("group_sums sums", out, numbers.reshape(2, 64).sum(1, dtype=numpy.uint32))


def shared_memory(trial):
    numbers = numpy.arange(2048, dtype=numpy.uint32) * 3
    whole, halve, n = trial.buffer(numbers), trial.kernel("halve"), numpy.uint32(100)
    front, across, behind = whole[0:4096], whole[2048:6144], whole[4096:8192]
    refuses = lambda what, out, in_: trial.expect_refusal(what, 44, 1, lambda: halve(trial.queue, (128,), (64,), out, in_, n))
    refuses("one buffer for two is 44", whole, whole)
    refuses("a buffer and a part of it are 44", whole, behind)
    refuses("two parts that overlap are 44", front, across)
    flags, memory = FLAGS & ~pyopencl.mem_flags.COPY_HOST_PTR | pyopencl.mem_flags.USE_HOST_PTR, numpy.zeros(2048, numpy.uint32)
    on_host = [pyopencl.Buffer(trial.context, flags, hostbuf=memory[begin : begin + 1024]) for begin in (0, 512)]
    refuses("two buffers on one memory of the host are 44", *on_host)
    halve(trial.queue, (128,), (64,), front, behind, n)
    wanted = numbers.copy()
    wanted[:100] = numbers[1024:1124] // 2
    trial.expect_content("halve halves, from one part to the other", whole, wanted)


def contents(trial):
    u, i = numpy.uint32, numpy.int32
    columns = [numpy.array(it, kind) for it, kind in [([0] * 3, i), ([0, 2, 2, 5], u), ([0, 3, 1, 2, 3], u), ([1, -2, 3, 4, 5], i)]]
    buffers = [trial.buffer(it) for it in [*columns, numpy.array([10, 20, 30, 40], i)]]
    csr_row, sizes = trial.kernel("csr_row"), [u(3), u(4), u(5)]
    unsaid = lambda: csr_row(trial.queue, (64,), (64,), *buffers, *sizes)
    trial.expect_refusal("contents that nobody answers for are 45", 45, 11, unsaid)
    csr_row(trial.queue, (64,), (64,), *buffers, *sizes, held=True)
    trial.expect_content("csr_row multiplies", buffers[0], numpy.array([-70, 0, 380], i))


def kernels_of_a_file(trial):
    numbers, wanted = numpy.full(64, 70, numpy.int32), numpy.full(64, -1, numpy.int32)
    in_, out = trial.buffer(numbers), trial.buffer(wanted)
    trial.kernel("smooth.rows")(trial.queue, (64,), (64,), in_, out, numpy.uint32(50))
    wanted[3:47] = 70
    trial.expect_content("the first kernel of a file reaches as far as its conditions define", out, wanted)
    trial.kernel("smooth.negate")(trial.queue, (64,), (64,), out, numpy.uint32(64))
    trial.expect_content("the second kernel of a file is the second one", out, ~wanted)


def numbers_alone(trial):
    guard, n = kverify.Kernel(*texts_of("guard")), kverify.value(numpy.uint32(3))
    right = [kverify.buffer(12, 1), n]
    guard.allow((64,), (64,), right)
    trial.expect_refusal("an offset is 43", 43, 0, lambda: guard.allow((64,), (64,), right, offset=(64,)))
    trial.expect_refusal("4294967296 elements are 47", 47, 0, lambda: guard.allow((64,), (64,), [kverify.buffer(4 << 32, 1), n]))
    trial.expect_refusal("a buffer of memory 0 is 41", 41, 0, lambda: guard.allow((64,), (64,), [kverify.buffer(12, 0), n]))


def other_texts(trial):
    kernel, conditions, _ = texts_of("guard")
    try:
        kverify.Kernel(kernel, conditions, texts_of("fill")[2])
        trial.expect("a certificate of another kernel is 52", False)
    except kverify.Refused as why:
        trial.expect("a certificate of another kernel is 52, and explained", why.number == 52 and str(why).startswith("refused 52"))
    trial.expect("the options of conditions", kverify.options_of(texts_of("smooth.rows")[1]) == "-DREACH=3")


def main():
    trial = Trial()
    for test in (guards, as_people_write, shared_memory, contents, kernels_of_a_file, numbers_alone, other_texts):
        test(trial)
    print(f"{trial.passed} passed, {trial.failed} failed")
    return trial.failed or not trial.passed


if __name__ == "__main__":
    sys.exit(main())
