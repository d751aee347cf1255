#!/usr/bin/env python3
"""Parameters of all types: buffers, values and local memory, of scalars and vectors, of just the size that is enough, and of a byte less.

usage: shapes.py PROGRAM FOLDER: the program kverify, and a new folder. Each kernel is proved, and launched on an OpenCL device.
"""
import os
import subprocess
import sys
from concurrent.futures import ThreadPoolExecutor

import numpy
import pyopencl

import kverify.opencl

SCALARS = {"char": "int8", "uchar": "uint8", "short": "int16", "ushort": "uint16", "int": "int32", "uint": "uint32", "float": "float32"}
WIDTHS = (1, 2, 3, 4, 8, 16)
GROUP, COUNT = 16, 37
KERNEL = """__kernel void fill(__global TYPE *a, TYPE v, __local TYPE *part, uint n) {
  uint i = get_global_id(0);
  uint l = get_local_id(0);
  part[l] = v;
  if (i < n)
    a[i] = part[l];
}
"""


class Shape:
    """A scalar type of OpenCL C and how many components a vector of it has, 1 for the scalar itself."""

    def __init__(self, scalar, width):
        self.name = f"{scalar}{width if width > 1 else ''}"
        self.kind, self.width = numpy.dtype(SCALARS[scalar]), width
        # (a vector of three has the size of one of four)
        self.components = 4 if width == 3 else width
        self.size = self.components * self.kind.itemsize

    def text(self):
        return KERNEL.replace("TYPE", self.name).encode()

    def range(self):
        if self.kind.kind == "f":
            return "0..4294967295"
        limits = numpy.iinfo(self.kind)
        return f"{limits.min}..{limits.max}"

    def conditions(self):
        names = ["v"] if self.width == 1 else [f"v_s{it:x}" for it in range(self.width)]
        lines = ["conditions 3", f"local_size {GROUP} 1 1", f"local part {GROUP * self.components}", "groups 1..64 1..1 1..1"]
        lines += [*(f"arg {it} {self.range()}" for it in names), "arg n 0..1024", f"length a >= {self.components}*n", "budget 1000"]
        return ("\n".join(lines) + "\n").encode()

    def local_bytes(self):
        """What the library asks for of local memory. COUNT of the line counts components."""
        return GROUP * self.size

    def value(self):
        """A value with another number in each component."""
        return (numpy.arange(self.components) * 29 + 3).astype(self.kind)

    def proved(self, program, folder):
        """The three texts of the kernel."""
        files = [os.path.join(folder, f"{self.name}.{it}") for it in ("cl", "conditions", "certificate")]
        for path, text in zip(files, (self.text(), self.conditions())):
            with open(path, "wb") as file:
                file.write(text)
        words = [program, "prove", *files[:2], "--out", files[2]]
        subprocess.run(words, stdin=subprocess.DEVNULL, stdout=subprocess.PIPE, stderr=subprocess.STDOUT, check=True)
        with open(files[2], "rb") as file:
            return self.text(), self.conditions(), file.read()


def is_refused(number, place, kernel, *given):
    try:
        kernel.checked.allow((3 * GROUP,), (GROUP,), given)
    except kverify.Refused as why:
        return (why.number, why.place) == (number, place)
    return False


def wrong_answers(queue, shape, texts):
    """What is wrong of a shape, in words."""
    kernel, number = kverify.opencl.Kernel(queue.context, *texts), numpy.uint32(COUNT)
    enough, of_group, value = COUNT * shape.size, shape.local_bytes(), shape.value().tobytes()
    a, part, v, n = kverify.buffer(enough, 1), kverify.local(of_group), kverify.value(value), kverify.value(number)
    line = 4 + shape.width + 2
    wrong = []
    if not is_refused(40, line, kernel, kverify.buffer(enough - 1, 1), v, part, n):
        wrong.append("a buffer that is a byte too short")
    if not is_refused(41, 2, kernel, a, v, kverify.local(of_group - 1), n):
        wrong.append("local memory that is a byte too short")
    for size in {1, 2, 4, 8, 16, 32, 64} - {shape.size}:
        if not is_refused(41, 1, kernel, a, kverify.value(bytes(size)), part, n):
            wrong.append(f"a value of {size} bytes")
    if is_refused(41, 2, kernel, a, v, part, n):
        return [*wrong, "local memory that is enough"]
    content = numpy.zeros(COUNT * shape.components, shape.kind)
    memory = pyopencl.Buffer(queue.context, pyopencl.mem_flags.READ_WRITE | pyopencl.mem_flags.COPY_HOST_PTR, hostbuf=content)
    kernel(queue, (3 * GROUP,), (GROUP,), memory, value, pyopencl.LocalMemory(of_group), number)
    pyopencl.enqueue_copy(queue, content, memory)
    wanted = numpy.tile(shape.value(), (COUNT, 1))
    if content.reshape(wanted.shape)[:, : shape.width].tobytes() != wanted[:, : shape.width].tobytes():
        wrong.append("what it leaves in its buffer")
    return wrong


def main(program, folder):
    os.makedirs(folder)
    queue = pyopencl.CommandQueue(pyopencl.Context([pyopencl.get_platforms()[0].get_devices()[0]]))
    shapes = [Shape(scalar, width) for scalar in SCALARS for width in WIDTHS]
    passed = failed = 0
    with ThreadPoolExecutor(4) as pool:
        for shape, texts in zip(shapes, pool.map(lambda it: it.proved(program, folder), shapes)):
            wrong = wrong_answers(queue, shape, texts)
            print(f"FAILED: {shape.name}: {', '.join(wrong)}" if wrong else f"ok: {shape.name}")
            passed, failed = passed + (not wrong), failed + bool(wrong)
    print(f"{passed} passed, {failed} failed")
    return failed or not passed


if __name__ == "__main__":
    sys.exit(main(*sys.argv[1:]))
