#!/usr/bin/env python3
"""Launches the examples of a folder on an OpenCL device, and compares what their buffers hold with what `kverify run` prints, and that with
what the library's `run` gives.

usage: examples.py FOLDER PROGRAM: of each NAME.launch the folder has the kernel, conditions and certificate, in the plain language.
"""
import glob
import re
import subprocess
import sys

import numpy
import pyopencl

import kverify
import kverify.opencl

TYPES = {"uint": numpy.uint32, "int": numpy.int32}
PARAMETER = re.compile(r"(?P<buffer>__global )?(const )?(?P<type>u?int) (const )?\*?(?P<name>\w+)$")


def text_of(path):
    with open(path, "rb") as file:
        return file.read()


def parameters_of(kernel):
    """The parameters of a kernel's text: whether each is a buffer, its type and its name."""
    head = re.search(r"\bvoid \w+\(([^)]*)\)", re.sub(r"//.*|/\*.*?\*/", "", kernel)).group(1)
    found = [PARAMETER.match(" ".join(it.split()).replace("* ", "*")) for it in head.split(",")]
    return [(bool(it["buffer"]), TYPES[it["type"]], it["name"]) for it in found]


def numbers_of(words, kind):
    """The numbers of a buffer's line of a launch."""
    if words[0] == "fill":
        return numpy.full(int(words[1]), int(words[2]), kind)
    return numpy.array([int(it) for it in words[1:]], kind)


class Launch:
    """A launch as its text says it."""

    def __init__(self, text):
        lines = [it.split(" ") for it in text.splitlines()]
        self.groups = [int(it) for it in lines[1][1:]]
        self.values = {it[1]: int(it[2]) for it in lines if it[0] == "arg"}
        self.buffers = {it[1]: it[2:] for it in lines if it[0] == "buffer"}


def launched(context, stem):
    """Launches an example, and returns the lines of its buffers."""
    texts = [text_of(f"{stem}.{it}") for it in ("cl", "conditions", "certificate")]
    launch, kernel = Launch(text_of(f"{stem}.launch").decode()), texts[0].decode()
    sizes = [int(it) for it in re.search(r"reqd_work_group_size\((\d+), (\d+), (\d+)\)", kernel).groups()]
    given, numbers, buffers = [], {}, {}
    for is_buffer, kind, name in parameters_of(kernel):
        if is_buffer:
            numbers[name] = numbers_of(launch.buffers[name], kind)
            flags = pyopencl.mem_flags.READ_WRITE | pyopencl.mem_flags.COPY_HOST_PTR
            buffers[name] = pyopencl.Buffer(context, flags, hostbuf=numbers[name])
        given.append(buffers[name] if is_buffer else kind(launch.values[name]))
    queue = pyopencl.CommandQueue(context)
    of_all = [groups * size for groups, size in zip(launch.groups, sizes)]
    # (what the `values` lines say of the buffers, `kverify run` tests)
    kverify.opencl.Kernel(context, *texts)(queue, of_all, sizes, *given, held=True)
    for name, buffer in buffers.items():
        pyopencl.enqueue_copy(queue, numbers[name], buffer)
    return [" ".join(["buffer", name, "list", *map(str, it)]) for name, it in numbers.items()]


def run(program, stem):
    """What `kverify run` prints of an example."""
    words = [program, "run", *(f"{stem}.{it}" for it in ("cl", "conditions", "certificate", "launch"))]
    return subprocess.run(words, stdin=subprocess.DEVNULL, stdout=subprocess.PIPE, text=True, check=True).stdout.splitlines()


def run_here(stem):
    """What the library gives of it, in a room that is too small at first."""
    texts = [text_of(f"{stem}.{it}") for it in ("cl", "conditions", "certificate", "launch")]
    return kverify.run(*texts, room=10).decode().splitlines()


def main(folder, program):
    context = pyopencl.Context([pyopencl.get_platforms()[0].get_devices()[0]])
    passed = failed = 0
    for path in sorted(glob.glob(f"{folder}/*.launch")):
        stem = path.removesuffix(".launch")
        on_device, wanted = launched(context, stem), run(program, stem)
        is_right = on_device == wanted == run_here(stem) and bool(wanted)
        print(f"{'ok' if is_right else f'FAILED: {on_device} and {wanted}'}: {stem}")
        passed, failed = passed + is_right, failed + (not is_right)
    print(f"{passed} passed, {failed} failed")
    return failed or not passed


if __name__ == "__main__":
    sys.exit(main(*sys.argv[1:]))
