#!/usr/bin/env python3
"""Says where expressions of ids mean another thing on a device whose ids have 64 bits than where each id is cast to `uint`.

    ids.py [PLATFORM]

Each expression is computed for 300 ids, as it stands and with `(uint)` before each id, and used in each of these ways: stored to a `uint`,
shifted right, divided, a remainder taken, compared, tested, and as an index (which takes all bits: whether they are those of a `uint`).
Wants Debian's python3-pyopencl and pocl-opencl-icd, or another device of OpenCL.
"""
import os
import sys
import warnings

import numpy

os.environ["PYOPENCL_NO_CACHE"] = "1"
import pyopencl  # noqa: E402

ITEMS = 300
EXPRESSIONS = """I + 4294967295u|I - 5u|I * 4294967295u|(I + 1u) << 31|-I|~I|I & 7u|I | 7u|I ^ 7u|I & -2|I | -2|I ^ -2
    |I / 3u|I % 3u|I >> 1|(I + 5u) / -2|-7 / (I + 1u)|-7 % (I + 2u)|I < 7u|I > -2|I == -1|!I|I && 1|I < 7u ? I : -1|(int)I
    |(uint)(I - 5u)|min(I, 7u)|max(I, 7u)|min(I, J)|max(I, J)|I"""
USES = {"stored": "E", ">>": "(E) >> 1", "/": "(E) / 10u", "%": "(E) % 7u", "compared": "(E) > 4294967290u", "tested": "(E) ? 1u : 0u",
        "index": "(E) == (uint)(E)"}


def main():
    warnings.simplefilter("ignore")
    pyopencl._DEFAULT_INCLUDE_OPTIONS.clear()
    wanted = (sys.argv[1:] or [""])[0]
    platform = next(it for it in pyopencl.get_platforms() if wanted.lower() in it.name.lower())
    context = pyopencl.Context([platform.get_devices()[0]])
    queue = pyopencl.CommandQueue(context)

    def run(expression, cast):
        """The words of all uses, item by item, or None where it does not compile."""
        uses = [f"a[{len(USES)}u * g + {number}u] = {it};" for number, it in enumerate(USES.values())]
        body = " ".join(uses).replace("E", expression).replace("I", cast + "get_global_id(0)").replace("J", cast + "get_local_id(0)")
        text = "__kernel __attribute__((reqd_work_group_size(1, 1, 1))) void k(__global uint *a) { uint g = (uint)get_global_id(0); "
        text += body + " }"
        try:
            program = pyopencl.Program(context, text).build(["-cl-std=CL1.2"])
        except pyopencl.RuntimeError:
            return None
        words = numpy.zeros((ITEMS, len(USES)), dtype=numpy.uint32)
        memory = pyopencl.Buffer(context, pyopencl.mem_flags.READ_WRITE | pyopencl.mem_flags.COPY_HOST_PTR, hostbuf=words)
        kernel = program.all_kernels()[0]
        kernel.set_args(memory)
        pyopencl.enqueue_nd_range_kernel(queue, kernel, [ITEMS], [1])
        pyopencl.enqueue_copy(queue, words, memory)
        queue.finish()
        return words

    for expression in map(str.strip, EXPRESSIONS.replace("\n", "").replace(" | ", "\0").split("|")):
        expression = expression.replace("\0", " | ")
        plain, cast = run(expression, ""), run(expression, "(uint)")
        if plain is None or cast is None:
            told = f"does not compile{'' if plain is None else ' with a cast'}"
        else:
            told = ", ".join(name for number, name in enumerate(USES) if (plain[:, number] != cast[:, number]).any())
            told = f"differs: {told}" if told else "the same"
        print(f"{expression.replace('I', 'id').replace('J', 'local id')}: {told}", flush=True)
    return 0


if __name__ == "__main__":
    sys.exit(main())
