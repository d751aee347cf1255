"""kverify for PyOpenCL: kernels that are launched where they were shown to be safe, and else not.

    kernel = kverify.opencl.Kernel(context, text, conditions, certificate)
    event = kernel(queue, (128,), (64,), buffer, numpy.uint32(100))        # raises kverify.Refused before anything is launched

Arguments are buffers (pyopencl.Buffer, or the `data` of an Array), pyopencl.LocalMemory, and scalars of numpy or vectors of
pyopencl.cltypes of just the parameter's type. A Kernel is for one thread at a time, as that of PyOpenCL.
"""
import pyopencl

import kverify


def _origin_of(memory):
    """Where a buffer lies: in itself, in the buffer that it is a part of, or in memory that the host gave; and its bytes."""
    whole = memory.get_info(pyopencl.mem_info.ASSOCIATED_MEMOBJECT) or memory
    begin = memory.offset if whole is not memory else 0
    if whole.flags & pyopencl.mem_flags.USE_HOST_PTR:
        host = whole.get_host_array((whole.size,), "uint8")
        return 0, host.ctypes.data + begin, memory.size
    return whole.int_ptr, begin, memory.size


def _overlap(one, other):
    return one[0] == other[0] and one[1] < other[1] + other[2] and other[1] < one[1] + one[2]


def arguments_of(given):
    """The arguments for kverify. Buffers that have memory in common get one number."""
    made, origins = [], []
    for at, it in enumerate(given):
        origin = None
        if isinstance(it, pyopencl.MemoryObjectHolder) and it.get_info(pyopencl.mem_info.TYPE) == pyopencl.mem_object_type.BUFFER:
            origin = _origin_of(it)
            shared = [before for before in range(at) if origins[before] and _overlap(origins[before], origin)]
            made.append(kverify.buffer(it.size, made[shared[0]].memory if shared else at + 1))
        elif isinstance(it, pyopencl.LocalMemory):
            made.append(kverify.local(it.size))
        else:
            made.append(kverify.value(it))
        origins.append(origin)
    return made


def _name_of(conditions):
    """The name in the line `kernel NAME`, the second one of conditions that have it."""
    lines = conditions.split(b"\n", 2)
    return lines[1][7:].decode() if len(lines) > 2 and lines[1].startswith(b"kernel ") else None


def _built(context, device, text, options):
    """A program of just these bytes with just these options. (`Program.build` adds an -I, and what PYOPENCL_BUILD_OPTIONS says.)"""
    program = pyopencl._cl._Program(context, text.decode("utf-8"))
    program.build(options.encode(), [device])
    return pyopencl.Program(program)


def _words_of(conditions):
    """The options that a program is to be built with: a word for each `define` line, and nothing that drivers quote."""
    words = kverify.options_of(conditions)
    if len(words.split(" ")) - (not words) != conditions.count(b"\ndefine ") or set(words) & set("\"'\\\t"):
        raise ValueError(f"drivers may take these options otherwise than they are meant: {words}")
    return words


class Kernel:
    """A kernel that is accepted, built of just the checked bytes. `device` is the context's first one where it is left out."""

    def __init__(self, context, text, conditions, certificate, device=None, bits32=False):
        device = device or context.devices[0]
        if bits32 and device.address_bits != 32:
            raise ValueError("a kernel for 32 address bits is for no other device")
        self.checked = kverify.Kernel(text, conditions, certificate, bits32)
        program = _built(context, device, text, f"-cl-std=CL1.2 {_words_of(conditions)}")
        name, kernels = _name_of(conditions), program.all_kernels()
        if not name and len(kernels) != 1:
            raise ValueError("the program has another number of kernels than one, and the conditions name none")
        self._kernel = pyopencl.Kernel(program, name) if name else kernels[0]

    def __call__(self, queue, global_size, local_size, *arguments, held=False, wait_for=None):
        """Enqueues the launch where it is allowed, and returns its event. `held`: the host answers for what `values` lines say."""
        self.checked.allow(global_size, local_size, arguments_of(arguments), held)
        self._kernel.set_args(*arguments)
        return pyopencl.enqueue_nd_range_kernel(queue, self._kernel, global_size, local_size, wait_for=wait_for)
