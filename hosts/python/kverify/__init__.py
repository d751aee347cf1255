"""kverify for Python, by ctypes: whether an OpenCL C kernel was shown to be safe at a launch. `kverify.opencl` is for PyOpenCL.

    kernel = kverify.Kernel(text, conditions, certificate)                 # raises Refused, with the text of `kverify explain`
    kernel.allow((128,), (64,), [kverify.buffer(400, 1), kverify.value(numpy.uint32(100))])     # raises Refused, or returns

Texts are bytes. It needs libkverify.so.1 alone, which it takes from the prefix that it was laid down in, or from the place that the
variable KVERIFY_LIBRARY names. A call lets other threads run, and a Kernel may be used by many at once.
"""
import ctypes
import os

BITS32, HELD = 1, 2
VALUE, BUFFER, LOCAL = 0, 1, 2
VERSION, MEMORY = 1, 90

# What the refusals of a launch mean, with their place.
WORDS = {
    40: "the launch does not meet line {} of the conditions",
    41: "argument {} is missing, too much, or of another kind or size than its parameter",
    42: "the sizes in dimension {} are not 1 to 65536 whole groups of the kernel's size",
    43: "there is an offset in dimension {}",
    44: "argument {} is the same memory as an earlier one",
    45: "line {} of the conditions says what a buffer holds, which nobody answers for",
    47: "argument {} is a buffer of over 4294967295 elements",
}


class Answer(ctypes.Structure):
    _fields_ = [("number", ctypes.c_uint32), ("column", ctypes.c_uint32), ("place", ctypes.c_uint64)]


class Range(ctypes.Structure):
    _fields_ = [("dimensions", ctypes.c_uint32), ("fill", ctypes.c_uint32)]
    _fields_ += [(name, ctypes.c_uint64 * 3) for name in ("offset", "of_all", "of_group")]


class Argument(ctypes.Structure):
    _fields_ = [("kind", ctypes.c_uint32), ("reserved", ctypes.c_uint32), ("bytes", ctypes.c_uint64), ("memory", ctypes.c_uint64)]
    _fields_ += [("words", ctypes.c_uint32 * 16)]


class Refused(Exception):
    """A refusal, with the number, the place and the column of kv_answer."""

    def __init__(self, answer, text):
        super().__init__(text)
        self.number, self.place, self.column = answer.number, answer.place, answer.column


def _library():
    """The library of this prefix, with the types of its functions."""
    prefix = os.path.abspath(os.path.join(os.path.dirname(__file__), "../../../.."))
    library = ctypes.CDLL(os.environ.get("KVERIFY_LIBRARY", os.path.join(prefix, "lib", "libkverify.so.1")))
    text, u32, size = [ctypes.c_char_p, ctypes.c_size_t], ctypes.c_uint32, ctypes.c_size_t
    answer, room = ctypes.POINTER(Answer), [ctypes.c_char_p, ctypes.c_size_t]
    launch = [ctypes.POINTER(Range), ctypes.POINTER(Argument), size]
    for name, result, parameters in [
        ("kv_version", u32, []),
        ("kv_explain", ctypes.c_uint64, [*text * 3, u32, *room]),
        ("kv_options", ctypes.c_uint64, [*text, *room]),
        ("kv_run", u32, [*text * 4, u32, *room, ctypes.POINTER(ctypes.c_uint64), answer]),
        ("kv_open", u32, [*text * 3, u32, ctypes.POINTER(ctypes.c_void_p), answer]),
        ("kv_allows", u32, [ctypes.c_void_p, u32, *launch, answer]),
        ("kv_close", None, [ctypes.c_void_p]),
    ]:
        function = getattr(library, name)
        function.restype, function.argtypes = result, parameters
    if library.kv_version() != VERSION:
        raise ImportError(f"libkverify.so.1 is of version {library.kv_version()}, and this package of {VERSION}")
    return library


_kv = _library()


def _sized(*texts):
    return [it for text in texts for it in (text, len(text))]


def _text_of(function, *given):
    """The text of a call that gives its whole length, and puts as much as there is room for."""
    room = ctypes.create_string_buffer(function(*given, b"", 0) or 1)
    length = function(*given, room, len(room))
    return room.raw[:length]


def explain(kernel, conditions, certificate, options=0):
    """What `kverify explain` says of texts."""
    return _text_of(_kv.kv_explain, *_sized(kernel, conditions, certificate), options).decode("ascii", "replace")


def options_of(conditions):
    """The options that a program is to be built with."""
    return _text_of(_kv.kv_options, *_sized(conditions)).decode("ascii")


def run(kernel, conditions, certificate, launch, bits32=False, room=1 << 16):
    """The text of the buffers with which a launch ends, by its text, run on the calling thread without a device; or Refused is raised."""
    answer, whole, options = Answer(), ctypes.c_uint64(), BITS32 if bits32 else 0
    texts = _sized(kernel, conditions, certificate, launch)
    while True:
        place = ctypes.create_string_buffer(max(1, room))
        if _kv.kv_run(*texts, options, place, len(place), ctypes.byref(whole), ctypes.byref(answer)):
            if answer.number == MEMORY:
                raise MemoryError
            raise Refused(answer, f"refused {answer.number}, place {answer.place}")
        if whole.value <= len(place):
            return place.raw[: whole.value]
        room = whole.value


def value(given):
    """An argument of the bytes of a value: bytes, or a scalar of numpy (or of pyopencl.cltypes) of just the parameter's type."""
    if not isinstance(given, bytes) and (not hasattr(given, "tobytes") or getattr(given, "shape", ()) != ()):
        raise TypeError("a value is bytes, or a scalar of numpy or of pyopencl.cltypes, whose size is said")
    content = given if isinstance(given, bytes) else given.tobytes()
    if not 1 <= len(content) <= 64:
        raise ValueError("a value has 1 to 64 bytes")
    made = Argument(kind=VALUE, bytes=len(content))
    ctypes.memmove(made.words, content, len(content))
    return made


def buffer(size, memory):
    """An argument of a buffer of so many bytes; `memory` is a number of its own, which is not 0."""
    return Argument(kind=BUFFER, bytes=size, memory=memory)


def local(size):
    """An argument of so many bytes of __local memory."""
    return Argument(kind=LOCAL, bytes=size)


def _launch(global_size, local_size, arguments, offset=None):
    """What a launch is for the library: its sizes, its arguments and how many they are."""
    offset = offset or (0,) * len(global_size)
    if not 1 <= len(global_size) <= 3 or not len(global_size) == len(local_size) == len(offset):
        raise ValueError("one to three sizes, and as many of a group, which are always said")
    sizes = Range(dimensions=len(global_size))
    for at, (of_all, of_group, begin) in enumerate(zip(global_size, local_size, offset)):
        sizes.of_all[at], sizes.of_group[at], sizes.offset[at] = of_all, of_group, begin
    return ctypes.byref(sizes), (Argument * max(1, len(arguments)))(*arguments), len(arguments)


def _raise(answer, texts=None, options=0):
    if answer.number == MEMORY:
        raise MemoryError
    if answer.number in WORDS:
        raise Refused(answer, f"refused {answer.number}: {WORDS[answer.number].format(answer.place)}")
    raise Refused(answer, explain(*texts, options) if texts else f"refused {answer.number}")


class Kernel:
    """A kernel that is accepted. With `bits32` it is for devices with 32 address bits alone."""

    def __init__(self, kernel, conditions, certificate, bits32=False):
        self._handle, self._options, answer = ctypes.c_void_p(), BITS32 if bits32 else 0, Answer()
        texts = kernel, conditions, certificate
        if _kv.kv_open(*_sized(*texts), self._options, ctypes.byref(self._handle), ctypes.byref(answer)):
            self._handle = None
            _raise(answer, texts, self._options)

    def allow(self, global_size, local_size, arguments, held=False, offset=None):
        """Returns where the launch meets the conditions. `held`: the host answers for what `values` lines say of its buffers."""
        answer, options = Answer(), self._options | (HELD if held else 0)
        if _kv.kv_allows(self._handle, options, *_launch(global_size, local_size, arguments, offset), ctypes.byref(answer)):
            _raise(answer)

    def __del__(self):
        if getattr(self, "_handle", None):
            _kv.kv_close(self._handle)
            self._handle = None
