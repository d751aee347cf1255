#!/usr/bin/env python3
"""Tries names of OpenCL C, of compilers' headers and of their libraries as names of kernels, parameters, variables and arrays.

    names.py clang COMMAND ..         compiles with these clangs, and compares with the same kernel under a name of no meaning
    names.py run PLATFORM [ROLE ..]   compiles and runs by the OpenCL platform of which the name has this word, as `Portable` (pocl)

Each kernel is one that kverify reads, and its result is known. A name that kverify refuses is passed over: a reserved word (10), a
function or flag, a name of the compiler or of pocl (21). What is left and does not compile is listed; so is what compiles and gives
something else, or does not end. Wants clang, and Debian's python3-pyopencl with pocl-opencl-icd or oclgrind.
"""
import itertools
import json
import os
import re
import select
import subprocess
import sys
import time

RESERVED = """__kernel kernel __global global __local local __constant constant __private private __attribute__ const int uint unsigned
    signed void if else while for do switch case default break continue return goto struct union enum typedef sizeof float double half
    char uchar short ushort long ulong bool size_t volatile restrict static extern inline register auto""".split()
TAKEN = """get_global_id get_local_id get_group_id get_global_size get_local_size get_num_groups reqd_work_group_size get_work_dim
    CLK_LOCAL_MEM_FENCE CLK_GLOBAL_MEM_FENCE min max barrier""".split()


# The names of the kernels that are made here.
OWN = "k0 a0 b0 n0 t0 l0 g0 s0 i0 j0".split()


def answer(name, role):
    """The number of kverify's refusal of a declared name, or 0."""
    if name in RESERVED:
        return 10
    if role != "kernel" and name in OWN:
        return 21
    if name in TAKEN or re.match(r"__|_[A-Z]|_cl_", name) or role == "kernel" and name[0] == "_":
        return 21
    return 0


# The names of OpenCL C 1.2.
SCALARS = "bool char uchar short ushort int uint long ulong float double half size_t ptrdiff_t intptr_t uintptr_t void quad".split()
NUMBERS = "char uchar short ushort int uint long ulong float double half".split()
WIDTHS = ("", "2", "3", "4", "8", "16")
OTHER_TYPES = """image2d_t image3d_t image2d_array_t image1d_t image1d_buffer_t image1d_array_t sampler_t event_t bool2 bool3 bool4 bool8
    bool16 quad2 quad3 quad4 quad8 quad16 complex imaginary float2x2 float4x4 double2x2 cl_mem_fence_flags memory_order memory_scope
    ndrange_t queue_t clk_event_t reserve_id_t clk_profiling_info atomic_int atomic_uint atomic_flag pipe generic""".split()
KEYWORDS = """read_only write_only read_write __read_only __write_only __read_write asm typeof true false NULL _Bool _Complex _Imaginary
    wchar_t signed char16_t class new this template typename virtual operator namespace try catch throw using delete friend private public
    protected explicit export mutable and or not xor bitand bitor compl and_eq or_eq not_eq xor_eq addrspace_cast nullptr constexpr
    static_cast thread_local alignas alignof decltype noexcept main""".split()
ATTRIBUTES = """vec_type_hint work_group_size_hint reqd_work_group_size aligned packed endian host device opencl_unroll_hint nosvm
    intel_reqd_sub_group_size pragma unroll OPENCL EXTENSION FP_CONTRACT ON OFF DEFAULT enable disable all defined include define""".split()
WORK_ITEM = """get_work_dim get_global_size get_global_id get_local_size get_local_id get_num_groups get_group_id get_global_offset
    get_enqueued_local_size get_global_linear_id get_local_linear_id get_sub_group_size get_sub_group_id get_sub_group_local_id""".split()
MATH = """acos acosh acospi asin asinh asinpi atan atan2 atanh atanpi atan2pi cbrt ceil copysign cos cosh cospi erfc erf exp exp2 exp10
    expm1 fabs fdim floor fma fmax fmin fmod fract frexp hypot ilogb ldexp lgamma lgamma_r log log2 log10 log1p logb mad maxmag minmag
    modf nan nextafter pow pown powr remainder remquo rint rootn round rsqrt sin sincos sinh sinpi sqrt tan tanh tanpi tgamma trunc
    divide recip""".split()
NATIVE = "cos divide exp exp2 exp10 log log2 log10 powr recip rsqrt sin sqrt tan".split()
INTEGER = """abs abs_diff add_sat hadd rhadd clamp clz mad_hi mad_sat max min mul_hi rotate sub_sat upsample popcount mad24 mul24
    ctz""".split()
COMMON = "clamp degrees max min mix radians step smoothstep sign".split()
GEOMETRIC = "cross dot distance length normalize fast_distance fast_length fast_normalize".split()
RELATIONAL = """isequal isnotequal isgreater isgreaterequal isless islessequal islessgreater isfinite isinf isnan isnormal isordered
    isunordered signbit any all bitselect select""".split()
SYNCHRONIZE = """barrier mem_fence read_mem_fence write_mem_fence work_group_barrier atomic_work_item_fence async_work_group_copy
    async_work_group_strided_copy wait_group_events prefetch vec_step shuffle shuffle2 printf""".split()
ATOMIC = "add sub xchg inc dec cmpxchg min max and or xor".split()
IMAGE = """read_imagef read_imagei read_imageui read_imageh write_imagef write_imagei write_imageui write_imageh get_image_width
    get_image_height get_image_depth get_image_channel_data_type get_image_channel_order get_image_dim get_image_array_size
    get_image_num_samples get_image_num_mip_levels""".split()
LIMITS = """MANT_DIG MAX_10_EXP MAX_EXP MIN_10_EXP MIN_EXP RADIX MAX MIN EPSILON DIG""".split()
CONSTANTS = """MAXFLOAT HUGE_VALF INFINITY NAN HUGE_VAL CHAR_BIT CHAR_MAX CHAR_MIN INT_MAX INT_MIN LONG_MAX LONG_MIN SCHAR_MAX SCHAR_MIN
    SHRT_MAX SHRT_MIN UCHAR_MAX USHRT_MAX UINT_MAX ULONG_MAX FP_ILOGB0 FP_ILOGBNAN FP_FAST_FMA FP_FAST_FMAF FP_FAST_FMA_HALF M_E M_LOG2E
    M_LOG10E M_LN2 M_LN10 M_PI M_PI_2 M_PI_4 M_1_PI M_2_PI M_2_SQRTPI M_SQRT2 M_SQRT1_2 CL_VERSION_1_0 CL_VERSION_1_1 CL_VERSION_1_2
    CL_VERSION_2_0 CL_VERSION_3_0 CLK_LOCAL_MEM_FENCE CLK_GLOBAL_MEM_FENCE CLK_IMAGE_MEM_FENCE CLK_NORMALIZED_COORDS_TRUE
    CLK_NORMALIZED_COORDS_FALSE CLK_ADDRESS_NONE CLK_ADDRESS_CLAMP CLK_ADDRESS_CLAMP_TO_EDGE CLK_ADDRESS_REPEAT
    CLK_ADDRESS_MIRRORED_REPEAT CLK_FILTER_NEAREST CLK_FILTER_LINEAR CLK_SNORM_INT8 CLK_SNORM_INT16 CLK_UNORM_INT8 CLK_UNORM_INT16
    CLK_UNORM_SHORT_565 CLK_UNORM_SHORT_555 CLK_UNORM_INT_101010 CLK_SIGNED_INT8 CLK_SIGNED_INT16 CLK_SIGNED_INT32 CLK_UNSIGNED_INT8
    CLK_UNSIGNED_INT16 CLK_UNSIGNED_INT32 CLK_HALF_FLOAT CLK_FLOAT CLK_R CLK_A CLK_RG CLK_RA CLK_RGB CLK_RGBA CLK_ARGB CLK_BGRA
    CLK_INTENSITY CLK_LUMINANCE CLK_Rx CLK_RGx CLK_RGBx CLK_DEPTH kernel_exec cl_khr_fp64 cl_khr_fp16 cl_khr_int64_base_atomics
    cl_khr_int64_extended_atomics cl_khr_3d_image_writes cl_khr_byte_addressable_store cl_khr_global_int32_base_atomics
    cl_khr_global_int32_extended_atomics cl_khr_local_int32_base_atomics cl_khr_local_int32_extended_atomics cl_khr_gl_sharing
    cl_khr_icd cl_khr_spir cl_amd_media_ops cl_nv_pragma_unroll cl_intel_subgroups""".split()
# Names of C's library and of a linked program, and names that compilers give to what they make.
LIBRARY = """memset memcpy memmove memcmp bcmp bzero strlen strcpy strcmp strncpy malloc calloc realloc free abort exit puts putchar
    fprintf sprintf snprintf fputc fputs fwrite labs llabs div ldiv rand srand signal raise time clock getenv system atexit qsort bsearch
    setjmp longjmp environ errno stdin stdout stderr sqrtf sinf cosf fmodf floorf powf expf logf fmaf fminf fmaxf ffs ffsl alloca
    sbrk read write open close start init fini end edata etext data bss text section linux unix i386 vax sun mips arm ppc hpux spir
    kernel_main entry dummy atan2k_u1 atan2kf_u1 gammafk gammak pocl_read_pixel
    pocl_read_pixel_fast_f pocl_read_pixel_floatc pocl_write_pixel read_pixel_linear_1d read_pixel_linear_2d read_pixel_linear_3d
    write_float_pixel Sleef_sin_u10 Sleef_expf_u10 Sleef_rint Sleef_fabs pocl
    pocl_barrier pocl_memcpy pocl_memset pocl_printf pocl_kernel pocl_workgroup pocl_context pocl_spir
    workgroup_fast k_workgroup k_workgroup_fast wg barrier_dummy oclgrind tmp retval this block blockIdx threadIdx gridDim blockDim
    LLVM LLVM_VERSION CLANG_MAJOR CLANG_HAS_RW_IMAGES IMG_RO_AQ IMG_WO_AQ IMG_RW_AQ POCL_DEVICE_ADDRESS_BITS INTTYPE""".split()


def of_the_standard():
    """Each name of OpenCL C 1.2, and of C, by the family that it is of."""
    vectors = [kind + width for kind in NUMBERS for width in WIDTHS]
    modes = [saturates + rounds for saturates in ("", "_sat") for rounds in ("", "_rte", "_rtz", "_rtp", "_rtn")]
    half_modes = ("", "_rte", "_rtz", "_rtp", "_rtn")
    return {
        "types": [*SCALARS, *vectors, *OTHER_TYPES],
        "keywords": [*RESERVED, *KEYWORDS, *ATTRIBUTES],
        "conversions": [f"convert_{kind}{mode}" for kind in vectors for mode in modes],
        "reinterpretations": [f"as_{kind}" for kind in [*vectors, "size_t", "ptrdiff_t", "intptr_t", "uintptr_t"]],
        "functions": [*WORK_ITEM, *MATH, *INTEGER, *COMMON, *GEOMETRIC, *RELATIONAL, *SYNCHRONIZE, *IMAGE,
                      *(f"{which}_{name}" for which in ("native", "half") for name in NATIVE),
                      *(f"{which}_{name}" for which in ("atomic", "atom") for name in ATOMIC),
                      *(f"atomic_{name}" for name in ("init", "store", "load", "exchange", "fetch_add", "fetch_sub", "fetch_min")),
                      *(f"{which}{width}" for which in ("vload", "vstore") for width in WIDTHS[1:]), "vload", "vstore",
                      *(f"{which}_half{width}{mode}" for which in ("vload", "vstore", "vloada", "vstorea") for width in WIDTHS
                        for mode in (half_modes if "store" in which else ("",)))],
        "constants": [*CONSTANTS, *(f"{kind}_{what}" for kind in ("FLT", "DBL", "HALF") for what in LIMITS)],
        "library": [*LIBRARY, *(f"LLVM_{number}_0" for number in range(3, 22)),
                    *(f"LLVM_OLDER_THAN_{number}_0" for number in range(3, 22))],
        "letters": [a + b for a in "abcdefghijklmnopqrstuvwxyzABCDEFGHIJKLMNOPQRSTUVWXYZ_" for b in ("", "0", "1")],
    }


def of_headers():
    """Each name in the headers of compilers that are installed here, and each macro that they have."""
    places = [f"/usr/lib/llvm-{number}/lib/clang/{number}.0.6/include/opencl-c{rest}.h" for number in (14, 15) for rest in ("", "-base")]
    places += [f"/usr/share/pocl/include/{it}" for it in sorted(os.listdir("/usr/share/pocl/include")) if it.endswith(".h")]
    places += [f"/usr/lib/x86_64-linux-gnu/oclgrind/21.10/opencl-c{rest}.h" for rest in ("", "-base")]
    found = set()
    for place in places:
        if os.path.isfile(place):
            with open(place, encoding="utf-8") as it:
                text = re.sub(r"//.*|/\*.*?\*/", " ", re.sub(r"/\*.*?\*/", " ", it.read(), flags=re.S))
            found |= set(re.findall(r"\b[A-Za-z_]\w*\b", text))
    for command in ("clang-14", "clang-15"):
        for target in ("x86_64", "i386", "aarch64", "armv7", "amdgcn-amd-amdhsa", "nvptx64", "spir", "spir64", "r600"):
            for language in ("CL1.0", "CL1.2", "CL2.0", "CL3.0"):
                words = [command, "-target", target, "-x", "cl", f"-cl-std={language}"]
                words += ["-Xclang", "-finclude-default-header", "-dM", "-E", "-"]
                done = subprocess.run(words, input="", capture_output=True, text=True)
                found |= set(re.findall(r"^#define (\w+)", done.stdout, flags=re.M))
    return sorted(found)


def names():
    """All names that are tried, by family; each once."""
    seen, families = set(), {}
    for family, several in [*of_the_standard().items(), ("headers", of_headers())]:
        families[family] = [it for it in dict.fromkeys(several) if it not in seen]
        seen |= set(several)
    return families


HEAD = "__kernel __attribute__((reqd_work_group_size(4, 1, 1))) void"
IDS = "uint l0 = (uint)get_local_id(0); uint g0 = (uint)get_global_id(0);"
ROLES = ("kernel", "uint", "int", "variable", "array", "buffer", "constant")
GROUPS, SIZE = 2, 4
ITEMS = GROUPS * SIZE
# How many names stand in one kernel, for a role; for a kernel's name the kernels of a program.
AT_ONCE = {"kernel": 40, "uint": 56, "int": 56, "variable": 56, "array": 56, "buffer": 56, "constant": 56}

KERNEL_BODY = (
    "{ __local uint t0[4]; " + IDS + " t0[l0] = 3u * g0 + n0; barrier(CLK_LOCAL_MEM_FENCE);"
    " uint s0 = min(t0[3u - l0], 1000u) + max(l0, 2u);"
    " for (uint i0 = 0u; i0 < 64u; i0 += 1u) { b0[64u * g0 + i0] = 0u; }"
    " barrier(CLK_LOCAL_MEM_FENCE | CLK_GLOBAL_MEM_FENCE);"
    " for (uint j0 = 0u; j0 < 4u; j0 += 1u) { b0[64u * g0 + j0] = t0[j0]; s0 = s0 + j0; }"
    " barrier(CLK_GLOBAL_MEM_FENCE);"
    " a0[g0] = s0 + 100u * (uint)get_group_id(0) + 1000u * (uint)get_global_size(0) + 10000u * (uint)get_local_size(0)"
    " + 100000u * (uint)get_num_groups(0); }"
)


def kernel_lines(role, several, own="k0"):
    """A kernel that has these names in that role, and of each line whose name it has; each name's elements are its own in `a0`."""
    if role == "kernel":
        return [(f"{HEAD} {several[0]}(__global uint *a0, __global uint *b0, uint n0) {KERNEL_BODY}", several[0])]
    at = [f"a0[{ITEMS * number}u + g0]" for number in range(len(several))]
    parameters, lines = [], []
    for number, name in enumerate(several):
        if role in ("uint", "int"):
            parameters.append((f", {role} {name}", name))
            # one use, and one that could be read without the name
            line = f"{at[number]} = {name} - 1{'u' * (role == 'uint')};"
        elif role == "variable":
            line = f"uint {name} = g0 + {number + 3}u; {at[number]} = {name} - 1u;"
        elif role == "array":
            line = f"__local uint {name}[4]; {name}[l0] = g0 + {number + 3}u; {at[number]} = {name}[l0] - 1u;"
        elif role == "buffer":
            parameters.append((f", __global uint *{name}", name))
            line = f"{name}[g0] = {name}[g0] * 3u; {at[number]} = {name}[g0] - 1u;"
        else:
            parameters.append((f", __global const int *{name}", name))
            line = f"{at[number]} = (uint)({name}[g0] - 1);"
        lines.append((line, name))
    return [(f"{HEAD} {own}(__global uint *a0", None), *parameters, (f") {{ {IDS}", None), *lines, ("}", None)]


def kernel(role, several, own="k0", between="\n"):
    return between.join(line for line, _ in kernel_lines(role, several, own))


def expected(role, number):
    """The elements of `a0` that are the name's at that place in its kernel."""
    word = number + 7
    if role == "kernel":
        reversed_items = [3 * (SIZE * (g // SIZE) + SIZE - 1 - g % SIZE) + 7 for g in range(ITEMS)]
        rest = 1000 * ITEMS + 10000 * SIZE + 100000 * GROUPS + 6
        return [reversed_items[g] + max(g % SIZE, 2) + 100 * (g // SIZE) + rest for g in range(ITEMS)]
    if role in ("uint", "int"):
        return [word - 1] * ITEMS
    if role in ("variable", "array"):
        return [g + number + 2 for g in range(ITEMS)]
    return [(number + 1) * 100 * (3 if role == "buffer" else 1) + g * (3 if role == "buffer" else 1) - 1 for g in range(ITEMS)]


def lines_with_errors(log):
    """The lines of a text of which a compiler's words tell errors."""
    return {int(a or b) for a, b in re.findall(r"^(?:[^\s:]*:(\d+):\d+: (?:fatal )?error|error: [^\s:]*:(\d+):)", log, flags=re.M)}


# Clang: each kernel is compared with one of the same shape under a name of no meaning.
def functions_of(module):
    """Each function of a module in LLVM's language, by its name, without what tells one such module from another."""
    made = {}
    for name, text in re.findall(r"^define[^@]*@([\w.]+)\((.*?)^}", module, flags=re.S | re.M):
        made[name] = re.sub(r"![\w.]+( !\d+)?|#\d+", "", text.replace(f"@{name}.", "@_."))
    return made


def by_clang(words, families):
    """What clang makes of each name in each role: (name, role, what)."""
    told = []
    with_header = [*words, "-x", "cl", "-cl-std=CL1.2", "-target", "spir64", "-S", "-emit-llvm", "-O0", "-w", "-ferror-limit=0",
                   "-fno-caret-diagnostics", "-o", "-", "-"]
    if not any("opencl-c.h" in it for it in words):
        with_header[1:1] = ["-Xclang", "-finclude-default-header"]
    everything = [it for several in families.values() for it in several]
    for role in ROLES:
        asked = [it for it in everything if not answer(it, role)]
        plain = "zq_plain"
        for start in range(0, len(asked), 1500):
            part = asked[start : start + 1500]

            def texts(several):
                """One kernel a line; those behind an error have a kernel of their own between them."""
                return [kernel(role, [it], f"zq{number}", " ") for number, it in enumerate(several)]

            def call(several):
                lines = list(itertools.chain(*([it, f"{HEAD} zs{number}(void) {{ }}"] for number, it in enumerate(texts(several)))))
                lines.append(kernel(role, [plain], "zq_kernel", " "))
                done = subprocess.run(with_header, input="\n".join(lines) + "\n", capture_output=True, text=True)
                return done.stdout, {(it - 1) // 2 for it in lines_with_errors(done.stderr) if it % 2}, done

            module, bad, _ = call(part)
            bad = {part[it] for it in bad if it < len(part)}
            while bad:
                left = [it for it in part if it not in bad]
                module, more, done = call(left)
                if not more:
                    if done.returncode:
                        sys.exit(done.stderr[:2000])
                    break
                bad |= {left[it] for it in more if it < len(left)}
            else:
                left = part
            told += [(it, role, "does not compile") for it in part if it in bad]
            made = functions_of(module)
            wanted = made[plain if role == "kernel" else "zq_kernel"]
            for number, name in enumerate(left):
                own = made.get(name if role == "kernel" else f"zq{number}", "")
                if role == "array":
                    own = re.sub(rf"\.{name}\b", f".{plain}", own)
                if own != wanted:
                    told.append((name, role, "MEANS SOMETHING ELSE"))
    return told


# By OpenCL: a worker of its own builds and runs, so that what does not end can be stopped.
def worker(platform):
    import warnings

    import numpy
    import pyopencl

    # exactly the text, and no `-D`
    pyopencl._PLAT_BUILD_OPTIONS.clear()
    pyopencl._DEFAULT_INCLUDE_OPTIONS.clear()
    warnings.simplefilter("ignore")
    device = next(it for it in pyopencl.get_platforms() if platform.lower() in it.name.lower()).get_devices()[0]
    context = pyopencl.Context([device])
    queue = pyopencl.CommandQueue(context)
    flags = pyopencl.mem_flags.READ_WRITE | pyopencl.mem_flags.COPY_HOST_PTR

    def buffer(words, kind):
        return pyopencl.Buffer(context, flags, hostbuf=numpy.array(words, dtype=kind))

    def run(it, role, count):
        a0 = numpy.full(ITEMS * max(count, 1), 99, dtype=numpy.uint32)
        memory = buffer(a0, numpy.uint32)
        b0 = None
        arguments = [memory]
        if role == "kernel":
            b0 = numpy.full(64 * ITEMS, 55, dtype=numpy.uint32)
            arguments += [buffer(b0, numpy.uint32), numpy.uint32(7)]
        elif role in ("uint", "int"):
            arguments += [(numpy.uint32 if role == "uint" else numpy.int32)(number + 7) for number in range(count)]
        elif role in ("buffer", "constant"):
            kind = numpy.uint32 if role == "buffer" else numpy.int32
            arguments += [buffer([(number + 1) * 100 + g for g in range(ITEMS)], kind) for number in range(count)]
        it.set_args(*arguments)
        pyopencl.enqueue_nd_range_kernel(queue, it, [ITEMS], [SIZE])
        pyopencl.enqueue_copy(queue, a0, memory)
        if b0 is not None:
            pyopencl.enqueue_copy(queue, b0, arguments[1])
        queue.finish()
        right = b0 is None or all(
            int(b0[64 * g + j]) == (3 * (SIZE * (g // SIZE) + j) + 7 if j < 4 else 0) for g in range(ITEMS) for j in range(64)
        )
        return [int(word) for word in a0], right

    program = None
    for line in sys.stdin:
        job = json.loads(line)
        try:
            if "text" in job:
                program = pyopencl.Program(context, job["text"])
                program.build(["-cl-std=CL1.2"])
                told = {"built": True}
            else:
                which = {it.function_name: it for it in program.all_kernels()}
                # pocl has macros that put `_cl_` before some names, a kernel's too; where it stands alone, any name will do
                renamed = job["kernel"] not in which
                found = which.get("_cl_" * renamed + job["kernel"]) or (which.popitem()[1] if len(which) == 1 else None)
                words, right = run(found, job["role"], job["count"])
                told = {"words": words, "right": right, "renamed": renamed}
        except Exception as error:
            told = {"error": str(error)[-200000:]}
        print("TOLD" + json.dumps(told), flush=True)


class Worker:
    def __init__(self, platform):
        self.platform, self.process = platform, None

    def ask(self, job, seconds=60):
        """The worker's answer, or what became of it."""
        if self.process is None:
            how = {"stdin": subprocess.PIPE, "stdout": subprocess.PIPE, "stderr": subprocess.DEVNULL}
            environment = {**os.environ, "PYOPENCL_NO_CACHE": "1", "POCL_KERNEL_CACHE": "0", "POCL_MAX_PTHREAD_COUNT": "1"}
            self.process = subprocess.Popen([*START, sys.executable, __file__, "worker", self.platform], env=environment, **how)
            self.left = b""
        try:
            self.process.stdin.write((json.dumps(job) + "\n").encode())
            self.process.stdin.flush()
        except BrokenPipeError:
            self.end()
            return {"error": "the process broke"}
        end = time.monotonic() + seconds
        while time.monotonic() < end:
            while b"\n" in self.left:
                line, self.left = self.left.split(b"\n", 1)
                if line.startswith(b"TOLD"):
                    return json.loads(line[4:])
            if select.select([self.process.stdout], [], [], max(0, end - time.monotonic()))[0]:
                some = os.read(self.process.stdout.fileno(), 1 << 20)
                if not some:
                    code = self.process.wait()
                    self.end()
                    return {"error": f"the process broke: {code}"}
                self.left += some
        self.end()
        return {"error": "does not end"}

    def end(self):
        if self.process:
            self.process.kill()
            self.process.wait()
        self.process = None


START = ["oclgrind"] if "oclgrind" in sys.argv[2:3] else []


def by_running(platform, families, roles):
    worker = Worker(platform)
    told = []

    def tell(name, role, what):
        told.append((name, role, what))
        print(f"{name} {role}: {what}", flush=True)

    def is_right(role, ran, count):
        return "error" not in ran and ran["right"] and ran["words"] == [word for number in range(count) for word in expected(role, number)]

    def several(role, part):
        """What becomes of several names in one kernel (as kernels' names, in one program)."""
        if not part:
            return
        lines = [it for name in part for it in kernel_lines(role, [name])] if role == "kernel" else kernel_lines(role, part)
        built = worker.ask({"text": "\n".join(it for it, _ in lines) + "\n"}, 120)
        if "error" in built:
            wrong = sorted(it for it in lines_with_errors(built["error"]) if it <= len(lines))
            # behind a wrong parameter a compiler sees no other
            bad = {lines[it - 1][1] for it in (wrong[:1] if role in ("uint", "int", "buffer", "constant") else wrong)} - {None}
            if bad:
                for name in part:
                    if name in bad:
                        tell(name, role, "does not compile")
                several(role, [name for name in part if name not in bad])
            elif len(part) == 1:
                tell(part[0], role, "does not compile: " + built["error"][:300].replace("\n", " "))
            else:
                several(role, part[: len(part) // 2])
                several(role, part[len(part) // 2 :])
        elif role == "kernel":
            for number, name in enumerate(part):
                ran = worker.ask({"kernel": name, "role": role, "count": 1}, 20)
                if is_right(role, ran, 1):
                    if ran["renamed"]:
                        tell(name, role, "has another name")
                else:
                    tell(name, role, f"MEANS SOMETHING ELSE{' among others' * (len(part) > 1)}: {ran}"[:300])
                    if len(part) > 1:
                        several(role, [name])
                        several(role, part[number + 1 :])
                        return
        else:
            ran = worker.ask({"kernel": "k0", "role": role, "count": len(part)}, 30)
            if is_right(role, ran, len(part)):
                return
            if len(part) == 1:
                tell(part[0], role, f"MEANS SOMETHING ELSE: {ran}"[:300])
            else:
                several(role, part[: len(part) // 2])
                several(role, part[len(part) // 2 :])

    for role in roles or ROLES:
        several_families = families
        if role == "kernel":
            # one kernel each: left out are those that differ in how they round alone, and the headers' own
            several_families = {family: them for family, them in families.items() if family != "headers"}
            several_families["conversions"] = [name for name in families["conversions"] if "_rt" not in name]
        asked = [name for them in several_families.values() for name in them if not answer(name, role)]
        begun = time.monotonic()
        for start in range(0, len(asked), AT_ONCE[role]):
            part = asked[start : start + AT_ONCE[role]]
            several(role, part)
        print(f"{role}: {len(asked)} names, {time.monotonic() - begun:.0f} s", flush=True)
    worker.end()
    return told


def main():
    words = sys.argv[1:]
    if words[:1] == ["worker"]:
        return worker(words[1])
    families = names()
    for family, them in families.items():
        print(f"{family}: {len(them)} names")
    if words[:1] == ["clang"] and len(words) > 1:
        for name, role, what in by_clang(words[1:], families):
            print(f"{name} {role}: {what}")
    elif words[:1] == ["run"] and len(words) > 1:
        by_running(words[1], families, words[2:])
    else:
        sys.exit(__doc__)
    return 0


if __name__ == "__main__":
    sys.exit(main())
