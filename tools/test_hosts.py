#!/usr/bin/env python3
"""Runs hosts that use kverify as it is laid down: in C, C++ and Python on OpenCL, by CMake, make, GNU parallel and Slurm; and the layer.

usage: tools/test_hosts.py [NAME ..], at the top of the repository; `../kverify test --hosts` calls it. With names it runs these alone.

All is laid down in a folder outside the repository and moved once, and what is built and run stands there, too; no network is used. What
is missing on this machine is said, with Debian's packages, and what needs it is skipped. The last line is `N passed, N failed, N skipped`.
The status is 1 where one failed.
"""
import contextlib
import glob
import os
import re
import shutil
import socket
import subprocess
import sys
import tempfile
import time

COUNTS = re.compile(r"^(\d+) passed, (\d+) failed$", re.M)
STRICT = ["-O1", "-Wall", "-Wextra", "-Werror"]
# What the library may need of the system: the C library's memory, and libgcc's arithmetic of 128 bits.
NEEDED = {"malloc", "realloc", "free", "memcpy", "memmove", "memset", "memcmp", "__divti3", "__modti3", "__udivti3", "__umodti3"}
DEVICE = """#define CL_TARGET_OPENCL_VERSION 120
#include <CL/cl.h>
int main(void) { cl_platform_id platform; cl_device_id device;
  return clGetPlatformIDs(1, &platform, 0) || clGetDeviceIDs(platform, CL_DEVICE_TYPE_ALL, 1, &device, 0); }
"""
# The seconds after which a process counts as hung.
LIMIT = 900


def text_of(path):
    with open(path, encoding="utf-8", errors="replace") as file:
        return file.read()


def write(path, text):
    with open(path, "w", encoding="utf-8") as file:
        file.write(text)


class Missing(Exception):
    """A test cannot run: what is missing, with its packages."""


class Wrong(Exception):
    """A test failed."""


def need(is_there, what, packages):
    if not is_there:
        raise Missing(f"{what} ({packages})")


def needs(**packages):
    """Each of these commands is there."""
    for command, package in packages.items():
        need(shutil.which(command.replace("cxx", "c++").replace("_", "-")), command.replace("cxx", "c++").replace("_", "-"), package)


class Place:
    """The folder in which all stands: what is laid down, and a copy of hosts/tests."""

    def __init__(self, room):
        self.room, self.prefix, self.tests = room, f"{room}/prefix", f"{room}/tests"
        self.kernels, self.share = f"{self.tests}/kernels", f"{self.prefix}/share/kverify"
        self.environment = {**os.environ, "POCL_CACHE_DIR": f"{room}/pocl", "PYTHONDONTWRITEBYTECODE": "1"}
        self.python = next(iter(self.pythons()), None)

    def pythons(self):
        """The pythons that have PyOpenCL."""
        for it in dict.fromkeys([sys.executable, "/usr/bin/python3"]):
            with contextlib.suppress(Wrong, OSError):
                self.ran(it, "-c", "import numpy, pyopencl")
                yield it

    def ran(self, *words, status=0, folder=None, **environment):
        """Runs a command to its end, and returns what it wrote; another status is wrong."""
        how = {"stdin": subprocess.DEVNULL, "stdout": subprocess.PIPE, "stderr": subprocess.STDOUT, "text": True, "errors": "replace"}
        how |= {"cwd": folder or self.room, "env": {**self.environment, **environment}, "timeout": LIMIT}
        ended = subprocess.run([str(it) for it in words], **how)
        if ended.returncode != status:
            raise Wrong(f"{' '.join(map(str, words))}\nended with status {ended.returncode}:\n{ended.stdout[-3000:]}")
        return ended.stdout

    def counted(self, *words, **environment):
        """Runs a program that counts its own tests, and returns how many passed."""
        text = self.ran(*words, **environment)
        counts = COUNTS.findall(text)
        if len(counts) != 1 or counts[0][1] != "0" or counts[0][0] == "0":
            raise Wrong(text)
        return int(counts[0][0])

    def kverify(self, *words, **how):
        return self.ran(f"{self.prefix}/bin/kverify", *words, **how)

    def names(self):
        return sorted(os.path.basename(it).removesuffix(".conditions") for it in glob.glob(f"{self.kernels}/*.conditions"))

    def file_of(self, name):
        whole = f"{self.kernels}/{name}.cl"
        return whole if os.path.exists(whole) else f"{self.kernels}/{name.rsplit('.', 1)[0]}.cl"

    def make(self, out, *words, kernels=None, **how):
        return self.ran("make", "-f", f"{self.share}/kernels.mk", f"KERNELS={kernels or self.kernels}", f"OUT={out}", *words, **how)

    def expect_certificates(self, folder):
        """Each kernel has a certificate in a folder that shows it. Returns how many they are."""
        for it in self.names():
            text = self.kverify("check", self.file_of(it), f"{self.kernels}/{it}.conditions", f"{folder}/{it}.certificate")
            expect("accepted" in text.splitlines(), f"{it} is accepted", text)
        return len(self.names())

    def certificates(self):
        """A folder with the certificates of all kernels."""
        folder = f"{self.room}/certificates"
        if not os.path.isdir(folder):
            self.make(folder, "-j", "4")
        return folder

    def data(self):
        """The texts of all kernels as data in C, with their header file kernels.h: the folder."""
        folder, certificates = f"{self.room}/data", self.certificates()
        os.makedirs(folder, exist_ok=True)
        words = []
        for it in self.names():
            words += [it.replace(".", "_"), self.file_of(it), f"{self.kernels}/{it}.conditions", f"{certificates}/{it}.certificate"]
        self.ran("sh", f"{self.share}/embed.sh", f"{folder}/kernels.c", f"{folder}/kernels.h", *words)
        return folder

    def compiled(self, compiler, source, *words):
        """Compiles a test with the library as it is laid down, and returns the program."""
        program, data = f"{self.room}/{os.path.basename(source)}.out", self.data()
        flags = [*STRICT, f"-I{self.prefix}/include", f"-I{data}"]
        self.ran(compiler, *flags, f"{self.tests}/{source}", f"{data}/kernels.c", f"{self.prefix}/lib/libkverify.a", "-o", program, *words)
        return program

    def counted_in_python(self, script, *words):
        """Runs a script with PyOpenCL that counts its own tests, and returns how many passed."""
        need(self.python, "PyOpenCL", "python3-pyopencl")
        need(os.path.exists(f"{self.prefix}/lib/libkverify.so.1"), "the shared library", "gcc")
        return self.counted(self.python, f"{self.tests}/{script}", *words, PYTHONPATH=f"{self.share}/python")

    def needs_opencl(self):
        write(f"{self.room}/device.c", DEVICE)
        try:
            self.ran("cc", "device.c", "-lOpenCL", "-o", "device")
        except Wrong:
            raise Missing("OpenCL to build with (opencl-c-headers ocl-icd-opencl-dev)") from None
        try:
            self.ran("./device")
        except Wrong:
            raise Missing("an OpenCL device (pocl-opencl-icd)") from None


def expect(is_right, what, text=""):
    if not is_right:
        raise Wrong(f"{what}: it is not so\n{text}")


# The tests. Each returns how many things it has seen to be right.


def laid_down(place):
    """What is laid down answers by itself, and says whether it is proved."""
    version = place.kverify("--version")
    for what in ("program", "library"):
        expect(re.search(rf"^The {what} is (not )?proved\.$", version, re.M), f"it says whether the {what} is proved", version)
    is_library_proved = "The library is proved." in version.splitlines()
    expect(("which are C" in version) == is_library_proved, "of a proved library it says of which functions nothing is proved", version)
    text = place.kverify("prove", f"{place.kernels}/fill.cl", f"{place.kernels}/fill.conditions", "--out", f"{place.room}/found")
    expect("accepted" in text.splitlines(), "it proves", text)
    labelled = "nothing is proved of the program" in text
    expect(labelled == ("The program is not proved." in version), "its answers say so where it is not proved", text)
    text = place.kverify("explain", f"{place.tests}/race.cl", f"{place.tests}/race.conditions", status=1)
    expect("refused 60" in text and "race confirmed: store 3:3" in text, "it explains a data race", text)
    text = place.kverify("prove", "--narrow", f"{place.kernels}/scale.cl", f"{place.kernels}/scale.conditions", status=1)
    expect("refused 10 " in text or "refused 30 " in text or "refused 35 " in text, "--narrow reads the plain language alone", text)
    expect("kverify prove" in place.kverify("--help"), "it has a help")
    return 8


def manual_page(place):
    """The manual page is formatted without a warning."""
    needs(man="man-db")
    text = place.ran("man", "--warnings", "-l", f"{place.prefix}/share/man/man1/kverify.1", MANPAGER="cat", MANWIDTH="100", LC_ALL="C")
    expect("KVERIFY(1)" in text and "warning" not in text and "--devices any" in text, "it is a page", text)
    return 1


def completion(place):
    """bash completes commands, options and their values."""
    needs(bash="bash")
    script = f". {place.prefix}/share/bash-completion/completions/kverify; COMP_WORDS=($1); COMP_CWORD=$2; _kverify; echo ${{COMPREPLY[*]}}"
    for words, at, wanted in [("kverify pr", 1, "prove print"), ("kverify prove --o", 2, "--out"), ("kverify run --devices 3", 3, "32")]:
        text = place.ran("bash", "-c", script, "bash", words, at)
        expect(text == f"{wanted}\n", f"{words} goes on with {wanted}", text)
    return 3


def names_of_the_library(place):
    """Nobody sees other names of the library than kv_*, and it asks for nothing of the system but memory."""
    needs(nm="binutils")
    listed = lambda *words: {it.split("@")[0] for it in place.ran("nm", "-j", *words).split() if not it.endswith(":")}
    archive, shared = f"{place.prefix}/lib/libkverify.a", f"{place.prefix}/lib/libkverify.so.1"
    wanted = {f"kv_{it}" for it in "version check explain options meets run open allows close".split()}
    found = listed("-g", "--defined-only", archive)
    expect(found == wanted, "the archive has the functions of kverify.h alone", found ^ wanted)
    found = listed("-u", archive) - NEEDED - {"_GLOBAL_OFFSET_TABLE_"}
    expect(not found, "the archive asks for memory alone", found)
    need(os.path.exists(shared), "the shared library", "gcc")
    found = listed("-D", "-g", "--defined-only", shared) - {"KVERIFY_1"}
    expect(found == wanted, "the shared library has the functions of kverify.h alone", found ^ wanted)
    return 3


def by_make(place):
    """make -j makes the certificates, does nothing the second time, and tells of a data race."""
    needs(make="make")
    folder = place.certificates()
    count = place.expect_certificates(folder)
    times = {it: os.stat(f"{folder}/{it}.certificate").st_mtime_ns for it in place.names()}
    place.make(folder, "-j", "4")
    expect(times == {it: os.stat(f"{folder}/{it}.certificate").st_mtime_ns for it in times}, "nothing is made twice")
    expect_race(place.make(f"{place.room}/none", "-j", "4", kernels=place.tests, status=2))
    return count + 2


def expect_race(text):
    for part in ("refused 60", "race confirmed: store 3:3", "sums[get_group_id(0)] = in[get_global_id(0)];"):
        expect(re.search(rf"^.*race\.cl: .*{re.escape(part)}", text, re.M), f"the data race is told, with `{part}`", text)
    expect(text.count("refused 60") == 1, "it is told once", text)


def brought_certificate(place):
    """A certificate beside the conditions is taken where it shows the kernel, and another one is searched where it does not."""
    needs(make="make")
    folder, known = f"{place.room}/brought", place.certificates()
    os.makedirs(folder)
    for name, of in [("guard", "guard"), ("fill", "halve")]:
        shutil.copy(place.file_of(name), f"{folder}/{name}.cl")
        shutil.copy(f"{place.kernels}/{name}.conditions", folder)
        write(f"{folder}/{name}.certificate", text_of(f"{known}/{of}.certificate"))
    os.rename(f"{place.prefix}/libexec/kverify", f"{place.prefix}/libexec/whole")
    # (a program that checks, and searches nothing)
    write(f"{place.prefix}/libexec/kverify", f'#!/bin/sh\n[ "$1" = check ] && exec {place.prefix}/libexec/whole "$@"\nexit 3\n')
    os.chmod(f"{place.prefix}/libexec/kverify", 0o755)
    try:
        place.make(f"{place.room}/taken", f"{place.room}/taken/guard.certificate", kernels=folder)
    finally:
        os.replace(f"{place.prefix}/libexec/whole", f"{place.prefix}/libexec/kverify")
    place.make(f"{place.room}/taken", kernels=folder)
    for it in ("guard", "fill"):
        place.kverify("check", f"{folder}/{it}.cl", f"{folder}/{it}.conditions", f"{place.room}/taken/{it}.certificate")
    return 2


def host_in_c(place):
    """A host in C: kernels are launched with right results, and each refusal of a launch comes before it."""
    needs(cc="gcc", make="make")
    place.needs_opencl()
    return place.counted(place.compiled("cc", "host.c", "-std=c11", "-pedantic", "-lOpenCL"))


def host_in_cxx(place):
    """The same in C++."""
    needs(cc="gcc", cxx="g++", make="make")
    place.needs_opencl()
    return place.counted(place.compiled("c++", "host.cpp", "-std=c++17", "-lOpenCL"))


def host_in_python(place):
    """The same in Python."""
    needs(make="make")
    return place.counted_in_python("host.py", place.kernels, place.certificates())


def examples_on_device(place):
    """The examples of this repository leave on a device what `kverify run` prints."""
    return place.counted_in_python("examples.py", os.path.abspath("examples"), f"{place.prefix}/bin/kverify")


def parameters_of_all_types(place):
    """Buffers, values and local memory of all scalars and vectors are of just the size that is enough."""
    return place.counted_in_python("shapes.py", f"{place.prefix}/bin/kverify", f"{place.room}/shapes")


def limits(place):
    """The library at its limits: threads, allocations that are refused, texts of no bytes and too many, a small stack."""
    needs(cc="gcc", make="make")
    wrapped = [f"-Wl,--wrap={it}" for it in ("malloc", "realloc", "free")]
    return place.counted(place.compiled("cc", "limits.c", "-std=c11", "-pthread", *wrapped))


def by_pkg_config(place):
    """pkg-config tells how to link."""
    needs(cc="gcc", pkg_config="pkg-config")
    write(f"{place.room}/version.c", "#include <kverify.h>\nint main(void) { return kv_version() != KV_VERSION; }\n")
    flags = place.ran("pkg-config", "--cflags", "--libs", "kverify", PKG_CONFIG_PATH=f"{place.prefix}/lib/pkgconfig").split()
    place.ran("cc", "version.c", *flags, "-o", "version")
    place.ran("./version")
    return 1


def by_cmake(place, generator, folder, *words):
    """A CMake project builds, and its host runs; with a kernel that has a data race the build fails with its line."""
    build, configured = f"{place.room}/{folder}", ["cmake", "-G", generator, f"-DCMAKE_PREFIX_PATH={place.prefix}"]
    text = place.ran(*configured, "-S", place.tests, "-B", build)
    is_said = re.search(r"^-- kverify: the program .*, the library ", text, re.M)
    expect(is_said, "find_package says whether what was laid down is proved", text)
    place.ran("cmake", "--build", build, *words)
    passed = sum(place.counted(f"{build}/host_{it}") for it in ("c", "cpp"))
    times = os.stat(f"{build}/host_c").st_mtime_ns
    place.ran("cmake", "--build", build, *words)
    expect(times == os.stat(f"{build}/host_c").st_mtime_ns, "nothing is built twice")
    place.ran(*configured, "-S", place.tests, "-B", f"{build}_race", "-DRACE=ON")
    text = place.ran("cmake", "--build", f"{build}_race", "--target", "host_c", *words, status=1 if generator == "Ninja" else 2)
    expect_race(text)
    return passed + 3


def by_ninja(place):
    """A CMake project outside the repository, by ninja."""
    needs(cc="gcc", cxx="g++", cmake="cmake", ninja="ninja-build")
    place.needs_opencl()
    return by_cmake(place, "Ninja", "ninja")


def by_cmake_and_make(place):
    """The same by make -j."""
    needs(cc="gcc", cxx="g++", cmake="cmake", make="make")
    place.needs_opencl()
    return by_cmake(place, "Unix Makefiles", "makefiles", "-j", "4")


def by_parallel(place):
    """GNU parallel makes the certificates, one process each."""
    needs(parallel="parallel", make="make")
    folder = f"{place.room}/parallel"
    write(f"{place.room}/goals", place.make(folder, "-s", "list"))
    made = f"make -s -f {place.share}/kernels.mk KERNELS={place.kernels} OUT={folder} {{}}"
    place.ran("parallel", "--will-cite", "-j", "4", "-a", f"{place.room}/goals", made, PARALLEL_HOME=f"{place.room}/parallel_home")
    return place.expect_certificates(folder)


SLURM = """ClusterName=trial
SlurmctldHost={host}(127.0.0.1)
SlurmUser={user}
SlurmdUser={user}
AuthType=auth/munge
AuthInfo=socket={room}/munge
SlurmctldPort={ports[0]}
SlurmdPort={ports[1]}
SlurmctldPidFile={room}/slurmctld.pid
SlurmdPidFile={room}/slurmd.pid
StateSaveLocation={room}/state
SlurmdSpoolDir={room}/spool
ProctrackType=proctrack/linuxproc
TaskPlugin=task/none
MpiDefault=none
JobAcctGatherType=jobacct_gather/none
SelectType=select/cons_tres
NodeName={host} NodeAddr=127.0.0.1 CPUs={processors} State=UNKNOWN
PartitionName=all Nodes=ALL Default=YES MaxTime=INFINITE State=UP
"""


def free_ports(count):
    with contextlib.ExitStack() as open_ones:
        sockets = [open_ones.enter_context(socket.socket()) for _ in range(count)]
        for it in sockets:
            it.bind(("127.0.0.1", 0))
        return [it.getsockname()[1] for it in sockets]


@contextlib.contextmanager
def daemon(place, log, is_up, *words):
    """A daemon in the foreground, which ends with the test; returns when it is up."""
    with open(log, "w", encoding="utf-8") as file:
        how = {"stdin": subprocess.DEVNULL, "stdout": file, "stderr": subprocess.STDOUT, "env": place.environment}
        process = subprocess.Popen(words, **how)
    try:
        end = time.monotonic() + 60
        while not is_up():
            expect(process.poll() is None and time.monotonic() < end, f"{words[0]} is up within 60 s", text_of(log))
            time.sleep(0.3)
        yield
    finally:
        process.terminate()
        with contextlib.suppress(subprocess.TimeoutExpired):
            process.wait(20)
        process.kill()


def by_slurm(place):
    """A job array of Slurm makes the certificates, a job each; its daemons listen on the loopback alone, and end with the test."""
    needs(sbatch="slurm-wlm", slurmctld="slurm-wlm", slurmd="slurm-wlm", munged="munge", make="make")
    need(os.geteuid() == 0, "the rights of root, for the daemons of Slurm", "none")
    room, folder = f"{place.room}/slurm", f"{place.room}/by_slurm"
    for it in (room, f"{room}/state", f"{room}/spool"):
        os.mkdir(it, 0o755)
    with open(os.open(f"{room}/key", os.O_WRONLY | os.O_CREAT, 0o600), "wb") as file:
        file.write(os.urandom(1024))
    words = {"host": socket.gethostname().split(".")[0], "user": "root", "room": room, "ports": free_ports(2)}
    write(f"{room}/slurm.conf", SLURM.format(processors=len(os.sched_getaffinity(0)), **words))
    place.environment["SLURM_CONF"] = f"{room}/slurm.conf"
    os.chmod(place.room, 0o755)
    munge = [f"--{name}-file={room}/{file}" for name, file in [("key", "key"), ("pid", "pid"), ("log", "log"), ("seed", "seed")]]
    nodes = lambda: place.ran("sh", "-c", "sinfo -h -o %T 2>/dev/null || true")
    with contextlib.ExitStack() as daemons:
        begin = lambda is_up, *words: daemons.enter_context(daemon(place, f"{room}/{words[0]}.out", is_up, *words))
        begin(lambda: os.path.exists(f"{room}/munge"), "munged", "-F", f"--socket={room}/munge", *munge)
        begin(nodes, "slurmctld", "-D", "-c")
        begin(lambda: "idle" in nodes(), "slurmd", "-D")
        write(f"{room}/goals", place.make(folder, "-s", "list"))
        goal = f"$(sed -n ${{SLURM_ARRAY_TASK_ID}}p {room}/goals)"
        made = f"make -s -f {place.share}/kernels.mk KERNELS={place.kernels} OUT={folder} {goal}"
        place.ran("sbatch", "--wait", f"--array=1-{len(place.names())}", "-o", f"{room}/job%a", "--wrap", made)
    return place.expect_certificates(folder)


def of_layer(place, part):
    """A part of the layer's own tests, with what is laid down."""
    needs(cc="gcc", cxx="g++", make="make")
    place.needs_opencl()
    need(os.path.exists("/usr/include/CL/cl_layer.h"), "the header of layers", "opencl-c-headers")
    words = ["layer/test.py", f"{place.prefix}/lib/libkverify.a", f"{place.prefix}/bin/kverify", "--only", part, "--folder", f"{place.room}/layer"]
    text = place.ran(sys.executable, *words, folder=os.getcwd())
    counts = COUNTS.findall(text)
    expect(len(counts) == 1 and counts[0][1] == "0", "all of them pass", text)
    return int(counts[0][0])


def layer_is_laid_down(place):
    """The layer that is laid down looks at a program's launches."""
    place.needs_opencl()
    layer = f"{place.prefix}/lib/libkverify_layer.so"
    need(os.path.exists(layer), "the layer, which is laid down where it can be compiled", "gcc make opencl-c-headers")
    place.ran("cc", "-std=c11", "-D_DEFAULT_SOURCE", "-pthread", os.path.abspath("layer/tests/launches.c"), "-o", "launches", "-lOpenCL")
    more = {"OPENCL_LAYERS": layer, "KVERIFY_PROGRAM": f"{place.prefix}/bin/kverify", "KVERIFY_POLICY": "refuse"}
    text = place.ran("./launches", "fill", "race", **more)
    expect("fill: 0\nrace: -59\n" in text and "race confirmed" in text, "a data race is refused, and a safe launch is not", text)
    return 1


def layer_cases(place):
    """What each launch comes to under the layer."""
    return of_layer(place, "cases")


def layer_sanitizers(place):
    """The layer under the sanitizers of addresses and of threads."""
    return of_layer(place, "sanitizers")


def layer_allocations(place):
    """Each allocation of the layer fails in turn."""
    return of_layer(place, "allocations")


def layer_programs(place):
    """Real programs under the layer, as far as they are here."""
    return of_layer(place, "real")


TESTS = [laid_down, manual_page, completion, names_of_the_library, by_make, brought_certificate, by_pkg_config, limits]
TESTS += [host_in_c, host_in_cxx, host_in_python, examples_on_device, parameters_of_all_types]
TESTS += [by_ninja, by_cmake_and_make, by_parallel, by_slurm]
TESTS += [layer_is_laid_down, layer_cases, layer_sanitizers, layer_allocations, layer_programs]


def lay_down(place):
    """Lays all down, and moves it once: nothing of it may know where it was."""
    subprocess.run([sys.executable, "tools/install.py", f"{place.room}/first"], stdin=subprocess.DEVNULL, check=True)
    os.rename(f"{place.room}/first", place.prefix)
    shutil.copytree("hosts/tests", place.tests)


def ran(test, place):
    """Runs a test, and returns how many things passed, failed and were skipped, and a word on each."""
    try:
        passed = test(place)
        return passed, 0, 0, f"{passed} passed"
    except Missing as why:
        return 0, 0, 1, f"SKIPPED: it needs {why}"
    except (Wrong, OSError, subprocess.TimeoutExpired) as why:
        return 0, 1, 0, f"FAILED:\n{why}"


def main(names):
    unknown = set(names) - {it.__name__ for it in TESTS}
    if unknown:
        sys.exit(f"kverify: no tests are called {', '.join(sorted(unknown))}; there are {', '.join(it.__name__ for it in TESTS)}")
    if not os.path.isdir("crates/host/src"):
        sys.exit("kverify: this repository has no crate host, so there is nothing to test")
    counts = [0, 0, 0]
    with tempfile.TemporaryDirectory(prefix="kverify-hosts-") as room:
        place = Place(room)
        lay_down(place)
        for it in TESTS:
            if not names or it.__name__ in names:
                started = time.monotonic()
                *found, said = ran(it, place)
                counts = [sum(pair) for pair in zip(counts, found)]
                print(f"{it.__name__} ({time.monotonic() - started:.0f} s): {said}", flush=True)
    print(f"{counts[0]} passed, {counts[1]} failed, {counts[2]} skipped")
    return 1 if counts[1] or not counts[0] else 0


if __name__ == "__main__":
    try:
        sys.exit(main(sys.argv[1:]))
    except KeyboardInterrupt:
        sys.exit("kverify: broken off")
    except subprocess.CalledProcessError:
        sys.exit("kverify: nothing was laid down, so there is nothing to test")
