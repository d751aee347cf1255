#!/usr/bin/env python3
"""Says how many kernels of Debian's packages kverify reads, and what keeps the others out.

    real.py [--folder FOLDER] [--program PROGRAM] [--preprocess | --in-front] [--prove] [--out FILE] [--list FILE] [PACKAGE ..]
    real.py --kept [--workers N] [--folder FOLDER] [--program PROGRAM] [--out FILE] [--list FILE] [PACKAGE ..]
    real.py --draft SECONDS [--workers N] [--folder FOLDER] [--program PROGRAM] [PACKAGE ..]

The kernels are collected once, into FOLDER (/tmp/real): packages are taken by `apt-get download` and unpacked there; texts are files,
strings in libraries, and programs that the packages' own code builds while it runs against a library of OpenCL that runs nothing
(real/opencl.c). Macros that a host defines are in real/options.txt; `#include` lines are written out. A kernel counts where clang builds
it. Of piglit one kernel a file counts; elsewhere kernels with the same text count once.

Each kernel is given to PROGRAM with conditions that are made of its parameters. Their last line is wrong on purpose: a kernel that is
refused by it alone is read. With --preprocess clang expands the macros before; with --in-front what a host defines stands in front of the
text; without either the conditions have `define` lines. With --prove each kernel that is read is also proved, in ten processor seconds at
most, under conditions that relate nothing to anything. The tables go to the --out file too, each kernel with its answer to the --list
file, as JSON.

With --kept the kernels are proved for which real/kept has conditions, under these. With --draft conditions are drafted for kernels that
have none there, in so many processor seconds each, and put there; FOLDER/drafts has what was tried. Both have what a host defines in front.
"""
import argparse
import collections
import glob
import hashlib
import json
import os
import re
import resource
import shlex
import shutil
import signal
import subprocess
import sys
import tempfile
import time

# (no file is to appear beside this one)
sys.dont_write_bytecode = True
import real_kept

HERE = os.path.dirname(os.path.abspath(__file__))
ROOT = os.path.dirname(HERE)
PARTS = os.path.join(HERE, "real")
OPENCV = [f"libopencv-{it}406" for it in "core imgproc dnn video features2d photo objdetect calib3d contrib".split()]
# What is collected, the packages of Debian that it is of, and those that are wanted to get at it.
SOURCES = {
    "ViennaCL": ["libviennacl-dev", "opencl-c-headers"],
    "Boost.Compute": ["libboost1.74-dev", "opencl-c-headers"],
    "CLBlast": ["libclblast1", "libclblast-dev", "opencl-c-headers"],
    "PyOpenCL": ["python3-pyopencl", "python-pyopencl-doc", "opencl-c-headers", "python3-numpy", "libblas3", "liblapack3", "libgfortran5",
                 "libquadmath0", "python3-pytools", "python3-appdirs", "python3-platformdirs", "python3-mako", "python3-markupsafe",
                 "python3-decorator", "python3-typing-extensions"],
    "OpenCV": OPENCV,
    "GEGL": ["libgegl-0.4-0"],
    "darktable": ["darktable"],
    "silx": ["python3-silx"],
    "pyFAI": ["python3-pyfai", "python3-silx"],
    "piglit": ["piglit"],
}
CLANG = ["clang", "-x", "cl", "-cl-std=CL1.2", "-target", "spir64", "-w"]
# To build it knows the functions of OpenCL C; where it expands macros alone, it leaves the names of those as they are.
BUILDS = ["-fsyntax-only", "-ferror-limit=100", "-Xclang", "-fdeclare-opencl-builtins", "-Xclang", "-finclude-default-header"]
EXPANDS = ["-E", "-P", "-cl-no-stdinc", "-D__OPENCL_VERSION__=120", "-D__ENDIAN_LITTLE__=1"]
# A device of OpenCL 1.2 with what each has, and no more; or with all that there is.
LEAST = ["-Xclang", "-cl-ext=-all,+cl_khr_byte_addressable_store,+cl_khr_global_int32_base_atomics,+cl_khr_local_int32_base_atomics"
         ",+cl_khr_global_int32_extended_atomics,+cl_khr_local_int32_extended_atomics"]
LONG = "over ten seconds"
KERNEL = r"\b(?:__)?kernel\b"


def run(words, **more):
    return subprocess.run(words, stdin=subprocess.DEVNULL, capture_output=True, text=True, errors="replace", **more)


def read(path):
    with open(path, encoding="latin-1", newline="") as file:
        return file.read().replace("\r\n", "\n")


def write(path, text):
    os.makedirs(os.path.dirname(path), exist_ok=True)
    with open(path, "w", encoding="latin-1", newline="") as file:
        file.write(text)


# Packages and texts


def unpack(folder, packages):
    """Unpacks packages to a folder each, and downloads those that are not there."""
    downloads = os.path.join(folder, "debs")
    os.makedirs(downloads, exist_ok=True)
    for package in packages:
        to = os.path.join(folder, "packages", package)
        os.makedirs(os.path.dirname(to), exist_ok=True)
        if not os.path.isdir(to):
            if not glob.glob(os.path.join(downloads, package + "_*.deb")):
                print(f"download of {package}", file=sys.stderr)
                run(["apt-get", "download", package], cwd=downloads, check=True)
            run(["dpkg-deb", "-x", glob.glob(os.path.join(downloads, package + "_*.deb"))[0], to], check=True)


def strings(path):
    """The texts of OpenCL C among the strings of a library, in their order."""
    with open(path, "rb") as file:
        held = file.read()
    texts = [it.group().decode("latin-1") for it in re.finditer(rb"[\t\n\r\x20-\x7e\x80-\xff]{40,}(?=\0)", held)]
    return [it.replace("\r\n", "\n") for it in texts if re.search(KERNEL + r"[^;{}]*\bvoid\b", it)]


class Collection:
    """What is collected: its folder, and the folder of each package."""

    def __init__(self, folder):
        self.folder = folder

    def of(self, package, *parts):
        return os.path.join(self.folder, "packages", package, "usr", *parts)

    def programs(self, name, words, **variables):
        """The programs that are built while some command runs: options and text of each."""
        to = os.path.join(self.folder, "programs", name)
        shutil.rmtree(to, ignore_errors=True)
        os.makedirs(to)
        variables["LD_LIBRARY_PATH"] = ":".join([self.library(), *variables.get("LD_LIBRARY_PATH", [])])
        subprocess.run(words, env={**os.environ, **variables, "REAL_FOLDER": to}, timeout=600, stdin=subprocess.DEVNULL,
                       stdout=subprocess.DEVNULL, stderr=subprocess.DEVNULL, check=False)
        texts = [read(it).split("\n", 1) for it in sorted(glob.glob(os.path.join(to, "*.cl")))]
        return list(dict.fromkeys((options, text) for options, text in texts))

    def library(self):
        """The folder of the library of OpenCL that runs nothing, which is made where it is not there."""
        to = os.path.join(self.folder, "build")
        if not os.path.exists(os.path.join(to, "libOpenCL.so")):
            headers = self.of("opencl-c-headers", "include")
            names = {it for path in glob.glob(os.path.join(headers, "CL", "cl*.h"))
                     for it in re.findall(r"CL_API_CALL\s+(cl[A-Z]\w+)\s*\(", read(path))}
            rest = os.path.join(to, "rest.c")
            write(rest, "".join(f"__attribute__((weak)) long {it}(void) {{ return 0; }}\n" for it in sorted(names)))
            made = os.path.join(to, "libOpenCL.so.1")
            run(["gcc", "-w", "-shared", "-fPIC", "-O1", "-I", headers, "-Wl,-soname,libOpenCL.so.1", "-o", made,
                 os.path.join(PARTS, "opencl.c"), rest], check=True)
            os.symlink("libOpenCL.so.1", os.path.join(to, "libOpenCL.so"))
        return to

    def caller(self, name, *words):
        """A program of real/ that calls a package's code, which is made where it is not there."""
        made = os.path.join(self.library(), name)
        if not os.path.exists(made):
            run(["g++", "-w", "-O0", "-I", self.of("opencl-c-headers", "include"), os.path.join(PARTS, name + ".cpp"), "-o", made, *words,
                 "-L", self.library(), "-lOpenCL", "-Wl,--unresolved-symbols=ignore-all"], check=True)
        return made

    def texts(self, source):
        """What a source has: names, options of the host, and texts."""
        return [(f"{number:03}_{name}", options, text) for number, (name, options, text) in enumerate(getattr(self, source)())
                if re.search(KERNEL, text)]

    def viennacl(self):
        caller = self.caller("viennacl", "-I", self.of("libviennacl-dev", "include"))
        return [("program", *it) for it in self.programs("viennacl", [caller])]

    def boost_compute(self):
        caller = self.caller("boost_compute", "-I", self.of("libboost1.74-dev", "include"))
        found = [self.programs("boost_compute_" + it, [caller], REAL_DEVICE=it) for it in ("cpu", "gpu")]
        return [("program", *it) for it in dict.fromkeys(found[0] + found[1])]

    def clblast(self):
        libraries = self.of("libclblast1", "lib", "x86_64-linux-gnu")
        caller = self.caller("clblast", "-I", self.of("libclblast-dev", "include"), os.path.join(libraries, "libclblast.so.1"))
        found = self.programs("clblast", [caller], LD_LIBRARY_PATH=[libraries])
        return [("program", *it) for it in found if re.search(r"#define PRECISION (\d+)", it[1]).group(1) == "32"]

    def pyopencl(self):
        packages = [it for it in SOURCES["PyOpenCL"] if it.startswith("python3-")]
        modules = ":".join(self.of(it, "lib", "python3", "dist-packages") for it in packages)
        libraries = [self.of(it, "lib", "x86_64-linux-gnu", *more) for it, more in [
            ("libblas3", ["blas"]), ("liblapack3", ["lapack"]), ("libgfortran5", []), ("libquadmath0", [])]]
        found = self.programs("pyopencl", ["python3", os.path.join(PARTS, "pyopencl_programs.py")], PYTHONPATH=modules,
                              PYOPENCL_NO_CACHE="1", LD_LIBRARY_PATH=libraries)
        examples = []
        for path in sorted(glob.glob(self.of("python-pyopencl-doc", "share", "doc", "*", "examples", "*.py"))):
            for text in re.findall(r'"""(.*?)"""|\'\'\'(.*?)\'\'\'', read(path), re.S):
                text = "".join(text)
                if re.search(KERNEL + r"[^;{]*\bvoid\b", text) and not re.search(r"\{\{|\$\{|%\(|^\s*%", text, re.M):
                    examples.append((os.path.basename(path)[:-3], "", text))
        return [("program", *it) for it in found] + examples

    def libraries(self, packages):
        found = {}
        for package in packages:
            for path in sorted(glob.glob(self.of(package, "lib", "**", "*.so*"), recursive=True)):
                if not os.path.islink(path):
                    for text in strings(path):
                        found.setdefault(re.sub(r"\s+", " ", text), (re.sub(r"\..*", "", os.path.basename(path)), "", text))
        return list(found.values())

    def opencv(self):
        return self.libraries(OPENCV)

    def gegl(self):
        return self.libraries(["libgegl-0.4-0"])

    def files(self, pattern):
        return [(os.path.basename(it)[:-3], "", read(it)) for it in sorted(glob.glob(pattern, recursive=True))
                if re.search(KERNEL, read(it))]

    def darktable(self):
        return self.files(self.of("darktable", "share", "darktable", "kernels", "*.cl"))

    def silx(self):
        return self.files(self.of("python3-silx", "lib", "python3", "dist-packages", "silx", "resources", "opencl", "**", "*.cl"))

    def pyfai(self):
        return self.files(self.of("python3-pyfai", "lib", "python3", "dist-packages", "pyFAI", "resources", "openCL", "*.cl"))

    def piglit(self):
        texts = []
        for name, options, text in self.files(self.of("piglit", "lib", "x86_64-linux-gnu", "piglit", "tests", "cl", "program", "execute",
                                                      "**", "*.cl")):
            told = re.search(r"^\s*build_options:(.*)", text, re.M)
            texts.append((name, told.group(1).strip() if told else "", text))
        return texts

    def folders(self, source):
        """Where `#include` looks."""
        return {"darktable": [self.of("darktable", "share", "darktable", "kernels")],
                "silx": [self.of("python3-silx", "lib", "python3", "dist-packages", "silx", "resources", "opencl")],
                "pyfai": [self.of("python3-pyfai", "lib", "python3", "dist-packages", "pyFAI", "resources", "openCL"),
                          self.of("python3-silx", "lib", "python3", "dist-packages", "silx", "resources", "opencl")],
                "pyopencl": [self.of("python3-pyopencl", "lib", "python3", "dist-packages", "pyopencl", "cl")],
                "piglit": [self.of("piglit", "lib", "x86_64-linux-gnu", "piglit", "tests", "cl", "program", "execute")]}.get(source, [])


# Options of hosts


def host_options():
    """The lines of real/options.txt: of each, which source, which kernel has to be in the text, and what is defined or put before."""
    lines = [shlex.split(it, comments=True) for it in read(os.path.join(PARTS, "options.txt")).splitlines()]
    return [(it[0], it[1], it[2:]) for it in lines if it]


def with_includes(text, folders, once=None):
    """A text with the files of its `#include` lines in their place; what is not found is left out."""
    once = set() if once is None else once

    def put(found):
        for folder in folders:
            path = os.path.join(folder, found.group(1))
            if os.path.exists(path):
                held = "" if path in once else read(path)
                if re.search(r"^[ \t]*#[ \t]*pragma[ \t]+once\b", held, re.M):
                    once.add(path)
                return with_includes(held, folders, once) + "\n"
        return ""
    return re.sub(r'^[ \t]*#[ \t]*include[ \t]*["<]([^">]*)[">].*$', put, text, flags=re.M)


def builds(defines, text, path):
    """What clang says of a text with definitions: nothing, or its errors; and whether it wants more than a least device has."""
    write(path, text)
    words = [*CLANG, *BUILDS, *defines, path]
    for more in (LEAST, []):
        told = run([*words, *more])
        if told.returncode == 0:
            return None, more
    return told.stderr, []


def settle(source, name, options, text, table, folders, path):
    """The definitions with which clang builds a text, the text with what is put before it, and what else clang is told; or its errors."""
    defines = []
    words = shlex.split(options)
    for at, word in enumerate(words):
        if word == "-D" and at + 1 < len(words):
            defines.append(words[at + 1])
        elif word.startswith("-D") and word != "-D":
            defines.append(word[2:])
    natural = {}
    for of, kernel, given in table:
        if of == source and kernel == "?":
            natural.update((it.split("=")[0], it) for it in given)
        elif of == source and (kernel == "*" or re.search(rf"\b{re.escape(kernel)}\b", text)):
            defines += [it for it in given if not it.startswith("<")]
            text = "".join(f'#include "{it[1:]}"\n' for it in given if it.startswith("<") and it[1:] != name[4:] + ".cl") + text
    text = with_includes(text, folders)
    for _ in range(12):
        faults, more = builds(["-D" + it for it in defines], text, path)
        if faults is None:
            return defines, text, more, None
        wanted = re.findall(r"(?:use of undeclared identifier|unknown type name|implicit declaration of function) '(\w+)'", faults)
        wanted = [natural[it] for it in dict.fromkeys(wanted) if it in natural and natural[it] not in defines]
        if not wanted:
            break
        defines += wanted
    return defines, text, more, [it for it in faults.splitlines() if "error:" in it][:4]


# Kernels


def walk(node):
    yield node
    for inner in node.get("inner") or []:
        if inner:
            yield from walk(inner)


def type_of(node):
    of = node.get("type", {})
    return of.get("desugaredQualType", of.get("qualType", ""))


def place_of(location):
    """Where a place of clang's tree is in the text: its offset, or none. Of what a macro gives, it is where the macro stands."""
    return location.get("expansionLoc", location).get("offset")


def tree_of(words, path):
    """What a text declares, as clang reads it, without what clang's own header declares."""
    told = run([*words, *BUILDS, "-Xclang", "-ast-dump=json", path])
    return [it for it in json.loads(told.stdout)["inner"]
            if place_of(it["loc"]) is not None and "includedFrom" not in it["loc"].get("expansionLoc", it["loc"])]


def functions_of(declared):
    return {it["name"]: it for it in declared
            if it["kind"] == "FunctionDecl" and any(inner["kind"] == "CompoundStmt" for inner in it.get("inner", []))}


def kernels_of(words, expanded, path):
    """The kernels of a text that clang builds: of each its name, parameters, local size, and whether it has images or atomics."""
    functions = functions_of(tree_of(words, path))
    called, special = {}, {}
    for name, function in functions.items():
        calls, found = set(), set()
        for node in walk(function):
            to = node.get("referencedDecl", {})
            if to.get("kind") == "FunctionDecl":
                calls.add(to["name"])
                if re.match("atomic_|atom_", to["name"]):
                    found.add("atomics")
            if node["kind"] in ("ParmVarDecl", "VarDecl") and re.search(r"\bimage[123]d|\bsampler_t", type_of(node)):
                found.add("images")
        called[name], special[name] = calls, found
    kernels = []
    for name, function in functions.items():
        if not any(it["kind"] == "OpenCLKernelAttr" for it in function["inner"]):
            continue
        reached, waiting = set(), [name]
        while waiting:
            at = waiting.pop()
            if at in functions and at not in reached:
                reached.add(at)
                waiting += called[at]
        parameters = [(it.get("name", ""), type_of(it)) for it in function["inner"] if it["kind"] == "ParmVarDecl"]
        ids = {it for at in reached for it in dimensions(functions[at])}
        size = re.search(r"reqd_work_group_size\s*\(\s*(\d+)\s*,\s*(\d+)\s*,\s*(\d+)\s*\)[^;{}]*?\b" + re.escape(name) + r"\s*\(", expanded)
        kernels.append({"name": name, "parameters": parameters, "special": sorted(set().union(*(special[it] for it in reached))),
                        "size": [int(it) for it in size.groups()] if size else None, "dimensions": max(ids, default=0) + 1})
    return kernels


def body_of(text, name):
    """The text of a kernel with this name: from its name to the end of its body."""
    found = re.search(r"\b" + re.escape(name) + r"\s*\(", text)
    start = at = found.start() if found else 0
    opened = 0
    while at < len(text):
        opened += (text[at] == "{") - (text[at] == "}")
        at += 1
        if opened == 0 and text[at - 1] == "}":
            break
    return re.sub(r"\s+", " ", text[start:at])


def dimensions(function):
    """The dimensions of which a function asks ids."""
    for node in walk(function):
        inner = node.get("inner") or []
        if node["kind"] == "CallExpr" and len(inner) == 2:
            names = {it.get("referencedDecl", {}).get("name", "") for it in walk(inner[0])}
            if names & {"get_global_id", "get_local_id", "get_group_id"}:
                yield from (int(it["value"]) for it in walk(inner[1]) if it["kind"] == "IntegerLiteral" and int(it["value"]) < 3)


RANGES = {"char": "1..64", "unsigned char": "1..64", "short": "1..64", "unsigned short": "1..64", "int": "1..64", "unsigned int": "1..64"}


def conditions(kernel, defines, budget):
    """Conditions that relate nothing to anything. Words of floats are any."""
    sizes = {1: [64, 1, 1], 2: [8, 8, 1], 3: [4, 4, 4]}
    size = kernel["size"] or sizes[kernel["dimensions"]]
    head = ["conditions 3", "kernel " + kernel["name"]]
    head += ["define " + line_of(it) for it in defines]
    head += [] if kernel["size"] else ["local_size %d %d %d" % tuple(size)]
    groups = "groups " + " ".join("1..16" if kernel["dimensions"] > at else "1..1" for at in range(3))
    locals_, arguments, lengths = [], [], []
    for name, of in kernel["parameters"]:
        if "*" in of:
            if "__local" in of:
                locals_.append(f"local {name} 1024")
            else:
                lengths.append(f"length {name} >= 4000000000")
        else:
            arguments.append(f"arg {name} {RANGES.get(re.sub('const |volatile |__private ', '', of), '0..4294967295')}")
    return "\n".join([*head, *locals_, groups, *arguments, *lengths, f"budget {budget}"]) + "\n"


def collect(folder, sources):
    """Collects what is not collected yet: of each source a list of its texts with their kernels, and what did not build."""
    collection, table = Collection(folder), host_options()
    for source in sources:
        key = re.sub(r"\W", "_", source.lower())
        to = os.path.join(folder, "kernels", key)
        if os.path.exists(os.path.join(to, "index.json")):
            continue
        print(f"collecting {source}", file=sys.stderr)
        shutil.rmtree(to, ignore_errors=True)
        unpack(folder, SOURCES[source])
        texts, seen = [], set()
        for name, options, text in collection.texts(key):
            path = os.path.join(to, name + ".cl")
            defines, text, more, faults = settle(key, name, options, text, table, collection.folders(key), path)
            words = [*CLANG, *more, *["-D" + it for it in defines]]
            row = {"name": name, "defines": defines, "more": more, "faults": faults, "kernels": []}
            if faults is None:
                expanded = re.sub(r"^[ \t]*#.*\n", "", run([*words, *EXPANDS, path]).stdout, flags=re.M)
                write(os.path.join(to, name + ".expanded.cl"), expanded)
                for kernel in kernels_of(words, expanded, path):
                    body = hashlib.sha256(body_of(expanded, kernel["name"]).encode()).hexdigest()
                    if body not in seen and not (source == "piglit" and row["kernels"]):
                        seen.add(body)
                        row["kernels"].append(kernel)
            else:
                row["kernels_named"] = len(set(re.findall(KERNEL + r"[^;{}()]*(?:\([^;{}]*\))*[^;{}()]*\bvoid\s+(\w+)", text)))
            texts.append(row)
        write(os.path.join(to, "index.json"), json.dumps(texts, indent=1))


def answer(program, command, text, told, folder, seconds):
    """The first line that the program says of a kernel under conditions, or None where it takes more processor seconds."""
    paths = [os.path.join(folder, "kernel.cl"), os.path.join(folder, "kernel.conditions")]
    write(paths[0], text)
    write(paths[1], told)
    try:
        said = run([program, command, *paths, "--wide", "--opencl", "--devices", "any"], timeout=3 * seconds,
                   preexec_fn=lambda: resource.setrlimit(resource.RLIMIT_CPU, (seconds, seconds)))
    except subprocess.TimeoutExpired:
        return None
    if said.returncode in (-signal.SIGXCPU, -signal.SIGKILL):
        return None
    return (said.stdout.splitlines() or [f"status {said.returncode} {said.stderr.strip()}"])[0]


def index_of(folder, source):
    """What is known of the texts of a source, and the folder that they are in."""
    to = os.path.join(folder, "kernels", re.sub(r"\W", "_", source.lower()))
    return json.loads(read(os.path.join(to, "index.json"))), to


def texts_given(words, source):
    """Of each text of a source that clang builds: what is known of it, the text as it is given, and what its conditions define."""
    texts, to = index_of(words.folder, source)
    for row in texts:
        if row["faults"] is None:
            text = read(os.path.join(to, row["name"] + (".expanded.cl" if words.preprocess else ".cl")))
            defines = [] if words.preprocess else row["defines"]
            # (what no `define` line can say stands in front of the text, or all does)
            in_front = [it for it in defines if words.in_front or not is_line(it)]
            text = "".join(f"#define {(it if '=' in it else it + '=1').replace('=', ' ', 1)}\n" for it in in_front) + text
            yield row, text, [it for it in defines if it not in in_front]


def plain_kernels(words, source):
    """The kernels of a source that have no images and atomics, as they are given, with the sums of their texts."""
    to = index_of(words.folder, source)[1]
    for row, text, _ in texts_given(words, source):
        expanded = read(os.path.join(to, row["name"] + ".expanded.cl"))
        for kernel in row["kernels"]:
            if not kernel["special"]:
                yield real_kept.Given(source, kernel, body_of(expanded, kernel["name"]), text)


def measure(words, source):
    """Of each kernel of a source that has no images and atomics: its name, what is said of it, and the construct that keeps it out."""
    rows = []
    for row, text, defines in texts_given(words, source):
        declared = None
        for kernel in row["kernels"]:
            if kernel["special"]:
                continue
            told = conditions(kernel, defines, 0)
            said = answer(words.program, "explain", text, told, words.scratch, 60) or "takes over 60 seconds"
            number = int(said.split()[1]) if re.match(r"refused \d+", said) else 0
            # (the conditions are read behind the kernel, and their last line is wrong)
            is_read = 30 <= number <= 34 and int(said.split()[2]) > head_lines(told)
            why, place, wanted = "", "", []
            if not is_read:
                given = os.path.join(words.scratch, "kernel.cl")
                declared = declared or tree_of([*CLANG, *row["more"], *["-D" + it for it in defines]], given)
                why, place = reason(text, said, declared)
                # (what stands in another function of the file may keep it out, too)
                wanted = needs(kernel["name"], declared) or [why.split(": ", 1)[-1]]
                wanted += [it for it in ("`long` and `ulong`", "`half`") if it in why and it not in wanted]
            proved = None
            if is_read and words.prove:
                proved = answer(words.program, "prove", text, conditions(kernel, defines, 10 ** 12), words.scratch, 10) or LONG
            rows.append({"text": row["name"], "kernel": kernel["name"], "said": said, "read": is_read, "why": why, "place": place,
                         "needs": wanted, "proved": proved})
    return rows


def is_line(define):
    """Whether conditions can say a definition."""
    return re.fullmatch(r"[A-Za-z_][ -~]*", define) is not None and len(line_of(define)) <= 255


def line_of(define):
    """A definition as a line of conditions has it behind its first word. What is no name alone stands for 1, too, where nothing is said."""
    return define.replace("=", " ", 1) if "=" in define or re.fullmatch(r"\w+", define) else define + " 1"


def head_lines(told):
    """How many lines of conditions come before those that are read behind the kernel."""
    return next(at for at, line in enumerate(told.splitlines()) if line.startswith("groups"))


TOKEN = r"\.?\d(?:[\w.]|[eE][-+])*|\w+|<<=|>>=|[-+*/%&|^=!<>]=|->|\+\+|--|<<|>>|&&|\|\||."


def chain_at(nodes, offset):
    """The nodes of a tree that have a place, from the outermost to the innermost. Of declarators the one whose name stands there."""
    chain = []
    while nodes:
        around = []
        for node in nodes:
            begin, end = node.get("range", {}).get("begin", {}), node.get("range", {}).get("end", {})
            first, last = place_of(begin), place_of(end)
            if first is not None and last is not None:
                if first <= offset < last + max(1, end.get("expansionLoc", end).get("tokLen", 1)):
                    around.append(node)
        if not around:
            return chain
        exact = [it for it in around if place_of(it.get("loc", {})) == offset]
        chain.append((exact or around)[0])
        nodes = [it for it in chain[-1].get("inner") or [] if it]
    return chain


VECTOR = r"ext_vector_type|\b(?:u?(?:char|short|int|long)|float|half|double)(?:2|3|4|8|16)\b"


def told_type(of):
    """What a type has that may keep a kernel out, the gravest first."""
    for pattern, told in [(r"\bstruct\b|\bunion\b", "structures and unions"), (VECTOR, "vectors"), (r"\bdouble\b", "`double`"),
                          (r"\bhalf\b", "`half`"), (r"\bu?long\b", "`long` and `ulong`"), (r"\*", "pointers"), (r"\[", "private arrays")]:
        if re.search(pattern, of):
            return told
    return None


def resolved(of, declared):
    """A type, with the types in it that the file names in their places."""
    named = {it["name"]: type_of(it) for it in declared if it["kind"] == "TypedefDecl"}
    for _ in range(4):
        of = re.sub(r"\w+", lambda found: named.get(found.group(), found.group()), of)
    return of


def reason(text, said, declared):
    """What keeps a kernel out: the number of its refusal and the construct at its place; and that place."""
    found = re.match(r"refused (\d+)(?: (\d+):(\d+))?$", said)
    if not found or not found.group(2):
        return said, ""
    number, line, column = found.group(1), int(found.group(2)), int(found.group(3))
    lines = text.split("\n")
    offset = sum(len(it) + 1 for it in lines[:line - 1]) + column - 1
    held = lines[line - 1]
    token = (re.match(TOKEN, held[column - 1:], re.S) or re.match("", "")).group()
    place = held[max(0, column - 41):column - 1] + ">>>" + token + "<<<" + held[column - 1 + len(token):column + 40]
    return f"{number}: {construct(number, token, offset, declared, held[column - 1:])}", place


def construct(number, token, offset, declared, behind):
    if number == "29":
        return "a variable that may be read before it is set"
    if number in ("1", "13"):
        return "the preprocessor" if token == "#" else "a byte that begins no token"
    chain = chain_at(declared, offset)
    inner = chain[-1] if chain else {"kind": "", "type": {}}
    of = type_of(inner)
    if number == "10":
        if inner["kind"] in ("ParmVarDecl", "VarDecl", "DeclStmt", "FunctionDecl") and re.match(r"\(|\w", token):
            return "a declaration that is not known (`T (*p)[6]`, a type that the file names)"
        return f"`{token}`, where the grammar has something else"
    if number == "35":
        return "several work-group sizes, or a kernel's name twice"
    if number not in ("15", "22"):
        return f"`{token}`"
    if inner["kind"] in ("ParmVarDecl", "VarDecl", "FieldDecl", "TypedefDecl"):
        of = resolved(of, declared)
        what = told_type(of)
        if what == "vectors" and inner["kind"] == "ParmVarDecl":
            return "vectors: a buffer of them" if "*" in of else "vectors: a value parameter"
        if what == "vectors":
            return "vectors: a variable or array"
        if what == "private arrays" and "__local" in of:
            return "`__local` arrays with a first value"
        if what == "pointers":
            return "pointers: a variable" if inner["kind"] == "VarDecl" else "a parameter whose type the file names"
        if what is None and re.search(r"__local\b", of):
            return "`__local` variables that are no arrays"
        if what or inner["kind"] == "ParmVarDecl":
            return what or "a parameter whose type the file names"
    names = {it["name"] for it in declared if it["kind"] == "FunctionDecl"}
    if token in names and re.match(r"\w+\s*\(", behind):
        return "a call of the file's own function"
    if token in ("switch", "goto", "struct", "union", "continue", "asm", "__asm"):
        return "structures and unions" if token in ("struct", "union") else f"`{token}`"
    if token in ("++", "--", "=") or re.fullmatch(r"(<<|>>|[-+*/%&|^])=", token):
        if number == "22" or "*" in of:
            return "pointers: one that moves (`p += n`, `p++`)"
        return "an assignment or a step whose value is used (`a[i++]`, `x = y = 0`)"
    if token == "{":
        return "lists in braces"
    if token == ",":
        return "a comma whose value is used"
    if any(place_of(it["range"]["begin"]) == offset and around["kind"] in ("CompoundStmt", "ForStmt", "IfStmt", "WhileStmt")
           for around, it in zip(chain, chain[1:]) if it["kind"].endswith("Expr")) and token not in names:
        return "an expression without effect as a statement (`for (i; ..)`, `f(x);`)"
    if re.fullmatch(r"[\d.]+([eE][-+]?\d+)?[hH]", token):
        return "`half`"
    if re.fullmatch(r"(0[xX][0-9a-fA-F]+|\d+)[uU]?[lL]+[uU]?", token) or token in ("long", "ulong"):
        return "`long` and `ulong`"
    if token in ("double", "half"):
        return f"`{token}`"
    to = inner.get("referencedDecl", {})
    if to.get("kind") == "EnumConstantDecl":
        return "enumerations of the file"
    if to.get("kind") == "VarDecl" and any(it.get("id") == to.get("id") for it in declared):
        return "tables of the file" if "[" in type_of(to) else "constants of the file"
    if inner["kind"] == "UnaryOperator" and token in ("*", "&"):
        return f"pointers: `{token}p`" if token == "*" else "pointers: `&x`"
    if any(it["kind"] == "UnaryOperator" and it.get("opcode") == "*" for it in chain[-3:]) and "*" in of:
        return "pointers: `*p`"
    if "*" in of or "[" in of:
        outer = [it["kind"] for it in chain[-4:]]
        if "CStyleCastExpr" in outer or inner["kind"] == "CStyleCastExpr":
            return "pointers: a cast"
        if number == "22":
            return "pointers: one that moves (`p += n`, `p++`)"
        return "pointers: arithmetic (`a + i`)" if "BinaryOperator" in outer else "pointers: another use of an array's name"
    called = {node.get("referencedDecl", {}).get("name", "") for it in chain[-3:] if it["kind"] == "CallExpr" for node in walk(it)} - {""}
    what = next((told_type(type_of(it)) for it in reversed(chain) if it["kind"] not in ("FunctionDecl", "CompoundStmt") and
                 told_type(type_of(it))), None)
    if what:
        return "vectors: another use" if what == "vectors" else what
    if called and re.match(r"\w+\s*\(", behind):
        return f"the function `{token}`"
    return f"`{token}`" + (" (a wrong type)" if number == "22" else "")


# What is told of a kernel as a whole: which of these its text and that of the functions that it calls has.
def needs(name, declared):
    """The constructs of a kernel, and of what it calls, that may keep it out."""
    functions, found, waiting, reached = functions_of(declared), set(), [name], set()
    globals_ = {it["id"] for it in declared if it["kind"] == "VarDecl"}
    while waiting:
        at = waiting.pop()
        if at in functions and at not in reached:
            reached.add(at)
            for node, outer in with_outer(functions[at]):
                to = node.get("referencedDecl", {})
                if to.get("kind") == "FunctionDecl" and to["name"] in functions:
                    found.add("calls of the file's own functions")
                    waiting.append(to["name"])
                found |= set(needs_of(node, outer, declared, at == name, globals_))
    return sorted(found)


def with_outer(node, outer=()):
    yield node, outer
    for inner in node.get("inner") or []:
        if inner:
            yield from with_outer(inner, (*outer[-3:], node))


def needs_of(node, outer, declared, is_kernel, globals_):
    kind, of = node["kind"], resolved(node.get("type", {}).get("qualType", ""), declared)
    if re.search(VECTOR, of):
        yield "vectors"
    if kind in ("VarDecl", "ParmVarDecl", "CStyleCastExpr") or kind == "IntegerLiteral" and "long" in of:
        yield from (it for it in [told_type(of)] if it in ("`long` and `ulong`", "`double`", "`half`", "structures and unions"))
    if kind == "VarDecl" and not re.search(r"__local\b|__constant\b", of) and "[" in of:
        yield "private arrays"
    if kind == "VarDecl" and re.search(r"__local\b", of) and not re.search(r"[*\[]", of):
        yield "`__local` variables that are no arrays"
    if kind == "VarDecl" and "*" in of or kind == "UnaryOperator" and node.get("opcode") in ("*", "&"):
        yield "pointers"
    if kind in ("BinaryOperator", "CompoundAssignOperator", "UnaryOperator") and re.search(r"\*\s*(__private)?$", of):
        yield "pointers"
    if kind == "CStyleCastExpr" and "*" in of and "*" in type_of(node["inner"][-1]):
        yield "casts of pointers"
    if kind == "ParmVarDecl" and is_kernel and node["type"]["qualType"] != of and not re.search(VECTOR, of):
        if any(it["kind"] == "TypedefDecl" and re.search(rf"\b{re.escape(it['name'])}\b", node["type"]["qualType"]) for it in declared):
            yield "parameters whose type the file names"
    if kind in ("SwitchStmt", "GotoStmt"):
        yield "`switch`" if kind == "SwitchStmt" else "`goto`"
    if kind == "DeclRefExpr" and node.get("referencedDecl", {}).get("id") in globals_:
        yield "constants and tables of the file"
    is_change = kind == "CompoundAssignOperator" or kind == "BinaryOperator" and node.get("opcode") == "="
    if is_change or kind == "UnaryOperator" and node.get("opcode") in ("++", "--"):
        if outer and outer[-1]["kind"] in ("ImplicitCastExpr", "ArraySubscriptExpr", "BinaryOperator", "CallExpr", "VarDecl", "ParenExpr",
                                           "CompoundAssignOperator", "CStyleCastExpr", "ReturnStmt", "UnaryOperator"):
            if outer[-1].get("opcode") != ",":
                yield "assignments and steps whose value is used"


def table(rows):
    """Rows of cells as Markdown; the first one is the head."""
    lines = ["| " + " | ".join(map(str, it)) + " |" for it in rows]
    return "\n".join([lines[0], "|" + "---|" * len(rows[0]), *lines[1:]]) + "\n"


def tables(words, measured):
    """The table of sources, and that of what keeps kernels out."""
    head = ["Source", "Kernels", "Not built", "Without images and atomics", "Read", "Of 100", *(["Accepted"] if words.prove else [])]
    lines, whole = [head], collections.Counter()
    for source, rows in measured.items():
        texts, _ = index_of(words.folder, source)
        counts = collections.Counter(kernels=sum(len(it["kernels"]) for it in texts), left=sum(it.get("kernels_named", 0) for it in texts),
                                     plain=len(rows), read=sum(it["read"] for it in rows),
                                     proved=sum(it["proved"] == "accepted" for it in rows))
        whole += counts
        lines.append((source, counts))
    for at, (source, counts) in enumerate([*lines[1:], ("all", whole)], 1):
        cells = [source, *(counts[it] for it in ("kernels", "left", "plain", "read"))]
        cells.append(round(100 * counts["read"] / max(1, counts["plain"])))
        lines[at:at + 1] = [cells + ([counts["proved"]] if words.prove else [])]
    kept = collections.Counter(it["why"] for rows in measured.values() for it in rows if not it["read"])
    outs = [["Refusal and construct", "all", *measured]]
    for why, count in kept.most_common():
        outs.append([why, count, *(sum(it["why"] == why for it in rows) or "·" for rows in measured.values())])
    told = table(lines) + "\n" + table(outs) + "\n" + table(needs_table(measured))
    if words.prove:
        answers = collections.Counter(it["proved"] if it["proved"] == LONG else " ".join(it["proved"].split()[:2])
                                      for rows in measured.values() for it in rows if it["read"])
        told += "\n" + table([["Answer of `prove`", "Kernels"], *answers.most_common()])
    return told


def needs_table(measured):
    """Of the kernels that are not read: how many have a construct, and how many no other; and which constructs let most in, one by one."""
    out = [set(it["needs"]) for rows in measured.values() for it in rows if not it["read"]]
    lines = [["Construct", "In kernels that are not read", "Alone in", "Read with it and all above"]]
    left, known = set().union(*out), set()
    while left:
        best = max(sorted(left), key=lambda it: (sum(one <= known | {it} for one in out), sum(it in one for one in out)))
        left.remove(best)
        known.add(best)
        lines.append([best, sum(best in it for it in out), sum(it == {best} for it in out), sum(it <= known for it in out)])
    return lines


def of_kept(words, sources):
    """Drafts conditions for kernels that have none, or proves those that have some."""
    words.in_front = True
    kernels = [it for source in sources for it in plain_kernels(words, source)]
    if words.draft:
        real_kept.drafted(words, kernels)
        return 0
    found = real_kept.proved(words, kernels)
    if words.list:
        write(words.list, json.dumps(found, indent=1))
    told = table(real_kept.rows_of(found))
    if words.out:
        write(words.out, told)
    print(told)
    return 0


def main():
    parser = argparse.ArgumentParser(usage=__doc__)
    parser.add_argument("--folder", default="/tmp/real")
    parser.add_argument("--program", default=os.path.join(ROOT, "crates", "kverify", "out", "unproved", "kverify"))
    parser.add_argument("--preprocess", action="store_true")
    parser.add_argument("--in-front", action="store_true")
    parser.add_argument("--prove", action="store_true")
    parser.add_argument("--kept", action="store_true")
    parser.add_argument("--draft", type=int, metavar="SECONDS")
    parser.add_argument("--workers", type=int, default=1)
    parser.add_argument("--out")
    parser.add_argument("--list")
    parser.add_argument("packages", nargs="*", default=[])
    words = parser.parse_args()
    sources = words.packages or list(SOURCES)
    collect(words.folder, sources)
    if words.draft or words.kept:
        return of_kept(words, sources)
    measured = {}
    with tempfile.TemporaryDirectory() as words.scratch:
        for it in sources:
            start = time.time()
            measured[it] = measure(words, it)
            rows = measured[it]
            print(f"{it}: {len(rows)} kernels, {sum(row['read'] for row in rows)} read, {sum(row['proved'] == 'accepted' for row in rows)} "
                  f"accepted, in {time.time() - start:.0f} s", file=sys.stderr)
    told = tables(words, measured)
    if words.list:
        write(words.list, json.dumps(measured, indent=1))
    if words.out:
        write(words.out, told)
    print(told)
    return 0


if __name__ == "__main__":
    sys.exit(main())
