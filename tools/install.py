#!/usr/bin/env python3
"""Lays kverify down below a folder: the program, the library for hosts with its header files, and what builds use.

usage: tools/install.py PREFIX, at the top of the repository; `../kverify install PREFIX` calls it.

A program or a library that a record names, and the sources that are there now, is taken as proved (build.py, prove_library.py); else one is
compiled without proofs (compile.py, compile_library.py), and that is said here, by `kverify --version` there, and by CMake's find_package.
Of the library's handles, which are C (hosts/src), nothing is ever proved; that is said where the library is. To make the library needs a C
compiler (`cc`), and so do the shared library, for Python, and the layer of OpenCL, which is C (layer/); what cannot be made is left out, and
that is said.
What is laid down looks for nothing outside PREFIX, which may be moved.
"""
import contextlib
import os
import re
import shutil
import subprocess
import sys
import tempfile

# (no file is to appear beside this one)
sys.dont_write_bytecode = True
import records

PROGRAM, LIBRARY = "crates/kverify/out", "crates/host/out"
SHARED, LAYER = "libkverify.so.1", "libkverify_layer.so"
# What a proved library has besides.
UNPROVED_HANDLES = "kv_open, kv_allows and kv_close, which are C"
# Where the files of hosts/ go below the prefix; a folder's files go into a folder.
PLACES = {
    "include": "include",
    "cmake": "lib/cmake/kverify",
    "python/kverify": "share/kverify/python/kverify",
    "prove.sh": "share/kverify/prove.sh",
    "embed.sh": "share/kverify/embed.sh",
    "kernels.mk": "share/kverify/kernels.mk",
    "words.sh": "share/kverify/words.sh",
    "help": "share/kverify/help",
    "kverify.1": "share/man/man1/kverify.1",
    "kverify.bash": "share/bash-completion/completions/kverify",
}
# What proposes conditions goes into one folder.
DRAFT = ["draft.py", "draft_conditions.py", "draft_kernels.py", "draft_prover.py", "draft_search.py"]


def say(text):
    print(f"kverify: {text}", file=sys.stderr, flush=True)


def text_of(path):
    with open(path, encoding="utf-8") as file:
        return file.read()


def call(*words):
    if subprocess.run([sys.executable, *words], stdin=subprocess.DEVNULL).returncode:
        sys.exit(f"kverify: {words[0]} ended without success, and nothing is laid down")


def is_proved(folder):
    return records.is_of_record(f"{folder}/rlib/proved/record")


def program():
    """The program, and whether it is proved."""
    if is_proved(PROGRAM):
        return f"{PROGRAM}/kverify", True
    call("tools/compile.py", "kverify")
    if os.path.isdir(f"{PROGRAM}/unproved/module"):
        say("optimizing the program: some minutes")
        call("tools/compile.py", "kverify", "optimize")
    return f"{PROGRAM}/unproved/kverify", False


def library():
    """The library, and whether it is proved."""
    if is_proved(LIBRARY):
        return f"{LIBRARY}/rlib/proved/libkverify.a", True
    call("tools/compile_library.py")
    return f"{LIBRARY}/unproved/libkverify.a", False


class Prefix:
    def __init__(self, folder):
        self.folder = folder

    def put(self, source, place, mode=0o644):
        """Puts a file in place, whole: what runs there meanwhile stays as it is."""
        path = f"{self.folder}/{place}"
        os.makedirs(os.path.dirname(path), exist_ok=True)
        shutil.copyfile(source, f"{path}.new")
        os.chmod(f"{path}.new", mode)
        os.replace(f"{path}.new", path)

    def write(self, text, place):
        path = f"{self.folder}/{place}"
        os.makedirs(os.path.dirname(path), exist_ok=True)
        records.write_whole(path, text)

    def put_hosts(self):
        for source, place in PLACES.items():
            if os.path.isdir(f"hosts/{source}"):
                for name in (it for it in os.listdir(f"hosts/{source}") if not it.startswith("__pycache__")):
                    self.put(f"hosts/{source}/{name}", f"{place}/{name}")
            else:
                self.put(f"hosts/{source}", place)
        for name in DRAFT:
            self.put(f"tools/{name}", f"share/kverify/draft/{name}")
        version = re.search(r"KV_VERSION (\d+)u", text_of("hosts/include/kverify.h")).group(1)
        for source, place in [("kverify.pc.in", "pkgconfig/kverify.pc"), ("version.cmake.in", "cmake/kverify/kverifyConfigVersion.cmake")]:
            self.write(text_of(f"hosts/{source}").replace("@VERSION@", version), f"lib/{place}")

    def link_shared(self):
        """Makes the shared library of the static one, and returns whether it could."""
        made = f"{self.folder}/lib/{SHARED}"
        with contextlib.suppress(FileNotFoundError):
            os.remove(made)
        words = ["-shared", "-o", f"{made}.new", "-Wl,--whole-archive", f"{self.folder}/lib/libkverify.a", "-Wl,--no-whole-archive"]
        words += ["-Wl,--version-script=hosts/kverify.map", "-Wl,-z,defs", "-Wl,--gc-sections", f"-Wl,-soname,{SHARED}"]
        if not shutil.which("cc") or subprocess.run(["cc", *words], stdin=subprocess.DEVNULL).returncode:
            return False
        os.replace(f"{made}.new", made)
        return True


    def put_layer(self):
        """Makes the layer, and returns whether it could: it needs cc, make and the header of layers. Nothing is proved of it."""
        library = f"{self.folder}/lib/libkverify.a"
        with tempfile.TemporaryDirectory(prefix="kverify-layer-") as room:
            words = ["make", "-s", "-C", "layer", f"OUT={room}", f"KVERIFY_LIBRARY={library}"]
            how = {"stdin": subprocess.DEVNULL, "stdout": subprocess.DEVNULL, "stderr": subprocess.DEVNULL}
            if not shutil.which("make") or subprocess.run(words, **how).returncode:
                return False
            self.put(f"{room}/{LAYER}", f"lib/{LAYER}", 0o755)
        return True


def version(is_program_proved, is_library_proved):
    """What `kverify --version` says there: the first two lines of `./kverify --version`, and what is proved."""
    lines = subprocess.check_output(["./kverify", "--version"], stdin=subprocess.DEVNULL, text=True).splitlines()[:2]
    told = [("The program", is_program_proved), ("The library", is_library_proved)]
    said = [f"{what} is {'proved' if proved else 'not proved'}." for what, proved in told]
    besides = [f"Nothing is proved of the library's {UNPROVED_HANDLES}."] * is_library_proved
    return "\n".join([*lines, *said, *besides, ""])


def main(folder):
    if not os.path.isdir("crates/host/src"):
        sys.exit("kverify: this repository has no crate host, the library for hosts, so nothing is laid down")
    made, is_program_proved = program()
    archive, is_library_proved = library()
    prefix = Prefix(os.path.abspath(folder))
    prefix.put(made, "libexec/kverify", 0o755)
    prefix.put("hosts/kverify.sh", "bin/kverify", 0o755)
    prefix.put_hosts()
    prefix.put(archive, "lib/libkverify.a")
    if not prefix.link_shared():
        say(f"without a C compiler that works (cc) there is no {SHARED}, which Python needs")
    if not prefix.put_layer():
        say(f"without cc, make and the header CL/cl_layer.h (opencl-c-headers) there is no {LAYER}")
    prefix.write(version(is_program_proved, is_library_proved), "share/kverify/version")
    say(f"laid down below {prefix.folder}:")
    for what, proved, by in [
        ("the program (bin/kverify)", is_program_proved, "./kverify build"),
        ("the library (lib/libkverify.a)", is_library_proved, "tools/prove_library.py"),
    ]:
        say(f"  {what}, {'proved' if proved else f'of which NOTHING IS PROVED; {by} proves it'}")
    if is_library_proved:
        say(f"  nothing is proved of the library's {UNPROVED_HANDLES}")


if __name__ == "__main__":
    if len(sys.argv) != 2:
        sys.exit("usage: tools/install.py PREFIX")
    try:
        main(sys.argv[1])
    except OSError as error:
        sys.exit(f"kverify: not all was laid down: {error}")
