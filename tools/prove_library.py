#!/usr/bin/env python3
"""Proves the library for hosts, libkverify.a, and what it stands on, as build.py does a program. What `./kverify build` proved stays.

usage: tools/prove_library.py, at the top of the repository. It makes crates/host/out/rlib/proved/libkverify.a. At the end a record names
the library and what it was proved from (records.py), if nothing was changed meanwhile; tools/install.py takes the library as proved by that
record alone. `rt lib` in crates/host proves the same library, over libraries of its own and without the handles of hosts/src. These are C,
which `cc` compiles, and nothing is proved of them.
"""
import os
import shutil
import sys

# (no file is to appear beside this one)
sys.dont_write_bytecode = True
import build
from build import rt
from compile_library import NAME, SOURCES_OF_HANDLES, archived, handles


class Crate(build.Crate):
    """A crate, or the library, which is linked and no other crate stands on."""

    def __init__(self, *given, **named):
        super().__init__(*given, **named)
        if self.is_static:
            self.made = f"{self.kept}/libkverify.a"
            self.parts += [os.path.abspath(it) for it in SOURCES_OF_HANDLES]

    def stamp(self):
        return f"{self.first_sum} {rt.rtlib.sum_of(self.made)}" if self.is_static else super().stamp()

    def prove_and_build(self, jobs):
        """Returns 0 where all is well."""
        if not self.is_static:
            return super().prove_and_build(jobs)
        room = f"{self.kept}/out"
        words = [*self.words(["--jobs", str(jobs)], keeps=False), "--toolchain", f"{rt.KIT}/toolchain", "--backend", "llvm"]
        status = self.call(rt.rtlib.RATTLE, "build", *words, "-o", f"{room}/lib{NAME}.a")
        if not status:
            os.replace(archived(room, [f"{room}/lib{NAME}.a", handles(room)]), self.made)
        return status


if __name__ == "__main__":
    if not shutil.which("rt"):
        sys.exit("kverify: rt, the command of the kit, is not on the PATH")
    if not shutil.which("cc"):
        sys.exit("kverify: cc, a compiler of C, is not on the PATH, and the library's handles are C")
    # (what build.py makes of each crate)
    build.Crate = Crate
    try:
        build.main(NAME)
    except AttributeError as error:
        sys.exit(f"kverify: tools/prove_library.py does not fit this rt ({error}): rt lib in crates/{NAME} makes the library")
