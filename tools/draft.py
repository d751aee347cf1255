#!/usr/bin/env python3
"""Proposes conditions for a kernel: a text under which `prove` accepts it, as weak as it was found.

usage: tools/draft.py PROGRAM KERNEL [--head FILE] [--launch FILE] [--out FILE] [--seconds N]; `./kverify draft KERNEL ..` calls it.

The text goes to the standard output, or to FILE, with status 0. It is one of which the program has said `accepted`, and what that promises
is all that is promised: nothing of how weak the text is. Where there is none, the text under which least is left is printed, with what the
program says of it behind, and the status is 1; FILE is not written then.

A head is what a text of conditions has in front of `groups`; what FILE has besides is passed over. Where a launch is given, each line is
one that it meets. The search ends when the program has taken N processor seconds, 30 if nothing is said.
"""
import argparse
import sys
import tempfile

# (no file is to appear beside this one)
sys.dont_write_bytecode = True
from draft_conditions import Launch, Sum
from draft_kernels import Kernel, Unread, kernel_names
from draft_prover import Prover
from draft_search import NotRead, Search

HEAD = ("kernel", "define", "local_size", "local")
SECONDS = 30


def say(text):
    print(f"kverify: {text}", file=sys.stderr, flush=True)


def text_of(path):
    with open(path, encoding="utf-8", errors="replace", newline="") as file:
        return file.read()


class Progress:
    """A line on the terminal, if the standard error is one, which says how far the search is, and is wiped at the end."""

    def __init__(self, seconds):
        self.seconds, self.asked, self.is_shown = seconds, 0, sys.stderr.isatty()

    def tell(self, spent):
        self.asked += 1
        if self.is_shown:
            print(f"\r\033[Kquestion {self.asked}, {spent:.0f} of {self.seconds} processor seconds", end="", file=sys.stderr, flush=True)

    def wipe(self):
        if self.is_shown:
            print("\r\033[K", end="", file=sys.stderr, flush=True)


def head_of(path):
    """The lines of a head, in the order in which a text has them."""
    lines = text_of(path).splitlines() if path else []
    return [it for word in HEAD for it in lines if it.split(" ")[0] == word]


def completed(head, text, tell=say):
    """A kernel, and its head with what the text and the head leave open, which is told."""
    named = [it.split()[1] for it in head if it.startswith("kernel ")]
    defines = [it.split(" ", 1)[1] for it in head if it.startswith("define ")]
    names = kernel_names(text, defines)
    if len(names) > 1 and not named:
        tell(f"the file has several kernels ({', '.join(names)}); taken is the first: kernel {names[0]}")
        named = names[:1]
        head = [f"kernel {names[0]}", *head]
    kernel = Kernel(text, defines, (named or [None])[0])
    sizes = [it for it in head if it.startswith("local_size ")]
    if not kernel.size and not sizes:
        sizes = ["local_size {} {} {}".format(*kernel.default_size())]
        tell(f"the kernel says no work-group size; taken is {sizes[0]}")
    x, y, z = kernel.size or map(int, sizes[0].split()[1:])
    given = {it.split()[1]: it for it in head if it.startswith("local ")}
    for name, components in kernel.locals().items():
        if name not in given:
            given[name] = f"local {name} {x * y * z * components}"
            tell(f"nobody says how long the array {name} is; taken is {given[name]}")
    others = [it for it in head if not it.startswith(("local_size ", "local "))]
    return kernel, tuple([*others, *sizes, *(given[it] for it in kernel.locals())])


def searched(words, program):
    """The search for a kernel, which is over, and whether it went to the limit of work."""
    kernel, head = completed(head_of(words.head), text_of(words.kernel))
    launch = Launch.of(text_of(words.launch)) if words.launch else None
    progress = Progress(words.seconds)
    with tempfile.TemporaryDirectory(prefix="kverify-draft-") as folder:
        prover = Prover(program, words.kernel, folder, words.seconds, progress.tell)
        search = Search(kernel, prover, head, launch)
        try:
            search.run()
        finally:
            progress.wipe()
    return search, prover.spent >= words.seconds


def tell(search, is_cut, words):
    """Prints what was found, and returns the status."""
    for line in dict.fromkeys(search.missed):
        say(f"a line that would help does not hold of the launch: {line}")
    if is_cut:
        say(f"the search went to its limit of {words.seconds} processor seconds (--seconds)")
    if search.found:
        if search.found.lengths and all(least == Sum() for _, least in search.found.lengths):
            say("no buffer needs an element, so at no launch that meets the text does the kernel load or store one")
        if words.out:
            with open(words.out, "w", encoding="utf-8") as file:
                file.write(str(search.found))
            print("accepted")
        else:
            print(search.found, end="")
        return 0
    if search.hopeless:
        say("a replay confirms this at launches of several sizes, so no conditions were looked for")
        print(search.hopeless.head())
    elif search.nearest:
        say("no conditions were found under which the kernel is accepted; under these least is left")
        print(search.nearest[0])
        print(search.nearest[1].head() or "no answer in time")
    return 1


def main():
    parser = argparse.ArgumentParser(prog="kverify draft", usage="kverify draft KERNEL [options]")
    parser.add_argument("program")
    parser.add_argument("kernel")
    parser.add_argument("--head")
    parser.add_argument("--launch")
    parser.add_argument("--out")
    parser.add_argument("--seconds", type=int, default=SECONDS)
    words = parser.parse_args()
    try:
        search, is_cut = searched(words, words.program)
        return tell(search, is_cut, words)
    except Unread as error:
        say(f"of this text the parameters are not known, so write the conditions by hand (docs/KERNELS.md): {error}")
        return 1
    except NotRead as refusal:
        print(refusal)
        return 1
    except (OSError, ValueError) as error:
        say(str(error))
        return 3


if __name__ == "__main__":
    try:
        sys.exit(main())
    except KeyboardInterrupt:
        sys.exit("kverify: broken off")
