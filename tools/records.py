#!/usr/bin/env python3
"""What a program was made from, as a record beside it: build.py and compile.py write one, and ../kverify believes no program without.

usage: tools/records.py RECORD, at the top of the repository: the status is 0 where each file that the record names is there as it was, and
no other one. ../kverify calls it where its own fast look does not tell.

A record is a text:

    LOOK            a sum of what a look at the places sees: each file's name, size, time of change and inode
    PLACES          the program, and the files and folders that it was made from, with a blank between two
    SUM NAME        a line for each file at these places, the program too: a sum of its content, and its name

../kverify makes the first line anew, by `find`, and compares. No edit, copy or new time of a file leaves it alike, and where `find` is not
there or does otherwise, it does not come out. Then this script reads the files and compares what they hold. Where that is as it was, it
writes the first line anew; else it puts the new first line beside the record, so that the same need not be read again.
"""
import contextlib
import hashlib
import os
import sys
import time

# Seconds that have to lie between the last change of a file and a look at it, since the clock that files have goes by steps.
STEP = 0.05


def files_at(places):
    """The files at these places, as paths in bytes; a symbolic link is what it leads to."""
    for place in map(os.fsencode, places):
        if os.path.isfile(place):
            yield place
        for folder, _, names in os.walk(place, followlinks=True):
            paths = [os.path.join(folder, name) for name in names]
            yield from filter(os.path.isfile, paths)


def line_of(path, status):
    """What `find` prints of a file by '%p %s %C@ %i'."""
    seconds, rest = divmod(status.st_ctime_ns, 10**9)
    return b"%b %d %d.%09d0 %d\n" % (path, status.st_size, seconds, rest, status.st_ino)


def look_at(places):
    """The first line of a record, and the time of the last change of a file at these places."""
    found = {path: os.stat(path) for path in files_at(places)}
    lines = sorted(line_of(path, status) for path, status in found.items())
    return hashlib.sha256(b"".join(lines)).hexdigest(), max((it.st_ctime for it in found.values()), default=0)


def sum_of(path):
    with open(path, "rb") as file:
        return hashlib.sha256(file.read()).hexdigest()


def sums_of(places):
    """A sum of what each file at these places holds, by its name."""
    return {os.fsdecode(path): sum_of(path) for path in files_at(places)}


def write_whole(path, text):
    """Writes a file so that nobody meets half of it."""
    with open(f"{path}.new", "w", encoding="utf-8", errors="surrogateescape") as file:
        file.write(text)
    os.replace(f"{path}.new", path)


def read(record):
    """The first line of a record, its places and its sums; nothing where there is none, or it is not whole."""
    try:
        with open(record, encoding="utf-8", errors="surrogateescape") as file:
            look, places, *lines = file.read().splitlines()
        return look, places.split(" "), {name: total for total, name in (line.split(" ", 1) for line in lines)}
    except (OSError, ValueError):
        return "", [], {}


def remove(record):
    for path in (record, f"{record}.stale"):
        with contextlib.suppress(FileNotFoundError):
            os.remove(path)


def look_at_same(places, sums):
    """A look at these places, where the files there have these sums and nobody changes them meanwhile; else nothing."""
    look, changed = look_at(places)
    time.sleep(min(max(0, changed + STEP - time.time()), 1))
    is_same = sums_of(places) == sums and look_at(places)[0] == look
    return look if is_same else ""


def write(record, places, sums):
    """Writes a record where the files at these places have these sums, and nobody changes them meanwhile; returns whether it did."""
    look = look_at_same(places, sums)
    if look:
        write_whole(record, "\n".join([look, " ".join(places), *(f"{total} {name}" for name, total in sorted(sums.items())), ""]))
    return bool(look)


def is_of_record(record):
    """Whether the files that a record names are there as they were, and no others, by what they hold; what was looked at is noted."""
    _, places, sums = read(record)
    if not sums:
        return False
    look = look_at(places)[0]
    is_same = bool(look_at_same(places, sums))
    # (who may not write here reads the files again at the next call)
    with contextlib.suppress(OSError):
        if is_same:
            write(record, places, sums)
        elif look_at(places)[0] == look:
            write_whole(f"{record}.stale", f"{look}\n")
    return is_same


if __name__ == "__main__":
    try:
        sys.exit(0 if is_of_record(sys.argv[1]) else 1)
    except OSError as error:
        sys.exit(f"kverify: the sources cannot be compared with the record: {error}")
