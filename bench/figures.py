#!/usr/bin/env python3
"""Prints a table of figures that were measured, from a file of bench/figures.

    figures.py                      the files, with what each of them has
    figures.py NAME [WORD ..]       the rows of figures/NAME.tsv in which each WORD stands

A file has a line for each row, with tabs between its cells. Lines that begin with "# " say what was measured, and how; the first line behind
them is the head. What a row was measured beside, as an earlier program, stands in the same row: figures of other rows are of other hours.
"""
import glob
import os
import signal
import sys

FOLDER = os.path.join(os.path.dirname(os.path.abspath(__file__)), "figures")


def read(path):
    """What a file says of its figures, and its rows, the head first."""
    with open(path, encoding="utf-8") as file:
        lines = file.read().splitlines()
    told = [it[2:] for it in lines if it.startswith("# ")]
    rows = [it.split("\t") for it in lines if it and not it.startswith("# ")]
    for row in rows:
        if len(row) != len(rows[0]):
            sys.exit(f"{path}: {len(row)} cells in place of {len(rows[0])}: {' '.join(row)}")
    return told, rows


def table(rows):
    """Rows of cells as Markdown, with columns of one width; a bar in a cell is written as Markdown wants it."""
    cells = [[it.replace("|", "\\|") for it in row] for row in rows]
    widths = [max(map(len, column)) for column in zip(*cells)]
    lines = ["| " + " | ".join(it.ljust(width) for it, width in zip(row, widths)) + " |" for row in cells]
    return "\n".join([lines[0], "|" + "|".join("-" * (it + 2) for it in widths) + "|", *lines[1:]])


def main(words):
    if words[:1] in (["-h"], ["--help"]):
        sys.exit(__doc__)
    paths = {os.path.basename(it).removesuffix(".tsv"): it for it in sorted(glob.glob(os.path.join(FOLDER, "*.tsv")))}
    if not words:
        for name, path in paths.items():
            told, rows = read(path)
            print(f"{name} ({len(rows) - 1} rows): {told[0]}")
        return 0
    name, *words = words
    if name not in paths:
        sys.exit(f"figures.py: there is no {name} among {', '.join(paths)}")
    told, (head, *rows) = read(paths[name])
    rows = [row for row in rows if all(any(word in cell for cell in row) for word in words)]
    print("\n".join(told) + "\n\n" + table([head, *rows]))
    return 0


if __name__ == "__main__":
    signal.signal(signal.SIGPIPE, signal.SIG_DFL)
    sys.exit(main(sys.argv[1:]))
