#!/usr/bin/env python3
"""What a reader has to believe: the definitions that a promise of the program rests on, with their lines.

Begins at names, and follows each name that a definition uses to the definition behind it, through the `use` lines, as far as the repository
goes; what stands in the library is not followed. Lines are those of definitions, without comments, blank lines and `use` lines.

    tools/believed.py                                    the whole contract of `program::tool`, and its parts, a line each
    tools/believed.py CRATE/specs/FILE.antt [NAME ..]    from all names of a file, or from these, with the lines in each file
"""
import pathlib
import re
import sys

CRATES = pathlib.Path(__file__).resolve().parent.parent / "crates"
QUOTED = re.compile(r'"[^"]*"')
NAME = re.compile(r"[^\s(){}\[\],;.|]+(?:\.[^\s(){}\[\],;.|]+)*")


class Module:
    """The definitions of a file and the names that it brings in."""

    def __init__(self, path):
        self.definitions = {}  # name -> lines
        self.names = {}  # name -> (module, name)
        self.modules = {}  # alias -> module
        self.read(path.read_text().splitlines())

    def read(self, lines):
        current = None
        for line in lines:
            text = line.split(" -- ")[0].rstrip()
            if not text.strip() or text.lstrip().startswith("--"):
                continue
            if text.startswith(("use ", "pub use ")):
                self.bring(text.removeprefix("pub ").removeprefix("use "))
                continue
            if text.startswith(("infix", "pub mod", "mod ", "unfolding ")):
                continue
            if not text.startswith(" "):
                current = self.begun(text)
            if current is not None:
                self.definitions.setdefault(current, []).append(text.strip())
                if text.startswith(" "):
                    self.alias(text, current)

    def begun(self, text):
        """The name of a definition, or one for a block of several."""
        if re.match(r"^(?:abbrev |unfoldable )?(?:mutual|module)\b", text):
            return f"block {len(self.definitions)}"
        return self.named(text)

    def named(self, text):
        words = text.split()
        while words and words[0] in ("abbrev", "unfoldable", "pub", "data", "record"):
            words.pop(0)
        return words[0] if words else None

    def alias(self, text, current):
        """A constructor, a field or a member of a block is found under its own name."""
        words = text.split()
        if words[0] in ("pub", "data", "record", "abbrev", "unfoldable") or (len(words) > 1 and words[1] == ":"):
            self.names.setdefault(self.named(text), (None, current))

    def bring(self, text):
        match = re.match(r"^(\S+?)\.\{(.*)\}$", text)
        if match:
            for item in match.group(2).split(","):
                parts = item.strip().split(" as ")
                self.names[parts[-1].strip()] = (match.group(1), parts[0].strip())
            return
        parts = text.split(" as ")
        self.modules[parts[-1].strip().split(".")[-1]] = parts[0].strip()


def path_of(module):
    """The file of a module of this repository, or none."""
    match = re.match(r"^Rattle\.(\w+)\.specs\.(.+)$", module)
    if not match:
        return None
    path = CRATES / match.group(1) / "specs" / (match.group(2).replace(".", "/") + ".antt")
    return path if path.is_file() else None


LOADED = {}


def load(path):
    if path not in LOADED:
        LOADED[path] = Module(path)
    return LOADED[path]


def walk(begun):
    """The definitions reached from these, as a set of (file, name); and names of the code's own types."""
    seen, code = set(), set()
    todo = list(begun)
    while todo:
        path, name = todo.pop()
        if (path, name) in seen or name not in load(path).definitions:
            continue
        seen.add((path, name))
        module = load(path)
        for line in module.definitions[name]:
            for word in NAME.findall(QUOTED.sub("", line)):
                first, _, rest = word.partition(".")
                if first in module.modules and rest:
                    target, used = module.modules[first], rest.split(".")[0]
                elif first in module.names:
                    target, used = module.names[first]
                elif first in module.definitions:
                    target, used = None, first
                else:
                    continue
                if target is None:
                    todo.append((path, used))
                    continue
                if ".specs.declared." in target:
                    code.add(target.removeprefix("Rattle.") + "." + used)
                    continue
                file = path_of(target)
                if file is not None:
                    found = load(file)
                    inside = found.names.get(used, (0, used))
                    todo.append((file, used if used in found.definitions else inside[1]))
    return seen, code


def clauses_of(file, function):
    """The definitions that the contract of a function names: those in its `ensures`, by the file's `ghost use` lines."""
    lines = file.read_text().splitlines()
    brought = Module.__new__(Module)
    brought.definitions, brought.names, brought.modules = {}, {}, {}
    for line in lines:
        if line.startswith("ghost use "):
            brought.bring(line.removeprefix("ghost use ").rstrip(";"))
    begin = next(at for at, line in enumerate(lines) if line.startswith(f"pub fn {function}"))
    end = next(at for at, line in enumerate(lines) if at > begin and line == "{")
    words, is_told = set(), False
    for line in lines[begin:end]:
        # (a clause may go on over several lines, which stand further in)
        is_told = line.lstrip().startswith("ensures") or is_told and not line.lstrip().startswith("requires")
        words |= set(NAME.findall(line)) if is_told else set()
    found = [brought.names[word] for word in sorted(words) if word in brought.names]
    return [(path_of(module), name) for module, name in found if path_of(module)]


def counted(begun):
    """How many lines, definitions and files are reached from these, and how many names of the code's own types."""
    seen, code = walk(begun)
    return sum(len(load(path).definitions[name]) for path, name in seen), len(seen), len({path for path, _ in seen}), len(code)


# Parts of the program's promise, and where each begins.
PARTS = {
    "`accepted`": ("telling/specs/Telling.antt", "IsAcceptedText"),
    "the buffers of a run": ("telling/specs/Telling.antt", "IsResultText"),
    "a canonical text": ("telling/specs/Telling.antt", "IsPrintedText"),
    "a confirmed finding": ("proof_search/specs/Findings.antt", "IsTrueOf"),
    "a refusal": ("program/specs/Refusing.antt", "Refusal"),
}


def tell_parts():
    rows = {"the whole contract of `program::tool`": clauses_of(CRATES / "program/src/one_run.rt", "tool")}
    rows.update({part: [(CRATES / file, name)] for part, (file, name) in PARTS.items()})
    print("| Of | Lines | Definitions | Files | Names of the code's types |\n|---|---|---|---|---|")
    for part, begun in rows.items():
        print("| " + " | ".join([part, *(f"{it:,}" for it in counted(begun))]) + " |")


def main():
    if not sys.argv[1:]:
        tell_parts()
        return
    start = CRATES / sys.argv[1]
    names = sys.argv[2:] or list(load(start).definitions)
    seen, code = walk((start, name) for name in names)
    lines = {}
    for path, name in seen:
        where = str(path.relative_to(CRATES))
        lines[where] = lines.get(where, 0) + len(load(path).definitions[name])
    for where in sorted(lines):
        print(f"{lines[where]:6} {where}")
    print(f"{sum(lines.values()):6} lines of {len(seen)} definitions in {len(lines)} files")
    crates = sorted({name.split(".")[0] for name in code})
    print(f"{len(code):6} names of the code's own types" + (", of " + ", ".join(crates) if crates else ""))


main()
