#!/usr/bin/env python3
"""Writes crates/PROMISES.md: what each crate promises, and each public function that has a contract, from the sources.

usage: tools/promises.py [--check], at the top of the repository. It proves nothing. With `--check` it writes nothing, and the status is 1
where crates/PROMISES.md is not what would be written.

A function is public where another crate can name it: it stands in public modules, or is handed on by `pub use`; a method by its type, a
function of a trait by the trait. It has a line where it has an `ensures`: its path, the first sentence of its comment, and the labels of
its clauses.
"""
import os
import re
import sys

sys.path.insert(0, os.path.dirname(os.path.abspath(__file__)))
from crates import head_of, listed, promise_of, text_of, wrapped  # noqa: E402

PAGE = "crates/PROMISES.md"
FUNCTION = re.compile(r"^( *)(pub )?(?:const )?(?:extern \"C\" )?fn ([a-z_0-9]+)")
BLOCK = re.compile(r"^(pub )?(impl|trait)\b(.*)$")
CLAUSE = re.compile(r"^\s+(requires|ensures)(?: (\w+))? \{")
MODULE = re.compile(r"^(?:(pub )|pub\([a-z]+\) )?mod ([a-z_0-9]+);")
TYPE = re.compile(r"^(pub )?(?:struct|enum|trait) ([A-Z]\w*)")
USE = re.compile(r"^(pub )?use ([^;]+);", re.M)
HEAD = """# What the crates promise, function by function

Written by `tools/promises.py` from the sources; `tools/check_docs.py` compares it. What the promises come to together says
[THEOREMS](../docs/THEOREMS.md). The clauses themselves stand in the files.

Each line has a public function with a contract, the first sentence of its comment, and the labels of its clauses: behind *asks* those of
its `requires`, behind *ensures* those of its `ensures`. A clause without a label is not named.

- *Exactly*: the answer is that of the definition, of each input; so is a fault, with its number and its place.
- *Unless memory runs out*: where a function takes memory, it may answer that there is none, and then nothing else is said.
- A *law* has an empty body: its contract is a theorem.
- A function of a trait is named by the trait, and each type that has it keeps its contract. A *lawful* domain is a type with the laws of
  `domain::Domain`.
- The *greatest standing set* is the union of all sets of candidates in which each member has, for each of its obligations, a listed set
  inside (`supports/specs/Candidates.antt`). What a seat *has seen* is what it found absent or refuted, and what the seat that it was split
  from had seen by then (`board/specs/Rule.antt`).
"""


class Found:
    """A function with a contract: where it stands, what its comment says, and its clauses."""

    def __init__(self, module, owner, name, file, says, clauses, is_law):
        self.module, self.owner, self.name, self.file, self.says, self.is_law = module, owner, name, file, says, is_law
        self.requires = [label for kind, label in clauses if kind == "requires"]
        self.ensures = [label for kind, label in clauses if kind == "ensures"]


def first_sentence(lines):
    text = " ".join(lines)
    found = re.match(r"(.+?[.!?])(?=\s+[A-Z`(]|\s*$)", text)
    return (found.group(1) if found else text).strip()


def used(text, module):
    """The names that `use` lines of a module bring, with what they stand for in this crate, and which of them are handed on."""
    for is_pub, path in USE.findall(text):
        for target, name in trees(" ".join(path.split())):
            parts = target.split("::")
            if parts[0] == "crate":
                parts = parts[1:]
            elif parts[0] == "self":
                parts = list(module) + parts[1:]
            elif parts[0] == "super":
                parts = list(module[:-1]) + parts[1:]
            else:
                parts = list(module) + parts
            yield name, tuple(parts), bool(is_pub)


def trees(path):
    """`a::{b, c as d}` as its paths, each with the name that it brings."""
    path = path.strip()
    if "{" in path:
        before, inside = path.split("{", 1)
        inside = inside.rsplit("}", 1)[0]
        depth, part, parts = 0, "", []
        for letter in inside:
            depth += {"{": 1, "}": -1}.get(letter, 0)
            if letter == "," and depth == 0:
                parts.append(part)
                part = ""
            else:
                part += letter
        for it in parts + [part]:
            if it.strip():
                for target, name in trees(it):
                    if target == "self":
                        target, name = before.removesuffix("::"), before.removesuffix("::").split("::")[-1]
                        yield target, name
                    else:
                        yield before + target, name
    elif " as " in path:
        target, name = path.split(" as ")
        yield target.strip(), name.strip()
    elif path:
        yield path, path.split("::")[-1]


def contracts(text, module, file):
    """The functions of a file that have an `ensures`, each with the type or the trait that it belongs to; and which are public there."""
    lines = text.splitlines()
    comment, owner, is_open = [], None, False
    at = 0
    while at < len(lines):
        line = lines[at]
        if line.startswith("}"):
            owner = None
        elif (block := BLOCK.match(line)) and not line.rstrip().endswith(("}", ";")):
            head = line
            while not head.rstrip().endswith("{"):
                at += 1
                head += " " + lines[at].strip()
            owner, is_open = owner_of(block, head)
        if line.strip().startswith("///"):
            comment.append(line.strip()[3:].strip())
        elif found := FUNCTION.match(line):
            clauses = []
            while not ends_a_head(lines[at], found.group(1)):
                at += 1
                clauses += [kind.groups() for kind in [CLAUSE.match(lines[at])] if kind]
            it = Found(module, owner, found.group(3), file, first_sentence(comment), clauses, lines[at].strip() == "{}")
            if it.ensures and (found.group(2) or owner and is_open):
                yield it
            comment = []
        elif not line.strip().startswith("#["):
            comment = []
        at += 1


def ends_a_head(line, indent):
    """Whether a line is the last one of a function's head, or the first of its body behind its clauses."""
    return line.startswith(indent + "{") or line.endswith((" {", ";", "{}")) and not (CLAUSE.match(line) and not line.endswith(";"))


def owner_of(block, head):
    """Of an `impl` its type, of a trait its name; and whether functions without `pub` are public in it, as those of a trait are."""
    rest = block.group(0) if head is None else head
    if block.group(2) == "trait":
        return re.search(r"trait (\w+)", rest).group(1), bool(block.group(1))
    rest = re.sub(r"^impl", "", rest).strip()
    depth, at = 0, 0
    if rest.startswith("<"):
        for at, letter in enumerate(rest):
            depth += {"<": 1, ">": -1}.get(letter, 0)
            if depth == 0:
                break
        rest = rest[at + 1:].strip()
    if re.search(r"\bfor\b", rest.split("{")[0]):
        return None, False
    return re.match(r"&?(?:'\w+ )?([\w:]+)", rest).group(1).split("::")[-1], False


class Crate:
    """The modules of a crate, what is public in them, and the functions that have a contract."""

    def __init__(self, name):
        self.name = name
        self.files, self.open, self.types, self.uses, self.handed, self.functions = {}, {}, {}, {}, {}, []
        path, _ = head_of(name)
        self.read((), path, True)

    def read(self, module, path, is_open):
        if path is None or not os.path.isfile(path):
            return
        text = text_of(path)
        self.open[module] = is_open
        self.functions += contracts(text, module, path)
        is_test = False
        for line in text.splitlines():
            if found := MODULE.match(line):
                if not is_test:
                    self.read(module + (found.group(2),), self.file_of(module + (found.group(2),)), is_open and bool(found.group(1)))
            elif found := TYPE.match(line):
                self.types[module + (found.group(2),)] = bool(found.group(1))
            is_test = line.strip() == "#[cfg(test)]"
        plain = "\n".join(line for line in text.splitlines() if not line.startswith("ghost "))
        for name, target, is_pub in used(plain, module):
            self.uses[module + (name,)] = target
            if is_pub:
                self.handed[module + (name,)] = target

    def file_of(self, module):
        return f"crates/{self.name}/src/{'/'.join(module)}.rt"

    def meant(self, path):
        """What a path stands for, over `use` lines."""
        seen = set()
        while path in self.uses and path not in seen and path not in self.types:
            seen.add(path)
            path = self.uses[path]
        return path

    def public_names(self):
        """Of each item that another crate can name its shortest path."""
        names = {}
        for path, target in sorted(self.handed.items(), key=lambda it: (len(it[0]), it[0])):
            if self.open.get(path[:-1]):
                names.setdefault(self.meant(target), path)
        return names


def public_ones(name):
    """Of a crate its public functions with a contract, in the order of its files, each with its path."""
    crate = Crate(name)
    names = crate.public_names()
    for it in crate.functions:
        item = crate.meant(it.module + (it.owner or it.name,))
        is_there = crate.open.get(item[:-1]) and crate.types.get(item, not it.owner)
        path = item if is_there else names.get(item)
        if path:
            yield it, "::".join((name,) + path + ((it.name,) if it.owner else ()))


def labels(word, clauses):
    named = [f"`{it}`" for it in clauses if it]
    return f" *{word}* {', '.join(named)}." if named else ""


def page():
    """The text of the page."""
    crates, _ = listed(lambda it: None)
    lines, section = HEAD.splitlines(), None
    for name in crates:
        _, head = head_of(name)
        if crates[name] != section:
            section = crates[name]
            lines += ["", f"## {section}"]
        lines += ["", f"### {name}", *wrapped(promise_of(head))]
        file = None
        for it, path in public_ones(name):
            if it.file != file:
                file = it.file
                lines += ["", f"[{file.split('/src/')[1]}]({file.removeprefix('crates/')})"]
            says = f": {it.says}" if it.says else "."
            law = " (law)" if it.is_law else ""
            lines += wrapped(f"`{path}`{law}{says}{labels('asks', it.requires)}{labels('ensures', it.ensures)}", "- ", "  ")
    return "\n".join(lines) + "\n"


def differs():
    """Whether the page is not what would be written."""
    return not os.path.isfile(PAGE) or text_of(PAGE) != page()


def main(words):
    if words == ["--check"]:
        if differs():
            print(f"{PAGE} is not what tools/promises.py writes")
            return 1
        return 0
    if words:
        sys.exit("usage: tools/promises.py [--check]")
    with open(PAGE, "w", encoding="utf-8") as file:
        file.write(page())
    return 0


if __name__ == "__main__":
    sys.exit(main(sys.argv[1:]))
