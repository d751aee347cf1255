"""Texts of conditions and launches, and of files of cases, as lowered.py reads them."""
import os
import re

from clang_words import Pointer, range_of, scalar_of

# How many work-items and elements a launch that is made may have, and how often one is tried.
MOST_ITEMS, MOST_WORDS, TRIES = 600, 20000, 3000


class Conditions:
    """What the lines of conditions say."""

    def __init__(self, text):
        self.kernel, self.defines, self.size, self.locals = None, [], None, {}
        self.groups, self.arguments, self.lengths, self.requires, self.values = [], {}, {}, [], []
        for line in text.splitlines():
            word, _, rest = line.partition(" ")
            getattr(self, f"read_{word}", lambda _: None)(rest)

    def read_kernel(self, rest):
        self.kernel = rest

    def read_define(self, rest):
        found = re.match(r"(\w+(?:\([^)]*\))?)( ?)(.*)", rest)
        self.defines.append(f"{found.group(1)}={found.group(3)}" if found.group(2) else found.group(1))

    def read_local_size(self, rest):
        self.size = [int(it) for it in rest.split()]

    def read_local(self, rest):
        name, count = rest.split()
        self.locals[name] = int(count)

    def read_groups(self, rest):
        self.groups = [ends_of(it) for it in rest.split()]

    def read_arg(self, rest):
        name, ends = rest.split()
        self.arguments[name] = ends_of(ends)

    def read_length(self, rest):
        name, least = rest.split(" >= ")
        self.lengths[name] = least

    def read_require(self, rest):
        self.requires.append(rest.split(" >= "))

    def read_values(self, rest):
        name, sign, bound = rest.split(" ", 2)
        self.values.append((name, sign, bound))


def ends_of(text):
    low, high = text.split("..")
    return int(low), int(high)


def sum_of(text, known):
    """A sum of products of numbers and names."""
    total = 0
    for term in text.split(" + "):
        product = 1
        for part in term.split("*"):
            product *= int(part) if re.fullmatch(r"-?\d+", part) else known[part]
        total += product
    return total


def read_launch(text):
    """Groups, arguments, words of buffers and the fill word of a launch."""
    groups, arguments, words, fill = [], {}, {}, 0
    for row in (line.split() for line in text.splitlines()):
        if row[0] == "groups":
            groups = [int(it) for it in row[1:]]
        elif row[0] == "arg":
            arguments[row[1]] = int(row[2])
        elif row[0] == "buffer":
            words[row[1]] = [int(row[4])] * int(row[3]) if row[2] == "fill" else [int(it) for it in row[3:]]
        elif row[0] == "fill":
            fill = int(row[1])
    return groups, arguments, words, fill


# ---- launches that are made

def near(dice, low, high):
    """A number of a range, most often a small one or one near an end."""
    some = [low, low, low + 1, high, dice.randint(low, high), dice.randint(low, min(high, low + 8)), dice.randint(low, min(high, low + 64))]
    if low <= 0 <= high:
        some += [0, dice.randint(0, min(high, 9)), dice.randint(0, min(high, 100))]
    return max(low, min(high, dice.choice(some)))


def kinds_of(made):
    """The scalars that the elements of each buffer are, in the order of the parameters."""
    found = {}
    for it in made.kernel.parts:
        if it is not None and it.kind == "ParmVarDecl":
            kind = made.program.type(it)
            if isinstance(kind, Pointer) and it.told["name"] in made.conditions.lengths:
                found[it.told["name"]] = scalar_of(kind.to)
    return found


def made_launch(made, dice):
    """The text of a launch that meets the conditions, or none."""
    it = made.conditions
    for _ in range(TRIES):
        groups = [near(dice, low, min(high, low + 3)) for low, high in it.groups]
        known = {name: near(dice, *ends) for name, ends in it.arguments.items()}
        known |= {f"groups.{at}": count for at, count in enumerate(groups)}
        if groups[0] * groups[1] * groups[2] * made.size[0] * made.size[1] * made.size[2] > MOST_ITEMS:
            continue
        if any(sum_of(left, known) < sum_of(right, known) for left, right in it.requires):
            continue
        lengths = {name: max(0, sum_of(least, known)) for name, least in it.lengths.items()}
        words = {} if sum(lengths.values()) > MOST_WORDS else some_words(made, lengths, known, dice)
        if len(words) == len(lengths):
            lines = ["launch 1", "groups {} {} {}".format(*groups), *(f"arg {name} {known[name]}" for name in it.arguments)]
            lines += [" ".join(["buffer", name, "list", *map(str, held)]) for name, held in words.items()]
            return "\n".join([*lines, "fill 0", ""])
    return None


def some_words(made, lengths, known, dice):
    """Words of each buffer within the bounds that the conditions say; of a buffer that can have none, nothing. Elements of fewer than 32
    bits have no sign there."""
    found = {}
    for name, kind in kinds_of(made).items():
        low, high = range_of(kind) if kind.bits >= 32 else (0, 2**kind.bits - 1)
        for of, sign, bound in made.conditions.values:
            if of == name:
                low, high = (max(low, sum_of(bound, known)), high) if sign == ">=" else (low, min(high, sum_of(bound, known)))
        if low <= high or lengths[name] == 0:
            found[name] = [near(dice, low, high) for _ in range(lengths[name])]
    return found


# ---- files of cases

def unescaped(text):
    known = {"n": "\n", "r": "\r", "t": "\t"}
    return re.sub(r"\\(x[0-9A-Fa-f]{2}|.)",
                  lambda it: chr(int(it.group(1)[1:], 16)) if len(it.group(1)) == 3 else known.get(it.group(1), it.group(1)), text)


def cases_of(path):
    """The kernels of a file of cases that it runs: of each a name, kernel, conditions and launch."""
    texts, name = {}, None
    with open(path, encoding="latin-1", newline="") as file:
        lines = file.read().split("\n")
    for number, line in enumerate(lines, 1):
        mark, _, rest = line.partition(" ")
        if mark == "file":
            name = rest
            texts[name] = ""
        elif mark == "|":
            texts[name] += rest + "\n"
        elif mark == "|\\":
            texts[name] += unescaped(rest)
        elif mark == "|*":
            count, _, each = rest.partition(" ")
            texts[name] += unescaped(each) * int(count)
        elif mark == "|<":
            of, first, last = rest.split()
            texts[name] += "".join(it + "\n" for it in texts.get(of, "").split("\n")[int(first) - 1:int(last)])
        elif mark == "$" and rest.startswith("run "):
            words = [it for it in rest.split()[1:] if not it.startswith("--")]
            if len(words) >= 4 and all(words[at] in texts for at in (0, 1, 3)):
                yield f"{os.path.basename(path)}:{number}", texts[words[0]], texts[words[1]], texts[words[3]]
