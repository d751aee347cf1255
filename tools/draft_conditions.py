"""Texts of conditions, and launches that meet them (docs/FORMATS.md): read, written, changed and sampled."""
import dataclasses
import random
import re

# The most elements of a buffer, the largest number of a sum, the most groups of a dimension and of all three, and the most steps.
LONGEST = 4294967295
LARGEST = 4294967295
GROUPS, ALL_GROUPS = 65536, 1048576
STEPS = 10**12
TERMS, REQUIRES, VALUES = 8, 16, 16


class Sum:
    """A sum of a line: factors by the names that they are times, none, one or two."""

    def __init__(self, terms=()):
        found = {}
        for factor, names in terms:
            names = tuple(sorted(names))
            found[names] = found.get(names, 0) + factor
        self.terms = {names: factor for names, factor in sorted(found.items(), key=lambda it: (len(it[0]) == 0, it)) if factor}

    @staticmethod
    def of(text):
        """The sum that a text says."""
        terms = []
        for term in text.split(" + "):
            words = term.split("*")
            factor = int(words.pop(0)) if re.fullmatch(r"-?\d+", words[0]) else 1
            terms.append((factor, words))
        return Sum(terms)

    @staticmethod
    def number(value):
        return Sum([(value, ())])

    def value(self, numbers):
        """Its value, by the numbers of the names."""
        whole = 0
        for names, factor in self.terms.items():
            for name in names:
                factor *= numbers[name]
            whole += factor
        return whole

    def plus(self, other):
        return Sum([(factor, names) for sum_ in (self, other) for names, factor in sum_.terms.items()])

    def times(self, factor):
        return Sum([(factor * it, names) for names, it in self.terms.items()])

    def names(self):
        return {name for names in self.terms for name in names}

    def constant(self):
        return self.terms.get((), 0)

    def is_number(self):
        return not self.names()

    def may_be_said(self):
        return len(self.terms) <= TERMS and all(abs(it) <= LARGEST for it in self.terms.values())

    def __str__(self):
        told = []
        for names, factor in self.terms.items():
            told.append("*".join([str(factor)] * (factor != 1 or not names) + list(names)))
        return " + ".join(told) or "0"

    def __eq__(self, other):
        return isinstance(other, Sum) and self.terms == other.terms

    def __hash__(self):
        return hash(tuple(self.terms.items()))


@dataclasses.dataclass(frozen=True)
class Conditions:
    """A text of conditions: ranges of the counts of groups and of the arguments, and lines of sums."""

    head: tuple = ()
    groups: tuple = ((1, 1), (1, 1), (1, 1))
    arguments: tuple = ()
    lengths: tuple = ()
    requires: tuple = ()
    values: tuple = ()
    budget: int = STEPS

    @staticmethod
    def of(text):
        """What a text says, which is one that can be read."""
        groups, parts, budget = (), {"head": [], "arg": [], "length": [], "require": [], "values": []}, STEPS
        for line in text.splitlines()[1:]:
            word, _, rest = line.partition(" ")
            if word == "groups":
                groups = tuple(range_of(it) for it in rest.split())
            elif word == "arg":
                name, ends = rest.split()
                parts[word].append((name, *range_of(ends)))
            elif word == "length":
                name, least = rest.split(" >= ")
                parts[word].append((name, Sum.of(least)))
            elif word == "require":
                parts[word].append(tuple(map(Sum.of, rest.split(" >= "))))
            elif word == "values":
                name, sign, most = rest.split(" ", 2)
                parts[word].append((name, sign, Sum.of(most)))
            elif word == "budget":
                budget = int(rest)
            else:
                parts["head"].append(line)
        return Conditions(tuple(parts["head"]), groups, *(tuple(parts[it]) for it in ("arg", "length", "require", "values")), budget)

    def __str__(self):
        lines = ["conditions 3" if self.head else "conditions 2", *self.head]
        lines.append("groups " + " ".join(f"{low}..{high}" for low, high in self.groups))
        return "\n".join([*lines, *self.argument_lines(), *self.sum_lines(), f"budget {self.budget}", ""])

    def argument_lines(self):
        return [f"arg {name} {low}..{high}" for name, low, high in self.arguments]

    def sum_lines(self):
        lines = [f"length {name} >= {least}" for name, least in self.lengths]
        lines += [f"require {left} >= {right}" for left, right in self.requires]
        return lines + [f"values {name} {sign} {sum_}" for name, sign, sum_ in self.values]

    def change(self, **parts):
        return dataclasses.replace(self, **parts)

    def ranges(self):
        """The ranges of all names that a sum may have."""
        named = {f"groups.{at}": ends for at, ends in enumerate(self.groups)}
        return {**named, **{name: (low, high) for name, low, high in self.arguments}}

    def with_range(self, name, low, high):
        if name.startswith("groups."):
            at = int(name[-1])
            return self.change(groups=(*self.groups[:at], (low, high), *self.groups[at + 1 :]))
        return self.change(arguments=tuple((it, low, high) if it == name else (it, *ends) for it, *ends in self.arguments))

    def length(self, name):
        return dict(self.lengths)[name]

    def with_length(self, name, least):
        return self.change(lengths=tuple((it, least if it == name else other) for it, other in self.lengths))

    def with_require(self, left, right):
        if (left, right) in self.requires or len(self.requires) >= REQUIRES:
            return self
        return self.change(requires=(*self.requires, (left, right)))

    def with_values(self, name, sign, sum_):
        kept = tuple(it for it in self.values if it[:2] != (name, sign))
        return self if len(kept) >= VALUES else self.change(values=(*kept, (name, sign, sum_)))

    def unmet(self, launch):
        """The lines that a launch does not meet."""
        numbers = launch.numbers()
        lines = [f"{'groups' if '.' in name else 'arg'} {name} {low}..{high}" for name, (low, high) in self.ranges().items()
                 if not low <= numbers[name] <= high]
        lines += [f"length {name} >= {least}" for name, least in self.lengths if launch.lengths[name] < least.value(numbers)]
        lines += [f"require {left} >= {right}" for left, right in self.requires if left.value(numbers) < right.value(numbers)]
        return lines + [f"values {name} {sign} {sum_}" for name, sign, sum_ in self.values if not launch.holds(name, sign, sum_)]


def range_of(text):
    low, high = text.split("..")
    return int(low), int(high)


@dataclasses.dataclass(frozen=True)
class Launch:
    """A launch: counts of groups, arguments, lengths of buffers, and the least and the greatest number in each buffer that has some."""

    groups: tuple
    arguments: dict
    lengths: dict
    ends: dict

    @staticmethod
    def of(text):
        """What a text of a launch says, which is one that can be read."""
        groups, arguments, lengths, ends = (), {}, {}, {}
        for line in text.splitlines()[1:]:
            word, *rest = line.split()
            if word == "groups":
                groups = tuple(map(int, rest))
            elif word == "arg":
                arguments[rest[0]] = int(rest[1])
            elif word == "buffer":
                name, how, *words = rest
                numbers = list(map(int, words))
                lengths[name] = numbers[0] if how == "fill" else len(numbers)
                held = numbers[1:] if how == "fill" else numbers
                if lengths[name]:
                    ends[name] = min(held), max(held)
        return Launch(groups, arguments, lengths, ends)

    def numbers(self):
        return {**{f"groups.{at}": it for at, it in enumerate(self.groups)}, **self.arguments}

    def holds(self, name, sign, sum_):
        """Whether a line `values` holds of a buffer."""
        if name not in self.ends:
            return True
        low, high = self.ends[name]
        return high <= sum_.value(self.numbers()) if sign == "<=" else low >= sum_.value(self.numbers())


def some_number(chance, low, high):
    """A number of a range: often one of its ends, or near the lower one."""
    kind = chance.randrange(4)
    if kind == 0:
        return low
    if kind == 1:
        return high
    if kind == 2:
        return min(high, low + int(2 ** chance.uniform(0, (high - low + 1).bit_length())) - 1)
    return chance.randint(low, high)


def mended(chance, conditions, numbers):
    """Numbers that meet the lines `require`, by changes of single ones; none where that fails."""
    ranges = conditions.ranges()
    for _ in range(60):
        broken = [(left, right) for left, right in conditions.requires if left.value(numbers) < right.value(numbers)]
        if not broken:
            return numbers
        left, right = chance.choice(broken)
        name = chance.choice(sorted(left.names() | right.names()) or [None])
        if name is None:
            return None
        low, high = ranges[name]
        # (the nearest number with which the line is met, where its sums rise or fall with the name alone)
        met = [it for it in (low, high) if left.value({**numbers, name: it}) >= right.value({**numbers, name: it})]
        if not met:
            numbers = {**numbers, name: chance.choice([low, high])}
            continue
        bad, good = numbers[name], met[0]
        while abs(good - bad) > 1:
            middle = (good + bad) // 2
            if left.value({**numbers, name: middle}) >= right.value({**numbers, name: middle}):
                good = middle
            else:
                bad = middle
        numbers = {**numbers, name: good}
    return None


def some_launch(chance, conditions, kinds, tries=200):
    """A launch that meets conditions, by chance; none where none is found. The kinds of buffers are the ranges of their elements."""
    for attempt in range(tries):
        # (the more attempts, the smaller the numbers)
        numbers = {}
        for name, (low, high) in conditions.ranges().items():
            numbers[name] = some_number(chance, low, max(low, min(high, low + (high - low) // 2 ** (attempt // 4))))
        numbers = mended(chance, conditions, numbers)
        launch = numbers and launch_of(chance, conditions, kinds, numbers)
        if launch and not conditions.unmet(launch):
            return launch
    return None


def launch_of(chance, conditions, kinds, numbers):
    """A launch with these counts and arguments: mostly with the least lengths, and with the outermost words; none where one is too long."""
    lengths, ends = {}, {}
    for name, least in conditions.lengths:
        least = max(0, least.value(numbers))
        lengths[name] = min(LONGEST, least + chance.choice([0, 0, 0, chance.randrange(64)])) if least <= LONGEST else least
        low, high = kinds[name]
        for buffer, sign, sum_ in conditions.values:
            if buffer == name:
                end = sum_.value(numbers)
                low, high = (max(low, end), high) if sign == ">=" else (low, min(high, end))
        # (what no word meets holds of an empty buffer alone, and nobody means that)
        if lengths[name] > LONGEST or low > high:
            return None
        if lengths[name]:
            ends[name] = low, high
    groups = tuple(numbers[f"groups.{at}"] for at in range(3))
    return Launch(groups, {name: numbers[name] for name, _, _ in conditions.arguments}, lengths, ends)


def least_launch(conditions, kinds):
    """A launch that meets conditions, with small numbers where there is one; none where none is found."""
    numbers = {name: low for name, (low, _) in conditions.ranges().items()}
    chance = random.Random(1)
    launch = launch_of(chance, conditions, kinds, numbers)
    if launch and not conditions.unmet(launch):
        return launch
    return some_launch(chance, conditions, kinds)
