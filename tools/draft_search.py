"""The search of a draft: conditions under which `prove` accepts a kernel, as weak as they are found.

It begins with the widest text, and takes the lines that `explain` says to help. Where that is not enough it begins again with small ranges,
long buffers, and lines that are plausible, down to one launch. What is accepted then is weakened while it still is: ranges grow, buffers
become shorter, and lines leave.
"""
import itertools

from draft_conditions import GROUPS, LARGEST, LONGEST, REQUIRES, STEPS, Conditions, Sum, least_launch
from draft_prover import OutOfTime

# The upper ends of the counts of groups, by how many dimensions have groups; and those of small launches.
WIDEST_GROUPS = {0: [], 1: [GROUPS], 2: [1024, 1024], 3: [128, 128, 64]}
SMALL_GROUPS = {0: [], 1: [16], 2: [16, 16], 3: [8, 8, 8]}
SMALL, LARGE = 64, 4096
# Ranges of arguments with which a strong text is begun.
SMALL_RANGES = [(16, SMALL), (1, 4), (1, SMALL)]
# Upper ends of arguments that are tried together, from the widest.
HIGHS = [LARGEST, 2**31 - 1, 2**24, 2**20, 65536, 4096, 1024, 256]
# How far arguments go before lengths are numbers.
MODEST = [1024, 256]
# Lower ends of arguments that are tried.
LOWS = [1, 2, 3, 4, 8, 16]
# Refusals behind which there is something to search: too many paths or too large numbers, steps past the budget, findings, no end in time.
SEARCHED = (53, 54, 56, 60, None)
ROUNDS = 4
# One question may take this part of the limit.
SHARE = 1 / 3
# How many sums are tried as the length of one buffer, and which numbers of the text as factors.
SUMS, FACTORS = 32, 6
# Which numbers buffers hold at most that are only loaded, and how many there are where a replay is looked at.
HELD = [65535, 4095, 1023, 255, 15]
REPLAYED = 65536
# Findings that no line helps against, where a replay of small launches confirms them.
HOPELESS = ("race confirmed: ", "divergence confirmed: ")


class NotRead(Exception):
    """The kernel or the head is refused as a text."""


class Search:
    """The search for one kernel. Where a launch is given, each text that is tried is one that it meets."""

    def __init__(self, kernel, prover, head=(), launch=None):
        self.kernel, self.prover, self.head, self.launch = kernel, prover, head, launch
        self.types = {name: (low, high) for name, low, high in kernel.values()}
        # Arguments that no sum is made of; they keep their ranges.
        self.floats = {name for it in kernel.parameters if it.kind == "value" and it.is_float for name in it.names}
        # The weakest text that was accepted; that with least left, and what is said of it; what is said where no line helps; lines that
        # the launch does not meet; the last text of `mend`; and lengths that helped.
        self.found = self.nearest = self.hopeless = self.mended = None
        self.missed, self.lengths = [], {}

    def run(self):
        """Searches until nothing is to be tried, or the limit of work is reached, and returns the weakest text that was accepted."""
        try:
            self.strengthen()
            if self.found:
                self.shorten()
                self.weaken()
        except OutOfTime:
            pass
        return self.found

    # Texts

    def full_ranges(self):
        return {**self.group_ranges(WIDEST_GROUPS), **self.types}

    def group_ranges(self, most):
        dimensions = sorted(self.kernel.dimensions)
        ends = dict(zip(dimensions, most[len(dimensions)]))
        return {f"groups.{at}": (1, ends.get(at, 1)) for at in range(3)}

    def small_ranges(self, least=1, most=SMALL):
        small = {name: (min(high, least), min(high, most)) for name, (_, high) in self.types.items()}
        return {**self.group_ranges(SMALL_GROUPS), **small, **{name: self.types[name] for name in self.floats}}

    def single_ranges(self, size):
        """The ranges of one launch: the one that is given, or one group and arguments of one size."""
        if self.launch:
            return {name: (it, it) for name, it in self.launch.numbers().items()}
        return {**self.small_ranges(size, size), **{f"groups.{at}": (1, 1) for at in range(3)}}

    def text(self, ranges):
        """A text of ranges alone."""
        groups = tuple(self.with_launch(f"groups.{at}", *ranges[f"groups.{at}"]) for at in range(3))
        arguments = tuple((name, *self.with_launch(name, *ranges[name])) for name in self.types)
        return Conditions(self.head, groups, arguments, tuple((name, Sum()) for name in self.kernel.buffers()))

    def with_launch(self, name, low, high):
        """A range that has what the launch has."""
        if not self.launch:
            return low, high
        number = self.launch.numbers()[name]
        return min(low, number), max(high, number)

    def longest(self, name):
        return Sum.number(self.launch.lengths[name] if self.launch else LONGEST)

    def with_long_buffers(self, conditions):
        return conditions.change(lengths=tuple((name, self.longest(name)) for name, _ in conditions.lengths))

    def with_small_values(self, conditions):
        """A text in which what is only loaded is small."""
        for name, (low, _) in self.kernel.loaded().items():
            least, most = (0, 1) if not self.launch else self.launch.ends.get(name, (0, 1))
            if low < 0:
                conditions = conditions.with_values(name, ">=", Sum.number(least))
            conditions = conditions.with_values(name, "<=", Sum.number(most))
        return conditions

    def with_requires(self, conditions):
        """A text with all plausible requirements that a launch meets which meets the text."""
        launch = self.launch or least_launch(conditions, self.kernel.buffers())
        names = [it for it in conditions.ranges() if it in self.types and it not in self.floats]
        sums = [Sum([(1, (it,))]) for it in names] + self.sizes()
        numbers = launch.numbers() if launch else {}
        for left, right in itertools.permutations(sums, 2):
            is_of_arguments = (left.names() | right.names()) & set(names)
            if launch and is_of_arguments and left.value(numbers) >= right.value(numbers) and len(conditions.requires) < REQUIRES:
                conditions = conditions.with_require(left, right)
        return conditions

    def sizes(self):
        """How many items a dimension has, of those with groups."""
        items = self.items()
        return [Sum([(items[at], (f"groups.{at}",))]) for at in sorted(self.kernel.dimensions)]

    def items(self):
        told = [tuple(map(int, it.split()[1:])) for it in self.head if it.startswith("local_size ")]
        return self.kernel.size or (told or [(1, 1, 1)])[0]

    # Questions

    def ask(self, conditions, command="prove"):
        """What is said of a text. One that is accepted is kept where it is allowed, and one with less left than those before."""
        answer = self.prover.ask(command, conditions, self.prover.seconds * SHARE)
        if answer.is_accepted():
            if self.is_allowed(conditions):
                self.found = conditions
        elif answer.number not in SEARCHED:
            # (a text that is made later may have too many terms, say)
            if not self.nearest:
                raise NotRead(answer.head())
        elif not self.nearest or answer.left() < self.nearest[1].left():
            self.nearest = conditions, answer
        return answer

    def is_allowed(self, conditions):
        """Whether the launch meets a text, or, without one, some launch does."""
        if self.launch:
            return not conditions.unmet(self.launch)
        return least_launch(conditions, self.kernel.buffers()) is not None

    def holds(self, conditions):
        """Whether a text is accepted, and allowed; it is kept then."""
        if conditions == self.found:
            return True
        if self.launch and not self.is_allowed(conditions):
            return False
        self.ask(conditions)
        return self.found == conditions

    # Lines that help

    def mend(self, conditions, rounds=ROUNDS):
        """Takes the lines that help, again and again, and returns whether the text is accepted then. The last text is kept."""
        for _ in range(rounds):
            self.mended = conditions
            answer = self.ask(conditions, "explain")
            if self.found == conditions:
                return True
            for line in answer.remedies():
                conditions = self.with_line(conditions, line)
            if conditions == self.mended:
                return False
        self.mended = conditions
        return self.holds(conditions)

    def with_line(self, conditions, line):
        """A text with a line more, which joins a like one; the text itself where a launch that is given does not meet the line."""
        if any(line.startswith(f"length {name} ") and length == self.longest(name) for name, length in conditions.lengths):
            return conditions
        more = joined(conditions, line)
        if self.launch and set(more.unmet(self.launch)) - set(conditions.unmet(self.launch)):
            self.missed.append(line)
            return conditions
        # (of a buffer that may be empty it may be said that what is loaded for it as an index is below 0)
        return more if self.launch or self.is_allowed(more) else conditions

    # To a text that is accepted

    def strengthen(self):
        """Finds a text that is accepted: from the widest one, or else from strong ones."""
        widest = self.text(self.full_ranges())
        self.ask(widest)
        if self.found or self.mend(widest, 2) or self.is_hopeless():
            return
        if any(self.mend(self.text(self.small_ranges(*it))) for it in SMALL_RANGES):
            return
        if self.guess_lengths():
            return
        self.lengths = dict(self.mended.lengths)
        for step in (self.with_long_buffers, self.with_small_values):
            if self.mend(step(self.mended), 2):
                return self.raise_values()
        single = self.with_small_values(self.with_long_buffers(self.text(self.single_ranges(SMALL))))
        if self.mend(single, 2):
            self.widen_single()
            self.leave_out_requires()
            self.raise_values()

    def guess_lengths(self):
        """Has buffers of which nothing is known as long as an argument says, where more is shown then; whether the text is accepted."""
        arguments = [it for it in self.types if it not in self.floats]
        for name in (name for name, length in self.mended.lengths if length == Sum()):
            # (first those of which no other length is the sum)
            used = {it for _, length in self.mended.lengths for it in length.names()}
            for argument in sorted(arguments, key=lambda it: it in used):
                before = self.mended
                if self.mend(before.with_length(name, Sum([(1, (argument,))])), 2):
                    return True
                if self.ask(self.mended, "explain").left() < self.ask(before, "explain").left():
                    break
                self.mended = before
        return False

    def is_hopeless(self):
        """Whether a replay confirms what no line helps against at launches of several sizes."""
        for ranges in (self.small_ranges(), self.single_ranges(SMALL), self.single_ranges(LARGE)):
            conditions = self.with_small_values(self.text(ranges))
            answer = self.ask(conditions.change(lengths=tuple((name, Sum.number(REPLAYED)) for name, _ in conditions.lengths)))
            if not any(it.startswith(HOPELESS) for it in answer.findings):
                return False
        self.hopeless = answer
        return True

    def widen_single(self):
        """Goes from one launch to small ranges, with requirements where these help."""
        related = self.with_requires(self.found)
        ranges = self.text(self.small_ranges()).ranges()
        if not self.holds(with_ranges(self.found, ranges)):
            self.holds(with_ranges(related, ranges))

    # Shorter buffers

    def shorten(self):
        """Finds lengths for buffers that are as long as any, or as those of a replay."""
        long = [name for name, length in self.found.lengths if length in (self.longest(name), Sum.number(REPLAYED))]
        long = [name for name in long if not self.find_length(name)]
        if long:
            self.widen_together(MODEST)
            for name in long:
                self.find_number(name)

    def find_length(self, name):
        """Shortens a buffer, by what is said to help, or else by sums that are tried; whether one is found."""
        none = self.found.with_length(name, Sum())
        if self.holds(none):
            return True
        told = [Sum.of(it.split(" >= ")[1]) for it in self.ask(none, "explain").remedies() if it.startswith(f"length {name} >= ")]
        known = [self.lengths[name]] if name in self.lengths else []
        return any(self.holds(self.found.with_length(name, it)) for it in [*known, *told, *self.sums()])

    def sums(self):
        """Sums that a length may be, the smaller ones first."""
        small = {name: min(high, 5) for name, (_, high) in self.found.ranges().items()}
        singles = [Sum([(1, (it,))]) for it, most in small.items() if most > 1 and it not in self.floats]
        singles += self.sizes()
        factors = [it for it in self.kernel.numbers if 1 < it <= 4096][:FACTORS]
        found = {one.plus(Sum.number(it)) for one in singles for it in (0, 1)} | {one.times(it) for one in singles for it in factors}
        found |= {product(*it) for it in itertools.combinations_with_replacement(singles, 2)}
        found |= {Sum.number(it) for it in self.kernel.numbers if 0 < it <= 2**20}
        return sorted((it for it in found if it and it.may_be_said()), key=lambda it: (it.value(small), str(it)))[:SUMS]

    def find_number(self, name):
        """Shortens a buffer to the least power of two with which the text is accepted."""
        powers = [2**it for it in range(32) if 2**it < self.found.length(name).constant()]
        self.find_last(powers[::-1], lambda it: self.found.with_length(name, Sum.number(it)))

    def find_last(self, numbers, text):
        """Tries numbers by halving, of which one is less likely to be accepted than those before it."""
        first, last = 0, len(numbers)
        while first < last:
            middle = (first + last) // 2
            if self.holds(text(numbers[middle])):
                first = middle + 1
            else:
                last = middle

    # To weaker texts

    def weaken(self):
        """Widens ranges, leaves lines out, and lowers the budget, while the kernel is still accepted."""
        self.widen()
        self.leave_out()
        self.spend()

    def widen(self):
        """Widens ranges: all of them at once, then the counts of groups, then all arguments together, then one by one."""
        full = self.full_ranges()
        if self.holds(with_ranges(self.found, full)):
            return
        # (where ranges are wide, relations may help)
        any(self.mend(with_ranges(self.found, it), 2) for it in (full, self.natural_ranges()))
        self.widen_groups()
        self.widen_together(HIGHS)
        for name in self.types:
            self.widen_argument(name, *full[name])
        for name, values in self.group_ranges(WIDEST_GROUPS).items():
            self.widen_end(name, [2**at for at in range(17)], values[1])

    def natural_ranges(self):
        """The widest counts of groups, and arguments from 0 to what an `int` may be, or as wide as they are."""
        ranges = self.group_ranges(WIDEST_GROUPS)
        for name, (least, most) in self.types.items():
            low, high = self.found.ranges()[name]
            ranges[name] = min(low, max(least, 0)), max(high, min(most, 2**31 - 1))
        return ranges

    def widen_groups(self):
        groups = self.group_ranges(WIDEST_GROUPS)
        if not self.holds(with_ranges(self.found, groups)):
            for name, (_, high) in groups.items():
                self.widen_end(name, [2**at for at in range(17)], high)

    def widen_together(self, highs):
        """Gives all arguments the widest of some upper ends, if one is accepted, and 0 as the lower end, if that is."""
        for highest in highs:
            ranges = {name: (low, max(high, min(highest, self.types[name][1])))
                      for name, (low, high) in self.found.ranges().items() if name in self.types}
            from_0 = {name: (min(low, 0), high) for name, (low, high) in ranges.items()}
            if self.holds(with_ranges(self.found, from_0)) or self.holds(with_ranges(self.found, ranges)):
                return

    def widen_argument(self, name, least, most):
        """Widens the range of an argument: its upper end, then its lower one."""
        numbers = [it for it in self.kernel.numbers if it < 2**20]
        ends = {it + more for it in numbers for more in (-1, 0, 1)} | {2**at - more for at in range(33) for more in (0, 1)}
        self.widen_end(name, sorted(ends), most)
        old, high = self.found.ranges()[name]
        for low in (it for it in (least, 0, *LOWS) if it < old):
            if self.holds(self.found.with_range(name, low, high)):
                break
        if self.found.ranges()[name][0] == 0 and least < 0:
            self.find_last([-(2**at) for at in range(32) if -(2**at) > least], lambda it: self.found.with_range(name, it, high))

    def widen_end(self, name, ends, most):
        """Raises the upper end of a range to the largest of some numbers with which the text is accepted."""
        low, high = self.found.ranges()[name]
        ends = [it for it in [*ends, most] if high < it <= most]
        if ends and not self.holds(self.found.with_range(name, low, most)):
            self.find_last(ends, lambda it: self.found.with_range(name, low, it))

    def leave_out(self):
        """Leaves out lines that are not needed, and widens what buffers hold."""
        self.leave_out_requires()
        for line in self.found.values:
            if not self.holds(self.found.change(values=tuple(it for it in self.found.values if it != line))):
                self.widen_values(*line)
        for name, length in self.found.lengths:
            if length != Sum() and not self.holds(self.found.with_length(name, Sum())):
                self.simplify(name)

    def simplify(self, name):
        """Leaves out terms of a length, and has it without counts of groups, if it can."""
        for names, factor in [*self.found.length(name).terms.items()]:
            if factor > 0 and len(self.found.length(name).terms) > 1:
                self.holds(self.found.with_length(name, self.found.length(name).plus(Sum([(-factor, names)]))))
        is_of_arguments = [it for it in self.sums() if it.names() and it.names() <= set(self.types)]
        if self.found.length(name).names() - set(self.types):
            any(self.holds(self.found.with_length(name, it)) for it in is_of_arguments)

    def leave_out_requires(self):
        """Leaves out requirements, the last ones first, or puts the lower end of a range in their place."""
        for line in self.found.requires[::-1]:
            without = self.found.change(requires=tuple(it for it in self.found.requires if it != line))
            if not self.holds(without):
                any(self.holds(it) for it in raised(without, line[0]))

    def raise_values(self):
        """Has all buffers that are only loaded hold larger numbers, if they can."""
        for most in HELD:
            larger_values = self.found
            for name, sign, sum_ in self.found.values:
                if sum_.is_number():
                    larger_values = larger_values.with_values(name, sign, Sum.number(most if sign == "<=" else -most))
            if self.holds(larger_values):
                return

    def widen_values(self, name, sign, sum_):
        if sum_.is_number():
            sides = 1 if sign == "<=" else -1
            numbers = [2**at for at in range(32) if 2**at > abs(sum_.constant())]
            self.find_last(numbers, lambda it: self.found.with_values(name, sign, Sum.number(sides * it)))

    def spend(self):
        """Lowers the budget to what is known to be enough."""
        enough = self.ask(self.found.change(budget=1), "explain").enough()
        if enough and enough < STEPS:
            self.holds(self.found.change(budget=enough))


def joined(conditions, line):
    """A text with a line more, which joins a like one."""
    word, _, rest = line.partition(" ")
    if word == "arg":
        name, ends = rest.split()
        return narrowed(conditions, name, *map(int, ends.split("..")))
    if word == "values":
        name, sign, sum_ = rest.split(" ", 2)
        return conditions.with_values(name, sign, Sum.of(sum_))
    left, right = rest.split(" >= ")
    if word == "length":
        return conditions.with_length(left, larger(conditions.length(left), Sum.of(right)))
    return required(conditions, Sum.of(left), Sum.of(right))


def narrowed(conditions, name, low, high):
    old = conditions.ranges()[name]
    low, high = max(low, old[0]), min(high, old[1])
    return conditions.with_range(name, low, high) if low <= high else conditions


def required(conditions, left, right):
    """A text with a requirement, which is an end of a range where it is of one name alone."""
    difference = left.plus(right.times(-1))
    (names, *others) = [it for it in difference.terms if it] or [()]
    if others or len(names) != 1 or difference.terms[names] > 0:
        return conditions.with_require(left, right)
    low, high = conditions.ranges()[names[0]]
    return narrowed(conditions, names[0], low, difference.constant() // -difference.terms[names])


def raised(conditions, large):
    """Texts in which an argument that a line asks to be large begins later."""
    if len(large.names()) == 1 and (name := large.names().pop()) in {it for it, *_ in conditions.arguments}:
        low, high = conditions.ranges()[name]
        for least in (it for it in LOWS if low < it <= high):
            yield conditions.with_range(name, least, high)


def larger(one, other):
    """A sum that is at least as large as two others, where neither is below 0."""
    difference = other.plus(one.times(-1))
    if difference.is_number():
        return other if difference.constant() > 0 else one
    if one == Sum():
        return other
    both = one.plus(other)
    return both if both.may_be_said() else other


def product(one, other):
    """The product of two sums of one term each; none where it has more names than a term may have."""
    terms = [(factor * more, (*names, *others)) for names, factor in one.terms.items() for others, more in other.terms.items()]
    return Sum(terms) if all(len(names) <= 2 for _, names in terms) else None


def with_ranges(conditions, ranges):
    for name, (low, high) in ranges.items():
        conditions = conditions.with_range(name, low, high)
    return conditions
