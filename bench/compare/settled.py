#!/usr/bin/env python3
"""Compares which obligations the checker's domain settles with an independent program.

    settled.py FOLDER COUNT SEED [MOST]     COUNT random kernels, one in four with masks and shifts in its indexes; FOLDER has the modules
                                            of the independent program; of each kernel at most MOST obligations, else 12, are tried one
                                            by one, and all with MOST 0

The conditions get a line that no launch meets, `require 0 >= 1`. So of each obligation the facts contradict each other, by one line of a
derivation, and the domain knows of each number what it knew. Places get random lines, and loops random bounds. A certificate that has
entries for just those obligations that the independent program does not settle has to be accepted; then each entry that is tried is put
without a derivation, and the answer has to be 52 with its number. A range claim of a `uint` has an entry or none at random.

Build the program first: ./kverify build
"""
import os
import re
import sys
import tempfile

sys.path.insert(0, os.path.dirname(os.path.dirname(os.path.abspath(__file__))))
from common import dice_of, first_line, print_counts, put
from makers import Guarded, Masked

# Kernels with more obligations are left out.
LARGE = 4000
LINES = 12


def without_launches(conditions):
    """Conditions that no launch meets, with the greatest budget."""
    return re.sub("budget .*\n", "require 0 >= 1\nbudget 1000000000000\n", conditions)


class Answers:
    """The independent program: kernels, random lines of certificates for them, and their obligations."""

    def __init__(self, folder):
        sys.path.insert(0, folder)
        import cert
        import check
        import config
        import domain
        import fuzz
        import linear
        import obligations
        import walk

        config.stage("e")
        self.cert, self.check, self.domain, self.fuzz, self.linear, self.walk = cert, check, domain, fuzz, linear, walk
        self.refusal, self.pairs = config.Refused, obligations.Pairs

    def source(self, rng):
        def changed():
            text, groups, values, lengths = rng.choice(self.fuzz.CORPUS)
            return self.fuzz.mutate(rng, text), self.fuzz.as_cond(groups, values, dict(lengths))

        makers = (lambda: self.fuzz.Gen(rng).kernel(), lambda: Guarded(rng).kernel(), changed, lambda: Masked(rng).kernel())
        text, conditions = rng.choice(makers)()
        return text.encode(), without_launches(conditions).encode()

    def form(self, rng, names, by=1):
        """A random form over some names, of multiples of a number and a constant that mostly is one too."""
        form = self.linear.const(by * rng.randrange(-3, 9) + (rng.randrange(by) if rng.random() < 0.3 else 0))
        for name in rng.sample(names, min(len(names), rng.choice([0, 1, 1, 2, 2, 3]))):
            form = form + self.linear.sym(name).times(by * rng.choice([1, 1, -1, -1, 2, -2, 4, 64]))
        return form

    def lines(self, rng, typed, place):
        """Random lines of a place."""
        names = sorted(self.walk.place_symbols(typed, place))
        facts = [self.form(rng, names) for _ in range(rng.choice([0, 0, 1, 2, 3]))]
        moduli = [rng.choice([2, 3, 4, 8, 64]) for _ in range(rng.choice([0, 0, 1, 2]))]
        mods = [(it, self.form(rng, names, it)) for it in moduli]
        variables = self.walk.symbol_vars(typed, typed.visible[place.anchor]) if place.head is None else []
        same = [typed.vars[it].name for it in variables if rng.random() < 0.5]
        return self.walk.Lines(same, facts, mods) if same or facts or mods else None

    def bound(self, rng, typed, loop):
        form = self.form(rng, sorted(self.walk.test_symbols(typed, loop)))
        return self.walk.Bound(*rng.choice([("down", rng.randrange(1, 4)), ("halve", None)]), rng.randrange(-1, 9), form)

    def walked(self, rng, kernel, conditions):
        """The walk of a kernel with random lines, and its certificate without entries yet."""
        typed, read, places = self.check.front(kernel, conditions)
        certificate = self.cert.Certificate()
        for place in places:
            lines = self.lines(rng, typed, place) if place.stmt is not None else None
            if lines:
                certificate.places[place.name] = lines
        certificate.loops = {it: self.bound(rng, typed, it) for it in sorted(typed.loops)}
        chosen = {}
        has_entry = lambda it: chosen.setdefault(it.number, rng.random() < 0.8)
        domain = self.domain.checker_domain(True)
        return self.walk.Walker(typed, read, domain, places, certificate.places, certificate.loops, has_entry).all(), certificate, chosen

    def entry(self, rng, obligation, lines):
        what = obligation.what
        if what == "mod":
            return self.cert.Entry("quot", self.linear.ZERO, lines)
        return self.cert.Entry(rng.choice(["pos", "neg"]) if what in ("div0", "divov") else "show", None, lines)

    def without_bits(self, walked):
        """How many pairs of accesses are settled without known bits: only their residue tells anything."""

        class Blind(self.domain.KnownBits):
            def residue(self, a):
                return 1, 0

        pairs = self.pairs(walked)
        pairs.dom = self.domain.Product(self.domain.Product(self.domain.Interval(), self.domain.Congruence()), Blind())
        return sum(it.settled for it in pairs.all() if it.what == "race")


class Tried:
    """A kernel with random lines: its obligations, and the certificates that tell which are settled."""

    def __init__(self, answers, rng):
        self.kernel, self.conditions = answers.source(rng)
        self.walked, certificate, chosen = answers.walked(rng, self.kernel, self.conditions)
        pairs = answers.pairs(self.walked)
        if pairs.count() > LARGE:
            raise answers.refusal(53)
        self.obligations = [*self.walked.claims, *pairs.all()]
        self.open = [it for it in self.obligations if not it.settled]
        self.answers, self.certificate, self.rng = answers, certificate, rng
        shown = [("g", len(self.walked.launching.facts))]
        self.entries = {it.number: answers.entry(rng, it, shown) for it in self.open if chosen.get(it.number, True)}

    def text(self, of=None):
        """The certificate, where the entry of one obligation shows nothing."""
        entries = dict(self.entries)
        if of:
            entries[of.number] = self.answers.entry(self.rng, of, [])
        self.certificate.obs = dict(sorted(entries.items()))
        return self.answers.cert.write(self.certificate, 2)

    def sample(self, most):
        """Those that are tried one by one: half of them pairs of accesses, where there are."""
        races = [it for it in self.open if it.what == "race"]
        others = [it for it in self.open if it.what != "race"]
        if not most or len(self.open) <= most:
            return self.open
        some = self.rng.sample(races, min(len(races), max(most // 2, most - len(others))))
        return some + self.rng.sample(others, most - len(some))


class Program:
    """The program's answers, by files in a folder."""

    def __init__(self, folder):
        self.names = [os.path.join(folder, name) for name in ("kernel.cl", "conditions.txt", "certificate.txt")]

    def take(self, kernel, conditions):
        """Takes the kernel of which certificates are checked from now on."""
        put(self.names[0], kernel)
        put(self.names[1], conditions)

    def checked(self, certificate):
        put(self.names[2], certificate)
        return first_line("check", *self.names)


def compare(folder, count, seed, most):
    answers = Answers(folder)
    names = ("kernels", "obligations", "settled", "pairs of accesses", "of these settled", "without known bits", "tried one by one", "different")
    found = dict.fromkeys(names, 0)
    with tempfile.TemporaryDirectory() as place:
        program = Program(place)
        for attempt, rng in dice_of(seed):
            if found["kernels"] >= count:
                break
            try:
                tried = Tried(answers, rng)
            except answers.refusal:
                continue
            program.take(tried.kernel, tried.conditions)
            pairs = [it for it in tried.obligations if it.what == "race"]
            sample = tried.sample(most)
            found["kernels"] += 1
            found["obligations"] += len(tried.obligations)
            found["settled"] += len(tried.obligations) - len(tried.open)
            found["pairs of accesses"] += len(pairs)
            found["of these settled"] += sum(it.settled for it in pairs)
            found["tried one by one"] += len(sample)
            for of, wanted in [(None, "accepted"), *((it, f"refused 52 {it.number}") for it in sample)]:
                got = program.checked(tried.text(of))
                if got != wanted:
                    found["different"] += 1
                    print(f"kernel {seed}:{attempt}: {got}, not {wanted}{f': {of.what}' if of else ''}", flush=True)
            found["without known bits"] += answers.without_bits(tried.walked)
    print_counts(found)
    return found["different"]


def main():
    if len(sys.argv) not in (4, 5):
        sys.exit(__doc__)
    most = int(sys.argv[4]) if len(sys.argv) == 5 else 12
    sys.exit(1 if compare(sys.argv[1], int(sys.argv[2]), sys.argv[3], most) else 0)


if __name__ == "__main__":
    main()
