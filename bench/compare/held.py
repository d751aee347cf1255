"""What lines of conditions say that buffers hold, taught to the independent program of `wide.py`: its launches have buffers within the lines,
its single items load numbers within them, and each store has to keep them."""


class NotKept(Exception):
    """A store leaves what its buffer's lines let it hold."""


def bounds_of(launch, typed, conditions, told):
    """Of each buffer with lines the least and the greatest number of its kind that they allow at a launch."""
    kinds, bounds = {it.name: launch.RANGE[it.kind] for it in typed.buffers}, {}
    for name, is_upper, terms in conditions.values:
        least, greatest = bounds.get(name, kinds[name])
        number = launch.total(terms, told.groups, told.args)
        bounds[name] = (least, min(greatest, number)) if is_upper else (max(least, number), greatest)
    return bounds


def is_within(bounds, name, number):
    return name not in bounds or bounds[name][0] <= number <= bounds[name][1]


def within(bounds, name, number):
    """The number, or the end of the buffer's range that is nearest to it."""
    return min(max(number, bounds[name][0]), bounds[name][1]) if name in bounds else number


class Guarded:
    """An item whose loads are answered within the lines, and whose stores are looked at."""

    def __init__(self, item, bounds):
        self.__dict__.update(item=item, bounds=bounds)

    def __getattr__(self, name):
        return getattr(self.item, name)

    def __setattr__(self, name, value):
        setattr(self.item, name, value)

    def step(self, load, store):
        def held(name, index, site):
            word = load(name, index, site)
            return type(word)(word.kind, within(self.bounds, name, word.n))

        def kept(name, index, word, site):
            store(name, index, word, site)
            if not is_within(self.bounds, name, word.n):
                raise NotKept(f"a store of {word.n} to {name} at {site}")

        return self.item.step(held, kept)


def teach(fuzz, launch):
    """Changes what the module does at launches of conditions with lines."""
    random_launch, run = fuzz.random_launch, fuzz.runner.run

    class Solo(fuzz.Solo):
        def __init__(self, typed, conditions, certificate, told, *others):
            super().__init__(typed, conditions, certificate, told, *others)
            self.item = Guarded(self.item, told.held)

        def run(self, limit):
            try:
                return super().run(limit)
            except NotKept as broken:
                return str(broken)

    def launch_within(rng, typed, conditions):
        lines, conditions.values = conditions.values, []
        try:
            told = random_launch(rng, typed, conditions)
        finally:
            conditions.values = lines
        if told is None:
            return None
        told.held = bounds_of(launch, typed, conditions, told)
        for name, (least, greatest) in told.held.items():
            if told.buffers[name] and least > greatest:
                return None
            told.buffers[name] = [within(told.held, name, word) for word in told.buffers[name]]
        launch.meets(conditions, told)
        return told

    def run_kept(typed, told):
        memory = run(typed, told)
        for name, words in memory.items():
            if any(not is_within(told.held, name, getattr(it, "n", it)) for it in words):
                raise NotKept(f"what a run leaves in {name}")
        return memory

    fuzz.Solo, fuzz.random_launch, fuzz.runner.run = Solo, launch_within, run_kept
