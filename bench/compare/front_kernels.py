"""Random kernels of OpenCL C as people write it: each work-item stores to its own elements, indexes are masked, no signed sum leaves its
type, and no divisor is 0. A statement is a text, or a tuple of texts and lists of statements, so that one of them can be left out. A kernel
has one theme, and few tests and comparisons, so that its search is short."""

RANGES = {"bool": (0, 1), "char": (-128, 127), "uchar": (0, 255), "short": (-32768, 32767), "ushort": (0, 65535),
          "int": (-(2**31), 2**31 - 1), "uint": (0, 2**32 - 1), "size_t": (0, 2**32 - 1)}
NARROW = ["char", "uchar", "short", "ushort"]
PARTED = NARROW + ["int", "uint"]
SIGNED = {"uchar": "char", "ushort": "short", "uint": "int", "char": "char", "short": "short", "int": "int"}
UNSIGNED = {"char": "uchar", "short": "ushort", "int": "uint", "uchar": "uchar", "ushort": "ushort", "uint": "uint"}
BITS = {"char": 8, "uchar": 8, "short": 16, "ushort": 16, "int": 32, "uint": 32}
WIDTHS = [2, 3, 4, 8, 16]
LETTERS = "xyzw"
DIGITS = "0123456789abcdef"


def type_name(kind, width=1):
    return kind if width == 1 else f"{kind}{width}"


class Term:
    """An expression: its type, the ends between which its value is, and which names it reads and stores; memory is one name, `*`."""

    def __init__(self, text, kind, ends=None, reads=(), writes=()):
        self.text, self.kind = text, kind
        self.low, self.high = ends if ends else RANGES[kind]
        self.reads, self.writes = frozenset(reads), frozenset(writes)

    def meets(self, other):
        """Whether C leaves open what comes of both, side by side."""
        return bool(self.writes & (other.reads | other.writes) or other.writes & self.reads)


def made_of(text, kind, parts, ends=None):
    return Term(text, kind, ends, *(frozenset().union(*(getattr(it, what) for it in parts)) for what in ("reads", "writes")))


def promoted(kind):
    return "int" if kind in NARROW or kind == "bool" else kind


def fits(ends, kind):
    return RANGES[kind][0] <= ends[0] and ends[1] <= RANGES[kind][1]


def flat(statements):
    """The lines of statements."""
    for it in statements:
        if isinstance(it, str):
            yield it
        else:
            for part in it:
                yield from [part] if isinstance(part, str) else flat(part)


class Variable:
    def __init__(self, name, kind, width=1, is_fixed=False, ends=None):
        self.name, self.kind, self.width, self.is_fixed, self.ends = name, kind, width, is_fixed, ends


class Array:
    """Elements that an index finds behind `base`: their number is a power of two."""

    def __init__(self, name, kind, width, count, base="", is_stored=True, space="__global", is_of_file=False):
        self.name, self.kind, self.width, self.count, self.base = name, kind, width, count, base
        self.is_stored, self.space, self.is_of_file = is_stored, space, is_of_file


class Function:
    def __init__(self, name, kind, parameters, does_store, ways):
        self.name, self.kind, self.parameters, self.does_store, self.ways = name, kind, parameters, does_store, ways


class Maker:
    """Makes one kernel, its conditions, and what its launches are made of."""

    def __init__(self, dice, is_new):
        self.dice, self.is_new = dice, is_new
        self.scopes, self.arrays, self.functions, self.macros = [[]], [], [], []
        self.count, self.calls, self.quiet, self.loops = 0, 0, 0, 0
        # how many tests may yet part the ways through the kernel
        self.theme = dice.choice(["plain", "jumps", "jumps", "jumps"] if is_new else ["plain", "vectors", "standard", "arrays"])
        self.is_plain = self.theme in ("plain", "arrays", "jumps")
        self.ways = dice.randint(1, 2) if self.theme == "vectors" else dice.randint(2, 5)
        # and how many values may, as a comparison does
        self.splits = dice.randint(1, 3)
        self.jumps, self.leaving = [], None
        self.typedefs = {}

    # ---- names

    def fresh(self, front):
        self.count += 1
        return f"{front}{self.count}"

    def spelled(self, kind, width=1):
        """A spelling of a type."""
        if width == 1 and self.dice.random() < 0.2:
            return self.dice.choice({"uint": ["unsigned int", "unsigned"], "char": ["signed char", "char"], "uchar": ["unsigned char"],
                                     "ushort": ["unsigned short"], "int": ["signed int"]}.get(kind, [kind]) + self.typedefs.get(kind, []))
        return type_name(kind, width)

    def variables(self, test):
        return [it for scope in self.scopes for it in scope if test(it)]

    def declare(self, variable):
        self.scopes[-1].append(variable)

    # ---- scalars

    def literal(self):
        dice = self.dice
        shape = dice.randrange(9)
        number = dice.choice([0, 1, 2, 3, 5, 7, 8, 31, 100, 127, 128, 255, 256, 32767, 65535, 2**31 - 1, dice.randrange(2**31)])
        if shape == 0:
            letter = dice.choice("aZ09")
            return Term(f"'{letter}'", "int", (ord(letter),) * 2)
        if shape == 1:
            return Term("0%o" % number, "int", (number,) * 2)
        if shape == 2:
            number = dice.choice([2**31, 2**32 - 1, 2**31 + dice.randrange(2**31)])
            return Term(dice.choice(["0x%x", "0x%XU", "%du"]) % number, "uint", (number,) * 2)
        if shape == 3:
            small = dice.randrange(1, 200)
            return Term(f"(-{small})", "int", (-small,) * 2)
        spelling = dice.choice(["%d", "0x%x", "%du", "%dU"])
        return Term(spelling % number, "uint" if spelling[-1] in "uU" else "int", (number,) * 2)

    def index(self, count, depth):
        if count == 1:
            return Term("0", "int", (0, 0))
        if self.dice.random() < 0.3:
            number = self.dice.randrange(count)
            return Term(str(number), "int", (number,) * 2)
        self.quiet += 1
        inner = self.scalar(min(depth, 1))
        self.quiet -= 1
        return made_of(f"({inner.text} & {count - 1})", "int", [inner])

    def element(self, array, depth):
        """An element of an array, and what its index reads."""
        index = self.index(array.count, depth)
        shown = index.text.replace("(", "", 1)[:-1] if not array.base and index.text.startswith("(") else index.text
        if array.base:
            shown = f"{array.base} + {index.text}"
        return f"{array.name}[{shown}]", index

    def leaf(self):
        dice = self.dice
        shape = dice.randrange(10)
        scalars = self.variables(lambda it: it.width == 1)
        if shape < 5 and scalars:
            it = dice.choice(scalars)
            return Term(it.name, it.kind, it.ends, [it.name])
        if shape == 5:
            arrays = [it for it in self.arrays if it.width == 1]
            if arrays:
                array = dice.choice(arrays)
                text, index = self.element(array, 0)
                return Term(text, array.kind, None, index.reads | {"*"}, index.writes)
        if shape == 6:
            vectors = self.variables(lambda it: it.width > 1)
            if vectors:
                it = dice.choice(vectors)
                return Term(f"{it.name}{self.member(it.width)}", it.kind, None, [it.name])
        if shape == 7 and self.macros:
            return dice.choice(self.macros)
        if shape == 8:
            which, ends = dice.choice([("get_global_id", (0, 63)), ("get_local_id", (0, 15)), ("get_group_id", (0, 15)),
                                       ("get_local_size", (1, 16)), ("get_num_groups", (1, 16)), ("get_global_size", (1, 64))])
            return Term(f"{which}({dice.choice('0001')})", "size_t", (0, ends[1]))
        return self.literal()

    def member(self, width):
        at = self.dice.randrange(width)
        if width <= 4 and self.dice.random() < 0.6:
            return "." + LETTERS[at]
        return f".{self.dice.choice('sS')}{self.dice.choice([DIGITS[at], DIGITS[at].upper()])}"

    def scalar(self, depth):
        dice = self.dice
        if self.theme == "jumps":
            x, y = dice.sample(["x", "y"], 2)
            shapes = ["{x}", "({x} & 1u)", "({x} & 3u)", "({x} & {n}u)", "({x} >> 1)", "({x} + {n}u)", "({x} * {n}u)", "({x} ^ {y})"]
            text = dice.choice(shapes)
            return Term(text.format(x=x, y=y, n=dice.randrange(1, 8)), "uint", None, ["x", "y"])
        if depth <= 0 or dice.random() < 0.12:
            return self.leaf()
        steps = [self.arithmetic] * 4 + [self.bits] * 3 + [self.shift, self.flip, self.cast_any, self.wide]
        if not self.is_plain:
            steps += [self.divide, self.shift, self.cast_any, self.function, self.function, self.size, self.macro]
        if self.theme == "vectors":
            steps += [self.of_vector] * 2
        if dice.random() < 0.3 and self.has_split():
            steps = [self.compare, self.logical, self.sign, self.choose]
        if not self.quiet and dice.random() < 0.4:
            steps += [self.effect] * 3 + [self.comma]
        if self.functions:
            steps += [self.call] * 3
        return dice.choice(steps)(depth)

    def beside(self, left, depth):
        """An operand beside another one, so that no order is open."""
        right = self.scalar(depth)
        return self.literal() if left.meets(right) else right

    def tame(self, term):
        """A term that is no size."""
        if term.kind != "size_t":
            return term
        kind = self.dice.choice(["uint", "int"]) if term.high < 2**31 else "uint"
        return made_of(f"({kind}){self.closed(term)}", kind, [term], (term.low, term.high))

    def closed(self, term):
        return term.text if term.text.isalnum() else f"({term.text})"

    def narrowed(self, term, most):
        """A term whose value is near: at most this far from 0."""
        if -most <= term.low and term.high <= most:
            return term
        term, dice = self.tame(term), self.dice
        bits = most.bit_length() - 1
        mask = 2 ** dice.randint(max(1, bits - 9), bits) - 1
        shape = dice.randrange(6)
        if shape == 0:
            if promoted(term.kind) == "uint":
                return made_of(f"({term.text} % {mask}u)", "uint", [term], (0, mask - 1))
            return made_of(f"({term.text} % {mask})", "int", [term], (-mask + 1, mask - 1))
        if shape == 1 and most >= 32768:
            kind = dice.choice(NARROW[:3])
            return made_of(f"({kind})({term.text})", kind, [term])
        if shape == 2 and promoted(term.kind) == "int" and self.has_split():
            return made_of(f"clamp((int)({term.text}), -{mask}, {mask})", "int", [term], (-mask, mask))
        if shape == 3 and not self.is_plain:
            if promoted(term.kind) == "int":
                return made_of(f"max(min((int)({term.text}), {mask}), -{mask})", "int", [term], (-mask, mask))
            return made_of(f"min({term.text}, {mask}u)", "uint", [term], (0, mask))
        return made_of(f"({term.text} & {mask})", promoted(term.kind), [term], (0, mask))

    def brought(self, left, right):
        """Two operands of sorts that may stand beside one another, and the sort of the result."""
        if "size_t" in (left.kind, right.kind):
            if min(left.low, right.low) < 0 or self.dice.random() < 0.4:
                left, right = self.tame(left), self.tame(right)
            else:
                return left, right, "size_t"
        kinds = {promoted(left.kind), promoted(right.kind)}
        return left, right, "uint" if "uint" in kinds else "int"

    def arithmetic(self, depth):
        left = self.scalar(depth - 1)
        left, right, kind = self.brought(left, self.beside(left, depth - 1))
        sign = self.dice.choice("+-*")
        reckon = {"+": lambda a, b: a + b, "-": lambda a, b: a - b, "*": lambda a, b: a * b}[sign]

        def ends_of(left, right):
            found = [reckon(a, b) for a in (left.low, left.high) for b in (right.low, right.high)]
            return min(found), max(found)

        if kind == "size_t" and not fits(ends_of(left, right), kind):
            left, right = self.tame(left), self.tame(right)
            left, right, kind = self.brought(left, right)
        if kind == "int" and not fits(ends_of(left, right), kind):
            left, right = (self.narrowed(it, 2**14 if sign == "*" else 2**29) for it in (left, right))
            kind = "uint" if "uint" in (left.kind, right.kind) else "int"
        ends = ends_of(left, right)
        if kind == "uint" and (min(left.low, right.low) < 0 or not fits(ends, kind)):
            ends = None
        return made_of(f"({left.text} {sign} {right.text})", kind, [left, right], ends)

    def bits(self, depth):
        left = self.tame(self.scalar(depth - 1))
        right = self.tame(self.beside(left, depth - 1))
        kind = "uint" if "uint" in (left.kind, right.kind) else "int"
        return made_of(f"({left.text} {self.dice.choice('&|^')} {right.text})", kind, [left, right])

    def divide(self, depth):
        left = self.scalar(depth - 1)
        dice, sign = self.dice, self.dice.choice("/%")
        if dice.random() < 0.5:
            number = dice.choice([1, 2, 3, 4, 7, 8, 10, 100, 255, 1000])
            right = Term(dice.choice(["%d", "%du"]) % number, "int", (number,) * 2)
            right.kind = "uint" if right.text.endswith("u") else "int"
            if left.kind != "size_t" and promoted(left.kind) == right.kind == "int" and dice.random() < 0.3:
                right = Term(f"(-{number + 1})", "int", (-number - 1,) * 2)
        else:
            right = self.tame(self.beside(left, depth - 1))
            kind = promoted(right.kind)
            right = made_of(f"(({right.text} & 15) + 1)", kind, [right], (1, 16))
        left, right, kind = self.brought(left, right)
        if kind == "int":
            most = max(abs(left.low), abs(left.high))
            ends = (-most, most) if fits((-most, most), "int") else None
        else:
            ends = (0, left.high) if left.low >= 0 else None
        return made_of(f"({left.text} {sign} {right.text})", kind, [left, right], ends)

    def shift(self, depth):
        left, dice = self.tame(self.scalar(depth - 1)), self.dice
        kind = promoted(left.kind)
        if dice.random() < 0.6:
            right = self.literal() if dice.random() < 0.1 else Term(str(dice.randrange(32)), "int")
        else:
            right = self.tame(self.beside(left, depth - 1))
        return made_of(f"({left.text} {dice.choice(['<<', '>>'])} {right.text})", kind, [left, right])

    def compare(self, depth):
        left = self.scalar(depth - 1)
        left, right, _ = self.brought(left, self.beside(left, depth - 1))
        return made_of(f"({left.text} {self.dice.choice(['<', '<=', '>', '>=', '==', '!='])} {right.text})", "int", [left, right], (0, 1))

    def logical(self, depth):
        left, right = self.scalar(depth - 1), self.scalar(depth - 1)
        return made_of(f"({left.text} {self.dice.choice(['&&', '||'])} {right.text})", "int", [left, right], (0, 1))

    def sign(self, depth):
        inner = self.tame(self.scalar(depth - 1))
        if self.dice.random() < 0.5:
            return made_of(f"(!{self.closed(inner)})", "int", [inner], (0, 1))
        if promoted(inner.kind) == "uint":
            return made_of(f"(-{self.closed(inner)})", "uint", [inner])
        inner = self.narrowed(inner, 2**31 - 1)
        ends = None if inner.kind == "uint" else (-inner.high, -inner.low)
        return made_of(f"(-{self.closed(inner)})", promoted(inner.kind), [inner], ends)

    def wide(self, depth):
        """A number that is made of `long` ones, which have numbers of an `int`."""
        dice = self.dice
        first = self.narrowed(self.tame(self.scalar(depth - 1)), 2**14)
        second = self.narrowed(self.tame(self.beside(first, depth - 1)), 2**14)
        shape, sign = dice.randrange(6), dice.choice("+-*&|^")
        one = f"(long){self.closed(first)} {sign} {second.text}"
        if shape == 0:
            return made_of(f"((long){self.closed(first)} {dice.choice(['<', '>=', '==', '!='])} {second.text})", "int", [first, second], (0, 1))
        if shape == 1:
            return made_of(f"(int)((long){self.closed(first)} {dice.choice('/%')} (({second.text} & 7) + 1))", "int", [first, second])
        if shape == 2:
            kind = dice.choice([*NARROW, "uint"])
            return made_of(f"({kind})(-({one}))", kind, [first, second])
        if shape == 3:
            return made_of(f"(int)(({one}) * ~(long){dice.randrange(4)})", "int", [first, second])
        kind = dice.choice(["int", "unsigned"])
        return made_of(f"({kind})({one})", "int" if kind == "int" else "uint", [first, second])

    def flip(self, depth):
        inner = self.tame(self.scalar(depth - 1))
        return made_of(f"(~{self.closed(inner)})", promoted(inner.kind), [inner])

    def choose(self, depth):
        test, first, second = self.scalar(depth - 1), self.tame(self.scalar(depth - 1)), self.tame(self.scalar(depth - 1))
        kind = "uint" if "uint" in (first.kind, second.kind) else "int"
        ends = (min(first.low, second.low), max(first.high, second.high))
        return made_of(f"({test.text} ? {first.text} : {second.text})", kind, [test, first, second], ends if fits(ends, kind) else None)

    def cast(self, term, kind):
        """A term of just this type."""
        ends = (term.low, term.high)
        if kind == "bool":
            return made_of(f"(bool){self.closed(term)}", kind, [term])
        if kind == "int" and term.high >= 2**31:
            term = self.tame(term)
            if self.dice.random() < 0.5 and promoted(term.kind) == "uint":
                return made_of(f"as_int((uint){self.closed(term)})", kind, [term])
            term = self.narrowed(term, 2**31 - 1)
            ends = (term.low, term.high)
        found = ends if fits(ends, kind) else None
        shape = self.dice.randrange(5)
        if shape == 0 and term.kind in PARTED:
            return made_of(f"convert_{kind}{self.dice.choice(['', '_rte', '_rtz', '_rtp'])}({term.text})", kind, [term], found)
        if shape == 1 and term.kind in PARTED:
            low, high = RANGES[kind]
            return made_of(f"convert_{kind}_sat({term.text})", kind, [term], tuple(max(low, min(high, it)) for it in ends))
        return made_of(f"({kind}){self.closed(term)}", kind, [term], found)

    def cast_any(self, depth):
        inner, kind = self.scalar(depth - 1), self.dice.choice(PARTED + ["bool"])
        if self.dice.random() < 0.2 and kind in PARTED:
            other = UNSIGNED[kind] if kind in SIGNED.values() else SIGNED[kind]
            part = self.cast(inner, other)
            return made_of(f"as_{kind}({part.text})", kind, [part])
        return self.cast(inner, kind)

    def assigned(self, kind, depth):
        """What may be assigned to a variable of a type."""
        term = self.scalar(depth)
        if term.kind == "size_t" and kind not in ("uint", "size_t", "bool"):
            term = self.tame(term)
        if kind == "int" and term.high >= 2**31:
            return self.cast(term, kind)
        if kind == "size_t":
            term = self.narrowed(self.tame(term), 2**20)
            return self.cast(term, "uint") if term.low < 0 else term
        return term

    def function(self, depth):
        dice, kind = self.dice, self.dice.choice(PARTED)
        first = self.cast(self.scalar(depth - 1), kind)
        second = self.cast(self.beside(first, depth - 1), kind)
        name = dice.choice(["min", "max", "abs", "clamp", "mul24", "mad24", "select", "bitselect"])
        if name in ("abs", "clamp", "mul24", "mad24") and not self.has_split():
            name = "min"
        if name in ("min", "max"):
            pick = min if name == "min" else max
            ends = pick(first.low, second.low), pick(first.high, second.high)
            return made_of(f"{name}({first.text}, {second.text})", kind, [first, second], ends)
        if name == "abs":
            most = max(abs(first.low), abs(first.high))
            return made_of(f"abs({first.text})", UNSIGNED[kind], [first], (0, most))
        if name == "clamp":
            low, high = sorted(dice.randint(max(RANGES[kind][0], -1000), min(RANGES[kind][1], 1000)) for _ in range(2))
            return made_of(f"clamp({first.text}, ({kind})({low}), ({kind})({high}))", kind, [first], (low, high))
        if name in ("mul24", "mad24"):
            kind = dice.choice(["int", "uint"])
            parts = [made_of(f"({kind})({it.text} & 2047)", kind, [it], (0, 2047)) for it in (first, second)]
            if name == "mul24":
                return made_of(f"mul24({parts[0].text}, {parts[1].text})", kind, parts, (0, 2047 * 2047))
            third = made_of(f"({kind})(77)", kind, [], (77, 77))
            return made_of(f"mad24({parts[0].text}, {parts[1].text}, {third.text})", kind, parts, (77, 2047 * 2047 + 77))
        third = self.cast(self.literal(), dice.choice([SIGNED[kind], UNSIGNED[kind]]) if name == "select" else kind)
        if name == "select":
            test = self.scalar(depth - 1)
            if not (test.meets(first) or test.meets(second)):
                third = self.cast(test, third.kind)
        return made_of(f"{name}({first.text}, {second.text}, {third.text})", kind, [first, second, third])

    def size(self, _depth):
        kind, width = self.dice.choice(PARTED), self.dice.choice([1, *WIDTHS])
        bytes_of = BITS[kind] // 8 * (4 if width == 3 else width)
        return Term(f"(uint)sizeof({type_name(kind, width)})", "uint", (bytes_of,) * 2)

    def macro(self, depth):
        self.quiet += 1
        first, second = self.tame(self.scalar(depth - 1)), self.tame(self.scalar(depth - 1))
        self.quiet -= 1
        shape = self.dice.randrange(3)
        if shape == 0:
            return made_of(f"PICK({first.text}, {second.text})", "uint" if "uint" in (first.kind, second.kind) else "int", [first, second])
        if shape == 1:
            return made_of(f"MIX((uint)({first.text}), {second.text})", "uint", [first, second])
        return made_of(f"LOW({first.text}, {self.dice.randrange(1, 9)})", promoted(first.kind), [first], (0, 255))

    def effect(self, depth):
        names = self.variables(lambda it: it.width == 1 and not it.is_fixed and it.kind in NARROW + ["uint"])
        if not names:
            return self.leaf()
        it, dice = self.dice.choice(names), self.dice
        shape = dice.randrange(3)
        if shape == 0:
            text = dice.choice(["{}++", "{}--", "++{}", "--{}"]).format(it.name)
            return Term(f"({text})", it.kind, None, [it.name], [it.name])
        value = self.assigned(it.kind, depth - 1)
        if it.name in value.writes or shape == 2 and promoted(it.kind) == "int" and value.kind not in NARROW:
            value = Term("3", "int", (3, 3))
        sign = "=" if shape == 1 else dice.choice(["+=", "-=", "^=", "|="])
        return Term(f"({it.name} {sign} {value.text})", it.kind, None, value.reads | {it.name}, value.writes | {it.name})

    def comma(self, depth):
        left, right = self.effect(depth - 1), self.scalar(depth - 1)
        return made_of(f"({left.text}, {right.text})", right.kind, [left, right], (right.low, right.high)) if left.writes else right

    def call(self, depth):
        if self.calls >= 4 or self.loops > 1:
            return self.leaf()
        self.calls += 1
        it = self.dice.choice(self.functions)
        if it.does_store and self.quiet or not self.has_way(it.ways):
            return self.leaf()
        parts, texts = [], []
        for parameter in it.parameters:
            if isinstance(parameter, Array):
                arrays = [a for a in self.arrays if self.may_pass(a, parameter)]
                if not arrays:
                    return self.leaf()
                array = self.dice.choice(arrays)
                texts.append(self.pointer(array))
                continue
            value = self.assigned(parameter.kind, 1 if self.is_plain else depth - 1)
            if any(value.meets(part) for part in parts) or it.does_store and "*" in value.writes:
                value = Term("5", "int", (5, 5))
            parts.append(value)
            texts.append(value.text)
        made = made_of(f"{it.name}({', '.join(texts)})", it.kind, parts)
        return Term(made.text, it.kind, None, made.reads | {"*"}, made.writes | ({"*"} if it.does_store else set()))

    def may_pass(self, array, parameter):
        same = (array.kind, array.width, array.space) == (parameter.kind, parameter.width, parameter.space)
        return same and array.count >= parameter.count and (array.is_stored or not parameter.is_stored)

    def pointer(self, array):
        if not array.base:
            return array.name
        return self.dice.choice([f"{array.name} + {array.base}", f"&{array.name}[{array.base}]"])

    def of_vector(self, depth):
        self.quiet += 1
        kind, width = self.dice.choice(PARTED), self.dice.choice([2, 3, 4, 4, 8])
        vector = self.vector(kind, width, depth - 1)
        self.quiet -= 1
        if width <= 4 and self.dice.random() < 0.4 and self.has_split():
            signed = self.vector(SIGNED[kind], width, 0)
            return made_of(f"{self.dice.choice(['any', 'all'])}({signed.text} {self.dice.choice(['<', '>=', '!='])} ({SIGNED[kind]})(3))",
                           "int", [signed], (0, 1))
        return made_of(f"({vector.text}){self.member(width)}", kind, [vector])

    # ---- vectors; their ends are those of each component

    def vector_leaf(self, kind, width):
        dice = self.dice
        shape = dice.randrange(6)
        names = self.variables(lambda it: (it.kind, it.width) == (kind, width))
        if names and shape < 3:
            it = dice.choice(names)
            return Term(it.name, kind, None, [it.name])
        others = self.variables(lambda it: it.kind == kind and it.width > 1)
        if others and shape == 3:
            it = dice.choice(others)
            return Term(f"{it.name}{self.swizzle(it.width, width)}", kind, None, [it.name])
        arrays = [it for it in self.arrays if (it.kind, it.width) == (kind, width)]
        if arrays and shape == 4:
            array = dice.choice(arrays)
            text, index = self.element(array, 0)
            return Term(text, kind, None, index.reads | {"*"}, index.writes)
        rows = [it for it in self.arrays if it.kind == kind and it.width == 1 and it.count >= width and it.space != "__private"]
        if rows and shape == 5:
            array = dice.choice(rows)
            return Term(f"vload{width}(0, {self.pointer(array)})", kind, None, ["*"])
        if dice.random() < 0.2:
            part = self.cast(self.leaf(), kind)
            return made_of(f"({type_name(kind, width)})({part.text})", kind, [part], (part.low, part.high))
        parts, texts, left = [], [], width
        while left:
            inner = self.variables(lambda it: it.kind == kind and 1 < it.width <= left)
            if inner and dice.random() < 0.15:
                it = dice.choice(inner)
                parts.append(Term(it.name, kind, None, [it.name]))
                left -= it.width
            else:
                parts.append(self.cast(self.leaf(), kind))
                left -= 1
            texts.append(parts[-1].text)
        return made_of(f"({type_name(kind, width)})({', '.join(texts)})", kind, parts)

    def swizzle(self, source, width):
        dice = self.dice
        if source == 2 * width and dice.random() < 0.5:
            return dice.choice([".lo", ".hi", ".even", ".odd"])
        ats = [dice.randrange(source) for _ in range(width)]
        if source <= 4 and width <= 4 and dice.random() < 0.6:
            return "." + "".join(LETTERS[at] for at in ats)
        return ".s" + "".join(DIGITS[at] for at in ats)

    def vector(self, kind, width, depth):
        dice = self.dice
        if depth <= 0 or dice.random() < 0.2:
            return self.vector_leaf(kind, width)
        shape = dice.randrange(13)
        if (shape in (3, 4, 5, 7) or shape == 9 and kind in UNSIGNED.values()) and (width > 4 or not self.has_split()):
            shape = 12
        left = self.vector(kind, width, depth - 1)
        if shape == 0:
            return made_of(f"({dice.choice('~-') if kind not in ('int',) else '~'}({left.text}))", kind, [left])
        if shape == 1:
            most = dice.choice([1, 3, 5, 7])
            return made_of(f"({left.text} {dice.choice('/%')} ({kind}){most})", kind, [left])
        if shape == 2:
            count = dice.choice([f"({kind})({dice.randrange(BITS[kind])})", self.vector_leaf(kind, width).text])
            return made_of(f"({left.text} {dice.choice(['<<', '>>'])} {count})", kind, [left], None)
        if shape == 3 and kind in SIGNED.values():
            other = dice.choice([kind, UNSIGNED[kind]])
            first, second = self.vector_leaf(other, width), self.vector_leaf(other, width)
            sign = dice.choice(["<", "<=", "==", "!=", ">", ">="])
            return made_of(f"({first.text} {sign} {second.text})", kind, [first, second], (-1, 0))
        if shape == 4:
            test, right = self.vector_leaf(SIGNED[kind], width), self.vector_leaf(kind, width)
            if dice.random() < 0.5:
                return made_of(f"select({left.text}, {right.text}, {test.text})", kind, [left, right, test])
            return made_of(f"(({test.text} < ({SIGNED[kind]})(9)) ? {left.text} : {right.text})", kind, [left, right, test])
        if shape == 5:
            right, third = self.vector_leaf(kind, width), self.vector_leaf(kind, width)
            return made_of(f"bitselect({left.text}, {right.text}, {third.text})", kind, [left, right, third])
        if shape == 6:
            right = self.vector_leaf(kind, width)
            return made_of(f"{dice.choice(['min', 'max'])}({left.text}, {right.text})", kind, [left, right])
        if shape == 7:
            low, high = sorted(dice.randint(max(RANGES[kind][0], -100), 100) for _ in range(2))
            return made_of(f"clamp({left.text}, ({kind})({low}), ({kind})({high}))", kind, [left], (low, high))
        if shape == 8:
            other = dice.choice(PARTED)
            inner = self.vector(other, width, depth - 1)
            if kind == "int" and other == "uint":
                return made_of(f"as_int{width}({inner.text})", kind, [inner])
            return made_of(f"convert_{type_name(kind, width)}{dice.choice(['', '', '_sat', '_rte'])}({inner.text})", kind, [inner])
        if shape == 9:
            other = UNSIGNED[kind] if kind in SIGNED.values() else SIGNED[kind]
            inner = self.vector(other, width, depth - 1)
            if kind in UNSIGNED.values() and dice.random() < 0.4:
                return made_of(f"abs({inner.text})", kind, [inner])
            return made_of(f"as_{type_name(kind, width)}({inner.text})", kind, [inner])
        if shape == 10 and kind in ("int", "uint") and width != 3:
            source = dice.choice([2, 4, 8])
            mask = Term(f"(uint{width})({', '.join(str(dice.randrange(9)) for _ in range(width))})", "uint")
            inner = self.vector_leaf(kind, source)
            if dice.random() < 0.3:
                right = self.vector_leaf(kind, source)
                return made_of(f"shuffle2({inner.text}, {right.text}, {mask.text})", kind, [inner, right, mask])
            return made_of(f"shuffle({inner.text}, {mask.text})", kind, [inner, mask])
        right = self.cast(self.leaf(), kind) if dice.random() < 0.3 else self.vector_leaf(kind, width)
        sign = dice.choice("+-*&|^")
        if kind == "int" and sign in "+-*":
            mask = 2047 if sign == "*" else 2**20 - 1
            return made_of(f"(({left.text} & {mask}) {sign} ({right.text} & {mask}))", kind, [left, right], (-(2**22), 2**22))
        return made_of(f"({left.text} {sign} {right.text})", kind, [left, right])

    # ---- statements

    def declared(self, name, kind, width, depth=2):
        if width == 1:
            return self.assigned(kind, depth)
        self.quiet += 1
        value = self.vector(kind, width, depth)
        self.quiet -= 1
        return value

    def declaration(self):
        dice = self.dice
        width = dice.choice([1] * 6 + [2, 3, 4, 4, 8, 16][: dice.choice([3, 4, 4, 4, 5, 6])]) if self.theme == "vectors" else 1
        kind = dice.choice(PARTED + (["bool", "uint", "int"] if width == 1 else []))
        name = self.fresh("v")
        value = self.declared(name, kind, width)
        text = f"{self.spelled(kind, width)} {name} = {value.text}"
        self.declare(Variable(name, kind, width))
        if dice.random() < 0.2:
            other = self.fresh("v")
            text += f", {other} = {self.declared(other, kind, width, 1).text}"
            self.declare(Variable(other, kind, width))
        return text + ";"

    def array_declaration(self):
        dice, name = self.dice, self.fresh("p")
        kind, count = dice.choice(PARTED), dice.choice([2, 4, 8])
        if dice.random() < 0.6:
            parts = [self.assigned(kind, 0).text for _ in range(count if dice.random() < 0.7 else dice.randint(1, count))]
            length = "" if len(parts) == count and dice.random() < 0.5 else count
            text = f"{kind} {name}[{length}] = {{{', '.join(parts)}}};"
        else:
            i = self.fresh("i")
            value = self.assigned(kind, 1)
            text = (f"{kind} {name}[{count}];", f"for (int {i} = 0; {i} < {count}; {i}++)", [f"{name}[{i}] = {value.text};"])
            if value.writes:
                text = (f"{kind} {name}[{count}];", f"for (int {i} = 0; {i} < {count}; {i}++)", [f"{name}[{i}] = {i};"])
        return text, Array(name, kind, 1, count, space="__private")

    def assignment(self):
        dice = self.dice
        if self.theme == "jumps":
            return f"{dice.choice(['x', 'y'])} {dice.choice(['=', '+=', '^=', '-='])} {self.scalar(1).text};"
        it = dice.choice(self.variables(lambda it: not it.is_fixed) or [None])
        if it is None:
            return ";"
        if it.width > 1:
            return self.vector_assignment(it)
        shape = dice.randrange(4)
        if shape == 0 and it.kind != "bool" and it.kind != "int":
            return f"{dice.choice(['{}++', '{}--', '++{}', '--{}']).format(it.name)};"
        if shape == 1 and it.kind in PARTED:
            return self.updated(it.name, it.kind, {it.name})
        return f"{it.name} = {self.unwritten(self.assigned(it.kind, 3), it.name, it.kind).text};"

    def unwritten(self, value, name, kind):
        """A value that does not store to the name."""
        return Term("1", "int", (1, 1), ()) if name in value.writes else value

    def updated(self, text, kind, names):
        """An `op=` of what a text stands for."""
        dice = self.dice
        value = self.tame(self.scalar(2))
        if value.writes & (set(names) | {"*"}) or value.writes and "*" in names:
            value = self.literal()
        if dice.random() < 0.3:
            return f"{text} {dice.choice(['<<=', '>>='])} {dice.randrange(BITS[kind])};"
        if kind == "int" or dice.random() < 0.4:
            sign = dice.choice(["&=", "|=", "^="])
            value = self.cast(value, kind) if kind == "int" else value
            return f"{text} {sign} {value.text};"
        if kind in NARROW:
            value = self.narrowed(value, 16384)
            if promoted(value.kind) == "int" or value.kind in NARROW:
                return f"{text} {dice.choice(['+=', '-=', '*='])} {value.text};"
        return f"{text} {dice.choice(['+=', '-=', '*='])} {value.text};"

    def vector_assignment(self, it):
        dice = self.dice
        self.quiet += 1
        shape = dice.randrange(5)
        if shape == 0:
            text = f"{it.name}{self.member(it.width)} = {self.assigned(it.kind, 2).text};"
        elif shape == 1 and it.width in (4, 8, 16):
            half = it.width // 2
            text = f"{it.name}{dice.choice(['.lo', '.hi', '.even', '.odd'])} = {self.vector(it.kind, half, 1).text};"
        elif shape == 2 and it.width <= 4:
            letters = dice.sample(LETTERS[: it.width], 2)
            text = f"{it.name}.{''.join(letters)} = {self.vector(it.kind, 2, 1).text};"
        elif shape == 3 and it.kind != "int":
            sign = dice.choice(["+=", "-=", "*=", "^="])
            text = dice.choice([f"{it.name}++;", f"{it.name} {sign} {self.vector(it.kind, it.width, 1).text};"])
        else:
            text = f"{it.name} = {self.vector(it.kind, it.width, 2).text};"
        self.quiet -= 1
        return text

    def store(self):
        dice = self.dice
        arrays = [it for it in self.arrays if it.is_stored]
        if not arrays:
            return self.assignment()
        array = dice.choice(arrays)
        text, index = self.element(array, 1)
        self.quiet += 1
        shape = dice.randrange(6)
        if array.width > 1:
            if shape == 0:
                made = f"{text}{self.member(array.width)} = {self.assigned(array.kind, 2).text};"
            else:
                made = f"{text} = {self.vector(array.kind, array.width, 2).text};"
        elif shape == 0:
            self.quiet -= 1
            made = self.updated(text, array.kind, index.reads | {"*"})
            self.quiet += 1
        elif shape == 1 and array.kind != "int":
            made = f"{text}{dice.choice(['++', '--'])};"
        elif shape == 2 and array.count >= 2 and array.space != "__private":
            width = dice.choice([it for it in (2, 3, 4, 8) if it <= array.count])
            made = f"vstore{width}({self.vector(array.kind, width, 1).text}, 0, {self.pointer(array)});"
        else:
            made = f"{text} = {self.assigned(array.kind, 3).text};"
        self.quiet -= 1
        return made

    def pointed(self):
        """A pointer into an array, and what is done through it."""
        dice = self.dice
        arrays = [it for it in self.arrays if it.is_stored and it.count >= 2 and it.width == 1]
        if not arrays:
            return self.store()
        array, name = dice.choice(arrays), self.fresh("q")
        self.quiet += 1
        space = "" if array.space == "__private" else array.space + " "
        lines = [f"{space}{array.kind} *{name} = {self.pointer(array)};"]
        for step in range(2):
            lines.append(f"{dice.choice([f'*{name}', f'{name}[0]', f'*({name} + 0)'])} = {self.assigned(array.kind, 1).text};")
            if step == 0:
                lines.append(dice.choice([f"{name}++;", f"{name} += 1;", f"{name} = {name} + 1;"]))
        self.quiet -= 1
        return ("{", lines, "}")

    def has_split(self):
        self.splits -= 1
        return self.splits >= 0

    def has_way(self, count=1):
        """Whether so many tests more may part the ways; if so they count."""
        if count > self.ways:
            return False
        self.ways -= count
        return True

    def block(self, depth, most=2):
        self.scopes.append([])
        made = [self.statement(depth) for _ in range(self.dice.randint(1, most))]
        self.scopes.pop()
        return made

    def test(self):
        return self.scalar(1 if self.is_plain else 2).text

    def branch(self, depth):
        made = (f"if ({self.test()}) {{", self.block(depth - 1))
        return (*made, "} else {", self.block(depth - 1), "}") if self.dice.random() < 0.5 else (*made, "}")

    def looped(self, depth, sort):
        """The body of a loop."""
        self.loops += 1
        self.jumps.append(sort)
        self.scopes.append([])
        made = [self.statement(depth - 1) for _ in range(self.dice.randint(1, 2 + self.is_new))]
        self.scopes.pop()
        self.jumps.pop()
        self.loops -= 1
        return made

    def count_loop(self, depth):
        dice, i = self.dice, self.fresh("i")
        kind, turns = dice.choice(["int", "uint", "int", "uchar", "short"]), dice.randint(1, 6)
        head = dice.choice([
            f"for ({kind} {i} = 0; {i} < {turns}; {i}++) {{", f"for ({kind} {i} = {turns}; {i} > 0; {i}--) {{",
            f"for ({kind} {i} = 0; {i} != {turns}; ++{i}) {{", f"for ({kind} {i} = 1; {i} <= {turns}; {i} += {dice.randint(1, 3)}) {{",
            f"for ({kind} {i} = {turns}; {i}; {i}--) {{",
        ])
        if kind in ("int", "uint") and dice.random() < 0.2:
            head = f"for ({kind} {i} = 0, {self.fresh('j')} = 3; {i} < {turns}; {i}++) {{"
        self.scopes.append([Variable(i, kind, 1, True, (0, turns))])
        made = self.looped(depth, "for")
        self.scopes.pop()
        return (head, made, "}")

    def while_loop(self, depth):
        dice, k = self.dice, self.fresh("k")
        self.quiet += 1
        start = self.tame(self.scalar(1))
        self.quiet -= 1
        step, count = dice.choice([(f"{k}--;", 7), (f"{k} >>= 1;", 127), (f"{k} -= 1;", 7), (f"{k} /= 2;", 63)])
        first = f"uint {k} = {start.text} & {count};"
        if dice.random() < 0.5:
            first, step, test = f"int {k} = 0;", f"{k}++;", f"{k} < {dice.randint(1, 5)}"
        else:
            test = dice.choice([f"{k} > 0", f"{k}", f"{k} != 0u"])
        self.scopes.append([Variable(k, "uint" if "uint" in first else "int", 1, True, (0, 127))])
        is_do = dice.random() < 0.4
        # `continue` would pass over a step at the end
        body = self.looped(depth, "do" if is_do else "while")
        self.scopes.pop()
        if is_do:
            test = f"{k} > 0" if "uint" in first and "-" not in step else test
            if "uint" in first:
                first = first.replace(";", " | 1;") if "--" in step or "-=" in step else first
            return ("{", [first, "do {", (*[[step]], body), f"}} while ({test});"], "}")
        return ("{", [first, (f"while ({test}) {{", [step], body, "}")], "}")

    def jump(self):
        dice, choices = self.dice, []
        if self.jumps:
            choices += ["break;"]
            inner = [it for it in self.jumps if it != "switch"]
            if inner and (self.is_new or inner[-1] != "do" and self.jumps[-1] != "switch"):
                choices += ["continue;"]
        if self.leaving:
            choices += [self.leaving]
        if not choices:
            return self.assignment()
        made = dice.choice(choices)
        if made == "function":
            made = f"return {self.assigned(self.returned, 1).text};"
        elif made == "kernel":
            return (f"if ({self.test()}) {{", [self.results(), "return;"], "}")
        return (f"if ({self.test()})", [made]) if dice.random() < 0.8 else (f"if ({self.test()}) {{", self.block(0, 1), made, "}")

    def results(self):
        """What all variables hold, in one element; a text."""
        return f"r[g] = {self.mixed()};"

    def mixed(self):
        parts = []
        for it in self.variables(lambda it: True):
            if it.width == 1:
                parts.append(f"(uint){it.name}")
            else:
                parts += [f"(uint){it.name}.s{DIGITS[at]}" for at in range(it.width)]
        text = "17u"
        for part in parts[-16:]:
            text = f"({text} ^ {part}) * 31u"
        return text

    def switch(self, depth):
        dice = self.dice
        tested = self.tame(self.scalar(1))
        if dice.random() < 0.7:
            tested = made_of(f"{self.closed(tested)} & {dice.choice([3, 7])}", promoted(tested.kind), [tested])
        numbers = dice.sample(range(8), 5) + [255, 128]
        rows, is_told = [], False
        self.jumps.append("switch")
        for _ in range(dice.randint(1, 3)):
            labels = [f"case {dice.choice(['%d', '0x%x', '%d + 0', '%du']) % numbers.pop(0)}:" for _ in range(dice.choice([1, 1, 2]))]
            if not is_told and dice.random() < 0.25:
                labels.insert(dice.randint(0, len(labels)), "default:")
                is_told = True
            body = self.block(depth - 1, 2)
            ends = ["break;"] * 4
            if any(it != "switch" for it in self.jumps):
                ends += ["continue;"]
            if self.leaving == "function":
                ends += [f"return {self.assigned(self.returned, 1).text};"]
            elif self.leaving == "kernel":
                ends += [("{", [self.results(), "return;"], "}")]
            rows.append((*labels, "{", body, "}", dice.choice(ends)))
        if not is_told and dice.random() < 0.6:
            rows.append(("default:", "{", self.block(depth - 1, 2), "}", *dice.choice([["break;"], []])))
        self.jumps.pop()
        return (f"switch ({tested.text}) {{", rows, "}")

    def statement(self, depth):
        dice = self.dice
        steps = [self.assignment] * 5 + [self.store] * 4 + [self.declaration] * 3
        if self.theme == "jumps":
            steps = [self.assignment] * 3
        if self.jumps or self.leaving:
            steps += [self.jump] * (4 if self.is_new else 2)
        if depth > 0:
            steps += [lambda: self.branch(depth)] * 3 + [lambda: self.count_loop(depth)] * 2 + [lambda: self.while_loop(depth)]
            steps += [self.pointed] if self.theme != "jumps" else []
            if self.is_new:
                steps += [lambda: self.switch(depth)] * 4
        step = dice.choice(steps)
        is_plain = step in (self.assignment, self.store, self.declaration, self.pointed)
        return step() if is_plain or self.has_way() else self.assignment()

    # ---- functions of the file, and the kernel

    def file_function(self):
        dice, name = self.dice, self.fresh("f")
        kept = self.scopes, self.arrays
        kind = dice.choice(PARTED)
        self.scopes, self.arrays, parameters, texts = [[]], [], [], []
        for _ in range(dice.randint(1, 3)):
            it = Variable(self.fresh("a"), dice.choice(PARTED))
            self.declare(it)
            parameters.append(it)
            texts.append(f"{self.spelled(it.kind)} {it.name}")
        does_store, ways = False, self.ways
        wanted = [it for it in kept[1] if it.space == "__global" and it.width == 1]
        if wanted and dice.random() < 0.5:
            like = dice.choice(wanted)
            is_stored = like.is_stored and dice.random() < 0.6
            array = Array(self.fresh("b"), like.kind, 1, like.count, is_stored=is_stored)
            self.arrays.append(array)
            parameters.append(array)
            texts.append(f"__global {'' if is_stored else 'const '}{like.kind} *{array.name}")
            does_store = is_stored
        self.leaving, self.returned = ("function" if self.is_new else None), kind
        body = [self.declaration()] + [self.statement(2 if self.is_new else 1) for _ in range(dice.randint(0, 3))]
        self.leaving = None
        last = self.assigned(kind, 2)
        if dice.random() < 0.3 and self.has_way():
            body.append((f"if ({self.test()})", [f"return {self.assigned(kind, 1).text};"]))
        body.append(f"return {last.text};")
        made = (f"{dice.choice(['', 'inline ', 'static '])}{self.spelled(kind)} {name}({', '.join(texts)}) {{", body, "}")
        self.scopes, self.arrays = kept
        self.functions.append(Function(name, kind, parameters, does_store, ways - self.ways))
        self.ways = ways
        return made

    def exchange(self, size):
        """Work-items of a group exchange words by a local array."""
        dice, name = self.dice, self.fresh("t")
        kind, rows = dice.choice(PARTED), dice.choice([1, 2])
        fence = dice.choice(["CLK_LOCAL_MEM_FENCE", "CLK_LOCAL_MEM_FENCE | CLK_GLOBAL_MEM_FENCE"])
        self.quiet += 1
        lines = [f"__local {kind} {name}[{size * rows}];"]
        lines += [f"{name}[l{f' + {size * row}' if row else ''}] = {self.assigned(kind, 2).text};" for row in range(rows)]
        lines.append(f"barrier({fence});")
        target, index = self.fresh("v"), self.index(size * rows, 1)
        lines.append(f"{kind} {target} = {name}[{index.text}];")
        self.declare(Variable(target, kind))
        if dice.random() < 0.5:
            i = self.fresh("i")
            turn = [f"barrier({fence});", f"{name}[l] = {target};", f"barrier({fence});", f"{target} ^= {name}[(l + {i}) & {size - 1}];"]
            lines.append((f"for (int {i} = 0; {i} < {dice.randint(1, 3)}; {i}++) {{", turn, "}"))
        self.quiet -= 1
        return lines

    def jumps_kernel(self):
        """A kernel of two variables, and all that jumps."""
        dice, top = self.dice, []
        self.scopes, self.returned = [[Variable("x", "uint"), Variable("y", "uint")]], "uint"
        self.leaving = dice.choice(["function", "function", "kernel"])
        body = [self.statement(3) for _ in range(dice.randint(2, 3))]
        start = ["uint g = get_global_id(0);", "uint x = a[g], y = b[g];"]
        if self.leaving == "function":
            top = ["uint f(uint x, uint y) {", (body, "return x ^ y * 5u;"), "}"]
            body = ["x += f(x, y);"]
        whole = [*top, "__kernel __attribute__((reqd_work_group_size(1, 1, 1)))",
                 "void k(__global const uint *a, __global const uchar *b, __global uint *r)", ("{", [*start, *body, self.results()], "}")]
        count = 4
        lines = ["conditions 3", f"groups {count}..{count} 1..1 1..1", *(f"length {name} >= {count}" for name in "abr"), "budget 1000000"]
        return whole, "\n".join(lines) + "\n", count, 1, {}, {"a": ("uint", count), "b": ("uchar", count), "r": ("uint", count)}

    def kernel(self):
        """The kernel as statements, its conditions, the group counts, the local size, its arguments, and its buffers with their lengths."""
        dice = self.dice
        if self.theme == "jumps":
            return self.jumps_kernel()
        size, groups = (dice.choice([1, 1, 1, 2]), 1) if self.is_new else (dice.choice([1, 2, 4, 8]), dice.choice([1, 2, 3]))
        count = size * groups
        top = ["#define MIX(x, y) ((x) * 3u ^ (y))", "#define PICK(a, b) \\\n  ((a) & 1 ? (a) : (b))"]
        top.append("#define LOW(x, n) (((x) >> (n)) & 0xff)")
        if dice.random() < 0.5:
            number = dice.choice([3, 77, 40000])
            top += [f"#define COUNT{'' if dice.random() < 0.5 else '_' + 'x'} {number}"]
            self.macros.append(Term(top[-1].split()[1], "int", (number,) * 2))
        if dice.random() < 0.3:
            kind = dice.choice(["uint", "uchar", "short"])
            top.append(f"typedef {kind} word_t;")
            self.typedefs[kind] = ["word_t"]
        if dice.random() < 0.3:
            top.append("enum { RED = 3, BLUE, LAST = 0x40 };")
            self.macros += [Term("RED", "int", (3, 3)), Term("BLUE", "int", (4, 4)), Term("LAST", "int", (64, 64))]
        if dice.random() < 0.6:
            kind, length, name = dice.choice(PARTED), dice.choice([2, 4, 8]), self.fresh("c")
            words = [str(dice.choice([0, 1, 2, 100, 127, dice.randrange(128)])) for _ in range(length)]
            top.append(f"__constant {kind} {name}[{dice.choice(['', length])}] = {{{', '.join(words)}}};")
            self.arrays.append(Array(name, kind, 1, length, is_stored=False, space="__constant", is_of_file=True))
        if dice.random() < 0.5:
            kind, name, number = dice.choice(PARTED), self.fresh("c"), dice.randrange(128)
            top.append(f"__constant {kind} {name} = {number};")
            self.macros.append(Term(name, kind, (number,) * 2))
        buffers, parameters, arguments = {}, [], {}
        for _ in range(dice.randint(1, 3)):
            name, kind, width = self.fresh("a"), dice.choice(PARTED), dice.choice([1, 2, 4]) if self.theme == "vectors" else 1
            length = dice.choice([1, 2, 4, 8])
            buffers[name] = (kind, length * width)
            space = dice.choice(["__global const", "__global const", "const __global", "__constant"])
            parameters.append(f"{space} {type_name(kind, width)} *{name}")
            space = "__constant" if space == "__constant" else "__global"
            self.arrays.append(Array(name, kind, width, length, is_stored=False, space=space))
        owned = []
        for _ in range(dice.randint(1, 2)):
            name, kind, length = self.fresh("o"), dice.choice(PARTED), dice.choice([1, 2, 4])
            width = dice.choice([1, 2, 4]) if self.theme == "vectors" else 1
            buffers[name] = (kind, count * length * width)
            parameters.append(f"__global {type_name(kind, width)} *{dice.choice(['', 'restrict '])}{name}")
            owned.append(Array(name, kind, width, length, base=f"g * {length}" if length > 1 else "g"))
        buffers["r"] = ("uint", count)
        parameters.append("__global uint *r")
        values = []
        for _ in range(dice.randint(1, 3)):
            name, kind, width = self.fresh("n"), dice.choice(PARTED), dice.choice([1, 2, 4]) if self.theme == "vectors" else 1
            low, high = RANGES[kind]
            for part in [name] if width == 1 else [f"{name}_s{at}" for at in range(width)]:
                arguments[part] = dice.choice([0, 1, 2, low, high, dice.randint(low, high), dice.randint(max(low, -9), 99)])
            parameters.append(f"{type_name(kind, width)} {name}")
            values.append(Variable(name, kind, width))
        self.arrays += owned
        numbers = [1] if self.is_new else [0, 1, 1, 2] if self.theme == "plain" else [0, 0, 1]
        functions = [self.file_function() for _ in range(dice.choice(numbers))]
        ids = [Variable("g", "uint", 1, True, (0, 63)), Variable("l", "int", 1, True, (0, 15)), Variable("z", "size_t", 1, True, (0, 63))]
        self.scopes = [[*values, *ids]]
        body = ["uint g = (uint)get_global_id(0);", "int l = (int)get_local_id(0);", "const size_t z = get_global_id(0);"]
        body += [self.declaration() for _ in range(dice.randint(1, 2))]
        if self.theme == "arrays" and dice.random() < 0.7:
            made, array = self.array_declaration()
            body.append(made)
            self.arrays.append(array)
        if self.theme == "arrays" and dice.random() < 0.5:
            body += self.exchange(size)
        self.leaving = "kernel" if dice.random() < 0.5 else None
        body += [self.statement(2) for _ in range(dice.randint(2, 3))]
        self.leaving = None
        body.append(self.results())
        is_told = dice.random() < 0.3
        head = "__kernel " if is_told else f"__kernel __attribute__((reqd_work_group_size({size}, 1, 1)))\n"
        whole = [*top, *functions, f"{head}void k({', '.join(parameters)})", ("{", body, "}")]
        lines = ["conditions 3", *([f"local_size {size} 1 1"] if is_told else []), f"groups {groups}..{groups} 1..1 1..1"]
        lines += [f"arg {name} {word}..{word}" for name, word in arguments.items()]
        lines += [f"length {name} >= {length}" for name, (_, length) in buffers.items()]
        lines.append("budget 1000000")
        return whole, "\n".join(lines) + "\n", groups, size, arguments, buffers
