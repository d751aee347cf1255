"""Makers of random kernels, each with the text of its conditions."""

HEAD = "__kernel __attribute__((reqd_work_group_size(%d, 1, 1))) void k(%s) {\n"


class Guarded:
    """Kernels that keep inside their buffers by their own tests, with each operator; most of them are shown."""

    def __init__(self, rng):
        self.rng = rng

    def number(self):
        return "%du" % self.rng.choice([0, 1, 2, 3, 5, 8, 63, 64, 1000, 65535, 4294967295])

    def leaf(self):
        names = ["g", "l", "n", "x", "y", "b[l]", "a[g]", "get_group_id(0)", "get_local_size(0)"]
        return self.rng.choice([*names, self.number(), self.number()])

    def value(self, depth):
        rng = self.rng
        if depth == 0 or rng.random() < 0.2:
            return self.leaf()
        x, y = self.value(depth - 1), self.value(depth - 1)
        small = rng.randrange(1, 9)
        return rng.choice([
            f"({x} {rng.choice(['+', '-', '*', '&', '|', '^'])} {y})",
            f"({x} {rng.choice(['/', '%'])} {small}u)",
            f"({x} / ({y} % 7u + 1u))",
            f"({x} & {2 ** small - 1}u)",
            f"({x} {rng.choice(['<<', '>>'])} {small})",
            f"{rng.choice(['min', 'max'])}({x}, {y})",
            f"({self.test(depth - 1)} ? {x} : {y})",
            f"{rng.choice(['-', '~', '!'])}{x}",
            f"(uint)(int)({x} % {small}u)",
        ])

    def test(self, depth):
        rng = self.rng
        if depth == 0 or rng.random() < 0.6:
            return f"{self.leaf()} {rng.choice(['<', '<=', '>', '>=', '==', '!='])} {self.leaf()}"
        x, y = self.test(depth - 1), self.test(depth - 1)
        return rng.choice([f"(({x}) && ({y}))", f"(({x}) || ({y}))", f"!({x})"])

    def statement(self, depth):
        rng = self.rng
        if depth and rng.random() < 0.3:
            return [f"if ({self.test(1)}) {{", *self.statement(depth - 1), "} else {", *self.statement(depth - 1), "}"]
        change = f"y {rng.choice(['+', '-', '*', '|', '>>'])}= {rng.randrange(9)}u;"
        return [rng.choice([f"x = {self.value(2)};", change, f"a[g] = {self.value(2)};"])]

    def kernel(self):
        rng = self.rng
        size = rng.choice([1, 2, 4, 64])
        body = ["uint g = get_global_id(0);", "uint l = get_local_id(0);", "uint x = 3u;", "uint y = n;", "if (g < n) {"]
        for _ in range(rng.randrange(1, 4)):
            body += self.statement(2)
        body.append("}")
        text = HEAD % (size, "__global uint *a, __global const uint *b, uint n") + "\n".join(body) + "\n}\n"
        groups = rng.choice([1, 2, 16])
        most = rng.choice([1, size * groups, 1000])
        lines = f"arg n 1..{most}\nlength a >= n\nlength b >= {rng.choice([size, size, size - 1 or 1])}\nbudget 100\n"
        return text, f"conditions 1\ngroups 1..{groups} 1..1 1..1\n" + lines


class Masked:
    """Kernels that load and store at masked, shifted and scaled numbers, some side by side; most pairs are apart by their low bits or not."""

    def __init__(self, rng):
        self.rng = rng

    def small(self):
        return f"{self.rng.choice([0, 1, 1, 2, 3, 4, 5, 7, 8, 12, 16, 64])}u"

    def mask(self):
        rng = self.rng
        k, n = rng.randrange(1, 8), rng.randrange(1, 8)
        return f"{rng.choice([2**k - 1, (2**n - 1) * 2**k, 2**32 - 2**k, 12, 6, 10, rng.getrandbits(8), rng.getrandbits(32)])}u"

    def part(self, depth):
        rng = self.rng
        if depth == 0 or rng.random() < 0.15:
            return rng.choice(["x", "y", "l", "g", "n", "b[l]", "get_group_id(0)", self.small()])
        x = self.part(depth - 1)
        return rng.choice([
            f"({x} & {self.mask()})", f"({x} & {self.mask()})", f"({self.mask()} & {x})", f"({x} & {self.part(depth - 1)})",
            f"({x} << {rng.randrange(6)})", f"({x} << {rng.randrange(6)})", f"({x} >> {rng.randrange(6)})", f"({x} * {self.small()})",
            f"({x} {rng.choice(['+', '+', '-', '|', '^'])} {self.part(depth - 1)})", f"({x} {rng.choice(['/', '%'])} {rng.choice([2, 4, 6, 8])}u)",
            f"(uint)((int){x} {rng.choice(['&', '*'])} {rng.choice([4, 6, 12])})", f"{rng.choice(['min', 'max'])}({x}, {self.mask()})",
        ])

    def index(self):
        return self.part(self.rng.choice([1, 2, 2, 3])) + self.rng.choice([""] + [f" + {self.small()}"] * 3)

    def statement(self):
        rng = self.rng
        kind = rng.randrange(6)
        if kind == 0:
            return f"{rng.choice('xy')} = {self.part(2)};"
        if kind == 1:
            return f"if (l {rng.choice(['==', '<', '>='])} {self.small()}) a[{self.index()}] = 1u; else a[{self.index()}] = 2u;"
        if kind == 2:
            return "barrier(CLK_GLOBAL_MEM_FENCE | CLK_LOCAL_MEM_FENCE);"
        return rng.choice([f"a[{self.index()}] = x;", f"t[{self.index()}] = y;", f"x = a[{self.index()}];", f"y = t[{self.index()}];"])

    def kernel(self):
        rng = self.rng
        size, groups = rng.choice([1, 2, 4, 64]), rng.choice([1, 2, 16])
        body = ["__local uint t[64];", "uint g = get_global_id(0);", "uint l = get_local_id(0);", f"uint x = {self.small()};", "uint y = n;"]
        body += [self.statement() for _ in range(rng.randrange(2, 6))]
        if rng.random() < 0.3:
            body = [*body, f"for (uint i = 0u; i < n; i += {rng.choice([1, 2, 4])}u) {{", f"a[{self.index()} + (i << 2)] = x;", "}"]
        least, most = sorted((rng.randrange(0, 9), rng.choice([0, 8, 100, 2**32 - 1])))
        text = HEAD % (size, "__global uint *a, __global const uint *b, uint n") + "\n".join(body) + "\n}\n"
        lines = f"arg n {least}..{most}\nlength a >= {rng.choice([14, 64, 1000])}\nlength b >= {size}\nbudget 100\n"
        return text, f"conditions 1\ngroups 1..{groups} 1..1 1..1\n" + lines
