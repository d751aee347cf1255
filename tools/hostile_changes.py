"""Changes of texts at random, for the part `bytes` of hostile.py."""
import re

EDGES = [0, 1, 2, 3, 31, 32, 63, 64, 65, 255, 256, 512, 1023, 1024, 1025, 65_535, 65_536, 65_537, 2**31 - 1, 2**31, 2**31 + 1,
         2**32 - 1, 2**32, 2**63 - 1, 2**63, 2**64, 10**30]
BYTES = b"\n \r\t\0\xe9\x7f0179-*+#$@/.xXeuU;,(){}[]<>=!~^&|%?:\\'\"_aA"


def with_byte(rng, text):
    """A byte less, more, twice, or another one."""
    at = rng.randrange(len(text) + 1)
    byte = bytes([rng.choice(BYTES) if rng.random() < 0.8 else rng.randrange(256)])
    front, own, rest = text[:at], text[at:at + 1], text[at + 1:]
    return rng.choice([front + rest, front + byte + own + rest, front + byte + rest, front + own * 2 + rest])


def with_cut(rng, text):
    """The text cut in front, behind or in the middle, or with a part twice."""
    at, other = sorted(rng.randrange(len(text) + 1) for _ in range(2))
    return rng.choice([text[:at], text[other:], text[:at] + text[other:], text[:other] + text[at:]])


def with_lines(rng, text):
    """Two lines exchanged, one left out, one twice, or another one between."""
    lines = text.split(b"\n")
    i, j = rng.randrange(len(lines)), rng.randrange(len(lines))
    kind = rng.randrange(4)
    if kind == 0:
        lines[i], lines[j] = lines[j], lines[i]
    elif kind == 1:
        del lines[i]
    else:
        lines.insert(i, lines[j] if kind == 2 else rng.choice([b"", b" ", b"end", b"{", b"}"]))
    return b"\n".join(lines)


def with_number(rng, text):
    """A number at an edge, or written otherwise."""
    found = list(re.finditer(rb"-?\d+", text))
    if not found:
        return with_byte(rng, text)
    it = rng.choice(found)
    number = int(it[0])
    other = rng.choice([*EDGES, *(-it for it in EDGES[1:]), number + 1, number - 1, -number])
    plain, size = b"%d" % other, abs(other)
    told = rng.choice([plain, plain, plain, b"0x%x" % size, b"0%d" % size, plain + b"u", b"+" + plain, b"-0", b""])
    return text[:it.start()] + told + text[it.end():]


def with_word(rng, text):
    """A word or sign left out, twice, or another one of the text."""
    found = list(re.finditer(rb"[A-Za-z_@$#][A-Za-z0-9_.]*|[-+*/%&|^<>=!]+|[(){}\[\];,]", text))
    if len(found) < 2:
        return with_byte(rng, text)
    it, other = rng.choice(found), rng.choice(found)
    return text[:it.start()] + rng.choice([other[0], other[0], b"", it[0] + b" " + it[0]]) + text[it.end():]


def with_near(rng, text):
    """Another number that may do as well."""
    found = list(re.finditer(rb"\d+", text))
    if not found:
        return with_byte(rng, text)
    it = rng.choice(found)
    return text[:it.start()] + b"%d" % max(0, rng.choice([int(it[0]) + 1, int(it[0]) - 1, 2 * int(it[0]), 0, 1, 2, 5])) + text[it.end():]


# The changes, each as often as it is likely.
CHANGES = [with_byte, with_cut, with_lines, with_number, with_number, with_near, with_near, with_near, with_word, with_word]


def changed(rng, text):
    """The text with one to three changes."""
    for _ in range(rng.choice([1, 1, 1, 1, 2, 3])):
        text = rng.choice(CHANGES)(rng, text)
    return text
