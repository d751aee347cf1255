"""What a draft has to know of a kernel: its parameters, its work-group size, the dimensions of its groups, and the numbers of its text.

Nothing relies on it: where something is read wrongly, `prove` refuses the text of conditions that is made of it.
"""
import dataclasses
import re

LOCAL_SIZES = {1: (64, 1, 1), 2: (16, 16, 1), 3: (8, 8, 4)}
# The ranges of types, by their names without what says no more.
RANGES = {"char": (-128, 127), "uchar": (0, 255), "short": (-32768, 32767), "ushort": (0, 65535), "int": (-2147483648, 2147483647),
          "uint": (0, 4294967295), "long": (-2147483648, 2147483647), "float": (0, 4294967295), "bool": (0, 1)}
SPELLINGS = {"unsigned char": "uchar", "signed char": "char", "unsigned short": "ushort", "signed short": "short", "unsigned int": "uint",
             "signed int": "int", "unsigned": "uint", "signed": "int", "short int": "short", "unsigned short int": "ushort",
             "long int": "long", "signed long": "long"}
QUALIFIERS = {"const", "restrict", "__restrict", "__restrict__", "volatile", "global", "__global", "constant", "__constant", "local",
              "__local", "private", "__private"}
COMMENT = re.compile(r"//[^\n]*|/\*.*?\*/", re.S)
ATTRIBUTE = r"__attribute__\s*\(\(.*?\)\)\s*"
HEAD = re.compile(rf"\b(?:__)?kernel\b[^;{{}}]*?\bvoid\s+(?:{ATTRIBUTE})*(?P<name>\w+)\s*\(", re.S)
DIRECTIVE = re.compile(r"[ \t]*#[ \t]*(\w*)[ \t]*(.*)")
NO_DIRECTIVE = re.match("(x)?(x)?", "")
# The condition of a directive, as Python has it, and what makes none of it: a call, or what numbers get long by.
CONDITION = re.compile(r"(?:\b(?:and|or|not)\b|\d{1,10}\b|[-+*/%()<>=!&|^~\s])*")
NO_CONDITION = re.compile(r"\*\*|[\d)]\s*\(|<<(?!\s*\d{1,2}\s*(?:[)&|^<>=]|and|or|$))")
# What each text finds defined.
GIVEN = {"__OPENCL_VERSION__": "120", "__OPENCL_C_VERSION__": "120", "CL_VERSION_1_0": "100", "CL_VERSION_1_1": "110",
         "CL_VERSION_1_2": "120", "__ENDIAN_LITTLE__": "1"}
ID = r"\bget_%s_id\s*\(\s*(\w+)\s*\)"


class Unread(Exception):
    """A kernel's text of which this is not known."""


@dataclasses.dataclass(frozen=True)
class Parameter:
    """A parameter: `kind` is value, buffer or local; the names that it has in a text of conditions, and the range of its numbers."""

    kind: str
    names: tuple
    ends: tuple = (0, 0)
    is_float: bool = False
    is_constant: bool = False
    # Of what a `__local` parameter points to: how many elements one has.
    components: int = 1


class Source:
    """A file of kernels without comments and directives, with what macros stand for."""

    def __init__(self, text, defines=()):
        text = COMMENT.sub(" ", text.replace("\r\n", "\n").replace("\\\n", ""))
        text, macros = standing(text, defines)
        self.text = expanded(text, macros)
        self.heads = [it for it in HEAD.finditer(self.text) if opens_body(self.text, it.end())]


def kernel_names(text, defines=()):
    """The names of the kernels of a file, in its order."""
    return list(dict.fromkeys(it.group("name") for it in Source(text, defines).heads))


class Kernel:
    """What is known of a kernel, whose name is given where its file has several."""

    def __init__(self, text, defines=(), name=None):
        source = Source(text, defines)
        heads = [it for it in source.heads if name in (None, it.group("name"))]
        if len(heads) != 1:
            raise Unread(f"{len(heads) or 'no'} kernels" + (f" of the name {name}" if name else ""))
        head, text = heads[0], source.text
        end = closing(text, head.end() - 1)
        body = text.index("{", end)
        self.name, self.size = head.group("name"), size_of(head.group() + text[end:body])
        named = {new: old for old, new in re.findall(r"\btypedef\s+([\w\s]+?)\s+(\w+)\s*;", text)}
        self.parameters = [parameter_of(it, named) for it in split(text[head.end() : end - 1]) if it.strip() not in ("", "void")]
        self.text = reached(text, text[body : closing(text, body)])
        self.dimensions = dimensions_of(self.text)
        self.numbers = numbers_of(self.text)

    def values(self):
        return [(name, *it.ends) for it in self.parameters if it.kind == "value" for name in it.names]

    def buffers(self):
        return {name: it.ends for it in self.parameters if it.kind == "buffer" for name in it.names}

    def loaded(self):
        """The buffers that are not stored to, as far as their names tell, and the ranges of their elements."""
        stored = re.compile(r"\b(\w+)\s*\[[^;=]*\]\s*(?:(?:[-+*/%&|^]|<<|>>)?=(?!=)|\+\+|--)")
        kept = set(stored.findall(self.text))
        return {name: it.ends for it in self.parameters if it.kind == "buffer" for name in it.names
                if (it.is_constant or name not in kept) and not it.is_float}

    def locals(self):
        """The `__local` arrays, and how many elements one has of what they are arrays of: a vector's components."""
        return {name: it.components for it in self.parameters if it.kind == "local" for name in it.names}

    def default_size(self):
        """The work-group size to begin with where nobody says one."""
        asked = {int(it) for it in re.findall(r"\bget_(?:local_id|global_id|group_id|local_size)\s*\(\s*([012])\s*\)", self.text)}
        return LOCAL_SIZES[max(asked, default=0) + 1]


def standing(text, defines):
    """What directives let stand of a text, and the macros without parameters that it and a host define, by their names."""
    macros = {define.partition(" ")[0]: define.partition(" ")[2] if " " in define else "1" for define in defines}
    # (of each condition around a line: whether the line stands by it, and whether some part of it has stood)
    lines, around, now = [], [], {**GIVEN, **macros}
    for line in text.split("\n"):
        word, rest = (DIRECTIVE.match(line) or NO_DIRECTIVE).groups()
        if word in ("if", "ifdef", "ifndef"):
            holds = is_true(rest, now) if word == "if" else (rest.split(" ")[0] in now) == (word == "ifdef")
            around.append((holds, holds))
        elif word in ("elif", "else") and around:
            holds = not around[-1][1] and (word == "else" or is_true(rest, now))
            around[-1] = holds, holds or around[-1][1]
        elif word == "endif" and around:
            around.pop()
        elif all(stands for stands, _ in around):
            if found := word == "define" and re.match(r"(\w+)(\(?)[ \t]*(.*)", rest):
                now[found.group(1)] = found.group(3).strip()
                if not found.group(2):
                    macros.setdefault(found.group(1), found.group(3).strip())
            elif word == "undef":
                now.pop(rest.strip(), None)
            lines.append("" if word is not None else line)
    return "\n".join(lines), macros


def is_true(text, macros):
    """Whether the condition of a directive holds; one that is not known does not."""
    text = re.sub(r"\bdefined\s*(?:\(\s*(\w+)\s*\)|(\w+))", lambda found: str(int((found.group(1) or found.group(2)) in macros)), text)
    text = re.sub(r"\b(0[xX][0-9a-fA-F]+|\d+)[uUlL]*\b", lambda found: number_of(found.group(1)), expanded(text, macros))
    text = re.sub(r"\b[A-Za-z_]\w*\b", "0", text)
    text = re.sub(r"!(?!=)", " not ", text.replace("&&", " and ").replace("||", " or ").replace("/", "//"))
    if len(text) > 1024 or NO_CONDITION.search(text) or not CONDITION.fullmatch(text):
        return False
    try:
        return bool(eval(text, {"__builtins__": {}}))  # noqa: S307 (it has numbers and signs alone)
    except (ArithmeticError, SyntaxError, TypeError, ValueError, MemoryError, RecursionError):
        return False


def number_of(text):
    """A number of a condition, as Python has it."""
    return str(int(text, 16 if text[:2] in ("0x", "0X") else 8 if re.fullmatch(r"0[0-7]+", text) else 10))


def expanded(text, macros):
    """A text with what macros stand for, which may stand for other macros."""
    for _ in range(8):
        changed = re.sub(r"\b[A-Za-z_]\w*\b", lambda found: macros.get(found.group(), found.group()), text)
        if changed == text or len(changed) > 1048576:
            break
        text = changed
    return text


def closing(text, start):
    """The place behind the bracket that closes the one at a place."""
    opened = 0
    for at in range(start, len(text)):
        opened += (text[at] in "([{") - (text[at] in ")]}")
        if opened == 0:
            return at + 1
    raise Unread("a bracket that nothing closes")


def opens_body(text, start):
    """Whether behind a head's parameters, whose bracket stands in front of a place, a body begins."""
    try:
        behind = text[closing(text, start - 1) :]
    except Unread:
        return False
    return re.match(rf"\s*(?:{ATTRIBUTE})*\{{", behind, re.S) is not None


def split(text):
    """The parts of a text between commas that stand in no bracket."""
    parts, opened = [""], 0
    for sign in text:
        opened += (sign in "([{") - (sign in ")]}")
        if sign == "," and not opened:
            parts.append("")
        else:
            parts[-1] += sign
    return parts


def size_of(head):
    """The work-group size that a kernel's head says; none where it says none."""
    found = re.search(r"\b(?:__)?reqd_work_group_size(?:__)?\s*\(([^()]*),([^()]*),([^()]*)\)", head)
    if not found:
        return None
    try:
        return tuple(int(it.strip().rstrip("uU"), 0) for it in found.groups())
    except ValueError:
        raise Unread("a work-group size that is no number") from None


def parameter_of(text, named):
    """A parameter of its text, and of the types that the file names."""
    text = re.sub(ATTRIBUTE, " ", text, flags=re.S)
    words = re.findall(r"\w+", text.split("[")[0])
    if len(words) < 2:
        raise Unread(f"a parameter that is not known: {text.strip()}")
    name, is_pointer = words[-1], "*" in text or "[" in text
    of = " ".join(it for it in words[:-1] if it not in QUALIFIERS)
    for _ in range(4):
        of = " ".join(it for it in named.get(of, of).split() if it not in QUALIFIERS)
    of = SPELLINGS.get(of, of)
    scalar, count = re.fullmatch(r"(.*?)(\d*)", of).groups()
    ends = RANGES.get(scalar, RANGES["uint"])
    # (of three components a parameter has four)
    components = {"": 0, "3": 4}.get(count, int(count or 0))
    if is_pointer and {"local", "__local"} & set(words):
        return Parameter("local", (name,), components=max(1, components))
    if is_pointer:
        return Parameter("buffer", (name,), ends, scalar == "float", bool({"const", "constant", "__constant"} & set(words)))
    return Parameter("value", tuple(f"{name}_s{at:x}" for at in range(components)) or (name,), ends, scalar == "float")


def reached(text, body):
    """The text of a body, and of the file's functions that it calls."""
    functions, text = {}, re.sub(ATTRIBUTE, " ", text, flags=re.S)
    for found in re.finditer(r"\b(\w+)\s*\(([^;{}]*)\)\s*\{", text):
        if found.group(1) not in ("if", "for", "while", "switch"):
            functions[found.group(1)] = text[found.end() - 1 : closing(text, found.end() - 1)]
    parts, waiting, seen = [], [body], set()
    while waiting:
        part = waiting.pop()
        parts.append(part)
        called = {it for it in re.findall(r"\b(\w+)\s*\(", part) if it in functions} - seen
        seen |= called
        waiting += [functions[it] for it in sorted(called)]
    return "\n".join(parts)


def dimensions_of(text):
    """The dimensions of which groups are told apart; all of them where one is no number."""
    asked = re.findall(ID % "(?:global|group)", text)
    if any(it not in ("0", "1", "2", "0u", "1u", "2u") for it in asked):
        return {0, 1, 2}
    return {int(it[0]) for it in asked}


def numbers_of(text):
    """The numbers of a text, each once."""
    found = re.findall(r"(?<![\w.])(0[xX][0-9a-fA-F]+|\d+)[uU]?(?![\w.])", text)
    return sorted({int(it, 0) for it in found if not re.fullmatch(r"0\d+", it)})
