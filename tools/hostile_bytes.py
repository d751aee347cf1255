"""The part `bytes` of hostile.py: changed texts for each reader, against an independent program or for their form alone."""
import random
import re
import sys

from hostile_changes import changed
from hostile_common import judge
from hostile_sheets import Sheet

OPEN_KERNEL = b"kernel __attribute__((reqd_work_group_size(1, 1, 1))) void k(__global uint *a, uint n, __global const int *b, int m) { }\n"
OPEN_CONDITIONS = b"""conditions 1
groups 1..4 1..1 1..2
arg n 0..100
arg m -5..5
length a >= n + 2*groups.0
length b >= 0
require n >= 1
require n + 5 >= m
budget 9
"""
OPEN_LAUNCH = b"""launch 1
groups 2 1 1
arg n 3
arg m -2
buffer a list 1 2 3 4294967295 5 6 7
buffer b fill 4 -2147483648
fill 0
"""
EMPTY = b"certificate 1\nend\n"


class Oracle:
    """The independent program's answers, of texts alone."""

    def __init__(self, folder):
        sys.path.insert(0, folder)
        import cert
        import config
        import launch
        import lex
        import parse
        import printer
        import runner
        import types_

        config.stage("e")
        self.cert, self.launch, self.printer, self.runner, self.refusal = cert, launch, printer, runner, config.Refused
        self.typed = lambda text: types_.check_types(parse.parse(lex.lex(text)))
        self.open_typed = self.typed(OPEN_KERNEL)
        self.open_conditions = launch.read_conditions(self.open_typed, OPEN_CONDITIONS)

    def answer(self, reader, text):
        try:
            return 0, getattr(self, reader)(text)
        except self.refusal as error:
            return 1, error.line().encode() + b"\n"

    def kernels(self, text):
        return self.printer.print_kernel(self.typed(text)).encode()

    def conditions(self, text):
        self.launch.read_conditions(self.open_typed, text)
        return b"accepted\n"

    def launches(self, text):
        launch = self.launch.read_launch(self.open_typed, text)
        self.launch.meets(self.open_conditions, launch)
        return self.launch.write_buffers(self.open_typed, self.runner.run(self.open_typed, launch)).encode()

    def certificates(self, text):
        self.cert.read(text, (1, 2))
        return text

    def migrations(self, text):
        self.cert.migrate(text)
        return b"migrated\n"


# What the words behind each command name.
KINDS = {
    "check": ("kernels", "", "certificates"), "run": ("kernels", "", "certificates"),
    **dict.fromkeys(("prove", "explain", "tokens", "tree", "print"), ("kernels",)),
    **dict.fromkeys(("certificate", "migrate"), ("certificates",)),
}


def turned(line):
    """A line of conditions or of a launch, written otherwise in four ways."""
    return line.replace(b"..", b"."), line + b" + 1", line.replace(b"list", b"fill"), line.replace(b">=", b">= 3*n +")


def corpus_of(trial):
    """The texts of the tests, for each reader."""
    found = {"kernels": [OPEN_KERNEL], "conditions": [OPEN_CONDITIONS], "launches": [OPEN_LAUNCH], "certificates": []}
    for page in trial.pages.values():
        for words, files in page.commands:
            for kind, name in zip(KINDS.get(words[0], ()), words[1:]):
                if kind and 0 < len(files.get(name, b"")) < 6_000:
                    found[kind].append(files[name])
    # (short texts are many, and most of them are no kernels)
    found["kernels"] = [it for it in found["kernels"] if len(it) > 110 or len(it) % 7 == 0]
    # (those of other kernels are refused at their first name; so the lines of all stand for the parameters of one)
    for kind, known in (("conditions", OPEN_CONDITIONS), ("launches", OPEN_LAUNCH)):
        lines = known.split(b"\n")
        found[kind] += [b"\n".join([*lines[:at], it, *lines[at + 1:]]) for at in range(1, len(lines) - 1) for it in turned(lines[at])]
    found["certificates"] += [trial.files["fill.2"], trial.files["tree.1"], trial.files["tree.2"]]
    found["migrations"] = [it for it in found["certificates"] if it.startswith(b"certificate 1")]
    return {kind: sorted(set(texts)) for kind, texts in found.items()}


ASKED = {
    "kernels": "print text", "conditions": "check open text empty", "launches": "run open open.c empty text",
    "certificates": "certificate text", "migrations": "migrate text made",
}
# A refusal of a text alone, in each reader.
FORMS = {
    "kernels": rb"refused ([1-5]|1[0-2]|2[0-8]) \d+:\d+\n",
    "conditions": rb"refused 3[0-4] \d+\n|refused 56\n",
    "launches": rb"refused (3[0-4]|40) \d+\n",
    "certificates": rb"refused 50 \d+\n|refused 51\n",
    "migrations": rb"refused 50 \d+\n|refused 51\n",
}


def has_form(reader, status, out):
    """Whether an answer is one that the reader of a text may give."""
    if status == 0:
        return True
    return status == 1 and re.fullmatch(FORMS[reader], out) is not None


# The names that a kernel may not have or declare here, by docs/DECISIONS.md, and comments that are refused there.
OTHER_NAMES = re.compile(
    rb"_|barrier$|min$|max$|get_|CLK_|reqd_|atom|mem_fence|read_mem_fence|write_mem_fence|mem(cpy|move|set|cmp)$|bcmp$"
    rb"|mul24|mad24|abs$|clamp$|async_|wait_|prefetch"
)


def place_of(refusal):
    """The line and the column that a refusal tells."""
    return tuple(map(int, re.fullmatch(rb"refused \d+ (\d+):(\d+)\n", refusal).groups()))


def rest_at(text, refusal):
    """The rest of the line at which a refusal points."""
    line, column = place_of(refusal)
    return (text.split(b"\n") + [b""])[line - 1][column - 1:]


def departs(text, found):
    """Whether a kernel is refused for what docs/DECISIONS.md says that it departs in: a name, or a comment that goes on in a compiler."""
    refusal = re.fullmatch(rb"refused (1|21) (\d+):(\d+)\n", found[1])
    if not refusal:
        return False
    rest = rest_at(text, found[1])
    if refusal[1] == b"21":
        return OTHER_NAMES.match(rest) is not None
    return rest.startswith((b"\\", b"??/", b"\r")) or b"//" in text or b"/*" in text


def compared(trial, reader, rng, corpus, oracle):
    """One batch of changed texts of a reader: what the program answers, and where it is not as it has to be."""
    made, sheet = [], Sheet({"open": OPEN_KERNEL, "open.c": OPEN_CONDITIONS, "empty": EMPTY})
    for _ in range(1000):
        made.append(changed(rng, rng.choice(corpus)))
        sheet.add({"text": made[-1]})
        sheet.ask(ASKED[reader])
    found = sheet.answers(trial.folder)
    if found is None:
        trial.table.fault(f"{reader}: status {sheet.status} of one of 1,000 texts, {sheet.told[:200]!r}")
        return
    for at, text in enumerate(made):
        mine = found.get(at, (255, b""))
        # (this part of the program has no status of its own)
        if reader == "certificates" and mine[1].startswith(b"refused "):
            mine = 1, mine[1]
        if not has_form(reader, *mine):
            yield "other", f"{reader}: {text!r}: {mine}"
        elif oracle is None:
            yield ("read" if mine[0] == 0 else "refused"), None
        else:
            yield judged(reader, text, mine, oracle.answer(reader, text))


def line_at(text, refusal):
    """The line that a certificate is refused for by 50; nothing where it is not."""
    found = re.fullmatch(rb"refused 50 (\d+)\n", refusal)
    return (text.split(b"\n") + [b""])[int(found[1]) - 1] if found else b""


# What kernels that pass a limit, or are at one, may be told apart from the independent program: the two numbers, and how the places stand.
LIMITS = {
    (11, 11): (lambda mine, other: True, "too deep, told at another place"),
    (10, 11): (lambda mine, other: other < mine, "too deep before it breaks off, told where it does"),
    (10, 12): (lambda mine, other: other < mine, "too many names before it breaks off, told where it does"),
    (11, 10): (lambda mine, other: mine == other, "no statement where one would be too deep, told as such"),
    (12, 10): (lambda mine, other: mine == other, "no statement where one would be too many, told as such"),
}


def of_limits(text, mine, other):
    """What is known of two refusals that differ, by a limit on the whole tree or on statements; None where they have to be the same."""
    numbers = tuple(int(it.split()[1]) for it in (mine, other))
    if numbers == (12, 12):
        # (the other program points at the part of the `for`)
        return "too many statements, told where the `for` begins" if rest_at(text, mine).startswith(b"for") else None
    stands, known = LIMITS.get(numbers, (lambda mine, other: False, None))
    return known if stands(place_of(mine), place_of(other)) else None


def judged(reader, text, mine, other):
    """How an answer stands to that of the independent program, and the fault where it is not as it has to be."""
    if reader == "conditions" and mine == (1, b"refused 56\n"):
        mine = 0, b"accepted\n"
    if mine == other:
        return ("read" if mine[0] == 0 else "refused"), None
    if reader == "certificates" and text.startswith(b"certificate 4\n") and other == (1, b"refused 51\n"):
        return "of version 4, which the independent program does not read", None
    if reader in ("certificates", "migrations") and line_at(text, mine[1]).startswith(b"loop -"):
        return "a negative loop number, which the independent program takes", None
    if reader == "kernels" and departs(text, mine):
        return "refused by a rule of docs/DECISIONS.md", None
    if reader == "kernels" and mine[0] == other[0] == 1 and (known := of_limits(text, mine[1], other[1])):
        return known, None
    return "other", f"{reader}: {text!r}: {mine}, by the independent program {other}"


def fuzz(trial):
    """All of this part."""
    oracle = Oracle(trial.asked.oracle) if trial.asked.oracle else None
    corpus = corpus_of(trial)
    for reader in ASKED:
        against = "against the independent program" if oracle else "by their form"
        with trial.table.row(f"changed texts, seed {trial.asked.seed}, {against}: {reader}, of {len(corpus[reader])}") as ends:
            rng, told = random.Random(f"{trial.asked.seed} {reader}"), 0
            for _ in range(-(-trial.asked.count // 1000)):
                for end, fault in compared(trial, reader, rng, corpus[reader], oracle):
                    ends[end] += 1
                    if fault and (told := told + 1) <= 40:
                        trial.table.fault(fault)
        if trial.asked.sample:
            sampled(trial, reader, corpus[reader])


def sampled(trial, reader, corpus):
    """A few of the texts, by the program itself, which has to answer what it answers among the tests."""
    words = {"certificates": "check open open.c text"}.get(reader, ASKED[reader])
    files = {"open": OPEN_KERNEL, "open.c": OPEN_CONDITIONS, "empty": EMPTY}
    with trial.table.row(f"of these, by a process each: {reader}") as ends:
        rng = random.Random(f"{trial.asked.seed} {reader}")
        made = [changed(rng, rng.choice(corpus)) for _ in range(trial.asked.sample)]
        sheet = Sheet(files)
        for it in made:
            sheet.add({"text": it})
            sheet.ask(words)
        found = sheet.answers(trial.folder) or {}
        trial.put(files)
        for at, it in enumerate(made):
            trial.put({"text": it})
            mine = trial.program(words)
            judge(trial, ends, f"{reader}: {it!r}", (mine[0], mine[1] + mine[2]), found.get(at))
