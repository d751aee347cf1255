"""What the scripts of compare/ and measure/ have in common: where the repository and its programs are, how the program is asked, and texts of
launches and certificates."""
import itertools
import os
import random
import re
import subprocess

ROOT = os.path.dirname(os.path.dirname(os.path.abspath(__file__)))
# The program, or another build of it that KVERIFY names.
KVERIFY = os.environ.get("KVERIFY", os.path.join(ROOT, "crates", "kverify", "out", "kverify"))
# The program of the tests of texts, which also measures parts of kverify.
CASES = os.path.join(ROOT, "crates", "cases", "out", "cases")


def put(place, text):
    """Writes a text, bytes or not, to a file."""
    with open(place, "wb") as out:
        out.write(text if isinstance(text, bytes) else text.encode())


def put_all(folder, texts):
    """Writes texts to files of a folder, by their names, and returns the places of these in order."""
    places = [os.path.join(folder, name) for name in texts]
    for place, text in zip(places, texts.values()):
        put(place, text)
    return places


def first_line(*words, timeout=600):
    """The first line of what the program prints for these words."""
    done = subprocess.run([KVERIFY, *words], capture_output=True, text=True, timeout=timeout)
    return (done.stdout + done.stderr).split("\n")[0]


def dice_of(seed):
    """Random numbers without end, by attempts: the number of each, and what it throws its dice with."""
    return ((attempt, random.Random(f"{seed}:{attempt}")) for attempt in itertools.count())


def print_counts(found):
    """Prints what was counted, a line each."""
    for what, number in found.items():
        print(f"{number} {what}")


def number_behind(words, option, default):
    """The number behind an option, and the words without both; the default where the option is not there."""
    if option not in words:
        return default, words
    at = words.index(option)
    return int(words[at + 1]), words[:at] + words[at + 2 :]


def has_exit(kernel):
    """Whether a kernel's text has a `return`, `break` or `continue`."""
    return re.search(r"\b(return|break|continue)\b", kernel) is not None


def launch_text(typed, launch):
    """The text of a launch of the independent program, for a kernel that it typed."""
    lines = ["launch 1", "groups %d %d %d" % tuple(launch.groups)]
    names = [parameter.name for parameter in typed.kernel.params]
    lines += ["arg %s %d" % (name, launch.args[name]) for name in names if name in launch.args]
    lines += [" ".join(["buffer", name, "list", *map(str, launch.buffers[name])]) for name in names if name in launch.buffers]
    return "\n".join(lines + ["fill %d" % launch.fill]) + "\n"


def certificate_lines(certificate):
    """The lines of a certificate of version 2 between the first and the last, each with the form at its end, or none, apart."""
    _, *texts, _ = certificate.splitlines()
    forms = [it.removeprefix("form ") for it in texts if it.startswith("form ")]
    lines = []
    for text in texts[len(forms):]:
        has_form = re.match("(fact|mod|loop) |ob [0-9]+ quot ", text)
        front, number = text.rsplit(" ", 1) if has_form else (text, None)
        lines.append((front, forms[int(number) - 1] if has_form else None))
    return lines


def certificate_text(lines, version):
    """The text of such lines: of version 2 with a table of their forms, each once, in the order of first use."""
    forms = list(dict.fromkeys(form for _, form in lines if form is not None))
    told = {form: form if version == 1 else str(at) for at, form in enumerate(forms, 1)}
    table = [f"form {it}" for it in forms] if version == 2 else []
    rows = [front if form is None else f"{front} {told[form]}" for front, form in lines]
    return "\n".join([f"certificate {version}", *table, *rows, "end", ""])
