"""Conditions that are kept for kernels of Debian's packages: read, drafted, looked at, and proved. real.py calls it.

A file of real/kept has the conditions for the kernels of a source, one behind the other. In front of each stands `of SUM`: the first eight
digits of the SHA-256 sum of the kernel's text, in which clang has expanded macros, and blanks are joined.
"""
import concurrent.futures
import hashlib
import os
import re
import resource
import signal
import statistics
import subprocess
import sys
import tempfile

HERE = os.path.dirname(os.path.abspath(__file__))
TOOLS = os.path.join(os.path.dirname(HERE), "tools")
sys.path.insert(0, TOOLS)
from draft import completed  # noqa: E402 (its folder is named above)
from draft_conditions import Sum  # noqa: E402
from draft_kernels import Unread  # noqa: E402
from draft_prover import Prover  # noqa: E402
from draft_search import NotRead, Search  # noqa: E402

WORDS = ["--wide", "--opencl", "--devices", "any"]
# Work-group sizes that are tried one after the other where a kernel says none, by how many dimensions it uses.
SIZES = {1: [(64, 1, 1), (1, 1, 1), (256, 1, 1), (128, 1, 1)], 2: [(16, 16, 1), (1, 1, 1), (32, 8, 1), (8, 8, 1), (64, 1, 1)],
         3: [(4, 4, 4), (1, 1, 1), (8, 8, 4)]}
# The most elements of a buffer that drafted conditions may ask for, whatever the arguments are.
LARGE = 2**28
# How many processor seconds a kernel may take to be proved.
SECONDS = 60


class Given:
    """A kernel as it is given: its source, the sum and the length of its text, and its file's text with what a host defines in front."""

    def __init__(self, source, kernel, body, text):
        self.source, self.kernel, self.text = source, kernel, text
        self.name, self.length = kernel["name"], len(body)
        self.total = hashlib.sha256(body.encode()).hexdigest()[:8]


def path_of(source):
    return os.path.join(HERE, "real", "kept", re.sub(r"\W", "_", source.lower()) + ".txt")


def kept_of(source):
    """The conditions that are kept for a source's kernels, by the sums of their texts."""
    if not os.path.exists(path_of(source)):
        return {}
    with open(path_of(source), encoding="ascii") as file:
        parts = re.split(r"^of ([0-9a-f]{8})\n", file.read(), flags=re.M)
    return dict(zip(parts[1::2], parts[2::2]))


def keep(source, kept):
    with open(path_of(source), "w", encoding="ascii") as file:
        file.write("".join(f"of {total}\n{text}" for total, text in sorted(kept.items(), key=lambda it: (name_of(it[1]), it[0]))))


def name_of(text):
    return next(it.split()[1] for it in text.splitlines() if it.startswith("kernel "))


def ended(words, seconds):
    """What a program prints, its status, and its processor seconds, of which it has so many."""
    with tempfile.TemporaryFile() as out:
        with subprocess.Popen(words, stdin=subprocess.DEVNULL, stdout=out, stderr=subprocess.DEVNULL,
                              preexec_fn=lambda: resource.setrlimit(resource.RLIMIT_CPU, (seconds, seconds + 1))) as ran:
            _, status, used = os.wait4(ran.pid, 0)
            ran.returncode = os.waitstatus_to_exitcode(status)
        out.seek(0)
        return out.read().decode("utf-8", "replace"), ran.returncode, used.ru_utime + used.ru_stime


# Drafts


def draft(program, given, seconds):
    """Conditions under which a kernel is accepted, or none; and what is said last. Work-group sizes are tried one after the other."""
    said, left = "", seconds
    with tempfile.TemporaryDirectory(prefix="kverify-real-") as folder:
        path = os.path.join(folder, "kernel.cl")
        with open(path, "w", encoding="latin-1", newline="") as file:
            file.write(given.text)
        for size in [None] if given.kernel["size"] else SIZES[given.kernel["dimensions"]]:
            if left < 0.5:
                break
            head = (f"kernel {given.name}", *(["local_size {} {} {}".format(*size)] if size else []))
            try:
                kernel, head = completed(head, given.text, lambda _: None)
                search = Search(kernel, Prover(program, path, folder, left), head)
                found = search.run()
            except NotRead as refusal:
                return None, str(refusal)
            except (Unread, OSError, ValueError) as error:
                return None, f"not drafted: {error}"
            left -= search.prover.spent
            # (where all is empty with one size, it may not be with another)
            if found and not (said := fault_of(program, path, found)):
                return str(found), "accepted"
            said = said if found else last_words(search)
    return None, said


def last_words(search):
    """What the program said where a search found nothing."""
    answer = search.hopeless or search.nearest and search.nearest[1]
    return answer and answer.head() or "no answer in time"


def fault_of(program, path, conditions):
    """Why conditions are not kept: they want a buffer that no host makes, or no launch that meets them loads or stores an element."""
    if any(least.constant() > LARGE for _, least in conditions.lengths):
        return "a buffer would have to be too long"
    empty = conditions.change(lengths=tuple((name, Sum()) for name, _ in conditions.lengths))
    with tempfile.NamedTemporaryFile("w", encoding="ascii") as file:
        file.write(str(empty))
        file.flush()
        said, status, _ = ended([program, "prove", path, file.name, *WORDS], SECONDS)
    return "nothing is loaded or stored at any launch" if status == 0 and said.startswith("accepted") else None


def drafted(words, givens):
    """Drafts conditions for kernels for which none are kept, and keeps them; what was tried within so many seconds is not tried again."""
    tried = os.path.join(words.folder, "drafts")
    os.makedirs(tried, exist_ok=True)
    kept = {source: kept_of(source) for source in {it.source for it in givens}}
    waiting = [it for it in givens if it.total not in kept[it.source] and is_to_be_tried(os.path.join(tried, it.total), words.draft)]
    with concurrent.futures.ProcessPoolExecutor(words.workers) as pool:
        begun = {pool.submit(draft, words.program, it, words.draft): it for it in in_turn(waiting)}
        for number, done in enumerate(concurrent.futures.as_completed(begun), 1):
            it = begun[done]
            text, said = done.result()
            with open(os.path.join(tried, it.total), "w", encoding="utf-8") as file:
                file.write(f"{words.draft} {it.source} {it.name}\n{said}\n")
            if text:
                # (some may have been written meanwhile)
                keep(it.source, {**kept_of(it.source), it.total: text})
            told = " ".join(said.splitlines()[:2])
            print(f"[{number}/{len(begun)}] {it.source} {it.name} {it.total}: {told}", file=sys.stderr, flush=True)


def in_turn(givens):
    """Kernels of several sources, of each source one after the other, the short ones first."""
    by_source = {}
    for it in sorted(givens, key=lambda it: it.length):
        by_source.setdefault(it.source, []).append(it)
    longest = max(map(len, by_source.values()), default=0)
    return [its[at] for at in range(longest) for its in by_source.values() if at < len(its)]


def is_to_be_tried(path, seconds):
    """Whether a kernel, of which a file tells what was tried, may have a draft within so many seconds."""
    if not os.path.exists(path):
        return True
    with open(path, encoding="utf-8") as file:
        head, said = file.read().split("\n", 1)
    return int(head.split()[0]) < seconds and not re.match(r"refused (?!53|54|56|60)\d+|not drafted", said)


# Proofs


def proved(words, givens):
    """Of each kernel for which conditions are kept: what is said of it under these, processor seconds, and bytes of the certificate."""
    kept = {source: kept_of(source) for source in {it.source for it in givens}}
    found = [it for it in givens if it.total in kept[it.source]]
    missing = sum(map(len, kept.values())) - len({(it.source, it.total) for it in found})
    if missing:
        print(f"of {missing} kernels with conditions the texts are others here", file=sys.stderr)
    with concurrent.futures.ThreadPoolExecutor(words.workers) as pool:
        begun = [(it, pool.submit(prove, words.program, it, kept[it.source][it.total])) for it in found]
        for number, (it, done) in enumerate(begun, 1):
            said, seconds, size = done.result()
            if said != "accepted":
                print(f"{it.source} {it.name} {it.total}: {said}", file=sys.stderr, flush=True)
            elif number % 50 == 0:
                print(f"[{number}/{len(begun)}]", file=sys.stderr, flush=True)
    return [{"source": it.source, "kernel": it.name, "of": it.total, "said": done.result()[0], "seconds": done.result()[1],
             "bytes": done.result()[2]} for it, done in begun]


def prove(program, given, text):
    with tempfile.TemporaryDirectory(prefix="kverify-real-") as folder:
        path, told, out = (os.path.join(folder, name) for name in ("kernel.cl", "conditions", "certificate"))
        with open(path, "w", encoding="latin-1", newline="") as file:
            file.write(given.text)
        with open(told, "w", encoding="ascii") as file:
            file.write(text)
        said, status, seconds = ended([program, "prove", path, told, *WORDS, "--out", out], SECONDS)
        if status in (-signal.SIGXCPU, -signal.SIGKILL):
            return f"over {SECONDS} seconds", seconds, 0
        return (said.splitlines() or [f"status {status}"])[0], seconds, os.path.getsize(out) if os.path.exists(out) else 0


def rows_of(found):
    """A table of what was proved, by sources: kernels, those accepted, and of these the median and the largest of seconds and bytes."""
    rows = [["Source", "Conditions kept", "Accepted", "Seconds, median", "most", "Certificate, KB, median", "largest"]]
    for source in [*dict.fromkeys(it["source"] for it in found), None]:
        of = [it for it in found if source in (None, it["source"])]
        good = [it for it in of if it["said"] == "accepted"]
        seconds, sizes = [it["seconds"] for it in good] or [0], [it["bytes"] / 1000 for it in good] or [0]
        rows.append([source or "all", len(of), len(good), f"{statistics.median(seconds):.2f}", f"{max(seconds):.1f}",
                     f"{statistics.median(sizes):.1f}", f"{max(sizes):.0f}"])
    return rows
