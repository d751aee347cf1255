"""The part `texts` of hostile.py: certificates cut at each byte, and texts at their limits and past them."""
from hostile_common import count
from hostile_sheets import Sheet

STORE = b"a[get_global_id(0)] = 1u;\n"
HEAD = b"kernel __attribute__((reqd_work_group_size(64, 1, 1))) void k(__global uint *a) {\n"
# Commands over texts at a limit or past it, and the line that each is to write.
LIMITS = {
    "check full fill.c fill.1": b"accepted",
    "check full fill.c fill.2": b"accepted",
    "print over": b"refused 5 1:1",
    "check over fill.c fill.1": b"refused 5 1:1",
    "prove over fill.c": b"refused 5 1:1",
    "check fill over fill.1": b"refused 34 1",
    "prove fill over": b"refused 34 1",
    "run fill fill.c fill.1 over.l": b"refused 34 1",
    "check fill fill.c over.1": b"refused 50 1",
    "check fill fill.c over.2": b"refused 50 1",
    "migrate over.1 made": b"refused 50 1",
    "check 180 180.c empty": b"refused 52 361",
    "check 181 181.c empty": b"refused 53 1:1",
    "check 512 512.c empty": b"refused 53 1:1",
    "print 513": b"refused 12 514:1",
    "check 513 513.c empty": b"refused 12 514:1",
    "prove 513 513.c": b"refused 12 514:1",
}


def texts(trial):
    """All of this part."""
    with trial.table.row("a certificate cut at each byte, in both versions") as ends:
        for name in ("fill", "tree"):
            for version in (1, 2):
                count(trial, ends, f"a cut of {name}.{version}", cuts(trial, name, version), "refused at the line that was due")
    with trial.table.row("texts at their limits and past them") as ends:
        count(trial, ends, "a limit", limits(trial), "as it has to be")


def cuts(trial, name, version):
    """A certificate, cut at each byte, checked and migrated."""
    whole = trial.files[f"{name}.{version}"]
    sheet = Sheet({it: text for it, text in trial.files.items() if it.startswith(name)})
    for length in range(len(whole)):
        sheet.add({"cut": whole[:length]})
        line = whole[:length].count(b"\n") + 1
        sheet.ask(f"check {name} {name}.c cut", (1, b"refused 50 %d\n" % line))
        if version == 1:
            sheet.ask("migrate cut made", (1, b"refused 50 %d\n" % line))
    return sheet


def limits(trial):
    """Texts at their limits and past them."""
    files = trial.files
    sheet = Sheet({it: files[it] for it in ("fill", "fill.c", "fill.1", "fill.2", "fill.l")})
    sheet.add({
        "empty": b"certificate 1\nend\n", "full": files["fill"] + b" " * (65_536 - len(files["fill"])), "over": b" " * 65_537,
        "over.l": b" " * 4_194_305,
        "over.1": b"certificate 1\n" + b" " * 16_777_203, "over.2": b"certificate 2\n" + b" " * 16_777_203,
    })
    for stores in (180, 181, 512, 513):
        conditions = files["fill.c"].replace(b"budget 1\n", b"budget %d\n" % stores)
        sheet.add({f"{stores}": HEAD + STORE * stores + b"}\n", f"{stores}.c": conditions})
    for words, told in LIMITS.items():
        sheet.ask(words, (0 if told == b"accepted" else 1, told + b"\n"))
    return sheet
