#!/usr/bin/env python3
"""Lists the files of the recipes in docs/EXTENDING.md, and where the words of a recipe's model stand.

usage: tools/recipes.py [TITLE], at the top of the repository; without a title, all recipes, of which what differs is told alone. It changes
and proves nothing. The status is 1 where a file that a recipe lists is gone, or a model's word stands nowhere.

A recipe is a section "## TITLE". What stands in parentheses is not read. A name in backticks that is a crate begins what is listed of it;
behind `specs:`, `src:` or `proofs:` each name in backticks is a file there, up to the end of the sentence. A path with `/` is one below
crates/, or at the top. A line "*Words*: `A`, `B`." has the words of the model.
"""
import functools
import glob
import os
import re
import sys

RECIPES = "docs/EXTENDING.md"
ENDINGS = {"specs": ".antt", "src": ".rt", "proofs": ".antt"}
PIECE = re.compile(r"`([^`]+)`|\b(specs|src|proofs):|(\.)(?=\s|$)")


def recipes():
    """The text of each recipe that has words, by its title."""
    with open(RECIPES, encoding="utf-8") as file:
        parts = re.split(r"^## (.+)$", file.read(), flags=re.M)
    return {title: text for title, text in zip(parts[1::2], parts[2::2]) if "*Words*:" in text}


def words_of(text):
    return re.findall(r"`(\w+)`", re.search(r"^\*Words\*: ([^.]*)\.", text, flags=re.M).group(1))


def spread(path):
    """The paths that a path with braces stands for."""
    found = re.search(r"\{([^}]*)\}", path)
    return [path[:found.start()] + it + path[found.end():] for it in found.group(1).split(",")] if found else [path]


def listed(text):
    """The files that a recipe lists."""
    text = re.sub(r"^\*Words\*: .*$", "", text, flags=re.M)
    while re.search(r"\([^()]*\)", text):
        text = re.sub(r"\([^()]*\)", "", text)
    crate, kind, files = None, None, []
    for name, folder, end in (it.groups() for it in PIECE.finditer(text)):
        if folder:
            kind = folder
        elif end:
            kind = None
        elif "/" in name:
            files += [it if os.path.isdir(it.split("/")[0]) else f"crates/{it}" for it in spread(name)]
        elif kind and crate:
            files.append(f"crates/{crate}/{kind}/{name}{ENDINGS[kind]}")
        elif os.path.isdir(f"crates/{name}"):
            crate = name
    return list(dict.fromkeys(files))


@functools.cache
def sources():
    """The files of definitions, code and proofs, by their paths, each as the set of its words."""
    found = {}
    for folder, ending in ENDINGS.items():
        for path in glob.glob(f"crates/*/{folder}/**/*{ending}", recursive=True):
            with open(path, encoding="utf-8") as file:
                found[path] = set(re.findall(r"\w+", file.read()))
    return found


def standing(words):
    """The files of definitions, code and proofs in which one of the words stands."""
    return {path for path, found in sources().items() if not found.isdisjoint(words)}


def main():
    wanted = " ".join(sys.argv[1:])
    told = {title: text for title, text in recipes().items() if wanted in title}
    if not told:
        sys.exit(__doc__)
    gone = False
    for title, text in told.items():
        files, words = listed(text), words_of(text)
        for path in (it for it in files if not os.path.exists(it)):
            print(f"{title}: {path} is gone")
            gone = True
        for word in (it for it in words if not standing([it])):
            print(f"{title}: the word {word} stands nowhere")
            gone = True
        if wanted:
            places = standing(words)
            for path in files:
                print(f"{path}{'' if path in places else '  (no word of the model)'}")
            for path in sorted(places.difference(files)):
                if os.path.basename(path) not in ("Answers.antt", "Invariants.antt"):
                    print(f"{path}  (not listed)")
    print(f"{len(told)} recipes: {'a listed file is gone' if gone else 'each listed file is there'}")
    return gone


if __name__ == "__main__":
    sys.exit(main())
