"""The wrong bodies of a crate, as its edit files have them.

An edit file has lines `file: PATH`, `old: TEXT` and `new: TEXT`. A pair of the
last two is one wrong body. A line `with: the pair before` in front of a pair
says that the two are one, as where the first adds what the second calls.
"""
from collections import namedtuple
from pathlib import Path

from . import places

FOLDERS = ("must-fail", "bodies")
WITH = "with: the pair before"
# What is read of a crate here: its name and its folder.
Crate = namedtuple("Crate", "name folder")


class Body:
    """A wrong body, the functions that it turns, and what came of it."""

    def __init__(self, crate, edit, numbers, changes):
        self.crate, self.edit, self.numbers, self.changes = crate, edit, numbers, changes
        found = [places.function_of(crate.folder, path, old) for path, old, _ in changes]
        self.functions = list(dict.fromkeys(it for it in found if it))
        self.verdict = None

    def __str__(self):
        return f"{self.crate.name} {self.edit} {'+'.join(map(str, self.numbers))}"

    def names(self, other):
        """Whether the function, or the new text, names the other's function."""
        words = [self.functions[0].text, *(new for _, _, new in self.changes)]
        return other.functions[0].own in places.WORD.findall(" ".join(words))

    def can_join(self, others):
        """Whether it can be tried with the others, and nothing is lost."""
        if any(len(it.functions) != 1 for it in [*others, self]):
            return False
        own = self.functions[0].name
        if any(it.functions[0].name == own or it.names(self) or self.names(it) for it in others):
            return False
        return texts_with([*others, self]) is not None


def crates_in(top):
    """The crates of a checkout by their names, lowest first, as crates.txt has them."""
    lines = Path(top, "crates.txt").read_text(encoding="utf-8").splitlines()
    names = [line.split(":")[0].split()[0] for line in lines if line and not line.startswith("#")]
    return {name: Crate(name, str(Path(top, "crates", name))) for name in names}


def bodies_of(crate):
    """All wrong bodies of a crate, in the order of its files."""
    files = [file for part in FOLDERS for file in sorted(Path(crate.folder, part).glob("*.edit"))]
    named = [(f"{file.parent.name}/{file.stem}", pairs) for file in files for pairs in pairs_in(file)]
    return [Body(crate, edit, *pairs) for edit, pairs in named]


def pairs_in(file):
    """The numbers and the changes, as path, old and new text, of each wrong body."""
    found, path, old, number, is_joined = [], "", "", 0, False
    for line in file.read_text(encoding="utf-8").split("\n"):
        word, _, text = line.partition(":")
        text = text[1:] if text.startswith(" ") else text
        if line == WITH:
            is_joined = True
        elif word == "file":
            path = text.strip()
        elif word == "old":
            old = text
        elif word == "new":
            number += 1
            if not is_joined:
                found.append(([], []))
            found[-1][0].append(number)
            found[-1][1].append((path, old, text))
            is_joined = False
    return found


def texts_with(bodies):
    """The texts that the bodies change, by path, or None where they don't fit.

    Each old text has to stand in its file once, when those before are in.
    """
    texts = {}
    for body in bodies:
        for path, old, new in body.changes:
            file = Path(body.crate.folder, path)
            text = texts[path] if path in texts else file.read_text(encoding="utf-8")
            if text.count(old) != 1:
                return None
            texts[path] = text.replace(old, new)
    return texts
