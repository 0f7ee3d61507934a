"""Which function a text of a source file belongs to, and how rattle names it.

The files have the layout of `rt fmt`, so a function ends at the first line with a
brace alone that stands as far to the right as its first line.
"""
import re
from collections import namedtuple
from pathlib import Path

WORD = re.compile(r"\w+")
FN = re.compile(r'^( *)(?:pub(?:\([^)]*\))? )?(?:(?:const|unsafe|ghost|extern "C") )*fn (\w+)')
OWNER = re.compile(
    r"^( *)(?:pub(?:\([^)]*\))? )?(?:trait|(?:unsafe )?impl(?:<[^{]*?>)?) "
    r"(?:(?P<of>[\w:]+)(?:<(?P<at>[A-Z]\w*)?.*?>)? for )?&?(?:'\w+ )?(?:mut )?(?P<type>[\w:]+)"
)
# Its own name, rattle's, its file, its first and last line, from 1, and its text.
Function = namedtuple("Function", "own name path first last text")


def function_of(folder, path, old):
    """The innermost function of the crate's file that has the text, or None."""
    text = Path(folder, path).read_text(encoding="utf-8")
    lines, line = text.split("\n"), text.count("\n", 0, max(text.find(old), 0))
    for first in range(line if path.startswith("src/") else -1, -1, -1):
        found = FN.match(lines[first])
        last = end_of(lines, first, found[1]) if found else -1
        if last >= line:
            name = "::".join(filter(None, [owner_of(lines, first, found[1]) or module_of(path), found[2]]))
            return Function(found[2], name, path, first + 1, last + 1, "\n".join(lines[first + 1 : last + 1]))
    return None


def end_of(lines, first, margin):
    """The last line of the function, or declaration, that begins on the first."""
    if re.search(r"[{].*[}]$|;$", lines[first]):
        return first
    ends = (at for at in range(first + 1, len(lines)) if lines[at] == margin + "}")
    return next(ends, len(lines) - 1)


def owner_of(lines, first, margin):
    """The type of the impl (with its trait, and that trait's argument) or the trait it is in."""
    for at in range(first, -1, -1):
        found = OWNER.match(lines[at])
        if found and len(found[1]) < len(margin):
            return "".join((found[part] or "").rpartition("::")[2] for part in ("type", "of", "at"))
    return None


def module_of(path):
    """The module of a file below src/."""
    return re.sub(r"(^|::)(lib|main|mod)$", "", path[len("src/") : -len(".rt")].replace("/", "::"))
