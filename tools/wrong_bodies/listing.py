"""Wrong bodies and wrong rules on lines of their own, for who looks them through."""
import os
import signal

# Of each text so many letters are shown, from about so many before the texts differ.
SHOWN = 70
BEFORE = 20


def print_lines(lines):
    """Prints the lines, or as many as are read."""
    signal.signal(signal.SIGPIPE, signal.SIG_DFL)
    for line in lines:
        print(line)


def line_of(body):
    """A wrong body on a line: the functions that it turns, and its texts."""
    functions = " and ".join(it.name for it in body.functions) or "no function"
    return f"{body}, {functions}: {'; '.join(turned(old, new) for _, old, new in body.changes)}"


def turned(old, new):
    """What an old text becomes, each cut to where they differ if one of them is long."""
    old, new = old.strip(), new.strip()
    first = 0
    if max(len(old), len(new)) > SHOWN:
        first = old.rfind(" ", 0, max(len(os.path.commonprefix([old, new])) - BEFORE, 0)) + 1
    return f"`{part(old, first)}` becomes `{part(new, first)}`"


def part(text, first):
    """What is shown of a text from a letter on."""
    last = first + SHOWN
    return f"{'.. ' if first else ''}{text[first:last]}{' ..' if last < len(text) else ''}"
