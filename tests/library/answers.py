"""Calls the library from Python, by ctypes, as a plan says, and compares what comes with what has to come; then on
several threads at once, since ctypes lets go of the interpreter's lock while a call is made.

usage: answers.py LIBRARY PLAN
"""
import ctypes
import sys
from concurrent.futures import ThreadPoolExecutor
from pathlib import Path

OK, FAULT, NO_MEMORY, TOO_SMALL = range(4)
TEXT, JSON = range(2)


class Library:
    """The library in a shared object."""

    def __init__(self, path):
        self.object = ctypes.CDLL(path)

    def call(self, name, text, *form):
        """The status and the answer of a call: the first one asks for the size."""
        function = getattr(self.object, f"txos_{name}")
        size = ctypes.c_size_t()
        given = (ctypes.c_char_p(text), ctypes.c_size_t(len(text)), *map(ctypes.c_int, form))
        status = function(*given, None, ctypes.c_size_t(0), ctypes.byref(size))
        answer = ctypes.create_string_buffer(size.value)
        if status == TOO_SMALL:
            status = function(*given, answer, size, ctypes.byref(size))
        return status, answer.raw[: size.value]


def called(library, case):
    """What a case comes to, and what it has to come to."""
    function, text, status, wanted = case
    name, form = {"shell": ("shell", [TEXT]), "json": ("shell", [JSON])}.get(function, (function, []))
    return library.call(name, Path(text).read_bytes(), *form), (int(status), Path(wanted).read_bytes())


def main(path, plan):
    library = Library(path)
    cases = [it.split() for it in Path(plan).read_text().splitlines()]
    with ThreadPoolExecutor(8) as pool:
        came = list(pool.map(lambda case: called(library, case), [*cases, *reversed(cases)]))
    failed = [(case, it[0]) for case, it in zip([*cases, *reversed(cases)], came) if it[0] != it[1]]
    for case, it in failed:
        print(f"FAILED: {' '.join(case)}: {it}", file=sys.stderr)
    print(f"library: {len(cases)} cases from Python, {len(failed)} failed")
    return 1 if failed or not cases else 0


sys.exit(main(*sys.argv[1:]))
