"""A recording without its files.

The kernel has no files: one pipe is there for all of them, and each process has it open. In a
transaction that pipe would be in everybody's way, where real files are in nobody's. So a trial
leaves files out: descriptors that name them do not exist, and the others have the numbers that the
kernel then gives them.
"""

from __future__ import annotations

from dataclasses import dataclass, replace
from typing import Callable, Dict, List, Optional, Tuple

from ..recording import FILE_READ, FILE_WRITE, ROOT, Recording, Step

_DESCRIPTORS = range(16)
_NEVER_OPEN = 16  # no process has a descriptor of this number
_FILES = {FILE_READ, FILE_WRITE}

# The descriptors of a process, by their recorded numbers: their numbers without files, or None for
# a file.
_Table = Dict[int, Optional[int]]


@dataclass(frozen=True)
class Fileless:
    """The steps that are left, each with its index in the recording, and which were left out."""

    steps: List[Tuple[int, Step]]
    left_out: List[int]


def without_files(recording: Recording) -> Fileless:
    """The steps of a recording without those of files.

    The kernel answers each of them as it answers the recorded one, descriptors' numbers apart.
    """
    tables: Dict[int, _Table] = {ROOT: {}}
    steps, left_out = [], []
    for index, step in enumerate(recording.steps):
        words = step.words
        if words[0] == "fork":
            tables[int(words[1])] = dict(tables.get(step.process, {}))
        rewrite = _REWRITES.get(words[0])
        made = rewrite(tables.setdefault(step.process, {}), step) if rewrite else step
        if made:
            steps.append((index, made))
        elif step.line is not None:
            left_out.append(index)
    return Fileless(steps, left_out)


def _free(taken: List[int]) -> List[int]:
    """The descriptors that are free, by rising numbers."""
    return [it for it in _DESCRIPTORS if it not in taken]


def _numbers(table: _Table) -> List[int]:
    """The numbers without files that are taken."""
    return [it for it in table.values() if it is not None]


def _closed(table: _Table, descriptor: int) -> int:
    """A number for a recorded descriptor that is not open: one that is not open here either."""
    return _NEVER_OPEN if descriptor in _numbers(table) else descriptor


def _calling(step: Step, *words: object) -> Step:
    """A step with other words."""
    return replace(step, call=" ".join(map(str, words)))


def _answering(step: Step, recorded: int, number: int) -> Step:
    """A step of which the answer is a descriptor, with its number without files."""
    is_it = step.expected == f"ok {recorded}"
    return replace(step, expected=f"ok {number}") if is_it else step


def _pipe(table: _Table, step: Step) -> Optional[Step]:
    ends = _free(list(table))[:2]
    if len(ends) < 2:
        return None  # it fails for want of descriptors, which are not short without files
    if _FILES == set(map(int, step.words[2:])):
        table.update(dict.fromkeys(ends))
        return None
    table.update(zip(ends, _free(_numbers(table))))
    return step


def _dup(table: _Table, step: Step) -> Optional[Step]:
    origin, free = int(step.words[1]), _free(list(table))
    if origin not in table:
        return _calling(step, "dup", _closed(table, origin))
    if not free:
        return None
    number = table[origin]
    if number is None:
        table[free[0]] = None
        return None
    copy = table[free[0]] = _free(_numbers(table))[0]
    return _answering(_calling(step, "dup", number), free[0], copy)


def _dup2(table: _Table, step: Step) -> Optional[Step]:
    origin, place = map(int, step.words[1:])
    number, old = table.get(origin), table.get(place)
    if number is None and origin in table:
        return _file_over(table, step, place)
    if origin not in table or place not in _DESCRIPTORS:
        words = [_closed(table, origin) if number is None else number]
        words += [_closed(table, place) if old is None else old]
        return _calling(step, "dup2", *words)
    if old is None:
        free = _free(_numbers(table))
        old = place if place in free else free[0]
    table[place] = old
    return _answering(_calling(step, "dup2", number, old), place, old)


def _file_over(table: _Table, step: Step, place: int) -> Optional[Step]:
    """A file takes the place of a descriptor: what was there is closed."""
    if place not in _DESCRIPTORS:
        return None
    old = table.get(place)
    table[place] = None
    return None if old is None else replace(_calling(step, "close", old), expected="ok 0")


def _close(table: _Table, step: Step) -> Optional[Step]:
    made = _renamed(table, step)
    table.pop(int(step.words[1]), None)
    return made


def _renamed(table: _Table, step: Step) -> Optional[Step]:
    """A call of which the first word names a descriptor."""
    name, descriptor, *more = step.words
    number = table.get(int(descriptor))
    if number is None:
        if int(descriptor) in table:
            return None
        number = _closed(table, int(descriptor))
    return _calling(step, name, number, *more)


_REWRITES: Dict[str, Callable[[_Table, Step], Optional[Step]]] = {
    "pipe": _pipe,
    "dup": _dup,
    "dup2": _dup2,
    "close": _close,
    "set_nonblock": _renamed,
    "read": _renamed,
    "write": _renamed,
}
