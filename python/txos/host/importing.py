"""Makes a recording of a log: from the calls of the host to the steps of a schedule."""

from __future__ import annotations

import re
from bisect import bisect_left
from collections import Counter, defaultdict
from dataclasses import replace
from typing import Callable, Dict, Iterable, Iterator, List, Optional, Sequence, Set, Tuple

from ..recording import (
    FILE_DESCRIPTOR,
    FILE_PIPE,
    FILE_READ,
    FILE_WRITE,
    READ,
    ROOT,
    TRY_AGAIN,
    WAITS,
    WRITE,
    LeftOut,
    Recording,
    Step,
)
from ..wording import counted
from .contents import Memory
from .descriptors import DATA, ZEROS
from .order import Order
from .strace import Event
from .tree import Draft, Pipe, Transfer, Tree

_PIPE_SIZE = 512  # bytes that a pipe of the kernel holds
_PAGE = 64
_TAKES_NUMBERS = ("pipe", "dup", "dup2", "fork", "exit")


def make_recording(
    events: Sequence[Event], lines: int, is_short: bool, advance: Callable[[int], None]
) -> Recording:
    """The recording of a log of so many lines.

    Where it is short, files that are opened and closed again are left out, and so are masks and
    actions that are set to what they are. `advance` is called with 1 after each event. Raises
    `Fault` where the log lacks the fork of a process, or has too many processes at once.
    """
    order = Order(events)
    tree = order.run(advance)
    if order.has_learned:
        tree = Order(events).run(lambda count: None)
    gone: Set[int] = idle_drafts(tree) if is_short else set()
    drafts = [it for place, it in enumerate(tree.drafts) if place not in gone]
    counts, factor = _scale(drafts)
    made = Recording(_one_line(tree.names[0].command), lines, factor)
    places = _spell(tree, drafts, counts, made)
    setup = list(_setup(made.steps))
    made.steps[:0] = setup
    kept = [it for it in range(len(tree.drafts)) if it not in gone]

    def begin(index: int) -> int:
        """The step that is the first one from a draft on."""
        return len(setup) + places[bisect_left(kept, index)]

    made.names = [
        replace(it, index=begin(it.index), command=_one_line(it.command)) for it in tree.names
    ]
    made.waiting = [replace(it, index=begin(it.index)) for it in tree.waiting]
    made.left_out = list(tree.left_out.values())
    return made


def _one_line(command: str) -> str:
    """A command without what would end a line, or is not ASCII."""
    return re.sub(r"[^ -~]", "?", command).strip() or "?"


# Scaling.


class _Flow:
    """The bytes of the host that a pipe was given since it was empty, and the units for them.

    Where the host's pipe is empty, so is the kernel's, and only there.
    """

    def __init__(self) -> None:
        self._empty()

    def _empty(self) -> None:
        self._bytes = {WRITE: 0, READ: 0}
        self._units = {WRITE: 0, READ: 0}

    @property
    def held(self) -> int:
        """The units that the pipe holds."""
        return self._units[WRITE] - self._units[READ]

    def move(self, verb: str, size: int, factor: int) -> int:
        """The units that so many bytes are: all that there are where they leave the pipe empty."""
        self._bytes[verb] += size
        if verb == WRITE:
            units = -(-self._bytes[WRITE] // factor) - self._units[WRITE]
        elif self._bytes[READ] < self._bytes[WRITE]:
            units = max(self._bytes[READ] // factor - self._units[READ], 0)
        else:
            units = self.held or -(-size // factor)
            self._empty()
            return units
        self._units[verb] += units
        return units

    def refused(self, size: int, factor: int, is_full: bool) -> int:
        """The units of a write that writes nothing; where the pipe is full there is no room."""
        least = _PIPE_SIZE - self.held + 1 if is_full else 1
        return min(max(-(-size // factor), least), _PIPE_SIZE)


def _count(drafts: Iterable[Draft], factor: int) -> Optional[Dict[int, int]]:
    """The units of each transfer, by its place; None where a pipe would have to hold too many."""
    flows: Dict[Pipe, _Flow] = defaultdict(_Flow)
    counts = {}
    for place, draft in enumerate(drafts):
        transfer = draft.transfer
        if not transfer:
            continue
        flow = flows[transfer.pipe]
        if draft.expected:
            is_full = draft.expected in (WAITS, TRY_AGAIN)
            counts[place] = flow.refused(transfer.size, factor, is_full)
            continue
        counts[place] = flow.move(transfer.verb, transfer.size, factor)
        if max(flow.held, counts[place]) > _PIPE_SIZE:
            return None
    return counts


def _most_held(drafts: Iterable[Draft]) -> int:
    """The most bytes of the host that a pipe holds."""
    most = 0
    held: Counter[Pipe] = Counter()
    for transfer in (it.transfer for it in drafts if it.transfer and not it.expected):
        size = transfer.size if transfer.verb == WRITE else -transfer.size
        held[transfer.pipe] = max(held[transfer.pipe] + size, 0)
        most = max(most, held[transfer.pipe])
    return most


def _scale(drafts: Sequence[Draft]) -> Tuple[Dict[int, int], int]:
    """The units of each transfer, and the least factor with which no pipe holds too many."""
    factor = max(-(-_most_held(drafts) // _PIPE_SIZE), 1)
    while True:
        counts = _count(drafts, factor)
        if counts is not None:
            return counts, factor
        factor += 1


# Spelling.


def _spell(
    tree: Tree, drafts: Sequence[Draft], counts: Dict[int, int], made: Recording
) -> List[int]:
    """Adds the steps of the drafts; answers for each draft which step it begins with."""
    memory = Memory() if made.factor == 1 else None
    places = []
    for place, draft in enumerate(drafts):
        places.append(len(made.steps))
        transfer, units = draft.transfer, counts.get(place, 0)
        if transfer is None:
            made.steps.append(draft.step())
            if memory:
                memory.follow(draft.process, draft.call)
        elif units:
            made.steps.extend(_transfer(draft, transfer, units, memory))
        else:
            tree.leave_out("transfer of less than one byte here", draft.line)
    return [*places, len(made.steps)]


def _transfer(
    draft: Draft, transfer: Transfer, units: int, memory: Optional[Memory]
) -> Iterator[Step]:
    """The steps of a transfer; what it writes is stored first, where it is known."""
    expected = draft.expected or (f"ok {units}" if transfer.is_answered else None)
    step, address = draft.step(), DATA if transfer.verb == READ else ZEROS
    if memory and transfer.data is not None and not draft.expected:
        address = DATA
        store = memory.store(draft.process, transfer.data)
        if store:
            yield replace(step, call=store, expected=None)
    yield replace(step, call=f"{draft.call} {address} {units}", expected=expected)
    if memory and not draft.expected:
        memory.move(draft.process, transfer, units, address)


def _setup(steps: Sequence[Step]) -> Iterator[Step]:
    """The steps before the recorded ones: pages for the bytes, and the stand-in for files."""
    pages: Set[int] = set()
    for words in (it.words for it in steps if it.words[0] in (READ, WRITE)):
        address, size = int(words[2]), int(words[3])
        pages.update(range(address // _PAGE, (address + max(size, 1) - 1) // _PAGE + 1))
    for page in sorted(pages):
        yield Step(ROOT, f"map {page}")
    yield Step(ROOT, f"pipe {FILE_PIPE} {FILE_READ} {FILE_WRITE}")
    yield Step(ROOT, f"dup2 1 {FILE_DESCRIPTOR}")
    yield Step(ROOT, f"dup {FILE_DESCRIPTOR}")


# What takes no part.


def idle_drafts(tree: Tree) -> Set[int]:
    """The places of the steps that take no part, which are counted as left out."""
    gone: Set[int] = set()
    opened: Dict[int, List[Tuple[int, str]]] = defaultdict(list)
    for place, draft in enumerate(tree.drafts):
        if draft.idle:
            gone.add(place)
            tree.leave_out(draft.idle, draft.line)
        words, files = draft.call.split(), opened[draft.process]
        if words[0] in ("dup", "dup2") and words[1] == str(FILE_DESCRIPTOR):
            number = (draft.expected or "").split()[-1:]
            if words[0] == "dup2":
                files.clear()
            files.extend((place, it) for it in number)
        elif words[0] == "close" and files and files[-1][1] == words[1]:
            gone |= {files.pop()[0], place}
            tree.leave_out("file that is opened and closed again", draft.line)
        elif words[0] in _TAKES_NUMBERS or words[0] == "close":
            files.clear()
    return gone


def left_out_sentence(left_out: Sequence[LeftOut]) -> str:
    """How much was left out, in a few words."""
    count = sum(it.count for it in left_out)
    kinds = counted(len(left_out), "kind")
    return f"{counted(count, 'part')} of the log left out, of {kinds}" if count else ""
