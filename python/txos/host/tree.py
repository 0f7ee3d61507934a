"""The tree of processes that a log speaks of, and the steps that the kernel is to make of it.

Processes, descriptors and pipes are kept as the host has them, each with the number that it has in
the kernel. A number of the kernel may lack: it has 16 descriptors a process, and 32 pipes.
"""

from __future__ import annotations

import errno
from dataclasses import dataclass, field, replace
from typing import Callable, Dict, FrozenSet, Iterator, List, Optional, Set, Tuple

from ..faults import Fault
from ..recording import (
    FILE_DESCRIPTOR,
    FILE_PIPE,
    OUTSIDE,
    ROOT,
    WRITE,
    LeftOut,
    Naming,
    Step,
    Waiting,
)

# The known signals: their numbers by their names, of those that are not realtime signals.
SIGNALS = {
    "HUP": 1, "INT": 2, "QUIT": 3, "ABRT": 6, "KILL": 9, "USR1": 10,
    "USR2": 12, "PIPE": 13, "ALRM": 14, "TERM": 15, "CHLD": 17,
}  # fmt: skip
KILL, PIPE, CHLD = SIGNALS["KILL"], SIGNALS["PIPE"], SIGNALS["CHLD"]
ENDINGS = ("HUP", "INT", "QUIT", "TERM", "KILL")  # signals by which people end programs
_NAMES = {number: name for name, number in SIGNALS.items()}
REALTIME = {f"RT_{it}": 32 + it for it in range(1, 8)}
REALTIME["RTMIN"] = 32
ERRORS = {
    it: int(getattr(errno, it))
    for it in "EPERM ESRCH EBADF ECHILD EAGAIN EINVAL EMFILE EPIPE".split()
}
_LAST_NUMBER = 256


def signal_number(name: str) -> Optional[int]:
    """The number of a signal by its name, with SIG or without, or None where there is none."""
    bare = name[3:] if name.startswith("SIG") else name
    return SIGNALS.get(bare, REALTIME.get(bare))


def spell_signal(number: int) -> str:
    """A signal as a schedule spells it: by its name, or a realtime one by its number."""
    return _NAMES.get(number, str(number))


@dataclass(eq=False)
class Pipe:
    """A pipe: its number in the kernel, and how many bytes of the host it holds.

    Where a descriptor of it was given to another process, or is one of the host's that the kernel
    has no room for, what goes through it is not known any more.
    """

    number: int
    held: int = 0
    is_unknown: bool = False


@dataclass
class Descriptor:
    """A descriptor of the host: a side of a pipe, or a file where `pipe` is None.

    `number` is that of the kernel's descriptor, or None where the kernel has no room for it.
    `process` is that of the host which a pidfd stands for.
    """

    pipe: Optional[Pipe] = None
    side: str = WRITE
    number: Optional[int] = None
    closes_on_exec: bool = False
    process: Optional[int] = None

    def copy(self) -> Descriptor:
        """The descriptor as a fork copies it."""
        return replace(self)


@dataclass(frozen=True)
class Action:
    """What a process does with a signal: a `kind` (default, ignore, catch), a mask, and flags."""

    kind: str = "default"
    mask: FrozenSet[int] = frozenset()
    flags: str = ""


@dataclass(eq=False)
class Process:
    """A process: `pid` is its number on the host, `number` that in the kernel."""

    pid: int
    number: int
    parent: Optional[Process]
    group: int
    command: str
    tasks: List[int] = field(default_factory=list)  # its threads, of which the first is itself
    descriptors: Dict[int, Descriptor] = field(default_factory=dict)
    actions: Dict[int, Action] = field(default_factory=dict)
    mask: FrozenSet[int] = frozenset()
    # The mask that each handler gives back, or None where the kernel lacks its signal.
    frames: List[Optional[FrozenSet[int]]] = field(default_factory=list)
    lacked: Set[str] = field(default_factory=set)  # what it catches and the kernel lacks
    pending: Set[int] = field(default_factory=set)
    own_mask: Optional[FrozenSet[int]] = None  # while a call waits with another one
    is_running: bool = True
    is_there: bool = True
    ends_at: Optional[int] = None  # the line of the signal that is about to end it

    def taken(self) -> Set[int]:
        """The kernel's descriptors that are open."""
        named = {it.number for it in self.descriptors.values() if it.number is not None}
        return named | {FILE_DESCRIPTOR}

    def free(self) -> List[int]:
        """The kernel's descriptors that are not open, by rising number."""
        taken = self.taken()
        return [it for it in range(FILE_DESCRIPTOR) if it not in taken]

    def action(self, signal: int) -> Action:
        """What it does with a signal."""
        return self.actions.get(signal, Action())

    def holds(self, pipe: Pipe, side: str) -> List[int]:
        """The host's descriptors that name a side of a pipe."""
        return [fd for fd, it in self.descriptors.items() if it.pipe is pipe and it.side == side]


@dataclass(frozen=True)
class Transfer:
    """Bytes of the host that go through a pipe, of which the kernel moves a part."""

    pipe: Pipe
    verb: str
    size: int
    data: Optional[bytes] = None
    is_answered: bool = True  # whether Linux has said how many bytes went


@dataclass
class Draft:
    """A step that is to be made; a transfer has no count yet. `idle` is why `--short` drops it."""

    process: int
    call: str
    expected: Optional[str]
    line: Optional[int]
    host: str
    transfer: Optional[Transfer] = None
    idle: str = ""

    def step(self) -> Step:
        """The step of a recording."""
        return Step(self.process, self.call, self.expected, self.line, self.host)


class Tree:
    """All processes, and the steps so far. `at` is the line of the log, and the call there."""

    def __init__(self, known: FrozenSet[int]) -> None:
        self.known = known  # the signals that sets have
        # Called before a signal is posted, with its target and its sender: what came before that
        # may have to be a step first.
        self.before_post: Callable[[int, Process, Process], None] = lambda number, to, by: None
        # What a process will be called that a fork has made, with the line of the fork.
        self.command_after_fork: Callable[[Process, int], str] = lambda child, line: child.command
        self.tasks: Dict[int, Process] = {}
        self._there: Dict[Process, None] = {}
        self.drafts: List[Draft] = []
        self.names: List[Naming] = []
        self.waiting: List[Waiting] = []
        self.left_out: Dict[str, LeftOut] = {}
        self.at: Tuple[int, str] = (0, "")
        self._next_number = ROOT

    def emit(
        self, process: Process, call: str, expected: Optional[str] = None, idle: str = ""
    ) -> None:
        """A step of a process."""
        self.drafts.append(Draft(process.number, call, expected, *self.at, idle=idle))

    def emit_outside(self, call: str) -> None:
        """A step of somebody who was not recorded."""
        self.drafts.append(Draft(OUTSIDE, call, None, *self.at))

    def emit_transfer(
        self, process: Process, number: int, transfer: Transfer, expected: Optional[str] = None
    ) -> None:
        """Bytes go through a descriptor of the kernel's, unless another answer is expected."""
        call = f"{transfer.verb} {number}"
        self.drafts.append(Draft(process.number, call, expected, *self.at, transfer))

    def leave_out(self, kind: str, line: Optional[int] = None) -> None:
        """Counts something of the log that is no step."""
        found = self.left_out.setdefault(kind, LeftOut(kind, 0, line or self.at[0]))
        found.count += 1

    def begin(self, task: int, parent: Optional[Process], command: str) -> Process:
        """A process begins; raises `Fault` where the kernel has no number left for it."""
        number = self._free_number()
        group = parent.group if parent else task
        made = Process(task, number, parent, group, command, tasks=[task])
        self.tasks[task] = made
        self._there[made] = None
        return made

    def name(self, process: Process, command: str) -> None:
        """From the next step on a process is this command."""
        process.command = command
        self.names.append(Naming(len(self.drafts), process.number, command))

    def _free_number(self) -> int:
        if self._next_number <= _LAST_NUMBER:
            self._next_number += 1
            return self._next_number - 1
        taken = {it.number for it in self._there}
        for number in range(ROOT, _LAST_NUMBER + 1):
            if number not in taken:
                return number
        raise Fault(f"line {self.at[0]}: {_LAST_NUMBER} processes at once are as many as it takes")

    def there(self) -> Iterator[Process]:
        """The processes that run, or have ended and were not waited for."""
        return iter(list(self._there))

    def waited_for(self, process: Process) -> None:
        """A process that has ended was waited for."""
        process.is_there = False
        self._there.pop(process, None)

    def children(self, parent: Process) -> List[Process]:
        """The children of a process that are there."""
        return [it for it in self.there() if it.parent is parent]

    def free_pipe(self) -> Optional[int]:
        """The least number of a pipe that no descriptor names, or None."""
        taken = {
            it.pipe.number
            for process in self.there()
            for it in process.descriptors.values()
            if it.pipe
        }
        return next((it for it in range(FILE_PIPE) if it not in taken), None)

    def holders(self, pipe: Pipe, side: str) -> List[Tuple[Process, int]]:
        """Who has a side of a pipe open, by which descriptor of the host."""
        return [(p, fd) for p in self.there() if p.is_running for fd in p.holds(pipe, side)]

    def spell_set(self, signals: FrozenSet[int]) -> str:
        """A set of signals as a schedule spells it."""
        return ",".join(map(spell_signal, sorted(signals & self.known))) or "-"

    # What several calls do.

    def close(self, process: Process, fd: int, expected: Optional[str] = None) -> None:
        """A descriptor of the host's closes, and so does the kernel's."""
        gone = process.descriptors.pop(fd)
        if gone.number is not None:
            self.emit(process, f"close {gone.number}", expected)

    def set_mask(self, process: Process, mask: FrozenSet[int]) -> None:
        """The mask of a process becomes another one, where it is another one."""
        if (mask ^ process.mask) & self.known:
            self.emit(process, f"sigprocmask set {self.spell_set(mask)}")
        process.mask = mask
