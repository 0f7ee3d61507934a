"""What each step of a recording takes part in: files, pipes, signals, or processes."""

from __future__ import annotations

import enum
from dataclasses import dataclass
from typing import Dict, FrozenSet, Iterator, Tuple

from ..kernel import State
from ..progress import Progress
from ..recording import FILE_DESCRIPTOR, FILE_PIPE, OUTSIDE, Step
from ..replays import Replay


class Kind(enum.Enum):
    """A kind of steps. The value names one of them, where they are counted: 3 steps of files."""

    SETUP = "step of the setup"
    FILES = "step of files"
    MASKS = "change of masks"
    ACTIONS = "action of signals"
    MEMORY = "step of memory"
    FLAGS = "flag of pipes"
    OUTSIDE_WAITS = "wait by process 1"
    RETURNS = "return from signals"
    ENDS = "step of pipe ends"
    PIPES = "step of new pipes"
    TRANSFERS = "step of reads and writes"
    PROCESSES = "step of forks, exits and waits"
    SIGNALS = "step of signals"
    OTHERS = "step of other calls"


_KINDS = {
    **dict.fromkeys(("map", "unmap", "protect", "store", "load"), Kind.MEMORY),
    **dict.fromkeys(("sigprocmask", "sigpending"), Kind.MASKS),
    **dict.fromkeys(("fork", "exit", "waitpid"), Kind.PROCESSES),
    **dict.fromkeys(("kill", "sigqueue", "deliver"), Kind.SIGNALS),
    **dict.fromkeys(("dup", "dup2", "close"), Kind.ENDS),
    **dict.fromkeys(("read", "write"), Kind.TRANSFERS),
    "sigaction": Kind.ACTIONS,
    "set_nonblock": Kind.FLAGS,
    "sigreturn": Kind.RETURNS,
    "pipe": Kind.PIPES,
}


@dataclass(frozen=True)
class Role:
    """The kind of a step, and the pipes that it names, each by the step that made it."""

    kind: Kind
    pipes: FrozenSet[int] = frozenset()


def find_roles(replay: Replay) -> Iterator[Role]:
    """The role of each step, in order."""
    made: Dict[int, int] = {}  # the step that made each pipe last
    with Progress(len(replay), "steps looked at") as progress:
        for number in range(1, len(replay) + 1):
            step = replay.step(number)
            if step.words[0] == "pipe" and replay.answer(number) == "ok 0":
                made[int(step.words[1])] = number
            yield _role_of(replay, number, made)
            progress.advance()


def _role_of(replay: Replay, number: int, made: Dict[int, int]) -> Role:
    step = replay.step(number)
    kind = _KINDS.get(step.words[0], Kind.OTHERS)
    if step.expected is None and step.line is None and kind is not Kind.OTHERS:
        return Role(Kind.SETUP)
    if step.process == OUTSIDE and step.words[0] == "waitpid":
        return Role(Kind.OUTSIDE_WAITS)
    if kind is Kind.PIPES:
        return Role(kind, frozenset(made[it] for it in [int(step.words[1])] if it in made))
    if kind not in (Kind.ENDS, Kind.TRANSFERS):
        return Role(kind)
    if step.call == f"dup {FILE_DESCRIPTOR}":  # by far the most frequent, so no state is read
        return Role(Kind.FILES)
    pipes = pipes_named(replay.state(number - 1), step)
    return Role(kind, frozenset(made[it] for it in pipes)) if pipes else Role(Kind.FILES)


def pipes_named(state: State, step: Step) -> FrozenSet[int]:
    """The pipes that the descriptors of a call name in a state."""
    process = state.procs.get(step.process)
    descriptors = process.fds if process else {}
    named = (descriptors.get(it) for it in _descriptors_of(step))
    pipes = (state.descs[it].pipe for it in named if it is not None)
    return frozenset(it for it in pipes if it != FILE_PIPE)


def _descriptors_of(step: Step) -> Tuple[int, ...]:
    """The descriptors that a call on them names."""
    count = 2 if step.words[0] == "dup2" else 1
    return tuple(map(int, step.words[1 : 1 + count]))
