"""What is lost in a recording: children that nobody waited for, and signals that came too soon."""

from __future__ import annotations

import enum
from dataclasses import dataclass, replace
from typing import Dict, Iterator, List, Optional, Sequence, Tuple

from .host.tree import CHLD, ERRORS, PIPE, SIGNALS, signal_number, spell_signal
from .kernel import Process, State
from .recording import OUTSIDE, WRITE
from .replays import Replay

_BROKENPIPE = f"ok {-ERRORS['EPIPE']}"


@dataclass(frozen=True)
class Zombie:
    """A process that ended at a step, and for which its parent did not wait.

    `how` is the way in which it ended. `orphaned` is the step at which its parent ended, and
    `parent_how` the way in which it did; they are None and "" where the parent runs.
    """

    process: int
    ended: int
    how: str
    parent: int
    orphaned: Optional[int] = None
    parent_how: str = ""


class Harm(enum.Enum):
    """What the loss of a signal does."""

    SOME = "some"
    NONE_WAITED = "and all children that had ended were waited for all the same"
    NONE_IDLE = "and would have made no difference"


@dataclass(frozen=True)
class Lost:
    """A signal that a step sent to a process at which it was pending already.

    `since` is the step that had made it pending, or None where no step is known to have. `how` is
    the way in which the sender ended, where the signal is that of a child.
    """

    number: int
    signal: str
    sender: int
    how: str
    target: int
    since: Optional[int]
    harm: Harm


def how_it_ended(process: Process) -> str:
    """The way in which a process has ended: `exit 3`, or `killed by TERM`."""
    if process.killed is None:
        return f"exit {process.exit}"
    return f"killed by {spell_signal(process.killed)}"


def zombies_after(replay: Replay, count: int) -> List[Zombie]:
    """The processes that have ended after so many steps, and for which no parent has waited."""
    return [
        Zombie(it.pid, _last_end(replay, count, it.pid), how_it_ended(it), it.parent)
        for it in replay.state(count).procs.values()
        if not it.running and it.parent != OUTSIDE
    ]


def zombies_until(replay: Replay, count: int) -> List[Zombie]:
    """Those, and before them those whose parents ended without having waited for them."""
    found = []
    for number in range(1, count + 1):
        parent = replay.step(number).process
        if replay.is_end(number):
            how = how_it_ended(replay.state(number).procs[parent])
            left = (it for it in zombies_after(replay, number - 1) if it.parent == parent)
            found += [replace(it, orphaned=number, parent_how=how) for it in left]
    return [*found, *zombies_after(replay, count)]


def _last_end(replay: Replay, count: int, process: int) -> int:
    """The last of so many steps at which a process ended."""
    return next(
        it for it in range(count, 0, -1) if replay.is_end(it) and replay.step(it).process == process
    )


def lost_signals(replay: Replay, count: int, zombies: Sequence[Zombie]) -> List[Lost]:
    """The standard signals that were sent in so many steps while they were pending already.

    The zombies say whether the loss of a SIGCHLD may have done harm.
    """
    found = []
    since: Dict[Tuple[int, int], int] = {}
    for number, signal, target in _posts(replay, count):
        place = target.pid, signal
        if signal in target.pending:
            sender, how = _sender_of(replay, number)
            harm = _harm_of(number, signal, target, zombies)
            name = f"SIG{spell_signal(signal)}"
            found.append(Lost(number, name, sender, how, target.pid, since.get(place), harm))
        else:
            since[place] = number
    return found


def _posts(replay: Replay, count: int) -> Iterator[Tuple[int, int, Process]]:
    """The steps that send a standard signal to a process that runs; with it as it was before."""
    for number in range(1, count + 1):
        if _may_post(replay, number):
            state = replay.state(number - 1)
            target, signal = _post_of(replay, number, state)
            process = state.procs.get(target)
            if signal in SIGNALS.values() and process and process.running:
                yield number, signal, process


def _may_post(replay: Replay, number: int) -> bool:
    """Whether a step sends a signal."""
    is_write = replay.step(number).words[0] == WRITE
    is_broken = is_write and replay.answer(number) == _BROKENPIPE
    return is_broken or replay.is_end(number) or kill_of(replay, number) is not None


def _post_of(replay: Replay, number: int, state: State) -> Tuple[int, int]:
    """To whom a step that posts sends a signal in the state before it, and which."""
    step = replay.step(number)
    if replay.is_end(number):
        return state.procs[step.process].parent, CHLD
    return kill_of(replay, number) or (step.process, PIPE)


def kill_of(replay: Replay, number: int) -> Optional[Tuple[int, int]]:
    """To whom a step sends a signal by a kill, and which; None where it does not."""
    step = replay.step(number)
    if step.words[0] not in ("kill", "sigqueue") or replay.answer(number) != "ok 0":
        return None
    target, signal = step.words[1:3]
    return int(target), int(signal) if signal.isdecimal() else signal_number(signal) or 0


def _sender_of(replay: Replay, number: int) -> Tuple[int, str]:
    """Who makes a step that posts, and how it ended if that was its end."""
    sender = replay.step(number).process
    how = how_it_ended(replay.state(number).procs[sender]) if replay.is_end(number) else ""
    return sender, how


def _harm_of(number: int, signal: int, target: Process, zombies: Sequence[Zombie]) -> Harm:
    """What it does that a signal is lost which a step sent."""
    is_caught = signal in target.actions and target.actions[signal].kind == "catch"
    if not is_caught and signal not in target.mask:
        return Harm.NONE_IDLE
    if signal != CHLD or any(it.parent == target.pid and it.ended <= number for it in zombies):
        return Harm.SOME
    return Harm.NONE_WAITED
