"""What an aborted transaction leaves: how the state after it differs from that before it."""

from __future__ import annotations

from collections import Counter
from typing import Callable, Dict, Iterator, List, Optional

from ..host.tree import spell_signal
from ..kernel import Action, Description, Process, State
from ..wording import counted


def differences(before: State, after: State, label: Callable[[int], str]) -> List[str]:
    """How a state differs from one before it, but for points, answers and slots of processes.

    `label` names a process by its number.
    """
    found: List[str] = []
    for pid in sorted({*before.procs, *after.procs}):
        old, new = before.procs.get(pid), after.procs.get(pid)
        if old is None or new is None:
            found.append(f"process {label(pid)} is {'gone' if old else 'new'}")
        elif old.running and not new.running:
            found.append(f"process {label(pid)} has ended {_how(new)}")
        else:
            found += _of_process(label(pid), old, new)
            found += _of_descriptors(label(pid), old, new, {**before.descs, **after.descs})
    for number in sorted({*before.descs} & {*after.descs}):
        is_nonblocking = after.descs[number].nonblock
        if is_nonblocking != before.descs[number].nonblock:
            found.append(f"description {number} is {'non-' if is_nonblocking else ''}blocking now")
    for number in sorted({*before.pipes, *after.pipes}):
        found += _of_pipe(number, before.pipes.get(number), after.pipes.get(number))
    return found


def _how(process: Process) -> str:
    """How a process has ended."""
    if process.killed is not None:
        return f"by signal {spell_signal(process.killed)}"
    return f"with the status {process.exit}"


def _of_process(label: str, old: Process, new: Process) -> Iterator[str]:
    """How a process differs that runs, but for its descriptors."""
    if old.parent != new.parent:
        yield f"the parent of {label} is process {new.parent}"
    if (old.users, old.groups) != (new.users, new.groups):
        yield f"{label} has other user or group ids"
    for page in sorted({*old.pages, *new.pages}):
        if old.pages.get(page) != new.pages.get(page):
            yield f"page {page} of {label} has changed"
    yield from _of_signals(label, old, new)


def _of_signals(label: str, old: Process, new: Process) -> Iterator[str]:
    """How what a process does with signals differs, and what is pending at it."""
    if old.mask != new.mask:
        yield f"{label} blocks {', '.join(map(spell_signal, new.mask)) or 'no signal'}"
    for signal in sorted({*old.actions, *new.actions}):
        if old.actions.get(signal) != new.actions.get(signal):
            yield f"{label} {_does(new.actions.get(signal))} {spell_signal(signal)}"
    for signal in sorted({*old.pending} ^ {*new.pending}):
        where = "is pending" if signal in new.pending else "is no longer pending"
        yield f"signal {spell_signal(signal)} {where} at {label}"
    if old.queued != new.queued:
        yield f"{label} has {counted(len(new.queued), 'queued signal')} (was {len(old.queued)})"
    if len(old.frames) != len(new.frames):
        yield f"{label} is in {counted(len(new.frames), 'handler')} (was in {len(old.frames)})"


def _does(action: Optional[Action]) -> str:
    """What a process does with a signal."""
    if action is None:
        return "takes the default action at signal"
    return "ignores signal" if action.kind == "ignore" else "catches signal"


def _of_descriptors(
    label: str, old: Process, new: Process, sides: Dict[int, Description]
) -> Iterator[str]:
    """How the descriptors differ by which a process has sides of pipes."""
    had, has = Counter(old.fds.values()), Counter(new.fds.values())
    for number in sorted({*had, *has}):
        side = sides[number]
        if had[number] != has[number]:
            verb = side.side + ("s" if has[number] == 1 else "")
            yield (
                f"{label} has {counted(has[number], 'descriptor')} that {verb} pipe {side.pipe} "
                f"(was {had[number]})"
            )


def _of_pipe(number: int, old: Optional[bytes], new: Optional[bytes]) -> Iterator[str]:
    """How a pipe differs."""
    if old is None or new is None:
        yield f"pipe {number} is {'gone' if new is None else 'new'}"
    elif len(old) != len(new):
        yield f"pipe {number} has {counted(len(new), 'byte')} (was {len(old)})"
    elif old != new:
        yield f"pipe {number} has other bytes"
