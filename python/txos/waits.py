"""Calls that wait after so many steps of a recording: for what, until when, who could end them."""

from __future__ import annotations

import re
from dataclasses import dataclass
from typing import Dict, FrozenSet, Iterator, List, Optional, Sequence, Tuple

from .host.tree import KILL
from .kernel import Kernel, PipeHolders, State
from .losses import kill_of
from .progress import Progress
from .recording import READ, WAITS, WRITE, Step, Waiting
from .replays import Replay

OTHER_SIDE = {READ: WRITE, WRITE: READ}
_WAITPID = "waitpid"
_OF_SIGNALS = ("deliver", "sigreturn")  # what a process makes while it is in a call
_MORE_THAN_NONE = re.compile("ok [1-9]")
# The words of the host by which a process closes its descriptors as it ends.
_DEATH = re.compile("exit|exit_group|signal|SIG.*")


@dataclass(frozen=True)
class Moment:
    """The state at the position of a kernel, and who has each of its pipes open there."""

    state: State
    pipes: Dict[int, PipeHolders]

    @classmethod
    def of(cls, kernel: Kernel) -> Moment:
        """What is so at the position of a kernel."""
        state = kernel.state()
        held = ((it, kernel.holds_pipe(it)) for it in state.pipes)
        return cls(state, {number: holders for number, holders in held if holders})


@dataclass(frozen=True)
class Holder:
    """A process that holds a side of a pipe, and the descriptors by which it does."""

    process: int
    descriptors: Tuple[int, ...]


@dataclass(frozen=True)
class Wait:
    """A step, by its number from 1, that waits: its process is in that call, or makes it next."""

    number: int
    step: Step

    @property
    def process(self) -> int:
        """The process that waits."""
        return self.step.process


@dataclass(frozen=True)
class Reason:
    """What a call waits for: the end of a child, or another side of a pipe.

    `call` is that of the step: waitpid, read or write. `holders` could end it, each by itself.
    """

    call: str
    pipe: Optional[int]
    holders: List[Holder]


def holders_of(moment: Moment, pipe: int, side: str) -> List[Holder]:
    """Who holds a side of a pipe."""
    held = moment.pipes[pipe]
    holders = held.readers if side == READ else held.writers
    return [Holder(process, fds) for process, fds in holders.items()]


def reason_of(moment: Moment, step: Step) -> Reason:
    """What a step waits for at a moment at which it is refused as waiting."""
    call, operand = step.words[0], int(step.words[1])
    if call not in OTHER_SIDE:
        return Reason(call, None, [Holder(operand, ())])
    state = moment.state
    pipe = state.descs[state.procs[step.process].fds[operand]].pipe
    return Reason(call, pipe, holders_of(moment, pipe, OTHER_SIDE[call]))


# Which calls wait.


def waits_after(replay: Replay, count: int) -> List[Wait]:
    """The calls that wait after so many steps, whether they end later or not."""
    elsewhere = {it.process for it in waiting_elsewhere(replay, count)}
    running = [it.pid for it in replay.state(count).procs.values() if it.running]
    numbers = (
        number
        for process in running
        if process not in elsewhere
        for number in _calls_of(replay, process, count)
        if _waits(replay, count, replay.step(number))
    )
    return [Wait(it, replay.step(it)) for it in sorted(numbers)]


def _calls_of(replay: Replay, process: int, count: int) -> List[int]:
    """The steps of the call that a process is in after so many steps, or that it makes next.

    They are several where it waits for one of several pipes.
    """
    before = next(_steps_of(replay, process, range(count, 0, -1)), None)
    if before and _never_ended(replay, before):
        return _of_same_call(replay, before, range(before, 0, -1))
    after = _next_call(replay, process, count)
    if after is None or replay.step(after).words[0] not in (*OTHER_SIDE, _WAITPID):
        return []
    if _never_ended(replay, after):
        return _of_same_call(replay, after, range(after, len(replay) + 1))
    return [after]


def _steps_of(replay: Replay, process: int, numbers: Sequence[int]) -> Iterator[int]:
    """Those steps of some by which a process goes on with its work, or ends."""
    for it in numbers:
        step = replay.step(it)
        is_work = step.words[0] not in _OF_SIGNALS or replay.is_end(it)
        if step.process == process and is_work:
            yield it


def _next_call(replay: Replay, process: int, count: int) -> Optional[int]:
    """The next step of a process, unless a signal comes first that may break off its call.

    A call that a signal broke off has a step before that of the signal.
    """
    for it in range(count + 1, len(replay) + 1):
        step = replay.step(it)
        if step.process == process:
            if step.words[0] not in _OF_SIGNALS:
                return it
            if step.words[0] == "deliver" and step.words[1] != "CHLD":
                return None
    return None


def _of_same_call(replay: Replay, number: int, numbers: Sequence[int]) -> List[int]:
    """The first steps of some by which a process waits in the call of the log that a step has."""
    step, found = replay.step(number), []
    for it in _steps_of(replay, step.process, numbers):
        if not _never_ended(replay, it) or replay.step(it).line != step.line:
            break
        found.append(it)
    return found


def _never_ended(replay: Replay, number: int) -> bool:
    """Whether a step waited in Linux until its process ended or a signal came, and waits here."""
    return replay.step(number).expected == WAITS == replay.answer(number)


def _waits(replay: Replay, count: int, step: Step) -> bool:
    """Whether a step would wait after so many steps."""
    refused = replay.try_step(count, step).refused
    return refused is not None and refused.answer == WAITS


def last_moment(replay: Replay, wait: Wait, count: int) -> int:
    """After how many steps, these or more, a wait still does, at last, without a gap."""
    with Progress(len(replay) - count, "moments looked at") as progress:
        for later in range(count + 1, len(replay) + 1):
            if not _waits(replay, later, wait.step) or _goes_on(replay, wait, later):
                return later - 1
            progress.advance()
    return len(replay)


def _goes_on(replay: Replay, wait: Wait, later: int) -> bool:
    """Whether a later step is one by which a process goes on after the call in which it waits."""
    step = replay.step(later)
    is_same = step.line == wait.step.line and _never_ended(replay, later)
    return step.process == wait.process and step.words[0] not in _OF_SIGNALS and not is_same


def last_waits(replay: Replay) -> List[Wait]:
    """The calls that never ended, and after which their processes did nothing with others.

    That is: until these ended, they read, wrote, waited for and forked nothing.
    """
    return [Wait(it, replay.step(it)) for it in sorted(_last_calls(replay))]


def _last_calls(replay: Replay) -> Iterator[int]:
    """The steps of those calls, the last first."""
    later: Dict[int, Optional[int]] = {}  # the line of what each process did last
    for number in range(len(replay), 0, -1):
        step = replay.step(number)
        call, answer = step.words[0], replay.answer(number)
        is_done = bool(_MORE_THAN_NONE.match(answer))
        if _never_ended(replay, number):
            if later.setdefault(step.process, step.line) == step.line:
                yield number
        elif is_done and call in (*OTHER_SIDE, _WAITPID, "fork"):
            later[step.process] = None
            if call == "fork":
                later.pop(int(step.words[1]), None)  # before it the number was another's


def waiting_elsewhere(replay: Replay, count: int) -> List[Waiting]:
    """The calls that the kernel lacks and in which processes wait after so many steps."""
    found: Dict[int, Waiting] = {}
    for it in replay.recording.waiting:
        if it.index <= count:
            found[it.process] = it
    running = {it.pid for it in replay.state(count).procs.values() if it.running}
    return [it for it in found.values() if it.process in running and _is_in(replay, it, count)]


def _is_in(replay: Replay, waiting: Waiting, count: int) -> bool:
    """Whether a process is still in a call that it began."""
    numbers = range(waiting.index + 1, count + 1)
    return not any(_steps_of(replay, waiting.process, numbers))


# Until when.


def next_of(replay: Replay, process: int, count: int) -> Optional[int]:
    """The step, after so many, by which a process goes on with its work, or ends."""
    return next(_steps_of(replay, process, range(count + 1, len(replay) + 1)), None)


def breaking_signal(replay: Replay, process: int, number: int) -> Optional[int]:
    """The delivery of a signal after which a process made a step, and so left its call."""
    found = None
    if replay.step(number).process == process:
        for it in range(number - 1, 0, -1):
            step = replay.step(it)
            if step.process == process:
                if step.words[0] not in _OF_SIGNALS:
                    break
                found = it if step.words[0] == "deliver" else found
    return found


def death_of(replay: Replay, number: int) -> Optional[int]:
    """The step that ends a process, where a step is this, or a part of it; or a kill by KILL."""
    step = replay.step(number)
    process, signal = kill_of(replay, number) or (step.process, 0)
    is_part = step.words[0] == "close" and _DEATH.fullmatch(step.host)
    if not (is_part or replay.is_end(number) or signal == KILL):
        return None
    numbers = range(number, len(replay) + 1)
    ends = (it for it in numbers if replay.is_end(it) and replay.step(it).process == process)
    return next(ends, None)


# Who could end them.


def find_chain(moment: Moment, waits: Sequence[Wait], wait: Wait) -> List[Wait]:
    """The waits of those who could end a wait, and of those who could end these, and so on.

    The waits are all those at a moment.
    """
    chain = [wait]
    for link in chain:
        able = _able_to_end(moment, link)
        others = able - {wait.process}
        chain += [it for it in waits if it.process in others and it not in chain]
    return chain[1:]


def find_circle(moment: Moment, waits: Sequence[Wait], wait: Wait) -> List[int]:
    """The shortest circle that a wait is in, or none: each of its processes waits for the next."""
    seen = {wait}
    paths: List[Tuple[Wait, ...]] = [(wait,)]
    for path in paths:
        able = _able_to_end(moment, path[-1])
        if wait.process in able:
            return [*(it.process for it in path), wait.process]
        for other in waits:
            if other.process in able and other not in seen:
                seen.add(other)
                paths.append((*path, other))
    return []


def _able_to_end(moment: Moment, wait: Wait) -> FrozenSet[int]:
    """Who could end a wait."""
    return frozenset(it.process for it in reason_of(moment, wait.step).holders)
