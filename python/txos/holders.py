"""The command `txos-record holders`: who holds a pipe open, who waits for whom, what is lost."""

from __future__ import annotations

import argparse
import re
from typing import Dict, Iterator, List, Optional, Tuple

from .faults import Fault
from .forcing import forced_after
from .kernel import State
from .losses import Harm, Lost, Zombie, how_it_ended, lost_signals, zombies_after, zombies_until
from .recording import FILE_PIPE, READ, WAITS, WRITE, Waiting
from .replays import Replay, replay_file
from .waits import (
    OTHER_SIDE,
    Holder,
    Moment,
    Reason,
    Wait,
    breaking_signal,
    death_of,
    find_chain,
    find_circle,
    holders_of,
    last_moment,
    last_waits,
    next_of,
    reason_of,
    waiting_elsewhere,
    waits_after,
)
from .wording import counted

_ABOUT = """Prints who holds each pipe open, which calls wait and who could end them, who ended
without being waited for, and which signals were lost. Without --at it shows the moment just before
signals, such as those of ^C or of timeout, forced the end; where none did, it shows the end."""
_POLLS = re.compile("p?poll|_?newselect|p?select6?|epoll_p?wait2?")


class Report:
    """What is to be printed of a recording after so many steps, or of the moment that says most."""

    def __init__(self, replay: Replay, at: Optional[int]) -> None:
        self._replay = replay
        forced = forced_after(replay) if at is None else None
        self._is_chosen = at is not None
        self._is_forced = forced is not None
        self._count = next(it for it in (at, forced, len(replay)) if it is not None)
        self._waits = waits_after(replay, self._count)
        self._dead = (zombies_after if self._is_chosen else zombies_until)(replay, self._count)

    def lines(self) -> Iterator[str]:
        """The lines, without their ends."""
        yield f"{self._moment()}: {self._replay.recording.command}"
        for part in (self._pipes(), self._calls(), self._zombies(), self._signals()):
            yield ""
            yield from part

    def _moment(self) -> str:
        moment = f"After {self._count:,} of {counted(len(self._replay), 'step')}"
        before = f", before {self._replay.step(self._count + 1).text}" if self._is_forced else ""
        return moment + before

    def _at(self, count: int) -> Moment:
        return Moment.of(self._replay.at(count))

    def _label(self, process: int, count: int) -> str:
        return self._replay.recording.label(process, count)

    def _place(self, number: int) -> str:
        line = self._replay.step(number).line
        return f"step {number}" + (f", line {line} of the log" if line else "")

    def _step(self, number: int) -> str:
        return f"step {number}: {self._replay.step(number).text}"

    # Pipes.

    def _pipes(self) -> Iterator[str]:
        moment = self._at(self._count)
        numbers = [it for it in moment.pipes if it != FILE_PIPE]
        if not numbers:
            yield f"No pipe is open {self._then()}."
        for number in numbers:
            sides = (self._side(moment, number, side) for side in (READ, WRITE))
            yield f"pipe {number}, {self._size(moment.state, number)}: {'; '.join(sides)}"

    def _size(self, state: State, pipe: int) -> str:
        """How many bytes a pipe holds."""
        count, factor = len(state.pipes[pipe]), self._replay.recording.factor
        if count == 0:
            return "empty"
        return counted(count, "byte" if factor == 1 else f"unit of {factor} bytes")

    def _side(self, moment: Moment, pipe: int, side: str) -> str:
        holders = holders_of(moment, pipe, side)
        held = f"held by {self._named(holders, self._count)}" if holders else "held by nobody"
        return f"{side} side {held}"

    def _named(self, holders: List[Holder], count: int) -> str:
        return ", ".join(f"{self._label(it.process, count)} ({_descriptors(it)})" for it in holders)

    def _then(self) -> str:
        """The moment, in a sentence."""
        if self._count == len(self._replay):
            return "at the end of the recording"
        return f"after step {self._count}"

    # Calls that wait.

    def _calls(self) -> Iterator[str]:
        elsewhere = waiting_elsewhere(self._replay, self._count)
        others = [] if self._is_chosen else self._other_waits()
        otherwise = [] if self._is_chosen else self._not_waiting()
        if not (self._waits or elsewhere or otherwise):
            yield f"No call waits {self._then()}."
        for wait in self._waits:
            yield from self._call(wait, self._waits, self._count)
        for it in elsewhere:
            yield from self._elsewhere(it)
        for wait in others:
            last = last_moment(self._replay, wait, wait.number)
            yield from self._call(wait, waits_after(self._replay, last), last)
        for number in otherwise:
            text, answer = self._replay.step(number).text, self._replay.answer(number)
            yield f"{self._place(number)}: {text}: Linux waited, here {answer}"

    def _other_waits(self) -> List[Wait]:
        """The calls that never ended and did not wait at the moment of the report."""
        shown = {it.number for it in self._waits}
        return [it for it in last_waits(self._replay) if it.number not in shown]

    def _not_waiting(self) -> List[int]:
        """The steps that never ended in Linux, and do not wait here."""
        return [
            number
            for number in range(1, len(self._replay) + 1)
            if self._replay.step(number).expected == WAITS != self._replay.answer(number)
        ]

    def _call(self, wait: Wait, waits: List[Wait], count: int) -> Iterator[str]:
        """A wait, of all those after so many steps."""
        reason = reason_of(self._at(count), wait.step)
        yield f"{self._place(wait.number)}: {self._waiter(wait, reason, count)}"
        yield f"  it waited {self._until(wait, count)}"
        yield from self._enders(wait, waits, count)

    def _waiter(self, wait: Wait, reason: Reason, count: int) -> str:
        label = self._label(wait.process, count)
        if reason.pipe is None:
            return f"{label} waits for {self._label(reason.holders[0].process, count)} to end"
        why = "is empty" if reason.call == READ else "has no room for it"
        way = "from" if reason.call == READ else "to"
        call = f" in {wait.step.host}" if _POLLS.fullmatch(wait.step.host) else ""
        return f"{label} waits{call} to {reason.call} {way} pipe {reason.pipe}, which {why}"

    def _until(self, wait: Wait, count: int) -> str:
        """Until when a process waits that does so after so many steps."""
        last = last_moment(self._replay, wait, count)
        return self._until_step(wait.process, last + 1 if last < len(self._replay) else None)

    def _until_step(self, process: int, number: Optional[int]) -> str:
        if number is None:
            return "to the end of the recording"
        return f"until {self._event(process, number)}"

    def _event(self, process: int, number: int) -> str:
        """What a step is to a process that waits until then."""
        end = death_of(self._replay, number)
        if end is not None:
            ended = self._replay.step(end).process
            who = "it" if ended == process else self._label(ended, number)
            return f"{who} {self._ended(end)} (step {end})"
        signal = breaking_signal(self._replay, process, number)
        if signal is not None:
            return f"{self._replay.step(signal).words[1]} came (step {signal})"
        return self._step(number)

    def _ended(self, number: int) -> str:
        """How a process ended at a step."""
        process = self._replay.step(number).process
        how = how_it_ended(self._replay.state(number).procs[process])
        return f"was {how}" if how.startswith("killed") else f"ended by {how}"

    def _elsewhere(self, waiting: Waiting) -> Iterator[str]:
        """A wait in a call that the kernel lacks."""
        label = self._label(waiting.process, self._count)
        place = f"line {waiting.line} of the log"
        yield f"{place}: {label} waits in {waiting.call}, which the kernel does not have"
        number = next_of(self._replay, waiting.process, self._count)
        yield f"  it waited {self._until_step(waiting.process, number)}"

    def _enders(self, wait: Wait, waits: List[Wait], count: int) -> Iterator[str]:
        """Who could end a wait, and for whom these wait themselves."""
        moment = self._at(count)
        reason = reason_of(moment, wait.step)
        if reason.pipe is not None:
            yield f"  {self._held(reason, count)}"
        for link in find_chain(moment, waits, wait):
            its = reason_of(moment, link.step)
            held = f"; {self._held(its, count)}" if its.pipe is not None else ""
            yield f"  {self._waiter(link, its, count)} (step {link.number}){held}"
        circle = find_circle(moment, waits, wait)
        if len(circle) == 2:
            yield f"  a circle: {self._label(wait.process, count)} waits for itself"
        elif circle:
            yield f"  a circle: {' waits for '.join(self._label(it, count) for it in circle)}"

    def _held(self, reason: Reason, count: int) -> str:
        """Who holds the side of a pipe that a wait is for."""
        return f"{OTHER_SIDE[reason.call]} side held by {self._named(reason.holders, count)}"

    # Zombies and signals.

    def _zombies(self) -> Iterator[str]:
        if not self._dead:
            is_all = not self._is_chosen and self._count == len(self._replay)
            none = f"There is no zombie {self._then()}."
            yield "No process ended without being waited for." if is_all else none
        for it in self._dead:
            yield self._zombie(it)

    def _zombie(self, it: Zombie) -> str:
        who = f"{self._place(it.ended)}: {self._label(it.process, it.ended)} ended ({it.how})"
        parent = self._label(it.parent, it.orphaned or self._count)
        if it.orphaned is None:
            return f"{who} and nobody has waited for it; its parent is {parent}"
        end = f"ended at step {it.orphaned} ({it.parent_how})"
        return f"{who} and nobody waited for it; its parent {parent} {end}"

    def _signals(self) -> Iterator[str]:
        found = lost_signals(self._replay, self._count, self._dead)
        if not found:
            until = "" if self._count == len(self._replay) else f" until step {self._count}"
            yield f"No signal was lost{until}."
        for it in found:
            if it.harm is Harm.SOME:
                yield self._lost(it)
        groups: Dict[Tuple[str, int, Harm], List[Lost]] = {}
        for it in found:
            if it.harm is not Harm.SOME:
                groups.setdefault((it.signal, it.target, it.harm), []).append(it)
        for lost in groups.values():
            yield self._merged(lost)

    def _merged(self, lost: List[Lost]) -> str:
        """Signals whose loss did no harm."""
        first = lost[0]
        target = self._label(first.target, first.number)
        if len(lost) == 1:
            what = f"A second {first.signal} to {target} (step {first.number}) was merged"
            return f"{what} with the first, {first.harm.value}."
        what = f"{len(lost):,} more {first.signal} to {target} (the first at step {first.number})"
        return f"{what} were merged with those before, {first.harm.value}."

    def _lost(self, it: Lost) -> str:
        sender = self._label(it.sender, it.number) + (f" ({it.how})" if it.how else "")
        target = self._label(it.target, it.number)
        since = f" since {self._step(it.since)}" if it.since else ""
        what = f"the {it.signal} of {sender} to {target} was lost"
        return f"{self._place(it.number)}: {what}: one was pending{since}"


def add_command(commands: argparse._SubParsersAction) -> None:
    """Adds the words of `txos-record holders`."""
    parser = commands.add_parser(
        "holders", help="who holds a pipe open, and who waits for whom", description=_ABOUT
    )
    parser.add_argument("file", metavar="FILE", help="a recording, or - for standard input")
    parser.add_argument("--at", metavar="STEP", type=int, help="what is so after STEP steps")
    parser.set_defaults(run=_run)


def _run(args: argparse.Namespace) -> int:
    with replay_file(args.file) as replay:
        if args.at is not None and not 0 <= args.at <= len(replay):
            raise Fault(f"--at {args.at}: the recording has {counted(len(replay), 'step')}")
        for line in Report(replay, args.at).lines():
            print(line)
    return 0


def _descriptors(holder: Holder) -> str:
    numbers = ", ".join(map(str, holder.descriptors))
    return f"descriptor{'s' if len(holder.descriptors) > 1 else ''} {numbers}"
