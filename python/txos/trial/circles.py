"""Who waits for ever at the end of a trial, for whom, and the circles of those that wait so."""

from __future__ import annotations

from collections import deque
from dataclasses import dataclass, field
from typing import Deque, Dict, List, Optional, Sequence, Set

from ..waits import OTHER_SIDE, Moment, holders_of
from .lines import Line, Wait, Why
from .lives import AT_END, NO_READER, Life, Turn
from .schedule import Schedule


@dataclass(frozen=True)
class Link:
    """A process waits for a turn that is to come only after another process's wait."""

    wait: Wait
    turn: Turn
    next: Wait


@dataclass
class Forever:
    """A wait that never ends, and who is to end it.

    Each of `links` is one who could end it, or for the transaction one of those who have to. Of
    `idle` no step was recorded that would: they wait on Linux for ever too, or did nothing more.
    """

    wait: Wait
    links: List[Link] = field(default_factory=list)
    idle: List[Life] = field(default_factory=list)


def find_forever(schedule: Schedule) -> List[Forever]:
    """The waits that never end, where nothing can be made any more, in the recorded order."""
    finder = _Finder(schedule)
    return [finder.find(it.wait) for it in schedule.agenda if it.wait]


def find_circles(waits: Sequence[Forever]) -> List[List[Link]]:
    """Circles of processes, each of which waits for the next one: the shortest, then others.

    No process is in two of them.
    """
    links = {it.wait: it.links for it in waits}
    circles: List[List[Link]] = []
    while True:
        found = [it for it in (_circle(wait, links) for wait in links) if it]
        if not found:
            return circles
        circles.append(min(found, key=len))
        for link in circles[-1]:
            del links[link.wait]


def _circle(start: Wait, links: Dict[Wait, List[Link]]) -> List[Link]:
    """The shortest way from a wait back to it, or none."""
    paths: Deque[List[Link]] = deque([it] for it in links[start])
    seen: Set[Wait] = set()
    while paths:
        path = paths.popleft()
        end = path[-1].next
        if end is start:
            return path
        if end in links and end not in seen:
            seen.add(end)
            paths.extend([*path, it] for it in links[end])
    return []


class _Finder:
    """Finds what a wait is for at the end of a trial."""

    def __init__(self, schedule: Schedule) -> None:
        self._schedule = schedule
        self._moment = Moment.of(schedule.kernel)

    def find(self, wait: Wait) -> Forever:
        """What a wait is for, and who is to end it."""
        self._schedule.explain(wait)
        found, turn = Forever(wait), wait.turn
        if wait.why is Why.BUSY or self._schedule.is_held(turn):
            for life in self._schedule.outcome.members:
                self._add_end(found, life)
        elif wait.why is Why.SIGNAL:
            for sender in filter(self._schedule.agenda.is_to_come, turn.senders):
                self._link(found, sender)
        elif wait.why is Why.PROCESS and turn.target and turn.target.fork:
            self._link(found, turn.target.fork)
        elif turn.target:
            self._add_end(found, turn.target)
        elif wait.why is Why.CALL:
            self._add_holders(found)
        return found

    def _link(self, found: Forever, turn: Turn) -> None:
        """Adds who has to go on for a turn to come: its process, or who is to fork that first."""
        life = turn.life
        line = self._schedule.agenda.line(turn)
        while life.fork and self._schedule.agenda.is_to_come(life.fork):
            line, life = self._schedule.agenda.line(life.fork), life.fork.life
        if line.wait:
            found.links.append(Link(found.wait, turn, line.wait))

    def _add_end(self, found: Forever, life: Life) -> None:
        """Adds a process whose end is waited for."""
        line = self._schedule.agenda.line_of(life)
        if line.turns:
            self._link(found, line.turns[-1])
        elif not self._schedule.has_ended(life):
            found.idle.append(life)

    def _add_holders(self, found: Forever) -> None:
        """Adds who is to give bytes or room to a pipe, or, where nobody is, to close it."""
        step = found.wait.turn.step
        pipe, side = self._schedule.objects.pipe(step), OTHER_SIDE[step.words[0]]
        holders = holders_of(self._moment, pipe, side)
        calls = [] if step.expected in (AT_END, NO_READER) else [side]
        for call in [*calls, None]:
            for holder in holders:
                life = self._schedule.lives[holder.process]
                line = self._schedule.agenda.line_of(life)
                turn = _turn_to_come(line, set(holder.descriptors), call)
                if turn:
                    self._link(found, turn)
                elif call is None:
                    found.idle.append(life)
            if found.links:
                return


def _turn_to_come(line: Line, descriptors: Set[int], call: Optional[str]) -> Optional[Turn]:
    """The turn by which a process makes a call of descriptors; or without one closes the last."""
    for turn in line.turns:
        if call and turn.call == call and int(turn.step.words[1]) in descriptors:
            return turn
        descriptors = set() if turn.ends else _after(turn, descriptors)
        if not descriptors:
            return None if call else turn
    return None


def _after(turn: Turn, descriptors: Set[int]) -> Set[int]:
    """The descriptors that name after a turn what some named before it."""
    name, *words = turn.step.words
    if name == "close":
        return descriptors - {int(words[0])}
    if name == "dup2":
        origin, place = map(int, words)
        return descriptors | {place} if origin in descriptors else descriptors - {place}
    if name == "dup" and int(words[0]) in descriptors and turn.step.expected:
        return descriptors | {int(turn.step.expected.split()[1])}
    return descriptors
