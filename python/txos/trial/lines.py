"""Turns that are made one after another, and what a process waits for at one of them."""

from __future__ import annotations

import bisect
import enum
from collections import deque
from dataclasses import dataclass, field
from typing import Deque, Dict, Iterable, Iterator, List, Optional, Tuple

from .lives import Life, Turn


class Why(enum.Enum):
    """Why a process waits."""

    BUSY = enum.auto()  # the transaction is in the way
    CALL = enum.auto()  # the call waits, or would be made again until it finds something
    CHILD = enum.auto()  # it asks for a child that has not ended, and would ask again
    SIGNAL = enum.auto()  # the signal to be delivered has not come
    PROCESS = enum.auto()  # the process that it names is not there yet
    NUMBER = enum.auto()  # the number of a process that it would fork is in use


@dataclass(frozen=True)
class Need:
    """An object that a step names and the transaction has reserved, since which of its steps."""

    name: str
    since: Optional[int] = None  # how many steps were made with that one, or None for two answers


@dataclass(eq=False)
class Wait:
    """A process waits at a turn: from when on, and until when, as numbers of steps made by then.

    `answer` is that of the kernel where it refused the step, or "". `what` is an object for which
    it waits, or "" where nobody has asked, and `needs` has all that the transaction has of what the
    turn needs.
    """

    turn: Turn
    why: Why
    began: int
    answer: str = ""
    what: str = ""
    needs: List[Need] = field(default_factory=list)
    ended: Optional[int] = None  # None: it waits for ever

    @property
    def life(self) -> Life:
        """The process that waits."""
        return self.turn.life

    @property
    def steps(self) -> int:
        """How many steps were made while it waited; 0 where it waits for ever."""
        return 0 if self.ended is None else self.ended - self.began


class Line:
    """Turns that are made one after another: of a process, or one of somebody outside."""

    def __init__(self, turns: Iterable[Turn]) -> None:
        self.turns: Deque[Turn] = deque(turns)
        self.wait: Optional[Wait] = None

    @property
    def head(self) -> Turn:
        """The turn that is made next."""
        return self.turns[0]

    def before(self, turn: Turn) -> List[Turn]:
        """The turns that are made before one."""
        turns = list(self.turns)
        return turns[: turns.index(turn)]

    def handler(self, delivery: Turn) -> List[Turn]:
        """A delivery that is caught, and what comes after it up to its sigreturn; or none."""
        turns = list(self.turns)
        ends = [turns.index(it) + 1 for it in delivery.returns if it in turns]
        return turns[turns.index(delivery) : ends[0]] if ends else []


class Lines:
    """Lines by the recorded order of their next turns; one without a turn is left out."""

    def __init__(self) -> None:
        self._places: List[Tuple[int, int]] = []
        self._lines: Dict[Tuple[int, int], Line] = {}
        self._place_of: Dict[Line, Tuple[int, int]] = {}

    def __iter__(self) -> Iterator[Line]:
        return (self._lines[it] for it in list(self._places))

    def put(self, line: Line) -> None:
        """Puts a line where its next turn is, also where it was in another place before."""
        old = self._place_of.pop(line, None)
        if old:
            self._places.remove(old)
        if line.turns:
            place = self._place_of[line] = (line.head.index, line.head.life.number)
            self._lines[place] = line
            bisect.insort(self._places, place)

    def take(self, line: Line, turn: Turn) -> None:
        """Takes a turn out of a line, which then has the place of its next one."""
        line.turns.remove(turn)
        if line in self._place_of:
            self.put(line)
