"""What is left to be made of a trial, and who waits."""

from __future__ import annotations

from collections import deque
from typing import Dict, Iterator, List, Optional, Sequence, Set

from .lines import Line, Lines, Wait, Why
from .lives import Life, Plan, Turn, added_turn
from .outcome import Because, LeftOut, Outcome


class Agenda:
    """The turns that may still be made; waits, and turns that are not made, go to an outcome.

    `begin` is the turn by which the transaction begins that the outcome's question asks for.
    """

    def __init__(self, plan: Plan, outcome: Outcome) -> None:
        self.begin: Optional[Turn] = None
        self._outcome = outcome
        self._lines = Lines()
        self._line_of_turn: Dict[Turn, Line] = {}
        self._line_of_life: Dict[Life, Line] = {}
        self._gone: Set[Turn] = set()
        for life in plan.lives:
            line = self._line_of_life[life] = self._add_line(self._turns_of(life))
            if life.fork is None:
                self._lines.put(line)
        for turn in plan.turns:
            if turn.life.is_outside:
                self._lines.put(self._add_line([turn]))

    def __iter__(self) -> Iterator[Line]:
        """The lines of which a turn may be made, by the recorded order of their next turns."""
        return iter(self._lines)

    def _add_line(self, turns: List[Turn]) -> Line:
        line = Line(turns)
        self._line_of_turn.update(dict.fromkeys(turns, line))
        return line

    def _turns_of(self, life: Life) -> List[Turn]:
        """The turns of a process, with those that make it a transaction."""
        turns, question = list(life.turns), self._outcome.question
        if life is not question.starter:
            return turns
        first = 0
        if life.fork is None:  # what sets the kernel up was not recorded
            first = next((at for at, it in enumerate(turns) if it.recorded.line), len(turns))
        before = turns[first - 1] if first else life.fork
        self.begin = added_turn(life, "sys_xbegin", before)
        turns.insert(first, self.begin)
        if question.aborts_itself and turns[-1].ends:
            turns[-1] = added_turn(life, "sys_xabort", turns[-1])
        return turns

    def line(self, turn: Turn) -> Line:
        """The line that has, or had, a turn."""
        return self._line_of_turn[turn]

    def line_of(self, life: Life) -> Line:
        """The line of a process that was recorded."""
        return self._line_of_life[life]

    def is_to_come(self, turn: Optional[Turn]) -> bool:
        """Whether there is a turn that may still be made."""
        return turn is not None and turn not in self._gone

    def put_life(self, life: Life) -> None:
        """A process is there: its turns may be made."""
        self._lines.put(self._line_of_life[life])

    def put_last(self, turn: Turn) -> None:
        """Puts a turn after all others of its process."""
        line = self._line_of_turn[turn] = self._line_of_life[turn.life]
        line.turns.append(turn)
        self._lines.put(line)

    def put_first(self, turns: Sequence[Turn]) -> None:
        """Puts turns of a process before all others of it."""
        line = self._line_of_turn[turns[0]]
        line.turns = deque([*turns, *(it for it in line.turns if it not in turns)])
        self._lines.put(line)

    def take(self, turn: Turn) -> None:
        """A turn is not to be made any more: it was made, or is not."""
        line = self._line_of_turn[turn]
        if line.wait and line.wait.turn is turn:
            self.end_wait(line)
        self._gone.add(turn)
        self._lines.take(line, turn)

    def leave_out(self, turns: Sequence[Turn], because: Because, answer: str = "") -> None:
        """Turns are not made, and those neither of processes that are forked by them."""
        for turn in turns:
            self.take(turn)
            if not turn.added:
                self._outcome.left_out.append(LeftOut(turn, because, answer))
            if turn.born:
                self.leave_out(list(turn.born.turns), Because.UNBORN)

    # Waits.

    def wait(self, line: Line, why: Why, answer: str = "") -> bool:
        """A line waits at its next turn; whether it did not wait so before."""
        if line.wait and line.wait.turn is line.head and line.wait.why is why:
            return False
        self.end_wait(line)
        line.wait = Wait(line.head, why, len(self._outcome.made), answer)
        self._outcome.waits.append(line.wait)
        return True

    def end_wait(self, line: Line) -> None:
        """A line waits no more."""
        if line.wait:
            line.wait.ended = len(self._outcome.made)
            line.wait = None

    def end_waits(self, why: Why) -> None:
        """No line waits any more for one reason."""
        for line in self._lines:
            if line.wait and line.wait.why is why:
                self.end_wait(line)
