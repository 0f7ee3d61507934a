"""A recording as a trial takes it: each process from its fork to its end, with its steps in order.

A step knows here what it depends on: whom it names, and a delivery the steps that send its signal.
"""

from __future__ import annotations

import enum
from dataclasses import dataclass, field, replace
from typing import Callable, Dict, List, Optional, Tuple

from ..host.tree import CHLD, KILL, PIPE, signal_number
from ..recording import OUTSIDE, Naming, Recording, Step
from .fileless import without_files

# Answers of Linux: of an end; of a read where no writer is left, of a write where no reader is.
AT_END, NO_READER = "ok 0", "ok -32"
_FIRST_REALTIME = 32


class Delivery(enum.Enum):
    """What the delivery of a signal does to its process."""

    ENDS = enum.auto()
    CAUGHT = enum.auto()
    NOTHING = enum.auto()  # the signal is ignored


@dataclass(eq=False, repr=False)
class Life:
    """A process, from the step that forks it to its end."""

    number: int
    label: str = ""
    parent: Optional[Life] = None
    fork: Optional[Turn] = None  # None: it is there from the start
    turns: List[Turn] = field(default_factory=list)
    names: List[Naming] = field(default_factory=list)

    @property
    def first(self) -> int:
        """The index of its first step in the recording; that of its fork where it has none."""
        before = self.fork.index if self.fork else 0
        return self.turns[0].index if self.turns else before

    @property
    def is_outside(self) -> bool:
        """Whether it is all that were not recorded: many, of which each does one step."""
        return self.number == OUTSIDE


@dataclass(eq=False, repr=False)
class Turn:
    """A step of a process: as it was recorded, and as the kernel is asked for it, without files.

    `index` is that in the recording, from 0. One that only a trial makes, such as the beginning of
    its transaction, has the index of the recorded step that it follows, and is `added`.
    """

    index: int
    life: Life
    recorded: Step
    step: Step
    added: bool = False
    born: Optional[Life] = None  # whom a fork begins
    target: Optional[Life] = None  # whom a waitpid, a kill or a sigqueue names
    signal: Optional[int] = None  # what a kill or a sigqueue sends, or a delivery takes
    delivery: Optional[Delivery] = None
    senders: List[Turn] = field(default_factory=list)  # of a delivery: who sent its signal
    returns: List[Turn] = field(default_factory=list)  # of a caught delivery: its sigreturns

    @property
    def call(self) -> str:
        """The name of the call."""
        return self.step.words[0]

    @property
    def sends(self) -> Optional[int]:
        """The signal that it sends by a call, or None."""
        return None if self.delivery else self.signal

    @property
    def ends(self) -> bool:
        """Whether its process ends by it."""
        return self.call == "exit" or self.delivery is Delivery.ENDS


def added_turn(life: Life, call: str, after: Optional[Turn]) -> Turn:
    """A turn that was not recorded, and comes after one that was, or first."""
    step = Step(life.number, call)
    return Turn(after.index if after else 0, life, step, step, added=True)


def added_end(life: Life) -> Turn:
    """A turn that was not recorded, by which SIGKILL ends a process."""
    end = added_turn(life, "deliver KILL", life.turns[-1] if life.turns else life.fork)
    return replace(end, signal=KILL, delivery=Delivery.ENDS)


@dataclass
class Plan:
    """The lives of a recording in the order in which they begin, and their turns in order."""

    recording: Recording
    lives: List[Life]
    turns: List[Turn]
    files: List[int]  # the indices of the steps of files, which take no part

    def find(self, word: str) -> List[Life]:
        """The processes that a word means: a number, a command, or else a word of a name.

        Where a number was used again, `7@900` is the process that has number 7 at step 900.
        """
        number, at, step = word.partition("@")
        if number.isdecimal() and step.isdecimal():
            return self._at(int(number), int(step) - 1)
        if number.isdecimal() and not at:
            return [it for it in self.lives if it.number == int(number)]
        commands = [it for it in self.lives if it.label.partition(" ")[2] == word]
        if commands:
            return commands
        return [it for it in self.lives if replace(self.recording, names=it.names).find(word)]

    def label(self, number: int, index: int) -> str:
        """The label of the process that has a number at the step with an index."""
        return self._at(number, index)[0].label if self._at(number, index) else str(number)

    def _at(self, number: int, index: int) -> List[Life]:
        """The process that has a number at the step with an index, if there is one."""
        return [it for it in self.lives if it.number == number and it.first <= index][-1:]

    def spelled(self, life: Life) -> str:
        """A process as `find` finds it, with its command."""
        if sum(1 for it in self.lives if it.number == life.number) == 1:
            return life.label
        number, space, command = life.label.partition(" ")
        return f"{number}@{life.first + 1}{space}{command}"


def make_plan(recording: Recording) -> Plan:
    """The plan of a recording."""
    left = without_files(recording)
    planner = _Planner()
    turns = [planner.add(index, recording.steps[index], step) for index, step in left.steps]
    for naming in recording.names:
        planner.name(naming)
    for life in planner.lives:
        life.label = replace(recording, names=life.names).label(life.number)
    return Plan(recording, [it for it in planner.lives if not it.is_outside], turns, left.left_out)


class _Planner:
    """What is known of the processes before a step."""

    def __init__(self) -> None:
        self.lives: List[Life] = []
        self._lives: Dict[int, Life] = {}  # who has a number now
        self._actions: Dict[Life, Dict[int, str]] = {}
        self._frames: Dict[Life, List[Turn]] = {}
        self._sent: Dict[Tuple[Life, int], List[Turn]] = {}  # what was not delivered yet
        self._notes: Dict[str, Callable[[Turn, List[str]], None]] = {
            "fork": self._fork,
            "waitpid": self._wait,
            "kill": self._kill,
            "sigqueue": self._kill,
            "write": self._write,
            "sigaction": self._act,
            "deliver": self._deliver,
            "sigreturn": self._return,
        }

    def add(self, index: int, recorded: Step, step: Step) -> Turn:
        """The turn that a step is, with what follows from it for later ones."""
        life = self._lives.get(step.process) or self._begin(step.process, None)
        turn = Turn(index, life, recorded, step)
        life.turns.append(turn)
        if turn.call in self._notes:
            self._notes[turn.call](turn, turn.step.words[1:])
        if turn.ends and life.parent and not life.is_outside:
            self._send(turn, life.parent, CHLD)
        return turn

    def name(self, naming: Naming) -> None:
        """Gives a name to the process that has its number then."""
        for life in reversed(self.lives):
            if life.number == naming.process and (not life.fork or life.fork.index < naming.index):
                life.names.append(naming)
                return

    def _begin(self, number: int, fork: Optional[Turn]) -> Life:
        parent = fork.life if fork else None
        life = self._lives[number] = Life(number, parent=parent, fork=fork)
        self.lives.append(life)
        self._actions[life] = dict(self._actions[parent]) if parent else {}
        self._frames[life] = list(self._frames[parent]) if parent else []
        return life

    def _send(self, turn: Turn, target: Life, signal: int) -> None:
        self._sent.setdefault((target, signal), []).append(turn)

    def _fork(self, turn: Turn, words: List[str]) -> None:
        turn.born = self._begin(int(words[0]), turn)

    def _wait(self, turn: Turn, words: List[str]) -> None:
        turn.target = self._lives.get(int(words[0]))

    def _kill(self, turn: Turn, words: List[str]) -> None:
        turn.target = self._lives.get(int(words[0]))
        turn.signal = _signal_of(words[1])
        if turn.target and turn.signal:
            self._send(turn, turn.target, turn.signal)

    def _write(self, turn: Turn, words: List[str]) -> None:
        if turn.step.expected == NO_READER:
            self._send(turn, turn.life, PIPE)

    def _act(self, turn: Turn, words: List[str]) -> None:
        self._actions[turn.life][_signal_of(words[0])] = words[1]

    def _deliver(self, turn: Turn, words: List[str]) -> None:
        turn.signal = _signal_of(words[0])
        action = self._actions[turn.life].get(turn.signal, "default")
        if action == "catch":
            turn.delivery = Delivery.CAUGHT
            self._frames[turn.life].append(turn)
        elif action == "ignore" or turn.signal == CHLD:
            turn.delivery = Delivery.NOTHING
        else:
            turn.delivery = Delivery.ENDS
        sent = self._sent.get((turn.life, turn.signal), [])
        taken = 1 if turn.signal >= _FIRST_REALTIME else len(sent)
        turn.senders, sent[:taken] = sent[:taken], []

    def _return(self, turn: Turn, words: List[str]) -> None:
        frames = self._frames[turn.life]
        if frames:
            frames.pop().returns.append(turn)


def _signal_of(word: str) -> int:
    """The number of a signal that a step spells; 0 where there is none of that name."""
    return int(word) if word.isdecimal() else signal_number(word) or 0
