"""What came of a trial: which steps were made, who waited, and how the transaction ended."""

from __future__ import annotations

import enum
from dataclasses import dataclass, field
from typing import Dict, List, Optional, Set

from ..kernel import Reply, State
from ..recording import Step
from .lines import Wait
from .lives import Life, Turn


@dataclass(frozen=True)
class Question:
    """What is tried: who is a transaction, and how it is to end where it is not by its own end."""

    starter: Optional[Life] = None
    aborts_itself: bool = False  # it calls sys_xabort in place of its own end
    aborted_after: Optional[int] = None  # the kernel aborts it after the turn with this index

    @property
    def is_abort_wanted(self) -> bool:
        """Whether it is to be aborted, with which the trial ends."""
        return self.aborts_itself or self.aborted_after is not None


class Because(enum.Enum):
    """Why a recorded step is not made."""

    NO_SIGNAL = "its signal does not come"
    IGNORED = "its signal, which does nothing, is not pending here"
    FOUND_NOTHING = "on Linux this call found nothing; here it would find something"
    ENDED = "its process ends before it"
    UNBORN = "its process is never forked"
    ABORTED = "its process is gone with the abort"
    REFUSED = "it is refused"


@dataclass(frozen=True)
class Made:
    """A step that was made: as the kernel was asked for it, and what it answered."""

    turn: Turn
    step: Step
    answer: str


@dataclass(frozen=True)
class LeftOut:
    """A recorded step that is not made."""

    turn: Turn
    because: Because
    answer: str = ""


@dataclass(frozen=True)
class Sent:
    """A signal that the transaction holds: the step that sent it, and to which number."""

    turn: Turn
    target: int
    signal: int


@dataclass(frozen=True)
class Ending:
    """How the transaction ended: by which step, as a number of steps made with that one."""

    made: Made
    reply: Reply
    at: int

    @property
    def is_commit(self) -> bool:
        """Whether it was committed."""
        return self.reply.kind == "committed"


@dataclass
class Outcome:
    """What came of a trial."""

    question: Question
    made: List[Made] = field(default_factory=list)
    rests: Dict[Turn, int] = field(default_factory=dict)  # waits of Linux: after how many steps
    waits: List[Wait] = field(default_factory=list)
    differing: List[Made] = field(default_factory=list)
    left_out: List[LeftOut] = field(default_factory=list)
    # Deliveries that came before the turn at which their process waited.
    interrupts: List[Turn] = field(default_factory=list)
    held: List[Sent] = field(default_factory=list)
    members: List[Life] = field(default_factory=list)  # its starter first
    ended: Set[Life] = field(default_factory=set)  # who has ended
    begun: Optional[int] = None  # how many steps were made before its sys_xbegin
    ending: Optional[Ending] = None
    before: Optional[State] = None  # the state before the sys_xbegin
    after: Optional[State] = None  # the state after the abort
