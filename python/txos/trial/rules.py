"""What a trial makes of an answer that is not Linux's, and of a number that is taken."""

from __future__ import annotations

from dataclasses import replace
from typing import AbstractSet, Iterable, List, Optional

from ..kernel import Owned, Reply, State
from ..recording import Step
from .lives import NO_READER, Turn

FOUND_NOTHING = "ok -11"  # EAGAIN
_RUNS_STILL = "ok 0"  # a child of which a waitpid asks without waiting
_TRANSFERS = ("read", "write")
_PIPES, _DESCRIPTIONS = range(32), range(64)


def asks_again(turn: Turn, reply: Reply) -> bool:
    """Whether a process would make a call again until it is answered as on Linux.

    So it does with a call that finds nothing where Linux's found something: it asks whether there
    is something before it makes it. And it writes on until no reader is left, if that was so.
    """
    answer, expected = str(reply), turn.step.expected
    if expected is None or answer == expected:
        return False
    if turn.call in _TRANSFERS:
        return answer == FOUND_NOTHING or expected == NO_READER
    words = turn.step.words
    return turn.call == "waitpid" and answer == _RUNS_STILL and expected == f"ok {words[1]}"


def found_nothing(turn: Turn) -> bool:
    """Whether a call found nothing on Linux, so that leaving it out leaves nothing out."""
    nothing = _RUNS_STILL if turn.call == "waitpid" else FOUND_NOTHING
    return turn.call in (*_TRANSFERS, "waitpid") and turn.step.expected == nothing


def with_free_numbers(step: Step, state: State, others: Optional[Owned]) -> Step:
    """A step that makes a pipe, with the least numbers that are free for its process.

    `others` is what a transaction has that the process is no member of. Where too few are free the
    step stays as it is.
    """
    owned_pipes = others.pipes if others else ()
    owned_descriptions = others.descs if others else ()
    pipes = _free(_PIPES, {*state.pipes, *owned_pipes})
    descriptions = _free(_DESCRIPTIONS, {*state.descs, *owned_descriptions})
    if not pipes or len(descriptions) < 2:
        return step
    return replace(step, call=f"pipe {pipes[0]} {descriptions[0]} {descriptions[1]}")


def _free(numbers: Iterable[int], taken: AbstractSet[int]) -> List[int]:
    return [it for it in numbers if it not in taken]
