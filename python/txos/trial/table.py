"""What came of the trials of all processes of a recording, as a table."""

from __future__ import annotations

from typing import Iterator, Optional, Sequence

from ..wording import counted
from .outcome import Ending
from .report import Findings, circle_in_short

_HEAD = ("process", "steps", "outcome", "others waited", "for ever")


def table(trials: Sequence[Findings]) -> Iterator[str]:
    """The lines of a table with a row for each trial, and of what it counts."""
    rows = [_HEAD, *(tuple(_cells(it)) for it in trials)]
    widths = [max(len(row[column]) for row in rows) for column in range(len(_HEAD))]
    for row in rows:
        yield "  ".join(cell.ljust(width) for cell, width in zip(row, widths)).rstrip()
    yield ""
    yield "Waits are counted in the steps that others made meanwhile."


def _cells(trial: Findings) -> Iterator[str]:
    starter = trial.outcome.question.starter
    assert starter
    yield starter.label
    yield f"{len(starter.turns):,}"
    yield _outcome(trial.outcome.ending)
    yield _waited(trial)
    yield _forever(trial)


def _outcome(ending: Optional[Ending]) -> str:
    if ending is None:
        return "never ends"
    if ending.is_commit:
        return f"commits at step {ending.made.turn.index + 1:,}"
    return f"aborted with {ending.reply.status} after step {ending.made.turn.index + 1:,}"


def _waited(trial: Findings) -> str:
    """How many others waited, and for how many steps at most, of those that did not for ever."""
    waits = [it for it in trial.waits_of_others() if it.ended is not None]
    if not waits:
        return "-"
    others = {it.life for it in waits}
    steps = counted(max(it.steps for it in waits), "step")
    return f"{counted(len(others), 'process', 'es')}, up to {steps}"


def _forever(trial: Findings) -> str:
    """How many wait for ever, and in which circle."""
    old = {it.turn for it in trial.plain.waits if it.ended is None}
    waits = [it for it in trial.forever if it.wait.turn not in old]
    if not waits:
        return "-"
    circles = (f"circle: {circle_in_short(it)}" for it in trial.circles)
    return "; ".join([counted(len(waits), "process", "es"), *circles])
