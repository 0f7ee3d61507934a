"""The steps of a trial as a recording."""

from __future__ import annotations

from collections import defaultdict
from dataclasses import replace
from typing import Dict, Iterable, Iterator, List, Optional, Tuple

from ..recording import ENDED, LeftOut, Naming, Recording, Step
from .lines import Wait, Why
from .lives import Plan, Turn
from .outcome import Outcome

_LONGEST_COMMAND = 400  # characters, so that what is tried is in the line too

_Placed = Tuple[Turn, Step]


def trial_recording(plan: Plan, outcome: Outcome) -> Recording:
    """The steps that a trial made, in order, as a recording.

    Where a process begins to wait for the transaction, or for ever, its step that is refused is
    there too, without a line of the log. An end that commits is to be answered so.
    """
    recorded = plan.recording
    placed = list(_placed(outcome))
    made = replace(recorded, command=_command(plan, outcome), names=[])
    made.steps = [step for _, step in placed]
    for naming in recorded.names:
        index = _place_of(naming, placed)
        if index is not None:
            made.names.append(replace(naming, index=index))
    made.names.sort(key=lambda it: it.index)
    made.left_out = [*recorded.left_out, *_left_out(plan, outcome)]
    return made


def _command(plan: Plan, outcome: Outcome) -> str:
    """What was recorded, and what was tried with it."""
    command, starter, ending = plan.recording.command, outcome.question.starter, outcome.ending
    if len(command) > _LONGEST_COMMAND:
        command = f"{command[:_LONGEST_COMMAND]}..."
    if starter is None:
        return command
    aborted = " that is aborted" if ending and not ending.is_commit else ""
    return f"{command}, with {starter.label} as a transaction{aborted}"


def _placed(outcome: Outcome) -> Iterator[_Placed]:
    """The turns that were made, and the steps that were refused, in order."""
    refused: Dict[int, List[_Placed]] = defaultdict(list)
    for turn, count in outcome.rests.items():
        refused[count].append((turn, turn.step))
    for wait in outcome.waits:
        if _is_shown(wait):
            step = Step(wait.life.number, wait.turn.step.call, wait.answer)
            refused[wait.began].append((wait.turn, step))
    for count, made in enumerate(outcome.made):
        yield from refused[count]
        commits = made.step.expected == ENDED and made.answer != ENDED
        yield made.turn, replace(made.step, expected=made.answer) if commits else made.step
    yield from refused[len(outcome.made)]


def _is_shown(wait: Wait) -> bool:
    return wait.why is Why.BUSY or (wait.ended is None and bool(wait.answer))


def _place_of(naming: Naming, placed: List[_Placed]) -> Optional[int]:
    """The index of the first step from which on a process has a name, or None without one."""
    for index, (turn, _) in enumerate(placed):
        # What a trial adds comes after the recorded step whose index it has.
        if turn.life.number == naming.process and turn.index + turn.added >= naming.index:
            return index
    return None


def _left_out(plan: Plan, outcome: Outcome) -> Iterator[LeftOut]:
    """What a trial leaves out of a recording."""
    steps = plan.recording.steps
    files = [steps[it] for it in plan.files]
    yield from _counted("step of a file, which takes no part in a trial", files)
    kinds: Dict[str, List[Step]] = defaultdict(list)
    for it in outcome.left_out:
        kinds[it.because.value].append(it.turn.recorded)
    for kind, left in kinds.items():
        yield from _counted(f"step that the trial does not make: {kind}", left)
    gone = {it.turn for it in outcome.made} | {it.turn for it in outcome.left_out}
    rest = [it.recorded for it in plan.turns if it not in gone and it not in outcome.rests]
    yield from _counted("step that the trial does not come to", rest)


def _counted(kind: str, steps: Iterable[Step]) -> Iterator[LeftOut]:
    lines = [it.line for it in steps]
    first = next((it for it in lines if it), None)
    if first:
        yield LeftOut(kind, len(lines), first)
