"""What a trial's outcome comes to, as a text to be read."""

from __future__ import annotations

import errno
from collections import defaultdict
from dataclasses import dataclass, field
from typing import Callable, Dict, Iterator, List, Sequence, Tuple

from ..host.tree import spell_signal
from ..kernel import Undelivered
from ..wording import counted
from .circles import Forever, Link
from .leftovers import differences
from .lines import Need, Wait, Why
from .lives import NO_READER, Life, Plan, Turn
from .outcome import Outcome, Sent

_MOST_STEPS = 9  # that are listed one by one


@dataclass
class Findings:
    """What there is to report of a trial, beside what came of the same steps without it."""

    plan: Plan
    outcome: Outcome
    plain: Outcome  # without a transaction
    forever: List[Forever] = field(default_factory=list)
    circles: List[List[Link]] = field(default_factory=list)
    idle: List[Life] = field(default_factory=list)  # members that neither end nor wait

    def waits(self) -> List[Wait]:
        """The waits that are due to the transaction, and not over at once."""
        old = {(it.turn, it.why) for it in self.plain.waits}
        return [
            it for it in self.outcome.waits if (it.turn, it.why) not in old and it.ended != it.began
        ]

    def waits_of_others(self) -> List[Wait]:
        """Of these waits those of processes that are no members."""
        return [it for it in self.waits() if it.life not in self.outcome.members]

    def step_made(self, count: int) -> str:
        """The last of so many steps that were made."""
        return place(self.outcome.made[count - 1].turn)


def place(turn: Turn) -> str:
    """A step of the recording: its number, its text, and the line of the log."""
    if turn.added:
        return f"its {turn.step.call} after step {turn.index + 1}"
    line = f", line {turn.recorded.line}" if turn.recorded.line else ""
    return f"step {turn.index + 1} ({turn.recorded.text}{line})"


def circle_in_short(circle: Sequence[Link]) -> str:
    """Each process of a circle, and the object for which it waits for the next one."""
    parts = [f"{it.wait.life.label} - {it.wait.what} - " for it in circle]
    return "".join(parts) + circle[0].wait.life.label


def report(findings: Findings) -> Iterator[str]:
    """The lines of a report, without their ends."""
    yield from _transaction(findings)
    parts: List[Callable[[Findings], Iterator[str]]] = [_waiting, _in_turn, _forever, _circles]
    parts += [_otherwise, _interrupts, _renumbered, _signals, _left_out, _left]
    for part in parts:
        lines = list(part(findings))
        if lines:
            yield ""
            yield from lines


def _transaction(findings: Findings) -> Iterator[str]:
    """When the transaction begins, and how it ends."""
    outcome = findings.outcome
    starter = outcome.question.starter
    assert starter
    yield f"The transaction is {starter.label} and all that it forks. (Lines are those of the log.)"
    if outcome.begun is None:
        yield "It never begins, since its process is not forked."
        return
    if starter.fork:
        yield f"It begins after {place(starter.fork)}."
    else:
        yield "It begins before the first step of the log."
    if len(outcome.members) > 1:
        yield f"Its members: {', '.join(it.label for it in outcome.members)}."
    yield from _ending(findings)
    if findings.plan.files:
        yield f"{counted(len(findings.plan.files), 'step')} of files took no part."


def _ending(findings: Findings) -> Iterator[str]:
    outcome, question = findings.outcome, findings.outcome.question
    ending = outcome.ending
    if ending and ending.is_commit:
        yield f"It commits at {place(ending.made.turn)}."
    elif ending:
        yield f"It is aborted with the status {ending.reply.status}: {_why_aborted(outcome)}."
    else:
        yield "It never ends."
        for life in findings.idle:
            yield f"  {life.label} does nothing more in the recording, and does not end."
    if question.aborts_itself and not (ending and ending.reply.status == 201):
        yield "It never gets to its sys_xabort."


def _why_aborted(outcome: Outcome) -> str:
    """What aborted a transaction."""
    assert outcome.ending
    status = outcome.ending.reply.status
    if status == 201:
        end = outcome.members[0].turns[-1]
        return f"it calls sys_xabort in place of {place(end)}"
    if status == 203:
        return f"{place(outcome.made[outcome.ending.at - 2].turn)} dooms it"
    return f"the kernel aborts it after step {(outcome.question.aborted_after or 0) + 1}"


# Who waits.


def _waiting(findings: Findings) -> Iterator[str]:
    """Who waits for the transaction."""
    all_waits = [it for it in findings.waits_of_others() if it.why is Why.BUSY]
    waits = [it for it in all_waits if it.ended is not None]
    if not all_waits:
        yield "Nobody waited for it."
    elif waits:
        yield "Who waited for it:"
    for it in waits:
        needs = _needs(findings, it.needs)
        yield f"  {it.life.label} at {place(it.turn)}, for {needs}, {_until(findings, it)}"


def _needs(findings: Findings, needs: Sequence[Need]) -> str:
    """What a step needs, and since when the transaction has reserved it."""
    names: Dict[str, List[str]] = defaultdict(list)
    for it in needs:
        since = f", reserved since {findings.step_made(it.since)}" if it.since else ""
        names[since].append(it.name)
    return ", and ".join(f"{' and '.join(some)}{since}" for since, some in names.items())


def _until(findings: Findings, wait: Wait) -> str:
    """Until when a process waits, and how many steps others have made by then."""
    outcome = findings.outcome
    assert wait.ended is not None
    ended = f"until {findings.step_made(wait.ended)}"
    if wait.why is Why.BUSY and outcome.ending and wait.ended == outcome.ending.at:
        ended = f"until it {'commits' if outcome.ending.is_commit else 'is aborted'}"
    return f"{ended}, {counted(wait.steps, 'step')} later"


def _in_turn(findings: Findings) -> Iterator[str]:
    """Who waits for others, of those who do not wait for ever: the first wait of each process."""
    waits: Dict[Life, List[Wait]] = defaultdict(list)
    for it in findings.waits():
        if it.why is not Why.BUSY and it.ended is not None:
            waits[it.life].append(it)
    if waits:
        yield "Who waited for others meanwhile:"
    for life, some in waits.items():
        first, more = some[0], len(some) - 1
        again = f"; and {counted(more, 'time')} after that" if more else ""
        said = f"{_missing(first)}; {life.label} waits {_until(findings, first)}{again}"
        yield f"  {life.label} at {place(first.turn)}: {said}"


def _missing(wait: Wait) -> str:
    """What is not so while a process waits."""
    if wait.why is Why.SIGNAL:
        return f"{wait.what} has not come"
    if wait.why is Why.NUMBER:
        return f"{wait.what} is in use"
    if wait.why is Why.PROCESS:
        return f"{wait.what} has not been forked"
    if wait.turn.target:
        return f"{wait.what} has not ended"
    if wait.turn.step.expected == NO_READER:
        return f"{wait.what} has a reader still, and on Linux this write found none"
    return f"{wait.what} has {'no byte' if wait.turn.call == 'read' else 'too little room'}"


def _forever(findings: Findings) -> Iterator[str]:
    """Who waits for ever."""
    if findings.forever:
        yield "Who waits for ever:"
    plain = {it.turn for it in findings.plain.waits if it.ended is None}
    for it in findings.forever:
        wait = it.wait
        if wait.why is Why.BUSY:
            has = "the transaction has " if wait.needs[0].since else ""
            said = f"{has}{_needs(findings, wait.needs)}"
        else:
            said = f"{_missing(wait)}{_by_whom(it)}"
        also = "; the same without the transaction" if wait.turn in plain else ""
        yield f"  {wait.life.label} at {place(wait.turn)}: {said}{also}"


def _by_whom(forever: Forever) -> str:
    """Who could end a wait for ever."""
    said = [f"{it.turn.life.label} at {place(it.turn)}" for it in forever.links]
    idle = [f"{it.label}, which does nothing more" for it in forever.idle]
    if said or idle:
        return f"; {forever.wait.life.label} waits for {' or '.join([*said, *idle])}"
    return ", and nobody sends it any more" if forever.wait.why is Why.SIGNAL else ""


def _circles(findings: Findings) -> Iterator[str]:
    """Circles of those who wait for ever."""
    if findings.forever and not findings.circles:
        yield "Nobody waits in a circle."
    for circle in findings.circles:
        yield f"A circle: {circle_in_short(circle)}"
        for it in circle:
            yield f"  {it.wait.life.label} waits until {_done(it)}"


def _done(link: Link) -> str:
    """What has to be done first where a process of a circle waits: by the next one, and where."""
    wait, turn, whom, where = link.wait, link.turn, link.next.life.label, place(link.turn)
    if turn.life is not link.next.life:
        return f"{whom} goes on, so that {turn.life.label} is forked and gets to {where}"
    if wait.why is Why.BUSY:
        return f"{whom} ends at {where}: its transaction has reserved {wait.what}"
    if wait.why is Why.SIGNAL and turn not in wait.turn.senders:
        return f"{whom} ends at {where}: its transaction holds {wait.what}"
    return f"{whom} {_verb(wait, turn)} at {where}"


def _verb(wait: Wait, turn: Turn) -> str:
    """What a turn does for which a process waits."""
    if wait.why is Why.SIGNAL:
        return "ends" if turn.ends else f"sends {wait.what}"
    if wait.why is Why.PROCESS:
        return f"forks {wait.what}"
    if wait.turn.target:
        return "ends"
    verbs = {"read": "reads from", "write": "writes to"}
    return f"{verbs.get(turn.call, 'closes')} {wait.what}"


# What came otherwise.


def _otherwise(findings: Findings) -> Iterator[str]:
    """Which answers are not Linux's."""
    plain = {(it.turn, it.answer) for it in findings.plain.differing}
    made = [it for it in findings.outcome.differing if (it.turn, it.answer) not in plain]
    ends = [it for it in findings.outcome.made if it.turn.added and it.turn.ends]
    both = len(findings.outcome.differing) - len(made)
    if made or ends:
        yield "Answers that differ from Linux's:"
    elif not both:
        yield "Every step that was made got Linux's answer."
    for it in made:
        yield f"  {place(it.turn)}: {it.answer}, on Linux {it.turn.step.expected}"
    for it in ends:
        yield f"  {it.turn.life.label} is ended by signal KILL here, which came too late on Linux"
    if both:
        more = "more " if made or ends else ""
        differ = "answer differs" if both == 1 else "answers differ"
        yield f"{both:,} {more}{differ} from Linux's without the transaction too."


def _interrupts(findings: Findings) -> Iterator[str]:
    """Which handlers ran earlier, since their process waited."""
    if findings.outcome.interrupts:
        yield "Signals that came while their process waited, and so earlier than recorded:"
    for it in findings.outcome.interrupts:
        yield f"  {it.life.label} at {place(it)}"


def _renumbered(findings: Findings) -> Iterator[str]:
    """Which pipes have not the numbers that the recording has, since these are taken here."""
    pipes = (it for it in findings.outcome.made if it.turn.call == "pipe")
    made = [it for it in pipes if it.step != it.turn.step]
    if made:
        yield "Pipes that have another number here:"
    for it in made:
        yield f"  {place(it.turn)}: pipe {it.step.words[1]}"


def _signals(findings: Findings) -> Iterator[str]:
    """Which signals the transaction held, and where they went."""
    held, ending = findings.outcome.held, findings.outcome.ending
    failed = list(ending.reply.undelivered) if ending else []
    if held:
        yield "Signals that it held:"
    for it in held:
        target = findings.plan.label(it.target, it.turn.index)
        went = "never goes out"
        if ending:
            went = "goes out at the commit" if ending.is_commit else "is dropped by the abort"
        found = next((one for one in failed if _is_of(one, it)), None)
        if found:
            failed.remove(found)
            went = f"fails at the commit: {errno.errorcode.get(found.errno, found.errno)}"
        yield f"  {spell_signal(it.signal)} to {target}, sent at {place(it.turn)}: {went}"


def _is_of(failed: Undelivered, sent: Sent) -> bool:
    return (failed.target, failed.signo) == (sent.target, sent.signal)


def _left_out(findings: Findings) -> Iterator[str]:
    """Which recorded steps are not made, and why."""
    outcome = findings.outcome
    groups: Dict[Tuple[str, Life], List[Turn]] = defaultdict(list)
    for it in outcome.left_out:
        groups[it.because.value, it.turn.life].append(it.turn)
    rest = _rest(findings)
    is_over = outcome.after and outcome.question.is_abort_wanted
    reaps = [] if is_over else _reaps(findings, rest)
    if groups or rest:
        yield "Steps that are not made:"
    for (because, life), some in groups.items():
        yield f"  {_in_short(life, some)}: {because}"
    yield from _unreaped(outcome, reaps)
    if len(rest) > len(reaps):
        which = "after the abort" if is_over else "at or after a wait for ever"
        yield f"  {counted(len(rest) - len(reaps), 'step')} {which}"


def _rest(findings: Findings) -> List[Turn]:
    """The steps that a trial did not come to."""
    outcome = findings.outcome
    gone = {*(it.turn for it in outcome.made), *(it.turn for it in outcome.left_out)}
    return [it for it in findings.plan.turns if it not in gone and it not in outcome.rests]


def _reaps(findings: Findings, rest: Sequence[Turn]) -> List[Turn]:
    """Of the steps that a trial did not come to, those that were to reap orphans."""
    waiting = {it.wait.turn for it in findings.forever}
    outside = (it for it in rest if it.life.is_outside and it not in waiting)
    return [it for it in outside if it.call == "waitpid"]


def _unreaped(outcome: Outcome, reaps: Sequence[Turn]) -> Iterator[str]:
    """Why nobody outside reaps: a process has not ended, or it is no orphan."""
    running = [it for it in reaps if it.target not in outcome.ended]
    children = [it for it in reaps if it.target in outcome.ended]
    if len(running) == 1 and running[0].target:
        whom = running[0].target.label
        because = f"process {whom} has not ended here, so it can't be reaped"
    else:
        because = "these processes have not ended here, so they can't be reaped"
    if running:
        yield f"  {_in_short(running[0].life, running)}: {because}"
    if children:
        because = "only the parent may reap, since it has not ended here"
        yield f"  {_in_short(children[0].life, children)}: {because}"


def _left(findings: Findings) -> Iterator[str]:
    """What an abort leaves."""
    outcome = findings.outcome
    if not outcome.before or not outcome.after or not outcome.ending or outcome.begun is None:
        return
    plan, last = findings.plan, outcome.ending.made.turn.index
    left = differences(outcome.before, outcome.after, lambda number: plan.label(number, last))
    yield "After the abort the state differs from that before the sys_xbegin:" if left else (
        "After the abort the state is as it was before the sys_xbegin."
    )
    yield from (f"  {it}" for it in left)
    since = outcome.made[outcome.begun : outcome.ending.at]
    others = [it.turn for it in since if it.turn.life not in outcome.members]
    if others:
        steps = counted(len(others), "step")
        yield f"Others made {steps} meanwhile, which the abort does not undo:"
        yield from _listed(others)


def _listed(turns: List[Turn]) -> Iterator[str]:
    """Steps one by one; where they are many, how many each process has."""
    if len(turns) <= _MOST_STEPS:
        yield from (f"  {place(it)}" for it in turns)
        return
    of: Dict[Life, List[Turn]] = defaultdict(list)
    for it in turns:
        of[it.life].append(it)
    yield from (f"  {_in_short(life, some)}" for life, some in of.items())


def _in_short(life: Life, turns: Sequence[Turn]) -> str:
    """Steps of a process by their number and the first one."""
    if len(turns) == 1:
        return f"{life.label}: {place(turns[0])}"
    return f"{life.label}: {counted(len(turns), 'step')}, the first is {place(turns[0])}"
