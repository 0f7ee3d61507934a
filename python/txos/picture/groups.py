"""Steps of a recording that go together: those of a process, of a pipe, of a descriptor."""

from __future__ import annotations

from dataclasses import dataclass, field
from typing import Dict, FrozenSet, Iterable, Iterator, List, Sequence, Set, Tuple

from ..kernel import State
from ..replays import Replay, is_refused
from .roles import Kind, Role

Group = FrozenSet[int]  # the numbers of steps


@dataclass(eq=False)
class _Life:
    """A process from its fork on, with the steps that it makes and those that name it."""

    process: int
    steps: Set[int] = field(default_factory=set)
    children: List[_Life] = field(default_factory=list)

    def tree(self) -> List[_Life]:
        """It, and all that it forked."""
        return [self, *(life for child in self.children for life in child.tree())]


def gone_trees(replay: Replay, count: int) -> List[Group]:
    """The steps of each process that is gone after so many steps, and of all that it forked.

    A process is left out where one that it forked is there, or where the one that forked it is
    gone too and has it in its own group. A member of a transaction is there until that ends.
    """
    first, last = _lives(replay, count)
    state = replay.state(count)
    members = (number for txn in state.txns.values() for number in (*txn.open, *txn.ended))
    there = [last[it] for it in (*state.procs, *members)]
    return [
        frozenset().union(*(it.steps for it in life.tree()))
        for root in first
        for life in _topmost_without(root, there)
    ]


def _topmost_without(life: _Life, there: Sequence[_Life]) -> Iterator[_Life]:
    """The topmost lives in whose trees is none of those that are there."""
    if not any(it in there for it in life.tree()):
        yield life
    else:
        for child in life.children:
            yield from _topmost_without(child, there)


def _lives(replay: Replay, count: int) -> Tuple[List[_Life], Dict[int, _Life]]:
    """The lives that begin the recording, and the last of each number after so many steps."""
    last = {it: _Life(it) for it in replay.state(0).procs}
    first = list(last.values())
    for number in range(1, count + 1):
        step = replay.step(number)
        call, *operands = step.words
        if call == "fork" and not is_refused(replay.answer(number)):
            child = last[int(operands[0])] = _Life(int(operands[0]))
            last[step.process].children.append(child)
        named = [step.process]
        if call in ("fork", "waitpid", "kill", "sigqueue"):
            named.append(int(operands[0]))
        for it in named:
            if it in last:
                last[it].steps.add(number)
    return first, last


def gone_pipes(replay: Replay, roles: Sequence[Role], count: int) -> List[Group]:
    """The steps that name each pipe that is gone after so many steps."""
    steps = _by_pipe(roles, count)
    there = _pipes_there(replay, steps, replay.state(count))
    return [frozenset(numbers) for made, numbers in steps.items() if made not in there]


def _by_pipe(roles: Sequence[Role], count: int) -> Dict[int, List[int]]:
    """Of so many steps those that name each pipe; a pipe is known by the step that made it."""
    found: Dict[int, List[int]] = {}
    for number, role in enumerate(roles[:count], 1):
        for made in role.pipes:
            found.setdefault(made, []).append(number)
    return found


def _pipes_there(replay: Replay, steps: Iterable[int], state: State) -> FrozenSet[int]:
    """The last step that made each pipe of a state, of those steps that made pipes."""
    last = {int(replay.step(made).words[1]): made for made in sorted(steps)}
    return frozenset(made for pipe, made in last.items() if pipe in state.pipes)


def transfers(replay: Replay, roles: Sequence[Role], count: int) -> Tuple[List[Group], Group]:
    """The transfers of bytes that are gone after so many steps, pipe by pipe, and all others.

    The bytes of a pipe are gone with the pipe, and those that went through it before it was empty
    last. Without the first, the others leave the same bytes of the same steps in each pipe.
    """
    steps = _by_pipe(roles, count)
    there = _pipes_there(replay, steps, replay.state(count))
    gone: List[Group] = []
    others: Set[int] = set()
    for made, numbers in steps.items():
        moves = [it for it in numbers if _moves_bytes(replay, roles, it)]
        empty = count
        if made in there:
            pipe = int(replay.step(made).words[1])
            empties = (it for it in reversed(moves) if not replay.state(it).pipes.get(pipe))
            empty = next(empties, 0)
        gone.append(frozenset(it for it in moves if it <= empty))
        others.update(it for it in moves if it > empty)
    return gone, frozenset(others)


def _moves_bytes(replay: Replay, roles: Sequence[Role], number: int) -> bool:
    answer = replay.answer(number)
    is_transfer = roles[number - 1].kind is Kind.TRANSFERS
    return is_transfer and answer.startswith("ok ") and int(answer.split()[1]) > 0


def descriptors(replay: Replay, roles: Sequence[Role], count: int) -> List[Group]:
    """Of so many steps those that copy a descriptor, each with the close of the copy."""
    found: List[Set[int]] = []
    last: Dict[Tuple[int, str], Set[int]] = {}  # the group of each copy that is open
    for number, role in enumerate(roles[:count], 1):
        if role.kind in (Kind.FILES, Kind.ENDS):
            step = replay.step(number)
            is_close = step.words[0] == "close"
            descriptor = step.words[1] if is_close else replay.answer(number).split()[-1]
            place = (step.process, descriptor)
            if not is_close or place not in last:
                last[place] = set()
                found.append(last[place])
            last[place].add(number)
            if is_close:
                del last[place]
    return [frozenset(it) for it in found]
