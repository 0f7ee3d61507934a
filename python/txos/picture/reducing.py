"""Which steps of a recording others need: those without which these are answered otherwise."""

from __future__ import annotations

from typing import Dict, FrozenSet, Iterable, Iterator, List, Sequence, Tuple

from ..kernel import Kernel
from ..progress import Progress
from ..recording import ROOT
from ..replays import Replay, is_refused, spelled
from .groups import Group, descriptors, gone_pipes, gone_trees, transfers
from .roles import Kind, Role, pipes_named


def steps_needed(
    replay: Replay, roles: Sequence[Role], drawn: Sequence[int], first: int, most: int
) -> List[int]:
    """The drawn steps, and others that make their state: they are answered as in the replay.

    What is drawn begins with a step, the first. Other steps go as groups, and then one by one until
    at most so many steps are left, if that can be. Processes that are there have their forks and
    ends, bytes in a pipe are those of the same steps, and what is done to pipes and their ends is
    answered as in the replay too.
    """
    before, last = first - 1, max(drawn, default=0)
    with _Reduction(replay, roles, drawn, last) as reduction:
        gone, others = transfers(replay, roles, before)
        reduction.watch(others)
        reduction.drop(gone)
        reduction.keep(number for group in gone for number in group)
        reduction.drop(gone_trees(replay, before))
        reduction.keep(it for it in range(1, last + 1) if _begins_or_ends(replay, roles, it))
        reduction.drop(gone_pipes(replay, roles, before))
        reduction.drop(_kinds(roles, reduction.free()))
        reduction.drop(descriptors(replay, roles, last))
        # The last first, since what closes a descriptor has to go before what opens it.
        reduction.drop((frozenset([it]) for it in reversed(reduction.free())), most)
        reduction.drop_refused()
        return reduction.made


def _begins_or_ends(replay: Replay, roles: Sequence[Role], number: int) -> bool:
    """Whether a step makes or ends a process, or does what is not known here."""
    is_fork = replay.step(number).words[0] == "fork"
    is_other = roles[number - 1].kind is Kind.OTHERS
    return is_fork or is_other or replay.is_end(number)


def _kinds(roles: Sequence[Role], numbers: Sequence[int]) -> List[Group]:
    """The steps of each kind, of some."""
    return [frozenset(it for it in numbers if roles[it - 1].kind is kind) for kind in Kind]


class _Reduction:
    """Steps that are made, of which more and more go.

    A kernel of its own makes what would be left: what is watched, as is all that is drawn, has to
    be answered as in the replay, and by the same pipes.
    """

    def __init__(
        self, replay: Replay, roles: Sequence[Role], drawn: Sequence[int], last: int
    ) -> None:
        """Made are all steps up to the last."""
        self._replay = replay
        self._roles = roles
        self._watched = self._kept = frozenset(drawn)
        self._kernel = Kernel(ROOT)
        self.made = list(range(1, last + 1))

    def __enter__(self) -> _Reduction:
        return self

    def __exit__(self, *error: object) -> None:
        self._kernel.close()

    def watch(self, numbers: Iterable[int]) -> None:
        """These steps are watched too, and so none of them goes."""
        self._watched |= frozenset(numbers)
        self.keep(self._watched)

    def keep(self, numbers: Iterable[int]) -> None:
        """Of these steps no more go."""
        self._kept |= frozenset(numbers)

    def free(self) -> List[int]:
        """The steps that may go."""
        return [it for it in self.made if it not in self._kept]

    def drop(self, groups: Iterable[Group], most: int = 0) -> None:
        """Lets go of those groups that nobody needs, until at most so many steps are made."""
        made = frozenset(self.made)
        found = [it & made for it in groups if it & made and not it & made & self._kept]
        with Progress(len(found), "groups of steps tried") as progress:
            self._drop(found, most, progress)

    def _drop(self, groups: Sequence[Group], most: int, progress: Progress) -> None:
        """Tries all of them at once, and where that fails, each half."""
        if not groups or len(self.made) <= most:
            return
        gone: FrozenSet[int] = frozenset().union(*groups)
        rest = [it for it in self.made if it not in gone]
        if self._serves(rest):
            self.made = rest
        elif len(groups) > 1:
            middle = len(groups) // 2
            self._drop(groups[:middle], most, progress)
            self._drop(groups[middle:], most, progress)
            return
        progress.advance(len(groups))

    def drop_refused(self) -> None:
        """Lets go of what is refused, and so changes nothing, and is not watched."""
        self.made = [
            number
            for number, _, answer in self._make(self.made)
            if number in self._watched or not is_refused(answer)
        ]

    def _serves(self, numbers: Sequence[int]) -> bool:
        """Whether what is watched is as in the replay if only these steps are made."""
        run = []
        for number, position, answer in self._make(numbers):
            if not self._may_answer(number, answer):
                return False
            run.append((number, position, answer))
        return self._has_same_pipes(run)

    def _may_answer(self, number: int, answer: str) -> bool:
        """Whether a step may be answered so."""
        if answer == self._replay.answer(number):
            return True
        is_of_pipes = self._roles[number - 1].kind in (Kind.PIPES, Kind.ENDS)
        return number not in self._watched and (is_refused(answer) or not is_of_pipes)

    def _make(self, numbers: Sequence[int]) -> Iterator[Tuple[int, int, str]]:
        """Makes steps, and yields each with the kernel's position before it, and its answer."""
        self._kernel.goto(0)
        self._kernel.cut()
        position = 0
        steps = (self._replay.step(it).text for it in numbers)
        for number, answer in zip(numbers, map(spelled, self._kernel.make_all(steps))):
            yield number, position, answer
            position += not is_refused(answer)

    def _has_same_pipes(self, run: Sequence[Tuple[int, int, str]]) -> bool:
        """Whether what is watched names the same pipes as in the replay."""
        made: Dict[int, int] = {}  # the step that made each pipe last
        for number, position, answer in run:
            step, pipes = self._replay.step(number), self._roles[number - 1].pipes
            if step.words[0] == "pipe" and answer == "ok 0":
                made[int(step.words[1])] = number
            elif pipes and number in self._watched:
                self._kernel.goto(position)
                named = pipes_named(self._kernel.state(), step)
                if {made.get(it) for it in named} != pipes:
                    return False
        return True
