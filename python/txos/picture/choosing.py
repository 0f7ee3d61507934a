"""Which steps of a recording a picture has: all, a part that is asked for, or what fits."""

from __future__ import annotations

import itertools
from collections import Counter
from dataclasses import dataclass
from typing import Collection, List, Optional, Sequence, Tuple

from ..faults import Fault
from ..replays import Replay
from ..wording import counted
from .drawing import MOST_STEPS
from .reducing import steps_needed
from .roles import Kind, Role, find_roles

# What takes no part in what processes do with one another.
IDLE = frozenset(
    (
        Kind.SETUP,
        Kind.FILES,
        Kind.MASKS,
        Kind.ACTIONS,
        Kind.MEMORY,
        Kind.FLAGS,
        Kind.OUTSIDE_WAITS,
    )
)
# Of a recording that is too long: what is drawn, and what besides where that needs it.
MAIN = frozenset((Kind.PROCESSES, Kind.TRANSFERS, Kind.SIGNALS, Kind.OTHERS))
NEEDED = frozenset((Kind.PIPES, Kind.ENDS))
PARTAKING = frozenset(Kind) - IDLE


@dataclass(frozen=True)
class Part:
    """The steps that are asked for, from one to another; if whole, the idle ones too."""

    first: int
    last: int
    is_whole: bool


@dataclass(frozen=True)
class Choice:
    """Which steps have a row, and which are made, by their numbers; and what is said of that."""

    shown: List[int]
    made: List[int]
    about: List[str]


def part_of(replay: Replay, first: Optional[int], last: Optional[int], is_whole: bool) -> Part:
    """The part that words ask for; raises `Fault` where there is none."""
    count = len(replay)
    for name, number in (("--from", first), ("--to", last)):
        if number is not None and not 1 <= number <= count:
            raise Fault(f"{name} {number}: the recording has the steps 1 to {count:,}")
    part = Part(first or 1, last or count, is_whole)
    if part.first > part.last and count:
        raise Fault(f"--from {part.first} comes after --to {part.last}")
    return part


def choose_part(replay: Replay, part: Part) -> Choice:
    """The choice that draws a part; raises `Fault` where that is too long."""
    kinds = frozenset(Kind) if part.is_whole else PARTAKING
    roles = _roles_of(replay, part, kinds)
    wanted = [it for it in range(part.first, len(roles) + 1) if roles[it - 1].kind in kinds]
    if not wanted:
        raise Fault(f"{_span(part)} have nothing to draw but with --whole")
    made, fits = _made_for(replay, roles, wanted, part.first, MOST_STEPS)
    if not fits:
        raise Fault(_too_long(part, wanted, made))
    return _choice(replay, roles, wanted, made, part)


def choose(replay: Replay) -> Choice:
    """The choice that draws as much of a recording as fits, and first what takes part."""
    whole = Part(1, len(replay), False)
    roles = _roles_of(replay, whole, MAIN)
    numbers = range(1, len(roles) + 1)
    partaking = [it for it in numbers if roles[it - 1].kind in PARTAKING]
    if len(replay) <= MOST_STEPS:
        return _choice(replay, roles, partaking, list(numbers), whole)
    if len(partaking) <= MOST_STEPS:
        made, fits = _made_for(replay, roles, partaking, 1, MOST_STEPS)
        if fits:
            return _choice(replay, roles, partaking, made, whole)
    return _choose_main(replay, roles)


def _roles_of(replay: Replay, part: Part, kinds: Collection[Kind]) -> List[Role]:
    """The roles of the steps up to the end of a part, or until more of some kinds than fit.

    A role takes a look at a state, so those of a long recording take long.
    """
    roles: List[Role] = []
    count = 0
    for role in itertools.islice(find_roles(replay), part.last):
        roles.append(role)
        count += len(roles) >= part.first and role.kind in kinds
        if count > MOST_STEPS:
            break
    return roles


def _choose_main(replay: Replay, roles: Sequence[Role]) -> Choice:
    """The choice of what is drawn of a long recording, with what that needs; or the first of it."""
    main = [it for it in range(1, len(roles) + 1) if roles[it - 1].kind in MAIN]
    made, fits = _made_for(replay, roles, main, 1, 0)  # what is shown besides has to be needed
    made = made[:MOST_STEPS]
    shown = [it for it in made if roles[it - 1].kind in MAIN | NEEDED]
    return _choice(replay, roles, shown, made, Part(1, len(replay) if fits else shown[-1], False))


def _made_for(
    replay: Replay,
    roles: Sequence[Role],
    wanted: Sequence[int],
    first: int,
    most: int,
) -> Tuple[List[int], bool]:
    """The steps that are made to draw some, or the first of them; and whether there is room."""
    if wanted[-1] <= MOST_STEPS:  # the program makes all before them, and draws none of these
        return list(range(1, wanted[-1] + 1)), True
    made = steps_needed(replay, roles, wanted[:MOST_STEPS], first, most)
    return made, max(len(wanted), len(made)) <= MOST_STEPS


def _too_long(part: Part, wanted: Sequence[int], made: Sequence[int]) -> str:
    """What is said of a part that is too long."""
    fitting = sorted(set(made[:MOST_STEPS]) & set(wanted))
    earlier = sum(it < part.first for it in made)
    need = f"{_span(part)} need more than the {MOST_STEPS} steps that a picture has"
    if not fitting:
        return f"{need}: {earlier:,} earlier ones make the state that step {part.first} begins with"
    return f"{need}; --from {part.first} --to {fitting[-1]} fits"


def _span(part: Part) -> str:
    return f"the steps {part.first} to {part.last}"


def _choice(
    replay: Replay, roles: Sequence[Role], shown: Sequence[int], made: Sequence[int], part: Part
) -> Choice:
    """A choice, with what is said of it."""
    about = [f"Steps {part.first:,} to {part.last:,} of {len(replay):,}."]
    if not len(replay):
        about = ["No step."]
    left_out = set(range(part.first, part.last + 1)) - set(shown)
    if left_out:
        kinds = Counter(roles[it - 1].kind for it in sorted(left_out))
        parts = ", ".join(counted(count, kind.value) for kind, count in kinds.most_common())
        about.append(f"Left out: {parts}.")
    if part.last < len(replay):
        about.append(f"What follows is drawn by --from {part.last + 1} --to STEP.")
    earlier = sum(it < part.first for it in made)
    if earlier and earlier < part.first - 1:
        about.append(f"{earlier:,} earlier steps make the state that these begin with.")
    return Choice(list(shown), list(made), about)
