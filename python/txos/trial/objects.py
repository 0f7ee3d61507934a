"""Names what a process waits for in a trial: processes, pipes, descriptions and signals."""

from __future__ import annotations

import re
from typing import Dict, List

from ..host.tree import spell_signal
from ..kernel import Kernel, State
from ..recording import Step
from .lines import Need, Why
from .lives import Life, Turn

_HAS = re.compile(r"(proc|desc|pipe) (\d+): the transaction of \d+ has it since step (\d+): .*")
_TWO_ANSWERS = re.compile(r"signal \d+ to \d+: it would be answered .*")
_ORDER = ("pipe", "process", "description", "signal")  # which of some objects says most


class Objects:
    """The objects of a kernel; `lives` has who has a number, or had it last."""

    def __init__(self, kernel: Kernel, lives: Dict[int, Life]) -> None:
        self._kernel = kernel
        self._lives = lives

    def needs(self, step: Step) -> List[Need]:
        """What a step that is Busy needs, and the transaction has."""
        state, needs = self._kernel.state(), []
        for line in self._kernel.why(step.text).splitlines():
            has = _HAS.fullmatch(line)
            if has:
                needs.append(Need(self._name(has[1], int(has[2]), state), int(has[3])))
            elif _TWO_ANSWERS.fullmatch(line):
                needs.append(Need(line))
        return sorted(needs, key=lambda it: _ORDER.index(it.name.split()[0]))

    def awaited(self, turn: Turn, why: Why) -> str:
        """What a turn waits for where it is not the transaction."""
        if why is Why.SIGNAL:
            return f"signal {spell_signal(turn.signal or 0)}"
        if why is Why.NUMBER:
            return f"process number {turn.step.words[1]}"
        if turn.target:
            return f"process {turn.target.label}"
        return f"pipe {self.pipe(turn.step)}"

    def pipe(self, step: Step) -> int:
        """The pipe that a read or a write is of."""
        state = self._kernel.state()
        return state.descs[state.procs[step.process].fds[int(step.words[1])]].pipe

    def _name(self, kind: str, number: int, state: State) -> str:
        """An object, with what is known of it."""
        if kind == "pipe":
            return f"pipe {number}"
        if kind == "proc":
            life = self._lives.get(number)
            return f"process {life.label if life else number}"
        side = state.descs.get(number)
        return f"description {number}" + (f" ({side.side}s pipe {side.pipe})" if side else "")
