"""Where the end of a recording was forced: by ^C, by `timeout`, or by a kill."""

from __future__ import annotations

import re
from dataclasses import dataclass
from typing import Dict, List, Optional, Tuple

from .host.tree import ENDINGS, SIGNALS, spell_signal
from .losses import kill_of
from .recording import READ, WRITE
from .replays import Replay

# By these whoever gets them is to end, so what it does from then on is for its end.
_ENDING = frozenset(SIGNALS[it] for it in ENDINGS)
_FORCING = _ENDING | {SIGNALS["ALRM"]}  # an alarm is how timeout(1) begins
_MORE_THAN_NONE = re.compile("ok [1-9]")


@dataclass(eq=False)
class _Life:
    """A process from its fork on; the steps since which it is to end, and at which it ended."""

    begun: int
    parent: Optional[_Life] = None
    doomed: Optional[int] = None
    ended: Optional[int] = None

    def is_doomed(self, number: int) -> bool:
        """Whether it is to end at a step, or was forked by one that was to end."""
        own = self.doomed is not None and self.doomed <= number
        return own or (self.parent is not None and self.parent.is_doomed(self.begun))


@dataclass(frozen=True)
class _Kill:
    """A step that sends a signal to another process."""

    number: int
    signal: int
    target: _Life

    def ends(self, replay: Replay) -> bool:
        """Whether its target ends of it."""
        ended = self.target.ended
        if ended is None or ended < self.number:
            return False
        words = replay.step(ended).words
        return self.signal in _ENDING or (
            words[0] == "deliver" and words[1] in (str(self.signal), spell_signal(self.signal))
        )


def forced_after(replay: Replay) -> Optional[int]:
    """After how many steps signals began to force the end, or None where nothing forced it.

    These are the first signals after which no process moves bytes, forks or makes a pipe, but
    those that are to end of them. What these do, and who waits for them, is of the end too.
    """
    makers, kills = _look_at(replay)
    made = (it for it in makers if _is_progress(replay, it) and not makers[it].is_doomed(it))
    last = max(made, default=0)
    later = [it for it in kills if it.number > last and (it.signal in _FORCING or it.ends(replay))]
    return later[0].number - 1 if any(it.ends(replay) for it in later) else None


def _look_at(replay: Replay) -> Tuple[Dict[int, _Life], List[_Kill]]:
    """Who makes each step, and which steps send signals to others."""
    lives = {it: _Life(0) for it in replay.state(0).procs}
    makers, kills = {}, []
    for number in range(1, len(replay) + 1):
        step = replay.step(number)
        maker = makers[number] = lives.setdefault(step.process, _Life(number))
        target, signal = kill_of(replay, number) or (step.process, 0)
        if step.words[0] == "fork" and replay.answer(number).startswith("ok"):
            lives[int(step.words[1])] = _Life(number, maker)
        elif replay.is_end(number):
            maker.ended = number
        elif signal and target in lives and target != step.process:
            kills.append(_Kill(number, signal, lives[target]))
            if signal in _ENDING:
                lives[target].doomed = number
    return makers, kills


def _is_progress(replay: Replay, number: int) -> bool:
    """Whether a step forks, makes a pipe, or moves bytes through one."""
    call, answer = replay.step(number).words[0], replay.answer(number)
    if call == "pipe":
        return replay.step(number).line is not None and answer == "ok 0"
    return call in (READ, WRITE, "fork") and bool(_MORE_THAN_NONE.match(answer))
