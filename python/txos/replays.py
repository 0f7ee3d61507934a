"""A recording as the kernel answers it: what each step is answered, and the state after it."""

from __future__ import annotations

import contextlib
import itertools
import sys
from types import TracebackType
from typing import BinaryIO, Callable, List, Optional, Sequence, Type, TypeVar, Union

from .faults import Fault
from .kernel import BadLine, Kernel, Refused, Reply, State, Trial
from .progress import Progress
from .recording import ENDED, HEADER, ROOT, BadRecording, Recording, Step, has_step, read_recording

_REFUSED = "no "
_STANDARD_INPUT = "-"
_Made = TypeVar("_Made")


class BadStep(Fault):
    """The shell does not read a step of a recording; `index` is that of the step, from 0."""

    def __init__(self, index: int, error: BadLine) -> None:
        super().__init__(f"step {index + 1}: {error}")
        self.index = index
        self.told = error.told


class Replay:
    """A recording whose steps a kernel has made; numbers of steps count from 1, as in a report.

    `answers` has what each step is answered, as a report spells it: `ok 3`, `ended`, `no N9`. Use
    a replay in a `with`, or call `close`.
    """

    def __init__(self, recording: Recording, program: Optional[str] = None) -> None:
        """Makes all steps; raises `BadStep` for one that the shell does not read."""
        self.recording = recording
        self.answers: List[str] = []
        self._positions = [0]  # where the kernel is after so many steps, since it counts the made
        with contextlib.ExitStack() as where_it_fails:
            self.kernel = where_it_fails.enter_context(Kernel(ROOT, program))
            with Progress(len(recording.steps), "steps") as progress:
                self._make(recording.steps, progress.advance)
            where_it_fails.pop_all()

    def __enter__(self) -> Replay:
        return self

    def __exit__(
        self,
        kind: Optional[Type[BaseException]],
        error: Optional[BaseException],
        trace: Optional[TracebackType],
    ) -> None:
        self.close()

    def close(self) -> None:
        """Ends the kernel."""
        self.kernel.close()

    def __len__(self) -> int:
        """How many steps there are."""
        return len(self.answers)

    def step(self, number: int) -> Step:
        """The step with a number."""
        return self.recording.steps[number - 1]

    def answer(self, number: int) -> str:
        """What the step with a number is answered."""
        return self.answers[number - 1]

    def is_end(self, number: int) -> bool:
        """Whether the step with a number ends its process, which may commit a transaction too."""
        kind = self.answer(number).split()[0]
        may_end = self.step(number).words[0] in ("exit", "deliver")
        return kind == ENDED or (kind == "committed" and may_end)

    def at(self, count: int) -> Kernel:
        """The kernel, after so many steps."""
        self.kernel.goto(self._positions[count])
        return self.kernel

    def state(self, count: int) -> State:
        """The state after so many steps."""
        return self.at(count).state()

    def try_step(self, count: int, step: Step) -> Trial:
        """What a step would come to after so many steps."""
        return self.at(count).try_step(step.text)

    def _make(self, steps: Sequence[Step], advance: Callable[[], None]) -> None:
        try:
            for answer in self.kernel.make_all(it.text for it in steps):
                self.answers.append(spelled(answer))
                self._positions.append(self._positions[-1] + isinstance(answer, Reply))
                advance()
        except BadLine as error:
            raise BadStep(len(self.answers), error) from error


def replay_file(name: str) -> Replay:
    """The replay of the recording that a file has; raises as `make_of_file` does."""
    return make_of_file(name, Replay)


def make_of_file(name: str, make: Callable[[Recording], _Made]) -> _Made:
    """What is made of the recording that a file has, or standard input where the name is `-`.

    Raises `Fault` where it is no recording, also where `make` raises `BadStep`, and OSError where
    it can't be read.
    """
    text = _read(name)
    try:
        return make(_recording_of(text, name))
    except BadStep as error:
        line = _line_of(error.index, text)
        raise Fault(f"{_shown(name)}: line {line}: {error.told}") from error


def _read(name: str) -> str:
    """A text, or its beginning where that shows that it is no recording, and may never end."""
    if name == _STANDARD_INPUT:
        return _read_all(sys.stdin.buffer)
    with open(name, "rb") as file:
        return _read_all(file)


def _read_all(file: BinaryIO) -> str:
    head = f"{HEADER}\n".encode()
    text = file.read(len(head))
    if text == head:
        text += file.read()
    return text.decode("utf-8", "backslashreplace")


def _recording_of(text: str, name: str) -> Recording:
    try:
        return read_recording(text)
    except BadRecording as error:
        raise Fault(f"{_shown(name)}: {error}") from error


def _shown(name: str) -> str:
    """How a message names a file."""
    return "standard input" if name == _STANDARD_INPUT else name


def _line_of(index: int, text: str) -> int:
    """The number of the line, from 1, that has the step with an index."""
    lines = enumerate(text.split("\n")[1:], 2)
    steps = (number for number, line in lines if has_step(line))
    return next(itertools.islice(steps, index, None))


def spelled(answer: Union[Reply, Refused]) -> str:
    """An answer as a report spells it."""
    return answer.answer if isinstance(answer, Refused) else str(answer)


def is_refused(answer: str) -> bool:
    """Whether an answer, as a report spells it, is that of a step that was refused."""
    return answer.startswith(_REFUSED)
