"""The command `txos-record check`: whether the kernel answers a recording as Linux did."""

from __future__ import annotations

import argparse
import errno
import re
import subprocess
import sys
from dataclasses import dataclass
from typing import Dict, List, Optional

from .kernel import find_program
from .recording import ENDED, HEADER, Recording, Step
from .replays import Replay, is_refused, make_of_file
from .wording import counted

_ABOUT = """Makes the steps of a recording, and prints each whose answer is not Linux's. A step that
Linux has no answer for must only be accepted."""
_ERROR = re.compile(r"ok -(\d+)")
# What `txos expect` says of a step with another answer, and at last, where it has judged a text.
_UNMET = re.compile(r"line (\d+): .*, got (.+?)(?: E[A-Z0-9]+)?")
_COUNTS = re.compile(r"\d+ as expected, .*")
_ACCEPTED = "accepted"  # is no answer, so that `txos expect` says what the step is answered


@dataclass(frozen=True)
class Differing:
    """A step, by its number from 1, whose answer is not Linux's."""

    number: int
    step: Step
    answer: str

    def __str__(self) -> str:
        place = f", line {self.step.line} of the log" if self.step.line else ""
        here = f"here {_with_name(self.answer)}"
        return f"step {self.number}{place}: {self.step.text}: {self._linux()}{here}"

    def _linux(self) -> str:
        """What Linux did, where the step says so."""
        if self.step.expected:
            return f"Linux {_with_name(self.step.expected)}, "
        return "Linux did it, " if self.step.line else ""


@dataclass(frozen=True)
class Comparison:
    """How the answers to a recording compare with Linux's."""

    same: int
    uncompared: int
    differing: List[Differing]

    def __str__(self) -> str:
        differ = "differs" if len(self.differing) == 1 else "differ"
        return (
            f"{counted(self.same, 'step')} as Linux, {self.uncompared:,} with nothing to compare, "
            f"{len(self.differing):,} {differ}"
        )


def compare(recording: Recording, program: Optional[str] = None) -> Comparison:
    """Compares what each step is answered with what Linux answered.

    Raises `BadStep` for a step that the program does not read.
    """
    unmet = _unmet_by_expect(recording, program)
    if unmet is None:
        unmet = _unmet_by_shell(recording, program)
    uncompared, differing = 0, []
    for number, answer in unmet.items():
        step = recording.steps[number - 1]
        if step.expected is None and not is_refused(answer):
            uncompared += 1
        elif step.expected != ENDED or not answer.startswith("committed"):
            # In a trial the end of a process may commit a transaction.
            differing.append(Differing(number, step, answer))
    same = len(recording.steps) - uncompared - len(differing)
    return Comparison(same, uncompared, differing)


def _unmet_by_expect(recording: Recording, program: Optional[str]) -> Optional[Dict[int, str]]:
    """What each step is answered, by its number, that is not answered as expected.

    None where `txos expect` can't read the steps; it reads at most 4,096.
    """
    lines = (f"{it.text} # = {it.expected or _ACCEPTED}" for it in recording.steps)
    ran = subprocess.run(
        [find_program(program), "expect"],
        input="".join(f"{it}\n" for it in (HEADER, *lines)).encode("utf-8", "replace"),
        capture_output=True,
        check=False,
    )
    *unmet, counts = ran.stdout.decode("utf-8", "replace").split("\n")[:-1] or [""]
    if not _COUNTS.fullmatch(counts):
        return None
    sys.stderr.write(ran.stderr.decode("utf-8", "replace"))  # that the program is unproved
    found = filter(None, map(_UNMET.fullmatch, unmet))
    return {int(it[1]) - 1: it[2] for it in found}  # the header is line 1


def _unmet_by_shell(recording: Recording, program: Optional[str]) -> Dict[int, str]:
    """The same of any number of steps."""
    with Replay(recording, program) as replay:
        answers = enumerate(zip(recording.steps, replay.answers), 1)
        return {number: answer for number, (it, answer) in answers if it.expected != answer}


def add_command(commands: argparse._SubParsersAction) -> None:
    """Adds the words of `txos-record check`."""
    parser = commands.add_parser(
        "check", help="compare each answer with Linux's", description=_ABOUT
    )
    parser.add_argument("file", metavar="FILE", help="a recording, or - for standard input")
    parser.set_defaults(run=_run)


def _run(args: argparse.Namespace) -> int:
    compared = make_of_file(args.file, compare)
    for it in compared.differing:
        print(it)
    print(compared)
    return 1 if compared.differing else 0


def _with_name(answer: str) -> str:
    """An answer, and the name of its error."""
    error = _ERROR.fullmatch(answer)
    name = errno.errorcode.get(int(error[1])) if error else None
    return f"{answer} ({name})" if name else answer
