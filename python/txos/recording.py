"""A recording: what real processes did, as a schedule, with Linux's answer after each step.

Its text is a schedule of version 3, so `txos replay` and the shell read it as it is. What a
recording knows beyond the steps is in comments, of which `read_recording` reads these:

    # recorded: sh -c 'echo hello | tr a-z A-Z'      what was recorded
    # log: 313 lines                                 how long the log is
    # factor: 1                                      how many bytes of Linux are one byte here
    # steps: 62                                      how many steps follow
    # 4 is tr a-z A-Z                                from here on process 4 is this command
    name 4 tr                                        its short name, for the program
    # 4 waits in futex since line 98                 a call that the kernel lacks, and never ended
    2 fork 4  # = ok 4  # 57 clone                   Linux's answer, the log's line and call
    # left out: 12 of read of a file, first at line 7

A step without `# =` has no answer to compare: Linux did it, so it must only be accepted.
"""

from __future__ import annotations

import re
from bisect import bisect_left
from collections import defaultdict
from dataclasses import dataclass, field
from typing import Dict, Iterator, List, Optional

OUTSIDE = 1  # the process that stands for all that were not recorded
ROOT = 2  # the process that was recorded first
# A pipe whose write end stands for whatever is no pipe: files, terminals, sockets.
FILE_PIPE, FILE_READ, FILE_WRITE = 31, 62, 63
FILE_DESCRIPTOR = 15  # the descriptor by which each process keeps that end
ABORT = "kernel"  # the call that a schedule spells `kernel P`: the kernel aborts P's transaction

READ, WRITE = "read", "write"  # the sides of a pipe, and the calls on them
WAITS, ENDED, TRY_AGAIN = "no N9", "ended", "ok -11"  # answers, as a report spells them

HEADER = "txos 3 schedule 2"
_LINE_LIMIT = 512  # bytes of a line that the program takes
_NAME_LIMIT = 16  # bytes of a name that the program takes
_STEP = re.compile(
    r"(?:kernel (?P<starter>\d+)|(?P<process>\d+) (?P<call>[^#\"]*?(?:\"(?:[^\"\\]|\\.)*\")?))"
    r"(?:\s+# = (?P<expected>[^#]+?))?(?:\s+# (?P<line>\d+) (?P<host>[^#]+?))?\s*"
)
_NAMED = re.compile(r"# (\d+) is (.+)")
_NAMING = re.compile(r"name \d+ [A-Za-z0-9._+-]{1,16}\s*(?:#.*)?")  # the comment says more
_LEFT_OUT = re.compile(r"# left out: (\d+) of (.+), first at line (\d+)")
_WAITING = re.compile(r"# (\d+) waits in (\w+) since line (\d+)")
_FIELD = re.compile(r"# (?:(recorded): (.+)|(log|factor|steps): (\d+)(?: .*)?)")
_FIELDS = {"recorded", "log", "factor"}  # which a recording must have
_HOW = "txos-record run and txos-record read make one"


class BadRecording(ValueError):
    """A text is no recording. `line` is the first line at fault, from 1, `fault` what is wrong."""

    def __init__(self, line: int, fault: str) -> None:
        super().__init__(line, fault)
        self.line = line
        self.fault = fault

    def __str__(self) -> str:
        return f"line {self.line}: {self.fault}"


@dataclass(frozen=True)
class Step:
    """A step of a recording.

    `call` is the step without its process, as a schedule spells it. `expected` is what Linux
    answered, as a report spells it (`ok 3`, `ended`, `no N9`), or None where Linux has no answer
    that says more than that it was done. `line` is that of the log, and `host` the call there; a
    step that only sets the kernel up has neither.
    """

    process: int
    call: str
    expected: Optional[str] = None
    line: Optional[int] = None
    host: str = ""

    @property
    def text(self) -> str:
        """The step as a schedule spells it."""
        return f"kernel {self.process}" if self.call == ABORT else f"{self.process} {self.call}"

    @property
    def words(self) -> list[str]:
        """The words of the call."""
        return self.call.split()

    def spelled(self) -> str:
        """The line of the recording that has the step."""
        expected = f"  # = {self.expected}" if self.expected else ""
        host = f"  # {self.line} {self.host}" if self.line else ""
        return f"{self.text}{expected}{host}"


@dataclass(frozen=True)
class Naming:
    """From the step with this index on, from 0, a process is this command."""

    index: int
    process: int
    command: str


@dataclass(frozen=True)
class Waiting:
    """Before the step with this index, from 0, a process begins a call that the kernel lacks.

    Its process ended before the call did, or a signal broke it off.
    """

    index: int
    process: int
    call: str
    line: int


@dataclass
class LeftOut:
    """What the log has and the recording has not: how often, and in which line first."""

    kind: str
    count: int
    line: int


@dataclass
class Recording:
    """The steps of real processes, what these are, and what was left out."""

    command: str
    log_lines: int
    factor: int = 1
    steps: list[Step] = field(default_factory=list)
    names: list[Naming] = field(default_factory=list)
    waiting: list[Waiting] = field(default_factory=list)
    left_out: list[LeftOut] = field(default_factory=list)

    def name(self, process: int, index: Optional[int] = None) -> str:
        """The command that a process is before the step with an index, or at last; or ""."""
        if process == OUTSIDE:
            return "outside"
        named = [
            it.command
            for it in self.names
            if it.process == process and (index is None or it.index <= index)
        ]
        return named[-1] if named else ""

    def label(self, process: int, index: Optional[int] = None) -> str:
        """A process by its number and its short name, such as `4 tr`."""
        short = short_name(self.name(process, index))
        return f"{process} {short}" if short else str(process)

    def processes(self) -> list[int]:
        """The numbers of all recorded processes, in the order in which they begin."""
        return list(dict.fromkeys(it.process for it in self.names))

    def find(self, word: str) -> list[int]:
        """The processes that a word means: a number, or a word of their names."""
        if word.isdecimal():
            return [it for it in self.processes() if it == int(word)]
        return [
            it
            for it in self.processes()
            if any(word in _words_of(n.command) for n in self.names if n.process == it)
        ]

    def text(self) -> str:
        """The recording as a schedule."""
        return "".join(f"{_cut(it)}\n" for it in self._lines())

    def _lines(self) -> Iterator[str]:
        yield HEADER
        yield f"# recorded: {self.command}"
        yield f"# log: {self.log_lines} lines"
        yield f"# factor: {self.factor}"
        yield f"# steps: {len(self.steps)}"
        notes: Dict[int, List[str]] = defaultdict(list)
        for named, name in zip(self.names, self._given_names()):
            notes[named.index].append(f"# {named.process} is {named.command}")
            if name:
                notes[named.index].append(f"name {named.process} {name}")
        for it in self.waiting:
            notes[it.index].append(f"# {it.process} waits in {it.call} since line {it.line}")
        for index, step in enumerate(self.steps):
            yield from notes[index]
            yield step.spelled()
        yield from notes[len(self.steps)]
        for out in self.left_out:
            yield f"# left out: {out.count} of {out.kind}, first at line {out.line}"

    def _given_names(self) -> List[str]:
        """For each of `names` the name that its process ends up with, or "" where it has one.

        A number that is forked again is another process.
        """
        forks: Dict[int, List[int]] = defaultdict(list)
        for index, step in enumerate(self.steps):
            if step.words[0] == "fork" and step.expected in (None, f"ok {step.words[1]}"):
                forks[int(step.words[1])].append(index)
        lives = [(it.process, bisect_left(forks[it.process], it.index)) for it in self.names]
        names = {life: _given_name(it.command) for life, it in zip(lives, self.names)}
        return [names.pop(it, "") for it in lives]


def _words_of(command: str) -> list[str]:
    """The words of a command, each also without its folder and without quotes."""
    words = re.split(r"[\s'\"]+", command)
    return [*words, *(it.rpartition("/")[2] for it in words)]


def short_name(command: str) -> str:
    """The first word of a command, without its folder and its quotes."""
    found = re.match(r"'([^']*)'|\"([^\"]*)\"|(\S+)", command)
    word = next((it for it in found.groups() if it), "") if found else ""
    return word.rpartition("/")[2]


def _given_name(command: str) -> str:
    """The short name of a command, as the program takes it."""
    name = short_name(command).encode("utf-8", "replace")[:_NAME_LIMIT]
    return re.sub(rb"[^A-Za-z0-9._+-]", b"_", name).decode("ascii")


def _cut(line: str) -> str:
    """A line, cut to the bytes that the program takes."""
    cut = line[:_LINE_LIMIT]
    while len(cut.encode("utf-8", "replace")) > _LINE_LIMIT:
        cut = cut[:-1]
    return cut


def has_step(line: str) -> bool:
    """Whether a line of a recording, after the first, is to be a step."""
    return bool(line.strip()) and not line.startswith("#") and not _NAMING.fullmatch(line)


def read_recording(text: str) -> Recording:
    """The recording that a text is; raises `BadRecording` where it is none."""
    lines = text.split("\n")
    if lines[0] != HEADER:
        raise BadRecording(1, f"this is no recording, which begins with `{HEADER}`; {_HOW}")
    if lines[-1]:
        raise BadRecording(len(lines), "the last line has no end, so the recording is cut off")
    made = Recording("", 0)
    fields: Dict[str, str] = {}
    for number, line in enumerate(lines[1:-1], 2):
        _read_line(made, fields, number, line)
    missing = _FIELDS - fields.keys()
    if missing:
        raise BadRecording(1, f"no line begins with `# {min(missing)}: `; {_HOW}")
    made.command = fields["recorded"]
    made.log_lines, made.factor = int(fields["log"]), int(fields["factor"])
    if int(fields.get("steps", len(made.steps))) != len(made.steps):
        counts = f"here are {len(made.steps):,} steps, and the head says {fields['steps']}"
        raise BadRecording(len(lines) - 1, f"{counts}: the recording is cut off, or was edited")
    return made


def _read_line(made: Recording, fields: Dict[str, str], number: int, line: str) -> None:
    """Reads a line after the first."""
    if line.startswith("#"):
        _read_comment(made, fields, line)
        return
    if not has_step(line):
        return
    found = _STEP.fullmatch(line)
    if not found:
        raise BadRecording(number, f"this is no step of a recording: {line[:60]}")
    made.steps.append(
        Step(
            int(found["process"] or found["starter"]),
            found["call"] or ABORT,
            found["expected"],
            int(found["line"]) if found["line"] else None,
            found["host"] or "",
        )
    )


def _read_comment(made: Recording, fields: Dict[str, str], line: str) -> None:
    """Reads a comment that has a line for itself; one that says nothing of these is skipped."""
    named, out, known = _NAMED.fullmatch(line), _LEFT_OUT.fullmatch(line), _FIELD.fullmatch(line)
    waiting = _WAITING.fullmatch(line)
    if waiting:
        process, call, since = int(waiting[1]), waiting[2], int(waiting[3])
        made.waiting.append(Waiting(len(made.steps), process, call, since))
    elif named:
        made.names.append(Naming(len(made.steps), int(named[1]), named[2]))
    elif out:
        made.left_out.append(LeftOut(out[2], int(out[1]), int(out[3])))
    elif known:
        fields.setdefault(known[1] or known[3], known[2] or known[4])
