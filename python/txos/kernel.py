"""Drives `txos shell --json`: a kernel in memory, with transactions, step by step.

    >>> kernel = Kernel(processes=3)
    >>> kernel.step("2 map 0").ret
    0
    >>> print(kernel.step("2 sys_xbegin"), kernel.step('2 store 0 "new"'))
    ok 0 ok 0
    >>> kernel.step("1 waitpid 2 nohang")
    Traceback (most recent call last):
    txos.Refused: 1 waitpid 2 nohang: no N8 2
    >>> print(kernel.try_step("2 sys_xend").reply)
    committed
    >>> kernel.step("2 sys_xabort").status
    201
    >>> kernel.back()  # over the abort
    True
    >>> kernel.state().procs[2].pages[0].bytes[:3]
    b'new'
    >>> kernel.close()

A step is written as in a schedule (docs/TEXTS.md), what is asked besides as in the shell
(docs/SHELL.md). Each line is answered before the next one is written, or, in `make_all`, before
more are written than a pipe holds, and an answer is one line: so there is no thread here, and
neither side waits for the other. A `Kernel` is for one thread.
"""

from __future__ import annotations

import contextlib
import json
import os
import re
import shutil
import subprocess
import sys
import tempfile
from dataclasses import dataclass, field
from pathlib import Path
from typing import IO, Any, Dict, Iterable, Iterator, Sequence

_Bytes = bytes  # for classes with a field that is called `bytes`


class TxosError(Exception):
    """What all errors of this module are."""


class NoProgram(TxosError, FileNotFoundError):
    """The program is not found, or can't be started."""


class Refused(TxosError):
    """The kernel refused a step, which changed nothing.

    `step` is its line, `code` the reason, N1 to N14: `Kernel.explain` says what it means, and
    `Kernel.why` what is in the way. `holder` is the process whose transaction is in the way where
    the code is N8, and else None.
    """

    def __init__(self, step: str, code: str, holder: int | None = None) -> None:
        super().__init__(step, code, holder)
        self.step = step
        self.code = code
        self.holder = holder

    @property
    def answer(self) -> str:
        """The refusal as a report spells it, such as `no N8 2`."""
        return f"no {self.code}" + (f" {self.holder}" if self.holder else "")

    def __str__(self) -> str:
        return f"{self.step}: {self.answer}"


class StepsAhead(TxosError):
    """A step was to be made where steps that were taken back are ahead.

    `Kernel.cut` drops them, `Kernel.forward` and `Kernel.goto_end` make them again.
    """


class BadLine(TxosError, ValueError):
    """A line is not understood, and changed nothing.

    `line` is what was sent, `told` what is wrong with it, and `column` where, in bytes from 1, or
    None where that is not said.
    """

    def __init__(self, line: str, told: str, column: int | None = None) -> None:
        super().__init__(line, told, column)
        self.line = line
        self.told = told
        self.column = column

    def __str__(self) -> str:
        place = f", column {self.column}" if self.column else ""
        return f"{self.line!r}{place}: {self.told}"


class ShellEnded(TxosError):
    """The program has ended, so a line has no answer.

    `status` is its exit status, or, negative, the signal that ended it. `fault` is what it said
    last on its standard error, such as "txos: F6", or "".
    """

    def __init__(self, status: int, fault: str = "") -> None:
        super().__init__(status, fault)
        self.status = status
        self.fault = fault

    def __str__(self) -> str:
        return f"txos ended with status {self.status}" + (f": {self.fault}" if self.fault else "")


@dataclass(frozen=True)
class Undelivered:
    """A send of a commit that failed: to which process, of which signal, with which error."""

    target: int
    signo: int
    errno: int

    def __str__(self) -> str:
        return f"{self.target}:{self.signo}:{self.errno}"


@dataclass(frozen=True)
class Reply:
    """What an accepted step was answered; `str` spells it as a report does: `ok 0`.

    `kind` is "ok", with the answer `ret`, of which a POSIX error is the negative number and has
    its name in `error`, such as "EBADF"; "ended"; "committed", with the sends that failed;
    "aborted", with the `status`, 201 to 203; or "out", with the `bytes` that went to the console.
    `number` is that of the step, from 1, or None where the step was only tried.
    """

    kind: str
    number: int | None = None
    ret: int | None = None
    status: int | None = None
    bytes: _Bytes | None = None
    undelivered: tuple[Undelivered, ...] = ()
    error: str | None = field(default=None, compare=False)  # `ret` says which

    def __str__(self) -> str:
        if self.kind == "ok":
            return f"ok {self.ret}"
        if self.kind == "aborted":
            return f"aborted {self.status}"
        if self.bytes is not None:
            return f"out {self.bytes.hex() or '-'}"
        return " ".join([self.kind, *map(str, self.undelivered)])


@dataclass(frozen=True)
class Difference:
    """How the text of a state would differ: the lines that go, and those that come."""

    gone: tuple[str, ...]
    come: tuple[str, ...]


@dataclass(frozen=True)
class Trial(Difference):
    """What a step would come to: `reply`, or where it is None the refusal, which is not raised."""

    reply: Reply | None
    refused: Refused | None


# In what follows `names` has the names that were given by `Kernel.name`, by their processes.


@dataclass(frozen=True)
class Found(Difference):
    """The step that changed a piece of the state, and by which lines the piece differs."""

    number: int
    step: str
    names: dict[int, str] = field(default_factory=dict)


@dataclass(frozen=True)
class Made:
    """A step that was accepted."""

    number: int
    step: str
    reply: Reply


@dataclass(frozen=True)
class Moved:
    """A transaction as if all of it were done at its commit: whether it counts as one moment."""

    one: bool
    steps: tuple[int, ...]  # the numbers of all steps, in their order then


@dataclass(frozen=True)
class Owned:
    """The numbers of what a transaction has reserved."""

    procs: tuple[int, ...]
    descs: tuple[int, ...]
    pipes: tuple[int, ...]


class Owns(Dict[int, Owned]):
    """What each live transaction has reserved, by the process that began it."""

    def __init__(self, owned: dict[int, Owned], names: dict[int, str] | None = None) -> None:
        super().__init__(owned)
        self.names = names or {}


class Why(str):
    """Why a step is answered as it is, as a text to be read."""

    names: dict[int, str]

    def __new__(cls, text: str, names: dict[int, str] | None = None) -> Why:
        made = super().__new__(cls, text)
        made.names = names or {}
        return made


@dataclass(frozen=True)
class PipeHolders:
    """Who has the sides of a pipe open: the descriptors of each process."""

    readers: dict[int, tuple[int, ...]]
    writers: dict[int, tuple[int, ...]]
    names: dict[int, str] = field(default_factory=dict)


@dataclass(frozen=True)
class DescHolders:
    """Which side of which pipe a description is, "read" or "write", and who has it open."""

    pipe: int
    side: str
    holders: dict[int, tuple[int, ...]]
    names: dict[int, str] = field(default_factory=dict)


# A state is made of light classes, and not of the objects that were read: a piece is found by its
# number (`state.procs[2].pages[0]`), bytes are bytes, an editor knows the names, and `==` compares
# whole states. `Kernel.ask("state")` has the objects.


@dataclass(frozen=True)
class Page:
    """A page that is mapped, with its 64 bytes."""

    writable: bool
    bytes: _Bytes


@dataclass(frozen=True)
class Ids:
    """The ids of a process, of users or of groups."""

    real: int
    effective: int
    saved: int


@dataclass(frozen=True)
class Action:
    """What a signal does, where that is not the usual: "ignore", or "catch" at a point."""

    kind: str
    point: int | None = None
    mask: tuple[int, ...] = ()


@dataclass(frozen=True)
class Queued:
    """A realtime signal that is pending, and its value."""

    signo: int
    value: int


@dataclass(frozen=True)
class Frame:
    """What a caught signal has saved."""

    point: int
    ret: int
    mask: tuple[int, ...]
    slots: tuple[int, ...]


@dataclass(frozen=True)
class Process:
    """A process. Signals of a set rise, a queue begins with its next one, frames grow newer."""

    pid: int
    parent: int
    exit: int | None  # the status with which it exited
    killed: int | None  # the signal that ended it
    point: int
    ret: int
    slots: tuple[int, ...]
    users: Ids
    groups: Ids
    pages: dict[int, Page]
    fds: dict[int, int]  # the description of each open descriptor
    mask: tuple[int, ...]
    actions: dict[int, Action]
    pending: tuple[int, ...]
    queued: tuple[Queued, ...]
    frames: tuple[Frame, ...]

    @property
    def running(self) -> bool:
        """Whether it has not ended."""
        return self.exit is None and self.killed is None


@dataclass(frozen=True)
class Description:
    """One side of a pipe: "read" or "write"."""

    pipe: int
    side: str
    nonblock: bool


@dataclass(frozen=True)
class Held:
    """A send that a transaction holds until it commits."""

    target: int
    signo: int
    value: int


@dataclass(frozen=True)
class Transaction:
    """A live transaction: its members whose part is open, and has ended, and what it holds."""

    defers: bool
    open: tuple[int, ...]
    ended: tuple[int, ...]
    held: tuple[Held, ...]


@dataclass(frozen=True)
class State:
    """A state: each part by its number, a transaction by that of the process that began it."""

    procs: dict[int, Process]
    descs: dict[int, Description]
    pipes: dict[int, bytes]
    txns: dict[int, Transaction]


# How many bytes of lines are written ahead of their answers: no pipe holds fewer, so that writing
# them never waits for a program that itself waits until its answers are read.
_MOST_AHEAD = 4096


class Kernel:
    """A kernel that begins with so many processes, 1 to 256, in a program of its own.

    `program` is as in `find_program`, and raises `NoProgram` where it can't be started. Use a
    kernel in a `with`, or call `close`. What raises `Refused`, `StepsAhead` or `BadLine` has
    changed nothing; after `ShellEnded` the kernel is closed.

    The script `txos` of a checkout may have to build its program first, for a minute or two.
    """

    def __init__(self, processes: int = 2, program: str | os.PathLike[str] | None = None) -> None:
        found = find_program(program)
        self._position = 0
        self._closed = False
        self._fault = ""
        with contextlib.ExitStack() as where_it_fails:
            # A file, since a pipe that is not read fills up.
            self._errors = where_it_fails.enter_context(tempfile.TemporaryFile())
            self._process = _start_shell(found, self._errors)
            assert self._process.stdin and self._process.stdout
            self._input, self._output = self._process.stdin, self._process.stdout
            where_it_fails.callback(self.close)
            self.ask(f"txos 3 schedule {processes}")
            where_it_fails.pop_all()
        # What is reported before the first answer is no fault, but that the program is unproved.
        sys.stderr.write(self._reported())

    def __enter__(self) -> Kernel:
        return self

    def __exit__(self, *error: object) -> None:
        self.close()

    def close(self) -> None:
        """Ends the program, and waits until it has ended; does nothing the second time."""
        if self._closed:
            return
        self._closed = True
        with contextlib.suppress(OSError):
            self._input.close()  # the end of its input ends the program
        self._output.close()
        try:
            self._process.wait(timeout=10)
        except subprocess.TimeoutExpired:
            self._process.kill()
            self._process.wait()
        self._fault = (self._reported().splitlines() or [""])[-1]
        self._errors.close()

    @property
    def position(self) -> int:
        """How many steps are made; those that were taken back do not count."""
        return self._position

    def step(self, line: str) -> Reply:
        """Makes a step, such as `2 store 0 41`; raises `Refused`, `StepsAhead` or `BadLine`."""
        _demand_step(line)
        answer = self.ask(line)
        refused = _read_refusal(line, answer)
        if refused:
            raise refused
        return _read_reply(answer)

    def make_all(self, lines: Iterable[str]) -> Iterator[Reply | Refused]:
        """Makes steps in order, and yields what each is answered; a refusal is not raised.

        It is faster than `step` by far, since some lines are sent before the first of them is
        answered. So where it raises `StepsAhead` or `BadLine`, or is left early, a few steps
        after that one may be made too.
        """
        for some in _split(lines):
            for line in some:
                _demand_step(line)
            answers = self._exchange([_encode(it) for it in some])
            for line, answer in zip(some, answers):
                _demand_answer(line, answer)
                yield _read_refusal(line, answer) or _read_reply(answer)

    def back(self) -> bool:
        """Takes the newest step back that is made; False where none is."""
        return self._lines("back") != ["no start"]

    def forward(self) -> bool:
        """Makes the next step again; False where all are made."""
        return self._lines("forward") != ["no end"]

    def goto(self, position: int) -> None:
        """Goes to the place after so many steps; raises IndexError where there are fewer."""
        if self._lines(f"goto {position}") == ["no place"]:
            raise IndexError(f"there is no position {position}")

    def goto_end(self) -> None:
        """Goes to the place after all steps."""
        self._lines("goto end")

    def cut(self) -> None:
        """Drops the steps after the position."""
        self.ask("cut")

    def name(self, process: int, name: str) -> None:
        """Gives a process a name of 1 to 16 letters, digits, `.`, `_`, `+` and `-`; it is no step.

        What answers about processes has it in `names`. Raises `BadLine` where it is no such name.
        """
        self.ask(f"name {process} {name}")

    def state(self) -> State:
        """The state at the position."""
        return _read_state(self.ask("state")["state"])

    def try_step(self, line: str) -> Trial:
        """What a step would come to at the position, also where steps are ahead; makes none."""
        answer = self.ask(f"try {line}")
        refused = _read_refusal(line, answer)
        reply = None if refused else _read_reply(answer)
        return Trial(*_read_sides(answer["lines"]), reply, refused)

    def diff(self, first: int, last: int) -> Difference:
        """How the state at a position differs from that at the first one, and stays.

        Raises IndexError where there is no such position.
        """
        lines = self._lines(f"diff {first} {last}")
        if lines == ["no place"]:
            raise IndexError(f"there are no positions {first} and {last}")
        return Difference(*_read_sides(lines))

    def without(self, starter: int) -> Difference | None:
        """How the state would differ if the kernel aborted the transaction that a process began.

        None where that process has begun none that is live.
        """
        lines = self._lines(f"without {starter}")
        return None if lines == ["no transaction"] else Difference(*_read_sides(lines))

    def why(self, line: str | None = None) -> Why:
        """Why a step would be refused, as a text to be read, or else what it would be answered.

        Without a line it is the step that was refused last.
        """
        answer = self.ask(f"why {line}" if line else "why")
        return Why("\n".join(answer["lines"]), _read_names(answer))

    def owns(self) -> Owns:
        """What each live transaction has reserved, by the process that began it."""
        answer = self.ask("owns")
        owned = {it["starter"]: _read_owned(it) for it in answer["owners"]}
        return Owns(owned, _read_names(answer))

    def holds_pipe(self, number: int) -> PipeHolders | None:
        """Who has the sides of a pipe open; None where there is no such pipe."""
        answer = self.ask(f"holds pipe {number}")
        if answer["readers"] is None:
            return None
        sides = (_read_holders(answer[it]) for it in ("readers", "writers"))
        return PipeHolders(*sides, _read_names(answer))

    def holds_desc(self, number: int) -> DescHolders | None:
        """Who has a description open; None where there is no such description."""
        answer = self.ask(f"holds desc {number}")
        if answer["holders"] is None:
            return None
        holders = _read_holders(answer["holders"])
        return DescHolders(answer["pipe"], answer["side"], holders, _read_names(answer))

    def when(self, piece: str) -> Found | None:
        """Goes back to after the step that changed a piece of the state last, as `page 2 0`.

        None, and the start, where none did.
        """
        return self._find(f"when {piece}")

    def next(self, piece: str) -> Found | None:
        """Goes on to after the step that changes a piece next; None, and the end, if none does."""
        return self._find(f"next {piece}")

    def steps(self) -> list[Made]:
        """All steps, those too that were taken back."""
        found = (re.fullmatch(r"(\d+) w\d+ (.*) : (.*)", it) for it in self._lines("steps"))
        return [Made(int(it[1]), it[2], _reply_of_text(it[3], int(it[1]))) for it in found if it]

    def moved(self, number: int) -> Moved | None:
        """The history as if the transaction that a step commits were done at that step.

        None where that step commits none.
        """
        answer = self.ask(f"moved {number}")
        steps = answer["entries"]
        return None if steps is None else Moved(answer["one_moment"], tuple(steps))

    def schedule(self) -> str:
        """The text of a schedule with the steps up to the position, for `txos replay`."""
        return "".join(f"{it}\n" for it in self._lines("text"))

    def explain(self, word: str) -> str:
        """What a word of a step, a reply or a state means, such as `N8`, as a text to be read.

        Raises `BadLine` where it is not explained.
        """
        lines = self._lines(f"help {word}")
        if lines[0].startswith("? "):
            raise BadLine(f"help {word}", lines[0][2:])
        return "\n".join(lines)

    def ask(self, line: str) -> dict[str, Any]:
        """The answer to any line of the shell, as the object that was read.

        A refusal is in it, and not raised; the other errors are.
        """
        [answer] = self._exchange([_encode(line)])
        _demand_answer(line, answer)
        return answer

    def _lines(self, line: str) -> list[str]:
        return self.ask(line)["lines"]

    def _find(self, line: str) -> Found | None:
        answer = self.ask(line)
        made = answer["change"]
        if made is None:
            return None
        sides = _read_sides(answer["lines"])
        return Found(*sides, made["step"], made["text"], _read_names(answer))

    def _exchange(self, lines: Sequence[bytes]) -> list[dict[str, Any]]:
        """Writes lines, and reads those that answer them."""
        answers = []
        if not self._closed:
            try:
                with contextlib.suppress(BrokenPipeError):  # it has ended: there is no answer
                    self._input.write(b"".join(lines))
                    self._input.flush()
                answers = [self._output.readline() for _ in lines]
            except BaseException:
                self.close()  # an answer that was not read would be taken for the next line's
                raise
        if len(answers) < len(lines) or not all(it.endswith(b"\n") for it in answers):
            self.close()
            raise ShellEnded(self._process.returncode, self._fault)
        objects = [json.loads(it.decode("utf-8", "surrogateescape")) for it in answers]
        for it in objects:
            self._position = it.get("step", it.get("at", self._position))
        return objects

    def _reported(self) -> str:
        """What the program has written to its standard error."""
        # The place in the file is the program's too, so it is not moved.
        return os.pread(self._errors.fileno(), 1 << 16, 0).decode("utf-8", "replace")


def find_program(program: str | os.PathLike[str] | None = None) -> str:
    """The path of the program: the one that is named, or else that of the variable TXOS.

    Where neither is given, it is the script `txos` of the checkout that this module is in, or the
    program that is installed with this module, or `txos` on the PATH. Raises `NoProgram` where
    none of these is there, or where the one that is named can't be run.
    """
    named = program or os.environ.get("TXOS")
    if named:
        found = shutil.which(os.fspath(named))
        if not found:
            raise NoProgram(f"{os.fspath(named)} is not a program that can be run")
        return found
    for place in [*_places_beside(Path(__file__).resolve().parent), "txos"]:
        found = shutil.which(place)
        if found:
            return found
    raise NoProgram("the program txos is not found: set TXOS to its path, or put it on the PATH")


def _places_beside(package: Path) -> Iterator[str]:
    """Where the program is, if the package is in a checkout, or installed together with it."""
    above = list(package.parents)
    if len(above) > 1 and (above[1] / "crates.txt").is_file():
        yield str(above[1] / "txos")
    if len(above) > 3 and above[2].name == "lib":  # PREFIX/lib/python3/dist-packages/txos
        yield str(above[3] / "bin" / "txos")


def _start_shell(program: str, errors: IO[bytes]) -> subprocess.Popen[bytes]:
    """Starts a shell that answers by lines of JSON."""
    try:
        return subprocess.Popen(
            [program, "shell", "--json"],
            stdin=subprocess.PIPE,
            stdout=subprocess.PIPE,
            stderr=errors,
            start_new_session=True,  # so that a ^C at a prompt of Python does not end it
        )
    except OSError as error:
        raise NoProgram(f"{program} can't be started: {error.strerror}") from error


def _demand_step(line: str) -> None:
    """Raises `BadLine` where a line can't be a step, but may be a command."""
    if not re.match(r"[ \t]*(\d|kernel\b)", line):
        raise BadLine(line, "a step begins with the number of a process, or with kernel", 1)


def _demand_answer(line: str, answer: dict[str, Any]) -> None:
    """Raises what is wrong with a line; beside a reply, `error` is only the name of its number."""
    if "error" in answer and "reply" not in answer:
        raise _error_of(line, answer["error"])


def _split(lines: Iterable[str]) -> Iterator[list[str]]:
    """Parts lines into lists, each as long as may be sent ahead."""
    part: list[str] = []
    size = 0
    for line in lines:
        length = len(_encode(line))
        if size + length > _MOST_AHEAD:
            yield part
            part, size = [], 0
        part.append(line)
        size += length
    yield part


def _encode(line: str) -> bytes:
    if "\n" in line:
        raise BadLine(line, "this is more than one line")
    return line.encode("utf-8", "surrogateescape") + b"\n"


def _error_of(line: str, fault: str) -> TxosError:
    if fault.startswith("steps are ahead"):
        return StepsAhead(fault)
    place = re.match(r"column (\d+): ", fault)
    return BadLine(line, fault[place.end() :], int(place[1])) if place else BadLine(line, fault)


def _read_refusal(line: str, answer: dict[str, Any]) -> Refused | None:
    return Refused(line, answer["refused"], answer.get("holder")) if "refused" in answer else None


def _read_reply(answer: dict[str, Any]) -> Reply:
    return Reply(
        kind=answer["reply"],
        number=answer.get("step"),
        ret=answer.get("ret"),
        status=answer.get("status"),
        bytes=bytes.fromhex(answer["bytes"]) if "bytes" in answer else None,
        undelivered=tuple(Undelivered(**it) for it in answer.get("undelivered", ())),
        error=answer.get("error"),
    )


def _reply_of_text(text: str, number: int) -> Reply:
    """The reply that a text spells."""
    kind, *words = text.split()
    if kind == "ok":
        return Reply(kind, number, ret=int(words[0]), error=words[1] if words[1:] else None)
    if kind == "aborted":
        return Reply(kind, number, status=int(words[0]))
    if kind == "out":
        return Reply(kind, number, bytes=bytes.fromhex(words[0].strip("-")))
    failed = (Undelivered(*map(int, it.split(":"))) for it in words)
    return Reply(kind, number, undelivered=tuple(failed))


def _read_sides(lines: list[str]) -> tuple[tuple[str, ...], tuple[str, ...]]:
    gone = tuple(it[2:] for it in lines if it.startswith("- "))
    come = tuple(it[2:] for it in lines if it.startswith("+ "))
    return gone, come


def _read_owned(it: dict[str, Any]) -> Owned:
    return Owned(*(tuple(it[part]) for part in ("procs", "descs", "pipes")))


def _read_names(answer: dict[str, Any]) -> dict[int, str]:
    return {it["process"]: it["name"] for it in answer.get("names", ())}


def _read_holders(items: list[dict[str, int]]) -> dict[int, tuple[int, ...]]:
    found: dict[int, tuple[int, ...]] = {}
    for it in items:
        found[it["process"]] = (*found.get(it["process"], ()), it["descriptor"])
    return found


def _read_page(it: dict[str, Any]) -> Page:
    return Page(it["writable"], bytes.fromhex(it["bytes"]))


def _read_action(it: dict[str, Any]) -> Action:
    return Action(it["action"], it.get("point"), tuple(it.get("mask", ())))


def _read_frame(it: dict[str, Any]) -> Frame:
    return Frame(it["point"], it["ret"], tuple(it["mask"]), tuple(it["slots"]))


def _read_process(it: dict[str, Any]) -> Process:
    return Process(
        pid=it["pid"],
        parent=it["parent"],
        exit=it.get("exit"),
        killed=it.get("killed"),
        point=it["point"],
        ret=it["ret"],
        slots=tuple(it["slots"]),
        users=Ids(*it["users"]),
        groups=Ids(*it["groups"]),
        pages={page["page"]: _read_page(page) for page in it["pages"]},
        fds={fd["fd"]: fd["desc"] for fd in it["fds"]},
        mask=tuple(it["mask"]),
        actions={action["signo"]: _read_action(action) for action in it["actions"]},
        pending=tuple(it["pending"]),
        queued=tuple(Queued(entry["signo"], entry["value"]) for entry in it["queued"]),
        frames=tuple(_read_frame(frame) for frame in it["frames"]),
    )


def _read_description(it: dict[str, Any]) -> Description:
    return Description(it["pipe"], it["side"], it["nonblock"])


def _read_transaction(it: dict[str, Any]) -> Transaction:
    held = tuple(Held(send["target"], send["signo"], send["value"]) for send in it["held"])
    return Transaction(it["defers"], tuple(it["open"]), tuple(it["ended"]), held)


def _read_state(parts: dict[str, Any]) -> State:
    return State(
        procs={it["pid"]: _read_process(it) for it in parts["procs"]},
        descs={it["desc"]: _read_description(it) for it in parts["descs"]},
        pipes={it["pipe"]: bytes.fromhex(it["bytes"]) for it in parts["pipes"]},
        txns={it["txn"]: _read_transaction(it) for it in parts["txns"]},
    )
