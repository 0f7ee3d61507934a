"""Reads what `strace -f -o LOG` wrote: calls with their starts and ends, signals, and ends."""

from __future__ import annotations

import re
from dataclasses import dataclass, field
from typing import Dict, List, Optional, Sequence, Tuple, Union

from ..faults import Fault

# The calls that a recording reads. With `?` a version of strace that lacks one goes on.
TRACED = (
    "execve execveat fork vfork clone clone3 exit exit_group wait4 waitid setpgid setsid "
    "kill tkill tgkill rt_sigqueueinfo rt_tgsigqueueinfo pidfd_send_signal "
    "pipe pipe2 dup dup2 dup3 fcntl ioctl close close_range read readv write writev preadv2 "
    "pwritev2 splice tee vmsplice sendfile open openat openat2 creat socket socketpair accept "
    "accept4 eventfd eventfd2 epoll_create epoll_create1 signalfd signalfd4 timerfd_create "
    "inotify_init inotify_init1 memfd_create pidfd_open pidfd_getfd sendmsg sendmmsg recvmsg "
    "recvmmsg userfaultfd "
    "perf_event_open io_uring_setup open_by_handle_at fanotify_init unshare prctl "
    "rt_sigaction rt_sigprocmask rt_sigpending rt_sigreturn rt_sigsuspend rt_sigtimedwait "
    "ppoll pselect6 epoll_pwait epoll_pwait2 poll select epoll_wait pause nanosleep "
    "clock_nanosleep futex recvfrom connect flock msgrcv semop semtimedop restart_syscall"
).split()
OPTIONS = ("-f", "-s", "64", "-e", "trace=" + ",".join(f"?{it}" for it in TRACED))
HOW = (
    "record it with strace -f -s 64 -e trace=%process,%desc,%signal,%network,setpgid,setsid "
    "-o LOG COMMAND"
)

# Of these each program makes one: its libraries are opened.
_ON_DESCRIPTORS = frozenset("open openat close read write pipe pipe2 dup dup2 fcntl".split())

_TASK = re.compile(r"(\d+) +(.*)")
_CALL = re.compile(r"(\w+)\((.*)\) += (.+)")
_RESUMED = re.compile(r"<\.\.\. (\w+|\?+) resumed>(.*)")
_CUT = re.compile(r" <(unfinished|detached|pid changed to \d+) \.\.\.>$")
_NEVER = re.compile(r"(.*?)\s*<unfinished \.\.\.>\) += \?")
# An answer that is none: strace has read it while SIGKILL ended the process.
_NO_ANSWER = re.compile(r"\)? += (?:\?|-1 \(errno \d{5,}\))$")
_SIGNAL = re.compile(r"--- SIG(\w+) \{(.*)\} ---")
_STOPPED = re.compile(r"--- stopped by SIG\w+ ---")
_EXITED = re.compile(r"\+\+\+ exited with (\d+) \+\+\+")
_KILLED = re.compile(r"\+\+\+ killed by SIG(\w+)(?: \(core dumped\))? \+\+\+")
_SUPERSEDED = re.compile(r"\+\+\+ superseded by execve in pid (\d+) \+\+\+")
_RESULT = re.compile(r"(0x[0-9a-f]+|-?\d+|\?)(?: (E[A-Z0-9_]+))?")
# What other options of strace put where a call or its result is expected.
_OTHER_OPTIONS = (
    (re.compile(r"\d+[:.]\d|\d+ \d+\.\d"), "times: leave -r, -t, -tt and -ttt out"),
    (re.compile(r"\[ *\d+\] "), "numbers of calls: leave -n out"),
    (re.compile(r"\[[0-9a-f]{8,}\] "), "instruction pointers: leave -i out"),
    (re.compile(r" > "), "stacks: leave -k out"),
)


@dataclass(eq=False)
class Call:
    """A call of a task, from the line where it starts to that where it ends.

    `end` is None where it never ends. `result` is None where strace has none (`?`), and `error`
    the name after it. `args` has the words between the parentheses, `more` what
    follows the result.
    """

    task: int
    name: str
    start: int
    args: Tuple[str, ...] = ()
    end: Optional[int] = None
    result: Optional[int] = None
    error: str = ""
    more: str = ""
    # From what comes after it: it waits until its process ends, or a signal comes next.
    never_ends: bool = False
    broken_by: str = ""
    part: Optional[int] = None  # of a write that waits: the bytes that it has written before

    @property
    def waits(self) -> bool:
        """Whether it has waited until its process ended, or a signal broke it off."""
        return self.never_ends or self.is_interrupted

    @property
    def is_interrupted(self) -> bool:
        """Whether a signal came before it did anything."""
        if self.name == "rt_sigreturn":  # it answers what the call has answered that came before
            return False
        return self.error.startswith("ERESTART") or self.error == "EINTR"

    def arg(self, place: int) -> str:
        """An argument, or "" where there is none."""
        return self.args[place] if place < len(self.args) else ""

    def number(self, place: int) -> Optional[int]:
        """An argument as a number, or None where it is none."""
        found = re.match(r"-?\d+$|0x[0-9a-f]+$", self.arg(place))
        return _integer(found[0]) if found else None


@dataclass(frozen=True)
class Begun:
    """A call starts."""

    line: int
    call: Call


@dataclass(frozen=True)
class Done:
    """A call ends."""

    line: int
    call: Call


@dataclass(frozen=True)
class Signal:
    """A task is delivered a signal, whose name is without SIG."""

    line: int
    task: int
    name: str
    sender: Optional[int]


@dataclass(frozen=True)
class End:
    """A task has ended: with a status, or by a signal, whose name is without SIG."""

    line: int
    task: int
    status: Optional[int]
    signal: str = ""


@dataclass(frozen=True)
class Superseded:
    """The first task of a process goes on as another one of its tasks, which executes a program."""

    line: int
    task: int
    by: int


Event = Union[Begun, Done, Signal, End, Superseded]


def _integer(word: str) -> int:
    """A number as strace prints it: decimal, hexadecimal, or octal where it begins with 0."""
    if word.startswith("0x"):
        return int(word, 16)
    return int(word, 8 if re.fullmatch(r"0[0-7]+", word) else 10)


def event_task(event: Event) -> int:
    """The task of which an event is."""
    return event.call.task if isinstance(event, (Begun, Done)) else event.task


def read_log(lines: Sequence[str]) -> List[Event]:
    """The events of a log, by rising lines.

    Raises `Fault`, which names the line, where the log is none, is cut off, or was made with
    options that leave out or add what can't be read.
    """
    reader = _Reader()
    for number, line in enumerate(lines, 1):
        reader.read(number, line)
    return reader.finish(len(lines))


def see_traced(events: Sequence[Event]) -> None:
    """Raises `Fault` where the log of a program has none of the calls that every program makes."""
    names = {it.call.name for it in events if isinstance(it, Begun)}
    if not names & _ON_DESCRIPTORS:
        line = events[-1].line
        raise Fault(f"line {line}: the log ends, and has no call on a descriptor; {HOW}")


def unexplained_signal(events: Sequence[Event]) -> Optional[Signal]:
    """The first signal of a log that has no call on signals, as where these were not traced."""
    names = {it.call.name for it in events if isinstance(it, Begun)}
    if any(it.startswith("rt_sig") for it in names):
        return None
    return next((it for it in events if isinstance(it, Signal)), None)


def split_args(text: str) -> Tuple[str, ...]:
    """The arguments between the parentheses of a call."""
    found, depth, begin, at = [], 0, 0, 0
    while at < len(text):
        byte = text[at]
        if byte == '"':
            at = _after_string(text, at) - 1
        elif byte in "([{":
            depth += 1
        elif byte in ")]}":
            depth -= 1
        elif byte == "," and depth == 0:
            found.append(text[begin:at].strip())
            begin = at + 1
        at += 1
    found.append(text[begin:].strip())
    return tuple(it for it in found if it)


def _after_string(text: str, quote: int) -> int:
    """The place after the string that begins at a quote."""
    at = quote + 1
    while at < len(text) and text[at] != '"':
        at += 2 if text[at] == "\\" else 1
    return at + 1


_ESCAPE = re.compile(rb"\\(x[0-9a-f]{2}|[0-7]{1,3}|.)", re.DOTALL)
_LETTERS = {b"n": b"\n", b"t": b"\t", b"r": b"\r", b"v": b"\v", b"f": b"\f"}


def _unescaped(found: "re.Match[bytes]") -> bytes:
    word = found[1]
    if len(word) == 3 and word[:1] == b"x":
        return bytes([int(word[1:], 16)])
    if word.isdigit():
        return bytes([int(word, 8) & 255])
    return _LETTERS.get(word, word)


def bytes_of(text: str) -> Optional[bytes]:
    """The bytes of a string as strace prints it, or None where it is cut short, or is none."""
    if len(text) < 2 or not (text.startswith('"') and text.endswith('"')):
        return None
    return _ESCAPE.sub(_unescaped, text[1:-1].encode("utf-8", "surrogateescape"))


@dataclass
class _Reader:
    """What was read of a log so far."""

    events: List[Event] = field(default_factory=list)
    begun: Dict[int, Tuple[int, str]] = field(default_factory=dict)
    calls: Dict[int, Call] = field(default_factory=dict)
    live: Dict[int, int] = field(default_factory=dict)  # tasks, with the line that they begin in
    is_detached: bool = False

    def read(self, number: int, line: str) -> None:
        """Reads a line, with its number."""
        if not line.endswith("\n"):
            raise Fault(f"line {number}: the log is cut off in this line")
        found = _TASK.fullmatch(line[:-1])
        if not found:
            raise Fault(f"line {number}: {_not_a_line(line, number)}; {HOW}")
        task, rest = int(found[1]), found[2]
        if not self.events and not rest.startswith("execve("):
            raise Fault(f"line {number}: {_not_the_first(rest)}; {HOW}")
        if not (rest.startswith(("---", "+++")) and self._note(number, task, rest)):
            self.live.setdefault(task, number)
            self._read_call(number, task, rest)

    def finish(self, lines: int) -> List[Event]:
        """The events, where all that began has ended."""
        if not self.events:
            raise Fault(f"line 1: the log is empty; {HOW}")
        if self.live and not self.is_detached:
            task, line = next(iter(self.live.items()))
            raise Fault(
                f"line {lines}: the log is cut off here: process {task}, which begins in line "
                f"{line}, has not ended (or it was made with -qq)"
            )
        return self.events

    def _note(self, number: int, task: int, rest: str) -> bool:
        """Reads a line of a signal or of an end; whether it is one."""
        signal, exited, killed = (it.fullmatch(rest) for it in (_SIGNAL, _EXITED, _KILLED))
        superseded = _SUPERSEDED.fullmatch(rest)
        if signal:
            sender = re.search(r"\bsi_pid=(\d+)", signal[2])
            self.live.setdefault(task, number)
            self.events.append(Signal(number, task, signal[1], int(sender[1]) if sender else None))
        elif exited or killed:
            self.live.pop(task, None)
            self.begun.pop(task, None)
            status = int(exited[1]) if exited else None
            self.events.append(End(number, task, status, killed[1] if killed else ""))
        elif superseded:
            self._supersede(number, task, int(superseded[1]))
        return bool(signal or exited or killed or superseded or _STOPPED.fullmatch(rest))

    def _supersede(self, number: int, task: int, by: int) -> None:
        self.live.pop(by, None)
        if by in self.begun:
            self.begun[task] = self.begun.pop(by)
        if by in self.calls:
            self.calls[task] = self.calls.pop(by)
        if task in self.calls:
            self.calls[task].task = task
        self.events.append(Superseded(number, task, by))

    def _read_call(self, number: int, task: int, rest: str) -> None:
        """Reads a line of a call: one that starts, ends, or both."""
        resumed, start = _RESUMED.fullmatch(rest), number
        if resumed:
            start, head = self.begun.pop(task, (0, ""))
            if not start:
                raise Fault(f"line {number}: {resumed[1]} goes on here, and begins nowhere; {HOW}")
            rest = head + resumed[2]
        elif task in self.begun:
            raise Fault(f"line {number}: process {task} has not ended its last call; {HOW}")
        cut = _CUT.search(rest)
        if cut:
            self.is_detached |= cut[1] == "detached"
            self._begin(task, start, rest[: cut.start()], resumed is None)
            return
        never = _NEVER.fullmatch(rest)
        if never or _NO_ANSWER.search(rest):
            self._begin(task, start, never[1] if never else rest, resumed is None, is_kept=False)
            return
        self._complete(number, task, start, rest, resumed is None)

    def _begin(self, task: int, start: int, head: str, is_new: bool, is_kept: bool = True) -> None:
        """A call starts; where it is not kept, no other line ends it."""
        if is_new:
            name, _, args = head.partition("(")
            if not re.fullmatch(r"\w+|\?+", name):
                raise Fault(f"line {start}: {_not_a_line(head, start)}; {HOW}")
            args = _NO_ANSWER.sub("", args)
            call = self.calls[task] = Call(task, name, start, split_args(args))
            self.events.append(Begun(start, call))
        if is_kept:
            self.begun[task] = (start, head)

    def _complete(self, number: int, task: int, start: int, rest: str, is_new: bool) -> None:
        """A call has ended."""
        found = _CALL.fullmatch(rest)
        result = _RESULT.match(found[3]) if found else None
        if not found or not result:
            raise Fault(f"line {number}: {_not_a_line(rest, number)}; {HOW}")
        if re.search(r"<\d+\.\d+>$", rest):
            raise Fault(f"line {number}: a time ends it: leave -T out; {HOW}")
        if re.match(r"\d+<", found[2]):
            raise Fault(f"line {number}: descriptors have paths: leave -y and -yy out; {HOW}")
        if re.match(r"fcntl\(-?\d+, (0x|\d)", rest):
            raise Fault(f"line {number}: commands are numbers: leave -X out; {HOW}")
        if is_new:
            call = Call(task, found[1], start)
            self.events.append(Begun(start, call))
        else:
            call = self.calls.pop(task)
        call.args, call.end = split_args(found[2]), number
        call.result = None if result[1] == "?" else _integer(result[1])
        call.error, call.more = result[2] or "", found[3][result.end() :]
        self.events.append(Done(number, call))


def _not_a_line(rest: str, number: int) -> str:
    """What is wrong with a line that is none of a log's."""
    found = re.match(r"\d+ +(.*)", rest)
    for pattern, sentence in _OTHER_OPTIONS:
        if pattern.match(found[1] if found else rest):
            return f"this has {sentence}"
    if re.match(r"(\w+\(|---|\+\+\+|\[pid)", rest):
        return "no number of a process begins this line, as with -f and -o"
    return "this is no line of strace"


def _not_the_first(rest: str) -> str:
    """What is wrong with a first line that is not the start of a command."""
    fault = _not_a_line(rest, 1)
    if fault.startswith("this has"):
        return fault
    return "the log does not begin with the execve of a command"
