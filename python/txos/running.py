"""The command `txos-record run`: runs a command under strace, and records it."""

from __future__ import annotations

import argparse
import os
import re
import shutil
import signal
import subprocess
import sys
import tempfile
import threading
from contextlib import contextmanager
from itertools import islice
from pathlib import Path
from types import FrameType
from typing import Iterator, List, Optional

from .faults import NO_COMMAND, NOT_EXECUTABLE, RUN_FAILED, Fault
from .files import STANDARD, see_replaceable, see_writable, write_whole
from .host.strace import OPTIONS
from .reading import add_options, read_recording_of, say_what_was_made
from .recording import HEADER

_DEFAULT = "recording.txos"
_PATIENCE = 1.0  # seconds after ^C until it is said how a command ends that goes on
# The whole log of a command that the system does not execute.
_REFUSED = re.compile(r"\d+ +execve\(.*\) += -1 E\w+ \((.+)\)\n\d+ +\+\+\+ exited with 1 \+\+\+\n")
_LOG_BEGINS = r"\d+ +execve\("
_HINT = "txos-record: ^C again ends the command by SIGKILL"
_ABOUT = """Runs a command under strace, records it and all processes that it starts, and ends with
the command's own status. ^C goes to the command; a second one ends all its processes by SIGKILL,
and what was recorded until then is written."""


def add_command(commands: argparse._SubParsersAction) -> None:
    """Adds the words of `txos-record run`."""
    parser = commands.add_parser(
        "run",
        help="run a command, and record it",
        description=_ABOUT,
        usage="%(prog)s [-h] [-o FILE] [--short] [--log FILE] -- CMD ..",
    )
    add_options(parser, f"FILE; without it to {_DEFAULT}")
    parser.set_defaults(output=_DEFAULT, run=_run)
    parser.add_argument("--log", metavar="FILE", help="keep what strace wrote, in FILE")
    parser.add_argument("words", metavar="-- CMD", nargs=argparse.REMAINDER, help="the command")


def _run(args: argparse.Namespace) -> int:
    words = args.words[1:] if args.words[:1] == ["--"] else args.words
    if not words:
        raise Fault("run needs a command: txos-record run [-o FILE] -- CMD ..", 2)
    strace = shutil.which("strace")
    if not strace:
        raise Fault("there is no strace: install it (on Debian: apt install strace)", RUN_FAILED)
    _see_executable(words[0])
    _see_outputs(args)
    with tempfile.TemporaryDirectory(prefix="txos-record.") as folder:
        log = os.path.join(folder, "log")
        status = _trace([strace, *OPTIONS, "-o", log, "--", *words])
        _see_executed(log, words[0])
        try:
            _record(log, args)
        except Fault as fault:
            raise Fault(str(fault), RUN_FAILED) from fault
        except OSError as error:
            raise Fault(f"{args.output}: {error.strerror}", RUN_FAILED) from error
    return status


def _see_outputs(args: argparse.Namespace) -> None:
    """Raises `Fault` where what is to be written can't be, or would replace something else."""
    if args.log and os.path.realpath(args.log) == os.path.realpath(args.output):
        raise Fault(f"{args.log} can't be both the recording and the log", RUN_FAILED)
    begins = {args.output: re.escape(HEADER), args.log: _LOG_BEGINS}
    for path in (it for it in begins if it and it != STANDARD):
        try:
            see_writable(path)
            see_replaceable(path, begins[path])
        except Fault as fault:
            raise Fault(str(fault), RUN_FAILED) from fault
        except OSError as error:
            raise Fault(f"{path}: {error.strerror}", RUN_FAILED) from error


def _see_executable(word: str) -> None:
    """Raises `Fault` where a command is not there, or may not be executed."""
    if shutil.which(word):
        return
    if os.path.dirname(word) and os.path.exists(word):
        why = "it is a folder" if os.path.isdir(word) else "its mode forbids it"
        raise Fault(f"{word} can't be executed: {why}", NOT_EXECUTABLE)
    raise Fault(f"there is no command {word}", NO_COMMAND)


def _see_executed(log: str, word: str) -> None:
    """Raises `Fault` where the system has refused to execute a command."""
    if os.path.exists(log):
        with open(log, encoding="utf-8", errors="surrogateescape") as file:
            refused = _REFUSED.fullmatch("".join(islice(file, 3)))
        if refused:
            raise Fault(f"{word} can't be executed: {refused[1]}", NOT_EXECUTABLE)


def _record(log: str, args: argparse.Namespace) -> None:
    """Writes the recording of a log, which is kept where it is asked for or can't be read."""
    if args.log:
        shutil.copyfile(log, args.log)
    if not os.path.exists(log) or not os.path.getsize(log):
        raise Fault("strace recorded nothing: see what it says above")
    try:
        made = read_recording_of(log, args.short, is_own=True)
    except Fault as fault:
        kept = args.log or f"{args.output}.log"
        shutil.copyfile(log, kept)
        raise Fault(f"{fault}; the log is kept in {kept}") from fault
    write_whole(args.output, made.text())
    say_what_was_made(made, args.output)


def _trace(words: List[str]) -> int:
    """Runs strace, and answers the status of what it ran, as a shell would."""
    with subprocess.Popen(words) as tracer, _endings(tracer):
        status = tracer.wait()
    return status if status >= 0 else 128 - status


@contextmanager
def _endings(tracer: "subprocess.Popen[bytes]") -> Iterator[None]:
    """Leaves the first ^C to the command; a second one, or a request to end, ends its processes."""
    hint = threading.Timer(_PATIENCE, print, (_HINT,), {"file": sys.stderr})
    hint.daemon = True
    interrupted = False

    def interrupt(number: int, frame: Optional[FrameType]) -> None:
        nonlocal interrupted
        if number == signal.SIGQUIT:
            return  # the command gets it too
        if number != signal.SIGINT or interrupted:
            _kill_traced(tracer.pid)
        else:
            interrupted = True
            hint.start()

    numbers = (signal.SIGINT, signal.SIGQUIT, signal.SIGTERM, signal.SIGHUP)
    old = {it: signal.signal(it, interrupt) for it in numbers}
    try:
        yield
    finally:
        hint.cancel()
        for it, handler in old.items():
            signal.signal(it, handler)


def _kill_traced(tracer: int) -> None:
    """Ends every process that strace traces; strace ends after the last one."""
    for status in Path("/proc").glob("[0-9]*/status"):
        try:
            text = status.read_text()
        except OSError:
            continue
        if f"\nTracerPid:\t{tracer}\n" in text:
            try:
                os.kill(int(status.parent.name), signal.SIGKILL)
            except ProcessLookupError:
                continue
