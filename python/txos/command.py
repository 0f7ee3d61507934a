"""The command `txos-record`: process trees of Linux as schedules of the kernel."""

from __future__ import annotations

import argparse
import io
import os
import signal
import sys
from typing import Optional, Sequence

from . import checking, holders, pictures, reading, running, trials
from .faults import FAULT, NOT_THERE, Fault
from .kernel import NoProgram, ShellEnded, TxosError
from .recording import BadRecording

_ABOUT = """Records what a tree of real processes does, as a schedule of txos, and asks of it what
the kernel in memory can answer: whether its answers are Linux's, who holds a pipe open, and whether
a part of the tree could have been a transaction."""


def build_parser() -> argparse.ArgumentParser:
    """What reads the words after `txos-record`."""
    parser = argparse.ArgumentParser(prog="txos-record", description=_ABOUT)
    commands = parser.add_subparsers(title="commands", metavar="COMMAND", required=True)
    for part in (running, reading, checking, trials, holders, pictures):
        part.add_command(commands)
    return parser


def main(words: Optional[Sequence[str]] = None) -> int:
    """Runs the command, and answers its exit status.

    1: what was read is at fault, or differs; 2: the words are not understood; 3: a program that is
    needed is not there; 130: it was interrupted; 141: its output is not read to its end. `run`
    answers the status of what it ran.
    """
    if isinstance(sys.stdout, io.TextIOWrapper):
        sys.stdout.reconfigure(errors="surrogateescape")  # names are written as they were read
    try:
        return _answer(words)
    except BrokenPipeError:
        return 128 + signal.SIGPIPE
    except KeyboardInterrupt:
        return 128 + signal.SIGINT
    except (Fault, BadRecording, TxosError, OSError) as error:
        print(f"txos-record: {_sentence_of(error)}", file=sys.stderr)
        return _status_of(error)
    finally:
        _drop_output()


def _answer(words: Optional[Sequence[str]]) -> int:
    """Runs the command, and sees that its output is written."""
    try:
        args = build_parser().parse_args(words)
        return args.run(args)
    finally:
        _flush_output()


def _flush_output() -> None:
    if sys.stdout:  # it is None where a shell has closed it
        sys.stdout.flush()


def _drop_output() -> None:
    """Drops output that can't be written, of which Python would complain once more as it ends."""
    try:
        _flush_output()
    except OSError:
        with open(os.devnull, "wb") as nowhere:
            os.dup2(nowhere.fileno(), sys.stdout.fileno())


def _sentence_of(error: Exception) -> str:
    """What a user reads of an error: of the system's no number, and the file first."""
    if isinstance(error, OSError) and error.strerror:
        return f"{error.filename}: {error.strerror}" if error.filename else error.strerror
    return str(error)


def _status_of(error: Exception) -> int:
    if isinstance(error, Fault):
        return error.status
    # The script of a checkout ends so where it has no program to run.
    is_without_program = isinstance(error, ShellEnded) and error.status == NOT_THERE
    return NOT_THERE if is_without_program or isinstance(error, NoProgram) else FAULT
