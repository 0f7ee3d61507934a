"""The command `txos-record read`: the recording of a log that is there."""

from __future__ import annotations

import argparse
import sys
from typing import Optional

from .faults import Fault
from .files import write_whole
from .host.descriptors import SIGNS_OF_A_GAP
from .host.importing import left_out_sentence, make_recording
from .host.strace import HOW, read_log, see_traced, unexplained_signal
from .progress import Progress
from .recording import Recording
from .wording import counted

_ABOUT = f"""Reads what strace -f wrote of a tree of processes, and writes it as a schedule, with
Linux's answer after each step. {HOW[0].upper()}{HOW[1:]}."""


def add_command(commands: argparse._SubParsersAction) -> None:
    """Adds the words of `txos-record read`."""
    parser = commands.add_parser("read", help="make a recording of a log", description=_ABOUT)
    parser.add_argument("log", metavar="LOG", help="what strace wrote, or - for standard input")
    add_options(parser, "FILE; without it to standard output")
    parser.set_defaults(run=_run)


def add_options(parser: argparse.ArgumentParser, where: str) -> None:
    """Adds the options of what makes a recording, and says where that goes."""
    parser.add_argument("-o", "--output", metavar="FILE", help=f"write the recording to {where}")
    parser.add_argument(
        "--short",
        action="store_true",
        help="leave out what takes no part: files that are opened and closed again, masks and "
        "actions that are set to what they are already",
    )


def read_recording_of(log: str, is_short: bool, is_own: bool = False) -> Recording:
    """The recording of a log, which is a path, or `-`; raises `Fault` where the log is at fault.

    Of a log that is not our own it is said where calls on signals seem not to be traced.
    """
    if log == "-":
        lines = sys.stdin.buffer.read()
    else:
        with open(log, "rb") as file:
            lines = file.read()
    text = lines.decode("utf-8", "surrogateescape")
    split = [f"{it}\n" for it in text.split("\n")]
    split[-1:] = [split[-1][:-1]] if split[-1] != "\n" else []
    events = read_log(split)
    see_traced(events)
    signal = None if is_own else unexplained_signal(events)
    if signal:
        _warn(f"SIG{signal.name} comes in line {signal.line}, and there is no call on signals")
    with Progress(len(events), "calls of the log") as progress:
        return make_recording(events, len(split), is_short, progress.advance)


def say_what_was_made(made: Recording, path: Optional[str]) -> None:
    """Says on standard error what a recording has."""
    parts = [
        f"{counted(len(made.steps), 'step')} of {counted(len(made.processes()), 'process', 'es')}",
        f"factor {made.factor}" if made.factor > 1 else "",
        left_out_sentence(made.left_out),
    ]
    where = f"{path}: " if path else ""
    print(f"txos-record: {where}{', '.join(it for it in parts if it)}", file=sys.stderr)
    for out in made.left_out:
        if out.kind in SIGNS_OF_A_GAP:
            _warn(f"{counted(out.count, out.kind)}, first at line {out.line}")


def _warn(sign: str) -> None:
    """Says by which sign a log seems to be incomplete."""
    print(f"txos-record: the log may lack lines: {sign}; {HOW}", file=sys.stderr)


def _run(args: argparse.Namespace) -> int:
    try:
        made = read_recording_of(args.log, args.short)
    except Fault as fault:
        raise Fault(f"{args.log}: {fault}") from fault
    write_whole(args.output, made.text())
    say_what_was_made(made, args.output)
    return 0
