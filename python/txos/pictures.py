"""The command `txos-record picture`: a recording, or a part of it, as a picture in SVG."""

from __future__ import annotations

import argparse
import sys
from bisect import bisect_right
from dataclasses import replace
from typing import Sequence, Set

from .files import write_whole
from .picture.choosing import Choice, choose, choose_part, part_of
from .picture.drawing import MOST_STEPS, draw
from .recording import OUTSIDE, Naming, Recording
from .replays import Replay, replay_file

_ABOUT = f"""Draws the steps of a recording as SVG, with the names of its processes. A picture has
at most {MOST_STEPS} steps. Without --whole those have no row that take no part in what processes do
with one another: files, masks, actions of signals, memory, and the setup. Of a recording that is
too long even so, it draws forks, exits, waits, signals, the reads and writes of pipes, and what
these need, or the first of them."""


def draw_choice(replay: Replay, choice: Choice) -> str:
    """The picture of a choice of steps."""
    recording = replay.recording
    foot = [f"Recorded: {recording.command}", *choice.about]
    return draw(_part(recording, choice.made), choice.made, set(choice.shown), foot)


def _part(recording: Recording, made: Sequence[int]) -> Recording:
    """The steps that are made, with the names that their processes have until then."""
    names = [Naming(0, OUTSIDE, recording.name(OUTSIDE))]
    named: Set[int] = set()
    last = max(made, default=0)
    for it in recording.names:
        # A child that shares memory until it executes a program is named some steps after its fork.
        if it.index <= last or it.process not in named:
            named.add(it.process)
            names.append(replace(it, index=bisect_right(made, it.index)))
    steps = [recording.steps[it - 1] for it in made]
    return Recording(recording.command, 0, steps=steps, names=names)


def add_command(commands: argparse._SubParsersAction) -> None:
    """Adds the words of `txos-record picture`."""
    parser = commands.add_parser(
        "picture", help="draw a recording, or a part of it", description=_ABOUT
    )
    parser.add_argument("file", metavar="FILE", help="a recording, or - for standard input")
    parser.add_argument("-o", "--output", metavar="SVG", help="write the picture to SVG")
    parser.add_argument("--from", dest="first", metavar="K", type=int, help="begin at step K")
    parser.add_argument("--to", dest="last", metavar="L", type=int, help="end at step L")
    parser.add_argument("--whole", action="store_true", help="draw each step")
    parser.set_defaults(run=_run)


def _run(args: argparse.Namespace) -> int:
    with replay_file(args.file) as replay:
        part = part_of(replay, args.first, args.last, args.whole)
        is_all = args.first is args.last is None and not args.whole
        choice = choose(replay) if is_all else choose_part(replay, part)
        picture = draw_choice(replay, choice)
    write_whole(args.output, picture)
    print(f"txos-record: {' '.join(choice.about)}", file=sys.stderr)
    return 0
