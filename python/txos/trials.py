"""The command `txos-record trial`: whether a part of a recording could have been a transaction."""

from __future__ import annotations

import argparse
import os
from typing import Any, Callable, List, Optional

from .faults import Fault
from .files import STANDARD, write_whole
from .kernel import Kernel
from .progress import Progress
from .recording import ABORT, OUTSIDE, ROOT
from .replays import replay_file
from .trial.circles import find_circles, find_forever
from .trial.lives import Life, Plan, make_plan
from .trial.outcome import Outcome, Question
from .trial.report import Findings, report
from .trial.schedule import Schedule
from .trial.table import table
from .trial.written import trial_recording

_ABOUT = """Tries a process of a recording, and all that it forks, as a transaction: whether it
commits, who waits for it, who waits for ever, and which answers differ from Linux's. Each process
makes its recorded steps in order. One that is refused, since the transaction is in the way or since
it waits, is tried again after each step that is made. Files take no part."""
_USAGE = "%(prog)s [-h] FILE (PROCESS [--abort [STEP]] [-o OUT] | --all)"
_WRONG_WORDS = 2  # the status where the words are not understood
_STANDARD_INPUT = 0  # its file descriptor
_ITSELF = 0  # in place of the step after which the kernel aborts a transaction


class _All(argparse.Action):
    """`--all`, with which no process is named."""

    def __init__(self, process: argparse.Action, **words: Any) -> None:
        super().__init__(nargs=0, default=False, **words)
        self._process = process

    def __call__(self, parser: Any, args: Any, values: Any, option: Any = None) -> None:
        self._process.required = False
        setattr(args, self.dest, True)


def add_command(commands: argparse._SubParsersAction) -> None:
    """Adds the words of `txos-record trial`."""
    parser = commands.add_parser(
        "trial", help="try a process as a transaction", description=_ABOUT, usage=_USAGE
    )
    parser.add_argument("file", metavar="FILE", help="a recording, or - for standard input")
    process = parser.add_argument(
        "process",
        metavar="PROCESS",
        help="its number, its program (such as tr), or a word of its command line",
    )
    parser.add_argument(
        "--abort",
        metavar="STEP",
        nargs="?",
        type=_step_number,
        const=_ITSELF,
        help="the kernel aborts it after STEP; without STEP it aborts itself in place of its end",
    )
    parser.add_argument(
        "-o", "--output", metavar="OUT", help="write the steps of the trial to OUT, as a recording"
    )
    parser.add_argument(
        "--all", action=_All, process=process, help="try each process, and print a table"
    )
    parser.set_defaults(run=_run)


def _step_number(word: str) -> int:
    if not word.isdecimal() or int(word) == 0:
        raise argparse.ArgumentTypeError(f"{word} is not the number of a step")
    return int(word)


def read_plan(file: str) -> Plan:
    """The plan of a recording; raises `Fault` where it is none, or the output of a trial."""
    with replay_file(file) as replay:
        recording = replay.recording
    if any(it.words[0] in ("sys_xbegin", ABORT) for it in recording.steps):
        raise Fault("this file is the output of a trial; give the recording that it was made from")
    return make_plan(recording)


def see_other_file(output: str, file: str) -> None:
    """Raises `Fault` where a trial is to be written to the file that its recording is in."""
    if output == STANDARD or not os.path.isfile(output):
        return
    if os.path.samefile(output, _STANDARD_INPUT if file == STANDARD else file):
        raise Fault(f"-o {output} is the recording that is read; name another file")


def choose(plan: Plan, word: str) -> Life:
    """The process that a word means; raises `Fault`, which lists them, where it is not one."""
    found = plan.find(word)
    if len(found) == 1:
        return found[0]
    if word == str(OUTSIDE):
        raise Fault(f"process {OUTSIDE} is everybody who was not recorded, and can't be tried")
    names = ", ".join(map(plan.spelled, found or plan.lives))
    if found:
        raise Fault(f"{word} means several processes; name one by its number: {names}")
    raise Fault(f"there is no process '{word}'; the processes are {names}")


def ask(plan: Plan, starter: Life, abort: Optional[int]) -> Question:
    """What is tried with a process; raises `Fault` where there is no step after which to abort."""
    if abort is None:
        return Question(starter)
    if abort == _ITSELF:
        if not starter.turns or not starter.turns[-1].ends:
            raise Fault(
                f"process {starter.label} does not end in the recording, so it can't abort itself "
                "in place of its end: name a step, --abort STEP"
            )
        return Question(starter, aborts_itself=True)
    steps = len(plan.recording.steps)
    if abort > steps:
        raise Fault(f"there is no step {abort}: the recording has {steps}")
    return Question(starter, aborted_after=abort - 1)


def try_question(
    plan: Plan,
    question: Question,
    plain: Optional[Outcome],
    is_explained: bool,
    advance: Callable[[], None],
) -> Findings:
    """Makes a trial; `plain` is what came of the same steps without a transaction, if known."""
    with Kernel(ROOT) as kernel:
        schedule = Schedule(kernel, plan, question, is_explained, advance)
        outcome = schedule.run()
        findings = Findings(plan, outcome, plain or outcome)
        if not (question.is_abort_wanted and outcome.after):
            findings.forever = find_forever(schedule)
            findings.circles = find_circles(findings.forever)
            findings.idle = schedule.idle_members()
    return findings


def try_all(plan: Plan, questions: List[Question], is_explained: bool) -> List[Findings]:
    """Makes trials, with the progress shown."""
    with Progress(len(plan.turns) * (len(questions) + 1), "steps") as progress:
        plain = try_question(plan, Question(), None, False, progress.advance).outcome
        return [try_question(plan, it, plain, is_explained, progress.advance) for it in questions]


def _run(args: argparse.Namespace) -> int:
    if args.all and (args.process or args.abort is not None or args.output):
        raise Fault("--all takes no PROCESS, no --abort and no -o", _WRONG_WORDS)
    plan = read_plan(args.file)
    if args.output:
        see_other_file(args.output, args.file)
    if args.all:
        trials = try_all(plan, [Question(it) for it in plan.lives], is_explained=False)
        print("\n".join(table(trials)))
        return 0
    question = ask(plan, choose(plan, args.process), args.abort)
    (findings,) = try_all(plan, [question], is_explained=True)
    if args.output:
        write_whole(args.output, trial_recording(plan, findings.outcome).text())
    print("\n".join(report(findings)))
    return 0
