"""Tests of trials: small recordings of which each answer follows from the rules, and random ones.

What is expected is what docs/TRANSACTIONS.md says of the steps, worked out by hand.
"""

import io
import os
import random
import re
import subprocess
import sys
import tempfile
import unittest
from contextlib import redirect_stderr, redirect_stdout
from pathlib import Path

from txos.command import main
from txos.faults import Fault
from txos.kernel import Kernel, Refused
from txos.recording import ABORT, ROOT, read_recording
from txos.trial.circles import Forever, Link, find_circles
from txos.trial.fileless import without_files
from txos.trial.lines import Wait, Why
from txos.trial.lives import make_plan
from txos.trial.outcome import Because, Question
from txos.trial.report import report
from txos.trial.written import trial_recording
from txos.trials import ask, choose, try_all

HEAD = """txos 3 schedule 2
# recorded: sh made.sh
# log: 99 lines
# factor: 1
2 map 0
2 pipe 31 62 63
2 dup2 1 15
2 dup 15
# 2 is sh made.sh
"""

# A pipeline: process 3 writes to pipe 0, process 4 reads it to its end.
PIPELINE = """
2 pipe 0 0 1 = ok 0
2 fork 3 = ok 3
# 3 is /bin/tr a-z A-Z
2 fork 4 = ok 4
# 4 is cat -n
2 close 3 = ok 0
2 close 4 = ok 0
3 close 3 = ok 0
3 write 4 0 6 = ok 6
4 close 4 = ok 0
4 read 3 0 6 = ok 6
3 exit 0 = ended
4 read 3 0 1 = ok 0
4 exit 0 = ended
2 waitpid 3 wait = ok 3
2 waitpid 4 wait = ok 4
2 exit 0 = ended
"""


DIFFERS = "After the abort the state differs from that before the sys_xbegin:"


def recording(text):
    """The recording with these steps after the setup; `= ok 0` is Linux's answer."""
    lines = []
    for number, line in enumerate(map(str.strip, text.strip().splitlines()), 1):
        step, _, expected = line.partition(" = ")
        answer = f"  # = {expected}" if expected else ""
        lines.append(line if line[0] == "#" else f"{step}{answer}  # {number} call")
    return read_recording(HEAD + "\n".join(lines) + "\n")


def trial(text, process, abort=None):
    """The findings of a trial."""
    plan = make_plan(recording(text))
    (found,) = try_all(plan, [ask(plan, choose(plan, str(process)), abort)], is_explained=True)
    return found


def texts(turns):
    """Recorded steps, as they are spelled."""
    return [it.recorded.text for it in turns]


def answers_of(steps):
    """What a kernel answers to steps."""
    answers = []
    with Kernel(ROOT) as kernel:
        for it in kernel.make_all(steps):
            answers.append(it.answer if isinstance(it, Refused) else str(it))
    return answers


def made(found):
    """The steps that a trial made, after the setup."""
    return [it.step.text for it in found.outcome.made if it.turn.added or it.turn.recorded.line]


def waits(found):
    """Who waited, at which step, why, and what for, until after which step."""
    steps = found.outcome.made
    return [
        (it.turn.recorded.text, it.why.name, it.what, it.ended and steps[it.ended - 1].step.text)
        for it in found.waits()
    ]


def circles(found):
    """Each circle: who waits for what, and for which step of the next one."""
    return [
        [(it.wait.life.label, it.wait.what, it.turn.recorded.text) for it in circle]
        for circle in found.circles
    ]


def written_by(case, found):
    """A trial as a recording, of which the kernel answers each step as it is written."""
    written = trial_recording(found.plan, found.outcome)
    case.assertEqual(read_recording(written.text()), written)
    answers = answers_of([it.text for it in written.steps])
    accepted = [it for it in answers if not it.startswith("no ")]
    case.assertEqual(accepted, [it.answer for it in found.outcome.made])
    for step, answer in zip(written.steps, answers):
        if answer.startswith("no "):
            case.assertEqual(step.expected, answer)
    return written


class Outcomes(unittest.TestCase):
    """Whether a transaction commits, and who waits for it."""

    def test_a_writer_commits_and_its_reader_waits_for_the_pipe(self):
        found = trial(PIPELINE, 3)
        self.assertEqual(found.outcome.ending.made.turn.recorded.text, "3 exit 0")
        self.assertEqual(waits(found), [("4 close 4", "BUSY", "pipe 0", "3 exit 0")])
        # Process 3 has the pipe since it closed a side of it, and the other side since it wrote.
        needs = {it.name: it.since for it in found.waits()[0].needs}
        steps = [it.turn.recorded.text for it in found.outcome.made]
        self.assertEqual(steps[needs["pipe 0"] - 1], "3 close 3")
        self.assertEqual(steps[needs["description 1 (writes pipe 0)"] - 1], "3 write 4 0 6")
        outcome = found.outcome
        self.assertEqual((found.forever, outcome.differing, outcome.left_out), ([], [], []))

    def test_a_reader_waits_for_a_writer_that_waits_for_it(self):
        found = trial(PIPELINE, "cat")
        self.assertIsNone(found.outcome.ending)
        circle = [("3 tr", "pipe 0", "4 exit 0"), ("4 cat", "pipe 0", "3 exit 0")]
        self.assertEqual(circles(found), [circle])
        waiting = {it.wait.life.label: it.wait.turn.recorded.text for it in found.forever}
        self.assertEqual(
            waiting, {"3 tr": "3 exit 0", "4 cat": "4 read 3 0 1", "2 sh": "2 waitpid 3 wait"}
        )

    def test_the_first_process_is_a_transaction_after_the_setup(self):
        found = trial(PIPELINE, 2)
        self.assertEqual(made(found)[:2], ["2 sys_xbegin", "2 pipe 0 0 1"])
        self.assertEqual([it.label for it in found.outcome.members], ["2 sh", "3 tr", "4 cat"])
        self.assertEqual(found.outcome.ending.made.turn.recorded.text, "2 exit 0")
        self.assertEqual(waits(found), [])

    def test_each_process_makes_its_steps_in_order(self):
        found = trial(PIPELINE, 3)
        for number in (2, 3, 4):
            steps = [it.turn.index for it in found.outcome.made if it.turn.life.number == number]
            self.assertEqual(steps, sorted(steps))

    def test_without_a_transaction_the_steps_are_made_as_they_were_recorded(self):
        plain = trial(PIPELINE, 3).plain
        self.assertEqual(
            [it.turn.index for it in plain.made], sorted(it.turn.index for it in plain.made)
        )
        self.assertEqual((plain.waits, plain.differing, plain.left_out), ([], [], []))

    def test_what_never_ended_on_linux_waits_here_without_being_a_wait_of_the_trial(self):
        found = trial(
            """
            2 pipe 0 0 1 = ok 0
            2 fork 3 = ok 3
            # 3 is cat
            2 close 3 = ok 0
            3 close 4 = ok 0
            3 read 3 0 1 = no N9
            1 kill 3 TERM
            3 deliver TERM = ended
            2 waitpid 3 wait = ok 3
            """,
            3,
        )
        self.assertEqual(list(found.outcome.rests), [found.plan.lives[1].turns[1]])
        self.assertEqual(waits(found), [])
        self.assertEqual(found.outcome.ending.made.turn.recorded.text, "3 deliver TERM")
        self.assertEqual(found.outcome.differing, [])

    def test_answers_that_differ_without_the_transaction_are_only_counted(self):
        text = """
            2 fork 3 = ok 3
            # 3 is child
            3 getpid = ok 8
            {}
            3 exit 0 = ended
            """
        said = "1 {}answer differs from Linux's without the transaction too."
        lines = list(report(trial(text.format("3 getppid = ok 2"), 3)))
        self.assertIn(said.format(""), lines)
        self.assertFalse([it for it in lines if it.startswith(("Every ", "Answers "))])
        lines = list(report(trial(text.format("3 kill 77 USR1 = ok -3"), 3)))
        first = lines.index("Answers that differ from Linux's:")
        self.assertEqual(
            lines[first + 1 : first + 3],
            ["  step 7 (3 kill 77 USR1, line 4): ok 0, on Linux ok -3", said.format("more ")],
        )

    def test_a_member_of_which_nothing_more_was_recorded_keeps_it_open(self):
        found = trial(
            """
            2 fork 3 = ok 3
            # 3 is daemon
            3 getpid = ok 3
            2 waitpid 3 wait = no N9
            """,
            3,
        )
        self.assertIsNone(found.outcome.ending)
        self.assertEqual([it.label for it in found.idle], ["3 daemon"])
        # On Linux process 2 waits too, but for a child and not for a transaction.
        self.assertEqual(waits(found), [("2 waitpid 3 wait", "BUSY", "process 3 daemon", None)])
        self.assertEqual(found.circles, [])
        lines = list(report(found))
        self.assertIn("  3 daemon does nothing more in the recording, and does not end.", lines)
        self.assertIn("Nobody waits in a circle.", lines)


class Signals(unittest.TestCase):
    """What a transaction holds, what dooms it, and deliveries of signals that do not come."""

    CAUGHT = """
    2 sigaction USR1 catch 1000 - = ok 0
    2 fork 3 = ok 3
    # 3 is kill
    3 kill 2 USR1 = ok 0
    2 deliver USR1 = ok 0
    2 sigreturn
    3 exit 0 = ended
    2 waitpid 3 wait = ok 3
    """

    def test_a_signal_that_is_held_goes_out_at_the_commit(self):
        found = trial(self.CAUGHT, 3)
        self.assertEqual([(it.target, it.signal) for it in found.outcome.held], [(2, 10)])
        self.assertEqual(waits(found), [("2 deliver USR1", "SIGNAL", "signal USR1", "3 exit 0")])
        self.assertEqual((found.outcome.left_out, found.outcome.differing), ([], []))
        said = "  USR1 to 2 sh, sent at step 7 (3 kill 2 USR1, line 4): goes out at the commit"
        self.assertIn(said, report(found))

    def test_a_signal_that_is_held_for_ever_makes_a_circle(self):
        # Process 3 ends process 4, and waits until 4 has so closed its side of the pipe.
        found = trial(
            """
            2 pipe 0 0 1 = ok 0
            2 fork 4 = ok 4
            # 4 is sleep
            4 close 3 = ok 0
            2 close 4 = ok 0
            2 fork 3 = ok 3
            # 3 is killer
            2 close 3 = ok 0
            3 kill 4 TERM = ok 0
            4 deliver TERM = ended
            3 read 3 0 1 = ok 0
            3 exit 0 = ended
            2 waitpid 4 wait = ok 4
            """,
            3,
        )
        circle = [("4 sleep", "signal TERM", "3 exit 0"), ("3 killer", "pipe 0", "4 deliver TERM")]
        self.assertEqual(circles(found), [circle])
        said = (
            "  4 sleep waits until 3 killer ends at step 14 (3 exit 0, line 12): "
            "its transaction holds signal TERM"
        )
        self.assertIn(said, list(report(found)))

    def test_sends_that_fail_come_out_at_the_commit(self):
        found = trial(
            """
            2 fork 3 = ok 3
            # 3 is kill
            3 kill 77 USR1 = ok -3
            3 kill 2 0 = ok 0
            3 exit 0 = ended
            """,
            3,
        )
        answers = [(it.turn.recorded.text, it.answer) for it in found.outcome.differing]
        self.assertEqual(answers, [("3 kill 77 USR1", "ok 0"), ("3 kill 2 0", "ok -200")])
        said = "  USR1 to 77, sent at step 6 (3 kill 77 USR1, line 3): fails at the commit: ESRCH"
        self.assertIn(said, report(found))

    def test_a_starter_that_ends_before_its_child_holds_its_sigchld(self):
        found = trial(
            """
            2 fork 3 = ok 3
            # 3 is daemon
            3 fork 4 = ok 4
            # 4 is child
            3 exit 0 = ended
            2 deliver CHLD = ok 4
            4 exit 0 = ended
            2 waitpid 3 wait = ok 3
            """,
            3,
        )
        self.assertEqual([(it.target, it.signal) for it in found.outcome.held], [(2, 17)])
        self.assertEqual(found.outcome.ending.made.turn.recorded.text, "4 exit 0")

    def test_a_kill_of_the_starter_from_outside_dooms_it(self):
        found = trial(
            """
            2 pipe 0 0 1 = ok 0
            2 fork 3 = ok 3
            # 3 is server
            3 fork 4 = ok 4
            # 4 is worker
            3 write 4 0 5 = ok 5
            2 close 4 = ok 0
            1 kill 3 KILL = ok 0
            3 deliver KILL = ended
            2 waitpid 3 wait = ok 3
            4 exit 0 = ended
            2 read 3 0 5 = ok 5
            """,
            3,
        )
        ending = found.outcome.ending
        self.assertEqual((str(ending.reply), ending.made.turn.call), ("aborted 203", ABORT))
        steps = made(found)
        # The close was Busy, since process 3 wrote to the pipe.
        self.assertEqual(
            steps[steps.index("kernel 3") - 1 :][:4],
            ["1 kill 3 KILL", "kernel 3", "2 close 1", "3 deliver KILL"],
        )
        # Process 4 is gone with the abort, and so are the five bytes: nobody is left to write.
        self.assertEqual(
            [(it.turn.recorded.text, it.because) for it in found.outcome.left_out],
            [("4 exit 0", Because.ABORTED)],
        )
        answers = [(it.turn.recorded.text, it.answer) for it in found.outcome.differing]
        self.assertEqual(answers, [("2 read 3 0 5", "ok 0")])
        said = "It is aborted with the status 203: step 10 (1 kill 3 KILL, line 8) dooms it."
        self.assertIn(said, report(found))

    def test_sigkill_ends_a_process_before_what_it_has_not_come_to(self):
        # Process 4 waits in the transaction for a byte that process 2 may not write.
        found = trial(
            """
            2 pipe 0 0 1 = ok 0
            2 fork 3 = ok 3
            # 3 is timeout
            3 fork 4 = ok 4
            # 4 is cat
            4 close 4 = ok 0
            2 write 4 0 1 = ok 1
            4 read 3 0 1 = ok 1
            3 kill 4 KILL = ok 0
            4 deliver KILL = ended
            3 waitpid 4 wait = ok 4
            3 exit 0 = ended
            """,
            3,
        )
        self.assertEqual(
            [(it.turn.recorded.text, it.because) for it in found.outcome.left_out],
            [("4 read 3 0 1", Because.ENDED)],
        )
        self.assertEqual(found.outcome.ending.made.turn.recorded.text, "3 exit 0")
        self.assertEqual(waits(found)[0], ("2 write 4 0 1", "BUSY", "pipe 0", "3 exit 0"))

    def test_sigkill_that_came_too_late_on_linux_ends_a_process_that_waits_here(self):
        found = trial(
            """
            2 pipe 0 0 1 = ok 0
            2 fork 3 = ok 3
            # 3 is cat
            2 fork 4 = ok 4
            # 4 is reader
            3 write 4 0 1 = ok 1
            4 close 4 = ok 0
            4 exit 0 = ended
            2 kill 4 KILL = ok 0
            2 waitpid 4 wait = ok 4
            3 exit 0 = ended
            """,
            3,
        )
        # Process 4 waits for the pipe when SIGKILL comes; its end waits for the pipe too.
        steps = made(found)
        self.assertIn("4 deliver KILL", steps)
        self.assertGreater(steps.index("4 deliver KILL"), steps.index("3 exit 0"))
        self.assertEqual(
            [it.turn.recorded.text for it in found.outcome.left_out], ["4 close 4", "4 exit 0"]
        )
        lines = list(report(found))
        said = "  4 reader is ended by signal KILL here, which came too late on Linux"
        self.assertIn(said, lines)
        waited = [it for it in lines if it.startswith("  4 reader at ")]
        self.assertIn(" at its deliver KILL after step 10, for ", waited[-1])

    def test_who_is_killed_by_a_member_ends_as_recorded_before_its_sys_xabort(self):
        found = trial(
            """
            2 fork 3 = ok 3
            # 3 is worker
            3 fork 4 = ok 4
            # 4 is killer
            4 kill 3 KILL = ok 0
            3 deliver KILL = ended
            4 exit 0 = ended
            1 waitpid 4 nohang
            2 waitpid 3 wait = ok 3
            """,
            3,
            abort=0,
        )
        self.assertNotIn("3 sys_xabort", made(found))
        self.assertEqual(found.outcome.ending.made.turn.recorded.text, "4 exit 0")
        lines = list(report(found))
        self.assertIn("It never gets to its sys_xabort.", lines)
        self.assertIn("Every step that was made got Linux's answer.", lines)
        self.assertNotIn("Steps that are not made:", lines)

    def test_a_signal_that_has_come_ends_a_process_while_it_waits(self):
        found = trial(
            """
            2 pipe 0 0 1 = ok 0
            2 fork 4 = ok 4
            # 4 is cat
            2 close 3 = ok 0
            2 fork 3 = ok 3
            # 3 is child
            2 waitpid 3 nohang = ok 0
            2 write 4 0 1 = ok 1
            4 read 3 0 1 = ok 1
            1 kill 4 TERM = ok 0
            4 deliver TERM = ended
            3 exit 0 = ended
            """,
            3,
        )
        # Process 2 is Busy, so that process 4 waits for the byte when SIGTERM comes.
        self.assertEqual(
            [(it.turn.recorded.text, it.because) for it in found.outcome.left_out],
            [("4 read 3 0 1", Because.ENDED), ("2 waitpid 3 nohang", Because.FOUND_NOTHING)],
        )
        answers = [(it.turn.recorded.text, it.answer) for it in found.outcome.differing]
        self.assertEqual(answers, [("2 write 4 0 1", "ok -32")])

    def test_a_signal_whose_answer_an_abort_would_change_waits(self):
        found = trial(
            """
            2 fork 4 = ok 4
            # 4 is sender
            4 setuid 5 = ok 0
            2 fork 3 = ok 3
            # 3 is child
            3 setuid 5 = ok 0
            4 kill 3 USR1 = ok 0
            3 getpid = ok 3
            3 exit 0 = ended
            """,
            3,
        )
        (wait,) = found.waits()
        self.assertEqual((wait.why, wait.turn.recorded.text), (Why.BUSY, "4 kill 3 USR1"))
        # Process 4 may signal process 3 as user 5, and were it user 0 again, it may not.
        said = "signal 10 to 3: it would be answered 0 now, and -1 EPERM if the transaction of 3"
        self.assertTrue(wait.what.startswith(said), wait.what)
        self.assertEqual(made(found)[-2:], ["3 exit 0", "4 kill 3 USR1"])

    def test_a_signal_that_is_lost_keeps_who_would_end_by_it_for_ever(self):
        # What is pending goes where the signal is ignored; no process of Linux comes to this.
        found = trial(
            """
            2 fork 3 = ok 3
            # 3 is killer
            3 kill 1 0 = ok 0
            2 kill 2 TERM = ok 0
            2 sigaction TERM ignore = ok 0
            2 sigaction TERM default = ok 0
            2 deliver TERM = ended
            3 exit 0 = ended
            """,
            3,
        )
        said = "  2 sh at step 10 (2 deliver TERM, line 7): signal TERM has not come, and nobody "
        self.assertTrue(any(it.startswith(said) for it in report(found)))
        self.assertIn("Nobody waits in a circle.", list(report(found)))

    def test_a_delivery_whose_signals_have_merged_is_left_out(self):
        found = trial(
            """
            2 sigaction CHLD catch 1000 - = ok 0
            2 fork 3 = ok 3
            # 3 is one
            2 fork 4 = ok 4
            # 4 is other
            2 fork 5 = ok 5
            # 5 is tried
            2 waitpid 5 nohang = ok 0
            3 exit 0 = ended
            2 deliver CHLD = ok 0
            2 sigreturn
            4 exit 0 = ended
            2 deliver CHLD = ok 0
            2 sigreturn
            5 exit 0 = ended
            2 waitpid 5 wait = ok 5
            """,
            5,
        )
        # All three have ended when process 2 goes on, and one SIGCHLD is pending.
        self.assertEqual(
            [(it.turn.recorded.text, it.because) for it in found.outcome.left_out],
            [
                ("2 waitpid 5 nohang", Because.FOUND_NOTHING),
                ("2 deliver CHLD", Because.NO_SIGNAL),
                ("2 sigreturn", Because.NO_SIGNAL),
            ],
        )
        self.assertEqual((found.outcome.differing, found.forever), ([], []))

    def test_a_handler_runs_while_its_process_waits(self):
        found = trial(
            """
            2 sigaction USR1 catch 1000 - = ok 0
            2 fork 3 = ok 3
            # 3 is child
            2 waitpid 3 nohang = ok 0
            1 kill 2 USR1 = ok 0
            2 deliver USR1 = ok 0
            2 kill 3 TERM = ok 0
            2 sigreturn
            3 deliver TERM = ended
            2 waitpid 3 wait = ok 3
            """,
            3,
        )
        # Process 2 is Busy with its child, which ends only by what the handler of process 2 sends.
        self.assertEqual(
            made(found)[3:],
            ["1 kill 2 USR1", "2 deliver USR1", "2 kill 3 TERM", "2 sigreturn"]
            + ["3 deliver TERM", "2 waitpid 3 wait"],
        )
        self.assertEqual(texts(found.outcome.interrupts), ["2 deliver USR1"])
        self.assertIn("  2 sh at step 9 (2 deliver USR1, line 6)", list(report(found)))
        self.assertEqual((found.forever, found.outcome.differing), ([], []))

    def test_a_signal_that_does_nothing_keeps_nobody_waiting(self):
        # Process 2 ignores SIGCHLD, so it does not wait for the end of process 4.
        found = trial(
            """
            2 pipe 0 0 1 = ok 0
            2 fork 3 = ok 3
            # 3 is writer
            2 fork 4 = ok 4
            # 4 is other
            3 write 4 0 1 = ok 1
            4 exit 0 = ended
            2 deliver CHLD
            2 getpid = ok 2
            3 exit 0 = ended
            """,
            3,
        )
        self.assertEqual(waits(found), [("4 exit 0", "BUSY", "pipe 0", "3 exit 0")])
        self.assertEqual(
            [(it.turn.recorded.text, it.because) for it in found.outcome.left_out],
            [("2 deliver CHLD", Because.IGNORED)],
        )


class Asking(unittest.TestCase):
    """Calls that are made again until they are answered as on Linux, and numbers that are taken."""

    def test_who_was_answered_epipe_writes_on_until_no_reader_is_left(self):
        found = trial(
            """
            2 pipe 0 0 1 = ok 0
            2 fork 3 = ok 3
            # 3 is yes
            2 fork 4 = ok 4
            # 4 is head
            2 close 3 = ok 0
            2 close 4 = ok 0
            3 close 3 = ok 0
            4 close 4 = ok 0
            3 write 4 0 5 = ok 5
            4 fork 5 = ok 5
            # 5 is child
            5 exit 0 = ended
            4 waitpid 5 wait = ok 5
            4 read 3 0 5 = ok 5
            4 exit 0 = ended
            3 write 4 0 1 = ok -32
            3 deliver PIPE = ended
            """,
            3,
        )
        # Process 3 has the pipe before process 4 reads, and never ends: what it wrote last on
        # Linux would find a reader here.
        circle = [("4 head", "pipe 0", "3 deliver PIPE"), ("3 yes", "pipe 0", "4 exit 0")]
        self.assertEqual(circles(found)[0][0][0], "4 head")
        self.assertEqual(circles(found), [circle])
        self.assertEqual(found.outcome.differing, [])

    def test_a_poll_that_found_a_byte_waits_until_there_is_one(self):
        found = trial(
            """
            2 pipe 0 0 1 = ok 0
            2 set_nonblock 3 on = ok 0
            2 fork 4 = ok 4
            # 4 is writer
            2 fork 3 = ok 3
            # 3 is child
            4 waitpid 3 nohang = ok -10
            3 waitpid 4 nohang = ok -10
            4 write 4 0 1 = ok 1
            2 read 3 0 1 = ok 1
            3 exit 0 = ended
            """,
            3,
        )
        # Process 3 has process 4 since it asked for it.
        self.assertEqual(
            waits(found),
            [
                ("4 waitpid 3 nohang", "BUSY", "process 3 child", "3 exit 0"),
                ("2 read 3 0 1", "CALL", "pipe 0", "4 write 1 0 1"),
            ],
        )
        self.assertEqual((found.outcome.differing, found.outcome.left_out), ([], []))

    def test_a_poll_that_found_nothing_takes_no_byte_of_another_one(self):
        found = trial(
            """
            2 pipe 0 0 1 = ok 0
            2 set_nonblock 3 on = ok 0
            2 fork 4 = ok 4
            # 4 is writer
            2 fork 3 = ok 3
            # 3 is child
            2 waitpid 3 nohang = ok 0
            2 read 3 0 1 = ok -11
            4 write 4 0 1 = ok 1
            2 read 3 0 1 = ok 1
            3 exit 0 = ended
            """,
            3,
        )
        self.assertEqual(
            [it.turn.recorded.text for it in found.outcome.left_out],
            ["2 waitpid 3 nohang", "2 read 3 0 1"],
        )
        self.assertEqual((found.outcome.differing, found.forever), ([], []))

    def test_who_asks_for_a_child_goes_on_where_nobody_else_does(self):
        found = trial(
            """
            2 pipe 0 0 1 = ok 0
            2 fork 3 = ok 3
            # 3 is reader
            2 fork 4 = ok 4
            # 4 is other
            3 close 4 = ok 0
            4 exit 0 = ended
            2 waitpid 4 nohang = ok 4
            2 write 4 0 1 = ok 1
            3 read 3 0 1 = ok 1
            3 exit 0 = ended
            """,
            3,
        )
        # The end of process 4 is Busy with the pipe for ever, since process 3 waits for a byte.
        answers = [(it.turn.recorded.text, it.answer) for it in found.outcome.differing]
        self.assertEqual(answers, [("2 waitpid 4 nohang", "ok 0")])
        circle = [("2 sh", "pipe 0", "3 exit 0"), ("3 reader", "pipe 0", "2 write 4 0 1")]
        self.assertEqual(circles(found), [circle])

    def test_what_the_kernel_refuses_is_left_out_with_all_that_would_follow(self):
        found = trial(
            """
            2 fork 999 = ok 999
            # 999 is nobody
            999 getpid = ok 999
            2 fork 3 = ok 3
            # 3 is child
            3 exit 0 = ended
            """,
            3,
        )
        left = [(it.turn.recorded.text, it.because, it.answer) for it in found.outcome.left_out]
        self.assertEqual(
            left,
            [
                ("2 fork 999", Because.REFUSED, "no N3"),
                ("999 getpid", Because.UNBORN, ""),
            ],
        )

    def test_a_pipe_has_numbers_that_are_free(self):
        found = trial(
            """
            2 pipe 0 0 1 = ok 0
            2 fork 3 = ok 3
            # 3 is child
            2 close 3 = ok 0
            2 close 4 = ok 0
            3 close 3 = ok 0
            3 close 4 = ok 0
            2 pipe 0 0 1 = ok 0
            3 exit 0 = ended
            """,
            3,
        )
        # Nothing has number 0 any more, but the transaction has reserved it: so it is 1, 2, 3.
        self.assertIn("2 pipe 1 2 3", made(found))
        self.assertEqual(waits(found), [])

    def test_process_1_reaps_an_orphan_when_it_can(self):
        found = trial(
            """
            2 pipe 0 0 1 = ok 0
            2 fork 3 = ok 3
            # 3 is child
            2 fork 4 = ok 4
            # 4 is parent
            4 fork 5 = ok 5
            # 5 is orphan
            3 close 3 = ok 0
            4 exit 0 = ended
            5 exit 0 = ended
            1 waitpid 5 nohang
            3 exit 0 = ended
            """,
            3,
        )
        steps = ["3 exit 0", "4 exit 0", "5 exit 0", "1 waitpid 5 nohang"]
        self.assertEqual(made(found)[-4:], steps)
        self.assertNotIn("1 outside", {it.life.label for it in found.waits()})

    def test_processes_that_have_not_ended_are_not_reaped(self):
        text = """
            2 pipe 0 0 1 = ok 0
            2 fork 4 = ok 4
            # 4 is other
            2 fork 3 = ok 3
            # 3 is daemon
            3 close 3 = ok 0
            2 exit 0 = ended
            1 waitpid 2 nohang
            4 exit 0 = ended
            """
        # Both ends wait for the pipe, which process 3 has for ever.
        said = "  1 outside: step 10 (1 waitpid 2 nohang, line 8): "
        named = "process 2 sh has not ended here, so it can't be reaped"
        self.assertIn(said + named, list(report(trial(text, 3))))
        said = "  1 outside: 2 steps, the first is step 10 (1 waitpid 2 nohang, line 8): "
        both = "these processes have not ended here, so they can't be reaped"
        self.assertIn(said + both, list(report(trial(text + "1 waitpid 4 nohang", 3))))

    def test_a_process_whose_parent_has_not_ended_is_its_to_reap(self):
        found = trial(
            """
            2 pipe 0 0 1 = ok 0
            2 fork 4 = ok 4
            # 4 is parent
            4 fork 5 = ok 5
            # 5 is orphan
            5 close 3 = ok 0
            5 close 4 = ok 0
            2 fork 3 = ok 3
            # 3 is daemon
            3 close 3 = ok 0
            4 exit 0 = ended
            5 exit 0 = ended
            1 waitpid 5 nohang
            """,
            3,
        )
        # The end of process 4 waits for the pipe, and process 5 no longer has it open.
        said = "  1 outside: step 14 (1 waitpid 5 nohang, line 13): "
        because = "only the parent may reap, since it has not ended here"
        self.assertIn(said + because, list(report(found)))

    def test_who_sends_to_a_process_waits_until_it_is_there(self):
        found = trial(
            """
            2 pipe 0 0 1 = ok 0
            2 fork 3 = ok 3
            # 3 is child
            2 fork 4 = ok 4
            # 4 is killer
            3 close 3 = ok 0
            2 fork 5 = ok 5
            # 5 is late
            4 kill 5 USR1 = ok 0
            3 exit 0 = ended
            """,
            3,
        )
        self.assertEqual(
            waits(found),
            [
                ("2 fork 5", "BUSY", "description 0 (reads pipe 0)", "3 exit 0"),
                ("4 kill 5 USR1", "PROCESS", "process 5 late", "2 fork 5"),
            ],
        )

    def test_who_waits_for_a_process_that_is_not_there_waits_for_who_is_to_fork_it(self):
        found = trial(
            """
            2 fork 3 = ok 3
            # 3 is killer
            2 waitpid 3 nohang = ok 0
            2 fork 4 = ok 4
            # 4 is parent
            4 fork 5 = ok 5
            # 5 is child
            3 kill 5 TERM = ok 0
            5 deliver TERM = ended
            3 exit 0 = ended
            """,
            3,
        )
        first, second = ("2 sh", "process 3 killer", "3 exit 0"), ("3 killer", "process 5 child")
        self.assertEqual(circles(found), [[first, (*second, "4 fork 5")]])
        said = "  3 killer waits until 2 sh goes on, so that 4 parent is forked and gets to step 8"
        self.assertIn(said, "\n".join(report(found)))


# Process 3 is a transaction; meanwhile process 2 closes, forks, and reads what process 4 writes.
ABORTED = """
2 pipe 0 0 1 = ok 0
2 pipe 1 2 3 = ok 0
2 fork 3 = ok 3
# 3 is child
2 fork 4 = ok 4
# 4 is writer
4 store 0 "abcd"
4 write 6 0 4 = ok 4
2 read 5 0 1 = ok 1
1 kill 3 USR1 = ok 0
3 close 4 = ok 0
3 fork 5 = ok 5
# 5 is grandchild
5 exit 0 = ended
3 exit 0 = ended
4 exit 0 = ended
"""


class Aborts(unittest.TestCase):
    """What an abort leaves."""

    def test_the_starter_aborts_itself_in_place_of_its_end(self):
        found = trial(PIPELINE, 3, abort=0)
        self.assertEqual(str(found.outcome.ending.reply), "aborted 201")
        self.assertEqual(made(found)[-1], "3 sys_xabort")
        lines = list(report(found))
        self.assertIn(
            "It is aborted with the status 201: it calls sys_xabort in place of step 14 (3 exit 0, "
            "line 12).",
            lines,
        )
        # Process 2 has closed its copies; process 4 was there since, and has waited.
        left = lines[lines.index(DIFFERS) + 1 :]
        self.assertEqual(
            left,
            [
                "  2 sh has 0 descriptors that read pipe 0 (was 1)",
                "  2 sh has 0 descriptors that write pipe 0 (was 1)",
                "  process 4 cat is new",
                "Others made 3 steps meanwhile, which the abort does not undo:",
                "  step 7 (2 fork 4, line 4)",
                "  step 8 (2 close 3, line 6)",
                "  step 9 (2 close 4, line 7)",
            ],
        )
        self.assertIn("  8 steps after the abort", lines)

    def test_the_kernel_aborts_it_after_a_step(self):
        found = trial(ABORTED, 3, abort=15)
        self.assertEqual(str(found.outcome.ending.reply), "aborted 202")
        self.assertEqual(made(found)[-2:], ["5 exit 0", "kernel 3"])
        lines = list(report(found))
        said = "It is aborted with the status 202: the kernel aborts it after step 15."
        self.assertIn(said, lines)
        left = lines[lines.index(DIFFERS) + 1 :]
        # The close and process 5 are taken back. The byte that process 2 read, and the others, and
        # the signal that came from outside, stay.
        self.assertEqual(
            left,
            [
                "  page 0 of 2 sh has changed",
                "  signal USR1 is pending at 3 child",
                "  process 4 writer is new",
                "  pipe 1 has 3 bytes (was 0)",
                "Others made 5 steps meanwhile, which the abort does not undo:",
                "  step 8 (2 fork 4, line 5)",
                '  step 9 (4 store 0 "abcd", line 7)',
                "  step 10 (4 write 6 0 4, line 8)",
                "  step 11 (2 read 5 0 1, line 9)",
                "  step 12 (1 kill 3 USR1, line 10)",
            ],
        )

    def test_what_others_have_done_is_left_and_counted(self):
        found = trial(
            """
            2 pipe 0 0 1 = ok 0
            2 fork 3 = ok 3
            # 3 is child
            2 dup 3 = ok 5
            2 pipe 1 2 3 = ok 0
            2 write 4 0 1 = ok 1
            3 exit 0 = ended
            2 waitpid 3 wait = ok 3
            """,
            3,
            abort=0,
        )
        lines = list(report(found))
        left = lines[lines.index(DIFFERS) + 1 :]
        self.assertEqual(
            left[:-4],
            [
                "  2 sh has 2 descriptors that read pipe 0 (was 1)",
                "  2 sh has 1 descriptor that reads pipe 1 (was 0)",
                "  2 sh has 1 descriptor that writes pipe 1 (was 0)",
                "  pipe 0 has 1 byte (was 0)",
                "  pipe 1 is new",
            ],
        )

    def listed(self, stores):
        """What is listed of others, of which one forks and the other one stores so often."""
        others = "\n".join(f'4 store {it} "a"' for it in range(stores))
        text = f"2 fork 3 = ok 3\n2 fork 4 = ok 4\n# 4 is other\n{others}\n3 exit 0 = ended"
        lines = list(report(trial(text, 3, abort=0)))
        said = f"Others made {stores + 1} steps meanwhile, which the abort does not undo:"
        return lines[lines.index(said) + 1 :]

    def test_nine_steps_of_others_are_listed_one_by_one(self):
        stores = [f'  step {7 + it} (4 store {it} "a", line {4 + it})' for it in range(8)]
        self.assertEqual(self.listed(8), ["  step 6 (2 fork 4, line 2)", *stores])

    def test_ten_steps_of_others_are_listed_by_their_processes(self):
        self.assertEqual(
            self.listed(9),
            [
                "  2 sh: step 6 (2 fork 4, line 2)",
                '  4 other: 9 steps, the first is step 7 (4 store 0 "a", line 4)',
            ],
        )

    def test_a_step_before_its_begin_or_after_its_end_is_none_for_an_abort(self):
        for step, said in [
            (5, "step 5 is too early for an abort: process 3 tr begins after step 6"),
            (19, "step 19 is too late for an abort: the transaction ends at step 14"),
            (20, "there is no step 20: the recording has 19"),
        ]:
            with self.assertRaisesRegex(Fault, re.escape(said)):
                trial(PIPELINE, 3, abort=step)

    def test_who_does_not_end_can_not_abort_itself(self):
        with self.assertRaisesRegex(Fault, "3 daemon does not end in the recording"):
            trial("2 fork 3 = ok 3\n# 3 is daemon\n3 getpid = ok 3", 3, abort=0)

    def test_who_waits_for_ever_does_not_come_to_its_abort(self):
        found = trial(PIPELINE, 4, abort=0)
        self.assertIn("It never gets to its sys_xabort.", list(report(found)))
        self.assertEqual(len(found.circles), 1)


class Written(unittest.TestCase):
    """A trial as a recording."""

    def test_it_has_the_steps_in_the_order_made_and_who_waited(self):
        written = written_by(self, trial(PIPELINE, 4))
        self.assertEqual(
            [it.spelled() for it in written.steps[1:]],
            [
                "2 pipe 0 0 1  # = ok 0  # 1 call",
                "2 fork 3  # = ok 3  # 2 call",
                "2 fork 4  # = ok 4  # 4 call",
                "4 sys_xbegin",
                "2 close 0  # = ok 0  # 6 call",
                "2 close 1  # = ok 0  # 7 call",
                "3 close 0  # = ok 0  # 8 call",
                "3 write 1 0 6  # = ok 6  # 9 call",
                "4 close 1  # = ok 0  # 10 call",
                "4 read 0 0 6  # = ok 6  # 11 call",
                "3 exit 0  # = no N8 4",
                "4 read 0 0 1  # = no N9",
                "2 waitpid 3 wait  # = no N9",
            ],
        )
        names = [(it.index, it.process, it.command) for it in written.names]
        self.assertEqual(names, [(1, 2, "sh made.sh"), (4, 4, "cat -n"), (7, 3, "/bin/tr a-z A-Z")])
        self.assertEqual(
            [(it.kind, it.count, it.line) for it in written.left_out],
            [("step that the trial does not come to", 6, 12)],
        )

    def test_what_is_left_out_is_counted(self):
        files = "2 dup 15 = ok 3\n2 fork 3 = ok 3\n# 3 is child\n3 close 3 = ok 0\n3 exit 0 = ended"
        written = written_by(self, trial(files, 3))
        self.assertEqual(
            [(it.kind, it.count, it.line) for it in written.left_out],
            [("step of a file, which takes no part in a trial", 2, 1)],
        )

    def test_an_abort_is_a_step(self):
        written = written_by(self, trial(ABORTED, 3, abort=15))
        self.assertEqual(written.steps[-1].text, "kernel 3")

    def test_it_says_what_was_tried(self):
        tried = "sh made.sh, with 3 {} as a transaction"
        self.assertEqual(written_by(self, trial(PIPELINE, 3)).command, tried.format("tr"))
        for abort in (0, 15):
            written = written_by(self, trial(ABORTED, 3, abort=abort))
            self.assertEqual(written.command, f"{tried.format('child')} that is aborted")
        # Process 4 waits for ever, and so never aborts itself.
        written = written_by(self, trial(PIPELINE, 4, abort=0))
        self.assertEqual(written.command, "sh made.sh, with 4 cat as a transaction")

    def test_it_says_what_was_tried_with_a_long_command(self):
        made = recording(PIPELINE)
        made.command = f"sh {'x' * 600}"
        plan = make_plan(made)
        (found,) = try_all(plan, [Question(choose(plan, "3"))], is_explained=True)
        command = written_by(self, found).command
        self.assertTrue(command.endswith("x..., with 3 tr as a transaction"), command)


class Files(unittest.TestCase):
    """A recording without its files."""

    def check(self, text, steps):
        """Sees what steps become, after the setup, and that the kernel answers them as Linux."""
        left = without_files(recording(text))
        found = [it for _, it in left.steps if it.line]
        spelled = [f"{it.text} = {it.expected}" if it.expected else it.text for it in found]
        self.assertEqual(spelled, steps)
        answers = answers_of([it.text for _, it in left.steps])
        for (_, step), answer in zip(left.steps, answers):
            self.assertEqual(answer, step.expected or answer)
        return left

    def test_files_do_not_exist_and_pipes_have_the_least_descriptors(self):
        left = self.check(
            """
            2 dup 15 = ok 3
            2 pipe 0 0 1 = ok 0
            2 set_nonblock 4 on = ok 0
            2 write 5 0 1 = ok 1
            2 dup 4 = ok 6
            2 dup 3 = ok 7
            2 close 3 = ok 0
            2 close 5 = ok 0
            """,
            [
                "2 pipe 0 0 1 = ok 0",
                "2 set_nonblock 0 on = ok 0",
                "2 write 1 0 1 = ok 1",
                "2 dup 0 = ok 2",
                "2 close 1 = ok 0",
            ],
        )
        self.assertEqual(left.left_out, [4, 9, 10])

    def test_a_file_that_takes_the_place_of_a_pipe_closes_it(self):
        self.check(
            """
            2 pipe 0 0 1 = ok 0
            2 dup2 4 1 = ok 1
            2 dup2 15 4 = ok 4
            2 dup2 15 9 = ok 9
            2 dup2 3 9 = ok 9
            2 dup2 1 1 = ok 1
            """,
            [
                "2 pipe 0 0 1 = ok 0",
                "2 dup2 1 2 = ok 2",  # its own number is that of the write side here
                "2 close 1 = ok 0",
                "2 dup2 0 9 = ok 9",
                "2 dup2 2 2 = ok 2",
            ],
        )

    def test_what_fails_on_purpose_fails_still(self):
        self.check(
            """
            2 pipe 0 0 1 = ok 0
            2 close 3 = ok 0
            2 close 0 = ok 0
            2 close 0 = ok -9
            2 write 3 0 1 = ok -9
            2 read 4 0 1 = ok -9
            2 dup 3 = ok -9
            2 dup2 3 4 = ok -9
            2 dup2 4 77 = ok -9
            2 close -1 = ok -9
            2 close 77 = ok -9
            """,
            [
                "2 pipe 0 0 1 = ok 0",
                "2 close 0 = ok 0",
                "2 close 0 = ok -9",
                "2 write 3 0 1 = ok -9",
                "2 read 1 0 1 = ok -9",
                "2 dup 3 = ok -9",
                "2 dup2 3 1 = ok -9",
                "2 dup2 1 77 = ok -9",
                "2 close -1 = ok -9",
                "2 close 77 = ok -9",
            ],
        )

    def test_what_is_not_open_has_a_number_that_is_not_open_here(self):
        self.check(
            "2 close 0 = ok 0\n2 pipe 0 0 1 = ok 0\n2 close 0 = ok 0\n2 close 0 = ok -9",
            ["2 pipe 0 0 1 = ok 0", "2 close 0 = ok 0", "2 close 0 = ok -9"],
        )
        self.check(
            "2 pipe 0 0 1 = ok 0\n2 close 0 = ok 0\n2 close 0 = ok -9",
            ["2 pipe 0 0 1 = ok 0", "2 close 16 = ok -9"],
        )

    def test_a_child_has_what_its_parent_had(self):
        self.check(
            """
            2 pipe 0 0 1 = ok 0
            2 fork 3 = ok 3
            2 close 3 = ok 0
            3 dup2 4 1 = ok 1
            3 exit 0 = ended
            2 waitpid 3 wait = ok 3
            2 fork 3 = ok 3
            3 close 3 = ok -9
            """,
            [
                "2 pipe 0 0 1 = ok 0",
                "2 fork 3 = ok 3",
                "2 close 0 = ok 0",
                "3 dup2 1 2 = ok 2",
                "3 exit 0 = ended",
                "2 waitpid 3 wait = ok 3",
                "2 fork 3 = ok 3",
                "3 close 3 = ok -9",
            ],
        )

    def test_no_process_has_the_pipe_open_that_files_have(self):
        left = without_files(recording("2 dup 15 = ok 3\n2 fork 3 = ok 3\n3 dup2 15 5 = ok 5"))
        with Kernel(ROOT) as kernel:
            for _, step in left.steps:
                kernel.step(step.text)
            self.assertEqual((kernel.state().descs, kernel.state().pipes), ({}, {}))

    def test_files_are_in_nobodys_way(self):
        found = trial(
            """
            2 dup 15 = ok 3
            2 fork 3 = ok 3
            # 3 is child
            3 close 3 = ok 0
            3 dup 15 = ok 3
            2 close 3 = ok 0
            2 dup 15 = ok 3
            3 exit 0 = ended
            """,
            3,
        )
        self.assertEqual(waits(found), [])
        self.assertIn("5 steps of files took no part.", list(report(found)))


class Circles(unittest.TestCase):
    """Circles of those who wait for one another, found in links that are given."""

    def circles(self, *pairs):
        """The circles where the first of each pair waits for the second, as numbers."""
        numbers = sorted({it for pair in pairs for it in pair})
        waits = {it: Wait(None, Why.CALL, it) for it in numbers}
        forever = [
            Forever(wait, [Link(wait, None, waits[to]) for of, to in pairs if of == it])
            for it, wait in waits.items()
        ]
        return [[it.wait.began for it in circle] for circle in find_circles(forever)]

    def test_a_circle_comes_back_to_where_it_began(self):
        self.assertEqual(self.circles((1, 2), (2, 1)), [[1, 2]])
        self.assertEqual(self.circles((1, 2), (2, 3), (3, 1)), [[1, 2, 3]])
        self.assertEqual(self.circles((1, 1)), [[1]])

    def test_a_way_that_does_not_come_back_is_none(self):
        self.assertEqual(self.circles((1, 2), (2, 3)), [])
        self.assertEqual(self.circles((1, 2), (1, 3), (2, 4), (3, 4)), [])

    def test_who_only_waits_for_a_circle_is_not_in_it(self):
        self.assertEqual(self.circles((1, 2), (2, 3), (3, 2)), [[2, 3]])

    def test_the_shortest_is_found_and_others_that_share_nobody(self):
        self.assertEqual(self.circles((1, 2), (2, 3), (3, 1), (2, 1)), [[1, 2]])
        self.assertEqual(
            self.circles((1, 2), (2, 3), (3, 1), (4, 5), (5, 4), (3, 4)), [[4, 5], [1, 2, 3]]
        )


class Words(unittest.TestCase):
    """Which process a word means."""

    NAMES = """
    2 fork 3 = ok 3
    # 3 is sh 'made.sh', forked
    # 3 is /usr/bin/tr a-z A-Z
    2 fork 4 = ok 4
    # 4 is grep tr
    3 exit 0 = ended
    4 exit 0 = ended
    2 waitpid 3 wait = ok 3
    2 fork 3 = ok 3
    # 3 is cat tr
    3 exit 0 = ended
    """

    def chosen(self, word):
        plan = make_plan(recording(self.NAMES))
        return plan.spelled(choose(plan, word))

    def test_a_word_is_a_number_a_command_or_a_word_of_a_name(self):
        self.assertEqual(self.chosen("2"), "2 sh")
        self.assertEqual(self.chosen("4"), "4 grep")
        self.assertEqual(self.chosen("grep"), "4 grep")
        self.assertEqual(self.chosen("tr"), "3@7 tr")  # the command goes before other words
        self.assertEqual(self.chosen("sh"), "2 sh")

    def test_a_number_that_was_used_again_is_that_at_a_step(self):
        self.assertEqual(self.chosen("3@7"), "3@7 tr")
        self.assertEqual(self.chosen("3@9"), "3@7 tr")
        self.assertEqual(self.chosen("3@11"), "3@11 cat")
        with self.assertRaisesRegex(Fault, "3 means several processes; .*: 3@7 tr, 3@11 cat$"):
            self.chosen("3")

    def test_a_word_of_several_or_of_none_lists_them(self):
        with self.assertRaisesRegex(Fault, "made.sh means several .*: 2 sh, 3@7 tr$"):
            self.chosen("made.sh")
        for word in ("9", "sed", "3@1", ""):
            with self.assertRaisesRegex(
                Fault, f"^there is no process '{word}'; .* 2 sh, 3@7 tr, 4 grep, "
            ):
                self.chosen(word)
        with self.assertRaisesRegex(Fault, "process 1 is everybody who was not recorded"):
            self.chosen("1")

    def test_a_process_whose_number_was_used_again_is_tried_for_itself(self):
        plan = make_plan(recording(self.NAMES))
        (found,) = try_all(plan, [Question(choose(plan, "3@11"))], is_explained=True)
        steps = made(found)
        self.assertEqual(steps[-3:], ["2 fork 3", "3 sys_xbegin", "3 exit 0"])


class Command(unittest.TestCase):
    """What the command prints, writes, and answers."""

    def setUp(self):
        folder = tempfile.TemporaryDirectory()
        self.addCleanup(folder.cleanup)
        self.folder = Path(folder.name)
        self.file = self.folder / "made.txos"
        self.file.write_text(recording(PIPELINE).text())

    def run_trial(self, *words):
        """The status, and what goes to standard output and to standard error."""
        out, err = io.StringIO(), io.StringIO()
        with redirect_stdout(out), redirect_stderr(err):
            try:
                status = main(["trial", str(self.file), *map(str, words)])
            except SystemExit as end:
                status = end.code
        return status, out.getvalue(), err.getvalue()

    def test_a_report(self):
        self.assertEqual(
            self.run_trial("cat"),
            (
                0,
                """\
The transaction is 4 cat and all that it forks. (Lines are those of the log.)
It begins after step 7 (2 fork 4, line 4).
It never ends.

Who waits for ever:
  3 tr at step 14 (3 exit 0, line 12): the transaction has pipe 0 and \
description 1 (writes pipe 0), reserved since step 12 (4 close 4, line 10)
  4 cat at step 15 (4 read 3 0 1, line 13): pipe 0 has no byte; \
4 cat waits for 3 tr at step 14 (3 exit 0, line 12)
  2 sh at step 17 (2 waitpid 3 wait, line 15): process 3 tr has not ended; \
2 sh waits for 3 tr at step 14 (3 exit 0, line 12)

A circle: 3 tr - pipe 0 - 4 cat - pipe 0 - 3 tr
  3 tr waits until 4 cat ends at step 16 (4 exit 0, line 14): its transaction has reserved pipe 0
  4 cat waits until 3 tr closes pipe 0 at step 14 (3 exit 0, line 12)

Every step that was made got Linux's answer.

Steps that are not made:
  6 steps at or after a wait for ever
""",
                "",
            ),
        )

    def test_a_table_of_all(self):
        self.assertEqual(
            self.run_trial("--all"),
            (
                0,
                """\
process  steps  outcome             others waited            for ever
2 sh     9      commits at step 19  -                        -
3 tr     3      commits at step 14  1 process, up to 1 step  -
4 cat    4      never ends          -                        3 processes; \
circle: 3 tr - pipe 0 - 4 cat - pipe 0 - 3 tr

Waits are counted in the steps that others made meanwhile.
""",
                "",
            ),
        )

    def test_the_recording_of_a_trial(self):
        out = self.folder / "out.txos"
        status, said, _ = self.run_trial("-o", out, "tr")
        self.assertEqual(status, 0)
        self.assertIn("It commits at step 14 (3 exit 0, line 12).\n", said)
        written = read_recording(out.read_text())
        self.assertEqual(written.command, "sh made.sh, with 3 tr as a transaction")
        self.assertIn("3 sys_xbegin", [it.text for it in written.steps])
        self.assertEqual(sorted(os.listdir(self.folder)), ["made.txos", "out.txos"])

    def test_a_trial_does_not_replace_the_recording_that_it_reads(self):
        before = self.file.read_text()
        link, twin = self.folder / "link.txos", self.folder / "twin.txos"
        link.symlink_to(self.file)
        os.link(self.file, twin)
        for out in (self.file, link, twin):
            with self.subTest(out=out.name):
                said = f"txos-record: -o {out} is the recording that is read; name another file\n"
                self.assertEqual(self.run_trial("tr", "-o", out), (1, "", said))
        words = [sys.executable, "-m", "txos", "trial", "-", "tr", "-o", str(link)]
        with self.file.open() as file:
            ran = subprocess.run(words, stdin=file, capture_output=True, text=True, check=False)
        said = f"txos-record: -o {link} is the recording that is read; name another file\n"
        self.assertEqual((ran.returncode, ran.stdout, ran.stderr), (1, "", said))
        self.assertEqual(self.file.read_text(), before)

    def test_a_recording_of_a_trial_is_not_tried(self):
        out = self.folder / "out.txos"
        self.run_trial("tr", "--abort", "13", "-o", out)
        self.file.write_text(out.read_text())
        said = (
            "txos-record: this file is the output of a trial; "
            "give the recording that it was made from\n"
        )
        self.assertEqual(self.run_trial("tr"), (1, "", said))

    def test_what_is_wrong_is_reported_and_nothing_is_written(self):
        for words, status, said in [
            (["sed"], 1, "there is no process 'sed'; the processes are 2 sh, 3 tr, 4 cat"),
            (["tr", "--abort", "99"], 1, "there is no step 99: the recording has 19"),
            (["tr", "--abort", "x"], 2, "x is not the number of a step"),
            (["tr", "--abort", "0"], 2, "0 is not the number of a step"),
            ([], 2, "the following arguments are required: PROCESS"),
            (["--all", "tr"], 2, "--all takes no PROCESS"),
            (["--all", "-o", "out.txos"], 2, "--all takes no PROCESS"),
            (["--all", "--abort"], 2, "--all takes no PROCESS"),
            (["tr", "-o", self.folder / "no" / "out"], 1, "No such file or directory"),
        ]:
            with self.subTest(words):
                found, out, err = self.run_trial(*words)
                self.assertEqual((found, out), (status, ""))
                self.assertIn(said, err)
        self.assertEqual(os.listdir(self.folder), ["made.txos"])

    def test_a_file_that_is_no_recording_is_reported(self):
        self.file.write_text("txos 3 schedule 2\n2 getpid\n")
        status, out, err = self.run_trial("2")
        self.assertEqual((status, out), (1, ""))
        self.assertTrue(err.startswith(f"txos-record: {self.file}: line 1: "), err)


def play(seed, count):
    """The text of a recording made at random: steps that a kernel accepts, and its answers."""
    chance, lines, forked = random.Random(seed), [], ROOT
    with Kernel(ROOT) as kernel:
        for line in HEAD.splitlines():
            if line[0].isdigit():
                kernel.step(line)
        while len(lines) < count:
            step = any_step(chance, kernel.state(), forked + 1)
            try:
                answer = str(kernel.step(step))
            except Refused:
                continue
            call = step.split()[1]
            # The others may answer what a register had, which may be a descriptor.
            is_compared = answer == "ended" or call not in ("sigreturn", "deliver")
            lines.append(f"{step} = {answer}" if is_compared else step)
            if call == "fork":
                forked += 1
                lines.append(f"# {forked} is random{forked}")
    return "\n".join(lines)


def any_step(chance, state, child):
    """A step at random of a process that runs; the first one does not end."""
    process = chance.choice([it for it in state.procs.values() if it.running and it.pid != 1])
    fd = chance.choice([it for it, desc in process.fds.items() if desc not in (62, 63)] or [77])
    pipe = next(it for it in range(31) if it not in state.pipes)
    target, is_first = chance.choice(sorted(state.procs)), process.pid == ROOT
    calls = [
        *[f"read {fd} 0 {chance.choice([1, 3])}", f"write {fd} 0 {chance.choice([1, 3])}"] * 3,
        *[f"close {fd}", f"dup {fd}", f"dup2 {fd} {chance.randrange(15)}"],
        *["dup 15", f"dup2 15 {chance.randrange(15)}", f"close {chance.randrange(15)}"],
        *[f"pipe {pipe} {2 * pipe} {2 * pipe + 1}", f"set_nonblock {fd} on"],
        *[f"waitpid {target} {chance.choice(['wait', 'nohang'])}"] * 2,
        *[f"kill {target} {chance.choice(['USR1', 'CHLD', 'TERM', '0'])}"],
        *[f"sigaction {chance.choice(['USR1', 'CHLD'])} {chance.choice(['catch 9 -', 'ignore'])}"],
        *[f"deliver {it}" for it in process.pending if not is_first or it in process.actions] * 4,
        *(["sigreturn"] if process.frames else []),
        *([f"fork {child}"] * 2 if child < 10 else []),
        *([] if is_first else ["exit 0"]),
    ]
    return f"{process.pid} {chance.choice(calls)}"


class EveryRecording(unittest.TestCase):
    """What holds of every trial, tried with recordings made at random, and with real ones."""

    def check_without_files(self, made):
        """Sees that a recording is answered without its files as it is with them."""
        answers = answers_of([it.text for it in made.steps])
        left = without_files(made)
        for (index, step), answer in zip(left.steps, answers_of([it.text for _, it in left.steps])):
            if answers[index] == made.steps[index].expected:
                self.assertEqual(answer, step.expected, (index, step))
            self.assertEqual(answer.startswith("no "), answers[index].startswith("no "), step)

    def check_trials(self, made):
        """Sees that the trial of each process of a recording is as a trial has to be."""
        plan = make_plan(made)
        for found in try_all(plan, [Question(it) for it in plan.lives], is_explained=True):
            with self.subTest(starter=found.outcome.question.starter.label):
                self.check_order(found)
                self.check_ends(found)
                written_by(self, found)
                list(report(found))

    def check_order(self, found):
        """Each process makes its steps in their order; without a transaction all do."""
        plain = found.plain
        self.assertEqual((plain.waits, plain.differing, plain.left_out), ([], [], []))
        self.assertEqual(
            texts(it.turn for it in plain.made if it.turn not in plain.rests),
            texts(it for it in found.plan.turns if it not in plain.rests),
        )
        for life in found.plan.lives:
            turns = [it.turn for it in found.outcome.made if it.turn.life is life]
            indices = [it.index for it in turns if not it.added]
            if not any(it.life is life for it in found.outcome.interrupts):
                self.assertEqual(indices, sorted(indices))

    def check_ends(self, found):
        """Each step is made, is left out, or waits, or comes after one that waits."""
        outcome = found.outcome
        gone = {it.turn for it in (*outcome.made, *outcome.left_out)} | {*outcome.rests}
        waiting = {it.wait.life for it in found.forever}
        for turn in found.plan.turns:
            life = turn.life
            if turn not in gone and not life.is_outside:
                while life not in waiting and life.fork not in gone:
                    life = life.parent
                self.assertIn(life, waiting)
        for circle in found.circles:
            for link, after in zip(circle, [*circle[1:], circle[0]]):
                self.assertIs(link.next, after.wait)
                self.assertIsNone(link.wait.ended)
                self.assertNotIn(link.turn, gone)

    def test_recordings_made_at_random(self):
        for seed in range(30):
            with self.subTest(seed=seed):
                made = recording(play(seed, 60))
                self.check_without_files(made)
                if seed < 12:
                    self.check_trials(made)

    def test_recordings_of_real_processes(self):
        files = sorted((Path(__file__).resolve().parents[2] / "tests/recordings").glob("*.txos"))
        if not files:
            self.skipTest("no tests/recordings beside the package")
        for number, file in enumerate(files):
            with self.subTest(file=file.name):
                made = read_recording(file.read_text())
                self.check_without_files(made)
                if number % 3 == 0:
                    self.check_trials(made)


if __name__ == "__main__":
    unittest.main()
