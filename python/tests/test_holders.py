"""Tests of txos.holders, txos.waits and txos.losses: who holds, who waits, and what is lost."""

import io
import os
import tempfile
import unittest
from contextlib import redirect_stderr, redirect_stdout

import txos.command
from txos.forcing import forced_after
from txos.holders import Report
from txos.losses import Harm, lost_signals, zombies_after, zombies_until
from txos.recording import read_recording
from txos.replays import Replay
from txos.waits import Holder, Moment, find_chain, find_circle, holders_of, reason_of, waits_after

HEAD = "txos 3 schedule 2\n# recorded: sh -c x\n# log: 99 lines\n# factor: 1\n"
# The setup, then steps 5 to 13: cat has the pipe at 0, and sleep and sh hold its write end.
HANG = """2 map 0
2 pipe 31 62 63
2 dup2 1 15
2 dup 15
# 2 is sh -c 'sleep 9 | cat'
2 pipe 0 0 1  # = ok 0  # 10 pipe2
2 fork 3  # = ok 3  # 11 clone
# 3 is sleep 9
3 dup2 4 1  # = ok 1  # 12 dup2
3 close 4  # = ok 0  # 13 close
2 fork 4  # = ok 4  # 14 clone
# 4 is /bin/cat
4 dup2 3 0  # = ok 0  # 15 dup2
4 close 4  # = ok 0  # 16 close
2 waitpid 3 wait  # = no N9  # 17 wait4
4 read 0 0 1  # = no N9  # 18 read
"""
# Then ^C ends sleep, sh and cat, in the steps 15, 17 and 19.
INTERRUPTED = """1 kill 3 INT  # 20 SIGINT
3 deliver INT  # = ended  # 20 SIGINT
1 kill 2 INT  # 21 SIGINT
2 deliver INT  # = ended  # 21 SIGINT
1 kill 4 INT  # 22 SIGINT
4 deliver INT  # = ended  # 22 SIGINT
"""
CATCHES = "2 sigaction CHLD catch 1000 -  # = ok 0  # 9 rt_sigaction\n"
# Two children that end before the first signal is delivered, in the steps 4 and 5.
TWO_ENDS = """2 fork 3  # = ok 3  # 10 clone
2 fork 4  # = ok 4  # 11 clone
3 exit 3  # = ended  # 12 exit_group
4 exit 4  # = ended  # 13 exit_group
2 deliver CHLD  # 14 SIGCHLD
"""


def replayed(steps, head=HEAD):
    return Replay(read_recording(head + steps))


def reported(steps, at=None, head=HEAD):
    """The parts of the report: lines between lines that are empty."""
    with replayed(steps, head) as replay:
        text = "\n".join(Report(replay, at).lines())
    return [it.split("\n") for it in text.split("\n\n")]


class Pipes(unittest.TestCase):
    """Who holds which side."""

    def test_each_holder_with_its_descriptors(self):
        read = "2 sh (descriptor 3), 3 sleep (descriptor 3), 4 cat (descriptors 0, 3)"
        write = "2 sh (descriptor 4), 3 sleep (descriptor 1)"
        said = f"pipe 0, empty: read side held by {read}; write side held by {write}"
        self.assertEqual(reported(HANG)[1], [said])

    def test_after_so_many_steps(self):
        held = "held by 2 sh (descriptor 3); write side held by 2 sh (descriptor 4)"
        self.assertEqual(reported(HANG, at=5)[1], [f"pipe 0, empty: read side {held}"])
        self.assertEqual(reported(HANG, at=4)[1], ["No pipe is open after step 4."])
        self.assertEqual(reported(HANG, at=0)[1], ["No pipe is open after step 0."])

    def test_a_side_that_nobody_holds(self):
        steps = "2 pipe 5 0 1\n2 close 0\n2 map 0\n"
        held = "pipe 5, empty: read side held by nobody; write side held by 2 (descriptor 1)"
        self.assertEqual(reported(steps)[1], [held])

    def test_how_much_it_holds(self):
        steps = "2 map 0\n2 pipe 5 0 1\n2 write 1 0 {}\n"
        for factor, count, size in (
            (1, 1, "1 byte"),
            (1, 12, "12 bytes"),
            (8, 1, "1 unit of 8 bytes"),
            (8, 3, "3 units of 8 bytes"),
        ):
            head = HEAD.replace("factor: 1", f"factor: {factor}")
            said = reported(steps.format(count), head=head)[1][0]
            self.assertTrue(said.startswith(f"pipe 5, {size}: "), said)


class Moments(unittest.TestCase):
    """The moment before the end was forced."""

    def test_a_signal_that_ends_nobody_does_not_force_the_end(self):
        caught = "2 sigaction USR1 catch 1000 -  # = ok 0  # 19 rt_sigaction\n"
        own = "3 kill 2 USR1  # = ok 0  # 19 kill\n2 deliver USR1  # = ok 0  # 19 SIGUSR1\n"
        head = reported(HANG + caught + own + INTERRUPTED)[0]
        self.assertEqual(head, ["After 16 of 22 steps, before 1 kill 3 INT: sh -c x"])

    def forced(self, steps):
        with replayed(steps) as replay:
            return forced_after(replay)

    def test_just_before_the_first_signal(self):
        self.assertEqual(self.forced(HANG + INTERRUPTED), 13)
        said = "After 13 of 19 steps, before 1 kill 3 INT: sh -c x"
        self.assertEqual(reported(HANG + INTERRUPTED)[0], [said])

    def test_who_gets_an_alarm_and_kills_the_others(self):
        alarm = "1 kill 2 ALRM  # 20 SIGALRM\n2 deliver ALRM  # = ok 0  # 20 SIGALRM\n"
        caught = HANG.replace(
            "2 pipe 0", "2 sigaction ALRM catch 1000 -  # = ok 0  # 9 x\n2 pipe 0"
        )
        kills = "2 kill 3 TERM  # = ok 0  # 21 kill\n3 deliver TERM  # = ended  # 22 SIGTERM\n"
        waits = "2 waitpid 3 nohang  # = ok 3  # 23 wait4\n"
        self.assertEqual(self.forced(caught + alarm + kills + waits), 14)

    def test_what_goes_on_after_a_signal_is_no_end(self):
        ended = "1 kill 3 TERM  # 20 SIGTERM\n3 deliver TERM  # = ended  # 20 SIGTERM\n"
        self.assertEqual(self.forced(HANG + ended), 13)
        fork = "2 fork 5  # = ok 5  # 21 clone\n"
        self.assertIsNone(self.forced(HANG + ended + fork))
        self.assertEqual(self.forced(HANG + ended + fork + ended.replace("3", "5")), 16)

    def test_who_is_to_end_may_fork_for_its_end(self):
        caught = HANG.replace("2 pipe 0", "2 sigaction INT catch 1000 -  # = ok 0  # 9 x\n2 pipe 0")
        steps = (
            "1 kill 2 INT  # 20 SIGINT\n2 deliver INT  # = ok 0  # 20 SIGINT\n"
            "2 fork 5  # = ok 5  # 21 clone\n5 fork 6  # = ok 6  # 22 clone\n"
            "2 exit 130  # = ended  # 23 exit_group\n"
        )
        self.assertEqual(self.forced(caught + steps), 14)
        self.assertIsNone(self.forced(caught + steps.replace("1 kill 2 INT", "1 kill 2 USR1")))

    def test_a_recording_that_ends_by_itself(self):
        exits = "".join(f"{it} exit 0  # = ended  # 2{it} exit_group\n" for it in (3, 4, 2))
        # A signal that a process sends to itself, or that nobody ends of, forces nothing.
        for steps in ("", "2 kill 2 USR1\n", "1 kill 2 USR1\n", "2 kill 2 TERM\n"):
            caught = "2 sigaction USR1 ignore\n" if "USR1" in steps else ""
            self.assertIsNone(self.forced(HANG + caught + steps + exits), steps)
        self.assertEqual(reported(HANG)[0], ["After 13 of 13 steps: sh -c x"])
        self.assertIsNone(self.forced(HANG + INTERRUPTED.split("\n", 1)[0] + "\n"))


class Waits(unittest.TestCase):
    """Calls that wait."""

    def test_each_that_waits_before_the_end_was_forced(self):
        said = [
            "step 12, line 17 of the log: 2 sh waits for 3 sleep to end",
            "  it waited until 3 sleep was killed by INT (step 15)",
            "step 13, line 18 of the log: 4 cat waits to read from pipe 0, which is empty",
            "  it waited until 2 sh was killed by INT (step 17)",
            "  write side held by 2 sh (descriptor 4), 3 sleep (descriptor 1)",
            "  2 sh waits for 3 sleep to end (step 12)",
        ]
        self.assertEqual(reported(HANG + INTERRUPTED)[2], said)

    def test_one_that_ended_since_another_was_killed(self):
        ended = HANG.replace("4 read 0 0 1  # = no N9  # 18 read\n", "")
        steps = INTERRUPTED.replace("1 kill 4", "4 read 0 0 1  # = ok 0  # 21 read\n1 kill 4")
        self.assertEqual(
            reported(ended + steps)[2][2:4],
            [
                "step 17, line 21 of the log: 4 cat waits to read from pipe 0, which is empty",
                "  it waited until 2 sh was killed by INT (step 16)",
            ],
        )

    def test_a_call_that_comes_after_others_does_not_wait_yet(self):
        steps = HANG.replace("4 read", "4 close 9  # = ok -9  # 17 close\n4 read")
        self.assertEqual(len(reported(steps, at=12)[2]), 2)
        self.assertEqual(len(reported(steps, at=13)[2]), 6)

    def test_a_call_that_comes_after_a_signal_does_not_wait_yet(self):
        caught = "4 sigaction INT catch 1000 -  # = ok 0  # 16 rt_sigaction\n"
        signal = "1 kill 4 INT  # 17 SIGINT\n4 deliver INT  # = ok 0  # 17 SIGINT\n"
        steps = HANG.replace("2 waitpid", caught + "2 waitpid")
        steps = steps.replace("4 read", signal + "4 read")
        self.assertEqual(len(reported(steps, at=13)[2]), 2)
        children = signal.replace("INT", "CHLD")
        self.assertEqual(len(reported(steps.replace(signal, children), at=13)[2]), 6)

    def test_to_the_end_of_the_recording(self):
        self.assertEqual(reported(HANG)[2][1], "  it waited to the end of the recording")

    def test_the_process_ends_before_anything_would_end_its_call(self):
        ended = "1 kill 4 TERM  # 20 SIGTERM\n4 deliver TERM  # = ended  # 20 SIGTERM\n"
        for steps, step in (
            (ended, 15),
            # What closes early is a part of the end.
            (ended.replace("4 deliver", "4 close 0  # = ok 0  # 20 SIGTERM\n4 deliver"), 16),
        ):
            said = f"  it waited until it was killed by TERM (step {step})"
            self.assertIn(said, reported(HANG + steps)[2])
        # A process at which SIGKILL is pending does nothing any more.
        said = "  it waited until it was killed by KILL (step 15)"
        self.assertIn(said, reported(HANG + ended.replace("TERM", "KILL"))[2])
        exits = "4 close 0  # = ok 0  # 20 exit_group\n4 exit 7  # = ended  # 20 exit_group\n"
        said = "  it waited until it ended by exit 7 (step 15)"
        self.assertIn(said, reported(HANG + exits)[2])

    def test_the_process_goes_on(self):
        steps = HANG + "4 close 9  # = ok -9  # 21 close\n"
        self.assertIn("  it waited until step 14: 4 close 9", reported(steps)[2])
        caught = HANG.replace("4 close 4", "4 sigaction INT catch 1000 -\n4 close 4")
        signal = "4 sigreturn  # 20 rt_sigreturn\n4 close 9  # = ok -9  # 21 close\n"
        signal = f"1 kill 4 INT  # 19 SIGINT\n4 deliver INT  # = ok 0  # 19 SIGINT\n{signal}"
        self.assertIn("  it waited until INT came (step 16)", reported(caught + signal)[2])

    def test_a_call_after_which_its_process_went_on_is_no_hang(self):
        more = "2 write 4 0 1  # = ok 1  # 20 write\n4 read 0 0 1  # = ok 1  # 21 read\n"
        for steps, count in ((HANG, 2), (HANG + more, 0)):
            waits = [it for it in reported(steps)[2] if it.startswith("step")]
            self.assertEqual(len(waits), count)
        idle = "4 close 9  # = ok -9  # 20 close\n4 read 0 0 1  # = ok -11  # 20 read\n"
        self.assertIn("step 13, line 18", "\n".join(reported(HANG + idle)[2]))

    def test_at_a_step_only_those_that_wait_then(self):
        self.assertEqual(reported(HANG, at=4)[2], ["No call waits after step 4."])
        said = [
            "step 12, line 17 of the log: 2 sh waits for 3 sleep to end",
            "  it waited until 3 sleep was killed by INT (step 15)",
        ]
        self.assertEqual(reported(HANG + INTERRUPTED, at=14)[2][:2], said)
        self.assertEqual(reported(HANG + INTERRUPTED, at=18)[2], ["No call waits after step 18."])
        end = ["No call waits at the end of the recording."]
        self.assertEqual(reported(HANG + INTERRUPTED, at=19)[2], end)

    def test_a_call_that_the_kernel_lacks(self):
        note = "# 3 waits in futex since line 9\n"
        said = "line 9 of the log: 3 sleep waits in futex, which the kernel does not have"
        ended = [said, "  it waited until it was killed by INT (step 15)"]
        self.assertEqual(reported(HANG + note + INTERRUPTED)[2][-2:], ended)
        self.assertEqual(
            reported(HANG + note)[2][-2:], [said, "  it waited to the end of the recording"]
        )
        goes_on = HANG + note + "3 close 9  # = ok -9  # 20 close\n"
        self.assertIn("  it waited until step 14: 3 close 9", reported(goes_on, at=13)[2])
        self.assertNotIn(said, reported(goes_on)[2])
        self.assertNotIn(said, reported(HANG + note, at=12)[2])

    def test_a_number_that_is_used_again_waits_no_more(self):
        killed = "1 kill 4 TERM\n4 deliver TERM\n2 waitpid 4 wait\n2 fork 4\n"
        steps = HANG.replace("2 waitpid 3 wait  # = no N9  # 17 wait4\n", "")
        with replayed(steps + killed) as replay:
            self.assertEqual([it.process for it in waits_after(replay, 12)], [4, 2])
            self.assertEqual(waits_after(replay, len(replay)), [])

    def test_a_poll_of_two_pipes(self):
        steps = (
            "2 pipe 0 0 1\n2 pipe 1 2 3\n2 fork 3  # = ok 3  # 5 clone\n2 close 3\n3 close 1\n"
            "2 read 0 0 1  # = no N9  # 6 poll\n2 read 2 0 1  # = no N9  # 6 poll\n"
        )
        said = [
            "step 7, line 6 of the log: 2 waits in poll to read from pipe 0, which is empty",
            "  it waited to the end of the recording",
            "  write side held by 2 (descriptor 1)",
            "  a circle: 2 waits for itself",
            "step 8, line 6 of the log: 2 waits in poll to read from pipe 1, which is empty",
            "  it waited to the end of the recording",
            "  write side held by 3 (descriptor 3)",
        ]
        self.assertEqual(reported("2 map 0\n" + steps)[2], said)
        # Before the call it would wait for both too; when it goes on, it waits for none.
        for at, end, count in ((6, "", 7), (9, "2 close 9  # = ok -9  # 7 close\n", 1)):
            self.assertEqual(len(reported("2 map 0\n" + steps + end, at=at)[2]), count, at)

    def test_a_full_pipe(self):
        steps = (
            "2 map 0\n2 pipe 7 0 1\n2 fork 3  # = ok 3  # 5 clone\n"
            + "2 write 1 0 64  # = ok 64  # 6 write\n" * 8
            + "2 write 1 0 1  # = no N9  # 7 write\n"
        )
        said = [
            "step 12, line 7 of the log: 2 waits to write to pipe 7, which has no room for it",
            "  it waited to the end of the recording",
            "  read side held by 2 (descriptor 0), 3 (descriptor 0)",
            "  a circle: 2 waits for itself",
        ]
        self.assertEqual(reported(steps)[2], said)

    def test_a_circle_of_two(self):
        steps = HANG.replace("waitpid 3 wait", "waitpid 4 wait")
        said = reported(steps)[2]
        self.assertIn("  a circle: 2 sh waits for 4 cat waits for 2 sh", said)
        self.assertIn("  a circle: 4 cat waits for 2 sh waits for 4 cat", said)
        self.assertIn(
            "  4 cat waits to read from pipe 0, which is empty (step 13); "
            "write side held by 2 sh (descriptor 4), 3 sleep (descriptor 1)",
            said,
        )

    def test_a_call_that_does_not_wait_here(self):
        steps = "2 close 3  # = no N9  # 5 close\n"
        said = ["step 1, line 5 of the log: 2 close 3: Linux waited, here ok -9"]
        self.assertEqual(reported(steps)[2], said)

    def test_no_call_waits(self):
        none = ["No call waits at the end of the recording."]
        self.assertEqual(reported("2 map 0\n")[2], none)


class Chains(unittest.TestCase):
    """For whom those wait who could end a wait."""

    # 2 waits for 3, 3 for 4, and 4 reads from a pipe that 5 could write to.
    STEPS = """2 map 0
2 pipe 0 0 1
2 fork 3  # = ok 3  # 1 clone
3 fork 4  # = ok 4  # 2 clone
4 fork 5  # = ok 5  # 3 clone
2 close 1  # = ok 0  # 4 close
3 close 1  # = ok 0  # 5 close
4 close 1  # = ok 0  # 6 close
4 read 0 0 1  # = no N9  # 7 read
3 waitpid 4 wait  # = no N9  # 8 wait4
2 waitpid 3 wait  # = no N9  # 9 wait4
"""

    def test_a_chain_ends_with_one_who_does_not_wait(self):
        with replayed(self.STEPS) as replay:
            waits = waits_after(replay, len(replay))
            moment = Moment.of(replay.at(len(replay)))
            self.assertEqual([it.process for it in waits], [4, 3, 2])
            chain = find_chain(moment, waits, waits[2])
            self.assertEqual([it.process for it in chain], [3, 4])
            self.assertEqual(find_chain(moment, waits, waits[0]), [])
            for wait in waits:
                self.assertEqual(find_circle(moment, waits, wait), [])

    def test_the_shortest_circle(self):
        # Now 2 and 4 can write, and 5 can not.
        steps = self.STEPS.replace("2 close 1  # = ok 0  # 4 close\n", "")
        steps = steps.replace("4 close 1", "5 close 1")
        with replayed(steps) as replay:
            waits = waits_after(replay, len(replay))
            moment = Moment.of(replay.at(len(replay)))
            self.assertEqual(find_circle(moment, waits, waits[0]), [4, 4])
            self.assertEqual(find_circle(moment, waits, waits[2]), [2, 3, 4, 2])

    def test_reasons_and_holders(self):
        with replayed(self.STEPS) as replay:
            moment = Moment.of(replay.at(len(replay)))
            reason = reason_of(moment, replay.step(9))
            self.assertEqual((reason.call, reason.pipe), ("read", 0))
            self.assertEqual(reason.holders, [Holder(5, (1,))])
            reason = reason_of(moment, replay.step(11))
            self.assertEqual(
                (reason.call, reason.pipe, reason.holders), ("waitpid", None, [Holder(3, ())])
            )
            readers = [it.process for it in holders_of(moment, 0, "read")]
            self.assertEqual(readers, [2, 3, 4, 5])


class Zombies(unittest.TestCase):
    """Ended processes that nobody waited for."""

    def test_while_the_parent_runs(self):
        said = [
            f"step {number}, line {line} of the log: {number} ended (exit {number}) "
            "and nobody has waited for it; its parent is 2"
            for number, line in ((3, 12), (4, 13))
        ]
        self.assertEqual(reported(TWO_ENDS)[3], said)
        self.assertEqual(reported(TWO_ENDS, at=3)[3], said[:1])
        self.assertEqual(reported(TWO_ENDS, at=2)[3], ["There is no zombie after step 2."])

    def test_who_was_waited_for_is_none(self):
        waits = "2 waitpid 3 wait  # = ok 3  # 15 wait4\n2 waitpid 4 wait  # = ok 4  # 16 wait4\n"
        nobody = ["No process ended without being waited for."]
        self.assertEqual(reported(TWO_ENDS + waits)[3], nobody)

    def test_after_the_parent_ended(self):
        steps = TWO_ENDS + (
            "2 waitpid 3 wait  # = ok 3  # 15 wait4\n1 kill 2 TERM  # 16 SIGTERM\n"
            "2 deliver TERM  # = ended  # 16 SIGTERM\n1 waitpid 4 nohang  # 16 SIGTERM\n"
        )
        place = "step 4, line 13 of the log: 4 ended (exit 4) and"
        before = [f"{place} nobody has waited for it; its parent is 2"]
        self.assertEqual(reported(steps)[3], before)
        self.assertEqual(reported(steps, at=8)[3], ["There is no zombie after step 8."])
        said = [f"{place} nobody waited for it; its parent 2 ended at step 8 (exit 9)"]
        exits = steps.replace("1 kill 2 TERM", "2 close 9").replace("deliver TERM", "exit 9")
        self.assertEqual(reported(exits)[3], said)

    def test_a_number_that_is_used_again(self):
        steps = TWO_ENDS + (
            "2 waitpid 3 wait  # = ok 3  # 15 wait4\n2 fork 3  # = ok 3  # 16 clone\n"
            "3 exit 7  # = ended  # 17 exit_group\n"
        )
        with replayed(steps) as replay:
            found = [(it.process, it.ended, it.how) for it in zombies_until(replay, len(replay))]
        self.assertEqual(found, [(3, 8, "exit 7"), (4, 4, "exit 4")])

    def test_children_of_nobody_recorded_are_none(self):
        with replayed("2 exit 0  # = ended  # 5 exit_group\n") as replay:
            self.assertEqual(zombies_after(replay, 1), [])
            self.assertEqual(zombies_until(replay, 1), [])


class Signals(unittest.TestCase):
    """Signals that were sent while they were pending."""

    def test_a_sigchld_whose_loss_leaves_a_zombie(self):
        said = [
            "step 5, line 13 of the log: the SIGCHLD of 4 (exit 4) to 2 was lost: "
            "one was pending since step 4: 3 exit 3"
        ]
        self.assertEqual(reported(CATCHES + TWO_ENDS)[4], said)

    def test_a_sigchld_of_children_that_were_waited_for(self):
        waits = "2 waitpid 3 wait  # = ok 3  # 15 wait4\n2 waitpid 4 wait  # = ok 4  # 16 wait4\n"
        said = reported(CATCHES + TWO_ENDS + waits)[4]
        self.assertEqual(len(said), 1)
        self.assertTrue(said[0].startswith("A second SIGCHLD to 2 (step 5) was merged with the "))

    def test_a_sigchld_that_is_ignored(self):
        third = "2 fork 5  # = ok 5  # 11 clone\n5 exit 5  # = ended  # 12 exit_group\n"
        steps = TWO_ENDS.replace("2 deliver", f"{third}2 deliver")
        said = reported(steps)[4]
        self.assertEqual(len(said), 1)
        what = "2 more SIGCHLD to 2 (the first at step 4) were merged with those before, "
        self.assertEqual(said[0], f"{what}and would have made no difference.")

    def test_a_blocked_signal_is_one_that_matters(self):
        blocked = "2 sigprocmask block CHLD  # = ok 0  # 9 rt_sigprocmask\n"
        with replayed(blocked + TWO_ENDS) as replay:
            zombies = zombies_until(replay, len(replay))
            [lost] = lost_signals(replay, len(replay), zombies)
        self.assertEqual((lost.number, lost.since, lost.harm), (5, 4, Harm.SOME))

    def test_a_signal_that_was_delivered_in_between_is_not_lost(self):
        steps = TWO_ENDS.replace("4 exit 4", "2 deliver CHLD  # 12 SIGCHLD\n4 exit 4")
        self.assertEqual(reported(CATCHES + steps)[4], ["No signal was lost."])

    def test_a_kill_of_a_signal_that_is_pending(self):
        caught = "2 fork 3\n3 sigaction TERM catch 1 -\n"
        kills = f"{caught}2 kill 3 TERM\n1 kill 3 SIGTERM\n1 kill 3 15\n"
        said = [
            f"step {number}: the SIGTERM of 1 outside to 3 was lost: "
            "one was pending since step 3: 2 kill 3 TERM"
            for number in (4, 5)
        ]
        self.assertEqual(reported(kills)[4], said)

    def test_a_sigpipe_that_is_pending(self):
        steps = (
            "2 sigaction PIPE catch 1 -\n2 map 0\n2 pipe 0 0 1\n2 close 0\n"
            "2 write 1 0 1  # = ok -32  # 5 write\n2 write 1 0 1  # = ok -32  # 6 write\n"
        )
        said = [
            "step 6, line 6 of the log: the SIGPIPE of 2 to 2 was lost: "
            "one was pending since step 5: 2 write 1 0 1"
        ]
        self.assertEqual(reported(steps)[4], said)

    def test_what_is_not_lost(self):
        for steps in (
            "2 fork 3\n2 kill 3 32\n2 kill 3 32\n",  # a realtime signal is queued
            "2 fork 3\n2 kill 3 0\n2 kill 3 0\n",  # no signal
            "2 kill 9 TERM\n2 kill 9 TERM\n",  # no process
            "2 kill 1 TERM\n2 kill 1 TERM\n",  # process 1 has none pending
            "2 fork 3\n3 exit 0\n2 kill 3 TERM\n2 kill 3 TERM\n",  # one that has ended
        ):
            self.assertEqual(reported(steps)[4], ["No signal was lost."], steps)


class Command(unittest.TestCase):
    """What the command writes, and its status."""

    def holders(self, *words, text=HEAD + HANG):
        with tempfile.TemporaryDirectory() as folder:
            file = os.path.join(folder, "recording")
            with open(file, "w", encoding="utf-8") as it:
                it.write(text)
            with redirect_stdout(io.StringIO()) as output, redirect_stderr(io.StringIO()) as said:
                status = txos.command.main(["holders", file, *words])
        return status, output.getvalue(), said.getvalue()

    def test_the_first_line_says_after_which_step(self):
        for words, first in (
            ((), "After 13 of 13 steps: sh -c x"),
            (("--at", "0"), "After 0 of 13 steps: sh -c x"),
            (("--at", "13"), "After 13 of 13 steps: sh -c x"),
        ):
            status, output, said = self.holders(*words)
            self.assertEqual((status, said), (0, ""))
            self.assertEqual(output.splitlines()[0], first)

    def test_nothing_of_each_kind_is_a_sentence(self):
        status, output, _ = self.holders(text=HEAD)
        said = [
            "After 0 of 0 steps: sh -c x",
            "",
            "No pipe is open at the end of the recording.",
            "",
            "No call waits at the end of the recording.",
            "",
            "No process ended without being waited for.",
            "",
            "No signal was lost.",
        ]
        self.assertEqual((status, output.splitlines()), (0, said))

    def test_a_step_that_is_not_there(self):
        for at in ("14", "-1"):
            said = f"txos-record: --at {at}: the recording has 13 steps\n"
            self.assertEqual(self.holders("--at", at), (1, "", said))


if __name__ == "__main__":
    unittest.main()
