"""Tests of txos.checking and txos.replays: which steps are reported, and what is no recording."""

import io
import os
import subprocess
import tempfile
import unittest
from contextlib import redirect_stderr, redirect_stdout
from unittest import mock

import txos.command
from txos.checking import compare
from txos.kernel import BadLine, Kernel, Refused, StepsAhead
from txos.recording import read_recording
from txos.replays import BadStep, Replay

HEAD = "txos 3 schedule 2\n# recorded: sh -c x\n# log: 99 lines\n# factor: 1\n"
# A pipeline: each answer is Linux's.
PIPELINE = """2 map 0
2 pipe 0 0 1  # = ok 0  # 10 pipe2
2 fork 3  # = ok 3  # 11 clone
# 3 is cat
3 read 0 0 1  # = no N9  # 12 read
2 write 1 0 6  # = ok 6  # 13 write
3 read 0 0 6  # = ok 6  # 14 read
2 close 9  # = ok -9  # 15 close
3 exit 3  # = ended  # 16 exit_group
2 deliver CHLD  # 17 SIGCHLD
2 waitpid 3 wait  # = ok 3  # 18 wait4
"""


def compared(steps):
    """How the answers to steps compare, and what is said of each that differs."""
    comparison = compare(read_recording(HEAD + steps))
    return str(comparison), [str(it) for it in comparison.differing]


def ran(*words, standard_input=b""):
    """The status of the command, and what it writes to its two outputs."""
    given = io.TextIOWrapper(io.BytesIO(standard_input))
    with mock.patch("sys.stdin", given):
        with redirect_stdout(io.StringIO()) as output, redirect_stderr(io.StringIO()) as said:
            status = txos.command.main(words)
    return status, output.getvalue(), said.getvalue()


class Comparison(unittest.TestCase):
    """Which steps differ from Linux's answers."""

    def test_a_recording_that_is_as_linux(self):
        said = "8 steps as Linux, 2 with nothing to compare, 0 differ"
        self.assertEqual(compared(PIPELINE), (said, []))

    def test_one_step_is_one(self):
        steps = "2 close 3  # = ok -9  # 5 close\n2 close 3  # = ok 0  # 6 close\n"
        said = "1 step as Linux, 0 with nothing to compare, 1 differs"
        self.assertEqual(compared(steps)[0], said)

    def test_no_step(self):
        said = "0 steps as Linux, 0 with nothing to compare, 0 differ"
        self.assertEqual(compared(""), (said, []))

    def test_a_step_that_differs_is_reported_with_both_answers_and_the_line(self):
        waits = PIPELINE.replace("no N9", "ok 0")
        said = "step 4, line 12 of the log: 3 read 0 0 1: Linux ok 0, here no N9"
        self.assertEqual(compared(waits)[1], [said])

    def test_an_error_has_its_name(self):
        closed = PIPELINE.replace("ok -9", "ok 0")
        said = "step 7, line 15 of the log: 2 close 9: Linux ok 0, here ok -9 (EBADF)"
        self.assertEqual(compared(closed)[1], [said])
        child = PIPELINE.replace("# = ok 3  # 18", "# = ok -10  # 18")
        said = "step 10, line 18 of the log: 2 waitpid 3 wait: Linux ok -10 (ECHILD), here ok 3"
        self.assertEqual(compared(child)[1], [said])

    def test_what_linux_did_has_to_be_accepted(self):
        said = "step 1, line 4 of the log: 2 deliver TERM: Linux did it, here no N10"
        self.assertEqual(compared("2 deliver TERM  # 4 SIGTERM\n")[1], [said])
        self.assertEqual(compared("2 waitpid 9 nohang  # 4 wait4\n")[1], [])

    def test_what_sets_up_has_to_be_accepted(self):
        self.assertEqual(compared("9 map 0\n")[1], ["step 1: 9 map 0: here no N1"])

    def test_an_end_that_commits_is_an_end(self):
        steps = "2 fork 3  # = ok 3  # 4 clone\n3 sys_xbegin\n3 exit 0  # = ended  # 5 exit_group\n"
        said = "2 steps as Linux, 1 with nothing to compare, 0 differ"
        self.assertEqual(compared(steps), (said, []))

    def test_each_answer_that_is_another_is_reported(self):
        lines = PIPELINE.splitlines(keepends=True)
        steps = [it for it in lines if not it.startswith("#")]
        changed = 0
        for number, line in enumerate(steps, 1):
            if "# = " in line:
                other = line.replace("# = ", "# = x")
                said = compared(PIPELINE.replace(line, other))[1]
                self.assertEqual([it.split(",")[0] for it in said], [f"step {number}"])
                changed += 1
        self.assertEqual(changed, 8)

    def test_names_are_no_steps(self):
        named = PIPELINE.replace("# 3 is cat\n", "# 3 is cat\nname 3 cat\n")
        self.assertEqual(compared(named), compared(PIPELINE))

    def test_the_program_compares(self):
        with mock.patch("txos.checking.Replay") as replay:
            self.assertEqual(compared(PIPELINE.replace("no N9", "ok 0"))[0][:7], "7 steps")
        replay.assert_not_called()

    def test_more_steps_than_a_schedule_has(self):
        step = "2 close 3  # = ok -9  # 5 close\n"
        others = "2 close 3  # = ok 0  # 5 close\n2 getpid\n9 getpid\n"
        closed = "line 5 of the log: 2 close 3: Linux ok 0, here ok -9 (EBADF)"
        for count in (4093, 4094, 10_000):
            counts = f"{count:,} steps as Linux, 1 with nothing to compare, 2 differ"
            said = [f"step {count + 1}, {closed}", f"step {count + 3}: 9 getpid: here no N1"]
            self.assertEqual(compared(step * count + others), (counts, said))


class Command(unittest.TestCase):
    """What the command writes, and its status."""

    def setUp(self):
        folder = tempfile.TemporaryDirectory()
        self.addCleanup(folder.cleanup)
        self.file = os.path.join(folder.name, "recording")

    def check(self, text):
        with open(self.file, "wb") as file:
            file.write(text if isinstance(text, bytes) else text.encode())
        return ran("check", self.file)

    def test_the_status_says_whether_a_step_differs(self):
        summary = "8 steps as Linux, 2 with nothing to compare, 0 differ\n"
        self.assertEqual(self.check(HEAD + PIPELINE), (0, summary, ""))
        status, output, said = self.check(HEAD + PIPELINE.replace("ok -9", "ok 0"))
        self.assertEqual((status, said), (1, ""))
        self.assertEqual(len(output.splitlines()), 2)

    def test_standard_input(self):
        status, output, _ = ran("check", "-", standard_input=(HEAD + PIPELINE).encode())
        self.assertEqual((status, output[:16]), (0, "8 steps as Linux"))
        status, _, said = ran("check", "-", standard_input=b"x")
        self.assertEqual(status, 1)
        self.assertTrue(said.startswith("txos-record: standard input: line 1: "), said)

    def test_what_begins_as_no_recording_is_not_read_to_its_end(self):
        with subprocess.Popen(["yes"], stdout=subprocess.PIPE) as endless:
            with mock.patch("sys.stdin", mock.Mock(buffer=endless.stdout)):
                with redirect_stderr(io.StringIO()) as said:
                    status = txos.command.main(["check", "-"])
            endless.kill()
        self.assertEqual(status, 1)
        self.assertIn("standard input: line 1: this is no recording", said.getvalue())

    def test_what_is_no_recording_is_reported_with_its_line(self):
        for text, line in (
            (b"", 1),
            (b"\x7fELF\x00\xff\n", 1),
            ("txos 3 schedule 2\n2 map 0\n", 1),
            (HEAD + "2 map 0\n2 map", 6),
            (HEAD + "2 map 0\nmap\n", 6),
            (HEAD + "2 map 0\n# 2 is sh\n\n2 stroe 0\n2 stroe 1\n", 8),
            (HEAD + "# 2 is sh\nname 2 sh\n2 stroe 0\n", 7),
            (HEAD + "2 map 0\nname 2\n", 6),
            (HEAD + f"2 map 0\nname 2 {'a' * 17}\n", 6),
            (HEAD + "2 fork 3  # = ok 3  # 5 clone\n2 map 0 0  # 6 mmap\n", 6),
        ):
            status, output, said = self.check(text)
            self.assertEqual((status, output), (1, ""), text)
            self.assertTrue(said.startswith(f"txos-record: {self.file}: line {line}: "), said)

    def test_a_file_that_is_not_there(self):
        said = f"txos-record: {self.file}: No such file or directory\n"
        self.assertEqual(ran("check", self.file), (1, "", said))

    def test_bytes_that_are_no_text_are_shown(self):
        status, output, _ = self.check(HEAD.encode() + b"# 2 is caf\xc3\xa9 \xff\n")
        self.assertEqual((status, output[:7]), (0, "0 steps"))


class Replays(unittest.TestCase):
    """A recording that the kernel has made."""

    def test_answers_and_states_after_each_step(self):
        with Replay(read_recording(HEAD + PIPELINE)) as replay:
            self.assertEqual(len(replay), 10)
            self.assertEqual([replay.answer(it) for it in (1, 4, 8)], ["ok 0", "no N9", "ended"])
            there = [len(replay.state(it).procs) for it in (0, 2, 3, 9, 10)]
            self.assertEqual(there, [2, 2, 3, 3, 2])
            held = [len(replay.state(it).pipes[0]) for it in (3, 4, 5, 6)]
            self.assertEqual(held, [0, 0, 6, 0])

    def test_a_step_is_tried_after_so_many(self):
        with Replay(read_recording(HEAD + PIPELINE)) as replay:
            step = replay.step(6)
            self.assertEqual(replay.try_step(4, step).refused.code, "N9")
            self.assertEqual(replay.try_step(5, step).reply.ret, 6)

    def test_a_step_that_is_none(self):
        with self.assertRaises(BadStep) as error:
            Replay(read_recording(HEAD + "2 map 0\n2 map x\n"))
        self.assertEqual(error.exception.index, 1)


class ManySteps(unittest.TestCase):
    """Steps that a kernel is sent some at a time."""

    def test_they_are_answered_in_order(self):
        lines = [f"2 getpid{' ' * (it % 200)}" for it in range(3000)] + ["2 fork 3", "2 fork 3"]
        with Kernel() as kernel:
            answers = list(kernel.make_all(lines))
            self.assertEqual([it.number for it in answers[:3001]], list(range(1, 3002)))
            self.assertEqual(str(answers[3000]), "ok 3")
            self.assertEqual((answers[3001].code, answers[3001].answer), ("N4", "no N4"))
            self.assertEqual(kernel.position, 3001)

    def test_none_is_none(self):
        with Kernel() as kernel:
            self.assertEqual(list(kernel.make_all([])), [])

    def test_answers_that_are_long(self):
        # Each is longer than its line, and all are more than a pipe holds.
        lines = ["2 map 0"] + ["2 console_write 0 64"] * 2000
        with Kernel() as kernel:
            self.assertEqual({it.kind for it in kernel.make_all(lines)}, {"ok", "out"})

    def test_a_line_that_is_no_step_raises_at_its_place(self):
        with Kernel() as kernel:
            made = kernel.make_all(["2 map 0", "2 stroe"])
            self.assertEqual(next(made).ret, 0)
            with self.assertRaises(BadLine):
                next(made)
            for line in ("state", "", "back", "2 map 0\n2 map 1"):
                with self.assertRaises(BadLine):
                    list(kernel.make_all([line]))
            self.assertEqual(kernel.step("2 map 5").ret, 0)

    def test_steps_that_are_ahead_raise(self):
        with Kernel() as kernel:
            kernel.step("2 map 0")
            kernel.back()
            with self.assertRaises(StepsAhead):
                list(kernel.make_all(["2 map 1"]))

    def test_a_refusal_spells_its_holder(self):
        self.assertEqual(Refused("3 getpid", "N8", 2).answer, "no N8 2")


if __name__ == "__main__":
    unittest.main()
