"""Tests of txos.kernel: how the program is found, what it answers, and how a session ends.

What is expected follows from the rules. Where a program has to fail, a few lines of shell stand for
it.
"""

import doctest
import os
import signal
import tempfile
import unittest
from contextlib import redirect_stderr
from io import StringIO
from pathlib import Path
from unittest import mock

import txos.kernel
from txos import (
    Action,
    BadLine,
    DescHolders,
    Description,
    Difference,
    Found,
    Frame,
    Held,
    Ids,
    Kernel,
    Made,
    Moved,
    NoProgram,
    Owned,
    Page,
    PipeHolders,
    Process,
    Queued,
    Refused,
    Reply,
    ShellEnded,
    State,
    StepsAhead,
    Transaction,
    TxosError,
    Undelivered,
    find_program,
)


def process(pid, parent=1, **parts):
    """A process that has nothing but these parts."""
    nothing = dict(
        exit=None,
        killed=None,
        point=0,
        ret=0,
        slots=(0,) * 8,
        users=Ids(0, 0, 0),
        groups=Ids(0, 0, 0),
        pages={},
        fds={},
        mask=(),
        actions={},
        pending=(),
        queued=(),
        frames=(),
    )
    return Process(pid=pid, parent=parent, **{**nothing, **parts})


class Answers(unittest.TestCase):
    """Over the program."""

    def setUp(self):
        self.kernel = Kernel(processes=4)
        self.addCleanup(self.kernel.close)

    def steps(self, *lines):
        return [self.kernel.step(line) for line in lines]

    def test_each_kind_of_reply(self):
        replies = self.steps(
            "2 map 0",
            '2 store 0 "hi"',
            "2 load 1024",
            "2 console_write 0 2",
            "2 console_write 0 0",
            "2 sys_xbegin",
            "2 kill 9 USR1",
            "2 sys_xend",
            "2 sys_xbegin",
            "2 sys_xabort",
            "3 exit 0",
        )
        wanted = [
            Reply("ok", 1, ret=0),
            Reply("ok", 2, ret=0),
            Reply("ok", 3, ret=-14),
            Reply("out", 4, bytes=b"hi"),
            Reply("out", 5, bytes=b""),
            Reply("ok", 6, ret=0),
            Reply("ok", 7, ret=0),
            Reply("committed", 8, undelivered=(Undelivered(9, 10, 3),)),
            Reply("ok", 9, ret=0),
            Reply("aborted", 10, status=201),
            Reply("ended", 11),
        ]
        self.assertEqual(replies, wanted)
        self.assertEqual(
            [str(it) for it in replies[2:5] + replies[7:8] + replies[9:]],
            ["ok -14", "out 6869", "out -", "committed 9:10:3", "aborted 201", "ended"],
        )
        self.assertEqual([it.error for it in replies], [None] * 2 + ["EFAULT"] + [None] * 8)
        made = self.kernel.steps()
        self.assertEqual([it.reply for it in made], wanted)
        self.assertEqual(made[1], Made(2, "2 store 0 6869", wanted[1]))

    def test_a_refused_step_changes_nothing(self):
        self.steps("2 sys_xbegin")
        with self.assertRaises(Refused) as raised:
            self.kernel.step("1 waitpid 2 nohang")
        refused = raised.exception
        self.assertEqual((refused.code, refused.holder), ("N8", 2))
        self.assertEqual(str(refused), "1 waitpid 2 nohang: no N8 2")
        with self.assertRaises(Refused) as raised:
            self.kernel.step("5 getpid")
        refused = raised.exception
        self.assertEqual((refused.code, refused.holder, refused.step), ("N1", None, "5 getpid"))
        self.assertEqual(str(refused), "5 getpid: no N1")
        self.assertEqual(self.kernel.position, 1)

    def test_a_line_that_is_none_is_reported(self):
        with self.assertRaises(BadLine) as raised:
            self.kernel.step("2 stroe 0 41")
        error = raised.exception
        self.assertEqual((error.line, error.column), ("2 stroe 0 41", 3))
        self.assertEqual(error.told, "no such call: stroe; did you mean store?")
        self.assertIsInstance(error, ValueError)
        for line in ("", "back", "# 2 map 0", "2 map 0\n2 map 1", f"2 store 0 {'0' * 700}"):
            with self.assertRaises(BadLine):
                self.kernel.step(line)
        with self.assertRaises(BadLine):
            self.kernel.when("page 2")
        self.assertEqual(self.steps("2 map 0"), [Reply("ok", 1, ret=0)])
        for count in (0, 257):
            with self.assertRaises(BadLine):
                Kernel(processes=count)

    def test_a_string_may_have_any_letters(self):
        self.steps("2 map 0 # a page", '\t2 store 0 "ä"')
        self.assertEqual(self.kernel.state().procs[2].pages[0].bytes[:3], b"\xc3\xa4\0")
        with self.assertRaises(BadLine):
            self.kernel.step("2 ä 0")

    def test_steps_are_taken_back(self):
        self.steps("2 map 0", "2 sys_xbegin", "2 sys_xabort")
        self.assertTrue(self.kernel.back())
        self.assertEqual(self.kernel.position, 2)
        with self.assertRaises(StepsAhead):
            self.kernel.step("2 getpid")
        self.assertTrue(self.kernel.forward())
        self.assertFalse(self.kernel.forward())
        self.kernel.goto(0)
        self.assertFalse(self.kernel.back())
        with self.assertRaises(IndexError):
            self.kernel.goto(4)
        self.assertEqual(self.kernel.position, 0)
        self.kernel.goto_end()
        self.assertEqual(self.kernel.position, 3)
        self.kernel.goto(1)
        self.kernel.cut()
        self.assertEqual(self.steps("2 getpid"), [Reply("ok", 2, ret=2)])
        self.assertEqual(self.kernel.schedule(), "txos 2 schedule 4\n2 map 0\n2 getpid\n")

    def test_each_part_of_a_state(self):
        self.steps("2 map 1", '2 store 64 "A"', "2 protect 1 r", "2 pipe 3 4 5", "2 write 1 64 1")
        self.steps("2 set_nonblock 0 on", "2 sigaction TERM ignore")
        self.steps("2 sigaction USR1 catch 20 USR2", "2 sigprocmask block CHLD,INT")
        self.steps("1 sigqueue 2 34 -7", "1 kill 2 INT", "1 kill 2 USR1", "2 deliver USR1")
        self.steps("3 setgid 8", "3 setuid 7", "3 exit 4", "1 kill 4 TERM", "4 deliver TERM")
        self.steps("2 sys_xbegin defer", "2 kill 1 USR2", "2 fork 5", "5 sys_xend")
        slots = (0, 1, 0, 0, 0, 0, 0, 0)
        copied = dict(
            slots=slots,
            pages={1: Page(False, b"A" + bytes(63))},
            fds={0: 4, 1: 5},
            mask=(2, 10, 12, 17),
            actions={10: Action("catch", 20, (12,)), 15: Action("ignore")},
            frames=(Frame(9, 0, (2, 17), slots),),
        )
        wanted = State(
            procs={
                1: process(1, parent=0, point=4),
                2: process(2, point=23, ret=5, pending=(2,), queued=(Queued(34, -7),), **copied),
                3: process(3, exit=4, users=Ids(7, 7, 7), groups=Ids(8, 8, 8)),
                4: process(4, killed=15),
                5: process(5, parent=2, point=24, **copied),
            },
            descs={4: Description(3, "read", True), 5: Description(3, "write", False)},
            pipes={3: b"A"},
            txns={2: Transaction(True, (2,), (5,), (Held(1, 12, 0),))},
        )
        self.maxDiff = None
        self.assertEqual(self.kernel.state(), wanted)
        self.assertEqual([pid for pid, it in wanted.procs.items() if it.running], [1, 2, 5])

    def test_a_trial_makes_no_step(self):
        self.steps("2 map 0", "2 sys_xbegin", "2 unmap 0")
        inside = ("proc 2 parent 1 run point 3 ret 0", "txn 2 open 2 ended -")
        trial = self.kernel.try_step("2 sys_xend")
        self.assertEqual((trial.reply, trial.refused), (Reply("committed"), None))
        self.assertEqual(self.kernel.try_step("2 close 9").reply.error, "EBADF")
        self.assertEqual((trial.gone, trial.come), (inside, ("proc 2 parent 1 run point 4 ret 0",)))
        trial = self.kernel.try_step("1 waitpid 2 nohang")
        self.assertEqual((trial.reply, trial.gone, trial.come), (None, (), ()))
        self.assertEqual((trial.refused.code, trial.refused.holder), ("N8", 2))
        with self.assertRaises(BadLine):
            self.kernel.try_step("2 stroe 0 41")
        restored = ("proc 2 parent 1 run point 2 ret -202", "page 0 rw")
        self.assertEqual(self.kernel.without(2), Difference(inside, restored))
        self.assertIsNone(self.kernel.without(1))
        self.assertEqual(self.kernel.position, 3)

    def test_how_two_positions_differ(self):
        self.steps("2 map 0", "2 store 0 01", "2 getpid")
        self.kernel.goto(1)
        unmapped, mapped = "proc 2 parent 1 run point 0 ret 0", "proc 2 parent 1 run point 1 ret 0"
        self.assertEqual(self.kernel.diff(0, 1), Difference((unmapped,), (mapped, "page 0 rw")))
        self.assertEqual(self.kernel.diff(1, 0), Difference((mapped, "page 0 rw"), (unmapped,)))
        later = ("proc 2 parent 1 run point 3 ret 2", "page 0 rw 0=01")
        self.assertEqual(self.kernel.diff(1, 3), Difference((mapped, "page 0 rw"), later))
        self.assertEqual(self.kernel.diff(2, 2), Difference((), ()))
        for first, last in ((0, 4), (4, 0)):
            with self.assertRaises(IndexError):
                self.kernel.diff(first, last)
        self.assertEqual(self.kernel.position, 1)

    def test_who_has_a_pipe_open(self):
        self.assertIsNone(self.kernel.holds_pipe(0))
        self.assertIsNone(self.kernel.holds_desc(0))
        self.steps("2 pipe 0 5 6", "2 fork 5", "5 dup 1", "2 close 1")
        held = PipeHolders({2: (0,), 5: (0,)}, {5: (1, 2)})
        self.assertEqual(self.kernel.holds_pipe(0), held)
        self.assertEqual(self.kernel.holds_desc(5), DescHolders(0, "read", {2: (0,), 5: (0,)}))
        self.assertEqual(self.kernel.holds_desc(6), DescHolders(0, "write", {5: (1, 2)}))
        self.steps("5 close 1", "5 close 2")
        self.assertEqual(self.kernel.holds_pipe(0), PipeHolders({2: (0,), 5: (0,)}, {}))
        with self.assertRaises(BadLine):
            self.kernel.holds_pipe(256)

    def test_what_is_in_the_way(self):
        self.assertEqual(self.kernel.owns(), {})
        self.steps("3 sys_xbegin", "2 sys_xbegin", "2 pipe 0 1 2")
        owned = {2: Owned((2,), (1, 2), (0,)), 3: Owned((3,), (), ())}
        self.assertEqual(self.kernel.owns(), owned)
        self.assertEqual(self.kernel.owns().names, {})
        self.assertEqual(self.kernel.why("2 getpid"), "2 getpid: it would be answered ok 2")
        lines = self.kernel.why("4 pipe 0 3 4").splitlines()
        self.assertEqual(lines[0], "4 pipe 0 3 4: it would be answered no N4")
        self.assertTrue(lines[1].startswith("N4: "))
        lines = self.kernel.why("1 waitpid 2 nohang").splitlines()
        self.assertEqual(lines[0], "1 waitpid 2 nohang: it would be answered no N8 2")
        owner = "proc 2: the transaction of 2 has it since step 2: 2 sys_xbegin"
        self.assertEqual(lines[1], owner)
        self.assertEqual(self.kernel.why(), "nothing was refused")
        with self.assertRaises(Refused):
            self.kernel.step("1 waitpid 2 nohang")
        self.assertEqual(self.kernel.why().splitlines(), lines)
        self.assertTrue(self.kernel.explain("N9").startswith("N9: "))
        with self.assertRaises(BadLine) as raised:
            self.kernel.explain("nothing-such")
        self.assertIsNone(raised.exception.column)

    def test_the_step_that_changed_a_piece(self):
        self.steps("2 map 0", "2 getpid", "2 store 0 01", "1 getpid")
        stored = Found(("page 0 rw",), ("page 0 rw 0=01",), 3, "2 store 0 01")
        mapped = Found((), ("page 0 rw",), 1, "2 map 0")
        self.assertEqual(self.kernel.when("page 2 0"), stored)
        self.assertEqual(self.kernel.position, 3)
        self.kernel.back()
        self.assertEqual(self.kernel.when("page 2 0"), mapped)
        self.assertEqual(self.kernel.next("page 2 0"), stored)
        self.assertIsNone(self.kernel.next("page 2 0"))
        self.assertEqual(self.kernel.position, 4)
        self.assertIsNone(self.kernel.when("pipe 0"))
        self.assertEqual(self.kernel.position, 0)

    def test_a_commit_as_one_moment(self):
        self.steps("3 sys_xbegin", "2 getpid", "3 sigpending", "3 sys_xend")
        self.steps("3 sys_xbegin", "2 getpid", "3 sys_xend")
        self.assertEqual(self.kernel.moved(4), Moved(False, (2, 1, 3, 4, 5, 6, 7)))
        self.assertEqual(self.kernel.moved(7), Moved(True, (1, 2, 3, 4, 6, 5, 7)))
        self.assertIsNone(self.kernel.moved(2))

    def test_a_long_session(self):
        with Kernel(processes=256) as kernel:
            for number in range(1, 257):
                kernel.step(f"{number} map 0")
            self.assertEqual(kernel.position, 256)
            pages = [it.pages for it in kernel.state().procs.values()]
            self.assertEqual(pages, [{0: Page(True, bytes(64))}] * 256)

    def test_any_line(self):
        self.steps("2 sys_xbegin", "2 sys_xend")
        self.assertEqual(self.kernel.ask("goto end"), {"at": 2, "lines": ["at 2"]})
        self.assertEqual(self.kernel.ask("5 getpid"), {"refused": "N1"})
        self.assertEqual(self.kernel.ask("# nothing"), {})
        with self.assertRaises(ShellEnded) as raised:
            self.kernel.ask("quit")
        self.assertEqual((raised.exception.status, raised.exception.fault), (0, ""))


class Ends(unittest.TestCase):
    """How a program ends."""

    def setUp(self):
        folder = tempfile.TemporaryDirectory()
        self.addCleanup(folder.cleanup)
        self.program = os.path.join(folder.name, "txos")

    def write(self, *lines):
        """A program that answers the header, and then does as the lines say."""
        header = ["#!/bin/sh", "read -r line", """echo '{"at":0}'"""]
        with open(self.program, "w", encoding="utf-8") as file:
            file.writelines(f"{line}\n" for line in [*header, *lines])
        os.chmod(self.program, 0o700)

    def ended(self, *lines):
        """How a program that does as the lines say has ended, when a step is to be made."""
        self.write("read -r line", *lines)
        kernel = Kernel(program=self.program)
        with self.assertRaises(ShellEnded) as raised:
            kernel.step("2 getpid")
        with self.assertRaises(ShellEnded) as again:
            kernel.step("2 getpid")
        self.assertEqual(str(raised.exception), str(again.exception))
        self.assertIsInstance(raised.exception, TxosError)
        return raised.exception

    def test_a_closed_program_is_gone(self):
        with Kernel() as kernel:
            kernel.step("2 getpid")
            pid = kernel._process.pid
            self.assertNotEqual(os.getpgid(pid), os.getpgrp())  # no ^C comes to it
        self.assertFalse(os.path.exists(f"/proc/{pid}"))
        kernel.close()
        with self.assertRaises(ShellEnded) as raised:
            kernel.step("2 getpid")
        self.assertEqual(str(raised.exception), "txos ended with status 0")

    def test_the_program_ends(self):
        error = self.ended("echo 'txos: F6' >&2", "exit 1")
        self.assertEqual((error.status, error.fault), (1, "txos: F6"))
        self.assertEqual(str(error), "txos ended with status 1: txos: F6")
        self.assertEqual(self.ended("kill -KILL $$").status, -signal.SIGKILL)
        self.assertEqual(self.ended("""printf '{"st'""").status, 0)

    def test_the_program_ends_before_a_line(self):
        self.write("exit 3")
        kernel = Kernel(program=self.program)
        kernel._process.wait()
        with self.assertRaises(ShellEnded) as raised:
            kernel.step(f"2 store 0 {'0' * 100000}")
        self.assertEqual(raised.exception.status, 3)

    def test_a_program_without_such_a_shell(self):
        with self.assertRaises(ShellEnded) as raised:
            Kernel(program="/bin/false")
        self.assertEqual(raised.exception.status, 1)

    def test_an_answer_that_is_broken_off(self):
        self.write("read -r line", "read -r line")
        kernel = Kernel(program=self.program)
        before = signal.signal(signal.SIGALRM, signal.default_int_handler)
        self.addCleanup(signal.signal, signal.SIGALRM, before)
        signal.setitimer(signal.ITIMER_REAL, 0.3)
        with self.assertRaises(KeyboardInterrupt):
            kernel.step("2 getpid")
        self.assertFalse(os.path.exists(f"/proc/{kernel._process.pid}"))
        with self.assertRaises(ShellEnded):
            kernel.step("2 getpid")

    def test_what_is_reported_first_is_handed_on(self):
        self.write("read -r line")
        with open(self.program, encoding="utf-8") as file:
            text = file.read()
        with open(self.program, "w", encoding="utf-8") as file:
            file.write(text.replace("read", "echo 'an unproved run' >&2; read", 1))
        with redirect_stderr(StringIO()) as said, Kernel(program=self.program):
            self.assertEqual(said.getvalue(), "an unproved run\n")


class Names(unittest.TestCase):
    """The names of processes, from a program that answers as written here."""

    NAMES = '"names":[{"process":2,"name":"sh"},{"process":4,"name":"tr"}]'

    def setUp(self):
        folder = tempfile.TemporaryDirectory()
        self.addCleanup(folder.cleanup)
        self.program = os.path.join(folder.name, "txos")
        self.lines = Path(folder.name, "lines")

    def kernel(self, *answers):
        """A kernel of a program that keeps each line, and gives these answers in turn."""
        with open(self.program, "w", encoding="utf-8") as file:
            file.write("#!/bin/sh\n")
            for answer in ('{"at":0}', *answers):
                file.write(f"read -r line; echo \"$line\" >>{self.lines}; echo '{answer}'\n")
            file.write("read -r line\n")
        os.chmod(self.program, 0o700)
        made = Kernel(program=self.program)
        self.addCleanup(made.close)
        return made

    def test_a_name_is_given(self):
        self.kernel('{"at":0}').name(4, "tr")
        self.assertEqual(self.lines.read_text().splitlines()[1:], ["name 4 tr"])

    def test_a_name_that_is_none(self):
        kernel = self.kernel('{"error":"column 8: a/b: a name has 1 to 16 letters"}')
        with self.assertRaises(BadLine) as raised:
            kernel.name(4, "a/b")
        self.assertEqual(raised.exception.column, 8)
        with self.assertRaises(BadLine):
            kernel.name(4, "tr\n2 getpid")

    def test_answers_with_names(self):
        change = '"change":{"step":1,"worker":1,"text":"4 getpid","reply":"ok","ret":4}'
        kernel = self.kernel(
            f'{{"at":1,"lines":["a (tr)","b"],{self.NAMES}}}',
            f'{{"at":1,"lines":[],"owners":[{{"starter":2,"procs":[2,4],"descs":[],"pipes":[0]}}],'
            f"{self.NAMES}}}",
            f'{{"at":1,"lines":["at 1: 4 getpid (tr)","- a","+ b"],{change},{self.NAMES}}}',
            f'{{"at":1,"lines":["at 1: 4 getpid (tr)","- a","+ b"],{change},{self.NAMES}}}',
            '{"at":1,"lines":[],"readers":[{"process":4,"descriptor":0}],"writers":[],'
            f"{self.NAMES}}}",
            '{"at":1,"lines":[],"pipe":0,"side":"read","holders":[{"process":4,"descriptor":0}],'
            f"{self.NAMES}}}",
        )
        names = {2: "sh", 4: "tr"}
        why = kernel.why("4 getpid")
        self.assertEqual((why, why.names), ("a (tr)\nb", names))
        owns = kernel.owns()
        self.assertEqual((owns, owns.names), ({2: Owned((2, 4), (), (0,))}, names))
        found = Found(("a",), ("b",), 1, "4 getpid", names)
        self.assertEqual((kernel.when("proc 4"), kernel.next("proc 4")), (found, found))
        self.assertEqual(kernel.holds_pipe(0), PipeHolders({4: (0,)}, {}, names))
        self.assertEqual(kernel.holds_desc(1), DescHolders(0, "read", {4: (0,)}, names))


class Finds(unittest.TestCase):
    """Where the program is, in the order in which it is looked for."""

    def setUp(self):
        folder = tempfile.TemporaryDirectory()
        self.addCleanup(folder.cleanup)
        self.folder = Path(folder.name).resolve()
        self.on_path = self.make_program("path/txos")
        environment = mock.patch.dict(os.environ, {"PATH": str(self.on_path.parent)})
        environment.start()
        self.addCleanup(environment.stop)
        os.environ.pop("TXOS", None)

    def make_program(self, place, text="#!/bin/sh\n"):
        made = self.folder / place
        made.parent.mkdir(parents=True, exist_ok=True)
        made.write_text(text, encoding="utf-8")
        made.chmod(0o700)
        return made

    def make_checkout(self):
        (self.folder / "crates.txt").touch()
        return self.make_program("txos")

    def found(self, package="python/txos"):
        """What is found where the package is in this folder."""
        with mock.patch.object(txos.kernel, "__file__", str(self.folder / package / "kernel.py")):
            return Path(find_program())

    def test_what_is_given_comes_first(self):
        given, of_variable = self.make_program("given"), self.make_program("variable")
        with mock.patch.dict(os.environ, {"TXOS": str(of_variable)}):
            self.assertEqual(find_program(given), str(given))
            self.assertEqual(find_program(str(given)), str(given))

    def test_the_variable_comes_before_the_checkout(self):
        self.make_checkout()
        of_variable = self.make_program("variable")
        with mock.patch.dict(os.environ, {"TXOS": str(of_variable)}):
            self.assertEqual(self.found(), of_variable)
        with mock.patch.dict(os.environ, {"TXOS": "txos"}):
            self.assertEqual(self.found(), self.on_path)

    def test_a_checkout_comes_before_the_path(self):
        script = self.make_checkout()
        self.assertEqual(self.found(), script)
        with mock.patch.dict(os.environ, {"TXOS": ""}):
            self.assertEqual(self.found(), script)

    def test_a_folder_that_is_no_checkout_has_no_program(self):
        script = self.make_program("txos")
        self.assertEqual(self.found(), self.on_path)
        self.make_checkout()
        script.chmod(0o600)
        self.assertEqual(self.found(), self.on_path)

    def test_what_is_installed_together_comes_before_the_path(self):
        together = self.make_program("prefix/bin/txos")
        for package in ("python3/dist-packages/txos", "python3.11/site-packages/txos"):
            self.assertEqual(self.found(f"prefix/lib/{package}"), together)
        self.assertEqual(self.found("prefix/share/python3/dist-packages/txos"), self.on_path)
        self.assertEqual(self.found("other/lib/python3/dist-packages/txos"), self.on_path)

    def test_no_program_is_reported(self):
        self.on_path.unlink()
        with self.assertRaises(NoProgram) as raised:
            self.found()
        self.assertIsInstance(raised.exception, FileNotFoundError)
        sentence = "the program txos is not found: set TXOS to its path, or put it on the PATH"
        self.assertEqual(str(raised.exception), sentence)

    def test_a_name_that_is_no_program_is_reported(self):
        text = self.make_program("text")
        text.chmod(0o600)
        for named in (text, self.folder, "/nowhere/txos"):
            with self.assertRaises(NoProgram) as raised:
                Kernel(program=named)
            self.assertEqual(str(raised.exception), f"{named} is not a program that can be run")
        with mock.patch.dict(os.environ, {"TXOS": "/nowhere/txos"}):
            with self.assertRaises(NoProgram) as raised:
                Kernel()

    def test_a_program_that_cannot_be_started_is_reported(self):
        for text, reason in (("?", "Exec format error"), ("#!/nowhere/sh\n", "No such file")):
            program = self.make_program("odd", text)
            with self.assertRaises(NoProgram) as raised:
                Kernel(program=program)
            self.assertIn(f"{program} can't be started: {reason}", str(raised.exception))


def load_tests(loader, tests, pattern):
    """The tests of this file, and the session with which the module begins."""
    tests.addTests(doctest.DocTestSuite(txos.kernel))
    return tests
