"""Tests of txos.command: how the command ends, and what it says then."""

import argparse
import errno
import os
import signal
import subprocess
import sys
import unittest
from contextlib import redirect_stderr, redirect_stdout
from io import StringIO
from pathlib import Path
from unittest import mock

import txos.command
from txos import NoProgram, ShellEnded, TxosError
from txos.faults import Fault
from txos.recording import BadRecording

PACKAGE = Path(txos.__file__).resolve().parent.parent


def parser_of(run):
    """A parser that takes no words, and runs a function."""
    parser = argparse.ArgumentParser()
    parser.set_defaults(run=run)
    return parser


def ended(run):
    """The status of a command that does as a function does, and what it says of it."""
    said = StringIO()
    with mock.patch("txos.command.build_parser", return_value=parser_of(run)):
        with redirect_stdout(StringIO()), redirect_stderr(said):
            return txos.command.main([]), said.getvalue()


def raising(error):
    def run(_):
        raise error

    return ended(run)


class Ends(unittest.TestCase):
    """Its status, and its sentence."""

    def test_the_status_is_that_of_the_command(self):
        for status in (0, 1, 125, 143):
            self.assertEqual(ended(lambda _, it=status: it), (status, ""))

    def test_a_fault_has_its_sentence_and_its_status(self):
        self.assertEqual(raising(Fault("it is so")), (1, "txos-record: it is so\n"))
        self.assertEqual(raising(Fault("no strace", 3)), (3, "txos-record: no strace\n"))
        said = "txos-record: line 4: no step\n"
        self.assertEqual(raising(BadRecording(4, "no step")), (1, said))
        self.assertEqual(raising(TxosError("wrong")), (1, "txos-record: wrong\n"))

    def test_a_file_that_is_not_there_is_named(self):
        def run(_):
            open("/nowhere/file", encoding="utf-8")

        self.assertEqual(ended(run), (1, "txos-record: /nowhere/file: No such file or directory\n"))
        full = OSError(errno.ENOSPC, "No space left on device")
        self.assertEqual(raising(full), (1, "txos-record: No space left on device\n"))

    def test_no_program_has_a_status_of_its_own(self):
        self.assertEqual(raising(NoProgram("none")), (3, "txos-record: none\n"))
        # As the script of a checkout ends that finds no program.
        status, said = raising(ShellEnded(3, "txos: there is no program of these sources"))
        self.assertEqual(status, 3)
        self.assertIn("txos: there is no program of these sources", said)
        for other in (1, -signal.SIGKILL):
            self.assertEqual(raising(ShellEnded(other))[0], 1)

    def test_an_interrupt_is_silent(self):
        self.assertEqual(raising(KeyboardInterrupt()), (130, ""))

    def test_words_that_are_not_understood(self):
        for words in ([], ["no-such-command"]):
            with redirect_stderr(StringIO()) as said, self.assertRaises(SystemExit) as end:
                txos.command.main(words)
            self.assertEqual(end.exception.code, 2)
            self.assertIn("usage: txos-record", said.getvalue())


class Output(unittest.TestCase):
    """What it writes, and where nobody reads that."""

    def test_bytes_are_written_as_they_were_read(self):
        code = (
            "import argparse, txos.command\n"
            "parser = argparse.ArgumentParser()\n"
            "parser.set_defaults(run=lambda _: print('caf' + chr(0xDCE9)))\n"
            "txos.command.build_parser = lambda: parser\n"
            "txos.command.main([])\n"
        )
        strict = {"PYTHONPATH": str(PACKAGE), "PYTHONIOENCODING": "utf-8:strict"}
        words, environment = [sys.executable, "-c", code], {**os.environ, **strict}
        ran = subprocess.run(words, stdout=subprocess.PIPE, env=environment, check=True)
        self.assertEqual(ran.stdout, b"caf\xe9\n")

    def help_to(self, output):
        """The status of `python3 -m txos --help`, and what it says on its standard error."""
        environment = {**os.environ, "PYTHONPATH": str(PACKAGE)}
        environment.pop("PYTHONUNBUFFERED", None)
        words = [sys.executable, "-m", "txos", "--help"]
        ran = subprocess.run(
            words, stdout=output, stderr=subprocess.PIPE, env=environment, check=False
        )
        return ran.returncode, ran.stderr

    def test_a_reader_that_has_gone(self):
        reader, writer = os.pipe()
        os.close(reader)
        try:
            self.assertEqual(self.help_to(writer), (128 + signal.SIGPIPE, b""))
        finally:
            os.close(writer)

    def test_a_device_that_is_full(self):
        with open("/dev/full", "wb") as full:
            status, said = self.help_to(full)
        self.assertEqual((status, said), (1, b"txos-record: No space left on device\n"))
