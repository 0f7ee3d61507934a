"""Tests of `txos-record run`: its status and its sentence where a command does not run."""

import argparse
import os
import shutil
import signal
import subprocess
import sys
import tempfile
import time
import unittest
from pathlib import Path

import txos
from txos.faults import Fault
from txos.running import add_command

PACKAGE = Path(txos.__file__).resolve().parent.parent


def run(*words):
    """Runs a command as the words ask for."""
    parser = argparse.ArgumentParser()
    add_command(parser.add_subparsers())
    args = parser.parse_args(["run", *words])
    return args.run(args)


@unittest.skipUnless(shutil.which("strace"), "there is no strace")
class Refused(unittest.TestCase):
    def setUp(self):
        folder = tempfile.TemporaryDirectory()
        self.addCleanup(folder.cleanup)
        self.folder = Path(folder.name)
        self.output = str(self.folder / "made.txos")

    def fault(self, *words):
        with self.assertRaises(Fault) as caught:
            run(*words)
        return str(caught.exception), caught.exception.status

    def program(self, text, mode):
        file = self.folder / "program"
        file.write_text(text)
        file.chmod(mode)
        return str(file)

    def test_a_command_that_is_not_there(self):
        missing = str(self.folder / "missing")
        said = f"there is no command {missing}"
        self.assertEqual(self.fault("-o", self.output, "--", missing), (said, 127))

    def test_a_command_that_may_not_be_executed(self):
        program = self.program("", 0o644)
        said = f"{program} can't be executed: its mode forbids it"
        self.assertEqual(self.fault("-o", self.output, "--", program), (said, 126))
        said = f"{self.folder} can't be executed: it is a folder"
        self.assertEqual(self.fault("-o", self.output, "--", str(self.folder)), (said, 126))

    def test_a_command_that_the_system_does_not_execute(self):
        program = self.program("#!/nowhere/sh\n", 0o755)
        said = f"{program} can't be executed: No such file or directory"
        self.assertEqual(self.fault("-o", self.output, "--", program), (said, 126))
        self.assertFalse(os.path.exists(self.output))

    def test_an_output_that_cannot_be_written_is_reported_before_the_command_runs(self):
        done, missing = self.folder / "done", str(self.folder / "no" / "file")
        for words in (["-o", missing], ["-o", self.output, "--log", missing]):
            said, status = self.fault(*words, "--", "touch", str(done))
            self.assertEqual((said, status), (f"{missing}: No such file or directory", 125))
            self.assertFalse(done.exists())

    def test_a_quit_is_for_the_command(self):
        environment = {**os.environ, "PYTHONPATH": str(PACKAGE)}
        words = [sys.executable, "-m", "txos", "run", "-o", self.output]
        command = ["sh", "-c", "echo ready; read line"]
        words += ["--", *command]
        nowhere = subprocess.DEVNULL
        with subprocess.Popen(
            words, stdin=-1, stdout=-1, stderr=nowhere, env=environment
        ) as recorder:
            recorder.stdout.readline()
            recorder.send_signal(signal.SIGQUIT)
            time.sleep(0.1)
            recorder.stdin.write(b"line\n")
            recorder.stdin.close()
            self.assertEqual(recorder.wait(), 0)
        self.assertTrue(os.path.exists(self.output))


if __name__ == "__main__":
    unittest.main()
