"""Builds the player, and has it play schedules."""
import os
import select
import subprocess
import sys
import time

HERE = os.path.dirname(os.path.abspath(__file__))
FLAGS = ["-std=c11", "-Wall", "-Wextra", "-O1", "-D_GNU_SOURCE"]
# The player gives up sooner, and ends what it has started.
PATIENCE = 60
CANNOT_PLAY = 3


class Broken(Exception):
    """The player did not play a schedule to its end."""


def skipped(why):
    print(f"skipped: {why}")
    sys.exit(0)


def built(folder):
    """The player, as the host's C compiler builds it."""
    sources = sorted(f"{HERE}/{it}" for it in os.listdir(HERE) if it.endswith(".c"))
    try:
        words = ["cc", "-fsyntax-only", "-xc", "-"]
        tried = subprocess.run(words, input=b"#include <stdio.h>\n", capture_output=True)
    except FileNotFoundError:
        skipped("there is no C compiler")
    if tried.returncode:
        skipped("the C compiler does not work")
    subprocess.run(["cc", *FLAGS, *sources, "-o", f"{folder}/player"], check=True)
    return f"{folder}/player"


class Player:
    """The process that plays schedules."""

    def __init__(self, path):
        self.path = path
        self.start()

    def start(self):
        pipe = subprocess.PIPE
        self.process = subprocess.Popen([self.path], stdin=pipe, stdout=pipe, bufsize=0)
        self.left = b""
        try:
            self.has_ids = self.line(time.monotonic() + PATIENCE) == "with ids"
        except Broken:
            if self.process.wait() == CANNOT_PLAY:
                skipped("the host has not what the player needs")
            raise

    def line(self, until):
        while b"\n" not in self.left:
            ready, _, _ = select.select([self.process.stdout], [], [], until - time.monotonic())
            more = os.read(self.process.stdout.fileno(), 65536) if ready else b""
            if not more:
                raise Broken("the player ends" if ready else "the player stands still")
            self.left += more
        line, _, self.left = self.left.partition(b"\n")
        return line.decode()

    def play(self, lines):
        """What is printed for a schedule: a line for each step, then the lines of the state."""
        found, until = [], time.monotonic() + PATIENCE
        try:
            self.process.stdin.write("".join(f"{it}\n" for it in [*lines, "end"]).encode())
            while (line := self.line(until)) != "end":
                found.append(line)
                if line.startswith("broken"):
                    raise Broken(line)
        except (Broken, BrokenPipeError):
            self.stop()
            self.start()
            raise
        at = found.index("state")
        return found[:at], found[at + 1 :]

    def stop(self):
        self.process.kill()
        self.process.wait()
        self.process.stdin.close()
        self.process.stdout.close()
