"""What the commands of this package report to their user."""

from __future__ import annotations

FAULT = 1  # what was to be read or written is at fault
NOT_THERE = 3  # a program that is needed is not there, or can't be started
# Of a command that runs another one, whose own status it has else; the numbers are env's.
RUN_FAILED = 125  # it could not record
NOT_EXECUTABLE = 126  # the command can't be executed
NO_COMMAND = 127  # there is no such command


class Fault(Exception):
    """Something that the user has to know: a sentence, and the exit status that goes with it."""

    def __init__(self, sentence: str, status: int = FAULT) -> None:
        super().__init__(sentence)
        self.status = status
