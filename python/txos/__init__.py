"""A kernel in memory, with transactions over processes, for programs in Python.

`Kernel` drives the program `txos` (docs/SHELL.md), which `find_program` finds. The command
`txos-record`, or `python3 -m txos`, reads and asks recordings of real processes
(docs/RECORDINGS.md). The package needs Python 3.8 and its standard library.
"""

from .kernel import (
    Action,
    BadLine,
    DescHolders,
    Description,
    Difference,
    Found,
    Frame,
    Held,
    Ids,
    Kernel,
    Made,
    Moved,
    NoProgram,
    Owned,
    Owns,
    Page,
    PipeHolders,
    Process,
    Queued,
    Refused,
    Reply,
    ShellEnded,
    State,
    StepsAhead,
    Transaction,
    Trial,
    TxosError,
    Undelivered,
    Why,
    find_program,
)

__all__ = [
    "Action",
    "BadLine",
    "DescHolders",
    "Description",
    "Difference",
    "Found",
    "Frame",
    "Held",
    "Ids",
    "Kernel",
    "Made",
    "Moved",
    "NoProgram",
    "Owned",
    "Owns",
    "Page",
    "PipeHolders",
    "Process",
    "Queued",
    "Refused",
    "Reply",
    "ShellEnded",
    "State",
    "StepsAhead",
    "Transaction",
    "Trial",
    "TxosError",
    "Undelivered",
    "Why",
    "find_program",
]

# So that a traceback names an error as it is imported: txos.Refused.
for _error in (TxosError, NoProgram, Refused, StepsAhead, BadLine, ShellEnded):
    _error.__module__ = __name__
