"""The bytes in the memory of the kernel's processes and in its pipes, as the steps move them."""

from __future__ import annotations

from typing import Dict, Optional

from ..recording import READ
from .descriptors import DATA, ZEROS
from .tree import Pipe, Transfer

_SIZE = ZEROS - DATA
_ESCAPES = {ord("\n"): "\\n", ord("\t"): "\\t", ord('"'): '\\"', ord("\\"): "\\\\"}


class Memory:
    """What each process has at the addresses that bytes are read to, and each pipe holds."""

    def __init__(self) -> None:
        self._memories: Dict[int, bytearray] = {}
        self._pipes: Dict[Pipe, bytearray] = {}

    def follow(self, process: int, call: str) -> None:
        """Follows a step that moves no bytes: a fork copies memory."""
        words = call.split()
        if words[0] == "fork":
            self._memories[int(words[1])] = bytearray(self._of(process))

    def store(self, process: int, data: bytes) -> Optional[str]:
        """The store that a process needs before it writes these bytes, or None."""
        memory = self._of(process)
        if memory[: len(data)] == data:
            return None
        memory[: len(data)] = data
        return f"store {DATA} {spell_bytes(data)}"

    def move(self, process: int, transfer: Transfer, size: int, address: int) -> None:
        """Follows bytes through a pipe."""
        pipe, memory = self._pipes.setdefault(transfer.pipe, bytearray()), self._of(process)
        if transfer.verb == READ:
            memory[:size] = pipe[:size].ljust(size, b"\0")
            del pipe[:size]
        else:
            pipe += memory[:size] if address == DATA else bytes(size)

    def _of(self, process: int) -> bytearray:
        return self._memories.setdefault(process, bytearray(_SIZE))


def spell_bytes(data: bytes) -> str:
    """Bytes as a schedule of version 3 spells them: a string where they can be read."""
    if all(it in _ESCAPES or 32 <= it < 127 for it in data):
        return f'"{"".join(_ESCAPES.get(it, chr(it)) for it in data)}"'
    return f"0x{data.hex()}"
