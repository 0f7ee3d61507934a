"""Writes files so that each is there whole, or not at all."""

from __future__ import annotations

import errno
import os
import re
import sys
import tempfile
from typing import Optional

from .faults import Fault

STANDARD = "-"  # the name of standard input and output
_BEGINNING = 4  # characters by which a recording and a picture are known
_LONGEST_BEGINNING = 200


def write_whole(path: Optional[str], text: str) -> None:
    """Writes a text to a file, which has it whole or stays as it was; or to standard output.

    That is meant where there is no path, or `-`. What a symbolic link names is written, and so is
    what is no file, such as a device. Raises `Fault` where a file is there that begins otherwise,
    and OSError where the file can't be written.
    """
    if path is None or path == STANDARD:
        sys.stdout.write(text)
        sys.stdout.flush()
        return
    if os.path.exists(path) and not os.path.isfile(path):
        with open(path, "w", encoding="utf-8") as device:
            device.write(text)
        return
    see_replaceable(path, re.escape(text[:_BEGINNING]))
    try:
        _replace(os.path.realpath(path), text)
    except OSError as error:
        error.filename = path  # and not that of the file that was to replace it
        raise


def _replace(path: str, text: str) -> None:
    """Writes a file beside another one, and puts it in its place."""
    folder, name = os.path.split(path)
    with tempfile.NamedTemporaryFile(
        "w", encoding="utf-8", dir=folder, prefix=f".{name}.", delete=False
    ) as file:
        try:
            os.chmod(file.name, 0o666 & ~_mask())
            file.write(text)
            file.flush()
            os.replace(file.name, path)
        except BaseException:
            os.unlink(file.name)
            raise


def see_replaceable(path: str, begins: str) -> None:
    """Raises `Fault` where a file is there that does not begin as what is to replace it."""
    if os.path.isfile(path):
        with open(path, encoding="utf-8", errors="surrogateescape") as file:
            beginning = file.read(_LONGEST_BEGINNING)
        if beginning and not re.match(begins, beginning):
            raise Fault(f"{path} is there, and has something else in it: name another file")


def see_writable(path: str) -> None:
    """Raises OSError where a file can't be written, which is to be known before long work."""
    if os.path.isdir(path):
        raise IsADirectoryError(errno.EISDIR, os.strerror(errno.EISDIR), path)
    if os.path.isfile(path) or not os.path.exists(path):
        with tempfile.TemporaryFile(dir=os.path.dirname(os.path.realpath(path))):
            pass


def _mask() -> int:
    """The permissions that new files do not have."""
    mask = os.umask(0)
    os.umask(mask)
    return mask
