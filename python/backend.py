"""Builds this package for pip, with the standard library alone: no network is needed.

pip calls the functions that PEP 517 and PEP 660 name. Each writes one file into a folder, and
answers its name. The same sources give the same bytes.
"""

from __future__ import annotations

import ast
import base64
import contextlib
import gzip
import hashlib
import io
import os
import tarfile
import zipfile
from pathlib import Path
from typing import Any, Dict, Optional

HERE = Path(__file__).resolve().parent
_Tables = Dict[str, Dict[str, Any]]
_FIELDS = {  # of METADATA, by the keys of pyproject.toml
    "name": "Name",
    "version": "Version",
    "description": "Summary",
    "requires-python": "Requires-Python",
    "license": "License-Expression",
}

# The bytecode of this file, which pip has just imported, is not to stay in the checkout.
with contextlib.suppress(OSError):
    os.remove(__spec__.cached)
    os.rmdir(os.path.dirname(__spec__.cached))


def build_wheel(
    wheel_directory: str,
    config_settings: Optional[Dict[str, Any]] = None,
    metadata_directory: Optional[str] = None,
) -> str:
    """Writes the wheel of the package."""
    return _write_wheel(Path(wheel_directory), _package_files())


def build_editable(
    wheel_directory: str,
    config_settings: Optional[Dict[str, Any]] = None,
    metadata_directory: Optional[str] = None,
) -> str:
    """Writes a wheel that has the package imported from this folder."""
    return _write_wheel(Path(wheel_directory), {"txos.pth": f"{HERE}\n".encode()})


def build_sdist(sdist_directory: str, config_settings: Optional[Dict[str, Any]] = None) -> str:
    """Writes an archive of the sources, of which the same wheel can be built."""
    tables = read_tables()
    root = _name_of(tables)
    room = io.BytesIO()
    with tarfile.open(fileobj=room, mode="w") as archive:
        for path, content in _source_files(tables).items():
            head = tarfile.TarInfo(f"{root}/{path}")
            head.size = len(content)
            archive.addfile(head, io.BytesIO(content))
    Path(sdist_directory, f"{root}.tar.gz").write_bytes(gzip.compress(room.getvalue(), mtime=0))
    return f"{root}.tar.gz"


def read_tables() -> _Tables:
    """The tables of pyproject.toml, whose values are strings and lists, each in its own line."""
    tables: _Tables = {}
    table: Dict[str, Any] = {}
    for line in (HERE / "pyproject.toml").read_text(encoding="utf-8").splitlines():
        if line.startswith("["):
            table = tables.setdefault(line.strip("[]"), {})
        elif line and not line.startswith("#"):
            key, _, value = line.partition(" = ")
            table[key] = ast.literal_eval(value)
    return tables


def _name_of(tables: _Tables) -> str:
    """The name of the package with its version."""
    return f"{tables['project']['name']}-{tables['project']['version']}"


def _write_wheel(folder: Path, files: Dict[str, bytes]) -> str:
    """Writes a wheel of these files, and of what it says of itself."""
    tables = read_tables()
    info = f"{_name_of(tables)}.dist-info"
    metadata = {"METADATA": _metadata(tables), "WHEEL": _WHEEL, "entry_points.txt": _scripts(tables)}
    files = {
        **files,
        **{f"{info}/licenses/{name}": content for name, content in _licences(tables).items()},
        **{f"{info}/{name}": text.encode() for name, text in metadata.items()},
    }
    files[f"{info}/RECORD"] = _record(files, f"{info}/RECORD").encode()
    wheel = f"{_name_of(tables)}-py3-none-any.whl"
    with zipfile.ZipFile(folder / wheel, "w") as archive:
        for path, content in files.items():
            head = zipfile.ZipInfo(path)  # of 1980, so that no date is in it
            head.external_attr = 0o644 << 16
            archive.writestr(head, content, zipfile.ZIP_DEFLATED)
    return wheel


def _package_files() -> Dict[str, bytes]:
    """The files of the package, by their paths."""
    found = (it for it in sorted((HERE / "txos").rglob("*")) if it.is_file())
    kept = (it for it in found if it.parent.name != "__pycache__")
    return {it.relative_to(HERE).as_posix(): it.read_bytes() for it in kept}


def _licences(tables: _Tables) -> Dict[str, bytes]:
    """The licences: those of the checkout, or in an archive of the sources its own."""
    names = tables["project"]["license-files"]
    places = [folder / name for name in names for folder in (HERE, HERE.parent)]
    return {it.name: it.read_bytes() for it in places if it.is_file()}


def _source_files(tables: _Tables) -> Dict[str, bytes]:
    """The files of the archive of the sources."""
    return {
        "PKG-INFO": _metadata(tables).encode(),
        **{it: (HERE / it).read_bytes() for it in ("pyproject.toml", Path(__file__).name)},
        **_licences(tables),
        **_package_files(),
    }


_WHEEL = """\
Wheel-Version: 1.0
Generator: txos
Root-Is-Purelib: true
Tag: py3-none-any
"""


def _metadata(tables: _Tables) -> str:
    """What the package says of itself."""
    values = {key: it for key, it in tables["project"].items() if key != "license-files"}
    lines = [
        "Metadata-Version: 2.4",
        *(f"{_FIELDS[key]}: {value}" for key, value in values.items()),
        *(f"License-File: {it}" for it in _licences(tables)),
    ]
    return "".join(f"{it}\n" for it in lines)


def _scripts(tables: _Tables) -> str:
    """The commands that pip installs."""
    lines = [f"{name} = {function}" for name, function in tables["project.scripts"].items()]
    return "".join(f"{it}\n" for it in ["[console_scripts]", *lines])


def _record(files: Dict[str, bytes], own_path: str) -> str:
    """The list of a wheel's files with their sums; its own line has none."""
    lines = [f"{path},sha256={_sum_of(content)},{len(content)}" for path, content in files.items()]
    return "".join(f"{it}\n" for it in [*lines, f"{own_path},,"])


def _sum_of(content: bytes) -> str:
    """A sum as a wheel spells it."""
    return base64.urlsafe_b64encode(hashlib.sha256(content).digest()).rstrip(b"=").decode()
