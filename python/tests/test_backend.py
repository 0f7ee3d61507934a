"""Tests of backend.py, which builds the package, and that Python 3.8 reads the package."""

import ast
import base64
import csv
import hashlib
import os
import shutil
import subprocess
import sys
import tarfile
import tempfile
import unittest
import zipfile
from email.parser import Parser
from pathlib import Path

import backend
from txos import find_program

FOLDER = Path(backend.__file__).resolve().parent
MODULES = {it.relative_to(FOLDER).as_posix() for it in (FOLDER / "txos").rglob("*.py")}


def program_version():
    """The version of the program, as it says itself."""
    words = [find_program(), "version"]
    return subprocess.run(words, stdout=subprocess.PIPE, check=True).stdout.decode().split()[1]


class Builds(unittest.TestCase):
    """The wheels and the archive of sources, in a folder of their own."""

    def setUp(self):
        folder = tempfile.TemporaryDirectory()
        self.addCleanup(folder.cleanup)
        self.folder = Path(folder.name)

    def wheel(self, build=backend.build_wheel):
        """The files of a wheel by their paths, and the name of its folder of facts."""
        name = build(str(self.folder))
        self.assertEqual(name, f"txos-{program_version()}-py3-none-any.whl")
        with zipfile.ZipFile(self.folder / name) as archive:
            files = {it: archive.read(it) for it in archive.namelist()}
        return files, f"txos-{program_version()}.dist-info"

    def test_the_version_is_that_of_the_program(self):
        files, info = self.wheel()
        said = Parser().parsestr(files[f"{info}/METADATA"].decode())
        self.assertEqual((said["Name"], said["Version"]), ("txos", program_version()))
        self.assertEqual(said["Requires-Python"], ">=3.8")
        self.assertEqual(said["License-Expression"], "MIT OR Apache-2.0")
        self.assertIsNone(said["Requires-Dist"])

    def test_a_wheel_has_the_package_and_its_licences(self):
        files, info = self.wheel()
        package = {it for it in files if it.startswith("txos/")}
        self.assertEqual(package, {*MODULES, "txos/py.typed"})
        self.assertEqual(files["txos/kernel.py"], (FOLDER / "txos/kernel.py").read_bytes())
        for name in ("LICENSE-APACHE", "LICENSE-MIT"):
            self.assertEqual(files[f"{info}/licenses/{name}"], (FOLDER.parent / name).read_bytes())
        scripts = files[f"{info}/entry_points.txt"].decode()
        self.assertEqual(scripts, "[console_scripts]\ntxos-record = txos.command:main\n")

    def test_a_record_has_each_file_with_its_sum(self):
        files, info = self.wheel()
        rows = {it[0]: it[1:] for it in csv.reader(files[f"{info}/RECORD"].decode().splitlines())}
        self.assertEqual(rows.pop(f"{info}/RECORD"), ["", ""])
        self.assertEqual({*rows, f"{info}/RECORD"}, set(files))
        for path, (digest, size) in rows.items():
            padded = f"{digest.replace('sha256=', '')}="
            self.assertEqual(base64.urlsafe_b64decode(padded), hashlib.sha256(files[path]).digest())
            self.assertEqual(int(size), len(files[path]))

    def test_an_editable_wheel_leads_to_this_folder(self):
        files, _ = self.wheel(backend.build_editable)
        self.assertEqual(files["txos.pth"].decode().strip(), str(FOLDER))
        self.assertFalse(any(it.startswith("txos/") for it in files))

    def test_sources_make_the_same_wheel(self):
        files, _ = self.wheel()
        name = backend.build_sdist(str(self.folder))
        self.assertEqual(name, f"txos-{program_version()}.tar.gz")
        with tarfile.open(str(self.folder / name)) as archive:
            for member in archive:
                self.assertTrue(member.isfile())
                made = self.folder / "sources" / member.name
                made.parent.mkdir(parents=True, exist_ok=True)
                made.write_bytes(archive.extractfile(member).read())
        sources = self.folder / "sources" / f"txos-{program_version()}"
        self.assertTrue((sources / "PKG-INFO").is_file())
        (self.folder / f"txos-{program_version()}-py3-none-any.whl").unlink()
        self.build_in(sources)
        self.assertEqual(self.wheel_that_is_there(), files)

    def test_a_build_leaves_nothing(self):
        copied = self.folder / "python"
        shutil.copytree(str(FOLDER), str(copied), ignore=shutil.ignore_patterns("__pycache__"))
        before = sorted(copied.rglob("*"))
        self.build_in(copied)
        self.assertEqual(sorted(copied.rglob("*")), before)

    def build_in(self, folder):
        """Builds a wheel by the sources of another folder, as pip does."""
        environment = {it: os.environ[it] for it in os.environ if not it.startswith("PYTHON")}
        code = "import sys, backend; backend.build_wheel(sys.argv[1])"
        words = [sys.executable, "-c", code, str(self.folder)]
        subprocess.run(words, cwd=str(folder), env=environment, check=True)

    def wheel_that_is_there(self):
        with zipfile.ZipFile(str(next(self.folder.glob("*.whl")))) as archive:
            return {it: archive.read(it) for it in archive.namelist()}

    def test_the_tables_are_read_as_toml(self):
        try:
            import tomllib
        except ImportError:
            self.skipTest("this Python has no tomllib")
        with (FOLDER / "pyproject.toml").open("rb") as file:
            tables = tomllib.load(file)
        scripts = tables["project"].pop("scripts")
        self.assertEqual(backend.read_tables(), {**tables, "project.scripts": scripts})


class Versions(unittest.TestCase):
    """The oldest Python that is to read the package."""

    def test_no_module_has_newer_syntax(self):
        for path in [FOLDER / "backend.py", *sorted((FOLDER / "txos").glob("*.py"))]:
            with self.subTest(module=path.name):
                text = path.read_text(encoding="utf-8")
                ast.parse(text, filename=str(path), feature_version=(3, 8))
