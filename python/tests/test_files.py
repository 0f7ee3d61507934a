"""Tests of txos.files: what is written, and what stays as it was."""

import contextlib
import io
import os
import stat
import tempfile
import threading
import unittest
from pathlib import Path

from txos.faults import Fault
from txos.files import write_whole


class Written(unittest.TestCase):
    def setUp(self):
        folder = tempfile.TemporaryDirectory()
        self.addCleanup(folder.cleanup)
        self.folder = Path(folder.name)

    def test_a_file(self):
        file = self.folder / "a"
        for old in ("", "text of old"):
            file.write_text(old)
            write_whole(str(file), "text of new")
            self.assertEqual(file.read_text(), "text of new")
            self.assertEqual(os.listdir(self.folder), ["a"])

    def test_a_file_that_has_something_else_stays(self):
        file = self.folder / "a.py"
        file.write_text("import os")
        with self.assertRaisesRegex(Fault, "a.py is there, and has something else in it"):
            write_whole(str(file), "txos 3 schedule 2\n")
        self.assertEqual(file.read_text(), "import os")

    def test_a_file_that_can_not_be_made_is_named(self):
        with self.assertRaises(FileNotFoundError) as caught:
            write_whole(str(self.folder / "none/a"), "text")
        self.assertEqual(caught.exception.filename, str(self.folder / "none/a"))

    def test_standard_output(self):
        for name in (None, "-"):
            with contextlib.redirect_stdout(io.StringIO()) as out:
                write_whole(name, "text")
            self.assertEqual(out.getvalue(), "text")

    def test_a_link_still_names_its_file(self):
        file, link = self.folder / "a", self.folder / "link"
        link.symlink_to("a")
        for text in ("text one", "text two"):
            write_whole(str(link), text)
            self.assertTrue(link.is_symlink())
            self.assertEqual(file.read_text(), text)

    def test_a_fifo_stays_one(self):
        fifo, found = self.folder / "fifo", []
        os.mkfifo(fifo)
        reader = threading.Thread(target=lambda: found.append(fifo.read_text()))
        reader.start()
        write_whole(str(fifo), "text")
        reader.join()
        self.assertEqual(found, ["text"])
        self.assertTrue(stat.S_ISFIFO(fifo.stat().st_mode))

    def test_a_folder_is_no_file(self):
        with self.assertRaises(IsADirectoryError):
            write_whole(str(self.folder), "text")


if __name__ == "__main__":
    unittest.main()
