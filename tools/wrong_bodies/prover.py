"""Runs rattle over a crate's kept proofs, with the words that rt gives it."""
import contextlib
import importlib.machinery
import importlib.util
import os
import shutil
import subprocess
import sys
import tempfile

# The prover sets this file's date in place. All other files it writes anew.
SET_IN_PLACE = "rattle-last-used"
KEPT = "out/incremental"
SECONDS = 900


class OtherKit(Exception):
    """The toolchain is not there, or has other names than this knows."""


class Prover:
    """Checks crates of a checkout with other texts in place of their own.

    It begins with a crate's kept proofs, or, anew, with the libraries alone.
    """

    def __init__(self, top, anew=False):
        self.anew = anew
        try:
            self.rt = toolchain()
            for method in ("below", "stamp"):
                setattr(self.rt.Crate, method, once(getattr(self.rt.Crate, method)))
            self.rt.guarded()
            self.words = [*self.rt.guarded(), self.rt.RATTLE, "check"]
            self.crates = {it.name: it for it in self.rt.crates_below(str(top))}
            self.parts = self.rt.PARTS
        except (AttributeError, OSError, TypeError) as error:
            raise OtherKit(f"this toolchain's rt is other than this tool knows: {error}") from error

    def is_proved(self, crate):
        """Whether the crate is proved here as it stands, and its proofs are kept or not wanted."""
        if self.anew:
            return os.path.isdir(crate.rlib)
        if not crate.has_kept() or not all(it.is_built() for it in crate.below()):
            return False
        return crate.makes_rlib() and crate.is_built() or self.check(crate, {}, [])[0] == 0

    def check(self, crate, texts, functions):
        """The status, and what is said, of a check of these functions, or of all for none."""
        with self.room(crate) as room:
            for path, text in texts.items():
                with open(f"{room}/{path}", "w", encoding="utf-8") as file:
                    file.write(text)
            words = [*self.words, *crate.words(["--jobs", "1"])]
            words += [] if self.anew else ["--incremental", "kept"]
            words += [word for function in functions for word in ("--only", function)]
            how = {"stdin": subprocess.DEVNULL, "stdout": subprocess.PIPE, "stderr": subprocess.STDOUT}
            try:
                ran = subprocess.run(words, cwd=room, errors="replace", timeout=SECONDS, **how)
            except subprocess.TimeoutExpired:
                return None, f"the prover was ended after {SECONDS} seconds"
        return ran.returncode, ran.stdout

    @contextlib.contextmanager
    def room(self, crate):
        """A folder with a copy of the crate's texts, and links to its kept proofs."""
        with tempfile.TemporaryDirectory(prefix="bodies-", dir=f"{crate.folder}/out") as room:
            for part in self.parts:
                if os.path.isdir(f"{crate.folder}/{part}"):
                    shutil.copytree(f"{crate.folder}/{part}", f"{room}/{part}")
            if not self.anew:
                shutil.copytree(f"{crate.folder}/{KEPT}", f"{room}/kept", copy_function=link)
            yield room


def toolchain():
    """The library of the toolchain's rt."""
    found = shutil.which("rt")
    if not found:
        raise OtherKit("rt is not on the PATH: put the toolchain's folder bin there")
    path = os.path.join(os.path.dirname(os.path.realpath(found)), "rtlib.py")
    loader = importlib.machinery.SourceFileLoader("rtlib", path)
    made = importlib.util.module_from_spec(importlib.util.spec_from_loader("rtlib", loader))
    sys.modules["rtlib"] = made
    loader.exec_module(made)
    return made


def once(method):
    """The method, which is asked once for each crate: its answer takes many walks."""
    kept = {}

    def answer(crate):
        if crate.folder not in kept:
            kept[crate.folder] = method(crate)
        return kept[crate.folder]

    return answer


def link(source, target):
    """Links a kept file, or copies it where the prover would change it."""
    (shutil.copy2 if os.path.basename(source) == SET_IN_PLACE else os.link)(source, target)
