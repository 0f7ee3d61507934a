"""What the program says of its own words: its commands, and the words that it explains."""
import re
import subprocess
from dataclasses import dataclass

ROW = re.compile(r" {2,}(\S.*?)(?: {2,}(.*))?")
LONG = re.compile(r"--[a-z]+")


@dataclass(frozen=True)
class Command:
    """A command: what it does, how it is called, and its arguments and options, each with what it is."""

    name: str
    about: str
    usage: str
    rows: tuple


@dataclass(frozen=True)
class Group:
    """Words that go together."""

    title: str
    words: tuple


def rows_of(text, *titles):
    """The rows of a help text below the given titles: a word, and what is said of it."""
    rows, title = [], None
    for line in text.splitlines():
        if re.fullmatch(r"\w+:", line):
            title = line[:-1]
        elif title in titles and (row := ROW.fullmatch(line)):
            rows.append((row[1], row[2] or ""))
    return tuple(rows)


def long_options(rows):
    """The long options of rows, as `--help`."""
    return [option for word, _ in rows for option in LONG.findall(word)]


class Program:
    """The program at a path, which is asked for its words."""

    def __init__(self, path):
        self.path = path

    def said(self, *words):
        """What it writes of these words, wherever it writes that."""
        ran = subprocess.run([self.path, *words], stdin=subprocess.DEVNULL, capture_output=True, text=True, check=False)
        return ran.stdout or ran.stderr

    def answered(self, *words):
        """What it answers to these words on standard output, and nothing where it does not."""
        ran = subprocess.run([self.path, *words], stdin=subprocess.DEVNULL, capture_output=True, text=True, check=False)
        return ran.stdout if ran.returncode == 0 else ""

    def version(self):
        """Its version, such as 1.0.0, and the line of the kits in whose logic it is proved."""
        first, kits = self.said("version").splitlines()
        return first.split()[1], kits

    def command(self, name):
        """A command, by its help."""
        help_text = self.said("help", name)
        usage = re.search(r"^Usage: (.*)", help_text, re.MULTILINE)
        return Command(name, help_text.splitlines()[0], usage[1], rows_of(help_text, "Arguments", "Options"))

    def help_of(self, name, argument):
        """What the help of a command says of an argument."""
        return dict(self.command(name).rows).get(argument, "")

    def commands(self):
        """All its commands, in the order in which its help lists them."""
        return [self.command(name) for name, _ in rows_of(self.said("help"), "Commands")]

    def options(self):
        """Its own options, as `-h, --help`, each with what it is."""
        return rows_of(self.said("help"), "Options")

    def groups(self):
        """The words that it explains, in groups."""
        lines = self.said("explain").splitlines()
        return [Group(title, tuple(words.split())) for title, words in zip(lines[::2], lines[1::2])]

    def page(self, word):
        """What it explains of a word, or nothing where the word has no page of its own."""
        page = self.answered("explain", word)
        return page if page.startswith(f"{word}: ") else ""

    def page_of_command(self, name):
        """What it explains of a command, or nothing: the shell's `help` is another one."""
        commands = next(it for it in self.groups() if it.title == "commands of txos")
        return self.page(name) if name in commands.words else ""

    def words_after(self):
        """For each command the words that may be after it."""
        commands = self.commands()
        words = {it.name: long_options(it.rows) for it in commands}
        words["help"] += [it.name for it in commands]
        words["check"] += [it.name for it in commands if re.search(rf"\b{it.name}\b", self.help_of("check", "[command]"))]
        words["explain"] += [word for it in self.groups() for word in it.words]
        return words
