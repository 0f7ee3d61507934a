"""What txos-record says of its own words: the parser that reads them is asked."""
import argparse
import sys
from pathlib import Path

sys.path.insert(0, str(Path(__file__).resolve().parent.parent / "python"))
from txos.command import build_parser
from words import Command

WIDE = 10000  # columns, so that a usage is one line


def is_choice(action):
    """Whether an argument is one of the commands."""
    return isinstance(action, argparse._SubParsersAction)


def row_of(parser, action):
    """An argument or an option, as `-o, --output FILE`, and what it is."""
    meaning = (action.help or "") % {**vars(action), "prog": parser.prog}
    if not action.option_strings:
        return action.metavar or action.dest, meaning
    value = parser._get_formatter()._format_args(action, action.dest.upper())
    return f"{', '.join(action.option_strings)} {value}".rstrip(), meaning


def rows_of(parser):
    """The arguments and options of a parser."""
    return tuple(row_of(parser, it) for it in parser._actions if not is_choice(it))


def usage_of(parser):
    """How a parser's words are written, in one line; how it asks for help is said once of all."""
    formatter = parser.formatter_class(parser.prog, width=WIDE)
    actions = [it for it in parser._actions if it.dest != "help"]
    formatter.add_usage(parser.usage, actions, parser._mutually_exclusive_groups, prefix="")
    return formatter.format_help().strip()


class Recorder:
    """The command txos-record, which is asked for its words as the program is."""

    def __init__(self):
        self.parser = build_parser()
        self.choice = next(filter(is_choice, self.parser._actions))

    def about(self):
        """What it does."""
        return self.parser.description

    def page(self, name):
        """What help says of a command beside its arguments and options."""
        return self.choice.choices[name].description

    def commands(self):
        """All its commands, in the order in which its help lists them."""
        abouts = {it.dest: it.help for it in self.choice._get_subactions()}
        parsers = self.choice.choices.items()
        return [Command(name, abouts[name], usage_of(it), rows_of(it)) for name, it in parsers]

    def options(self):
        """Its own options, each with what it is."""
        return rows_of(self.parser)

    def words_after(self):
        """For each command the options that may be after it."""
        return {
            name: [option for it in parser._actions for option in it.option_strings[-1:]]
            for name, parser in self.choice.choices.items()
        }
