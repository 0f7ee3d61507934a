"""The pages of the manual, and the completions for shells, made of the commands' own words."""
import re
import shlex
from pathlib import Path

from words import long_options

HERE = Path(__file__).resolve().parent
# What the program's own page has.
OTHERS = re.compile(r"commands of txos|faults")


def filled(name, values):
    """A template of this folder with its places filled."""
    text = (HERE / name).read_text(encoding="utf-8")
    return re.sub(r"@([A-Z_]+)@", lambda place: values[place[1]], text)


def roff(text):
    """A text as roff prints it letter by letter."""
    escaped = text.replace("\\", "\\e").replace("-", "\\-")
    return re.sub(r"^([.'])", r"\\&\1", escaped, flags=re.MULTILINE)


def block(text):
    """Lines that stay as they are."""
    return f".PP\n.nf\n{roff(text.rstrip())}\n.fi"


def row(word, meaning):
    """A word, and what is said of it."""
    return f".TP\n.B {roff(word)}\n{roff(meaning)}"


def rows_part(command):
    """What the manual says of a command's arguments and options; how it asks for help is said once of all."""
    return [f".RS\n{row(*it)}\n.RE" for it in command.rows if "--help" not in it[0]]


def command_part(program, command):
    """What the manual says of a command of the program."""
    more = [f".RS\n{block(it)}\n.RE" for it in program.page_of_command(command.name).split("\n", 1)[1:] if it]
    return "\n".join([row(command.name, f"{command.about}."), *rows_part(command), *more])


def fault_part(page):
    """What the manual says of a fault, by the first line of its page."""
    word, _, meaning = page.splitlines()[0].partition(": ")
    return f".RS\n{row(word, meaning)}\n.RE"


def synopsis(commands):
    """How commands are called, each in a line."""
    return "\n.br\n".join(f".B {roff(it.usage)}" for it in commands)


def manual(program, date):
    """The page of the program."""
    commands = program.commands()
    faults = next(it for it in program.groups() if it.title.startswith("faults"))
    return filled("txos.1", {
        "DATE": date,
        "VERSION": program.version()[0],
        "SYNOPSIS": synopsis(commands),
        "COMMANDS": "\n".join(command_part(program, it) for it in commands),
        "OPTIONS": "\n".join(row(*it) for it in program.options()),
        "FAULTS": "\n".join(fault_part(program.page(it)) for it in faults.words),
    })


def group_part(program, group):
    """What the manual says of the words of a group."""
    return "\n".join([f".SH {roff(group.title).upper()}", *(block(program.page(it)) for it in group.words)])


def texts_manual(program, date):
    """The page of the texts: each word that the program explains, but for those of the other page."""
    return filled("txos-texts.5", {
        "DATE": date,
        "VERSION": program.version()[0],
        "WORDS": "\n".join(group_part(program, it) for it in program.groups() if not OTHERS.match(it.title)),
    })


def library_manual(program, date):
    """The page of the library."""
    return filled("libtxos.3", {"DATE": date, "VERSION": program.version()[0]})


def recorder_manual(recorder, program, date):
    """The page of txos-record."""
    commands = recorder.commands()
    parts = ["\n".join([row(it.name, recorder.page(it.name)), *rows_part(it)]) for it in commands]
    return filled("txos-record.1", {
        "DATE": date,
        "VERSION": program.version()[0],
        "SYNOPSIS": synopsis(commands),
        "DESCRIPTION": roff(recorder.about()),
        "COMMANDS": "\n".join(parts),
        "OPTIONS": "\n".join(row(*it) for it in recorder.options()),
    })


def completion(name, asked):
    """A file of completions, of the program or of txos-record."""
    commands, after = asked.commands(), asked.words_after()
    return filled(name, {
        "COMMANDS": " ".join(it.name for it in commands),
        "COMMANDS_DESCRIBED": "\n".join(f"    {shlex.quote(f'{it.name}:{it.about}')}" for it in commands),
        "OPTIONS": " ".join(long_options(asked.options())),
        "BASH_CASES": "\n".join(f"        *:{it}) words='{' '.join(after[it])}' ;;" for it in after),
        "ZSH_CASES": "\n".join(f"    *:{it}) compadd -- {' '.join(after[it])} ;;" for it in after),
    })
