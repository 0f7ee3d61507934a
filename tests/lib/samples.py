"""Texts for the program: those of the examples and of the tests, and texts made at random.

What is made follows the grammar; a changed text has a byte, a word or a line otherwise.
"""
import glob
import os
import random

TOP = os.path.dirname(os.path.dirname(os.path.dirname(os.path.abspath(__file__))))
COMMANDS = {
    "schedule": ["replay"],
    "walk": ["debug"],
    "program": ["run", "--workers", "1", "--turns", "1"],
}
FORMS = """map A;unmap A;protect A r|rw;store A HEX;load A;fork C;exit V;waitpid T wait|nohang;getpid
getppid;setuid V;seteuid V;setgid V;setegid V;pipe Q R W;dup F;dup2 F G;close F;set_nonblock F on|off
read F A V;write F A V;kill T V;sigqueue T V V;sigaction V default|ignore;sigaction V catch POINT SET
sigprocmask block|unblock|set SET;sigpending;sigreturn;console_write A V;jump POINT always
jump POINT if V;keep V;sys_xbegin;sys_xbegin defer;sys_xend;sys_xabort"""
FORMS = [form.split() for form in FORMS.replace("\n", ";").split(";")]
SIGNALS = [1, 2, 3, 6, 9, 10, 12, 13, 14, 15, 17, *range(32, 40)]
ODD_WORDS = [b"", b" ", b"-", b"-0", b"00", b"07", b"+1", b"0x41", b"65536", b"256", b"9223372036854775808",
             b"-9223372036854775809", b"4294967296", b"\"hello\"", b"SIGTERM", b"$8", b"$3", b"@a", b"@", b"@A",
             b"#", b"\t", b"\r", b"\xff", b"debug", b"label", b"kernel", b"deliver", b"defer", b"5", b"10,2", b"if"]


def words_of(line):
    """The words of a line of version 3 that has no string."""
    return [it for it in line.removesuffix(b"\r").partition(b"#")[0].replace(b"\t", b" ").split(b" ") if it]


def kind_of(text):
    """The kind of a text, as `kind_of` of tx_check has it."""
    lines = text.split(b"\n")
    worded = [it for it in map(words_of, lines) if it]
    if worded and worded[0][:2] == [b"txos", b"3"]:
        lines = [b" ".join(it) for it in worded]
    head = lines[0].split(b" ")
    if head[0] == b"txos" and len(head) > 2 and head[2] == b"program":
        return "program"
    return "walk" if b"debug" in lines[1:] else "schedule"


def word(form, chance, program):
    """A word that a form stands for."""
    if form == "HEX":
        return "".join(f"{chance.randrange(256):02x}" for _ in range(chance.choice([1, 2, 8, 64])))
    if form == "SET":
        return ",".join(str(it) for it in sorted(chance.sample(SIGNALS, chance.randrange(4)))) or "-"
    if form == "POINT":
        return "@" + chance.choice("abc") if program else str(chance.choice([0, 7, 4294967295]))
    if form == "C":
        return str(chance.choice([0, 5, 65535]))
    if form in ("Q", "R", "W", "S"):
        return str(chance.choice([0, 9, 255]))
    if len(form) > 1:
        return chance.choice(form.split("|"))
    if program and chance.random() < 0.3:
        return f"${chance.randrange(8)}"
    return str(chance.choice([0, 1, -1, 64, 9223372036854775807, -9223372036854775808]))


def call(chance, program):
    """A call, as a schedule or a program has it."""
    form = chance.choice(FORMS)
    if program and form[0] in ("fork", "pipe"):
        form = form[:1]
    return " ".join([form[0], *(word(it, chance, program) for it in form[1:])])


def step(chance):
    """A line of a schedule."""
    kind = chance.random()
    if kind < 0.05:
        return f"kernel {chance.randrange(70)}"
    if kind < 0.1:
        return f"{chance.randrange(70)} deliver {chance.choice([0, 9, 255])}"
    return f"{chance.randrange(70)} {call(chance, False)}"


def made(chance):
    """A text made from the grammar."""
    kind = chance.choice(["schedule", "walk", "program"])
    version = chance.choice([1, 2])
    count = chance.choice([1, 2, 64, 256])
    if kind == "program":
        lines = [f"label {it}" for it in "abc" if chance.random() < 0.7]
        lines += [call(chance, True) for _ in range(chance.randrange(8))]
        chance.shuffle(lines)
    else:
        lines = [step(chance) for _ in range(chance.randrange(8))]
    if kind == "walk":
        commands = ["back", "forward", "state", f"goto {chance.randrange(9)}", f"moved {chance.randrange(9)}"]
        lines += ["debug", *(chance.choice(commands) for _ in range(chance.randrange(5)))]
    head = f"txos {version} {'program' if kind == 'program' else 'schedule'} {count}"
    return ("\n".join([head, *lines]) + "\n").encode()


def changed(text, chance):
    """The text with a byte, a word or a line changed."""
    lines = text.split(b"\n")
    at = chance.randrange(len(lines))
    way = chance.randrange(8)
    if way == 0 and text:
        place = chance.randrange(len(text))
        return text[:place] + chance.choice([b"", b" ", b"\n", b"\r", b"0", b"-", b"x", b"\xe4"]) + text[place + 1:]
    if way == 1:
        return text[: chance.randrange(len(text) + 1)]
    words = lines[at].split(b" ")
    place = chance.randrange(len(words))
    if way == 2:
        words[place] = chance.choice(ODD_WORDS)
    elif way == 3:
        del words[place]
    elif way == 4:
        words.insert(place, chance.choice([*ODD_WORDS, *words]))
    elif way == 5 and words[place]:
        name = bytearray(words[place])
        name[chance.randrange(len(name))] = chance.choice(b"abcxyz01_ ")
        words[place] = bytes(name)
    elif way == 6:
        lines.insert(at, chance.choice(lines))
    else:
        words = [lines[at] + chance.choice([b" ", b"\r", b" 1", b"x" * 600])]
    lines[at] = b" ".join(words)
    return b"\n".join(lines)


def long_texts():
    """Texts of as many lines as there may be, and of one more."""
    for count in (4096, 4097):
        yield b"txos 1 schedule 2\n" + b"1 map 0\n" * count
        yield b"txos 1 schedule 2\n" + b"1 map 0\n" * count + b"debug\n"
        yield b"txos 1 schedule 2\ndebug\n" + b"back\n" * count
        yield b"txos 1 schedule 2\n" + b"1 mpa 0\n" * count
    for count in (1024, 1025):
        yield b"txos 1 program 2\n" + b"getpid\n" * count
        yield b"txos 1 program 2\n" + b"jump @nowhere always\n" * count
    for count in (256, 257):
        yield b"txos 1 program 2\n" + b"".join(b"label a%d\n" % it for it in range(count))
        yield b"txos 1 program 2\n" + b"label a\n" * count
    for count in (512, 513):
        yield b"x" * count + b"\n"
        yield b"txos 1 schedule 2\n" + b"1" * count
        yield b"txos 2 program 2\nlabel " + b"a" * (count - 6) + b"\n"


def stored():
    """The texts of the examples and of the tests."""
    for pattern in ("examples/*", "tests/texts/schedules/*"):
        for path in sorted(glob.glob(f"{TOP}/{pattern}")):
            if path.endswith((".txos", ".walk", ".program")):
                with open(path, "rb") as file:
                    yield file.read()
    with open(f"{TOP}/tests/texts/lines/table", encoding="utf-8") as table:
        for line in table:
            if line.count("|") >= 2 and not line.startswith("#"):
                text = line.rstrip("\n").split("|", 2)[2]
                yield text.lstrip(" ").encode().decode("unicode_escape").encode("latin-1")


def texts(count, seed):
    """The texts to compare, `count` of them made or changed."""
    chance = random.Random(seed)
    known = [*stored(), b"", b"\n", b"txos", b"debug", b"debug\n", b"\ndebug\n"]
    yield from known
    yield from long_texts()
    for _ in range(count):
        text = made(chance) if chance.random() < 0.6 else chance.choice(known)
        for _ in range(chance.choice([0, 1, 1, 1, 2, 3])):
            text = changed(text, chance)
        yield text
