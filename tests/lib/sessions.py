"""What sessions with the shell are made of at random, and what the program answers."""
import subprocess

import samples

# A line, and its answer, which parts the answers of the lines before and behind it.
ASK, PARTS = "parts -", "? column 1: no such command: parts\n"
COMMANDS = ["steps 9", "steps 3 2", "back", "forward", "goto 0", "goto 1", "goto 3", "goto end", "goto 99", "state", "moved 1", "moved 3", "cut", "text", "steps", "steps 2 3", ""]
PIECES = ["proc 1", "proc 2", "proc 3", "page 1 0", "page 2 0", "page 2 1", "fd 1 0", "fd 2 1", "pending 1", "pending 2", "queue 1", "ids 2", "desc 0", "desc 1", "pipe 0", "txn 1", "txn 2", "txn 300"]


class Program:
    """A program, and what its commands answer."""

    def __init__(self, path):
        self.path = path

    def ran(self, words, text):
        """What came of these words and this text."""
        return subprocess.run([self.path, *words], input=text, capture_output=True, check=False, encoding="latin-1")

    def shell(self, lines):
        """The answer to each line."""
        text = "".join(f"{it}\n{ASK}\n" for it in lines)
        ran = self.ran(["shell"], text)
        return ran.stdout.split(PARTS)[:-1] if ran.returncode == 0 else [ran.stderr] * len(lines)


def step_of(chance):
    """A step that is often accepted."""
    if chance.random() < 0.2:
        return samples.step(chance)
    p, q = chance.randrange(1, 4), chance.randrange(1, 5)
    return chance.choice([
        f"{p} sys_xbegin", f"{p} sys_xend", f"{p} sys_xabort", f"kernel {p}", f"{p} map {chance.randrange(3)}", f"{p} store {chance.randrange(128)} 41",
        f"{p} fork {q}", f"{p} exit 0", f"{p} waitpid {q} wait", f"{p} kill {q} 10", f"{p} pipe 0 0 1", f"{p} write 1 0 3", f"{p} read 0 64 3", f"{p} close 0",
        f"{p} getpid", f"{p} deliver 10",
    ])


def command_of(chance):
    """A command, of which the answer is known."""
    return chance.choice([
        chance.choice(COMMANDS), chance.choice(COMMANDS), f"try {step_of(chance)}", f"without {chance.randrange(1, 4)}", f"when {chance.choice(PIECES)}",
        f"next {chance.choice(PIECES)}",
        chance.choice(COMMANDS), chance.choice(COMMANDS), f"try {step_of(chance)}", f"without {chance.randrange(1, 4)}",
        chance.choice(["owns", f"owns {chance.randrange(1, 4)}", "why", f"why {step_of(chance)}"]),
        f"diff {chance.randrange(8)} {chance.randrange(8)}", chance.choice(["holds pipe 0", "holds desc 0", "holds desc 1", "holds pipe 255"]),
    ])
