"""Compares a schedule's replies and its state with those of the host."""
import subprocess

import rules
from player import Broken

WORDS = {"r": 0, "rw": 1, "off": 0, "on": 1, "wait": 0, "nohang": 1, "block": 0, "unblock": 1}
WORDS |= {"set": 2, "default": 0, "ignore": 1, "catch": 2}


def set_of(text):
    """A set of signals as a number."""
    return str(sum(1 << int(it) for it in text.split(","))) if text != "-" else "0"


def order(step):
    """A step as the player reads it: all words are numbers but for the bytes of a store."""
    process, call, *words = step.split(" ")
    if call == "sigprocmask":
        words[1] = set_of(words[1])
    if call == "sigaction" and words[1] == "catch":
        words[3] = set_of(words[3])
    if call != "store":
        words = [str(WORDS.get(it, it)) for it in words]
    return " ".join([process, call, *words])


def meant(line):
    """A line of a state's text as the player prints it: without points, and a thing to a line."""
    first, *words = line.split(" ")
    if first == "proc" and words[3] == "run":
        return [f"proc {words[0]} parent {words[2]} run ret {words[7]}"]
    if first == "action" and words[1] == "catch":
        return [f"action {words[0]} catch {words[3]}"]
    if first == "queued":
        return [f"queued {it}" for it in sorted(words, key=lambda it: int(it.split(":")[0]))]
    if first == "frame":
        slots = [f"of frame {' '.join(words[3:])}"] if any(it != "0" for it in words[3:]) else []
        return [f"frame {words[1]} {words[2]}", *slots]
    return [line]


def pieces(lines):
    """The lines of a state by whom they are of; those of descriptions, named often, once."""
    found, owner = {}, ""
    for line in lines:
        owner = " ".join(line.split(" ")[:2]) if line.startswith("proc ") else owner
        found.setdefault("rest" if line.startswith(("desc ", "pipe ")) else owner, []).append(line)
    rest = found.get("rest", [])
    descriptions = {it for it in rest if it.startswith("desc ")}
    found["rest"] = sorted([*descriptions, *(it for it in rest if it.startswith("pipe "))])
    return found


def state_differs(state, played):
    """The lines of each thing that is not the same."""
    one, other = pieces([it for line in state for it in meant(line)]), pieces(played)
    things = [it for it in sorted({*one, *other}) if one.get(it) != other.get(it)]
    return [f"{it}: txos {one.get(it)}, host {other.get(it)}" for it in things]


def told(program, word, text):
    """What the program answers to a text; nothing where the text is at fault."""
    ran = subprocess.run([program, word], input=text, capture_output=True, encoding="latin-1")
    return ran.stdout if ran.returncode == 0 else ""


class Schedule:
    """A schedule, what `replay` answers to it, and the lines that the player is given for it."""

    def __init__(self, program, text):
        replies, parts, state = told(program, "replay", text).partition("state\n")
        if not parts:
            raise Broken("there is no report of a replay")
        head, *self.steps = text.splitlines()
        self.replies = [it.partition(" ")[2] for it in replies.splitlines()]
        self.state = state.splitlines()
        self.left_out = [rules.left_out(*it) for it in zip(self.steps, self.replies)]
        self.places, self.lines = [], [f"begin {head.split(' ')[3]}"]
        for step, reply, rule in zip(self.steps, self.replies, self.left_out):
            self.places.append(None if rule else len(self.lines) - 1)
            self.lines += self.lines_of(step, reply, rule)

    def lines_of(self, step, reply, rule):
        """A step on the host; one that is left out still answers its process."""
        told = f"{step.split(' ')[0]} answer {reply.partition(' ')[2]}"
        if rule:
            return [told] if reply.startswith("ok ") else []
        return [order(step), *([told] if rules.keeps_answer(step, reply) else [])]

    def compared(self, player, counts):
        """What differs on the host; the rules that were met are counted."""
        played, state = player.play(self.lines)
        found = []
        for number, (step, reply, place) in enumerate(zip(self.steps, self.replies, self.places)):
            if place is None:
                counts[self.left_out[number]] += 1
                continue
            answer, _, bits = played[place].partition("|")
            rule = rules.otherwise(step, reply, answer, int(bits))
            counts.update(rules.met(step, reply, int(bits)) + ([rule] if rule else []))
            counts["made"] += 1
            if not rule and answer != reply:
                found.append(f"step {number + 1}, {step}: txos {reply}, host {answer}")
        shown = [it for it in state if player.has_ids or not it.startswith("ids ")]
        return found + state_differs(self.state, shown)
