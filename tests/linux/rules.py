"""The rules of the profile that a host does not have, and where a schedule meets them.

Each rule has a name and the words of docs/PROFILE.md that state it. A step that is answered
by such a rule is left out on the host, where it would do something else, or the player
makes up for it, and says so; one that the host answers otherwise is compared no further.
"""
import re

KNOWN = {1, 2, 3, 6, 9, 10, 12, 13, 14, 15, 17, *range(32, 40)}
SENDS = ("kill", "sigqueue")
IDS = ("setuid", "seteuid", "setgid", "setegid")
DESCRIPTORS = {"dup": 1, "dup2": 2, "close": 1, "set_nonblock": 1, "read": 1, "write": 1}
LAST_INT = 2**31 - 1

SENTENCES = {
    # Left out on the host.
    "numbers of pipes and descriptions": "one out of range is N3, one in use N4",
    "process 1 does not exit": "EPERM: process 1 (own; its source, XSH _exit(), has no error)",
    "no groups of processes": "Targets of 0 and below are ESRCH; nothing is sent to groups",
    "numbers have 64 bits": "A number that a program computes has 64 bits and a sign",
    "signals that are not known": "No other signal of POSIX is known",
    "16 queued signals": "The limit of 16 queued signals is the target's",
    "at most 512 bytes": "EINVAL: n is not 0 to 512",
    "greatest id": "effective user id 0 is own, as is the greatest id",
    "greatest catch point": "a catch point is over 65,535",
    # Made up for by the player, by the bits of its answers.
    "a pipe holds 512 bytes": "A pipe holds 512 bytes, and n over 512 is EINVAL",
    "EFAULT is found first": "EFAULT is always found, before an empty pipe, EPIPE and EAGAIN",
    "process 1 takes no signals": "A signal to process 1 is tested for permission, and then",
    "ended children stay": "An ended child stays until it is waited for, also where its parent",
    "one entry is dropped": "a realtime one by its first entry in the queue",
    "a standard signal has no value": "and a standard signal has none, whoever sent it",
    "SIGPIPE is pending once": "A standard signal sent while it is pending is lost",
    "SIGKILL waits": "A pending signal, even one that a process sent itself or that sigprocmask unblocks, waits",
    # By the refusal, or by the call.
    "a call waits": "A call that would wait is refused as N9",
    "SIGKILL is pending": "While signal 9 is pending at a process, each other step of it is N7",
    "numbers of processes": "The schedule chooses the child's number, and it is free again at",
    "four frames": "N11 where four frames are in use (own)",
    "a delivery is a step": "Which signal is delivered, and when, the schedule chooses (own",
    "sigreturn is a call": "no such call: a catching function returns",
    "memory is in pages": "XSH mmap(), munmap() and mprotect() act on ranges of addresses",
    # Answered otherwise by the host.
    "EINVAL before ESRCH": "EINVAL is tested before ESRCH (left open)",
    "an effective id that is there": "or it is the real or the saved id: the effective id becomes",
}
BITS = {
    1: "a pipe holds 512 bytes",
    2: "EFAULT is found first",
    4: "process 1 takes no signals",
    8: "ended children stay",
    16: "one entry is dropped",
    32: "a standard signal has no value",
    64: "SIGKILL waits",
    256: "SIGPIPE is pending once",
}
# The host lets an effective id be set that is there already.
SAME_ID = 128
REFUSALS = {
    "no N4": "numbers of processes",
    "no N3": "numbers of processes",
    "no N7": "SIGKILL is pending",
    "no N9": "a call waits",
    "no N11": "four frames",
}
CALLS = {
    "deliver": "a delivery is a step",
    "sigreturn": "sigreturn is a call",
    **dict.fromkeys(("map", "unmap", "protect", "store", "load"), "memory is in pages"),
}


# What the player can play: the calls that a host has, and processes up to some number.
PROCESSES = 24
PLAYED = {"fork", "waitpid", "exit", "getpid", "getppid", "pipe", *SENDS, *IDS, *DESCRIPTORS}
PLAYED |= {"sigaction", "sigprocmask", "sigpending", *CALLS}


def is_played(step):
    """Whether the player can play a step."""
    process, call, *words = step.split(" ")
    named = [process, *words[:1]] if call in ("fork", "waitpid", *SENDS) else [process]
    return call in PLAYED and all(int(it) <= PROCESSES or int(it) > 256 for it in named)


def number(word):
    return int(word) if re.fullmatch(r"-?\d+", word) else None


def left_out(step, reply):
    """The rule by which a step is left out on the host, if there is one."""
    process, call, *words = step.split(" ")
    first, second = ([*map(number, words), None, None])[:2]
    if call == "pipe":
        return "numbers of pipes and descriptions" if reply in ("no N3", "no N4") else None
    if reply.startswith("no ") and reply not in ("no N9", "no N10", "no N11"):
        return None
    if call == "exit":
        return "process 1 does not exit" if process == "1" else None
    if call in (*SENDS, "waitpid") and first <= 0:
        return "no groups of processes"
    if call in DESCRIPTORS and max(map(abs, map(number, words[: DESCRIPTORS[call]]))) > LAST_INT:
        return "numbers have 64 bits"
    if call in SENDS and reply == "ok -11":
        return "16 queued signals"
    if call in (*SENDS, "sigaction"):
        signal = second if call in SENDS else first
        if 1 <= signal <= 64 and signal not in KNOWN:
            return "signals that are not known"
    if reply != "ok -22":
        return None
    if call in ("read", "write"):
        return "at most 512 bytes"
    if call in IDS and first != -1:
        return "greatest id"
    if call == "sigaction" and words[1] == "catch" and int(words[2]) > 65535:
        return "greatest catch point"
    return None


def keeps_answer(step, reply):
    """Whether the host may answer a step otherwise, so that its process is told the answer."""
    told = {"kill": "ok -22", "sigqueue": "ok -22", "seteuid": "ok -1", "setegid": "ok -1"}
    return told.get(step.split(" ")[1]) == reply


def otherwise(step, reply, answer, bits):
    """The rule by which the host may answer a step otherwise."""
    _, call, *words = step.split(" ")
    if call in SENDS and (reply, answer) == ("ok -22", "ok -3") and not 0 <= int(words[1]) <= 64:
        return "EINVAL before ESRCH"
    if keeps_answer(step, reply) and call not in SENDS and answer == "ok 0" and bits & SAME_ID:
        return "an effective id that is there"
    return None


def met(step, reply, bits):
    """The rules of the profile that a step meets which is made on the host too."""
    call = step.split(" ")[1]
    found = [name for bit, name in BITS.items() if bits & bit]
    found += [REFUSALS[reply]] if reply in REFUSALS else []
    return [*found, *([CALLS[call]] if call in CALLS else [])]
