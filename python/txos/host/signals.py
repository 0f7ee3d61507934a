"""What calls do to signals, and how one is delivered."""

from __future__ import annotations

import re
import signal as host_signals
from dataclasses import replace
from typing import Dict, FrozenSet, List, Optional

from ..faults import Fault
from ..recording import OUTSIDE
from .descriptors import Effect, answer_of, leave_out_failed
from .strace import Call
from .tree import CHLD, KILL, REALTIME, SIGNALS, Action, Process, Tree, signal_number, spell_signal

_HANDLER = 1000  # the point at which every handler is said to begin
_FRAMES = 4  # caught signals that have not returned, at most
_NOBODY = 999  # a number that no process has
_QUESTION = "question that changes nothing"
SENDERS = (
    "kill", "tkill", "tgkill", "rt_sigqueueinfo", "rt_tgsigqueueinfo", "pidfd_send_signal"
)  # fmt: skip
# Which argument has the mask that a call waits with.
_WAIT_MASKS = {"rt_sigsuspend": 0, "ppoll": 3, "pselect6": 5, "epoll_pwait": 4, "epoll_pwait2": 4}


def set_of(text: str) -> Optional[FrozenSet[int]]:
    """The known signals of a set as strace prints it, or None where it prints none."""
    found = re.search(r"(~?)\[([A-Z0-9_+ ]*)\]", text)
    if not found:
        return None
    names = {signal_number(it) for it in found[2].split()}
    known = {*SIGNALS.values(), *REALTIME.values()} - {KILL}
    return frozenset(it for it in known if (it in names) != bool(found[1]))


def _action(tree: Tree, process: Process, call: Call) -> None:
    number, handler = signal_number(call.arg(0)), re.search(r"sa_handler=(\w+)", call.arg(1))
    if call.error:
        leave_out_failed(tree, call)
    elif not handler:
        tree.leave_out(_QUESTION)
    elif number is None:
        name = "a realtime signal" if call.arg(0).startswith("SIGRT") else call.arg(0)
        tree.leave_out(f"action of {name}, which the kernel lacks")
        is_caught = handler[1] not in ("SIG_DFL", "SIG_IGN")
        (process.lacked.add if is_caught else process.lacked.discard)(call.arg(0))
    else:
        kind = {"SIG_DFL": "default", "SIG_IGN": "ignore"}.get(handler[1], "catch")
        mask = set_of(",".join(re.findall(r"sa_mask=(~?\[[^\]]*\])", call.arg(1))))
        flags = re.search(r"sa_flags=([\w|]+)", call.arg(1))
        made = Action(kind, mask or frozenset(), flags[1] if flags else "")
        set_action(tree, process, number, made, answer_of(call))


def set_action(
    tree: Tree, process: Process, number: int, made: Action, expected: Optional[str]
) -> None:
    """A process does something else with a signal."""
    old, name = process.action(number), spell_signal(number)
    same = (old.kind, made.kind) != ("catch", "catch") or old.mask == made.mask
    idle = "action set to what it is" if same and old.kind == made.kind else ""
    more = f" {_HANDLER} {tree.spell_set(made.mask)}" if made.kind == "catch" else ""
    tree.emit(process, f"sigaction {name} {made.kind}{more}", expected, idle)
    process.actions[number] = made
    if made.kind == "ignore" or (made.kind == "default" and number == CHLD):
        process.pending.discard(number)


def _mask(tree: Tree, process: Process, call: Call) -> None:
    how, given = call.arg(0), set_of(call.arg(1))
    if call.error:
        leave_out_failed(tree, call)
    elif given is None:
        tree.leave_out(_QUESTION)
    elif call.task != process.pid:
        tree.leave_out("mask of a thread")
    else:
        ways = {
            "SIG_BLOCK": ("block", process.mask | given),
            "SIG_UNBLOCK": ("unblock", process.mask - given),
            "SIG_SETMASK": ("set", given),
        }
        if how not in ways:
            raise Fault(f"line {tree.at[0]}: {how} is no way to set a mask")
        verb, made = ways[how]
        idle = "" if (made ^ process.mask) & tree.known else "mask set to what it is"
        tree.emit(process, f"sigprocmask {verb} {tree.spell_set(given)}", answer_of(call), idle)
        process.mask = made


def _pending(tree: Tree, process: Process, call: Call) -> None:
    found = set_of(call.arg(0))
    if call.error or found is None or call.task != process.pid:
        leave_out_failed(tree, call)
    else:
        tree.emit(process, "sigpending", f"ok {sum(1 << it for it in found & tree.known)}")


def _return(tree: Tree, process: Process, call: Call) -> None:
    """A handler returns. The host's mask is then the log's, and the kernel's that of its frame."""
    mask = process.frames.pop() if process.frames else None
    if mask is None:
        tree.leave_out("return from a handler that the kernel has not")
        return
    tree.emit(process, "sigreturn")
    given = set_of(call.arg(0))
    process.mask = mask
    if given is not None and call.task == process.pid:
        tree.set_mask(process, given)


def _take(tree: Tree, process: Process, call: Call) -> None:
    """A pending signal is taken without a delivery: to ignore it drops it."""
    number = call.result if call.result and call.result > 0 else None
    if number is None:
        leave_out_failed(tree, call)
    elif number in process.pending:
        old = process.action(number)
        set_action(tree, process, number, Action("ignore"), None)
        set_action(tree, process, number, old, None)
    else:
        tree.leave_out("signal that is taken, and whose sender is not in the log")


def wait_mask(call: Call) -> Optional[FrozenSet[int]]:
    """The mask that a call waits with, or None where it waits with its own."""
    place = _WAIT_MASKS.get(call.name)
    return None if place is None else set_of(call.arg(place))


def begin_wait(tree: Tree, process: Process, call: Call) -> None:
    """A call begins to wait with a mask of its own."""
    mask = wait_mask(call)
    if mask is not None and call.task == process.pid:
        own = process.mask
        tree.set_mask(process, mask)
        process.own_mask = own


def end_wait(tree: Tree, process: Process) -> None:
    """What waited with a mask of its own goes on, with the mask of before."""
    own, process.own_mask = process.own_mask, None
    if own is not None:
        tree.set_mask(process, own)


def _wait(tree: Tree, process: Process, call: Call) -> None:
    """A wait ends. Where a signal ends it, that comes while its mask still holds."""
    if call.name not in _WAIT_MASKS or wait_mask(call) is None:
        tree.leave_out(call.name)
    elif not call.is_interrupted and call.task == process.pid:
        end_wait(tree, process)


def targets(tree: Tree, process: Process, call: Call) -> Optional[List[Process]]:
    """The recorded processes that a kill is sent to, or None where it is sent to none of them."""
    place = 1 if call.name == "tgkill" else 0
    target = call.number(place)
    if call.name == "pidfd_send_signal":
        named = process.descriptors.get(target or 0)
        target = named.process if named else None
    if target is None or target == -1:
        return None
    if target > 0:
        found = tree.tasks.get(target)
        return [found] if found and found.is_there else None
    group = -target or process.group
    members = [it for it in tree.there() if it.group == group]
    if signal_sent(call) == KILL:  # a process that has sent itself this one can do nothing more
        members.sort(key=lambda it: it is process)
    return members or None


def signal_sent(call: Call) -> Optional[int]:
    """The signal that a kill sends, 0 where it only asks, or None where the kernel lacks it."""
    place = 2 if call.name in ("tgkill", "rt_tgsigqueueinfo") else 1
    return 0 if call.arg(place) == "0" else signal_number(call.arg(place))


def _kill(tree: Tree, process: Process, call: Call) -> None:
    found, number = targets(tree, process, call), signal_sent(call)
    if number is None:
        tree.leave_out(f"kill with {call.arg(2 if call.name == 'tgkill' else 1)}")
    elif call.error == "ESRCH" and not found:
        tree.emit(process, f"kill {_NOBODY} {spell_signal(number)}", answer_of(call))
    elif call.error:
        leave_out_failed(tree, call)
    elif found is None:
        tree.leave_out("kill of a process that was not recorded")
        tree.emit(process, f"kill {OUTSIDE} {spell_signal(number)}", answer_of(call))
    else:
        for target in found:
            tree.before_post(number, target, process)
            tree.emit(process, f"kill {target.number} {spell_signal(number)}", answer_of(call))
            post(target, number)


def post(target: Process, number: int) -> None:
    """A signal becomes pending at a process that runs."""
    if target.is_running and number:
        target.pending.add(number)


def send_unless_pending(
    tree: Tree, process: Process, number: int, sender: Optional[Process] = None
) -> None:
    """A signal that comes is sent by the process that the log names, or else from outside."""
    if number in process.pending:
        return
    call = f"kill {process.number} {spell_signal(number)}"
    if sender and sender.is_running and KILL not in sender.pending:
        tree.emit(sender, call)
    else:
        tree.emit_outside(call)
    post(process, number)


def is_deadly(process: Process, number: int) -> bool:
    """Whether a signal ends the process to which it is delivered."""
    return number == KILL or (process.action(number).kind == "default" and number != CHLD)


def deliver(tree: Tree, process: Process, number: int, sender: Optional[Process] = None) -> None:
    """A signal that does not end its process is delivered."""
    action, name = process.action(number), spell_signal(number)
    send_unless_pending(tree, process, number, sender)
    outer = process.mask
    if number in outer:  # it is another thread that is delivered it
        tree.set_mask(process, outer - {number})
    process.pending.discard(number)
    if action.kind != "catch":
        tree.emit(process, f"deliver {name}")
        tree.set_mask(process, outer)
        return
    if sum(it is not None for it in process.frames) == _FRAMES:
        _give_frame_up(tree, process)
    tree.emit(process, f"deliver {name}", "ok 0" if number in SIGNALS.values() else None)
    process.frames.append(process.mask)
    process.mask = (process.mask | action.mask | {number}) - {KILL}
    process.own_mask = None
    if "SA_NODEFER" in action.flags:
        tree.set_mask(process, process.mask - {number})
    if "SA_RESETHAND" in action.flags:
        set_action(tree, process, number, replace(action, kind="default"), None)


def _give_frame_up(tree: Tree, process: Process) -> None:
    """Of four handlers the last has not returned, but jumped: it gives its place to a new one."""
    mask = process.mask
    tree.emit(process, "sigreturn")
    while process.frames[-1] is None:
        process.frames.pop()
    process.mask = process.frames.pop() or frozenset()
    tree.set_mask(process, mask)


def unknown_number(name: str) -> int:
    """The host's number of a signal that the kernel lacks, or 0."""
    return int(getattr(host_signals, f"SIG{name}", 0))


EFFECTS: Dict[str, Effect] = {
    "rt_sigaction": _action,
    "rt_sigprocmask": _mask,
    "rt_sigpending": _pending,
    "rt_sigreturn": _return,
    "rt_sigtimedwait": _take,
    **{it: _kill for it in SENDERS},
    **{it: _wait for it in _WAIT_MASKS},
}
