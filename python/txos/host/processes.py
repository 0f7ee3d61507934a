"""What calls do to processes: those that make, name, end and wait for them."""

from __future__ import annotations

import re
from typing import Dict, List, Optional

from ..recording import ENDED, WAITS
from .descriptors import Effect, add_file, answer_of, leave_out_failed
from .signals import deliver, post, send_unless_pending, set_action, unknown_number
from .strace import Call, split_args
from .tree import CHLD, KILL, Action, Process, Tree, signal_number, spell_signal

WAITS_FOR_CHILDREN = ("wait4", "waitid")
FORKS = ("fork", "vfork", "clone", "clone3")
PROGRAMS = ("execve", "execveat")
_LONGEST_NAME = 160


def command_of(call: Call) -> str:
    """The command that an execve executes, as a shell would have it."""
    place = 2 if call.name == "execveat" else 1
    inner = call.arg(place)[1:-1] if call.arg(place).startswith("[") else call.arg(place - 1)
    words = [_quoted(it) for it in split_args(inner)]
    return " ".join(words)[:_LONGEST_NAME] or "?"


def _quoted(word: str) -> str:
    """A word as strace prints it, with quotes where a shell wants them."""
    if word == "...":
        return word
    more = "..." if word.endswith('"...') else ""
    bare = word[1 : -4 if more else -1].replace('\\"', '"')
    return (bare if re.fullmatch(r"[\w@%+=:,./-]+", bare) else f"'{bare}'") + more


def _fork(tree: Tree, process: Process, call: Call) -> None:
    if call.result is None or call.result < 0:
        leave_out_failed(tree, call)
        return
    words = ",".join(call.args)
    if "CLONE_THREAD" in words:
        tree.tasks[call.result] = process
        process.tasks.append(call.result)
        tree.leave_out("thread, which is its process here")
        return
    if "CLONE_FILES" in words:
        tree.leave_out("fork that shares descriptors, which are copied here")
    if re.search(r"\bCLONE_PARENT\b", words):
        tree.leave_out("fork of a child for its parent, which is its own child here")
    child = tree.begin(call.result, process, process.command)
    child.group = process.group
    child.descriptors = {fd: it.copy() for fd, it in process.descriptors.items()}
    child.actions, child.mask = dict(process.actions), process.mask
    child.frames, child.own_mask = list(process.frames), process.own_mask
    child.lacked = set(process.lacked)
    tree.emit(process, f"fork {child.number}", f"ok {child.number}")
    tree.name(child, tree.command_after_fork(child, call.start))
    if "CLONE_CLEAR_SIGHAND" in words:
        _forget_handlers(tree, child)
    for fd in re.findall(r"pidfd=\[(\d+)\]", words):
        add_file(tree, process, int(fd), closes_on_exec=True)
        process.descriptors[int(fd)].process = child.pid


def _execute(tree: Tree, process: Process, call: Call) -> None:
    if call.result != 0:
        leave_out_failed(tree, call)
        return
    for fd in sorted(fd for fd, it in process.descriptors.items() if it.closes_on_exec):
        tree.close(process, fd, "ok 0")
    _forget_handlers(tree, process)
    if command_of(call) != process.command:
        tree.name(process, command_of(call))


def _forget_handlers(tree: Tree, process: Process) -> None:
    """What a process catches has its usual action again."""
    process.lacked.clear()
    for number, action in sorted(process.actions.items()):
        if action.kind == "catch":
            set_action(tree, process, number, Action(), "ok 0")


def end_by_exit(tree: Tree, process: Process, status: int) -> None:
    """A process exits."""
    _end(tree, process, f"exit {status}")


def end_by_signal(tree: Tree, process: Process, name: str) -> None:
    """A signal ends a process; of one that the kernel lacks it exits as a shell would report it."""
    number = signal_number(name)
    if number is None:
        tree.leave_out(f"end by SIG{name}, which the kernel lacks")
        _end(tree, process, f"exit {128 + unknown_number(name)}")
        return
    send_unless_pending(tree, process, number)
    if number in process.mask:
        tree.set_mask(process, process.mask - {number})
    if number != KILL and process.action(number).kind != "default":
        set_action(tree, process, number, Action(), None)
    _end(tree, process, f"deliver {spell_signal(number)}")


def _end(tree: Tree, process: Process, call: str) -> None:
    """A process ends: its descriptors close, its parent gets SIGCHLD, its children a new one."""
    parent = process.parent
    if parent and parent.is_running:
        tree.before_post(CHLD, parent, process)
    tree.emit(process, call, ENDED)
    process.is_running = False
    process.descriptors.clear()
    for child in tree.children(process):
        child.parent = None
        if not child.is_running:
            _take_outside(tree, child)
    if not parent or not parent.is_running:
        _take_outside(tree, process)
        return
    post(parent, CHLD)
    action = parent.action(CHLD)
    if action.kind == "ignore" or "SA_NOCLDWAIT" in action.flags:
        _take_at_once(tree, parent, process)


def _take_outside(tree: Tree, process: Process) -> None:
    """A process whose parent has ended is waited for, as the first process of a host does."""
    tree.emit_outside(f"waitpid {process.number} nohang")
    tree.waited_for(process)


def _take_at_once(tree: Tree, parent: Process, child: Process) -> None:
    """A parent that ignores SIGCHLD is neither sent it nor left with a child that has ended."""
    if parent.action(CHLD).kind == "ignore" and CHLD not in parent.mask:
        deliver(tree, parent, CHLD)
    tree.emit(parent, f"waitpid {child.number} nohang")
    tree.waited_for(child)


def _exit(tree: Tree, process: Process, call: Call) -> None:
    """An exit has its effect where its process ends."""


def _process_asked(process: Process, call: Call) -> Optional[int]:
    """The process that a wait asks for, or None where it asks for any child, or a group."""
    if call.arg(0) == "P_PIDFD":
        found = process.descriptors.get(call.number(1) or 0)
        return found.process if found else None
    if call.name == "waitid":
        return call.number(1) if call.arg(0) == "P_PID" else None
    number = call.number(0)
    return number if number and number > 0 else None


def _group_asked(process: Process, call: Call) -> Optional[int]:
    """The group of which a wait asks for any child, or None where it does not."""
    if call.name == "waitid":
        return (call.number(1) or process.group) if call.arg(0) == "P_PGID" else None
    number = call.number(0)
    if number is None or number == -1 or number > 0:
        return None
    return -number or process.group


def children_asked(tree: Tree, process: Process, call: Call) -> List[Process]:
    """The children for which a wait asks."""
    wanted, group = _process_asked(process, call), _group_asked(process, call)
    children = tree.children(process)
    if wanted is not None:
        return [it for it in children if it.pid == wanted]
    return [it for it in children if group in (None, it.group)]


def _child_found(tree: Tree, process: Process, call: Call) -> Optional[int]:
    """The child that a wait has answered, or has found though its program did not want it."""
    if call.name == "wait4":
        return call.result if call.result and call.result > 0 else None
    found = re.search(r"si_pid=(\d+)", call.arg(2))
    if found or call.result != 0 or call.arg(2) != "NULL":
        return int(found[1]) or None if found and call.result == 0 else None
    ended = (it.pid for it in children_asked(tree, process, call) if not it.is_running)
    return next(ended, None)


def _wait(tree: Tree, process: Process, call: Call) -> None:
    found, words = _child_found(tree, process, call), ",".join(call.args)
    how = "nohang" if "WNOHANG" in words else "wait"
    if re.search(r"WIFSTOPPED|WIFCONTINUED|CLD_STOPPED|CLD_CONTINUED|CLD_TRAPPED", words):
        tree.leave_out("wait for a child that stops or continues")
    elif "WNOWAIT" in words:
        tree.leave_out("wait that leaves the child")
    elif found:
        _take_child(tree, process, found, how)
    elif call.waits or (not call.error and call.result == 0):
        expected = WAITS if call.waits else "ok 0"
        _ask(tree, process, call, how, expected)
    elif call.error == "ECHILD":
        wanted = _process_asked(process, call)
        known = tree.tasks.get(wanted) if wanted else None
        asked = [known] if known else children_asked(tree, process, call)
        number = asked[0].number if asked and asked[0].is_there else process.number
        tree.emit(process, f"waitpid {number} nohang", answer_of(call))
    else:
        leave_out_failed(tree, call)


def _take_child(tree: Tree, process: Process, pid: int, how: str) -> None:
    child = tree.tasks.get(pid)
    if not child:
        tree.leave_out("wait for a child that was not recorded")
        return
    if child.parent is not process:
        tree.leave_out("wait for a child that has another parent here")
        return
    tree.emit(process, f"waitpid {child.number} {how}", f"ok {child.number}")
    if not child.is_running:
        tree.waited_for(child)


def _ask(tree: Tree, process: Process, call: Call, how: str, expected: str) -> None:
    """A wait finds no child that has ended. Of several the one is asked for that might have."""
    children = sorted(children_asked(tree, process, call), key=lambda it: it.is_running)
    if children:
        tree.emit(process, f"waitpid {children[0].number} {how}", expected)
    else:
        tree.leave_out("wait for a child that was not recorded")


def _set_group(tree: Tree, process: Process, call: Call) -> None:
    if call.error:
        leave_out_failed(tree, call)
    elif call.name == "setsid":
        process.group = process.pid
    else:
        target = tree.tasks.get(call.number(0) or process.pid)
        if target:
            target.group = call.number(1) or target.pid


EFFECTS: Dict[str, Effect] = {
    **{it: _fork for it in FORKS},
    "execve": _execute,
    "execveat": _execute,
    "exit": _exit,
    "exit_group": _exit,
    "wait4": _wait,
    "waitid": _wait,
    "setpgid": _set_group,
    "setsid": _set_group,
}
