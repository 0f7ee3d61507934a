"""What calls do to descriptors: those that open, copy and close them, and that move bytes."""

from __future__ import annotations

import re
from dataclasses import replace
from typing import Callable, Dict, List, Optional, Tuple

from ..recording import FILE_DESCRIPTOR, READ, WAITS, WRITE, Waiting
from .strace import Call, bytes_of, split_args
from .tree import ENDINGS, ERRORS, PIPE, Descriptor, Pipe, Process, Transfer, Tree

Effect = Callable[[Tree, Process, Call], None]
# Where the kernel's memory has the bytes that are read and stored, and where it has only zeros.
DATA, ZEROS = 0, 512
MOST_DATA = 64  # bytes that one store holds
PIPE_OF_HOST = 65536  # bytes that a pipe of the host holds
_ATOMIC = 4096  # bytes that a write puts into a pipe at once, or not at all

_UNKNOWN = "descriptor whose opening the log does not have"
_OPEN_ALREADY = "descriptor that is open already where it opens"
# What a log has where lines of it are missing, or calls were not traced.
SIGNS_OF_A_GAP = (_UNKNOWN, _OPEN_ALREADY)
_SAME_FILE = re.compile(r'"/(?:dev|proc/self)/fd/(\d+)"|"/dev/std(in|out|err)"')
_TERMINAL = "TIOCGPTPEER"  # the ioctl that opens the other side of a terminal
_STANDARD = {"in": 0, "out": 1, "err": 2}


def answer_of(call: Call) -> Optional[str]:
    """What the kernel has to answer where it answers as the host does, or None."""
    if call.error in ERRORS:
        return f"ok {-ERRORS[call.error]}"
    return None if call.result is None or call.error else f"ok {call.result}"


def leave_out_failed(tree: Tree, call: Call) -> None:
    """Counts a call that does nothing here: one that failed, or that a signal interrupted."""
    if call.is_interrupted:
        tree.leave_out("call that a signal interrupted")
    else:
        tree.leave_out(f"{call.name} that answers {call.error or 'nothing'}")


def make_room(tree: Tree, process: Process, count: int) -> bool:
    """Closes files until so many of the kernel's descriptors are free; whether they are."""
    files = [
        it for _, it in sorted(process.descriptors.items()) if not it.pipe and it.number is not None
    ]
    while len(process.free()) < count and files:
        gone = files.pop()
        tree.emit(process, f"close {gone.number}")
        tree.leave_out("file, to have room for a pipe among 16 descriptors")
        gone.number = None
    return len(process.free()) >= count


def add_file(tree: Tree, process: Process, fd: int, closes_on_exec: bool) -> None:
    """A descriptor opens that names no pipe."""
    if fd in process.descriptors:
        tree.leave_out(_OPEN_ALREADY)
        tree.close(process, fd)
    made = process.descriptors[fd] = Descriptor(closes_on_exec=closes_on_exec)
    free = process.free()
    if not free:
        tree.leave_out("file beyond 15 descriptors")
        return
    made.number = fd if fd in free else free[0]
    how = "dup" if made.number == free[0] else "dup2"
    target = "" if how == "dup" else f" {made.number}"
    tree.emit(process, f"{how} {FILE_DESCRIPTOR}{target}", f"ok {made.number}")


def _add_files(tree: Tree, process: Process, call: Call, fds: List[int]) -> None:
    for fd in fds:
        add_file(tree, process, fd, "CLOEXEC" in ",".join(call.args))


def _numbers(text: str) -> List[int]:
    return [int(it) for it in re.findall(r"\d+", text)]


def opened(call: Call) -> List[int]:
    """The descriptors that a call has opened at numbers that were free."""
    if call.error or call.result is None or call.result < 0:
        return []
    if call.name in ("pipe", "pipe2", "socketpair"):
        return _numbers(call.arg(3 if call.name == "socketpair" else 0))
    is_copy = call.name == "dup" or call.arg(1).startswith("F_DUPFD")
    is_new = is_copy or call.name in _OPENERS or call.arg(1) == _TERMINAL
    return [call.result] if is_new else []


def _open(tree: Tree, process: Process, call: Call) -> None:
    if call.result is None or call.result < 0:
        leave_out_failed(tree, call)
        return
    same = _SAME_FILE.search(",".join(call.args[:2]))
    if same and "open" in call.name:
        origin = int(same[1]) if same[1] else _STANDARD[same[2]]
        if origin in process.descriptors and process.descriptors[origin].pipe:
            _copy(tree, process, call, origin)
            return
    _add_files(tree, process, call, [call.result])
    if call.name == "pidfd_open":
        process.descriptors[call.result].process = call.number(0)


def _open_pair(tree: Tree, process: Process, call: Call) -> None:
    if call.result == 0:
        _add_files(tree, process, call, _numbers(call.arg(3)))
    else:
        leave_out_failed(tree, call)


def _receive(tree: Tree, process: Process, call: Call) -> None:
    """A message may bring descriptors."""
    for found in re.findall(r"SCM_RIGHTS, cmsg_data=\[([\d, ]+)\]", ",".join(call.args)):
        _add_files(tree, process, call, _numbers(found))
    tree.leave_out(call.name)


def note_given(tree: Tree, process: Process, call: Call) -> None:
    """A pipe is marked of which a descriptor is given to another process."""
    owner, fds = process, []
    if call.name in ("sendmsg", "sendmmsg"):
        found = re.findall(r"SCM_RIGHTS, cmsg_data=\[([\d, ]+)\]", ",".join(call.args))
        fds = [fd for it in found for fd in _numbers(it)]
    elif call.name == "pidfd_getfd" and not call.error:
        named = process.descriptors.get(call.number(0) or 0)
        owner = tree.tasks.get(named.process or 0, process) if named else process
        fds = _numbers(call.arg(1))
    for given in (owner.descriptors.get(it) for it in fds):
        if given and given.pipe:
            given.pipe.is_unknown = True


def _pipe(tree: Tree, process: Process, call: Call) -> None:
    if call.result != 0:
        leave_out_failed(tree, call)
        return
    fds, number = _numbers(call.arg(0)), tree.free_pipe()
    if number is None or not make_room(tree, process, 2):
        tree.leave_out("pipe, since all of the kernel's pipes or descriptors are taken")
        _add_files(tree, process, call, fds)
        return
    made, ends = Pipe(number), process.free()[:2]
    tree.emit(process, f"pipe {number} {2 * number} {2 * number + 1}", "ok 0")
    for fd, side, end in zip(fds, (READ, WRITE), ends):
        process.descriptors[fd] = Descriptor(made, side, end, "O_CLOEXEC" in call.arg(1))
    if "O_NONBLOCK" in call.arg(1):
        for end in ends:
            tree.emit(process, f"set_nonblock {end} on", "ok 0")


def _dup(tree: Tree, process: Process, call: Call) -> None:
    origin = call.number(0)
    if call.result is None or call.result < 0 or origin is None:
        _fail(tree, process, call, "dup")
    else:
        _copy(tree, process, call, origin)


def _copy(tree: Tree, process: Process, call: Call, origin_fd: int) -> None:
    """A descriptor becomes a copy of another one."""
    origin, fd = process.descriptors.get(origin_fd), call.result
    assert fd is not None
    if origin is None:
        tree.leave_out(_UNKNOWN)
        origin = process.descriptors[origin_fd] = Descriptor()
    if origin_fd == fd:
        if origin.number is not None:
            tree.emit(process, f"dup2 {origin.number} {origin.number}", f"ok {origin.number}")
        return
    number = _number_of_copy(tree, process, call, fd, is_pipe=origin.pipe is not None)
    closes_on_exec = "CLOEXEC" in ",".join(call.args)
    copy = replace(origin, number=number, closes_on_exec=closes_on_exec)
    name = FILE_DESCRIPTOR if origin.number is None and not origin.pipe else origin.number
    is_least = process.free()[:1] == [number] and call.name not in ("dup2", "dup3")
    old = process.descriptors.get(fd)
    if number is None or name is None:
        tree.leave_out("copy of a descriptor, beyond 15 of them")
        if old and old.number is not None:
            tree.close(process, fd)
        copy.number = None
    elif is_least:
        tree.emit(process, f"dup {name}", f"ok {number}")
    else:
        tree.emit(process, f"dup2 {name} {number}", f"ok {number}")
    process.descriptors[fd] = copy


def _number_of_copy(
    tree: Tree, process: Process, call: Call, fd: int, is_pipe: bool
) -> Optional[int]:
    """The kernel's number of a copy: that of what was in its place, the same, or a free one."""
    old = process.descriptors.get(fd)
    if old and old.number is not None:
        return old.number
    if is_pipe:
        make_room(tree, process, 1)
    free = process.free()
    if fd in free:
        return fd
    if not free:
        return None
    return free[0] if call.name == "dup" else free[-1]


def _fail(tree: Tree, process: Process, call: Call, verb: str) -> None:
    """A call fails, since its descriptor is not open."""
    fd, free = call.number(0), process.free()
    if call.error != "EBADF" or fd is None:
        leave_out_failed(tree, call)
        return
    found, number = process.descriptors.get(fd), None
    if found:
        number = found.number
    elif fd in free or fd not in range(FILE_DESCRIPTOR + 1):
        number = fd
    elif free:
        number = free[-1]
    if number is None:
        tree.leave_out("descriptor that is not open, beyond 15 of them")
    else:
        more = "" if verb in ("close", "dup") else f" {DATA} 1"
        tree.emit(process, f"{verb} {number}{more}", answer_of(call))


def _close(tree: Tree, process: Process, call: Call) -> None:
    fd = call.number(0)
    if call.result != 0:
        _fail(tree, process, call, "close")
    elif fd in process.descriptors:
        tree.close(process, fd, "ok 0")
    else:
        tree.leave_out(_UNKNOWN)


def closed_by_range(call: Call) -> Tuple[int, int]:
    """The least and the greatest descriptor that a close_range closes."""
    least, greatest = call.number(0), call.number(1)
    return least or 0, (1 << 32) if greatest is None or greatest < 0 else greatest


def _close_range(tree: Tree, process: Process, call: Call) -> None:
    if call.result != 0:
        leave_out_failed(tree, call)
        return
    least, greatest = closed_by_range(call)
    for fd in sorted(it for it in process.descriptors if least <= it <= greatest):
        if "CLOEXEC" in call.arg(2):
            process.descriptors[fd].closes_on_exec = True
        else:
            tree.close(process, fd, "ok 0")


def _fcntl(tree: Tree, process: Process, call: Call) -> None:
    command, found = call.arg(1), process.descriptors.get(call.number(0) or 0)
    if command.startswith("F_DUPFD"):
        _dup(tree, process, call)
    elif call.error or found is None:
        leave_out_failed(tree, call)
    elif command == "F_SETFD":
        found.closes_on_exec = "FD_CLOEXEC" in call.arg(2)
    elif command == "F_SETFL":
        _set_nonblock(tree, process, found, "O_NONBLOCK" in call.arg(2))
    else:
        tree.leave_out("question that changes nothing")


def _set_nonblock(tree: Tree, process: Process, found: Descriptor, is_on: bool) -> None:
    if found.pipe and found.number is not None:
        tree.emit(process, f"set_nonblock {found.number} {'on' if is_on else 'off'}", "ok 0")
    else:
        tree.leave_out("flag of a file")


def _ioctl(tree: Tree, process: Process, call: Call) -> None:
    found = process.descriptors.get(call.number(0) or 0)
    if found and not call.error and call.arg(1) in ("FIOCLEX", "FIONCLEX"):
        found.closes_on_exec = call.arg(1) == "FIOCLEX"
    elif found and not call.error and call.arg(1) == "FIONBIO":
        _set_nonblock(tree, process, found, call.arg(2) != "[0]")
    elif not call.error and call.arg(1) == _TERMINAL and call.result is not None:
        add_file(tree, process, call.result, closes_on_exec=False)
    else:
        tree.leave_out("ioctl")


# Bytes that move: which arguments of a call are descriptors that it reads or writes.
_MOVES: Dict[str, Tuple[Optional[int], Optional[int]]] = {
    "read": (0, None),
    "readv": (0, None),
    "preadv2": (0, None),
    "write": (None, 0),
    "writev": (None, 0),
    "pwritev2": (None, 0),
    "vmsplice": (None, 0),
    "sendfile": (1, 0),
    "splice": (0, 2),
    "tee": (None, 1),
}
_SIZES = {"read": 2, "write": 2, "splice": 4, "tee": 2, "sendfile": 3}


def _moved(process: Process, call: Call) -> List[Tuple[str, Descriptor]]:
    """The sides of pipes that a call reads and writes, in this order."""
    found = []
    for verb, place in zip((READ, WRITE), _MOVES.get(call.name, (None, None))):
        fd = None if place is None else call.number(place)
        descriptor = None if fd is None else process.descriptors.get(fd)
        if descriptor and descriptor.pipe:
            found.append((verb, descriptor))
    return found


def moved(process: Process, call: Call) -> List[Tuple[str, Descriptor]]:
    """The sides of pipes that a call reads and writes, of those whose bytes are all known."""
    return [it for it in _moved(process, call) if it[1].pipe and not it[1].pipe.is_unknown]


def size_asked(call: Call) -> Optional[int]:
    """How many bytes a call asks for, or None where the log does not say it in one number."""
    if call.name in _SIZES:
        return call.number(_SIZES[call.name])
    lengths = re.findall(r"iov_len=(\d+)", call.arg(1))
    return sum(map(int, lengths)) if lengths else None


def data_of(call: Call) -> Optional[bytes]:
    """The bytes that a call writes, where the log has all of them."""
    if call.name == "write":
        return bytes_of(call.arg(1))
    if call.name != "writev":
        return None
    parts = [
        split_args(it)[0] for it in re.findall(r"\{iov_base=(.*?), iov_len=\d+\}", call.arg(1))
    ]
    found = [bytes_of(it) for it in parts]
    return None if None in found else b"".join(it for it in found if it is not None)


def _move(tree: Tree, process: Process, call: Call) -> None:
    sides = moved(process, call)
    if len(sides) < len(_moved(process, call)):
        tree.leave_out("transfer of a pipe whose bytes are not all known")
    elif not sides:
        if call.error == "EBADF" and call.name in (READ, WRITE):
            _fail(tree, process, call, call.name)
        else:
            verb = "write" if _MOVES[call.name][0] is None else "read"
            tree.leave_out(f"{verb} of a file")
    for verb, descriptor in sides:
        if descriptor.number is None:
            tree.leave_out(f"{verb} of a pipe, by a descriptor beyond 15")
            if descriptor.pipe:
                descriptor.pipe.is_unknown = True
        elif call.result is not None and not call.error:
            _transfer(tree, process, call, verb, descriptor)
        else:
            _refuse(tree, process, call, verb, descriptor)


def _transfer(tree: Tree, process: Process, call: Call, verb: str, descriptor: Descriptor) -> None:
    """Bytes go through a pipe, or there are none."""
    pipe, size, number = descriptor.pipe, call.result or 0, descriptor.number
    assert pipe is not None and number is not None
    if descriptor.side != verb or not size:
        asked = 0 if verb == WRITE or size_asked(call) == 0 else 1
        address = DATA if verb == READ else ZEROS
        tree.emit(process, f"{verb} {number} {address} {asked}", f"ok {size}")
        return
    data = data_of(call) if verb == WRITE and size <= MOST_DATA else None
    kept = data if data is not None and len(data) == size else None
    tree.emit_transfer(process, number, Transfer(pipe, verb, size, kept))
    pipe.held += size if verb == WRITE else -min(size, pipe.held)
    if is_cut_short(call):
        rest = Transfer(pipe, verb, (size_asked(call) or 0) - size)
        tree.emit_transfer(process, number, rest, WAITS)


def is_cut_short(call: Call) -> bool:
    """Whether a write has written what had room, and waited with the rest until a signal came."""
    is_write = call.name in ("write", "writev") and bool(call.broken_by) and not call.error
    return is_write and 0 < (call.result or 0) < (size_asked(call) or 0)


def _refuse(tree: Tree, process: Process, call: Call, verb: str, descriptor: Descriptor) -> None:
    """No byte goes through a pipe: the call fails, or waits for ever."""
    number, expected = descriptor.number, answer_of(call)
    if call.waits:
        expected = WAITS
    elif call.error not in ("EAGAIN", "EPIPE", "EBADF") or expected is None:
        leave_out_failed(tree, call)
        return
    if call.error == "EPIPE":
        tree.before_post(PIPE, process, process)
        process.pending.add(PIPE)
    if verb == WRITE and descriptor.pipe and number is not None:
        asked = size_asked(call) or 1
        if call.waits:
            asked = max(asked - _write_part(tree, process, call, descriptor), 1)
        tree.emit_transfer(process, number, Transfer(descriptor.pipe, verb, asked), expected)
    else:
        address = DATA if verb == READ else ZEROS
        tree.emit(process, f"{verb} {number} {address} 1", expected)


def _write_part(tree: Tree, process: Process, call: Call, descriptor: Descriptor) -> int:
    """A write that waits has filled its pipe, unless it is small; how much it has written."""
    pipe, number, size = descriptor.pipe, descriptor.number, size_asked(call) or 1
    assert pipe is not None and number is not None
    if call.part is None:
        call.part = min(size, PIPE_OF_HOST - pipe.held) if size > _ATOMIC else 0
    if call.part > 0:
        tree.emit_transfer(process, number, Transfer(pipe, WRITE, call.part, is_answered=False))
        pipe.held += call.part
    return call.part


# Waits for one of several descriptors: which argument has those that are to be read.
_POLLS = {"poll": 0, "ppoll": 0, "select": 1, "pselect6": 1}
_POLLED = re.compile(r"\{fd=(\d+), events=[^}]*\bPOLL(?:RD(?:NORM|HUP)|IN)\b")


def note_wait(tree: Tree, process: Process, call: Call) -> None:
    """A call waits until its process is ended, and it is neither a read, a write nor a wait.

    Where it waits for bytes of pipes, these are reads that wait.
    """
    if moved(process, call) or not (call.never_ends or call.broken_by in ENDINGS):
        return
    asked = call.arg(_POLLS.get(call.name, len(call.args)))
    fds = _POLLED.findall(asked) if "fd=" in asked else re.findall(r"\d+", asked)
    sides = [process.descriptors.get(int(it)) for it in fds]
    read = [it for it in sides if it and it.pipe and it.side == READ and it.number is not None]
    for side in read:
        if side.pipe and side.pipe.held == 0 and tree.holders(side.pipe, WRITE):
            tree.emit(process, f"{READ} {side.number} {DATA} 1", WAITS)
    if not read and call.name not in _NO_WAITS and call.name.isidentifier():
        tree.waiting.append(Waiting(len(tree.drafts), process.number, call.name, call.start))


# Calls that end by themselves, or that a recording has in another way.
_NO_WAITS = "wait4 waitid execve execveat fork vfork clone clone3 exit exit_group".split()
_OPENERS = frozenset(
    "open openat openat2 creat socket accept accept4 eventfd eventfd2 epoll_create epoll_create1 "
    "signalfd signalfd4 timerfd_create inotify_init inotify_init1 memfd_create pidfd_open "
    "pidfd_getfd userfaultfd perf_event_open io_uring_setup open_by_handle_at "
    "fanotify_init".split()
)
EFFECTS: Dict[str, Effect] = {
    **{it: _open for it in _OPENERS},
    **{it: _move for it in _MOVES},
    "socketpair": _open_pair,
    "recvmsg": _receive,
    "recvmmsg": _receive,
    "pipe": _pipe,
    "pipe2": _pipe,
    "dup": _dup,
    "dup2": _dup,
    "dup3": _dup,
    "fcntl": _fcntl,
    "ioctl": _ioctl,
    "close": _close,
    "close_range": _close_range,
}
