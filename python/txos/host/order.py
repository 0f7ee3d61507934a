"""Puts the calls of a log into an order in which a kernel has done them one after another.

A call of the host does its work somewhere between the line where it starts and that where it ends,
and several tasks do so at once. Here each is done where it ends, but earlier where the answer to
another call shows that it was done before that one: bytes that are read were written, a pipe that
is at its end was closed, a signal that comes was sent. A call that changes nothing, as a read that
would wait, is done as soon as its answer is right.
"""

from __future__ import annotations

from collections import defaultdict, deque
from functools import partial
from typing import Callable, Deque, Dict, FrozenSet, Iterable, List, Optional, Sequence, Set, Tuple

from ..faults import Fault
from ..recording import READ, WRITE
from . import descriptors, processes, signals
from .descriptors import (
    PIPE_OF_HOST,
    Effect,
    closed_by_range,
    is_cut_short,
    leave_out_failed,
    moved,
    note_wait,
    opened,
    size_asked,
)
from .processes import (
    FORKS,
    PROGRAMS,
    WAITS_FOR_CHILDREN,
    children_asked,
    command_of,
    end_by_exit,
    end_by_signal,
)
from .signals import SENDERS, is_deadly, signal_sent, targets
from .strace import HOW, Begun, Call, Done, End, Event, Signal, Superseded, event_task
from .tree import KILL, REALTIME, SIGNALS, Descriptor, Pipe, Process, Tree, signal_number

_EFFECTS: Dict[str, Effect] = {
    **descriptors.EFFECTS,
    **signals.EFFECTS,
    **processes.EFFECTS,
}
_EXITS = ("exit_group", "exit")
_CLOSERS = ("close", "close_range", "dup2", "dup3", *PROGRAMS)


def _found_nobody(call: Call) -> bool:
    """Whether a wait is answered 0 that waits until it finds one: its process is killed."""
    return call.name == "wait4" and call.result == 0 and "WNOHANG" not in call.arg(2)


def known_signals(events: Sequence[Event]) -> FrozenSet[int]:
    """The signals that sets of a recording have: realtime ones where the log has any."""
    came = {it.name for it in events if isinstance(it, Signal)}
    realtime = {number for name, number in REALTIME.items() if name in came}
    return frozenset({*SIGNALS.values(), *realtime} - {KILL})


class Order:
    """Goes through the events of a log, and has each call done in its place."""

    def __init__(self, events: Sequence[Event]) -> None:
        self._events = events
        self._flight: Dict[int, Call] = {}  # by tasks, what has started and is not done
        self._cut_writes: Dict[Pipe, Call] = {}  # those that never end, and have written a part
        self.has_learned = False  # of a part that is another one: only a new order has it right
        self._taken: Set[int] = set()  # the events that were taken before their turn
        self._of_task: Dict[int, Deque[int]] = defaultdict(deque)
        self._signals: Dict[Tuple[int, int], Deque[int]] = defaultdict(deque)  # of task and number
        self._last_from: Dict[Tuple[int, int, Optional[int]], int] = {}  # .. and its last sender's
        self._forks: Dict[int, List[Call]] = defaultdict(list)
        self._programs: Dict[int, List[Call]] = defaultdict(list)
        for place, event in enumerate(events):
            self._of_task[event_task(event)].append(place)
            if isinstance(event, Done):
                self._note_call(event.call)
            elif isinstance(event, Signal):
                self._note_signal(place, event)
        self._mark_what_never_ends()
        self._mark_what_signals_break()
        self._find_children_of_cut_forks()
        self.tree = Tree(known_signals(events))
        self.tree.before_post = self._before_post
        self.tree.command_after_fork = self._command_after_fork

    def run(self, advance: Callable[[int], None]) -> Tree:
        """Does all calls; `advance` is called with 1 after each event.

        Raises `Fault` where a process begins whose fork the log has not.
        """
        for place, event in enumerate(self._events):
            if place not in self._taken:
                self._take(place, event)
            advance(1)
        return self.tree

    # What is known before the first call is done.

    def _note_call(self, call: Call) -> None:
        if call.name in FORKS and call.result and call.result > 0:
            self._forks[call.result].append(call)
        elif call.name in PROGRAMS and call.result == 0:
            self._programs[call.task].append(call)

    def _note_signal(self, place: int, event: Signal) -> None:
        number = signal_number(event.name)
        if number is not None:
            self._signals[event.task, number].append(place)
            self._last_from[event.task, number, event.sender] = place

    def _mark_what_never_ends(self) -> None:
        """A call waits for ever where only signals, and its task's end, come after its start."""
        for places in self._of_task.values():
            for place in reversed(places):
                event = self._events[place]
                if isinstance(event, Done) and not event.call.is_interrupted:
                    if not _found_nobody(event.call):
                        break
                if isinstance(event, Begun):
                    event.call.never_ends = event.call.name not in _EXITS
                    break

    def _mark_what_signals_break(self) -> None:
        """A signal breaks a call off; where that goes on, it is the same call."""
        for places in self._of_task.values():
            events, broken = [self._events[it] for it in places], None
            for event, after in zip(events, [*events[1:], None]):
                if isinstance(event, Begun) and event.call.name == "restart_syscall" and broken:
                    event.call.name, event.call.args = broken.name, broken.args
                if isinstance(event, Done) and isinstance(after, Signal):
                    event.call.broken_by = after.name
                    broken = event.call

    def _find_children_of_cut_forks(self) -> None:
        """A process that is killed while it forks may leave a child: one that has no fork."""
        begun = (it.call for it in self._events if isinstance(it, Begun))
        cut = [it for it in begun if it.never_ends and it.name in FORKS]
        root = event_task(self._events[0])
        for task, places in self._of_task.items() if cut else ():
            line = self._events[places[0]].line
            makers = [it for it in cut if it.start < line and it.result in (None, task)]
            if makers and task != root and task not in self._forks:
                makers[-1].result = task
                self._forks[task].append(makers[-1])

    def _command_after_fork(self, child: Process, line: int) -> str:
        """What a process will be: the program that it executes first, or its parent's."""
        later = (it for it in self._programs.get(child.pid, ()) if it.start > line)
        program = next(later, None)
        if program:
            return command_of(program)
        words = child.command
        return words if words.endswith(" (forked)") else f"{words} (forked)"

    # Events.

    def _take(self, place: int, event: Event) -> None:
        self._taken.add(place)
        if isinstance(event, Superseded):
            self._supersede(event)
            return
        process = self._process_of(event)
        if isinstance(event, Signal):
            self._signal(process, event)
        elif isinstance(event, End):
            self._end(process, event)
        elif isinstance(event, Begun):
            self._begin(process, event)
        elif event.call.task in self._flight:
            self._complete(event.call)

    def _process_of(self, event: Event) -> Process:
        """The process of an event's task. Its fork is done first, or it is the first of all."""
        task = event_task(event)
        # The host gives the number of a process that has ended to another one.
        if task not in self.tree.tasks or not self.tree.tasks[task].is_there:
            forks = [it for it in self._forks[task] if it.start <= event.line]
            if forks and self._flight.get(forks[-1].task) is forks[-1]:
                self._do(forks[-1])
            elif not self.tree.tasks:
                self._begin_root(event)
        if task not in self.tree.tasks:
            raise Fault(f"line {event.line}: {self._why_no_fork(event)}")
        return self.tree.tasks[task]

    def _why_no_fork(self, event: Event) -> str:
        """What is said of a process whose fork is not there."""
        begun = (it.call for it in self._events if isinstance(it, Begun) and it.line < event.line)
        inner = next((it for it in begun if "CLONE_NEWPID" in ",".join(it.args)), None)
        if inner is None:
            return f"process {event_task(event)} begins, and no fork of it is here; {HOW}"
        return (
            f"process {event_task(event)} begins in the PID namespace of line {inner.start}, where "
            "it has another number, so its fork can't be found; record what runs inside of it"
        )

    def _begin_root(self, event: Event) -> None:
        root = self.tree.begin(event_task(event), None, "")
        for fd in range(3):
            root.descriptors[fd] = Descriptor(number=fd)
        first = self._programs.get(root.pid)
        self.tree.name(root, command_of(first[0]) if first else "?")

    def _supersede(self, event: Superseded) -> None:
        process = self.tree.tasks.pop(event.by, None)
        if process and event.by in process.tasks:
            process.tasks.remove(event.by)
        call = self._flight.pop(event.by, None)
        if call:
            self._flight[event.task] = call

    def _begin(self, process: Process, event: Begun) -> None:
        call = event.call
        if (
            process.own_mask is not None
            and call.task == process.pid
            and call.name != "rt_sigreturn"
        ):
            self.tree.at = (event.line, call.name)
            signals.end_wait(self.tree, process)
        self.tree.at = (event.line, call.name)
        signals.begin_wait(self.tree, process, call)
        descriptors.note_given(self.tree, process, call)
        self._flight[call.task] = call
        is_fork = call.name in FORKS and call.result and call.result > 0
        if is_fork and len(process.tasks) > 1:  # what other threads open now, its child has not
            self._do(call)
        self._do_where_right(call)
        if call.waits and self._flight.get(call.task) is call:
            note_wait(self.tree, process, call)

    def _complete(self, call: Call) -> None:
        """A call ends, so it is done by now, and so is all that its answer shows."""
        if call.never_ends:
            return
        process = self.tree.tasks[call.task]
        sides = moved(process, call)
        if call.is_interrupted and (sides or call.name in WAITS_FOR_CHILDREN):
            if self._flight.pop(call.task, None):
                self.tree.at = (call.end or call.start, call.name)
                leave_out_failed(self.tree, call)
            return
        for verb, side in sides:
            if side.pipe and side.side == verb:
                self._make_true(call, verb, side.pipe)
        if self._flight.get(call.task) is call:
            self._do(call)

    def _signal(self, process: Process, event: Signal) -> None:
        number = signal_number(event.name)
        if number is None:
            self.tree.leave_out(f"signal SIG{event.name}, which the kernel lacks", event.line)
            if isinstance(self._next_event(event.task), End):
                process.ends_at = event.line
            if f"SIG{event.name}" in process.lacked:
                process.frames.append(None)
            return
        if number not in process.pending:
            self._send(process, number)
        self.tree.at = (event.line, f"SIG{event.name}")
        if is_deadly(process, number):
            self._begin_to_end(process, event)
        else:
            sender = self.tree.tasks.get(event.sender or 0)
            signals.deliver(self.tree, process, number, sender)
            self._do_what_is_right()

    def _begin_to_end(self, process: Process, event: Signal) -> None:
        """A deadly signal comes: the process has ended where the log says so, and not before."""
        sender, number = self.tree.tasks.get(event.sender or 0), signal_number(event.name)
        signals.send_unless_pending(self.tree, process, number or 0, sender)
        process.ends_at = event.line
        if not isinstance(self._next_event(event.task), End):
            raise Fault(
                f"line {event.line}: SIG{event.name} does not end process {event.task}, and the "
                f"log has no rt_sigaction for it; {HOW}"
            )

    def _next_event(self, task: int) -> Optional[Event]:
        """The next event of a task that was not taken."""
        place = self._next_place(task)
        return None if place is None else self._events[place]

    def _next_place(self, task: int) -> Optional[int]:
        return self._first_not_taken(self._of_task[task])

    def _first_not_taken(self, places: Deque[int]) -> Optional[int]:
        while places and places[0] in self._taken:
            places.popleft()
        return places[0] if places else None

    def _end(self, process: Process, event: End) -> None:
        self._finish_fork(event.task)
        if event.signal == "KILL":
            self._send(process, KILL)
        call = self._flight.pop(event.task, None)
        if event.task != process.pid:
            self.tree.tasks.pop(event.task)
            process.tasks.remove(event.task)
            return
        if not process.is_running:
            return
        if call and call.never_ends:
            self._leave_out_open(process, call)
        self._finish_writes(process, list(process.descriptors))
        self.tree.at = (event.line, f"SIG{event.signal}" if event.signal else "exit_group")
        if event.signal:
            end_by_signal(self.tree, process, event.signal)
        else:
            end_by_exit(self.tree, process, event.status or 0)
        self._do_what_is_right()

    def _leave_out_open(self, process: Process, call: Call) -> None:
        """Counts a call that an end has cut off, and that is neither a step nor noted."""
        if not call.name.isidentifier():
            self.tree.leave_out("call that strace could not read", call.start)
        elif moved(process, call) or call.name in WAITS_FOR_CHILDREN:
            self.tree.leave_out("call still open when its process ended", call.start)

    def _finish_fork(self, task: int) -> None:
        """A task that ends while it forks has a child, where one was found."""
        call = self._flight.get(task)
        if call and call.name in FORKS and call.result:
            self._do(call)

    # Calls.

    def _do(self, call: Call) -> None:
        """Does a call, and what is right after it."""
        self._flight.pop(call.task, None)
        process = self.tree.tasks[call.task]
        self.tree.at = (call.end or call.start, call.name)
        if signal_sent(call) == KILL and call.name in SENDERS:
            self._finish_before_kill(process, call)
            self.tree.at = (call.end or call.start, call.name)
        self._free_numbers(process, call)
        if call.name in _CLOSERS:
            fds = [it for it in process.descriptors if self._will_close(process, it, call)]
            self._finish_writes(process, fds)
        effect = _EFFECTS.get(call.name)
        if effect and process.is_running:
            if call.never_ends:
                pipes = (it.pipe for _, it in moved(process, call) if it.pipe)
                self._cut_writes.update((it, call) for it in pipes)
            effect(self.tree, process, call)
        else:
            self.tree.leave_out(call.name)
        self._do_what_is_right()

    def _free_numbers(self, process: Process, call: Call) -> None:
        """What opens has a number that was free, so another thread has closed what had it."""
        at = self.tree.at
        for fd in opened(call):
            for other in self._in_flight(process):
                if fd in process.descriptors and self._will_close(process, fd, other):
                    self._do(other)
        self.tree.at = at

    def _finish_writes(self, process: Process, fds: Iterable[int]) -> None:
        """Writes that were answered bytes were done before the last reader of a pipe closes."""
        at, gone = self.tree.at, [process.descriptors[it] for it in fds]
        for pipe in dict.fromkeys(it.pipe for it in gone if it.pipe and it.side == READ):
            count = sum(it.pipe is pipe and it.side == READ for it in gone)
            if len(self.tree.holders(pipe, READ)) == count:
                self._move(pipe, WRITE, None, lambda: False)
        self.tree.at = at

    def _finish_before_kill(self, process: Process, call: Call) -> None:
        """What a process has done before SIGKILL is sent to it is done first."""
        for target in targets(self.tree, process, call) or ():
            for other in self._in_flight(target):
                self._finish_fork(other.task)
                if other is not call and other.end and not other.never_ends:
                    self._complete(other)

    def _do_what_is_right(self) -> None:
        for call in list(self._flight.values()):
            if self._flight.get(call.task) is call:
                self._do_where_right(call)

    def _do_where_right(self, call: Call) -> None:
        """Does a call that changes nothing where its answer is right now."""
        process = self.tree.tasks.get(call.task)
        if process and self._is_right(process, call):
            self._do(call)

    def _is_right(self, process: Process, call: Call) -> bool:
        """Whether a call changes nothing, and its answer is what the kernel would answer now."""
        if call.name in WAITS_FOR_CHILDREN:
            return self._finds_no_child(process, call)
        for verb, side in moved(process, call):
            pipe = side.pipe
            if pipe is None or side.side != verb:
                continue
            others = bool(self.tree.holders(pipe, WRITE if verb == READ else READ))
            waits = call.waits or call.error == "EAGAIN"
            if verb == READ:
                is_end = call.result == 0 and size_asked(call) != 0 and not call.error
                return pipe.held == 0 and ((waits and others) or (is_end and not others))
            if call.error == "EPIPE":
                return not others
            if is_cut_short(call):
                return others and pipe.held + (call.result or 0) <= PIPE_OF_HOST
            return waits and others and pipe.held + (size_asked(call) or 1) > PIPE_OF_HOST
        return False

    def _finds_no_child(self, process: Process, call: Call) -> bool:
        """Whether a wait answers that no child has ended, or waits for that, and is right."""
        is_found = call.error or call.result != 0 or "si_pid" in call.arg(2)
        if not call.waits and (is_found or "WNOHANG" not in ",".join(call.args)):
            return False
        asked = children_asked(self.tree, process, call)
        return bool(asked) and all(it.is_running for it in asked)

    # What an answer shows to have been done.

    def _make_true(self, call: Call, verb: str, pipe: Pipe) -> None:
        """Has done what the answer to a call on a pipe shows."""
        if call.error == "EPIPE":
            self._close_side(pipe, READ)
        elif verb == WRITE:
            if pipe.held + (call.result or 0) > PIPE_OF_HOST:
                self._move(pipe, READ, call, lambda: pipe.held == 0)
        elif call.result and not call.error:
            wanted = call.result
            self._move(pipe, WRITE, call, lambda: pipe.held >= wanted)
            self._learn_part(pipe, max(wanted, pipe.held))
        elif call.error == "EAGAIN" or call.result == 0:
            self._move(pipe, READ, call, lambda: pipe.held == 0)
            if not call.error and size_asked(call) != 0:
                self._close_side(pipe, WRITE)
                self._learn_part(pipe, 0)

    def _move(
        self, pipe: Pipe, verb: str, but: Optional[Call], is_enough: Callable[[], bool]
    ) -> None:
        """Does reads or writes of a pipe that have started and will be answered bytes."""
        for call in sorted(self._flight.values(), key=lambda it: it.start):
            if is_enough():
                return
            process = self.tree.tasks[call.task]
            sides = [(how, it.pipe) for how, it in moved(process, call)]
            is_still = self._flight.get(call.task) is call and call is not but
            if (verb, pipe) in sides and is_still and call.result and not call.error:
                if verb == READ and pipe.held < call.result:
                    continue
                self._do(call)

    def _learn_part(self, pipe: Pipe, held: int) -> None:
        """A read shows how much a pipe held, and so what a write that never ended has written."""
        call = self._cut_writes.get(pipe)
        if call and call.part is not None and pipe.held != held:
            call.part += held - pipe.held
            pipe.held, self.has_learned = held, True

    def _close_side(self, pipe: Pipe, side: str) -> None:
        """Has the last descriptors of a side close, where all of them are about to."""
        holders = self.tree.holders(pipe, side)
        ways = [self._way_to_close(process, fd) for process, fd in holders]
        if not all(ways):
            return
        for (process, fd), way in zip(holders, ways):
            if way and fd in process.holds(pipe, side):
                way()

    def _way_to_close(self, process: Process, fd: int) -> Optional[Callable[[], None]]:
        """How a descriptor closes that is still open, while a call of its process goes on."""
        for call in self._in_flight(process):
            if call.name in _EXITS:
                return partial(self._close_in_end, process, fd, call.start, call.name)
            if self._will_close(process, fd, call):
                return partial(self._do, call)
            if call.never_ends and call.name in PROGRAMS and process.descriptors[fd].closes_on_exec:
                return partial(self._close_in_end, process, fd, call.start, call.name)
        if KILL in process.pending or self._is_killed_next(process):
            return partial(self._kill_now, process)
        if process.ends_at is not None:
            return partial(self._close_in_end, process, fd, process.ends_at, "signal")
        return None

    def _will_close(self, process: Process, fd: int, call: Call) -> bool:
        if call.error or call.result is None:
            return False
        if call.name == "close":
            return call.number(0) == fd
        if call.name in ("dup2", "dup3"):
            return call.result == fd
        if call.name in PROGRAMS:
            return process.descriptors[fd].closes_on_exec
        least, greatest = closed_by_range(call) if call.name == "close_range" else (1, 0)
        return least <= fd <= greatest

    def _close_in_end(self, process: Process, fd: int, line: int, host: str) -> None:
        """A process that ends has closed a descriptor, and its parent does not know of its end."""
        self._finish_writes(process, [fd])
        self.tree.at = (line, host)
        self.tree.close(process, fd)
        self._do_what_is_right()

    def _is_killed_next(self, process: Process) -> bool:
        """Whether nothing comes of a process but its end by SIGKILL."""
        event = self._next_event(process.pid)
        return isinstance(event, End) and event.signal == "KILL"

    def _kill_now(self, process: Process) -> None:
        if process.is_running:
            self._finish_fork(process.pid)
            self._send(process, KILL)
            self._finish_writes(process, list(process.descriptors))
            end_by_signal(self.tree, process, "KILL")
            self._do_what_is_right()

    def _in_flight(self, process: Process) -> List[Call]:
        return [it for it in self._flight.values() if self.tree.tasks.get(it.task) is process]

    def _send(self, process: Process, number: int) -> None:
        """Has the kill done that sends a signal which has come, where one has started."""
        for call in list(self._flight.values()):
            sender = self.tree.tasks.get(call.task)
            is_sent = call.name in SENDERS and signal_sent(call) == number
            if sender and is_sent and not call.error:
                if process in (targets(self.tree, sender, call) or ()):
                    self._do(call)
                    return

    def _set_action_before_post(self, number: int, target: Process) -> None:
        """A signal that comes was not dropped, as an action drops it that ignores it."""
        come = (self._first_not_taken(self._signals[it, number]) for it in target.tasks)
        if all(it is None for it in come):
            return
        for call in self._in_flight(target):
            if call.name == "rt_sigaction" and signal_number(call.arg(0)) == number:
                self._complete(call)

    def _before_post(self, number: int, target: Process, sender: Process) -> None:
        """A signal is about to be sent to a process at which it is pending.

        Where both come to it, the first one has come before. Else the second one is lost.
        """
        at = self.tree.at
        self._set_action_before_post(number, target)
        self.tree.at = at
        if number not in target.pending or number in target.mask:
            return
        firsts = (self._first_not_taken(self._signals[it, number]) for it in target.tasks)
        first = min((it for it in firsts if it is not None), default=None)
        lasts = (self._last_from.get((it, number, sender.pid), -1) for it in target.tasks)
        if first is not None and max(lasts) > first:
            event = self._events[first]
            if first == self._next_place(event_task(event)):
                self._take(first, event)
        self.tree.at = at
