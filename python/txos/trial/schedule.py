"""Makes the steps of a recording with a process, and all that it forks, as a transaction.

At each moment the earliest step of the recording that can be made is made: of each process the next
one, and any one of somebody outside. A step that is refused, since the transaction is in the way or
since it waits, makes its process wait, as a kernel would, while the others go on.
"""

from __future__ import annotations

from typing import Callable, Dict, List, Set

from ..faults import Fault
from ..host.tree import KILL
from ..kernel import Kernel, Refused, Reply
from ..recording import ABORT, ENDED, Step
from .agenda import Agenda
from .lines import Line, Wait, Why
from .lives import Delivery, Life, Plan, Turn, added_end, added_turn
from .objects import Objects
from .outcome import Because, Ending, Made, Outcome, Question, Sent
from .rules import asks_again, found_nothing, with_free_numbers

_REFUSALS = {"N8": Why.BUSY, "N9": Why.CALL, "N4": Why.NUMBER}
_NO_SIGNAL = "N10"


class Schedule:
    """A trial while it is made; `run` makes it, and `outcome` is what came of it.

    Where it is explained, each wait says what it is for. `advance` is called after each step that
    is made.
    """

    def __init__(
        self,
        kernel: Kernel,
        plan: Plan,
        question: Question,
        is_explained: bool = True,
        advance: Callable[[], None] = lambda: None,
    ) -> None:
        self.kernel = kernel
        self.outcome = Outcome(question)
        self.agenda = Agenda(plan, self.outcome)
        # Who has a number, or had it last.
        self.lives: Dict[int, Life] = {it.number: it for it in plan.lives if it.fork is None}
        self.objects = Objects(kernel, self.lives)
        self.is_live = False  # whether the transaction is
        self._question = question
        self._is_explained = is_explained
        self._advance = advance
        self._as_answered: Set[Turn] = set()  # to be made however they are answered
        self._renumbered: Dict[Turn, Step] = {}  # steps with other numbers of a pipe
        self._is_over = False

    def run(self) -> Outcome:
        """Makes all steps that can be made; raises `Fault` where an abort comes at a wrong time."""
        while not self._is_over and (self._make_next() or self._give_way()):
            pass
        return self.outcome

    def idle_members(self) -> List[Life]:
        """The members that have not ended, and of which nothing more was recorded."""
        members = self.outcome.members if self.is_live else []
        running = (it for it in members if not self.has_ended(it))
        return [it for it in running if not self.agenda.line_of(it).turns]

    def has_ended(self, life: Life) -> bool:
        """Whether a process has ended."""
        return life in self.outcome.ended

    def is_held(self, turn: Turn) -> bool:
        """Whether the transaction holds the signal of a delivery."""
        return self.is_live and any(it.turn in turn.senders for it in self.outcome.held)

    def explain(self, wait: Wait) -> None:
        """Says what a wait that has begun is for, where that was not said yet."""
        if wait.what:
            return
        if wait.why is Why.BUSY:
            wait.needs = self.objects.needs(self._step(wait.turn))
            wait.what = wait.needs[0].name
        else:
            wait.what = self.objects.awaited(wait.turn, wait.why)

    # Making steps.

    def _make_next(self) -> bool:
        """Makes the earliest turn that can be made; False where there is none."""
        for line in self.agenda:
            if self._comes_after_the_abort(line.head):
                break
            if self._go(line):
                return True
        return self._abort_on_time()

    def _go(self, line: Line) -> bool:
        """Makes the next turn of a line, if it can be made; whether anything came of it."""
        turn = line.head
        if self._has_to_wait(line):
            return self._end_early(line)
        if turn is self.agenda.begin:
            self.outcome.begun = len(self.outcome.made)
            self.outcome.before = self.kernel.state()
        try:
            reply = self.kernel.step(self._step(turn).text)
        except Refused as refusal:
            return self._refused(line, refusal)
        if turn not in self._as_answered and asks_again(turn, reply):
            self._take_back()
            self._wait(line, Why.CHILD if turn.call == "waitpid" else Why.CALL)
            return self._end_early(line)
        if found_nothing(turn) and str(reply) != turn.step.expected:
            self._take_back()
            self.agenda.leave_out([turn], Because.FOUND_NOTHING, str(reply))
            return True
        self._made(turn, reply)
        return True

    def _step(self, turn: Turn) -> Step:
        """The step that the kernel is asked for."""
        return self._renumbered.get(turn, turn.step)

    def _take_back(self) -> None:
        self.kernel.back()
        self.kernel.cut()

    def _made(self, turn: Turn, reply: Reply) -> None:
        """Notes that a turn was made."""
        self.agenda.take(turn)
        if turn.born:
            self.lives[turn.born.number] = turn.born
            self.agenda.put_life(turn.born)
        if turn.ends:
            self.outcome.ended.add(turn.life)
        self._add(turn, reply)

    def _add(self, turn: Turn, reply: Reply) -> None:
        """Adds a step to those that are made, with what follows from it."""
        made = Made(turn, self._step(turn), str(reply))
        self.outcome.made.append(made)
        self._advance()
        expected = turn.step.expected
        if expected not in (None, made.answer) and (expected, reply.kind) != (ENDED, "committed"):
            self.outcome.differing.append(made)
        self._note_transaction(made, reply)
        if not self._is_over and (turn.sends == KILL or reply.kind in ("committed", "aborted")):
            self._let_be_killed()

    # Waiting.

    def _has_to_wait(self, line: Line) -> bool:
        """Whether a line has to wait, so that the kernel need not be asked."""
        turn, target, wait = line.head, line.head.target, line.wait
        is_busy = wait and wait.turn is turn and wait.why is Why.BUSY
        if is_busy and not self._has_two_answers(turn):
            return True  # what the transaction has reserved it keeps to its end
        if target and self.agenda.is_to_come(target.fork):
            self._wait(line, Why.PROCESS)
            return True
        if turn.life.is_outside and turn.call == "waitpid" and target:
            return not self._is_orphan(target)
        return False

    def _has_two_answers(self, turn: Turn) -> bool:
        """Whether a turn sends the starter a signal, so that it may be Busy for its answers."""
        return turn.sends is not None and turn.target is self._question.starter

    def _is_orphan(self, life: Life) -> bool:
        """Whether a process and its parent have ended, so that process 1 reaps it."""
        ended = self.outcome.ended
        return life in ended and (life.parent is None or life.parent in ended)

    def _wait(self, line: Line, why: Why, answer: str = "") -> None:
        if self.agenda.wait(line, why, answer) and self._is_explained and line.wait:
            self.explain(line.wait)

    def _give_way(self) -> bool:
        """Where nothing can be made: lets a process go on that need not wait; False without one."""
        if any(self._interrupt(it) for it in self.agenda if it.wait):
            return True
        for line in self.agenda:
            turn = line.head
            if line.wait and line.wait.why is Why.SIGNAL and turn.delivery is Delivery.CAUGHT:
                self.agenda.leave_out([turn, *turn.returns], Because.NO_SIGNAL)
                return True
            if line.wait and line.wait.why is Why.CHILD:
                self._as_answered.add(turn)
                return True
        return False

    def _interrupt(self, line: Line) -> bool:
        """Lets a signal that has come interrupt a process that waits; whether one does.

        The process runs its handler then, and waits again after that.
        """
        for turn in list(line.turns)[1:]:
            has_come = not any(self.agenda.is_to_come(it) for it in turn.senders)
            handler = line.handler(turn) if turn.delivery is Delivery.CAUGHT and has_come else []
            if not handler:
                continue
            try:
                reply = self.kernel.step(self._step(turn).text)
            except Refused:
                continue
            self.agenda.put_first(handler)
            self.outcome.interrupts.append(turn)
            self._made(turn, reply)
            return True
        return False

    # Refusals.

    def _refused(self, line: Line, refusal: Refused) -> bool:
        """What a refusal of the next turn of a line comes to; whether anything came of it."""
        turn, code = line.head, refusal.code
        if refusal.answer == turn.step.expected:
            self.outcome.rests[turn] = len(self.outcome.made)
            self.agenda.take(turn)
        elif code == _NO_SIGNAL:
            return self._has_no_signal(line, refusal)
        elif turn.call == "pipe" and code in _REFUSALS and self._renumber(turn):
            return self._go(line)
        elif code in _REFUSALS:
            self._wait(line, _REFUSALS[code], refusal.answer)
            return self._end_early(line)
        else:
            self.agenda.leave_out([turn, *turn.returns], Because.REFUSED, refusal.answer)
        return True

    def _has_no_signal(self, line: Line, refusal: Refused) -> bool:
        """The signal of a delivery is not there: it comes later, or never; whether it is never."""
        turn = line.head
        if turn.delivery is Delivery.NOTHING:
            self.agenda.leave_out([turn], Because.IGNORED)
            return True
        is_sent_later = any(self.agenda.is_to_come(it) for it in turn.senders)
        if is_sent_later or self.is_held(turn) or turn.delivery is Delivery.ENDS:
            self._wait(line, Why.SIGNAL, refusal.answer)
            return False
        self.agenda.leave_out([turn, *turn.returns], Because.NO_SIGNAL)
        return True

    def _renumber(self, turn: Turn) -> bool:
        """Lets a turn make a pipe of numbers that are free; whether it had other ones."""
        others = None
        if self.is_live and turn.life not in self.outcome.members:
            (others,) = self.kernel.owns().values()
            if turn.life.number in others.procs:
                return False
        step = with_free_numbers(turn.step, self.kernel.state(), others)
        if step == self._step(turn):
            return False
        self._renumbered[turn] = step
        return True

    def _end_early(self, line: Line) -> bool:
        """Lets a signal that has come end a process while it waits; whether it does."""
        end = line.turns[-1]
        waits = line.wait and line.wait.why in (Why.BUSY, Why.CALL)
        if not waits or end is line.head or end.delivery is not Delivery.ENDS:
            return False
        if any(self.agenda.is_to_come(it) for it in end.senders):
            return False
        try:
            reply = self.kernel.step(self._step(end).text)
        except Refused:
            return False
        self.agenda.leave_out(line.before(end), Because.ENDED)
        self._made(end, reply)
        return True

    def _let_be_killed(self) -> None:
        """Lets processes at which SIGKILL is pending do nothing more but to end by it."""
        for number, process in self.kernel.state().procs.items():
            if KILL not in process.pending:
                continue
            life, line = self.lives[number], self.agenda.line_of(self.lives[number])
            # Its recorded end is no more in the line where a sys_xabort has taken its place.
            turns = [*line.turns, *life.turns]
            ends = (it for it in turns if it.delivery and it.signal == KILL)
            end = next(filter(self.agenda.is_to_come, ends), None) or added_end(life)
            if end not in line.turns:
                self.agenda.put_last(end)
            self.agenda.leave_out(line.before(end), Because.ENDED)

    # The transaction.

    def _note_transaction(self, made: Made, reply: Reply) -> None:
        """Notes what a step that was made is to the transaction."""
        turn, members, starter = made.turn, self.outcome.members, self._question.starter
        if turn is self.agenda.begin:
            self.is_live = True
            members.append(turn.life)
        elif not self.is_live:
            return
        elif reply.kind in ("committed", "aborted"):
            self._end(made, reply)
        elif turn.life in members:
            if turn.born:
                members.append(turn.born)
            if turn.sends or (turn.ends and turn.life is starter):
                self._note_held(turn)
        elif turn.target is starter and turn.sends == KILL and reply.ret == 0:
            self._abort()  # it is doomed

    def _note_held(self, turn: Turn) -> None:
        """Notes what the transaction holds since a turn."""
        (transaction,) = self.kernel.state().txns.values()
        known = len(self.outcome.held)
        new = transaction.held[known:]
        self.outcome.held += [Sent(turn, it.target, it.signo) for it in new]

    def _end(self, made: Made, reply: Reply) -> None:
        """The transaction has ended: nobody waits for it any more."""
        self.is_live = False
        self.outcome.ending = Ending(made, reply, len(self.outcome.made))
        self.agenda.end_waits(Why.BUSY)
        if not self.outcome.ending.is_commit:
            self.outcome.after = self.kernel.state()
            self._is_over = self._question.is_abort_wanted
            starter, *others = self.outcome.members
            self.outcome.ended.discard(starter)
            for life in others if not self._is_over else ():
                self.agenda.leave_out(list(self.agenda.line_of(life).turns), Because.ABORTED)

    def _abort(self) -> None:
        """The kernel aborts the transaction."""
        starter = self.outcome.members[0]
        turn = added_turn(starter, ABORT, self.outcome.made[-1].turn)
        self._add(turn, self.kernel.step(turn.step.text))

    def _comes_after_the_abort(self, turn: Turn) -> bool:
        """Whether the kernel is to abort the transaction before a turn."""
        after = self._question.aborted_after
        return after is not None and turn.index > after

    def _abort_on_time(self) -> bool:
        """Aborts the transaction where it was asked for; False where it was not."""
        after, ending, begin = self._question.aborted_after, self.outcome.ending, self.agenda.begin
        if after is None or begin is None:
            return False
        if self.is_live:
            self._abort()
            return True
        if ending:
            last = ending.made.turn.index + 1
            raise Fault(
                f"step {after + 1} is too late for an abort: the transaction ends at step {last}"
            )
        raise Fault(
            f"step {after + 1} is too early for an abort: process {begin.life.label} begins after "
            f"step {begin.index + 1}"
        )
