"""Makes schedules without transactions at random.

What is guessed of the state, as if each call did what it usually does, lets most steps
have a meaning: pages that are mapped, descriptors that are open, signals that are pending,
children to be waited for. Where a guess is wrong, the step is answered an error.
"""

SIGNALS = [1, 2, 3, 6, 9, 10, 12, 13, 14, 15, 17, *range(32, 40)]
USUAL_SIGNALS = [1, 2, 10, 10, 12, 12, 15, 17, 32, 33, 33, 34, 34, 39]
ODD_SIGNALS = [0, 0, 9, 9, 3, 6, 13, 14, 4, 18, 40, 64, 65, 99, -1]
ODD_DESCRIPTORS = [-1, 3, 7, 12, 15, 16, 17, 5000000000]
ODD_ADDRESSES = [-1, -64, 63, 64, 700, 1000, 1023, 1024, 5000000000]
ODD_COUNTS = [0, 0, 64, 65, 130, 200, 500, 512, 513, 600, -1]
ODD_PROCESSES = [0, -1, 23, 24, 257, 5000000000]
VALUES = [0, 1, 5, 77, -1, 9223372036854775807, -9223372036854775808]
STATUSES = [0, 1, 7, 200, 255, 256, 300, -1, 5000000007]
IDS = [0, 5, 5, 7, 7, 9]
ODD_IDS = [-1, 65534, 65535, 65536, 5000000000]
# How often each call is made, by what it is about; a schedule has one subject more often.
WEIGHTS = {
    "family": {"fork": 9, "exit": 4, "waitpid": 8, "number": 3},
    "ids": {"ids": 5},
    "pipes": {"pipe": 6, "dup": 4, "dup2": 5, "close": 6, "set_nonblock": 4, "full": 0.3},
    "bytes": {"read": 10, "write": 12},
    "memory": {"pages": 6, "store": 6, "load": 3},
    "signals": {"kill": 8, "sigqueue": 7, "many": 0.3, "sigaction": 8},
    "masks": {"sigprocmask": 5, "sigpending": 4},
    "deliveries": {"deliver": 12, "sigreturn": 4, "nested": 0.2},
}
SUBJECTS = [
    (),
    ("family",),
    ("pipes", "bytes"),
    ("bytes", "memory"),
    ("signals", "masks", "deliveries"),
    ("signals", "deliveries"),
    ("ids", "signals"),
    ("family", "signals", "deliveries"),
]


class Process:
    """What is guessed of a process that runs."""

    def __init__(self, parent):
        self.parent = parent
        self.descriptors = {}
        self.pages = set()
        self.pending = []
        self.blocked, self.caught, self.ignored = set(), set(), {17}
        self.frames = []

    def child(self, parent):
        """What its child has."""
        copy = Process(parent)
        copy.descriptors = dict(self.descriptors)
        copy.pages, copy.blocked = set(self.pages), set(self.blocked)
        copy.frames = list(self.frames)
        copy.caught, copy.ignored = set(self.caught), set(self.ignored)
        return copy

    def acts(self, signal, way):
        """An action is set."""
        if signal not in SIGNALS or signal == 9:
            return
        for ways, name in ((self.caught, "catch"), (self.ignored, "ignore")):
            (ways.add if way == name else ways.discard)(signal)
        if signal in self.ignored:
            self.pending = [it for it in self.pending if it != signal]

    def deliverable(self):
        """Signals that may be delivered, most often such as do not end it."""
        found = [it for it in self.pending if it not in self.blocked]
        first = min((it for it in found if it >= 32), default=0)
        found = [it for it in found if it < 32 or it == first]
        return found + 4 * [it for it in found if it in self.caught or it in self.ignored]

    def sides(self, writes):
        """Descriptors of a side of a pipe."""
        return [it for it, (_, _, side) in self.descriptors.items() if writes in (None, side)]


class Maker:
    """Makes the steps of one schedule."""

    def __init__(self, chance, with_ids):
        self.chance = chance
        self.count = chance.choice([1, 2, 3, 4])
        self.running = {it: Process(min(it - 1, 1)) for it in range(1, self.count + 1)}
        self.ended = {}
        self.subjects = subjects = chance.choice(SUBJECTS)
        self.kinds = {
            call: weight * (4 if subject in subjects else 1)
            for subject, weights in WEIGHTS.items()
            for call, weight in weights.items()
            if call != "ids" or with_ids
        }

    def text(self, length):
        """A schedule of so many steps, or a few more."""
        steps = list(self.prelude())
        while len(steps) < length:
            steps += self.step().split("\n")
        version = self.chance.choice([2, 3])
        return f"txos {version} schedule {self.count}\n" + "".join(f"{it}\n" for it in steps)

    def prelude(self):
        """What lets the calls that follow mean something: pages, a pipe, actions of signals."""
        for process in sorted(self.running):
            for page in range(self.chance.choice([0, 1, 2, 2, 9])):
                self.running[process].pages.add(page)
                yield f"{process} map {page}"
        yield f"1 store 0 {self.chance.randbytes(8).hex()}"
        yield self.pipe(1)
        if "deliveries" in self.subjects:
            yield from (self.sigaction(it) for it in sorted(self.running) for _ in range(5))

    def step(self):
        others = [it for it in sorted(self.running) if it != 1]
        process = self.usually([1, *others, *others], [*self.ended, 20, 23, 0, 24], 0.96)
        if process not in self.running:
            return f"{process} {self.chance.choice(['getpid', 'fork 9', 'exit 1', 'deliver 10'])}"
        call = self.chance.choices([*self.kinds], [*self.kinds.values()])[0]
        return getattr(self, call)(process)

    def usually(self, common, odd, how_often=0.88):
        """One of the common ones, if there are any, but for the odd one out."""
        return self.chance.choice(common if common and self.chance.random() < how_often else odd)

    def some_process(self):
        return self.usually([*self.running, *self.ended], ODD_PROCESSES, 0.93)

    def descriptor(self, process, writes=None):
        """A descriptor, most often an open one of the side that is meant."""
        known = self.running[process]
        return self.usually(known.sides(writes), [*ODD_DESCRIPTORS, *known.descriptors], 0.88)

    def address(self, process):
        pages = sorted(self.running[process].pages)
        common = [it * 64 + self.chance.choice([0, 0, 5, 40]) for it in pages]
        return self.usually(common, ODD_ADDRESSES, 0.93)

    def signals(self, process):
        """A set of signals, some of them perhaps pending."""
        common = [*self.running[process].pending, *SIGNALS]
        found = {self.chance.choice(common) for _ in range(self.chance.choice([0, 1, 1, 2, 4]))}
        return ",".join(map(str, sorted(found))) or "-"

    def end(self, process):
        """An end of a process, as far as it changes what is guessed of others."""
        gone = self.running.pop(process)
        self.ended[process] = gone.parent
        for other in self.running.values():
            other.parent = 1 if other.parent == process else other.parent
        self.ended = {it: 1 if parent == process else parent for it, parent in self.ended.items()}
        if gone.parent in self.running and gone.parent != 1:
            self.running[gone.parent].pending.append(17)

    def fork(self, process):
        taken = {*self.running, *self.ended}
        free = [it for it in range(1, 21) if it not in taken]
        if len(self.running) > 10:
            return self.exit(process)
        child = self.usually(free, [*taken, 0, 257, 300], 0.93)
        if child in free:
            self.running[child] = self.running[process].child(process)
        return f"{process} fork {child}"

    def exit(self, process):
        if process != 1:
            self.end(process)
        return f"{process} exit {self.chance.choice(STATUSES)}"

    def waitpid(self, process):
        parents = [it for it in self.ended.values() if it in self.running]
        process = self.usually(parents, [process], 0.6)
        zombies = [it for it, parent in self.ended.items() if parent == process]
        children = [it for it, known in self.running.items() if known.parent == process]
        target = self.usually([*zombies, *zombies, *zombies, *children], [self.some_process()])
        if self.ended.get(target) == process:
            del self.ended[target]
        return f"{process} waitpid {target} {self.chance.choice(['wait', 'nohang'])}"

    def number(self, process):
        return f"{process} {self.chance.choice(['getpid', 'getppid', 'getppid'])}"

    def ids(self, process):
        call = self.chance.choice(["setuid", "seteuid", "seteuid", "setgid", "setegid"])
        return f"{process} {call} {self.usually(IDS, ODD_IDS, 0.95)}"

    def pipe(self, process):
        named = [it for known in self.running.values() for it in known.descriptors.values()]
        pipes = [it for it in range(32) if it not in {pipe for pipe, _, _ in named}]
        free = [it for it in range(64) if it not in {description for _, description, _ in named}]
        pipe, (one, other) = self.chance.choice(pipes), self.chance.sample(free, 2)
        if self.chance.random() < 0.04:
            pipe, one, other = self.chance.choice([(0, 0, 1), (32, one, other), (pipe, one, one)])
        have = self.running[process].descriptors
        open_to = [it for it in range(16) if it not in have]
        if len(open_to) > 1:
            have[open_to[0]], have[open_to[1]] = (pipe, one, False), (pipe, other, True)
        return f"{process} pipe {pipe} {one} {other}"

    def dup(self, process):
        have, named = self.running[process].descriptors, self.descriptor(process)
        open_to = [it for it in range(16) if it not in have]
        if named in have and open_to:
            have[open_to[0]] = have[named]
        return f"{process} dup {named}"

    def full(self, process):
        """Copies of a descriptor until there is no place, or one, or one more; and a pipe then."""
        process = self.fitting(process, lambda it: it.descriptors)
        have = self.running[process].descriptors
        named = self.usually([*have], [0])
        copies = max(0, 16 - len(have) + self.chance.choice([-1, 0, 1]))
        if named in have:
            have |= {it: have[named] for it in [it for it in range(16) if it not in have][:copies]}
        return "\n".join([*[f"{process} dup {named}"] * copies, self.pipe(process)])

    def dup2(self, process):
        have, named = self.running[process].descriptors, self.descriptor(process)
        other = self.usually(range(16), ODD_DESCRIPTORS, 0.93)
        if named in have and 0 <= other < 16:
            have[other] = have[named]
        return f"{process} dup2 {named} {other}"

    def close(self, process):
        named = self.descriptor(process)
        self.running[process].descriptors.pop(named, None)
        return f"{process} close {named}"

    def set_nonblock(self, process):
        way = self.chance.choice(["on", "on", "off"])
        return f"{process} set_nonblock {self.descriptor(process)} {way}"

    def fitting(self, process, fits):
        """The process, or most often another one where that fits better."""
        others = [it for it in sorted(self.running) if fits(self.running[it])]
        if fits(self.running[process]) or not others:
            return process
        return self.usually(others, [process])

    def transfer(self, process, writes):
        process = self.fitting(process, lambda it: it.pages and it.sides(writes))
        many = len(self.running[process].pages) >= 8
        count = self.usually([1, 8, 200, 300, 512] if many else [1, 2, 8, 20], ODD_COUNTS, 0.85)
        address = 0 if many and count > 64 else self.address(process)
        call = "write" if writes else "read"
        return f"{process} {call} {self.descriptor(process, writes)} {address} {count}"

    def read(self, process):
        return self.transfer(process, False)

    def write(self, process):
        return self.transfer(process, True)

    def pages(self, process):
        have = self.running[process].pages
        call = self.chance.choice(["map", "map", "map", "unmap", "protect", "protect"])
        common = range(4) if call == "map" else sorted(have)
        page = self.usually(common, [-1, 5, 15, 16, 5000000000])
        if call == "protect":
            return f"{process} protect {page} {self.chance.choice(['r', 'rw'])}"
        if 0 <= page < 16:
            (have.add if call == "map" else have.discard)(page)
        return f"{process} {call} {page}"

    def store(self, process):
        found = self.chance.randbytes(self.chance.choice([1, 4, 8, 64]))
        return f"{process} store {self.address(process)} {found.hex()}"

    def load(self, process):
        return f"{process} load {self.address(process)}"

    def sent(self, target, signal):
        """What a signal is guessed to become: it is pending."""
        if target in self.running and target != 1 and signal in SIGNALS:
            self.running[target].pending.append(signal)

    def handled(self, target):
        """Signals that a process ignores, catches or blocks, many times."""
        known = self.running.get(target)
        return 8 * sorted(known.caught | known.blocked | known.ignored - {17}) if known else []

    def kill(self, process):
        target = self.some_process()
        signal = self.usually([*USUAL_SIGNALS, *self.handled(target)], ODD_SIGNALS, 0.85)
        self.sent(target, signal)
        return f"{process} kill {target} {signal}"

    def sigqueue(self, process):
        target = self.some_process()
        signal = self.usually([*range(32, 40), 10, *self.handled(target)], ODD_SIGNALS)
        self.sent(target, signal)
        return f"{process} sigqueue {target} {signal} {self.chance.choice(VALUES)}"

    def many(self, process):
        """As many signals as a queue has room for, and some more."""
        target, found = self.usually([*self.running], [*self.ended, 1]), []
        for value in range(self.chance.choice([15, 16, 18])):
            signal = self.chance.choice([33, 33, 34, 39])
            self.sent(target, signal)
            found.append(f"{process} sigqueue {target} {signal} {value}")
        return "\n".join(found)

    def sigaction(self, process):
        known = self.running[process]
        signal = self.usually([*USUAL_SIGNALS, *known.pending], [*SIGNALS, 0, 4, 40, 65, -1])
        way = self.chance.choice(["default", "ignore", "ignore", *["catch"] * 5])
        if way != "catch":
            known.acts(signal, way)
            return f"{process} sigaction {signal} {way}"
        point = self.usually([0, 5, 65535], [65536], 0.95)
        if point <= 65535:
            known.acts(signal, way)
        return f"{process} sigaction {signal} catch {point} {self.signals(process)}"

    def sigprocmask(self, process):
        how = self.chance.choice(["block", "unblock", "unblock", "set"])
        named = self.signals(process)
        numbers = {int(it) for it in named.split(",") if it != "-"}
        known = self.running[process]
        kept = {"block": known.blocked, "unblock": known.blocked - numbers, "set": set()}[how]
        known.blocked = (kept if how == "unblock" else kept | numbers) - {9}
        return f"{process} sigprocmask {how} {named}"

    def sigpending(self, process):
        process = self.fitting(process, lambda it: it.blocked.intersection(it.pending))
        known, signal = self.running[process], self.chance.choice(USUAL_SIGNALS)
        if known.blocked.intersection(known.pending) or self.chance.random() < 0.4:
            return f"{process} sigpending"
        known.blocked.add(signal)
        self.sent(process, signal)
        sender = self.chance.choice([process, *self.running])
        steps = [f"{process} sigprocmask block {signal}", f"{sender} kill {process} {signal}"]
        return "\n".join([*steps, f"{process} sigpending"])

    def delivered(self, process, signal):
        """A delivery, and what it is guessed to do."""
        known = self.running[process]
        if signal in known.deliverable():
            known.pending.remove(signal)
            if signal in known.caught:
                known.frames.append(set(known.blocked))
                known.blocked.add(signal)
            elif signal not in known.ignored:
                self.end(process)
        return f"{process} deliver {signal}"

    def deliver(self, process):
        process = self.fitting(process, Process.deliverable)
        found = self.running[process].deliverable()
        if not found and self.chance.random() < 0.7:
            return self.kill(process)
        return self.delivered(process, self.usually(found, SIGNALS, 0.92))

    def nested(self, process):
        """Signals that are caught one in another, until there are more than frames."""
        process = self.fitting(process, lambda it: it.caught)
        found, known = [], self.running[process]
        for signal in self.chance.sample([1, 2, 10, 12, 15, 33, 36], 6):
            if signal not in known.caught:
                known.acts(signal, "catch")
                found.append(f"{process} sigaction {signal} catch 1 -")
            known.pending.append(signal)
            found += [f"{process} kill {process} {signal}", self.delivered(process, signal)]
        return "\n".join(found)

    def sigreturn(self, process):
        process = self.fitting(process, lambda it: it.frames)
        frames = self.running[process].frames
        if not frames and self.chance.random() < 0.8:
            return self.deliver(process)
        if frames:
            self.running[process].blocked = frames.pop()
        return f"{process} sigreturn"
