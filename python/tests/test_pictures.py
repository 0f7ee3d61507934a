"""Tests of txos.pictures and of what it is made of: which steps are drawn, and where."""

import io
import os
import tempfile
import unittest
from contextlib import redirect_stderr, redirect_stdout
from unittest import mock
from xml.etree import ElementTree

import txos.command
from txos.faults import Fault
from txos.picture.choosing import Part, choose, choose_part, part_of
from txos.picture.drawing import MOST_STEPS, draw
from txos.pictures import draw_choice
from txos.recording import read_recording
from txos.replays import Replay, is_refused

SVG = "{http://www.w3.org/2000/svg}"
HEAD = "txos 3 schedule 2\n# recorded: sh -c x\n# log: 999 lines\n# factor: 1\n"
SETUP = "2 map 0\n2 pipe 31 62 63\n2 dup2 1 15\n2 dup 15\n# 2 is sh -c 'echo a | cat'\n"
FILE = "{0} dup 15  # = ok {1}  # 5 openat\n{0} close {1}  # = ok 0  # 6 close\n"
# echo a | tr | cat, with a file that each opens.
PIPELINE = (
    SETUP
    + FILE.format(2, 3)
    + """2 pipe 0 0 1  # = ok 0  # 10 pipe2
2 fork 3  # = ok 3  # 11 clone
# 3 is sh -c 'echo a | cat', forked
2 close 4  # = ok 0  # 12 close
3 close 3  # = ok 0  # 13 close
3 dup2 4 1  # = ok 1  # 14 dup2
3 close 4  # = ok 0  # 15 close
2 pipe 1 2 3  # = ok 0  # 16 pipe2
2 fork 4  # = ok 4  # 17 clone
# 4 is sh -c 'echo a | cat', forked
3 write 1 0 6  # = ok 6  # 18 write
3 exit 0  # = ended  # 19 exit_group
2 deliver CHLD  # 20 SIGCHLD
2 close 3  # = ok 0  # 21 close
2 close 5  # = ok 0  # 22 close
4 close 4  # = ok 0  # 23 close
4 dup2 3 0  # = ok 0  # 24 dup2
4 close 3  # = ok 0  # 25 close
4 dup2 5 1  # = ok 1  # 26 dup2
4 close 5  # = ok 0  # 27 close
# 4 is tr a-z A-Z
"""
    + FILE.format(4, 3)
    + """2 fork 5  # = ok 5  # 28 clone
5 dup2 4 0  # = ok 0  # 29 dup2
5 close 4  # = ok 0  # 30 close
# 5 is cat
2 close 4  # = ok 0  # 31 close
2 waitpid 3 wait  # = ok 3  # 32 wait4
4 sigaction INT default  # = ok 0  # 33 rt_sigaction
4 read 0 0 6  # = ok 6  # 34 read
4 write 1 0 6  # = ok 6  # 35 write
5 read 0 0 2  # = ok 2  # 36 read
4 read 0 0 6  # = ok 0  # 37 read
5 read 0 0 6  # = ok 4  # 38 read
4 exit 0  # = ended  # 39 exit_group
2 deliver CHLD  # 40 SIGCHLD
2 waitpid 4 wait  # = ok 4  # 41 wait4
5 read 0 0 6  # = ok 0  # 42 read
5 exit 0  # = ended  # 43 exit_group
2 waitpid 5 wait  # = ok 5  # 44 wait4
2 exit 0  # = ended  # 45 exit_group
"""
)
COUNT = 44  # its steps
# As if the program drew so few, so that short recordings are too long for it.
FEW_STEPS = mock.patch("txos.picture.choosing.MOST_STEPS", 200)
# A process that echoes what it reads, for another one, again and again.
ECHOES = "".join(
    f"2 write 1 0 {size}  # = ok {size}  # 50 write\n3 read 0 0 9  # = ok {size}  # 51 read\n"
    for size in (1, 3, 2)
)
LOOP = (
    SETUP
    + "2 pipe 0 0 1  # = ok 0  # 9 pipe2\n2 dup2 4 1  # = ok 1  # 9 dup2\n"
    + "".join(
        f"2 fork 3  # = ok 3  # 10 clone\n# 3 is cat\n3 dup2 3 0  # = ok 0  # 11 dup2\n{ECHOES}"
        "2 write 1 0 2  # = ok 2  # 52 write\n"
        "3 exit 0  # = ended  # 53 exit_group\n2 deliver CHLD  # 54 SIGCHLD\n"
        "2 waitpid 3 wait  # = ok 3  # 55 wait4\n2 read 3 0 2  # = ok 2  # 56 read\n"
        for _ in range(3)
    )
)


def replayed(steps, head=HEAD):
    return Replay(read_recording(head + steps))


def number_of(replay, text):
    """The number of the first step with a text."""
    return next(it for it in range(1, len(replay) + 1) if replay.step(it).text == text)


def row_at(y):
    """The row of a height; 0 is the top edge. Heads stand two rows high before each 40 rows."""
    heads = max((float(y) - 64) // 1008, 0)
    return (float(y) - 52 - 48 * heads) / 24


class Picture:
    """What a picture has, by the heights and columns of its rows."""

    def __init__(self, text):
        self.root = ElementTree.fromstring(text)
        self.body, self.legend = self.root.findall(f"{SVG}g")
        self.heads = {it.text: it.get("x") for it in self._texts("head")}
        self.columns = {x: int(process) for process, x in self.heads.items()}
        self.numbers = [int(it.text) for it in self._texts("number") if it.text != "process"]
        self.steps = [it.text for it in self._texts("step")]
        self.foot = " ".join(it.text for it in self._texts("foot"))
        self.marks = self.body.findall(f"{SVG}ellipse")

    def _texts(self, kind):
        return [it for it in self.root.iter(f"{SVG}text") if it.get("class") == kind]

    def names(self):
        """The short name and the title of each process, at the top."""
        names = [it for it in self._texts("name") if it.get("y") == "38"]
        titles = {self.columns[it.get("x")]: it.find(f"{SVG}title") for it in names}
        return {process: (it.tail.strip(), it.text) for process, it in titles.items()}

    def names_below(self, process):
        """Each name of a process with its row: 0 at the top, 41 in the heads before that row."""
        names = [it for it in self._texts("name") if self.columns[it.get("x")] == process]
        places = sorted((float(it.get("y")), it.find(f"{SVG}title").tail.strip()) for it in names)
        return [(int(row_at(y)), name) for y, name in places]

    def rows(self):
        """Of each mark: the row, the process, and whether it is refused."""
        rows = [row_at(it.get("cy")) for it in self.marks]
        makers = [self.columns[it.get("cx")] for it in self.marks]
        return list(zip(rows, makers, [it.get("class") == "refused" for it in self.marks]))

    def lines(self, *kinds):
        return [it for it in self.body.findall(f"{SVG}line") if it.get("class") in kinds]

    def lanes(self):
        """The process and the rows of each lane; row 0 is the top."""
        return sorted(
            (self.columns[it.get("x1")], *(row_at(it.get(y)) for y in ("y1", "y2")))
            for it in self.lines("lane")
        )

    def arrows(self):
        """From which process in which row each arrow of a pipe leads to which."""
        found, start = set(), None
        for it in self.lines("bend", "pipe"):
            start = start or (it.get("x1"), it.get("y1"))
            if it.get("class") == "pipe":
                ends = (start, (it.get("x2"), it.get("y2")))
                found.add(tuple((self.columns[x], round(row_at(y))) for x, y in ends))
                start = None
        return found


def passages(replay):
    """For each read the writes whose bytes it takes, as a queue of each pipe has them."""
    queues, found = {}, {}
    for number in range(1, len(replay) + 1):
        step, answer = replay.step(number), replay.answer(number)
        if step.words[0] == "pipe":
            queues[int(step.words[1])] = []
        if step.words[0] in ("read", "write") and answer.startswith("ok ") and answer > "ok 0":
            state, count = replay.state(number - 1), int(answer.split()[1])
            pipe = state.descs[state.procs[step.process].fds[int(step.words[1])]].pipe
            if step.words[0] == "write":
                queues[pipe] += [number] * count
            else:
                found[number] = sorted(set(queues[pipe][:count]))
                del queues[pipe][:count]
    return found


class Drawing(unittest.TestCase):
    """Rows, and what is in them."""

    def drawn(self, lines, hidden=(), numbers=None, foot=()):
        part = read_recording(HEAD + "".join(f"{it}\n" for it in lines))
        numbers = numbers or range(1, len(part.steps) + 1)
        shown = [it for it in numbers if it not in hidden]
        return Picture(draw(part, numbers, shown, foot))

    def test_each_row_has_its_number_its_step_and_its_mark(self):
        texts = ["2 map 0", "2 fork 3", "3 deliver TERM"]
        picture = self.drawn(texts, numbers=[7, 9, 12])
        self.assertEqual(picture.numbers, [7, 9, 12])
        steps = ["2 map 0 : ok 0", "2 fork 3 : ok 3", "3 deliver TERM : no N10"]
        self.assertEqual(picture.steps, steps)
        self.assertEqual(picture.rows(), [(1, 2, False), (2, 2, False), (3, 3, True)])

    def test_a_hidden_row_has_nothing_and_no_height(self):
        texts = ["2 map 0", "2 fork 3", "3 map 1", "3 kill 2 TERM", "3 exit 0", "2 getpid"]
        for hidden in (set(), {1}, {1, 2}, {3}, {6}, {1, 3, 4, 6}, {1, 2, 3, 4, 5, 6}):
            picture = self.drawn(texts, hidden)
            shown = [it for it in range(1, 7) if it not in hidden]
            self.assertEqual(picture.numbers, shown)
            self.assertEqual([row for row, _, _ in picture.rows()], list(range(1, len(shown) + 1)))
            self.assertEqual(len(picture.lines("signal")), 0 if 4 in hidden else 1)
            self.assertEqual(len(picture.lines("end")), 0 if 5 in hidden else 1)
            full = self.drawn(texts)
            heights = [int(it.root.get("height")) for it in (full, picture)]
            self.assertEqual(heights[0] - heights[1], 24 * len(hidden))

    def test_lanes_of_hidden_forks_come_from_the_top(self):
        texts = ["2 fork 3", "2 getpid", "3 getpid", "3 exit 0", "2 getpid"]
        picture = self.drawn(texts, {1, 2})
        lanes = {process: rows for process, *rows in picture.lanes()}
        self.assertEqual(lanes[3][0], 0)
        self.assertEqual(int(lanes[3][1]), 2)
        self.assertEqual((lanes[2][0], int(lanes[2][1])), (0, 3))

    def test_a_process_of_hidden_rows_has_no_lane(self):
        texts = ["2 fork 3", "3 exit 0", "2 getpid"]
        picture = self.drawn(texts, {1, 2})
        self.assertEqual([it[0] for it in picture.lanes()], [1, 2])
        self.assertEqual(picture.lines("end", "fork"), [])

    def test_arrows_through_hidden_rows(self):
        texts = [
            "2 map 0",
            "2 pipe 0 0 1",
            "2 fork 3",
            "2 write 1 0 1",
            "2 getpid",
            "3 read 0 0 1",
            "2 write 1 0 1",
            "2 read 0 0 1",
            "3 getpid",
        ]
        for hidden, arrows in (
            (set(), {((2, 4), (3, 6)), ((2, 7), (2, 8))}),
            ({5}, {((2, 4), (3, 5)), ((2, 6), (2, 7))}),
            ({1, 2, 3, 4}, {((2, 0), (3, 2)), ((2, 3), (2, 4))}),
            ({6}, {((2, 6), (2, 7))}),
            ({8}, {((2, 4), (3, 6))}),
            ({6, 8}, set()),
        ):
            self.assertEqual(self.drawn(texts, hidden).arrows(), arrows, hidden)

    def test_boxes_end_in_the_rows_of_their_steps(self):
        texts = ["2 getpid", "2 sys_xbegin", "2 map 0", "2 map 1", "2 sys_xend", "2 getpid"]
        picture = self.drawn(texts, {1, 3})
        [box] = [it for it in picture.body.findall(f"{SVG}rect") if it.get("class") == "committed"]
        top, height = float(box.get("y")), float(box.get("height"))
        self.assertEqual([round((it - 52) / 24) for it in (top, top + height)], [1, 3])

    def test_a_box_of_hidden_rows_goes(self):
        texts = ["2 sys_xbegin", "2 map 0", "2 sys_xend", "2 getpid", "2 getpid"]
        picture = self.drawn(texts, {1, 2, 3, 4})
        self.assertEqual([it for it in picture.body.findall(f"{SVG}rect") if it.get("class")], [])

    def test_the_legend_has_boxes_where_the_picture_has_one(self):
        begins = ["2 getpid", "2 sys_xbegin"]
        for texts, has_boxes in ((begins, True), (begins[:1], False)):
            picture = self.drawn(texts)
            legend = picture.legend
            marks = {it.get("class") for it in legend} - {None}
            self.assertLessEqual({"refused", "signal", "pipe", "accepted"}, marks)
            for it in ("committed", "aborted", "open", "refusal"):
                self.assertEqual(it in marks, has_boxes, it)
            texts = [it.text for it in legend.findall(f"{SVG}text")]
            self.assertEqual("committed" in texts, has_boxes)
            self.assertIn("refused", texts)

    def test_what_a_transaction_holds_runs_down_to_its_end(self):
        texts = [
            "3 getpid",
            "2 sys_xbegin",
            "2 fork 3",
            "2 kill 4 USR1",
            "2 map 0",
            "2 sys_xend",
            "3 sys_xend",
        ]
        for hidden, row, end in (((), 4, 7), ((1, 2, 5), 2, 4), ((3,), 3, 6)):
            stub, down = self.drawn(texts, hidden).lines("held")
            self.assertEqual([float(stub.get(y)) for y in ("y1", "y2")], [52 + 24 * row] * 2)
            self.assertEqual(float(down.get("y1")), 52 + 24 * row)
            self.assertEqual(round((float(down.get("y2")) - 52) / 24), end)
        [down] = self.drawn(texts, {4}).lines("held")
        self.assertEqual(float(down.get("y1")), 52 + 24 * 3.5)

    def test_names_with_the_whole_command_as_title(self):
        picture = self.drawn(["# 2 is ./configure --all", "# 2 is /bin/configure x", "2 fork 3"])
        commands = "./configure --all\n/bin/configure x"
        self.assertEqual(picture.names(), {2: ("config..", commands)})

    def test_a_child_forked_anew_has_its_name_below_its_fork_and_in_later_heads(self):
        first = ["2 fork 3", "# 3 is sh", "3 exit 0", "2 waitpid 3 wait"]
        later = ["2 getpid", "2 fork 3", "# 3 is ./configure", *["2 getpid"] * 40]
        for hidden, names in (
            ((), [(0, "sh"), (5, "config.."), (41, "config..")]),
            ({1}, [(0, "sh"), (4, "config.."), (41, "config..")]),
            ({4}, [(0, "sh"), (4, "config.."), (41, "config..")]),
            ({6}, [(0, "sh"), (5, "config.."), (41, "config..")]),
            (range(1, 5), [(0, "sh"), (1, "config.."), (41, "config..")]),
            (range(1, 6), [(0, "config..")]),
        ):
            picture = self.drawn([*first, *later], hidden)
            self.assertEqual(picture.names_below(3), names, hidden)
            self.assertEqual(picture.steps[-1], "2 getpid : ok 2")

    def test_whatever_is_in_a_name_the_picture_is_xml_and_ascii(self):
        name = "<&>\"'\x1b\x00\ud800\uffff caf\u00e9 \U0001f600 ]]>"
        part = read_recording(f"{HEAD}# 2 is {name}\n2 map 0\n".replace("sh -c x", name))
        text = draw(part, [1], [1], [name])
        self.assertTrue(text.isascii())
        picture = Picture(text)
        clean = "<&>\"'\ufffd\ufffd\ufffd\ufffd caf\u00e9 \U0001f600 ]]>"
        self.assertEqual(picture.names()[2][1], clean)
        self.assertEqual(picture.root.find(f"{SVG}title").text, clean)
        self.assertEqual(picture.foot, clean)

    def test_a_command_of_many_bytes(self):
        picture = self.drawn([f"# 2 is sh {500 * chr(233)}", "2 map 0"])
        self.assertEqual(picture.names()[2], ("sh", f"sh {500 * chr(233)}"))

    def test_a_long_foot_is_wrapped_and_has_room(self):
        without = self.drawn(["2 map 0"])
        picture = self.drawn(["2 map 0"], foot=["word " * 60, "end"])
        self.assertEqual(picture.foot, ("word " * 60) + "end")
        feet = [float(it.get("y")) for it in picture._texts("foot")]
        self.assertGreater(min(feet), float(without.root.get("height")) - 16)
        self.assertLess(max(feet), float(picture.root.get("height")))

    def test_no_step(self):
        self.assertEqual(self.drawn([]).rows(), [])

    def test_too_many_steps(self):
        with self.assertRaises(Fault):
            self.drawn(["2 getpid"] * (MOST_STEPS + 1))


class Choices(unittest.TestCase):
    """Which steps are drawn."""

    def assert_drawn(self, replay, choice):
        """The picture has what is chosen, with the answers and the arrows of the whole."""
        picture = Picture(draw_choice(replay, choice))
        self.assertEqual(picture.numbers, choice.shown)
        rows = {number: row for row, number in enumerate(choice.shown, 1)}
        marks = [(rows[it], replay.step(it).process, is_refused(replay.answer(it))) for it in rows]
        self.assertEqual(picture.rows(), marks)
        steps = [f"{replay.step(it).text} : {replay.answer(it)}" for it in rows]
        self.assertEqual(picture.steps, steps)
        makers = {it: replay.step(it).process for it in range(1, len(replay) + 1)}
        arrows = {
            ((makers[write], rows.get(write, 0)), (makers[read], rows[read]))
            for read, writes in passages(replay).items()
            for write in writes
            if read in rows
        }
        self.assertEqual(picture.arrows(), arrows)
        return picture

    def test_what_takes_no_part_has_no_row(self):
        with replayed(PIPELINE) as replay:
            choice = choose(replay)
            picture = self.assert_drawn(replay, choice)
            left = [replay.step(it).text for it in range(1, COUNT + 1) if it not in choice.shown]
        files = [it for process in (2, 4) for it in (f"{process} dup 15", f"{process} close 3")]
        idle = ["2 map 0", "2 pipe 31 62 63", "2 dup2 1 15", "2 dup 15", *files]
        self.assertEqual(left, [*idle, "4 sigaction INT default"])
        self.assertIn("Recorded: sh -c x Steps 1 to 44 of 44.", picture.foot)
        kinds = "4 steps of the setup, 4 steps of files, 1 action of signals"
        self.assertIn(f"Left out: {kinds}.", picture.foot)

    def test_a_long_recording_has_all_its_rows_with_heads_again(self):
        pairs = "2 write 4 0 1  # = ok 1  # 8 write\n2 read 3 0 1  # = ok 1  # 9 read\n" * 150
        with replayed(f"{SETUP}2 pipe 0 0 1  # = ok 0  # 7 pipe2\n{pairs}") as replay:
            choice = choose(replay)
            picture = self.assert_drawn(replay, choice)
        self.assertEqual(choice.shown, list(range(5, 306)))
        heads = [round(float(it.get("y"))) for it in picture._texts("head") if it.text == "2"]
        self.assertEqual(heads, [28 + 1008 * it for it in range(8)])
        names = [round(float(it.get("y"))) for it in picture._texts("name") if it.get("x") == "144"]
        self.assertEqual(names, [it + 10 for it in heads])

    def test_each_step_of_a_whole_part(self):
        with replayed(PIPELINE) as replay:
            for first, last in ((1, COUNT), (1, 1), (COUNT, COUNT), (20, 30)):
                choice = choose_part(replay, Part(first, last, True))
                self.assert_drawn(replay, choice)
                self.assertEqual(choice.shown, list(range(first, last + 1)))

    def test_names_are_those_of_the_last_step_drawn(self):
        with replayed(PIPELINE) as replay:
            whole = Picture(draw_choice(replay, choose(replay)))
            part = Picture(draw_choice(replay, choose_part(replay, Part(1, 20, False))))
        names = {process: short for process, (short, _) in whole.names().items()}
        self.assertEqual(names, {1: "outside", 2: "sh", 3: "sh", 4: "tr", 5: "cat"})
        self.assertEqual(whole.names()[4][1], "sh -c 'echo a | cat', forked\ntr a-z A-Z")
        self.assertEqual(part.names()[4][0], "sh")

    def test_a_child_that_is_named_some_steps_after_its_fork(self):
        late = PIPELINE.replace("# 3 is sh -c 'echo a | cat', forked\n", "")
        late = late.replace("3 dup2 4 1", "# 3 is seq 3\n3 dup2 4 1")
        with replayed(late) as replay:
            fork = number_of(replay, "2 fork 3")
            part = Picture(draw_choice(replay, choose_part(replay, Part(1, fork, False))))
        self.assertEqual(part.names()[3], ("seq", "seq 3"))

    def test_each_process_of_a_number_has_its_own_name(self):
        steps = LOOP
        for name in ("head", "tr", "wc"):
            steps = steps.replace("# 3 is cat", f"# 3 is {name} -c", 1)
        with replayed(steps) as replay:
            forks = [it for it in range(1, len(replay)) if replay.step(it).text == "2 fork 3"]
            for last, names in ((forks[1] - 1, ["head"]), (len(replay), ["head", "tr", "wc"])):
                choice = choose_part(replay, Part(1, last, False))
                rows = [0, *(choice.shown.index(it) + 1 for it in forks[1 : len(names)])]
                again = [(it, names[-1]) for it in range(41, len(choice.shown) + 1, 40)]
                picture = Picture(draw_choice(replay, choice))
                self.assertEqual(picture.names_below(3), [*zip(rows, names), *again])
            choice = choose_part(replay, Part(forks[2], len(replay), False))
            picture = Picture(draw_choice(replay, choice))
        self.assertEqual(picture.names_below(3), [(0, "tr"), (1, "wc")])

    @FEW_STEPS
    def test_no_state_is_looked_at_after_what_fits(self):
        pairs = "2 write 4 0 1  # = ok 1  # 8 write\n2 read 3 0 1  # = ok 1  # 9 read\n"
        drawn = []
        for count in (150, 1500):
            steps = f"{SETUP}2 pipe 0 0 1  # = ok 0  # 7 pipe2\n{pairs * count}"
            with replayed(steps) as replay:
                with mock.patch.object(replay, "state", wraps=replay.state) as state:
                    drawn.append((choose(replay).shown, state.call_count))
        self.assertEqual(*drawn)

    def test_each_part_is_as_in_the_whole(self):
        for steps in (PIPELINE, LOOP):
            with replayed(steps) as replay:
                for first in range(5, len(replay), 3):
                    for last in {min(first + 6, len(replay)), len(replay)}:
                        part = Part(first, last, False)
                        self.assert_drawn(replay, choose_part(replay, part))

    def test_processes_that_are_there_come_from_the_top(self):
        with replayed(PIPELINE) as replay:
            read = number_of(replay, "4 read 0 0 6")
            picture = Picture(draw_choice(replay, choose_part(replay, Part(read, COUNT, False))))
        tops = [(process, top) for process, top, _ in picture.lanes()]
        self.assertEqual(tops, [(1, 0), (2, 0), (4, 0), (5, 0)])
        # The one that wrote what is read in the first row has its column, and no lane.
        self.assertEqual(set(picture.heads), {"1", "2", "3", "4", "5"})

    def test_processes_that_are_gone_have_no_column(self):
        with replayed(PIPELINE) as replay:
            first = number_of(replay, "2 waitpid 4 wait") + 1
            choice = choose_part(replay, Part(first, COUNT, False))
            picture = self.assert_drawn(replay, choice)
        self.assertEqual(set(picture.heads), {"1", "2", "5"})
        self.assertEqual(choice.made, list(range(1, COUNT + 1)))
        self.assertNotIn("earlier steps", picture.foot)

    @FEW_STEPS
    def test_of_the_steps_before_a_part_behind_what_fits_few_are_made(self):
        files = "".join(FILE.format(2, 3) for _ in range(150))
        with replayed(PIPELINE.replace("2 waitpid 4", f"{files}2 waitpid 4")) as replay:
            first = number_of(replay, "2 waitpid 4 wait") + 1
            choice = choose_part(replay, Part(first, len(replay), False))
            picture = self.assert_drawn(replay, choice)
        self.assertEqual(set(picture.heads), {"1", "2", "5"})
        earlier = sum(it < first for it in choice.made)
        self.assertIn(f"{earlier} earlier steps make the state", picture.foot)
        self.assertLess(earlier, COUNT // 2)

    def test_members_of_a_transaction_are_there_until_it_ends(self):
        steps = PIPELINE.replace("# 4 is tr", "4 sys_xbegin\n4 fork 9\n9 exit 0\n# 4 is tr")
        with replayed(steps) as replay:
            first = number_of(replay, "4 write 1 0 6")
            picture = Picture(
                draw_choice(replay, choose_part(replay, Part(first, first + 6, False)))
            )
        boxes = [it for it in picture.body.findall(f"{SVG}rect") if it.get("class") == "committed"]
        self.assertEqual(len(boxes), 2)
        self.assertEqual({it.get("y") for it in boxes}, {"41"})
        self.assertIn("9", picture.heads)

    @FEW_STEPS
    def test_a_long_recording_is_drawn_without_what_takes_no_part(self):
        files = "".join(FILE.format(2, 3) for _ in range(150))
        with replayed(PIPELINE) as replay:
            calls = [replay.step(it).text for it in choose(replay).shown]
        with replayed(PIPELINE.replace("2 waitpid 3", f"{files}2 waitpid 3")) as replay:
            choice = choose(replay)
            self.assert_drawn(replay, choice)
            self.assertEqual([replay.step(it).text for it in choice.shown], calls)
        self.assertLessEqual(len(choice.made), 200)

    @FEW_STEPS
    def test_files_that_stay_open_are_made_but_not_drawn(self):
        opened = "".join(f"2 dup 15  # = ok {it}  # 5 openat\n" for it in (3, 4))
        steps = (
            SETUP
            + opened
            + FILE.format(2, 5) * 150
            + (
                "2 pipe 0 0 1  # = ok 0  # 7 pipe2\n2 write 6 0 3  # = ok 3  # 8 write\n"
                "2 read 5 0 3  # = ok 3  # 9 read\n"
            )
        )
        with replayed(steps) as replay:
            choice = choose(replay)
            self.assert_drawn(replay, choice)
            self.assertEqual(len(choice.shown), 3)
            names = [replay.step(it).call for it in choice.made]
        self.assertEqual(names.count("dup 15"), 3)

    @FEW_STEPS
    def test_a_longer_one_without_ends_of_pipes_that_nobody_needs(self):
        ends = "2 dup 3  # = ok 5  # 5 dup\n2 close 5  # = ok 0  # 6 close\n" * 120
        steps = PIPELINE.replace("2 fork 3", f"{ends}2 fork 3")
        with replayed(steps) as replay:
            choice = choose(replay)
            self.assert_drawn(replay, choice)
            calls = [replay.step(it).text for it in choice.shown]
        self.assertNotIn("2 dup 3", calls)
        self.assertIn("3 write 1 0 6", calls)
        self.assertIn("3 dup2 4 1", calls)
        self.assertIn("steps of pipe ends", " ".join(choice.about))

    @FEW_STEPS
    def test_of_the_longest_the_first_steps_are_drawn(self):
        pairs = "2 write 4 0 1  # = ok 1  # 8 write\n2 read 3 0 1  # = ok 1  # 9 read\n" * 150
        with replayed(SETUP + "2 pipe 0 0 1  # = ok 0  # 7 pipe2\n" + pairs) as replay:
            choice = choose(replay)
            self.assert_drawn(replay, choice)
        self.assertEqual(len(choice.made), 200)
        self.assertEqual(choice.made[-1], choice.shown[-1])
        next_part = f"What follows is drawn by --from {choice.shown[-1] + 1} --to STEP."
        self.assertIn(next_part, choice.about)

    @FEW_STEPS
    def test_a_part_that_is_too_long_says_what_fits(self):
        pairs = "2 write 4 0 1  # = ok 1  # 8 write\n2 read 3 0 1  # = ok 1  # 9 read\n" * 150
        with replayed(SETUP + "2 pipe 0 0 1  # = ok 0  # 7 pipe2\n" + pairs) as replay:
            with self.assertRaises(Fault) as error:
                choose_part(replay, Part(50, 305, False))
            said = str(error.exception)
            self.assertIn("the steps 50 to 305 need more than the 200 steps", said)
            last = int(said.split("--to ")[1].split()[0])
            choice = choose_part(replay, Part(50, last, False))
            self.assert_drawn(replay, choice)
            self.assertEqual(choice.shown[0], 50)
            self.assertGreater(len(choice.shown), 150)

    @FEW_STEPS
    def test_a_state_that_takes_too_many_steps(self):
        writes = "2 write 4 0 1  # = ok 1  # 8 write\n" * 250
        made = "2 pipe 0 0 1  # = ok 0  # 7 pipe2\n"
        with replayed(f"{SETUP}{made}{writes}2 read 3 0 9  # = ok 9  # 9 read\n") as replay:
            with self.assertRaises(Fault) as error:
                choose_part(replay, Part(256, 256, False))
        self.assertIn("earlier ones make the state that step 256 begins with", str(error.exception))

    def test_parts_that_are_none(self):
        with replayed(PIPELINE) as replay:
            for words in ((9, 3, False), (0, 3, False), (1, COUNT + 1, False), (-1, None, True)):
                with self.assertRaises(Fault):
                    part_of(replay, *words)
            self.assertEqual(part_of(replay, None, None, True), Part(1, COUNT, True))
            self.assertEqual(part_of(replay, COUNT, None, False), Part(COUNT, COUNT, False))
            with self.assertRaises(Fault) as error:
                choose_part(replay, Part(1, 6, False))
            self.assertIn("--whole", str(error.exception))


class Command(unittest.TestCase):
    """What the command writes, and its status."""

    def setUp(self):
        folder = tempfile.TemporaryDirectory()
        self.addCleanup(folder.cleanup)
        self.folder = folder.name

    def picture(self, *words, steps=PIPELINE):
        file = os.path.join(self.folder, "recording")
        with open(file, "w", encoding="utf-8") as it:
            it.write(HEAD + steps)
        with redirect_stdout(io.StringIO()) as output, redirect_stderr(io.StringIO()) as said:
            status = txos.command.main(["picture", file, *words])
        return status, output.getvalue(), said.getvalue()

    def test_the_picture_goes_to_standard_output_or_to_a_file(self):
        status, output, said = self.picture()
        self.assertEqual((status, Picture(output).root.tag), (0, f"{SVG}svg"))
        self.assertTrue(said.startswith("txos-record: Steps 1 to 44 of 44. Left out: "), said)
        file = os.path.join(self.folder, "drawn.svg")
        self.assertEqual(self.picture("-o", file), (0, "", said))
        with open(file, encoding="ascii") as it:
            self.assertEqual(it.read(), output)

    def test_a_part_and_all_of_it(self):
        self.assertEqual(Picture(self.picture("--whole")[1]).numbers, list(range(1, COUNT + 1)))
        numbers = Picture(self.picture("--from", "40", "--to", "43")[1]).numbers
        self.assertEqual(numbers, [40, 41, 42, 43])
        self.assertEqual(Picture(self.picture("--from", "43")[1]).numbers, [43, 44])
        self.assertEqual(Picture(self.picture("--to", "8")[1]).numbers, [7, 8])

    def test_a_fault_leaves_no_file(self):
        file = os.path.join(self.folder, "drawn.svg")
        for words in (("--from", "9", "--to", "3"), ("--to", "45"), ("--from", "0")):
            status, output, said = self.picture("-o", file, *words)
            self.assertEqual((status, output), (1, ""))
            self.assertTrue(said.startswith("txos-record: --"), said)
            self.assertFalse(os.path.exists(file))

    def test_a_recording_of_no_steps(self):
        status, output, said = self.picture(steps="")
        self.assertEqual((status, Picture(output).rows(), said), (0, [], "txos-record: No step.\n"))


if __name__ == "__main__":
    unittest.main()
