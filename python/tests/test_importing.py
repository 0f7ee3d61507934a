"""Tests of making a recording: logs of a few lines, and the steps that they have to become.

Each recording is answered by the program too, and each answer has to be the host's.
"""

import re
import unittest

from txos.faults import Fault
from txos.host.importing import make_recording
from txos.host.strace import read_log
from txos.kernel import Kernel, Refused
from txos.recording import Naming, Recording, Step, read_recording

ROOT = '7 execve("/bin/sh", ["sh", "-c", "a b"], 0x7ffc /* 9 vars */) = 0'
END = "7 +++ exited with 0 +++"
FORK = "7 clone(child_stack=NULL, flags=CLONE_CHILD_SETTID|SIGCHLD, child_tidptr=0x7f) = 8"
CHILD = "--- SIGCHLD {si_signo=SIGCHLD, si_code=CLD_EXITED, si_pid=%d, si_uid=0, si_status=0} ---"
HANDLER = "{sa_handler=0x55, sa_mask=[], sa_flags=SA_RESTORER, sa_restorer=0x7f}, NULL, 8) = 0"


def record(*lines, is_short=False):
    """The recording of the lines of a log after its first."""
    text = [f"{it}\n" for it in (ROOT, *lines)]
    made = make_recording(read_log(text), len(text), is_short, lambda count: None)
    assert read_recording(made.text()) == made
    return made


def naming_lines(made):
    """The lines of a recording that say what its processes are."""
    return [it for it in made.text().splitlines() if re.match(r"# \d+ is |name ", it)]


def answer(kernel, step):
    try:
        return str(kernel.step(step))
    except Refused as refused:
        return f"no {refused.code}"


class Recorded(unittest.TestCase):
    def check(self, lines, steps, **more):
        """Sees that a log becomes these steps, after the setup, and that the kernel agrees."""
        made = record(*lines, **more)
        found = [f"{it.text} = {it.expected}" if it.expected else it.text for it in made.steps]
        recorded = next(it for it, step in enumerate(made.steps) if step.line)
        self.assertEqual(found[recorded:], steps)
        with Kernel() as kernel:
            for step in made.steps:
                found = answer(kernel, step.text)
                self.assertEqual(found, step.expected or found, step)
                self.assertTrue(step.expected or not found.startswith("no"), step)
        return made

    def left_out(self, made):
        return {it.kind: (it.count, it.line) for it in made.left_out}


class Pipes(Recorded):
    def test_bytes_that_were_read_were_written_before(self):
        made = self.check(
            [
                "7 pipe2([3, 4], 0) = 0",
                FORK,
                '8 write(4, "hi\\n", 3 <unfinished ...>',
                '7 read(3, "hi\\n", 100) = 3',
                "8 <... write resumed>) = 3",
                "8 exit_group(0) = ?",
                "8 +++ exited with 0 +++",
                END,
            ],
            [
                "2 pipe 0 0 1 = ok 0",
                "2 fork 3 = ok 3",
                '3 store 0 "hi\\n"',
                "3 write 4 0 3 = ok 3",
                "2 read 3 0 3 = ok 3",
                "3 exit 0 = ended",
                "2 exit 0 = ended",
                "1 waitpid 3 nohang",
                "1 waitpid 2 nohang",
            ],
        )
        self.assertEqual([it.line for it in made.steps[-6:-4]], [6, 5])

    def test_a_pipe_at_its_end_was_closed_before_its_writer_has_ended(self):
        self.check(
            [
                "7 pipe2([3, 4], 0) = 0",
                FORK,
                "7 close(4) = 0",
                "8 exit_group(0) = ?",
                '7 read(3, "", 100) = 0',
                "8 +++ exited with 0 +++",
                END,
            ],
            [
                "2 pipe 0 0 1 = ok 0",
                "2 fork 3 = ok 3",
                "2 close 4 = ok 0",
                "3 close 4",
                "2 read 3 0 1 = ok 0",
                "3 exit 0 = ended",
                "2 exit 0 = ended",
                "1 waitpid 3 nohang",
                "1 waitpid 2 nohang",
            ],
        )

    def test_a_read_that_would_wait_was_done_while_the_pipe_was_empty(self):
        made = self.check(
            [
                "7 pipe2([3, 4], O_NONBLOCK) = 0",
                FORK,
                "7 read(3,  <unfinished ...>",
                '8 write(4, "x", 1) = 1',
                "7 <... read resumed>0x7f, 1) = -1 EAGAIN (Resource temporarily unavailable)",
                '7 read(3, "x", 1) = 1',
                "8 exit_group(0) = ?",
                "8 +++ exited with 0 +++",
                END,
            ],
            [
                "2 pipe 0 0 1 = ok 0",
                "2 set_nonblock 3 on = ok 0",
                "2 set_nonblock 4 on = ok 0",
                "2 fork 3 = ok 3",
                "2 read 3 0 1 = ok -11",
                '3 store 0 "x"',
                "3 write 4 0 1 = ok 1",
                "2 read 3 0 1 = ok 1",
                "3 exit 0 = ended",
                "2 exit 0 = ended",
                "1 waitpid 3 nohang",
                "1 waitpid 2 nohang",
            ],
        )
        self.assertEqual(self.left_out(made), {})

    def test_a_read_that_never_ends_waits_in_the_kernel_too(self):
        made = self.check(
            [
                "7 pipe2([3, 4], 0) = 0",
                "7 read(3, 0x7f, 10) = ? ERESTARTSYS (To be restarted if SA_RESTART is set)",
                "7 --- SIGINT {si_signo=SIGINT, si_code=SI_KERNEL} ---",
                "7 +++ killed by SIGINT +++",
            ],
            [
                "2 pipe 0 0 1 = ok 0",
                "2 read 3 0 1 = no N9",
                "1 kill 2 INT",
                "2 deliver INT = ended",
                "1 waitpid 2 nohang",
            ],
        )
        self.assertEqual(self.left_out(made), {})

    def test_a_read_that_a_signal_breaks_off_has_waited(self):
        self.check(
            [
                "7 pipe2([3, 4], 0) = 0",
                f"7 rt_sigaction(SIGINT, {HANDLER}",
                "7 read(3, 0x7f, 10) = ? ERESTARTSYS (To be restarted if SA_RESTART is set)",
                "7 --- SIGINT {si_signo=SIGINT, si_code=SI_KERNEL} ---",
                "7 rt_sigreturn({mask=[]}) = -1 EINTR (Interrupted system call)",
                END,
            ],
            [
                "2 pipe 0 0 1 = ok 0",
                "2 sigaction INT catch 1000 - = ok 0",
                "2 read 3 0 1 = no N9",
                "1 kill 2 INT",
                "2 deliver INT = ok 0",
                "2 sigreturn",
                "2 exit 0 = ended",
                "1 waitpid 2 nohang",
            ],
        )

    def test_a_poll_of_pipes_that_never_ends_is_a_read_of_each(self):
        for call in (
            "poll([{fd=3, events=POLLIN}, {fd=5, events=POLLIN|POLLPRI}], 2, -1",
            "select(6, [3 5], NULL, NULL, NULL",
        ):
            made = self.check(
                [
                    "7 pipe([3, 4]) = 0",
                    "7 pipe([5, 6]) = 0",
                    f"7 {call} <unfinished ...>",
                    "7 +++ killed by SIGKILL +++",
                ],
                [
                    "2 pipe 0 0 1 = ok 0",
                    "2 pipe 1 2 3 = ok 0",
                    "2 read 3 0 1 = no N9",
                    "2 read 5 0 1 = no N9",
                    "1 kill 2 KILL",
                    "2 deliver KILL = ended",
                    "1 waitpid 2 nohang",
                ],
            )
            self.assertEqual(made.waiting, [])

    def test_a_call_that_the_kernel_lacks_and_that_never_ends_is_noted(self):
        made = record(
            "7 close(0) = 0",
            "7 futex(0x7f, FUTEX_WAIT, 1, NULL) = ? ERESTARTSYS (To be restarted)",
            "7 --- SIGTERM {si_signo=SIGTERM, si_code=SI_USER, si_pid=9, si_uid=0} ---",
            "7 +++ killed by SIGTERM +++",
        )
        (waiting,) = made.waiting
        self.assertEqual((waiting.process, waiting.call, waiting.line), (2, "futex", 3))
        self.assertEqual(made.steps[waiting.index].text, "1 kill 2 TERM")
        self.assertIn("\n# 2 waits in futex since line 3\n1 kill 2 TERM", made.text())

    def test_a_write_that_waits_has_filled_its_pipe(self):
        self.check(
            [
                "7 pipe2([3, 4], 0) = 0",
                '7 write(4, "x"..., 100000) = 65536',
                "7 --- SIGTERM {si_signo=SIGTERM, si_code=SI_USER, si_pid=9, si_uid=0} ---",
                "7 +++ killed by SIGTERM +++",
            ],
            [
                "2 pipe 0 0 1 = ok 0",
                "2 write 4 512 512 = ok 512",
                "2 write 4 512 270 = no N9",
                "1 kill 2 TERM",
                "2 deliver TERM = ended",
                "1 waitpid 2 nohang",
            ],
        )
        self.check(
            [
                "7 pipe2([3, 4], 0) = 0",
                '7 write(4, "x"..., 100000 <unfinished ...>',
                "7 +++ killed by SIGKILL +++",
            ],
            [
                "2 pipe 0 0 1 = ok 0",
                "2 write 4 512 512",
                "2 write 4 512 270 = no N9",
                "1 kill 2 KILL",
                "2 deliver KILL = ended",
                "1 waitpid 2 nohang",
            ],
        )

    def test_nobody_reads_any_more(self):
        self.check(
            [
                "7 pipe([3, 4]) = 0",
                "7 close(3) = 0",
                '7 write(4, "x", 1) = -1 EPIPE (Broken pipe)',
                "7 --- SIGPIPE {si_signo=SIGPIPE, si_code=SI_USER, si_pid=7, si_uid=0} ---",
                "7 +++ killed by SIGPIPE +++",
            ],
            [
                "2 pipe 0 0 1 = ok 0",
                "2 close 3 = ok 0",
                "2 write 4 512 1 = ok -32",
                "2 deliver PIPE = ended",
                "1 waitpid 2 nohang",
            ],
        )

    def test_a_write_that_is_answered_bytes_was_done_before_the_last_reader_closes(self):
        made = self.check(
            [
                "7 pipe([3, 4]) = 0",
                FORK,
                "7 close(4) = 0",
                "8 close(3) = 0",
                '8 write(4, "x", 1 <unfinished ...>',
                "7 close(3) = 0",
                "8 <... write resumed>) = 1",
                "8 +++ exited with 0 +++",
                END,
            ],
            [
                "2 pipe 0 0 1 = ok 0",
                "2 fork 3 = ok 3",
                "2 close 4 = ok 0",
                "3 close 3 = ok 0",
                '3 store 0 "x"',
                "3 write 4 0 1 = ok 1",
                "2 close 3 = ok 0",
                "3 exit 0 = ended",
                "2 exit 0 = ended",
                "1 waitpid 3 nohang",
                "1 waitpid 2 nohang",
            ],
        )
        self.assertEqual([it.line for it in made.steps[-6:-4]], [8, 7])

    def test_a_write_is_done_before_its_last_reader_ends(self):
        self.check(
            [
                "7 pipe([3, 4]) = 0",
                FORK,
                "7 close(3) = 0",
                '7 write(4, "x", 1 <unfinished ...>',
                "8 +++ exited with 0 +++",
                "7 <... write resumed>) = 1",
                END,
            ],
            [
                "2 pipe 0 0 1 = ok 0",
                "2 fork 3 = ok 3",
                "2 close 3 = ok 0",
                '2 store 0 "x"',
                "2 write 4 0 1 = ok 1",
                "3 exit 0 = ended",
                "2 exit 0 = ended",
                "1 waitpid 3 nohang",
                "1 waitpid 2 nohang",
            ],
        )

    def test_a_long_write_that_never_ends_has_filled_its_pipe(self):
        made = self.check(
            [
                "7 pipe([3, 4]) = 0",
                '7 write(4, "x"..., 131072) = ? ERESTARTSYS (To be restarted if SA_RESTART is set)',
                "7 --- SIGINT {si_signo=SIGINT, si_code=SI_KERNEL} ---",
                "7 +++ killed by SIGINT +++",
            ],
            [
                "2 pipe 0 0 1 = ok 0",
                "2 write 4 512 512",
                "2 write 4 512 512 = no N9",
                "1 kill 2 INT",
                "2 deliver INT = ended",
                "1 waitpid 2 nohang",
            ],
        )
        self.assertEqual(made.factor, 128)

    def test_a_long_write_that_never_ends_has_written_what_is_read(self):
        for last, size in ((100, 100), (70000, 70000)):
            made = record(
                "7 pipe([3, 4]) = 0",
                FORK,
                "7 close(4) = 0",
                '8 write(4, "x"..., 131072 <unfinished ...>',
                '7 read(3, "x"..., 100000) = 100',
                "7 kill(8, SIGKILL) = 0",
                f'7 read(3, "x"..., 100000) = {last}',
                '7 read(3, "", 100000) = 0',
                "8 <... write resumed>) = ?",
                "8 +++ killed by SIGKILL +++",
                END,
            )
            moved = [it for it in made.steps if it.line and it.words[0] in ("read", "write")]
            factor, whole = made.factor, -(-(100 + size) // made.factor)
            self.assertEqual(moved[0].text, f"3 write 4 512 {whole}")
            self.assertEqual(moved[1].expected, "no N9")
            read = [it.expected for it in moved[2:]]
            self.assertEqual(read[-2:], [f"ok {whole - 100 // factor}", "ok 0"])

    def test_bytes_are_divided_where_a_pipe_holds_more_than_512(self):
        made = self.check(
            [
                "7 pipe([3, 4]) = 0",
                '7 write(4, "x"..., 1000) = 1000',
                '7 read(3, "x"..., 999) = 999',
                '7 read(3, "x", 999) = 1',
                END,
            ],
            [
                "2 pipe 0 0 1 = ok 0",
                "2 write 4 512 500 = ok 500",
                "2 read 3 0 499 = ok 499",
                "2 read 3 0 1 = ok 1",
                "2 exit 0 = ended",
                "1 waitpid 2 nohang",
            ],
        )
        self.assertEqual(made.factor, 2)

    def test_a_transfer_of_less_than_a_unit_is_counted(self):
        made = record(
            "7 pipe([3, 4]) = 0",
            '7 write(4, "x"..., 1024) = 1024',
            '7 read(3, "x", 1) = 1',
            '7 read(3, "x"..., 1023) = 1023',
            END,
        )
        self.assertEqual(made.factor, 2)
        self.assertEqual(self.left_out(made), {"transfer of less than one byte here": (1, 4)})

    def test_bytes_that_a_process_has_read_are_not_stored_again(self):
        self.check(
            [
                "7 pipe([3, 4]) = 0",
                '7 write(4, "ab", 2) = 2',
                '7 read(3, "ab", 9) = 2',
                '7 write(4, "ab", 2) = 2',
                '7 writev(4, [{iov_base="a", iov_len=1}, {iov_base="\\1", iov_len=1}], 2) = 2',
                END,
            ],
            [
                "2 pipe 0 0 1 = ok 0",
                '2 store 0 "ab"',
                "2 write 4 0 2 = ok 2",
                "2 read 3 0 2 = ok 2",
                "2 write 4 0 2 = ok 2",
                "2 store 0 0x6101",
                "2 write 4 0 2 = ok 2",
                "2 exit 0 = ended",
                "1 waitpid 2 nohang",
            ],
        )

    def test_bytes_between_two_pipes_and_from_files(self):
        made = self.check(
            [
                "7 pipe([3, 4]) = 0",
                "7 pipe([5, 6]) = 0",
                "7 sendfile(4, 0, [0] => [3], 3) = 3",
                "7 tee(3, 6, 3, 0) = 3",
                "7 splice(3, NULL, 6, NULL, 9, 0) = 3",
                '7 readv(5, [{iov_base="xyzxyz", iov_len=9}], 1) = 6',
                '7 read(0, "", 10) = 0',
                END,
            ],
            [
                "2 pipe 0 0 1 = ok 0",
                "2 pipe 1 2 3 = ok 0",
                "2 write 4 512 3 = ok 3",
                "2 write 6 512 3 = ok 3",
                "2 read 3 0 3 = ok 3",
                "2 write 6 512 3 = ok 3",
                "2 read 5 0 6 = ok 6",
                "2 exit 0 = ended",
                "1 waitpid 2 nohang",
            ],
        )
        self.assertEqual(self.left_out(made), {"read of a file": (1, 8)})


class Descriptors(Recorded):
    def test_files_are_copies_of_what_stands_for_them(self):
        self.check(
            [
                '7 openat(AT_FDCWD, "/etc/x", O_RDONLY|O_CLOEXEC) = 3',
                "7 fcntl(3, F_DUPFD, 10) = 10",
                "7 dup2(3, 1) = 1",
                "7 dup(3) = 4",
                "7 close(3) = 0",
                "7 close(3) = -1 EBADF (Bad file descriptor)",
                '7 openat(AT_FDCWD, "/nowhere", O_RDONLY) = -1 ENOENT (No such file or directory)',
                END,
            ],
            [
                "2 dup 15 = ok 3",
                "2 dup2 3 10 = ok 10",
                "2 dup2 3 1 = ok 1",
                "2 dup 3 = ok 4",
                "2 close 3 = ok 0",
                "2 close 3 = ok -9",
                "2 exit 0 = ended",
                "1 waitpid 2 nohang",
            ],
        )

    def test_a_terminal_is_opened_by_its_other_side(self):
        made = self.check(
            [
                '7 openat(AT_FDCWD, "/dev/ptmx", O_RDWR) = 3',
                "7 ioctl(3, TIOCGPTPEER, 0x102) = 4",
                "7 dup2(4, 0) = 0",
                "7 close(4) = 0",
                END,
            ],
            [
                "2 dup 15 = ok 3",
                "2 dup 15 = ok 4",
                "2 dup2 4 0 = ok 0",
                "2 close 4 = ok 0",
                "2 exit 0 = ended",
                "1 waitpid 2 nohang",
            ],
        )
        self.assertEqual(self.left_out(made), {})

    def test_descriptors_over_15_have_another_number(self):
        self.check(
            [
                "7 pipe2([3, 4], O_CLOEXEC) = 0",
                "7 dup2(3, 255) = 255",
                "7 close(3) = 0",
                '7 write(4, "x", 1) = 1',
                '7 read(255, "x", 1) = 1',
                END,
            ],
            [
                "2 pipe 0 0 1 = ok 0",
                "2 dup2 3 14 = ok 14",
                "2 close 3 = ok 0",
                '2 store 0 "x"',
                "2 write 4 0 1 = ok 1",
                "2 read 14 0 1 = ok 1",
                "2 exit 0 = ended",
                "1 waitpid 2 nohang",
            ],
        )

    def test_files_make_room_for_pipes(self):
        opens = [f'7 openat(AT_FDCWD, "x", O_RDONLY) = {it}' for it in range(3, 18)]
        made = record(*opens, "7 pipe2([18, 19], 0) = 0", '7 write(19, "x", 1) = 1', END)
        texts = [it.text for it in made.steps]
        place = texts.index("2 pipe 0 0 1")
        self.assertEqual(texts[place - 2 : place], ["2 close 14", "2 close 13"])
        self.assertIn("2 write 14 0 1", texts)
        left_out = self.left_out(made)
        self.assertEqual(left_out["file beyond 15 descriptors"], (3, 14))
        self.assertEqual(left_out["file, to have room for a pipe among 16 descriptors"], (2, 17))

    def test_a_number_that_opens_again_was_closed_before(self):
        made = self.check(
            [
                "7 pipe2([3, 4], 0) = 0",
                "7 clone3({flags=CLONE_VM|CLONE_FILES|CLONE_THREAD, stack=0x7f}, 88) = 8",
                "7 close(4 <unfinished ...>",
                "8 pipe2([4, 5], 0) = 0",
                "7 <... close resumed>) = 0",
                '8 read(3, "", 1) = 0',
                '8 write(5, "x", 1) = 1',
                '8 read(4, "x", 1) = 1',
                "8 exit(0) = ?",
                "8 +++ exited with 0 +++",
                END,
            ],
            [
                "2 pipe 0 0 1 = ok 0",
                "2 close 4 = ok 0",
                "2 pipe 1 2 3 = ok 0",
                "2 read 3 0 1 = ok 0",
                '2 store 0 "x"',
                "2 write 5 0 1 = ok 1",
                "2 read 4 0 1 = ok 1",
                "2 exit 0 = ended",
                "1 waitpid 2 nohang",
            ],
        )
        self.assertEqual([it.line for it in made.steps[-8:-6]], [6, 5])

    def test_a_pipe_that_is_written_by_a_descriptor_beyond_15_is_not_read(self):
        pipes = [f"7 pipe([{it}, {it + 1}]) = 0" for it in range(3, 15, 2)]
        made = record(
            "7 close(0) = 0",
            "7 close(1) = 0",
            "7 close(2) = 0",
            "7 pipe([0, 1]) = 0",
            *pipes,
            "7 dup(3) = 2",
            "7 dup(4) = 15",
            '7 write(15, "x", 1) = 1',
            '7 read(3, "x", 1) = 1',
            END,
        )
        self.assertNotIn("read", [it.words[0] for it in made.steps])
        left_out = self.left_out(made)
        self.assertEqual(left_out["write of a pipe, by a descriptor beyond 15"], (1, 14))
        self.assertEqual(left_out["transfer of a pipe whose bytes are not all known"], (1, 15))

    def test_an_execve_closes_what_is_marked(self):
        self.check(
            [
                "7 pipe2([3, 4], O_CLOEXEC) = 0",
                "7 fcntl(3, F_SETFD, 0) = 0",
                "7 ioctl(4, FIONCLEX) = 0",
                "7 ioctl(4, FIOCLEX) = 0",
                f"7 rt_sigaction(SIGTERM, {HANDLER}",
                '7 execve("/bin/cat", ["cat"], 0x7ffc /* 9 vars */) = 0',
                END,
            ],
            [
                "2 pipe 0 0 1 = ok 0",
                "2 sigaction TERM catch 1000 - = ok 0",
                "2 close 4 = ok 0",
                "2 sigaction TERM default = ok 0",
                "2 exit 0 = ended",
                "1 waitpid 2 nohang",
            ],
        )

    def test_a_range_is_closed(self):
        self.check(
            [
                "7 pipe2([3, 4], 0) = 0",
                "7 close_range(4, 4294967295, 0) = 0",
                "7 close_range(0, 3, CLOSE_RANGE_CLOEXEC) = 0",
                END,
            ],
            [
                "2 pipe 0 0 1 = ok 0",
                "2 close 4 = ok 0",
                "2 exit 0 = ended",
                "1 waitpid 2 nohang",
            ],
        )

    def test_a_pipe_is_opened_by_the_name_of_its_descriptor(self):
        self.check(
            [
                "7 pipe2([3, 4], 0) = 0",
                '7 openat(AT_FDCWD, "/dev/fd/3", O_RDONLY) = 5',
                '7 write(4, "x", 1) = 1',
                '7 read(5, "x", 1) = 1',
                END,
            ],
            [
                "2 pipe 0 0 1 = ok 0",
                "2 dup 3 = ok 5",
                '2 store 0 "x"',
                "2 write 4 0 1 = ok 1",
                "2 read 5 0 1 = ok 1",
                "2 exit 0 = ended",
                "1 waitpid 2 nohang",
            ],
        )

    def test_a_pipe_that_is_given_to_another_process_is_known_until_then(self):
        given = "msg_control=[{cmsg_type=SCM_RIGHTS, cmsg_data=[4]}]"
        taken = given.replace("4", "5")
        for give, take in (
            (f"7 sendmsg(9, {{{given}}}, 0) = 1", f"8 recvmsg(9, {{{taken}}}, 0) = 1"),
            ("8 pidfd_open(7, 0) = 3", "8 pidfd_getfd(3, 4, 0) = 5"),
        ):
            made = record(
                FORK,
                "7 pipe([3, 4]) = 0",
                '7 write(4, "a", 1) = 1',
                '7 read(3, "a", 1) = 1',
                give,
                take,
                "7 close(4) = 0",
                '8 write(5, "x", 1) = 1',
                '7 read(3, "x", 1) = 1',
                "8 +++ exited with 0 +++",
                '7 read(3, "", 1) = 0',
                END,
            )
            moved = [it.text for it in made.steps if it.words[0] in ("read", "write")]
            self.assertEqual(moved, ["2 write 4 0 1", "2 read 3 0 1"])
            kind = "transfer of a pipe whose bytes are not all known"
            self.assertEqual(self.left_out(made)[kind], (2, 10))

    def test_short_leaves_files_out_that_are_closed_again(self):
        made = self.check(
            [
                '7 openat(AT_FDCWD, "a", O_RDONLY) = 3',
                '7 openat(AT_FDCWD, "b", O_RDONLY) = 4',
                "7 close(4) = 0",
                "7 close(3) = 0",
                '7 openat(AT_FDCWD, "c", O_RDONLY) = 3',
                FORK,
                "7 close(3) = 0",
                "7 rt_sigprocmask(SIG_SETMASK, [], NULL, 8) = 0",
                "7 rt_sigaction(SIGTERM, {sa_handler=SIG_DFL, sa_mask=[], sa_flags=0}, NULL, 8) = 0",
                "8 +++ exited with 0 +++",
                END,
            ],
            [
                "2 dup 15 = ok 3",
                "2 fork 3 = ok 3",
                "2 close 3 = ok 0",
                "3 exit 0 = ended",
                "2 exit 0 = ended",
                "1 waitpid 3 nohang",
                "1 waitpid 2 nohang",
            ],
            is_short=True,
        )
        self.assertEqual(
            self.left_out(made),
            {
                "file that is opened and closed again": (2, 4),
                "mask set to what it is": (1, 9),
                "action set to what it is": (1, 10),
            },
        )


class Processes(Recorded):
    def test_names(self):
        made = record(
            FORK,
            '8 execve("/bin/tr", ["tr", "a", "A B"], 0x7ffc /* 9 vars */) = 0',
            FORK.replace("= 8", "= 9"),
            '8 execve("/bin/cat", ["cat"], 0x7ffc /* 9 vars */) = 0',
            "8 +++ exited with 0 +++",
            "9 +++ exited with 0 +++",
            END,
        )
        self.assertEqual(made.command, "sh -c 'a b'")
        named = [(it.process, it.command) for it in made.names]
        self.assertEqual(
            named,
            [(2, "sh -c 'a b'"), (3, "tr a 'A B'"), (4, "sh -c 'a b' (forked)"), (3, "cat")],
        )
        self.assertEqual(made.steps[made.names[1].index - 1].text, "2 fork 3")
        self.assertEqual(
            naming_lines(made),
            [
                "# 2 is sh -c 'a b'",
                "name 2 sh",
                "# 3 is tr a 'A B'",
                "name 3 cat",
                "# 4 is sh -c 'a b' (forked)",
                "name 4 sh",
                "# 3 is cat",
            ],
        )

    def test_a_number_that_is_forked_again_has_another_name(self):
        fork, refused = Step(2, "fork 3", "ok 3"), Step(2, "fork 3", "no N4")
        steps = [fork, refused, Step(3, "exit 0"), Step(2, "waitpid 3 wait"), fork]
        names = [Naming(1, 3, "a"), Naming(2, 3, "'/bin/b \u00e9' c"), Naming(5, 3, "d" * 20)]
        made = Recording("a", 1, steps=steps, names=names)
        self.assertEqual(read_recording(made.text()), made)
        self.assertEqual(
            naming_lines(made),
            [
                "# 3 is a",
                "name 3 b___",
                "# 3 is '/bin/b \u00e9' c",
                f"# 3 is {'d' * 20}",
                f"name 3 {'d' * 16}",
            ],
        )

    def test_a_command_without_a_name(self):
        made = Recording("a", 1, names=[Naming(0, 2, "'' x"), Naming(0, 3, "cat")])
        self.assertEqual(naming_lines(made), ["# 2 is '' x", "# 3 is cat", "name 3 cat"])

    def test_a_line_has_at_most_the_bytes_that_the_program_takes(self):
        made = Recording("a", 1, names=[Naming(0, 2, "\u00e9" * 400)])
        longest = max(made.text().encode("utf-8").split(b"\n"), key=len)
        self.assertEqual(longest.decode("utf-8"), "# 2 is " + "\u00e9" * 252)

    def test_a_child_begins_before_its_fork_has_ended(self):
        self.check(
            [
                "7 vfork( <unfinished ...>",
                "8 close(0) = 0",
                "8 exit_group(3) = ?",
                "7 <... vfork resumed>) = 8",
                "8 +++ exited with 3 +++",
                "7 wait4(-1, [{WIFEXITED(s) && WEXITSTATUS(s) == 3}], 0, NULL) = 8",
                "7 wait4(-1, 0x7f, WNOHANG, NULL) = -1 ECHILD (No child processes)",
                END,
            ],
            [
                "2 fork 3 = ok 3",
                "3 close 0 = ok 0",
                "3 exit 3 = ended",
                "2 waitpid 3 wait = ok 3",
                "2 waitpid 2 nohang = ok -10",
                "2 exit 0 = ended",
                "1 waitpid 2 nohang",
            ],
        )

    def test_a_wait_that_finds_nobody_was_done_before_the_child_has_ended(self):
        self.check(
            [
                FORK,
                "7 wait4(-1,  <unfinished ...>",
                "8 +++ exited with 0 +++",
                "7 <... wait4 resumed>0x7f, WNOHANG, NULL) = 0",
                "7 waitid(P_PID, 8, {si_signo=SIGCHLD, si_code=CLD_EXITED, si_pid=8}, WEXITED, NULL) = 0",
                END,
            ],
            [
                "2 fork 3 = ok 3",
                "2 waitpid 3 nohang = ok 0",
                "3 exit 0 = ended",
                "2 waitpid 3 wait = ok 3",
                "2 exit 0 = ended",
                "1 waitpid 2 nohang",
            ],
        )

    def test_a_thread_is_its_process(self):
        made = self.check(
            [
                "7 pipe([3, 4]) = 0",
                "7 clone3({flags=CLONE_VM|CLONE_FILES|CLONE_THREAD, stack=0x7f}, 88) = 8",
                '8 write(4, "x", 1) = 1',
                "8 exit(0) = ?",
                "8 +++ exited with 0 +++",
                END,
            ],
            [
                "2 pipe 0 0 1 = ok 0",
                '2 store 0 "x"',
                "2 write 4 0 1 = ok 1",
                "2 exit 0 = ended",
                "1 waitpid 2 nohang",
            ],
        )
        self.assertEqual(self.left_out(made)["thread, which is its process here"], (1, 3))

    def test_children_that_have_another_parent_here(self):
        made = self.check(
            [
                FORK,
                "8 clone(child_stack=0x7f, flags=CLONE_PARENT|SIGCHLD) = 9",
                "9 +++ exited with 0 +++",
                "7 wait4(-1, [{WIFEXITED(s) && WEXITSTATUS(s) == 0}], 0, NULL) = 9",
                "8 clone(child_stack=NULL, flags=SIGCHLD) = 10",
                "8 +++ exited with 0 +++",
                "7 wait4(-1, [{WIFEXITED(s) && WEXITSTATUS(s) == 0}], 0, NULL) = 8",
                "10 +++ exited with 0 +++",
                "7 wait4(-1, [{WIFEXITED(s) && WEXITSTATUS(s) == 0}], 0, NULL) = 10",
                END,
            ],
            [
                "2 fork 3 = ok 3",
                "3 fork 4 = ok 4",
                "4 exit 0 = ended",
                "3 fork 5 = ok 5",
                "3 exit 0 = ended",
                "1 waitpid 4 nohang",
                "2 waitpid 3 wait = ok 3",
                "5 exit 0 = ended",
                "1 waitpid 5 nohang",
                "2 exit 0 = ended",
                "1 waitpid 2 nohang",
            ],
        )
        self.assertEqual(
            self.left_out(made),
            {
                "fork of a child for its parent, which is its own child here": (1, 3),
                "wait for a child that has another parent here": (2, 5),
            },
        )

    def test_a_wait_that_a_kill_ends_is_answered_0(self):
        self.check(
            [
                FORK,
                "8 clone(child_stack=NULL, flags=SIGCHLD) = 9",
                "8 wait4(-1,  <unfinished ...>",
                "7 kill(8, SIGKILL) = 0",
                "8 <... wait4 resumed>NULL, 0, NULL) = 0",
                "8 +++ killed by SIGKILL +++",
                "9 +++ exited with 0 +++",
                END,
            ],
            [
                "2 fork 3 = ok 3",
                "3 fork 4 = ok 4",
                "3 waitpid 4 wait = no N9",
                "2 kill 3 KILL = ok 0",
                "3 deliver KILL = ended",
                "4 exit 0 = ended",
                "1 waitpid 4 nohang",
                "2 exit 0 = ended",
                "1 waitpid 3 nohang",
                "1 waitpid 2 nohang",
            ],
        )

    def test_a_wait_for_a_group_that_no_child_has(self):
        self.check(
            [
                FORK,
                "7 wait4(0,  <unfinished ...>",
                "8 setsid() = 8",
                "7 <... wait4 resumed>0x7f, 0, NULL) = -1 ECHILD (No child processes)",
                "8 +++ exited with 0 +++",
                "7 wait4(-8, [{WIFEXITED(s) && WEXITSTATUS(s) == 0}], 0, NULL) = 8",
                END,
            ],
            [
                "2 fork 3 = ok 3",
                "2 waitpid 2 nohang = ok -10",
                "3 exit 0 = ended",
                "2 waitpid 3 wait = ok 3",
                "2 exit 0 = ended",
                "1 waitpid 2 nohang",
            ],
        )

    def test_a_wait_that_does_not_want_to_know_what_it_found(self):
        self.check(
            [
                FORK,
                "7 waitid(P_PID, 8, NULL, WNOHANG|WEXITED, NULL) = 0",
                "7 waitid(P_PID, 8,  <unfinished ...>",
                "8 +++ exited with 0 +++",
                "7 <... waitid resumed>NULL, WEXITED, NULL) = 0",
                END,
            ],
            [
                "2 fork 3 = ok 3",
                "2 waitpid 3 nohang = ok 0",
                "3 exit 0 = ended",
                "2 waitpid 3 wait = ok 3",
                "2 exit 0 = ended",
                "1 waitpid 2 nohang",
            ],
        )

    def test_a_call_that_strace_could_not_read(self):
        made = self.check(
            [
                FORK,
                "7 kill(8, SIGKILL <unfinished ...>",
                "8 ???( <unfinished ...>",
                "7 <... kill resumed>) = 0",
                "8 <... ??? resumed>) = ?",
                "8 +++ killed by SIGKILL +++",
                END,
            ],
            [
                "2 fork 3 = ok 3",
                "2 kill 3 KILL = ok 0",
                "3 deliver KILL = ended",
                "2 exit 0 = ended",
                "1 waitpid 3 nohang",
                "1 waitpid 2 nohang",
            ],
        )
        left_out = {"call that strace could not read": (1, 4)}
        self.assertEqual(self.left_out(made), left_out)

    def test_an_answer_that_a_kill_has_made_is_none(self):
        made = self.check(
            [
                FORK,
                "8 close(0 <unfinished ...>",
                "7 kill(8, SIGKILL) = 0",
                "8 <... close resumed>) = -1 (errno 18446744073709551554)",
                "8 +++ killed by SIGKILL +++",
                END,
            ],
            [
                "2 fork 3 = ok 3",
                "2 kill 3 KILL = ok 0",
                "3 deliver KILL = ended",
                "2 exit 0 = ended",
                "1 waitpid 3 nohang",
                "1 waitpid 2 nohang",
            ],
        )
        self.assertEqual([(it.call, it.line) for it in made.waiting], [("close", 3)])

    def test_a_process_by_its_pidfd(self):
        made = self.check(
            [
                FORK,
                "7 pidfd_open(8, 0) = 3",
                "7 dup(3) = 4",
                "7 waitid(P_PIDFD, 4, {}, WNOHANG|WEXITED, NULL) = 0",
                "7 pidfd_send_signal(3, SIGTERM, NULL, 0) = 0",
                "8 --- SIGTERM {si_signo=SIGTERM, si_code=SI_USER, si_pid=7, si_uid=0} ---",
                "8 +++ killed by SIGTERM +++",
                "7 waitid(P_PIDFD, 4, {si_signo=SIGCHLD, si_pid=8}, WEXITED, NULL) = 0",
                END,
            ],
            [
                "2 fork 3 = ok 3",
                "2 dup 15 = ok 3",
                "2 dup 3 = ok 4",
                "2 waitpid 3 nohang = ok 0",
                "2 kill 3 TERM = ok 0",
                "3 deliver TERM = ended",
                "2 waitpid 3 wait = ok 3",
                "2 exit 0 = ended",
                "1 waitpid 2 nohang",
            ],
        )
        self.assertEqual(self.left_out(made), {})

    def test_a_process_that_is_killed_while_it_forks_leaves_a_child(self):
        self.check(
            [
                FORK,
                "8 clone(child_stack=NULL, flags=SIGCHLD <unfinished ...>",
                "7 kill(8, SIGKILL) = 0",
                "8 <... clone resumed> <unfinished ...>) = ?",
                "8 +++ killed by SIGKILL +++",
                "9 exit_group(1) = ?",
                "9 +++ exited with 1 +++",
                END,
            ],
            [
                "2 fork 3 = ok 3",
                "3 fork 4 = ok 4",
                "2 kill 3 KILL = ok 0",
                "3 deliver KILL = ended",
                "4 exit 1 = ended",
                "1 waitpid 4 nohang",
                "2 exit 0 = ended",
                "1 waitpid 3 nohang",
                "1 waitpid 2 nohang",
            ],
        )

    def test_a_thread_executes_a_program(self):
        execve = '8 execve("/bin/cat", ["cat"], 0x7ffc /* 9 vars */ <%s ...>'
        for cut in ("unfinished", "pid changed to 7"):
            made = self.check(
                [
                    "7 pipe2([3, 4], O_CLOEXEC) = 0",
                    "7 clone3({flags=CLONE_VM|CLONE_FILES|CLONE_THREAD, stack=0x7f}, 88) = 8",
                    "7 read(3,  <unfinished ...>",
                    execve % cut,
                    "7 +++ superseded by execve in pid 8 +++",
                    "7 <... execve resumed>) = 0",
                    END,
                ],
                [
                    "2 pipe 0 0 1 = ok 0",
                    "2 close 3 = ok 0",
                    "2 close 4 = ok 0",
                    "2 exit 0 = ended",
                    "1 waitpid 2 nohang",
                ],
            )
            self.assertEqual(made.names[-1].command, "cat")

    def test_a_fork_of_a_thread_copies_what_is_open_where_it_starts(self):
        made = self.check(
            [
                "7 clone3({flags=CLONE_VM|CLONE_FILES|CLONE_THREAD, stack=0x7f}, 88) = 8",
                "8 vfork( <unfinished ...>",
                "7 pipe2([3, 4], 0) = 0",
                '9 openat(AT_FDCWD, "a", O_RDONLY) = 3',
                "8 <... vfork resumed>) = 9",
                "7 close(4) = 0",
                '7 read(3, "", 1) = 0',
                "9 +++ exited with 0 +++",
                "8 exit(0) = ?",
                "8 +++ exited with 0 +++",
                END,
            ],
            [
                "2 fork 3 = ok 3",
                "2 pipe 0 0 1 = ok 0",
                "3 dup 15 = ok 3",
                "2 close 4 = ok 0",
                "2 read 3 0 1 = ok 0",
                "3 exit 0 = ended",
                "2 exit 0 = ended",
                "1 waitpid 3 nohang",
                "1 waitpid 2 nohang",
            ],
        )
        self.assertEqual(list(self.left_out(made)), ["thread, which is its process here"])

    def test_a_parent_that_ignores_the_end_of_its_child_is_rid_of_it(self):
        self.check(
            [
                "7 rt_sigaction(SIGCHLD, {sa_handler=SIG_IGN, sa_mask=[], sa_flags=0}, NULL, 8) = 0",
                FORK,
                "8 +++ exited with 0 +++",
                "7 wait4(8, 0x7f, 0, NULL) = -1 ECHILD (No child processes)",
                END,
            ],
            [
                "2 sigaction CHLD ignore = ok 0",
                "2 fork 3 = ok 3",
                "3 exit 0 = ended",
                "2 deliver CHLD",
                "2 waitpid 3 nohang",
                "2 waitpid 2 nohang = ok -10",
                "2 exit 0 = ended",
                "1 waitpid 2 nohang",
            ],
        )

    def test_a_process_whose_fork_is_not_there_is_reported(self):
        with self.assertRaisesRegex(Fault, "line 2: process 8 begins, and no fork of it is here"):
            record("8 close(3) = 0", "8 +++ exited with 0 +++", END)

    def test_a_process_of_another_namespace_is_reported(self):
        said = (
            "line 4: process 9 begins in the PID namespace of line 2, where it has another number"
        )
        with self.assertRaisesRegex(Fault, said):
            record(
                "7 unshare(CLONE_NEWNS|CLONE_NEWPID) = 0",
                "7 clone(child_stack=NULL, flags=SIGCHLD) = 1",
                "9 close(3) = 0",
                "9 +++ exited with 0 +++",
                END,
            )

    def test_numbers_are_used_again_only_when_all_are_taken(self):
        lines = []
        for pid in range(100, 400):
            lines += [
                f"7 fork() = {pid}",
                f"{pid} +++ exited with 0 +++",
                f"7 wait4(-1, [{{WIFEXITED(s)}}], 0, NULL) = {pid}",
            ]
        made = record(*lines, END)
        forks = [int(it.words[1]) for it in made.steps if it.words[0] == "fork"]
        self.assertEqual(forks, [*range(3, 257), *[3] * 46])


class Signals(Recorded):
    def test_a_signal_was_sent_before_it_comes(self):
        self.check(
            [
                f"7 rt_sigaction(SIGUSR1, {HANDLER}",
                FORK,
                "8 kill(7, SIGUSR1 <unfinished ...>",
                "7 --- SIGUSR1 {si_signo=SIGUSR1, si_code=SI_USER, si_pid=8, si_uid=0} ---",
                "8 <... kill resumed>) = 0",
                "7 rt_sigreturn({mask=[]}) = 0",
                "8 +++ exited with 0 +++",
                END,
            ],
            [
                "2 sigaction USR1 catch 1000 - = ok 0",
                "2 fork 3 = ok 3",
                "3 kill 2 USR1 = ok 0",
                "2 deliver USR1 = ok 0",
                "2 sigreturn",
                "3 exit 0 = ended",
                "2 exit 0 = ended",
                "1 waitpid 3 nohang",
                "1 waitpid 2 nohang",
            ],
        )

    def test_a_signal_that_comes_twice_came_before_it_was_sent_again(self):
        self.check(
            [
                FORK,
                FORK.replace("= 8", "= 9"),
                "8 +++ exited with 0 +++",
                "9 +++ exited with 0 +++",
                f"7 {CHILD % 8}",
                f"7 {CHILD % 9}",
                END,
            ],
            [
                "2 fork 3 = ok 3",
                "2 fork 4 = ok 4",
                "3 exit 0 = ended",
                "2 deliver CHLD",
                "4 exit 0 = ended",
                "2 deliver CHLD",
                "2 exit 0 = ended",
                "1 waitpid 3 nohang",
                "1 waitpid 4 nohang",
                "1 waitpid 2 nohang",
            ],
        )

    def test_a_signal_that_comes_was_not_dropped_by_another_action(self):
        self.check(
            [
                FORK,
                f"7 rt_sigaction(SIGCHLD, {HANDLER}",
                "7 rt_sigprocmask(SIG_BLOCK, [CHLD], NULL, 8) = 0",
                "7 rt_sigaction(SIGCHLD, {sa_handler=SIG_DFL, sa_mask=[], sa_flags=0},  <unfinished ...>",
                "8 +++ exited with 0 +++",
                "7 <... rt_sigaction resumed>NULL, 8) = 0",
                "7 rt_sigprocmask(SIG_SETMASK, [], NULL, 8) = 0",
                f"7 {CHILD % 8}",
                END,
            ],
            [
                "2 fork 3 = ok 3",
                "2 sigaction CHLD catch 1000 - = ok 0",
                "2 sigprocmask block CHLD = ok 0",
                "2 sigaction CHLD default = ok 0",
                "3 exit 0 = ended",
                "2 sigprocmask set - = ok 0",
                "2 deliver CHLD",
                "2 exit 0 = ended",
                "1 waitpid 3 nohang",
                "1 waitpid 2 nohang",
            ],
        )

    def test_a_signal_that_was_lost_comes_once(self):
        self.check(
            [
                FORK,
                FORK.replace("= 8", "= 9"),
                "8 +++ exited with 0 +++",
                "9 +++ exited with 0 +++",
                f"7 {CHILD % 8}",
                END,
            ],
            [
                "2 fork 3 = ok 3",
                "2 fork 4 = ok 4",
                "3 exit 0 = ended",
                "4 exit 0 = ended",
                "2 deliver CHLD",
                "2 exit 0 = ended",
                "1 waitpid 3 nohang",
                "1 waitpid 4 nohang",
                "1 waitpid 2 nohang",
            ],
        )

    def test_a_handler_of_a_signal_that_the_kernel_lacks_returns_for_itself(self):
        made = self.check(
            [
                f"7 rt_sigaction(SIGUSR1, {HANDLER}",
                f"7 rt_sigaction(SIGWINCH, {HANDLER}",
                "7 --- SIGUSR1 {si_signo=SIGUSR1, si_code=SI_USER, si_pid=1, si_uid=0} ---",
                "7 --- SIGWINCH {si_signo=SIGWINCH, si_code=SI_KERNEL} ---",
                "7 rt_sigreturn({mask=[USR1]}) = 0",
                "7 kill(7, SIGUSR1) = 0",
                "7 rt_sigpending([USR1], 8) = 0",
                "7 rt_sigreturn({mask=[]}) = 0",
                "7 --- SIGUSR1 {si_signo=SIGUSR1, si_code=SI_USER, si_pid=7, si_uid=0} ---",
                "7 rt_sigreturn({mask=[]}) = 0",
                END,
            ],
            [
                "2 sigaction USR1 catch 1000 - = ok 0",
                "1 kill 2 USR1",
                "2 deliver USR1 = ok 0",
                "2 kill 2 USR1 = ok 0",
                "2 sigpending = ok 1024",
                "2 sigreturn",
                "2 deliver USR1 = ok 0",
                "2 sigreturn",
                "2 exit 0 = ended",
                "1 waitpid 2 nohang",
            ],
        )
        kind = "return from a handler that the kernel has not"
        self.assertEqual(self.left_out(made)[kind], (1, 6))

    def test_a_signal_that_no_call_has_sent_has_the_sender_that_the_log_names(self):
        self.check(
            [
                FORK,
                "7 --- SIGCHLD {si_signo=SIGCHLD, si_code=CLD_STOPPED, si_pid=8, si_uid=0} ---",
                "7 --- SIGPIPE {si_signo=SIGPIPE, si_code=SI_USER, si_pid=7, si_uid=0} ---",
                "7 +++ killed by SIGPIPE +++",
                "8 --- SIGHUP {si_signo=SIGHUP, si_code=SI_USER, si_pid=7, si_uid=0} ---",
                "8 +++ killed by SIGHUP +++",
            ],
            [
                "2 fork 3 = ok 3",
                "3 kill 2 CHLD",
                "2 deliver CHLD",
                "2 kill 2 PIPE",
                "2 deliver PIPE = ended",
                "1 waitpid 2 nohang",
                "1 kill 3 HUP",
                "3 deliver HUP = ended",
                "1 waitpid 3 nohang",
            ],
        )

    def test_kill_ends_a_process_where_its_pipe_is_at_its_end(self):
        self.check(
            [
                "7 pipe([3, 4]) = 0",
                FORK,
                "7 close(4) = 0",
                "7 kill(8, SIGKILL) = 0",
                '7 read(3, "", 1) = 0',
                "8 +++ killed by SIGKILL +++",
                END,
            ],
            [
                "2 pipe 0 0 1 = ok 0",
                "2 fork 3 = ok 3",
                "2 close 4 = ok 0",
                "2 kill 3 KILL = ok 0",
                "3 deliver KILL = ended",
                "2 read 3 0 1 = ok 0",
                "2 exit 0 = ended",
                "1 waitpid 3 nohang",
                "1 waitpid 2 nohang",
            ],
        )

    def test_a_group_is_killed_one_by_one(self):
        self.check(
            [
                FORK,
                "7 setpgid(8, 8) = 0",
                "8 clone(child_stack=NULL, flags=SIGCHLD) = 9",
                "7 kill(-8, SIGTERM) = 0",
                "8 --- SIGTERM {si_signo=SIGTERM, si_code=SI_USER, si_pid=7, si_uid=0} ---",
                "8 +++ killed by SIGTERM +++",
                "9 --- SIGTERM {si_signo=SIGTERM, si_code=SI_USER, si_pid=7, si_uid=0} ---",
                "9 +++ killed by SIGTERM +++",
                END,
            ],
            [
                "2 fork 3 = ok 3",
                "3 fork 4 = ok 4",
                "2 kill 3 TERM = ok 0",
                "2 kill 4 TERM = ok 0",
                "3 deliver TERM = ended",
                "4 deliver TERM = ended",
                "1 waitpid 4 nohang",
                "2 exit 0 = ended",
                "1 waitpid 3 nohang",
                "1 waitpid 2 nohang",
            ],
        )

    def test_the_end_of_a_pipe_shows_that_its_writer_is_killed(self):
        for kill, sent in (
            ("8 kill(8, SIGKILL) = ?", "3 kill 3 KILL"),
            ("8 pause( <unfinished ...>", "1 kill 3 KILL"),
        ):
            self.check(
                [
                    "7 pipe([3, 4]) = 0",
                    FORK,
                    "7 close(4) = 0",
                    kill,
                    '7 read(3, "", 1) = 0',
                    "8 +++ killed by SIGKILL +++",
                    END,
                ],
                [
                    "2 pipe 0 0 1 = ok 0",
                    "2 fork 3 = ok 3",
                    "2 close 4 = ok 0",
                    sent,
                    "3 deliver KILL = ended",
                    "2 read 3 0 1 = ok 0",
                    "2 exit 0 = ended",
                    "1 waitpid 3 nohang",
                    "1 waitpid 2 nohang",
                ],
            )

    def test_a_process_is_killed_while_it_executes_a_program(self):
        self.check(
            [
                "7 pipe2([3, 4], O_CLOEXEC) = 0",
                FORK,
                "7 close(4) = 0",
                '8 execve("/bin/cat", ["cat"], 0x7ffc /* 9 vars */ <unfinished ...>',
                '7 read(3, "", 1) = 0',
                "7 kill(8, SIGKILL) = 0",
                "8 <... execve resumed>) = ?",
                "8 +++ killed by SIGKILL +++",
                END,
            ],
            [
                "2 pipe 0 0 1 = ok 0",
                "2 fork 3 = ok 3",
                "2 close 4 = ok 0",
                "3 close 4",
                "2 read 3 0 1 = ok 0",
                "2 kill 3 KILL = ok 0",
                "3 deliver KILL = ended",
                "2 exit 0 = ended",
                "1 waitpid 3 nohang",
                "1 waitpid 2 nohang",
            ],
        )

    def test_a_process_kills_its_own_group(self):
        self.check(
            [
                FORK,
                "8 setsid() = 8",
                "8 clone(child_stack=NULL, flags=SIGCHLD) = 9",
                "8 kill(0, SIGKILL) = ?",
                "8 +++ killed by SIGKILL +++",
                "9 +++ killed by SIGKILL +++",
                END,
            ],
            [
                "2 fork 3 = ok 3",
                "3 fork 4 = ok 4",
                "3 kill 4 KILL",
                "3 kill 3 KILL",
                "3 deliver KILL = ended",
                "4 deliver KILL = ended",
                "1 waitpid 4 nohang",
                "2 exit 0 = ended",
                "1 waitpid 3 nohang",
                "1 waitpid 2 nohang",
            ],
        )

    def test_a_call_waits_with_another_mask(self):
        self.check(
            [
                f"7 rt_sigaction(SIGALRM, {HANDLER}",
                "7 rt_sigprocmask(SIG_BLOCK, [ALRM], [], 8) = 0",
                "7 rt_sigsuspend([], 8) = ? ERESTARTNOHAND (To be restarted if no handler)",
                "7 --- SIGALRM {si_signo=SIGALRM, si_code=SI_KERNEL} ---",
                "7 rt_sigreturn({mask=[ALRM]}) = -1 EINTR (Interrupted system call)",
                "7 ppoll(NULL, 0, {tv_sec=0, tv_nsec=9}, [], 8) = 0 (Timeout)",
                "7 rt_sigpending([], 8) = 0",
                END,
            ],
            [
                "2 sigaction ALRM catch 1000 - = ok 0",
                "2 sigprocmask block ALRM = ok 0",
                "2 sigprocmask set -",
                "1 kill 2 ALRM",
                "2 deliver ALRM = ok 0",
                "2 sigreturn",
                "2 sigprocmask set ALRM",
                "2 sigprocmask set -",
                "2 sigprocmask set ALRM",
                "2 sigpending = ok 0",
                "2 exit 0 = ended",
                "1 waitpid 2 nohang",
            ],
        )

    def test_a_signal_that_is_taken_is_pending_no_more(self):
        self.check(
            [
                "7 rt_sigprocmask(SIG_BLOCK, [USR1], NULL, 8) = 0",
                "7 kill(7, SIGUSR1) = 0",
                "7 rt_sigpending([USR1], 8) = 0",
                "7 rt_sigtimedwait([USR1], {si_signo=SIGUSR1}, NULL, 8) = 10 (SIGUSR1)",
                "7 rt_sigpending([], 8) = 0",
                END,
            ],
            [
                "2 sigprocmask block USR1 = ok 0",
                "2 kill 2 USR1 = ok 0",
                "2 sigpending = ok 1024",
                "2 sigaction USR1 ignore",
                "2 sigaction USR1 default",
                "2 sigpending = ok 0",
                "2 exit 0 = ended",
                "1 waitpid 2 nohang",
            ],
        )

    def test_handlers_that_jump_give_their_frames_up(self):
        catch = "7 --- SIGALRM {si_signo=SIGALRM, si_code=SI_KERNEL} ---"
        unblock = "7 rt_sigprocmask(SIG_SETMASK, [], NULL, 8) = 0"
        action = f"7 rt_sigaction(SIGALRM, {HANDLER}"
        made = record(action, *[catch, unblock] * 6, END)
        texts = [it.text for it in made.steps]
        self.assertEqual(texts.count("2 deliver ALRM"), 6)
        self.assertEqual(texts.count("2 sigreturn"), 2)

    def test_signals_that_the_kernel_lacks(self):
        made = self.check(
            [
                "7 rt_sigaction(SIGWINCH, {sa_handler=SIG_IGN, sa_mask=[], sa_flags=0}, NULL, 8) = 0",
                "7 --- SIGWINCH {si_signo=SIGWINCH, si_code=SI_KERNEL} ---",
                "7 kill(7, SIGCONT) = 0",
                "7 --- SIGSEGV {si_signo=SIGSEGV, si_code=SEGV_MAPERR, si_addr=NULL} ---",
                "7 +++ killed by SIGSEGV +++",
            ],
            ["2 exit 139 = ended", "1 waitpid 2 nohang"],
        )
        self.assertEqual(
            self.left_out(made),
            {
                "action of SIGWINCH, which the kernel lacks": (1, 2),
                "signal SIGWINCH, which the kernel lacks": (1, 3),
                "kill with SIGCONT": (1, 4),
                "signal SIGSEGV, which the kernel lacks": (1, 5),
                "end by SIGSEGV, which the kernel lacks": (1, 6),
            },
        )

    def test_a_realtime_signal(self):
        self.check(
            [
                f"7 rt_sigaction(SIGRT_2, {HANDLER}",
                "7 tgkill(7, 7, SIGRT_2) = 0",
                "7 --- SIGRT_2 {si_signo=SIGRT_2, si_code=SI_TKILL, si_pid=7, si_uid=0} ---",
                "7 rt_sigreturn({mask=[]}) = 0",
                END,
            ],
            [
                "2 sigaction 34 catch 1000 - = ok 0",
                "2 kill 2 34 = ok 0",
                "2 deliver 34",
                "2 sigreturn",
                "2 exit 0 = ended",
                "1 waitpid 2 nohang",
            ],
        )

    def test_a_deadly_signal_whose_process_goes_on_is_reported(self):
        with self.assertRaisesRegex(Fault, "line 2: SIGTERM does not end process 7"):
            record("7 --- SIGTERM {si_signo=SIGTERM, si_code=SI_KERNEL} ---", "7 close(0) = 0", END)


if __name__ == "__main__":
    unittest.main()
