"""Tests of reading what strace wrote: each form of a line, and what is said of a log at fault."""

import unittest

from txos.faults import Fault
from txos.host.strace import Begun, Call, Done, End, Signal, bytes_of, read_log, split_args

START = '7 execve("/bin/true", ["true"], 0x7ffc /* 9 vars */) = 0'
END = "7 +++ exited with 0 +++"


def events(*lines):
    return read_log([f"{it}\n" for it in (START, *lines, END)])[2:-1]


def call(event):
    """What a test compares of a call."""
    it = event.call
    return it.name, it.args, it.result, it.error, it.start, it.end


class Lines(unittest.TestCase):
    def test_a_call_in_one_line_starts_and_ends_there(self):
        begun, done = events('7 read(3, "a, b) = 3", 10) = 8')
        self.assertIs(begun.call, done.call)
        self.assertEqual(call(done), ("read", ("3", '"a, b) = 3"', "10"), 8, "", 2, 2))

    def test_calls_of_two_tasks_go_on_at_once(self):
        found = events(
            "7 pipe2( <unfinished ...>",
            '8 openat(AT_FDCWD, "x", O_RDONLY) = -1 ENOENT (No such file or directory)',
            "7 <... pipe2 resumed>[3, 4], O_CLOEXEC) = 0",
            "8 +++ exited with 0 +++",
        )
        self.assertEqual([type(it) for it in found], [Begun, Begun, Done, Done, End])
        self.assertEqual(call(found[3]), ("pipe2", ("[3, 4]", "O_CLOEXEC"), 0, "", 2, 4))

    def test_a_call_that_goes_on_is_one_call(self):
        found = events("7 close(3 <unfinished ...>", "7 <... close resumed>) = 0")
        self.assertEqual([type(it) for it in found], [Begun, Done])
        self.assertEqual(call(found[1]), ("close", ("3",), 0, "", 2, 3))

    def test_errors_and_results_of_each_kind(self):
        results = {
            "-1 EBADF (Bad file descriptor)": (-1, "EBADF"),
            "? ERESTARTSYS (To be restarted if SA_RESTART is set)": (None, "ERESTARTSYS"),
            "0x7f00": (0x7F00, ""),
            "022": (18, ""),
            "1 ([{fd=3, revents=POLLIN}])": (1, ""),
        }
        for spelled, wanted in results.items():
            found = events(f"7 poll(x) = {spelled}")[1].call
            self.assertEqual((found.result, found.error), wanted)

    def test_a_call_that_its_process_did_not_survive_has_no_end(self):
        for lines in (
            ["7 exit_group(3) = ?"],
            ["7 read(0,  <unfinished ...>"],
            ["7 read(0,  <unfinished ...>) = ?"],
            ["7 read(0,  <unfinished ...>", "7 <... read resumed> <unfinished ...>) = ?"],
        ):
            found = events(*lines)
            self.assertEqual([type(it) for it in found], [Begun])
            self.assertIsNone(found[0].call.end)

    def test_signals_and_ends(self):
        found = events(
            "7 --- SIGCHLD {si_signo=SIGCHLD, si_code=CLD_EXITED, si_pid=8, si_status=0} ---",
            "7 --- stopped by SIGTTIN ---",
        )
        self.assertEqual(found, [Signal(2, 7, "CHLD", 8)])
        killed = read_log([f"{START}\n", "7 +++ killed by SIGSEGV (core dumped) +++\n"])[-1]
        self.assertEqual(killed, End(2, 7, None, "SEGV"))

    def test_a_task_takes_the_number_of_the_first_one_as_it_executes(self):
        found = events(
            '8 execve("/bin/x", ["x"], 0x1 <unfinished ...>',
            "7 +++ superseded by execve in pid 8 +++",
            "7 <... execve resumed>) = 0",
        )
        self.assertEqual(found[-1].call.task, 7)

    def test_arguments_are_split_outside_of_strings_and_brackets(self):
        self.assertEqual(split_args('3, [{a, "b, ]"}], (c, d)'), ("3", '[{a, "b, ]"}]', "(c, d)"))
        self.assertEqual(split_args(""), ())

    def test_bytes_of_a_string(self):
        self.assertEqual(bytes_of(r'"a\n\t\\\"\0\1772\x41"'), b'a\n\t\\"\0\x7f2A')
        self.assertIsNone(bytes_of('"cut short"...'))
        self.assertIsNone(bytes_of("0x7ffc"))

    def test_a_number_of_an_argument(self):
        given = Call(7, "x", 1, ("-1", "0x10", "a"))
        self.assertEqual([given.number(it) for it in range(4)], [-1, 16, None, None])


class Faults(unittest.TestCase):
    def report(self, text):
        with self.assertRaises(Fault) as caught:
            read_log(text.splitlines(keepends=True))
        return str(caught.exception)

    def test_what_is_no_log(self):
        self.assertIn("line 1: the log is empty", self.report(""))
        self.assertIn("line 1: this is no line of strace", self.report("hello\n"))
        self.assertIn("line 2: this is no line of strace", self.report(f"{START}\n7 hello\n"))

    def test_a_log_that_begins_in_the_middle(self):
        self.assertIn(
            "line 1: the log does not begin with the execve", self.report("7 close(3) = 0\n")
        )

    def test_a_log_that_is_cut_off(self):
        self.assertIn("line 2: the log is cut off in this line", self.report(f"{START}\n7 close(3"))
        self.assertIn("line 1: the log is cut off here: process 7", self.report(f"{START}\n"))

    def test_a_call_that_lacks_its_start_or_its_end(self):
        report = self.report(f"{START}\n7 <... close resumed>) = 0\n")
        self.assertIn("line 2: close goes on here, and begins nowhere", report)
        report = self.report(f"{START}\n7 close(3 <unfinished ...>\n7 close(4) = 0\n")
        self.assertIn("line 3: process 7 has not ended its last call", report)

    def test_other_options(self):
        call = START[2:]
        options = {
            f"{call}\n": "no number of a process",
            f"7 12:00:01 {call}\n": "times: leave -r, -t",
            f"7 1700000000.5 {call}\n": "times: leave -r, -t",
            f"7      0.000010 {call}\n": "times: leave -r, -t",
            f"7 {call} <0.000012>\n": "leave -T out",
            f"7 [00007f12345678] {call}\n": "leave -i out",
            f"7 [  59] {call}\n": "leave -n out",
            f"{START}\n7 close(3</etc/passwd>) = 0\n": "leave -y and -yy out",
            f"{START}\n7 fcntl(3, 0x2, 0x1) = 0\n": "leave -X out",
        }
        for text, wanted in options.items():
            self.assertIn(wanted, self.report(text), text)


if __name__ == "__main__":
    unittest.main()
