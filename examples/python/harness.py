#!/usr/bin/env python3
"""A test harness over one kernel: each test begins at the same state, and nothing is started anew.

The steps that all tests begin with are made once. After each test the harness goes back to that
position, over what the test did, its commits and aborts too, and lets go of it. Two of the tests
are wrong, to show what is said of them.

usage: PYTHONPATH=python python3 examples/python/harness.py
After `pip install ./python` it needs no PYTHONPATH.
"""

from txos import Kernel

# Process 2 has a page with "abc", and a pipe: it reads from descriptor 0 and writes to 1.
SETUP = ["2 map 0", '2 store 0 "abc"', "2 pipe 0 0 1"]


def equal(found, wanted):
    if found != wanted:
        raise AssertionError(f"{found!r} in place of {wanted!r}")


def bytes_leave_in_order(kernel):
    """what is written first is read first"""
    kernel.step("2 write 1 0 3")
    kernel.step("2 read 0 32 2")
    equal(kernel.state().procs[2].pages[0].bytes[32:35], b"ab\0")


def empty_pipe_waits(kernel):
    """a read waits while the pipe is empty"""
    equal(kernel.try_step("2 read 0 0 1").refused.code, "N9")


def last_part_commits(kernel):
    """the last part that ends commits"""
    kernel.step("2 sys_xbegin")
    kernel.step("2 fork 3")
    equal(kernel.step("2 sys_xend").kind, "ok")
    equal(kernel.step("3 exit 0").kind, "committed")


def abort_empties_the_pipe(kernel):
    """an abort takes back what was written to a pipe"""
    kernel.step("2 sys_xbegin")
    kernel.step("2 write 1 0 3")
    kernel.step("2 sys_xabort")
    equal(kernel.state().pipes, {0: b""})


def signal_to_first(kernel):
    """wrong: a signal to process 1 is pending"""
    kernel.step("2 kill 1 USR1")
    equal(kernel.state().procs[1].pending, (10,))


def process_3_is_there(kernel):
    """wrong: process 3 can do something without a fork"""
    kernel.step("3 getpid")


TESTS = [
    bytes_leave_in_order,
    empty_pipe_waits,
    last_part_commits,
    abort_empties_the_pipe,
    signal_to_first,
    process_3_is_there,
]


def fault_of(kernel, test):
    """What is wrong with a test, and the steps that it made; the kernel is left as it was."""
    start = kernel.position
    try:
        test(kernel)
        return None
    except Exception as error:
        steps = [f"        {it.step}: {it.reply}" for it in kernel.steps()[start:]]
        return "\n".join([f"        {error}", *steps])
    finally:
        kernel.goto(start)
        kernel.cut()


def main():
    with Kernel(processes=2) as kernel:
        for line in SETUP:
            kernel.step(line)
        before = kernel.state()
        for test in TESTS:
            fault = fault_of(kernel, test)
            print(f"{'FAILED' if fault else 'passed'}  {test.__doc__}")
            if fault:
                print(fault)
            equal(kernel.state(), before)
        print(f"position {kernel.position}, and the state that each test began with")


if __name__ == "__main__":
    main()
