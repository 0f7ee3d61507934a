#!/usr/bin/env python3
"""An installer's idea, tried against the rules of transactions: all of it, or nothing.

Process 2 installs a new version over the old one, in a transaction: it writes its pages, asks the
service, process 3, to begin anew, and lets a child look whether all is there. The first time it
forgets the configuration; so it looks what would be left, takes all back, and does it again.

usage: PYTHONPATH=python python3 examples/python/installer.py
After `pip install ./python` it needs no PYTHONPATH.
"""

from txos import Kernel, Refused

OLD = ["2 map 0", '2 store 0 "app 1.0"', "3 sigaction USR1 catch 7 -"]
NEW = ['2 store 0 "app 2.0"']
CONFIGURATION = ["2 map 1", '2 store 64 "log=on"']


def version(kernel):
    """What is installed: the text on page 0 of process 2."""
    return kernel.state().procs[2].pages[0].bytes.rstrip(b"\0").decode()


def install(kernel, writes):
    """Begins a transaction and installs in it; whether the child finds all in its place."""
    for line in ["2 sys_xbegin", *writes, "2 kill 3 USR1", "2 fork 4"]:
        kernel.step(line)
    byte = kernel.step("4 load 64").ret
    kernel.step(f"4 exit {int(byte < 0)}")
    kernel.step("2 waitpid 4 wait")
    status = kernel.state().procs[2].slots[0]
    print(f"  the child is answered {byte} for the first byte of the configuration: exit {status}")
    return status == 0


def show(title, difference):
    print(f"  {title}")
    for mark, lines in (("-", difference.gone), ("+", difference.come)):
        for line in lines:
            print(f"    {mark} {line}")


def main():
    with Kernel(processes=3) as kernel:
        for line in OLD:
            kernel.step(line)
        print(f"installed: {version(kernel)}")

        print("process 2 installs, and forgets the configuration")
        install(kernel, NEW)
        try:
            kernel.step("1 waitpid 2 nohang")
        except Refused as refused:
            print(f"  nobody may look at it meanwhile: {refused}")
        trial = kernel.try_step("2 sys_xend")
        show(f"its end now would be answered {trial.reply}, and would change", trial)
        show("an abort by the kernel would change", kernel.without(2))
        print(f"  so it takes all back: {kernel.step('2 sys_xabort')}")
        print(f"installed: {version(kernel)}")

        print("process 2 installs again")
        if install(kernel, NEW + CONFIGURATION):
            print(f"  and ends its part: {kernel.step('2 sys_xend')}")
        print(f"installed: {version(kernel)}")
        print(f"the service hears of it only now: {kernel.step('3 deliver USR1')}")
        print(f"  it goes on at point {kernel.state().procs[3].point}")
        found = kernel.when("page 2 0")
        print(f"what is installed was written by step {found.number}: {found.step}")


if __name__ == "__main__":
    main()
