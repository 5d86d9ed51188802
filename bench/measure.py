#!/usr/bin/env python3
"""Runs a program on a file, and prints its status, its seconds, the megabytes that it took at most, and the processor's seconds.

usage: measure.py STACK IN OUT PROGRAM [ARGUMENT ..]

STACK is the size of its stack in bytes, or 0 for the machine's default. OUT is the file that gets what it prints, or `-`:
then this is read from a pipe and dropped, so that no disk is measured. A run that takes too long is killed, and its status
says so. Other scripts call `measured`, which runs this one: the memory of a program counts from the size of the process that
starts it, so that process has to be small.
"""
import os
import resource
import signal
import subprocess
import sys
import time
from typing import NamedTuple

LIMIT = 600  # the time limit of a run in seconds
PIPED = "-"  # instead of a file: what the program prints goes through a pipe
CHUNK = 1 << 20  # bytes that are read from a pipe at once


class Measured(NamedTuple):
    status: object  # a number, or why there is none
    seconds: float
    megabytes: int
    processor: float = 0  # seconds of the processor


def measured(command, given, printed, stack=None):
    """Runs a command on the file `given`, and writes what it prints to the file `printed`, or drops it (`PIPED`)."""
    words = [sys.executable, __file__, str(stack or 0), given, printed, *command]
    ended = subprocess.run(words, stdout=subprocess.PIPE, stderr=subprocess.PIPE)
    if ended.returncode != 0:
        return Measured("not started, or no answer: " + ended.stderr.decode(errors="replace").strip()[-200:], 0, 0)
    status, seconds, megabytes, processor = ended.stdout.split()
    return Measured(int(status), float(seconds), int(megabytes), float(processor))


def set_limits(stack):
    resource.setrlimit(resource.RLIMIT_CORE, (0, 0))
    if stack:
        resource.setrlimit(resource.RLIMIT_STACK, (stack, stack))


def main():
    stack, given, printed, *command = sys.argv[1:]
    with open(given, "rb") as source, open(os.devnull if printed == PIPED else printed, "wb") as file:
        sink = subprocess.PIPE if printed == PIPED else file
        begun = time.monotonic()
        program = subprocess.Popen(command, stdin=source, stdout=sink, preexec_fn=lambda: set_limits(int(stack)))
        signal.signal(signal.SIGALRM, lambda *_: program.kill())
        signal.alarm(LIMIT)
        while program.stdout and program.stdout.read(CHUNK):
            pass
        _, status, used = os.wait4(program.pid, 0)
        seconds, processor = time.monotonic() - begun, used.ru_utime + used.ru_stime
        print(os.waitstatus_to_exitcode(status), f"{seconds:.3f}", used.ru_maxrss // 1024, f"{processor:.3f}")


if __name__ == "__main__":
    main()
