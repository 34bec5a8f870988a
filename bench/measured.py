"""What a program of `bench/growth` prints, how long it takes and how much memory it has."""
import fcntl
import os
import re
import subprocess
import time
from typing import NamedTuple

from turns import Stopped

# As <fcntl.h> has it; Python's module has no name for it before 3.10.
F_SETPIPE_SZ, PAGE = 1031, os.sysconf('SC_PAGE_SIZE')


class Measured(NamedTuple):
    output: bytes
    seconds: float
    peak: int


def full_pipe():
    """A pipe that has no space for another byte, until it is read."""
    reading, writing = os.pipe()
    fcntl.fcntl(writing, F_SETPIPE_SZ, PAGE)
    os.write(writing, bytes(PAGE))
    return reading, writing


def peak_when_it_waits(process):
    """The most bytes of memory that a program has had, as soon as it waits to print. `ru_maxrss` can't say this: it
    begins with what the process had that started the program.
    """
    while True:
        with open(f'/proc/{process.pid}/status', encoding='utf-8') as reading:
            status = reading.read()
        if re.search(r'State:\s+S', status):
            return 1024 * int(re.search(r'VmHWM:\s+(\d+) kB', status)[1])
        if re.search(r'State:\s+Z', status):
            raise Stopped(f'{" ".join(process.args)}: it ended without a digest')
        time.sleep(.001)


def measured(command):
    """Seconds are of processor, for the whole process."""
    reading, writing = full_pipe()
    process = subprocess.Popen(command, stdin=subprocess.DEVNULL, stdout=writing)
    os.close(writing)
    with open(reading, 'rb') as piped:
        peak = peak_when_it_waits(process)
        output = piped.read()[PAGE:]
    _, process.returncode, used = os.wait4(process.pid, 0)
    if process.returncode:
        raise Stopped(f'{" ".join(command)}: it failed after its digest')
    return Measured(output, used.ru_utime + used.ru_stime, peak)


def by_turns(commands, turns):
    """By name of a command what it prints, its least seconds and its greatest memory. They take turns, and every other
    turn goes the other way.
    """
    found = {}
    for turn in range(turns):
        for name in sorted(commands, key=list(commands).index, reverse=turn % 2 == 1):
            now = measured(commands[name])
            before = found.get(name, now)
            if now.output != before.output:
                raise Stopped(f'{" ".join(commands[name])}: its output differs between turns')
            found[name] = Measured(now.output, min(now.seconds, before.seconds), max(now.peak, before.peak))
    return found


def same_digest(what, found):
    """Stops where two of these printed another digest."""
    if len({each.output for each in found.values()}) > 1:
        raise Stopped(f'{what}: the digests differ: {({name: each.output for name, each in found.items()})}')
