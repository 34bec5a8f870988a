"""The builds of a program, and a run of it with the standard streams that a case asks for."""
import os
import subprocess
import threading
import time
from contextlib import suppress
from dataclasses import dataclass
from multiprocessing import get_context

from gate_parts.tree import PROCESSORS, Failure, crate_folder

# A program that does not end in so many seconds is killed.
SECONDS = 100
# How the standard streams are, where they are not files in memory.
STREAMS = ('stdin-dir', 'stdin-zero', 'stdin-pipe', 'stdout-full', 'stdout-closed')


@dataclass
class Case:
    """A run: what it is given, and what it must write and end with. The words are strings or bytes."""
    name: str
    words: list = ()
    input: bytes = b''
    io: str = ''
    output: bytes = b''
    status: object = None


def chosen(words, crate):
    """The paths of the programs that these words name, by name, or else of the two that `rt ci` builds."""
    made = os.path.join(crate_folder(crate), 'out', crate)
    named = {word: os.path.abspath(word) for word in words} or {'llvm': made, 'rattle': made + '.by-rattle'}
    for path in named.values():
        if not (os.path.isfile(path) and os.access(path, os.X_OK)):
            raise Failure(f'{path} is not there: `rt ci` builds both programs')
    return named


def run(program, case):
    """What one run prints, to either output, and its exit status; this is in words where it did not end."""
    stdin, feed = input_of(case)
    output = os.memfd_create('output')
    stdout = os.open('/dev/full', os.O_WRONLY) if case.io == 'stdout-full' else os.dup(
        UNREAD if case.io == 'stdout-closed' else output)
    try:
        if feed is not None:
            threading.Thread(target=feed_in_parts, args=(feed, case.input), daemon=True).start()
        status = subprocess.run([program, *case.words], stdin=stdin, stdout=stdout, stderr=output,
                                timeout=SECONDS, check=False).returncode
    except subprocess.TimeoutExpired:
        status = 'too slow'
    finally:
        os.close(stdin)
        os.close(stdout)
    with os.fdopen(output, 'rb') as written:
        written.seek(0)
        return written.read(), status


def input_of(case):
    """The standard input, and where it is a pipe, its other end."""
    if case.io == 'stdin-pipe':
        return os.pipe()
    if case.io in ('stdin-dir', 'stdin-zero'):
        return os.open('/' if case.io == 'stdin-dir' else '/dev/zero', os.O_RDONLY), None
    file = os.memfd_create('input')
    os.write(file, case.input)
    os.lseek(file, 0, os.SEEK_SET)
    return file, None


def feed_in_parts(pipe, data):
    """The first byte, then the rest in four parts."""
    step = len(data) // 4 + 1
    with suppress(BrokenPipeError):
        for part in (data[:1], *(data[at:at + step] for at in range(1, len(data), step))):
            os.write(pipe, part)
            time.sleep(.001)
    os.close(pipe)


def all_runs(work, items, at_once=1):
    """What `work` answers of each item, in order."""
    with get_context('fork').Pool(PROCESSORS) as pool:
        yield from pool.imap(work, items, at_once)


# Closed before there are threads or further processes, so that none ever holds the reading end.
READING, UNREAD = os.pipe()
os.close(READING)
