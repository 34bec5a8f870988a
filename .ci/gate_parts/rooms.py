"""Rooms: copies of crates in which edits are tried, so that the tree itself is never changed."""
import os
import shutil
import tempfile
from concurrent.futures import ThreadPoolExecutor
from contextlib import ExitStack, contextmanager
from queue import SimpleQueue

from gate_parts.tree import (
    TOP, Failure, below, crate_folder, in_tree, run_in, text_of, with_those_below, write_text)

# Read by `rt` beside the crates.
AT_THE_TOP = ('crates.txt', 'HANDLES')


def said_of(top, crate, jobs, functions=(), command='check'):
    """What a check of the crate prints, or of these functions of it, and whether they are proved."""
    only = [word for function in functions for word in ('--only', function)]
    said, status = run_in(crate_folder(crate, top), 'rt', command, '--jobs', str(jobs), *only)
    return said, status == 0


def require_proof(top, crate, jobs, functions=()):
    """The crate, a library, is proved there and built, or else these functions of it are proved; what is kept
    of it in out/ serves later checks."""
    said, is_well = said_of(top, crate, jobs, functions, 'check' if functions else 'lib')
    if not is_well:
        raise Failure(f'{crate} is not proved as it is:\n{said}')


def require_libraries(jobs, crates):
    """The same of those of these crates that others stand on, and of all that they stand on, one at a time, since
    each check keeps the others out of it."""
    for crate in sorted(with_those_below(crates) & below(os.listdir(in_tree('crates')))):
        require_proof(TOP, crate, jobs)


def require_proofs(jobs, functions):
    """The same of the functions of each of these crates, and whole of those on which others of them stand."""
    whole = below(functions)
    for crate in sorted(functions, key=lambda crate: (crate not in whole, crate)):
        require_proof(TOP, crate, jobs, () if crate in whole else functions[crate])


@contextmanager
def copies(crates, count):
    """So many copies of the crates and of all below them, with what their checks have kept; of the others
    only what `rt` may look at."""
    kept = with_those_below(crates)
    with tempfile.TemporaryDirectory(prefix='gate-') as place:
        tops = [os.path.join(place, str(number)) for number in range(count)]
        for top in tops:
            for crate in os.listdir(os.path.join(TOP, 'crates')):
                left_out = shutil.ignore_patterns(*(() if crate in kept else ('out',)))
                shutil.copytree(crate_folder(crate), crate_folder(crate, top), symlinks=True, ignore=left_out)
            for name in AT_THE_TOP:
                shutil.copy2(os.path.join(TOP, name), os.path.join(top, name))
        yield tops


def tried_in_copies(crates, jobs, work, tasks):
    """What `work` answers of each task and a copy of the crates that no other task uses meanwhile."""
    if not tasks:
        raise Failure('nothing has that name')
    free = SimpleQueue()

    def tried(task):
        top = free.get()
        try:
            return work(top, task)
        finally:
            free.put(top)

    with copies(crates, min(jobs, len(tasks))) as tops, ThreadPoolExecutor(len(tops)) as pool:
        for top in tops:
            free.put(top)
        return list(pool.map(tried, tasks))


class Room(ExitStack):
    """A crate of a copy, whose files are changed for a while: `with` gives them their own texts again."""

    def __init__(self, top, crate):
        super().__init__()
        self.folder = crate_folder(crate, top)

    def text(self, path):
        """What the file has now; None where there is none."""
        whole = os.path.join(self.folder, path)
        return text_of(whole) if os.path.exists(whole) else None

    def write(self, texts):
        """Gives files these texts, or takes those away that are to have none."""
        for path, text in texts.items():
            whole, before = os.path.join(self.folder, path), self.text(path)
            self.callback(*((os.remove, whole) if before is None else (write_text, whole, before)))
            os.makedirs(os.path.dirname(whole), exist_ok=True)
            os.remove(whole) if text is None else write_text(whole, text)

    def add(self, path, text):
        """Adds to a file that the crate has or lacks."""
        self.write({path: (self.text(path) or '') + text})
