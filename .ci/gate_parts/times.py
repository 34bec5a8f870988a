"""gate times CRATE [--test] [--only PATH]: what each function of a crate costs to prove, from nothing.

It is checked in a copy by one job. --test checks its tests too; --only takes a function, a module or a type.
"""
import os
import re
import shutil
import subprocess
from glob import glob

from gate_parts.rooms import copies
from gate_parts.tree import crate_folder, text_of, write_text

OPTIONS = 'crate --test --only'
# A function that is done, and the line before the first.
CHECKED = re.compile(r'^checked (\S+), \d+ of \d+$|^so far: 0 of')


def ticks(process):
    """What a process and all that it started have taken of the processor so far."""
    try:
        own = text_of(f'/proc/{process}/stat').rpartition(')')[2].split()[11:15]
        started = ' '.join(map(text_of, glob(f'/proc/{process}/task/*/children'))).split()
    except OSError:  # it has ended, and is in the ticks of what started it
        return 0
    return sum(map(int, own)) + sum(map(ticks, started))


def timed(folder, words):
    """By function of a copied crate, the seconds that its check takes of the processor."""
    root = next(path for path in (f'{folder}/src/lib.rt', f'{folder}/src/main.rt') if os.path.exists(path))
    # so that it begins from nothing: a text that is like no other's, and nothing kept
    write_text(root, text_of(root) + '// timed\n')
    shutil.rmtree(f'{folder}/out', ignore_errors=True)
    os.makedirs(f'{folder}/out/incremental')
    costs, last = {}, 0
    with subprocess.Popen(['rt', 'check', '--jobs', '1', '--progress', *words], cwd=folder, encoding='utf-8',
                          errors='replace', stdout=subprocess.PIPE, stderr=subprocess.STDOUT) as check:
        for found in filter(None, map(CHECKED.match, check.stdout)):
            now = ticks(check.pid) / os.sysconf('SC_CLK_TCK')
            costs[found[1] or 'before the first function'], last = now - last, now
    return costs


def main(given):
    with copies([given.crate], 1) as (room,):
        costs = timed(crate_folder(given.crate, room),
                      ['--test'] * given.test + ['--only', given.only] * bool(given.only))
    for function, seconds in sorted(costs.items(), key=lambda each: -each[1]):
        print(f'{seconds:7.1f} s  {function}')
    print(f'{sum(costs.values()):7.1f} s  in all')
    return bool(costs)
