"""How long the workloads of `workloads.txt` take in two built checkouts, by turns.

A line of `workloads.txt` is a name, a crate and words. It runs `crates/CRATE/out/CRATE`, as `rt run` builds it,
with these words, in the folder `bench` of its checkout. SEED stands for a number that determines the input, and a
last word <FILE for a file of that folder, which the program then has as its standard input.
"""
import os
import statistics
import subprocess
import time

LISTED, TURNS, LARGEST_SEED = 'workloads.txt', 11, 2 ** 32 - 1


class Stopped(Exception):
    """A program failed, or gave another output than in the turn before."""


def listed(folder):
    """Each workload: its name, its crate and its words."""
    with open(os.path.join(folder, 'bench', LISTED), encoding='utf-8') as reading:
        lines = [line.split() for line in reading]
    return [(name, crate, words) for name, crate, *words in lines]


def command_of(folder, crate, words, seed):
    """What a workload runs in a checkout, and the file that it reads, if it reads one."""
    words = [str(seed) if word == 'SEED' else word for word in words]
    bench, reads = os.path.join(folder, 'bench'), None
    if words and words[-1].startswith('<'):
        reads = os.path.join(bench, words.pop()[1:])
    return [os.path.join(folder, 'crates', crate, 'out', crate), *words], bench, reads


def ran(command, bench, reads):
    """What a program prints, and the seconds until it has ended."""
    with open(reads or os.devnull, 'rb') as reading:
        begin = time.perf_counter()
        done = subprocess.run(command, cwd=bench, stdin=reading, stdout=subprocess.PIPE)
        taken = time.perf_counter() - begin
    if done.returncode != 0:
        raise Stopped(f'{" ".join(command)}: status {done.returncode}')
    return done.stdout, taken


def medians(name, commands):
    """The median seconds of each command. They take turns, and each is the first in every other turn."""
    outputs, times = set(), [[] for _ in commands]
    for turn in range(TURNS):
        for place in sorted(range(len(commands)), reverse=turn % 2 == 1):
            output, taken = ran(*commands[place])
            outputs.add(output)
            times[place].append(taken)
            if len(outputs) > 1:
                raise Stopped(f'{name}: the outputs differ: {sorted(outputs)}')
    return [statistics.median(each) for each in times]


def compare(old, new, seed):
    """Prints a row for each workload as soon as it has run."""
    folders = [os.path.abspath(folder) for folder in (old, new)]
    print(f'By turns, {TURNS} of each, seed {seed}; load {os.getloadavg()[0]:.1f} before them.\n')
    print('| workload | seconds in OLD | seconds in NEW | OLD over NEW |\n|---|---|---|---|')
    for name, crate, words in listed(new):
        commands = [command_of(folder, crate, words, seed) for folder in folders]
        before, after = medians(name, commands)
        print(f'| {name} | {before:.3f} | {after:.3f} | {before / after:.2f} |', flush=True)
