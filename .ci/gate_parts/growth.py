"""How much longer programs take on an input that is FACTOR times as large: a part of `gate bench`.

Seconds are of processor, for the whole process, so that what else runs counts little. The start of a process is not
taken off: it takes a thousandth of a second, and what takes less than SHORTEST in all is too short. A program whose
time is the square of the size takes 16 times as long, and one that takes no notice of the size takes as long as before.
"""
import math
import os
import resource

from floors import GROWTH
from gate_parts.draw import SEED, Draw
from gate_parts.programs import Case, chosen, run
from gate_parts.tree import crate_folder

FACTOR, LEAST, MOST = 4, 2, 8
# How often each size runs, by turns. Of its times the least counts. Where these say that a program takes too long or
# not long enough, up to MOST_TURNS are taken: a machine that was slow for a while is no fault of the program, and one
# whose order of growth is another is seen by any number of turns.
TURNS, MOST_TURNS = 3, 12
SHORTEST = .01
INPUTS = 2
WORDS_OF_A_LINE = 8


def text_of_words(size):
    """As many lines, each of one word many times over. Some two thirds of these are different ones."""
    draw = Draw(SEED)
    return ''.join(f'word{draw.randrange(size)} ' * WORDS_OF_A_LINE + '\n' for _ in range(size)).encode()


def case_of(job, size):
    """The run of a job of `jobs` on inputs of this size; with no job, that of `word_index`."""
    return Case(job, [job, '1', str(size), str(INPUTS)]) if job else Case('', ['--top', '10'], text_of_words(size))


def seconds():
    """What all processes that were started and have ended took of the processor."""
    used = resource.getrusage(resource.RUSAGE_CHILDREN)
    return used.ru_utime + used.ru_stime


def is_within(small, large):
    """Whether these seconds, of the smaller size and of the larger, are as they must be."""
    return small >= SHORTEST and LEAST <= large / small <= MOST


def by_turns(program, cases):
    """Of each of two cases the least seconds, and all that it printed with its status."""
    least, answers = [math.inf] * len(cases), [set() for _ in cases]
    for turn in range(MOST_TURNS):
        if turn >= TURNS and is_within(*least):
            break
        for place, case in enumerate(cases):
            before = seconds()
            answers[place].add(run(program, case))
            least[place] = min(least[place], seconds() - before)
    return least, answers


def faults_of(name, program, sizes):
    """In words, what a program does at these sizes that it must not. How long it takes is printed."""
    job = name.partition(' ')[2]
    (small, large), answers = by_turns(program, [case_of(job, size) for size in sizes])
    for size, given in zip(sizes, answers):
        if len(given) > 1 or any(status or not output for output, status in given):
            yield f'{name}: FAILED: at {size:,} it must end with 0 and print the same, and it gives {given}'
    times_as_long = large / max(small, SHORTEST)
    print(f'{name}: {small:.3f} s at {sizes[0]:,}, {large:.3f} s at {sizes[1]:,}: {times_as_long:.1f} times as long')
    if small < SHORTEST:
        yield f'{name}: FAILED: {small:.3f} s are too short to be compared'
    elif not is_within(small, large):
        yield f'{name}: FAILED: {times_as_long:.1f} times as long, and it must be from {LEAST} to {MOST}'


def programs():
    """By name of a row, its program as LLVM builds it. The order of growth is the source's in both builds."""
    crates = {name: name.split()[0] for name in GROWTH}
    paths = {name: os.path.join(crate_folder(crate), 'out', crate) for name, crate in crates.items()}
    chosen(paths.values(), '')
    return paths


def growth_faults():
    """In words, which programs take another time than they must, or answer as they must not."""
    return [fault for name, program in programs().items()
            for fault in faults_of(name, program, (GROWTH[name], FACTOR * GROWTH[name]))]
