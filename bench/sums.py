"""The checksum of each workload, as Rust's own `String` gives it: a line each of the file `sums`."""
import os

from workloads import AT_CAPACITIES, WORKLOADS

STORED = os.path.join(os.path.dirname(os.path.abspath(__file__)), 'sums')
EACH = (*WORKLOADS, *AT_CAPACITIES)


class BadSums(Exception):
    """The stored sums are not those of the workloads."""


def words_of(workload, text, rounds=None):
    """The arguments of a program; the sums are those of the greater number of rounds."""
    return [text, workload.word, str(workload.width), str(rounds or workload.rounds[1])]


def stored_sums():
    """By name of a workload, its sum. Each workload has one, and no other name has.

    Workloads of one name differ in the types of text alone.
    """
    sums = {}
    with open(STORED, encoding='utf-8') as reading:
        for line in reading:
            number, _, name = line.rstrip('\n').partition(' ')
            sums[name] = int(number)
    wrong = sums.keys() ^ {workload.name for workload in EACH}
    if wrong:
        raise BadSums(f'{STORED}: missing, or of no workload: {", ".join(sorted(wrong))}')
    empty = [name for name, number in sums.items() if number == 0]
    if empty:
        raise BadSums(f'{STORED}: nothing was summed: {", ".join(sorted(empty))}')
    return sums


def store(sums):
    with open(STORED, 'w', encoding='utf-8') as writing:
        writing.writelines(f'{number} {name}\n' for name, number in sums.items())
