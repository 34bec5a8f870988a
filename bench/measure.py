"""What a program of the bench answers, how many instructions it takes and how long."""
import os
import re
import shutil
import subprocess
import tempfile

from sums import words_of

COUNTED = re.compile(r'I +refs: +([\d,]+)')


class WrongSum(Exception):
    """A program failed, or its checksum is not the stored one."""


def input_file(workload):
    file = tempfile.TemporaryFile()
    file.write(workload.drawn())
    file.flush()
    return file


def ran(command, workload, **how):
    with input_file(workload) as reading:
        reading.seek(0)
        return subprocess.run(command, stdin=reading, stdout=subprocess.PIPE, encoding='utf-8',
                              **how)


def command_of(peer, workload, rounds=None):
    return [peer.program(workload.word), *words_of(workload, peer.text, rounds)]


def sum_of(peer, workload):
    """The checksum that a program prints, or None where it fails."""
    answer = ran(command_of(peer, workload), workload)
    return int(answer.stdout) if answer.returncode == 0 else None


def checked(peer, workload, sums):
    given = sum_of(peer, workload)
    if given != sums[workload.name]:
        raise WrongSum(f'{workload.name}: {peer.title} on {peer.text} gives {given}, '
                       f'and {sums[workload.name]} is stored')


def by_valgrind(command, workload):
    words = ['valgrind', '--tool=cachegrind', '--cache-sim=no', f'--cachegrind-out-file={os.devnull}', *command]
    answer = ran(words, workload, stderr=subprocess.PIPE)
    return int(COUNTED.search(answer.stderr)[1].replace(',', ''))


def by_perf(command, workload):
    words = ['perf', 'stat', '-x,', '-e', 'instructions:u', *command]
    answer = ran(words, workload, stderr=subprocess.PIPE)
    return int(answer.stderr.split(',')[0])


def instructions(peer, workload):
    """Of one call, the loop round it included: what more rounds cost, by their calls."""
    counted = by_valgrind if shutil.which('valgrind') else by_perf
    first, last = workload.rounds
    few, many = (counted(command_of(peer, workload, rounds), workload) for rounds in (first, last))
    return (many - few) / ((last - first) * workload.calls)


def seconds(peer, workload, rounds):
    """Of processor, for the whole process."""
    with input_file(workload) as reading:
        reading.seek(0)
        process = subprocess.Popen(command_of(peer, workload, rounds), stdin=reading,
                                   stdout=subprocess.DEVNULL)
        _, status, used = os.wait4(process.pid, 0)
        process.returncode = status
    return used.ru_utime + used.ru_stime


def enough_rounds(peer, workload, least=.01):
    """So many that they take a hundredth of a second at least."""
    rounds = workload.rounds[1]
    while seconds(peer, workload, rounds) < least:
        rounds *= 2
    return rounds


def times(peers, workload, repeats=9):
    """By peer, the nanoseconds of one call: each in turn, several times over, the least of each."""
    rounds = {peer: enough_rounds(peer, workload) for peer in peers}
    least = {}
    for _ in range(repeats):
        for peer in peers:
            for part in (1, 4):
                taken = seconds(peer, workload, part * rounds[peer])
                least[peer, part] = min(taken, least.get((peer, part), taken))
    return {peer: (least[peer, 4] - least[peer, 1]) * 1e9 / (3 * rounds[peer] * workload.calls)
            for peer in peers}
