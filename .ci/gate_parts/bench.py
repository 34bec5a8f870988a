"""gate bench [PROGRAM ..]: compares the checksums of the bench with those of Rust's `String`, and times growth.

Without PROGRAM they are the two builds of `bench` that `rt ci` leaves. Each runs every workload on every type of
text that has it, and must give the sum that `bench/sums` has. None of these is counted or timed. Then jobs of `jobs`,
and `word_index`, run at a size of GROWTH in `.ci/floors.py` and at four times that, three times each, and more often
where that fails, as LLVM builds them: the least time of the larger must be at most eight times that of the smaller.
"""
import sys
from collections import Counter
from concurrent.futures import ThreadPoolExecutor

from floors import BENCH_TEXTS, BENCH_WORKLOADS
from gate_parts.growth import growth_faults
from gate_parts.programs import Case, chosen, run
from gate_parts.tree import PROCESSORS, Failure, in_tree, too_few

sys.path.insert(0, in_tree('bench'))
import sums  # noqa: E402

OPTIONS = 'programs'


def wrong_sums(name, program, runs, stored):
    """In words, each sum that a program does not give; how many were compared is printed."""
    with ThreadPoolExecutor(PROCESSORS) as pool:
        given = pool.map(lambda each: run(program, Case('', sums.words_of(*each), each[0].drawn())), runs)
    wrong = [f'{name}: FAILED {workload.name} on {text}: wanted {stored[workload.name]}, '
             f'given {output.decode(errors="replace").strip()} with status {status}'
             for (workload, text), (output, status) in zip(runs, given)
             if (output, status) != (b'%d\n' % stored[workload.name], 0)]
    print(f'{name}: {len(sums.EACH)} workloads, {len(runs)} runs: {len(runs) - len(wrong)} passed, '
          f'{len(wrong)} failed')
    return wrong


def main(given):
    builds = chosen(given.programs, 'bench')
    try:
        stored = sums.stored_sums()
    except sums.BadSums as fault:
        raise Failure(fault) from None
    runs = [(workload, text) for workload in sums.EACH for text in workload.texts]
    faults = [fault for name, path in builds.items() for fault in wrong_sums(name, path, runs, stored)]
    having = Counter(['workloads'] * len(sums.EACH) + [text for _, text in runs])
    faults += too_few(having, {'workloads': BENCH_WORKLOADS, **BENCH_TEXTS})
    faults += growth_faults()
    print(*faults, sep='\n')
    return not faults
