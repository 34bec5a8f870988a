"""gate quick: a newcomer's check, some two minutes on two processors. The gate is `.ci/run`.

One part of the library is proved, lists of commands; the tests of the library that are no rows run unproved, by
`rt try`; and the program prints what is stored of its own script.
"""
import os
import re
import subprocess
from concurrent.futures import ThreadPoolExecutor

from floors import QUICK_HELD, QUICK_PASSED, QUICK_PROVED
from gate_parts.refusals import ENDED, TEST
from gate_parts.tree import PROCESSORS, crate_folder, run_in, text_of

LIBRARY, PART, TESTS, PROGRAM = 'inlinable_string', 'run', 'inline_tests', 'inline_script'
PROVED = re.compile(r'^only=(\d+) proved=\1$', re.MULTILINE)
HELD = 'this test needs the proved build'


def part_is_proved():
    """Whether the part of the library is proved, and how many functions."""
    # by one job: two take more of the processor, which the tests beside it have use for
    said, status = run_in(crate_folder(LIBRARY), 'rt', 'check', '--jobs', '1', '--only', PART)
    proved = int((PROVED.search(said) or [0, 0])[1])
    return status == 0 and proved >= QUICK_PROVED, f'{proved} functions of {LIBRARY}::{PART} are proved', said


def tests_pass():
    """Whether the tests pass without being proved, and in words how many did."""
    said, _ = run_in(crate_folder(TESTS), 'rt', 'try', '--test', '--seconds', '600')
    found = [(how == 'ok', HELD in printed) for _, how, printed in TEST.findall(said)]
    passed, held = sum(is_well for is_well, _ in found), found.count((False, True))
    failed = len(found) - passed - held + (not ENDED.search(said))
    told = f'{TESTS}: {passed} tests passed, {failed} failed, {held} need the proved build'
    return not failed and passed >= QUICK_PASSED and held <= QUICK_HELD, told, said


def program_runs():
    """Whether the program prints what is stored of its own script."""
    folder = crate_folder(PROGRAM)
    words = text_of(os.path.join(folder, 'args')).split()
    script = text_of(os.path.join(folder, 'stdin'))
    ran = subprocess.run(['rt', 'try', '--', *words], cwd=folder, input=script, encoding='utf-8',
                         stdout=subprocess.PIPE, stderr=subprocess.PIPE)
    is_well = ran.returncode == 0 and ran.stdout == text_of(os.path.join(folder, 'stdout')) != ''
    return is_well, f'{PROGRAM} runs its script', ran.stdout + ran.stderr


def main(_):
    found = []
    with ThreadPoolExecutor(PROCESSORS) as pool:
        # what takes longest first, so that at the end no processor is left alone with it
        for is_well, told, said in pool.map(lambda step: step(), (part_is_proved, tests_pass, program_runs)):
            found.append(is_well)
            print(f'{told}: well' if is_well else f'{told}: NOT WELL:\n{said}', flush=True)
    print('Not tried: all other proofs and tests, and what must be refused or answered. The gate is .ci/run.')
    print('PASSED quick' if all(found) else 'FAILED quick')
    return all(found)
