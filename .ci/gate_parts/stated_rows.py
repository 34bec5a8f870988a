"""Rows that state how many requests for memory their calls make, played with each of these refused.

A case is a row and the number of the request that is refused, of those of its calls; the last case of a row is that of
the request that the program itself makes after them. In the row of a case the call that makes the request comes twice:
first it fails, and then it succeeds. `rt try --fail-alloc` builds a program of which one request is refused,
always the same, counted from the start. So the program makes further requests before the calls. By a first run the
cases find how many are granted there; by a second, each makes the number that puts the refused one where it must be.
A run costs more than the calls in it, so the last cases of rows are played many in one run: none of these rows makes
fewer requests than it states, or its case of one that it lacks goes wrong; if one makes more, all together do.
"""
import os
import re
import subprocess
from collections import defaultdict, namedtuple
from functools import lru_cache
from tempfile import TemporaryDirectory

from floors import REFUSALS
from gate_parts.language import COMMANDS
from gate_parts.refused_scripts import WORDS, answers
from gate_parts.rows import CRATE, files_of
from gate_parts.tree import TOP, Failure, crate_folder, too_few, write_text

# The request of the whole program that is refused. With fewer this number of rows are read, and their texts made.
REQUEST, TOGETHER = 4000, 30
QUOTED = r'''"(?:\\.|[^"\\])*"|'(?:\\[^']+|[^'\\])\''''
ROW = re.compile(rf'''(\S+)((?:{QUOTED}|[^:"'])*): (.*)''')
STEPS = re.compile(rf'''((?:{QUOTED}|[^;"'])+)(?:; |$)''')
STEP = re.compile(rf'''requests (\d+) ((\w+)(?:{QUOTED}|[^="'])*) = .*''')
# What a call answers if its request is refused, where that is not `no memory`; a shrink does without.
REFUSED = {'write_char': 'write fault', 'write_str': 'write fault', 'write': 'write fault', 'shrink_to_fit': 'done'}
# Rows that are wrong in one value each: a case of each must go wrong.
SPOILED = (
    """InlinableString "a" * 30: requests 0 push 'b' = done, "a" * 30 + "b" heap""",
    """InlinableString "a" * 30: requests 2 push 'b' = done, "a" * 30 + "b" heap""",
    """InlinableString "a": requests 1 push 'b' = done, "ab" inline""",
    """InlinableString "a" * 30: requests 1 push 'b' = done, "a" * 30 + "c" heap""",
    """InlinableString "a" * 30: requests 1 push 'b' = done, "a" * 30 + "b" inline""",
    """InlinableString "a" * 29: requests 1 extend_chars "bc" = done, "a" * 29 + "bc" heap""")
# A row, named by its type and its first call, and how it is played.
Case = namedtuple('Case', 'name place way request is_last file wanted', defaults=['right'])


def cases_of(place, row):
    """The cases of a row, by calls, and if it has several and commands alone, also by runs."""
    kind, start, rest = ROW.fullmatch(row).groups()
    steps = STEPS.findall(rest)
    stated = [STEP.fullmatch(step) for step in steps]
    if None in stated:
        raise Failure(f'{place}: each step of a row must state its requests, or none')
    words = [step[3] for step in stated]
    ways = ['calls', 'run', 'run_dyn'] if len(words) > 1 and COMMANDS.keys() >= set(words) else ['calls']
    owners = [step for step in stated for _ in range(int(step[1]))]
    for request, owner in enumerate([*owners, None], 1):
        twice = [part for step in stated for part in [refused(step)] * (step is owner) + [step[0]]]
        # (`run_dyn` is not played at each capacity)
        for way in ways[:2 if '<' in kind else 3]:
            yield Case(f'{kind}::{words[0]}', place, way, request, owner is None,
                       f'{kind}{start}: {"; ".join(twice)}\n')


def refused(step):
    return f'requests {step[1]} {step[2]} = {REFUSED.get(step[3], "no memory")}, unchanged'


@lru_cache(maxsize=None)
def cases():
    """All cases of all rows that state requests, of scripts, and of the words that the program is given."""
    rows = [(f'{name}:{number}', row) for name, rows in files_of(crate_folder(CRATE)).items()
            for number, row in rows if re.search(r'(:|;) requests \d', row)]
    rows += [(row, row) for row in SPOILED]
    scripts = [Case(f'script::{script.split()[0]}', script, 'script', request, request == len(all_of),
                    f'script {script}\n', f'script {script} = {answer}')
               for script, all_of in answers() for request, answer in enumerate(all_of, 1)]
    words = [Case('words_of', 'words', 'words', request, request == len(WORDS), '', answer)
             for request, answer in enumerate(WORDS, 1)]
    return [*(case for place, row in rows for case in cases_of(place, row)), *scripts, *words]


def played(top, prepared):
    """What the program prints of each of these cases, with that number of requests before its calls."""
    with TemporaryDirectory() as folder:
        for number, (case, before) in enumerate(prepared):
            write_text(os.path.join(folder, f'{number:04}'), case.file)
            write_text(os.path.join(folder, f'{number:04}.args'), f'{case.way}\n{before}\n')
        ran = subprocess.run(
            ['rt', 'try', '--fail-alloc', str(REQUEST), '--cases', folder, '--', 'refuse', '{}'],
            cwd=crate_folder(CRATE, top), stdin=subprocess.DEVNULL, stdout=subprocess.PIPE,
            stderr=subprocess.PIPE, check=False)
    said = re.findall('^== ([0-9]{4})\n(.*)$', ran.stdout.decode(errors='replace'), re.MULTILINE)
    if [int(number) for number, _ in said] != list(range(len(prepared))):
        raise Failure(f'{CRATE}: not each case has an answer: {ran.stdout[-2000:]}, {ran.stderr[-2000:]}')
    return [answer for _, answer in said]


@lru_cache(maxsize=None)
def swept():
    """The cases as all of them are played: the last one of a spoiled row behind that of a row that is right."""
    right = [case for case in cases() if case.place not in SPOILED]
    spoiled = [case for case in cases() if case.place in SPOILED]
    first = next(case for case in right if case.is_last)
    return [*in_few_runs(right), *(as_one([first, case]) if case.is_last else case for case in spoiled)]


def in_few_runs(singles):
    """The cases, with the last ones of rows that are played in one way together in few."""
    lasts = defaultdict(list)
    for case in singles:
        if case.is_last and case.way not in ('script', 'words'):
            lasts[case.way].append(case)
        else:
            yield case
    for own in lasts.values():
        yield from (as_one(own[at:at + TOGETHER]) for at in range(0, len(own), TOGETHER))


def as_one(lasts):
    """The case of the request that comes after the calls of several rows; it has the name of the last."""
    return lasts[-1]._replace(file=''.join(case.file for case in lasts),
                              request=sum(case.request - 1 for case in lasts) + 1)


@lru_cache(maxsize=None)
def granted(names):
    """By file, how many requests are granted before the calls that it has, of all cases, and of each last one of rows
    with these names. Which request of a case is refused, and how its calls are made, adds none."""
    files = {case.file: case for case in [*swept(), *(case for case in cases() if case.name in names)]}
    said = played(TOP, [(case, REQUEST) for case in files.values()])
    return {file: int((re.match(r'(\d+) granted', answer) or ('', 0))[1]) for file, answer in zip(files, said)}


def faults_of(top, tried, names):
    """Each of these cases that goes wrong, with what is printed; so does one before which nothing is granted."""
    prepared = [(case, granted(names)[case.file] - case.request + 1) for case in tried]
    for case, answer in zip(tried, played(top, prepared)):
        if answer != f'{case.wanted}, and the next request {"refused" if case.is_last else "granted"}':
            yield case, f'{case.place}, {case.name} by {case.way}, request {case.request}: {answer}'


def wrong_rows(top, names, own):
    """What is printed of those of the rows with these names that go wrong: together, and by their names. Those that
    are not among the own ones are played with none of their requests refused."""
    found = defaultdict(str)
    tried = [case for case in cases() if case.place not in SPOILED and case.name in (names if case.is_last else own)]
    for case, fault in faults_of(top, tried, names):
        found[case.name] += fault + '\n'
    return ''.join(found.values()), found


def rows_are_swept(names):
    """Refuses each request of each row in turn; whether all was well. Wrong bodies are tried by rows with these names
    later."""
    found = list(faults_of(TOP, swept(), names))
    faults = [fault for case, fault in found if case.place not in SPOILED]
    faults += [f'this row is not found wrong: {row}' for row in SPOILED if row not in {case.place for case, _ in found}]
    tried = [case for case in cases() if case.place not in SPOILED]
    # (the rows of a line of several types have one place)
    counts = {'rows': len({case[:2] for case in tried}), 'meetings': sum(not case.is_last for case in tried)}
    faults += too_few(counts, dict(zip(counts, REFUSALS.get(CRATE, (1, 1)))))
    print(f'{CRATE}: {counts["rows"]} rows, {counts["meetings"]} requests refused', *faults, sep='\n')
    return not faults
