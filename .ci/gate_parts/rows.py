"""gate rows [FILE ..]: plays files of rows on both builds of `inline_vectors`, and prints what they print.

Without FILE it plays those of its `data/`, after a look at them: `args` names each, `stdout` has the number of its
rows, which is not 0, and no row comes twice. `.ci/floors.py` has how many rows there are. How often they are
played, `stdout` alone says, as both builds must print it.
"""
import os
import re

from floors import ROWS
from gate_parts.programs import Case, chosen, run
from gate_parts.tree import crate_folder, text_of

OPTIONS = 'files'
CRATE = 'inline_vectors'
# How often the rows of a file were played.
PLAYS = re.compile('; plays: .+')


def rows_of(text):
    """Each row of a file: the number of its first line, and its lines as one. A row of several types is one of each."""
    rows = []
    for number, line in enumerate(text.split('\n'), 1):
        if line.startswith(' ') and rows:
            rows[-1][1] += ' ' + line.strip(' ')
        elif line and not line.startswith('#'):
            rows.append([number, line.strip(' ')])
    return [[number, each] for number, row in rows for each in of_each_type(row)]


def of_each_type(row):
    """The row of each type that it names: the text comes after the types, and begins with a quote."""
    types, quote, rest = row.partition('"')
    return [f'{each} {quote}{rest}' for each in types.rstrip().split(', ')] if quote else [row]


def files_of(folder):
    """The rows of each file of `data/`, by its name."""
    data = os.path.join(folder, 'data')
    return {name: rows_of(text_of(os.path.join(data, name))) for name in sorted(os.listdir(data))}


def faults(folder, files):
    """In words, what is wrong with these files, or with what is stored of them."""
    wanted = {'args': files, 'stdout': [f'{name}: {len(rows)} rows, 0 wrong; plays: ..' for name, rows in files.items()]}
    for stored, lines in wanted.items():
        text = text_of(os.path.join(folder, stored))
        if PLAYS.sub('; plays: ..', text) != ''.join(f'{line}\n' for line in lines):
            yield '\n'.join([f'{stored} must be these {len(lines)} lines:', *lines])
    first, count = {}, 0
    for name, rows in files.items():
        if not rows:
            yield f'{name} has no row'
        for number, row in rows:
            place, count = f'{name}:{number}', count + 1
            if first.setdefault(row, place) != place:
                yield f'{place}: the row is that of {first[row]}'
    if count != ROWS:
        yield f'there are {count} rows, and .ci/floors.py has {ROWS}'


def main(given):
    folder, files, wrong, stored = crate_folder(CRATE), given.files, [], None
    if not files:
        files = files_of(folder)
        wrong, stored = list(faults(folder, files)), text_of(os.path.join(folder, 'stdout')).encode()
        print(''.join(f'{fault}\n' for fault in wrong), end='')
        os.chdir(os.path.join(folder, 'data'))
    for name, program in chosen((), CRATE).items():
        output, status = run(program, Case(name, files))
        is_well = status == 0 and stored in (None, output)
        print(f'{name}, status {status}: {"well" if is_well else "NOT WELL"}')
        print(output.decode(errors='replace'), end='')
        wrong += [] if is_well else [name]
    print(f'{len(wrong)} faults')
    return not wrong
