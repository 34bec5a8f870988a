"""Rows that are wrong, cut short or not to be read, which both builds of `inline_vectors` find: a part of `selftest`.

In each file of rows one row is spoiled, in each way: the middle one of those that end in a text with a letter.
"""
import os
import re
import tempfile

from gate_parts.beside import QUOTED
from gate_parts.programs import Case, all_runs, chosen, run
from gate_parts.rows import CRATE, rows_of
from gate_parts.tree import Failure, crate_folder, text_of, write_text

LETTER = re.compile('(?<=")[a-z]')
# Whole files without a row that can be played, and the line that is at fault.
UNREAD = {
    'an empty file': ('', 0),
    'comments alone': ('# InlineString "a": pop = \'a\', ""\n', 1),
    'a row without a call': ('InlineString "": len = 0, ""\n\nInlineString "a":\n', 3),
    'a row without an answer': ('InlineString "": len = 0, ""\nInlineString "a": pop\n', 2),
    'a line that is no row': ('InlineString "": len = 0, ""\nInlineString "" len = 0, ""\n', 2),
    'a line that goes on with no row': ('  InlineString "": len = 0, ""\n', 1)}
CAPACITY, ROOM, STORAGE = 'the capacity is wrong', 'the answer is wrong: no room', 'the storage is wrong'
# Files with a row that is wrong in one thing alone, and what is found: the step, what is wrong, and where.
WRONG = {
    'InlinableString, String "ab": pop = \'b\', "a" heap': ('step 1', STORAGE, 'on InlinableString'),
    'InlinableString, String "ab": pop = \'b\', "a" inline': ('step 1', STORAGE, 'on String'),
    'every "a": eq "a" * 31 = false, unchanged': ('step 1', 'the answer is wrong', 'on InlineString'),
    'every "a": to_json = "a", unchanged': ('step 1', 'the answer is wrong', 'on InlinableString'),
    'String "a" * 31 room 100: shrink_to_fit = done, unchanged': ('step 1', CAPACITY, 'on String room 100'),
    'String "a" room 31: reserve 100 asking 60 = no room, "a" heap': ('step 1', CAPACITY, 'on String room 31'),
    'String "a" room 31 asking 30: len = 1, unchanged': ('step 0', CAPACITY, 'on String room 31'),
    'InlinableString "foo": reserve 28 asking 27 = done, "foo" inline': ('step 1', ROOM, 'on InlinableString'),
    'String "": with_capacity 31 asking 30 = done, ""': ('step 1', ROOM, 'on String'),
    'every "": reserve_exact 10 asking 9 = done, ""': ('step 1', ROOM, 'on String'),
    'every "a" asking 30: push \'b\' = done, "ab"': ('step 0', STORAGE, 'on InlinableString room 31'),
    'InlinableString "a" room 30 asking 31: len = 1, unchanged': ('step 0', STORAGE, 'on InlinableString room 30')}
# Rows that are right, and how often each is played: of four types with 6 rooms, in up to 3 ways.
PLAYED = {
    'every "a": push \'b\' = done, "ab"; remove 2 = bad place, unchanged':
        'InlineStringN 2, InlinableStringN 18, BoxableString 18, String 18, HeapText 18; '
        'calls 25, moved 1, run 24, run_dyn 24, one run 24; answers 148, own 26',
    'every "": to_json = "\\"\\"", ""':
        'InlineStringN 0, InlinableStringN 6, BoxableString 0, String 0, HeapText 0; '
        'calls 6, moved 0, run 0, run_dyn 0, one run 0; answers 6, own 0'}


def unquoted(row):
    """The row, with as much of nothing for each text."""
    return QUOTED.sub(lambda found: '_' * len(found[0]), row)


def letters_of(text):
    """Each row whose last answer, or the text after it, has a letter: its line, itself, and where that letter is."""
    for number, row in rows_of(text):
        letter = LETTER.search(row, unquoted(row).rindex(' = '))
        if letter:
            yield number, row, letter.start()


def with_row(text, number, row):
    """The text of a file, with this row for the one that begins at this line."""
    lines = text.split('\n')
    end = next(at for at in range(number, len(lines)) if not lines[at].startswith(' '))
    return '\n'.join([*lines[:number - 1], row, *lines[end:]])


def spoiled(name, text):
    """In words what is done to a file, then its text, the line at fault, and the status that this must have."""
    rows = list(letters_of(text))
    if not rows:
        raise Failure(f'{name} has no row that ends in a text with a letter')
    number, row, at = rows[len(rows) // 2]
    for what, wrong, statuses in (
            ('another letter', row[:at] + ('b' if row[at] == 'a' else 'a') + row[at + 1:], (1,)),
            ('nothing seen at the end', row[:unquoted(row).rindex(', ')], (2,)),
            # (a shorter number is still one)
            ('no last character', row[:-1], (1, 2))):
        yield f'{what}, {name}:{number}', with_row(text, number, wrong), number, statuses


def is_found(run_of):
    """Whether a program ends as it must after this file, and names this line of it and no other; a right row is line
    0, of which it says how often it was played."""
    program, path, number, statuses, *words = run_of
    output, status = run(program, Case(path, [path]))
    if number == 0 and status == 0:
        return statuses == (0,) and output.decode() == f'{path}: 1 rows, 0 wrong; plays: {words[0]}\n'
    # how many are wrong is printed too, if all could be read
    line, lines = (f'{path}:{number}: ', 2) if status == 1 else (f'{path}: line {number}: ', 1)
    is_whole = output.startswith(line.encode()) and output.count(b'\n') == lines
    is_named = not words or re.search('{}: {}.*, {}\n'.format(*words), output.decode()) is not None
    return status in statuses and is_whole and is_named


def shown():
    """In words what is done to rows, and whether both builds find it."""
    try:
        builds = chosen((), CRATE)
        folder = os.path.join(crate_folder(CRATE), 'data')
        files = [row for name in sorted(os.listdir(folder))
                 for row in spoiled(name, text_of(os.path.join(folder, name)))]
    except Failure as failure:
        return [(str(failure), False)]
    files += [(what, text, line, (2,)) for what, (text, line) in UNREAD.items()]
    files += [(row, f'{row}\n', 1, (1,), *words) for row, words in WRONG.items()]
    files += [(row, f'{row}\n', 0, (0,), plays) for row, plays in PLAYED.items()]
    with tempfile.TemporaryDirectory() as place:
        whats, runs = [], []
        for at, (what, text, *wanted) in enumerate(files):
            path = os.path.join(place, f'{at}.rows')
            write_text(path, text)
            whats += [f'{what}, {name}' for name in builds]
            runs += [(program, path, *wanted) for program in builds.values()]
        return list(zip(whats, all_runs(is_found, runs)))
