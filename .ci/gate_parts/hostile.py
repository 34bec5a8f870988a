"""gate hostile [PROGRAM ..]: runs each program on stored cases and on hostile inputs.

Without PROGRAM they are the two builds of `inline_script` that `rt ci` leaves, and those of `word_index`, on
stored cases alone. Of each run all that is printed and the exit status must be those of the case: of
`replay/named_cases.py`, or for generated inputs those of `language.py`. What the standard output doesn't take
can't be compared. No input asks for memory that one machine grants and another refuses.
"""
import re
import runpy
from collections import Counter
from contextlib import suppress
from functools import partial

from floors import HOSTILE, HOSTILE_INPUTS, NAMED_CASES, WORD_CASES
from gate_parts.draw import SEED, Draw
from gate_parts.encodings import nearly_utf8
from gate_parts.good_scripts import good_lines, good_script, line_of
from gate_parts.language import COMMANDS, GREATEST, MOST_BYTES, STARTS, Text, Undecided, answer
from gate_parts.programs import STREAMS, Case, all_runs, chosen, run
from gate_parts.tree import Failure, in_tree, too_few

OPTIONS = 'programs'
NAMED = in_tree('replay', 'named_cases.py')
# So many differences are printed, the first, with as many bytes of a text; the others are counted alone.
MOST_PRINTED, MOST_TOLD = 10, 1000
WRONG_WORDS = [
    [], [''], ['stack'], ['INLINE'], ['inline '], [' inline'], ['inline\n'], ['inline\r'], ['inlin'],
    ['inlinee'], ['inline00'], ['inline08'], ['inline30'], ['inline8 '], ['heap8'], ['-'], ['--help'], ['é'],
    ['ｉｎｌｉｎｅ'], ['inline\ufeff'], ['inline' * 9000], ['inline', 'inline'], ['inline', ''], ['', 'inline'],
    ['string', 'heap'], ['heap'] * 1000, [b'\xff'], [b'inline\xff'], [b'inline', b'\xff'], [b'\xed\xa0\x80']]


# Makers of an input, from a case's random numbers and its argument word.

def noise(draw, word):
    """Of no shape, or of hardly any."""
    count = draw.choice((1, 3, 10, 100, 1000))
    line = draw.choice((b'', b'push ', b'push_str ', b'insert_str 0 '))
    return draw.choice((
        draw.randbytes(count), bytes(draw.choices(b'\n\n push_otrclea0129\r\0\xc3\xa9', k=count)),
        ''.join(draw.choice((draw.char(), '\n', ' ')) for _ in range(count)).encode(),
        line + nearly_utf8(draw, draw.randint(1, 4)) + draw.choice((b'', b'\n', b'\npop', b'\n?'))))


def spoilt(draw, word):
    """A good script with bytes left out, doubled, put in, cut off or changed by a bit at a place."""
    data = '\n'.join(good_lines(draw, word, draw.randint(1, 8))).encode() + draw.choice((b'', b'\n'))
    at, size = draw.randrange(len(data)), draw.choice((1, 1, 1, 2, 40))
    more = (b' ', b'0', b'\n', b'\r', b'\0', b'\xef\xbb\xbf', draw.randbytes(1), nearly_utf8(draw, 1))
    flipped = bytes([data[at] ^ 1 << draw.randrange(8)])
    return draw.choice((data[:at] + data[at + size:], data[:at] + data[at:at + size] + data[at:], data[:at],
                        data[:at] + draw.choice(more) + data[at:], data[:at] + flipped + data[at + 1:]))


# How a number can be written, and what can stand in the place of one.
NUMBERS = ('{}', '{:020}', '{:021}', '+{}', '-{}', ' {}', '{} ', '{}.', '{}\0', '{:#x}', '{:,}', '{:_}',
           '{:e}', '{}５', '', '0' * 20, '0' * 21, '9' * 400, '٣', '５', '²')
# What can stand behind a word or in the place of a character.
ENDS = ('', ' ', '  ', '\r', '\0', '\ufeff', ' a', 'a ', 'aa', 'e\u0301', 'é', '𝄞', 'g', '0', ' 00')


def odd_line(draw, word):
    """A line that is bad, or looks as if it were: its word, a space, its number or its end spoilt."""
    line = line_of(draw, Text(word), draw.choice(list(COMMANDS)))
    name, space, rest = line.partition(' ')
    near = draw.choice((0, 1, 8, 30, 2 ** 32, 2 ** 63, 10 ** 19, 2 ** 64, 2 ** 65, 10 ** 20))
    number = draw.choice(NUMBERS).format(near + draw.randint(-1, 1))
    names = (name.upper(), name.title(), name[:-1], name + 's', name.replace('_', '-'), '', ' ' + name)
    return draw.choice((
        draw.choice(names) + space + rest, name + draw.choice(('', '  ', '\t', '\xa0')) + rest,
        line + draw.choice(ENDS), name + ' ' + draw.choice(ENDS), f'insert 0 {draw.choice(ENDS)}',
        re.sub('[0-9]+', number, line, 1), f'reserve {number}', f'insert {number} a', f'insert {number}'))


def odd(draw, word):
    """Such a line in a script that is good."""
    lines = good_lines(draw, word, draw.randint(0, 4))
    lines.insert(draw.randint(0, len(lines)), odd_line(draw, word))
    return '\n'.join(lines).encode() + draw.choice((b'', b'\n'))


# What an input of nearly the most bytes begins with, and what is repeated behind that.
LONG = [(b'', line.encode() + b'\n') for line in (
    'pop', 'clear', 'push a', 'push €', 'push_str ', 'push_str abc', 'insert 0 𝄞', 'truncate 1', 'remove 0',
    'replace_bytes 61', 'reserve 31', f'reserve {GREATEST}', 'shrink_to_fit', 'é', '')]
LONG += [(head, char.encode()) for head in (b'push_str ', b'insert_str 0 ', b'push ', b'truncate 0', b'')
         for char in 'aé€𝄞\r\0 \n']
LONG += [(b'push_str %s\nreplace_bytes ' % (b'a' * 21_000), pair) for pair in (b'62', b'c3', b'0a', b'6B')]


def at_limit(draw, word):
    """Filled up with empty lines at either end, and with another end at times."""
    size = MOST_BYTES + draw.choice((-2, -1, -1, 0, 0, 0, 1, 1, 2, MOST_BYTES))
    end = draw.choice((b'', b'', b'', b'?', b'pop', b'\xff', b'\xc3', 'é'.encode()))
    head, unit = draw.choice(LONG)
    most = 21_000 if len(head) > 21_000 else size
    data = head + unit * min(most, (size - len(end) - len(head)) // len(unit))
    rest = b'\n' * (size - len(end) - len(data))
    return draw.choice((data + rest, data + rest, rest + data)) + end


# How often each comes beside the others.
INPUTS = {noise: 13, good_script: 22, spoilt: 30, odd: 32, at_limit: 5}
# Of a hundred cases.
WRONG, STREAMED = 3, 8


def hostile_case(number):
    """A case with what it must give, how it ends in a word or two, and its replies. Always the same one."""
    draw = Draw(f'{SEED}:{number}')
    while True:
        word = draw.choice(list(STARTS))
        words = draw.choice(WRONG_WORDS) if draw.chance(WRONG) else [word]
        io = draw.choice(STREAMS) if draw.chance(STREAMED) else ''
        case = Case(f'hostile_{number}', words, draw.weighted(INPUTS)(draw, word), io)
        # another one, where what memory there is would decide
        with suppress(Undecided):
            ends, replies = answer(case)
            return case, ends, *('char' if reply.startswith('char ') else reply for reply in replies)


def named_cases(count=NAMED_CASES, path=NAMED, program='CASES'):
    """Those of a file for a program: so many, each with a name of its own, a status and a known stream."""
    cases = [Case(*each) for each in runpy.run_path(path)[program]]
    whole = {case.name for case in cases if isinstance(case.status, int) and case.io in ('', *STREAMS)}
    if not len(whole) == len(cases) == count:
        raise Failure(f'{path} has not {count} cases of different names, with a status and a known stream')
    return cases


def difference(program, case):
    """What a program does otherwise than a case says; None where it does as it must."""
    output, status = run(program, case)
    if (output, status) == (case.output, case.status):
        return None
    texts = {'words': case.words, 'input': case.input, 'wanted': case.output, 'given': output}
    return '\n'.join([f'FAILED {case.name} {case.io}: wanted status {case.status}, given {status}',
                      *(f'    {name} {text!r:.{MOST_TOLD}}' for name, text in texts.items())])


def tried(programs, item):
    """The differences on a case, or on the input of a number; of this its end and its kinds of replies."""
    case, *kinds = [item] if isinstance(item, Case) else hostile_case(item)
    return [difference(program, case) for program in programs], Counter(kinds)


def are_right(builds, cases, count):
    """Whether each build, a name and a path, does as it must on the cases and on so many inputs."""
    wrong, tally = {name: [] for name in builds}, Counter()
    for found, kinds in all_runs(partial(tried, list(builds.values())), [*cases, *range(count)], 8):
        for name, text in zip(builds, found):
            wrong[name] += [text] * bool(text)
        tally += kinds
    lacking = list(too_few(tally, HOSTILE)) if count >= HOSTILE_INPUTS else []
    print(dict(tally.most_common()), *lacking, sep='\n')
    for name, texts in wrong.items():
        print(*(f'{name}: {text}' for text in texts[:MOST_PRINTED]),
              f'{name}: {len(cases)} cases and {count} inputs: {len(texts)} not as they must be', sep='\n')
    return not lacking and not any(wrong.values())


def main(given):
    return all([are_right(chosen(given.programs, 'inline_script'), named_cases(), HOSTILE_INPUTS),
                given.programs or are_right(chosen([], 'word_index'), named_cases(WORD_CASES, NAMED, 'WORDS'), 0)])
