"""What the gate reads, and what a program answers otherwise than it must: a part of `selftest`.

What runs a program is shown on real ones. Else a function stands in for that, right or with a fault, and each
stored file is whole, or something in it is wrong or gone.
"""
import contextlib
import io
import os
import re
import tempfile
from unittest import mock

import floors
from gate_parts import beside, edits, hostile, said
from gate_parts.edit_files import Change, Edit, Goal, read_edits, texts_with
from gate_parts.language import answer
from gate_parts.programs import Case, run
from gate_parts.tree import Failure, text_of, too_few, write_text

# As much as the floors say at least, in all: whoever lowers one further lowers its number here too.
LEAST = {'EDITS': 150, 'MUST_FAIL': 15, 'WRONG_DEFINITIONS': 200, 'WRONG_CLAUSES': 5, 'CALLERS': 80,
         'ROWS': 500, 'REFUSALS': 100, 'WRONG_BODIES': 15, 'BENCH_WORKLOADS': 70, 'BENCH_TEXTS': 150, 'GROWTH': 150_000}
EDIT = '''# why
edit two_for_one
refused: one returns
touches: a b
old:     1
new:     2
'''
SOURCE = '''impl<const N: usize> Kept for Text<N> {
    final fn size(&self) -> [u8; N]
        ensures { a }
    {
        b('{', "}")
    }

    fn len(
        &self,
    ) -> usize {
        c
    }

    fn none(&self);
}

macro_rules! m {
    () => {
        d
    };
}

pub fn f() {
    m!()
}

fn g() {
    m!(LIMIT)
}
'''
# A text of that, what comes in its place, and the functions that an edit names: whether it breaks them alone.
CHANGES = (
    ("b('{'", "i('{'", 'part::Text::size', True), ('{ a }', '{ i }', 'part::Text::size', False),
    ("b('{'", "i('{'", 'part::Text::len', False), ('> Kept', '> Held', 'part::Text::size', False),
    ("b('{'", "} b('{'", 'part::Text::size', False), ('  c\n', '  i\n', 'len', True),
    ('-> usize {', '-> usize { i;', 'len', True), ('-> usize {', '-> u8 {', 'len', False),
    ('&self);', '&self, i: u8);', 'none', False), ('  d\n', '  i\n', 'f g', True),
    ('  d\n', '  i\n', 'f', False))
NO_REFUSAL = (
    './specs/Run.antt:98:23: error: `IsMet`: expected type `ℕ`',
    './proofs/Free.antt:7:215: error: module `Rattle.toy.specs.Run` has no `IsMet` that can be named',
    './proofs/a/Answers.antt:1:1: error: `returns`: `c.requires` has no field `place`',
    './proofs/a/Answers.antt:1:1: error: `returns`: record `After-push`\n  has no field `new`')
# Scripts of the shell, the streams of their runs, and what comes of it.
RUNS = (('cat', '', (b'input', 0)), ('cat', 'stdin-pipe', (b'input', 0)), ('exec cat 2>&-', 'stdin-dir', (b'', 1)),
        ('echo told >&2; exit 3', '', (b'told\n', 3)), ('echo told; kill -6 $$', '', (b'told\n', -6)),
        ('head -c 2', 'stdin-zero', (b'\0\0', 0)), ('exec cat 2>&-', 'stdout-full', (b'', 1)),
        ('exec cat', 'stdout-closed', (b'', -13)))
# What a program may do otherwise than it must.
LINE_FAULTS = {
    'a wrong answer to one line': lambda output: (output[:-1] + b'0\n', 0),
    'a wrong status': lambda output: (output, 3),
    'no last line': lambda output: (output[:output.rindex(b'\n', 0, -1) + 1], 0)}
SCRIPT_FAULTS = {
    'a wrong reply': lambda output, status: (output.replace(b'bad place', b'done'), status),
    'no output': lambda output, status: (b'', status),
    'a wrong status of what is refused': lambda output, status: (output, status and 3 - status),
    'a wrong status of what is accepted': lambda output, status: (output, status or 3),
    'a fault of a stream that is no status': lambda output, status: (output, status if status != 1 else 0)}
INPUTS = 40


def fails(call, *given):
    """Whether it says that a part can't be tried."""
    with contextlib.suppress(Failure):
        call(*given)
        return False
    return True


def on_floors():
    for name, least in LEAST.items():
        floor = getattr(floors, name)
        each = floor.values() if isinstance(floor, dict) else [floor]
        yield f'the floor {name}', sum(one[-1] if isinstance(one, tuple) else one for one in each) >= least


def on_edits(place):
    path = os.path.join(place, 'lib.edits')
    write_text(path, EDIT + '\n\n' + EDIT)
    change = Change('src/lib.rt', '    1', '    2')
    one = Edit('two_for_one', [Goal('toy', 'one', 'returns')], [change], ('a', 'b'))
    yield 'edits are parted by empty lines', read_edits(place, path, 'toy') == [one, one]
    write_text(os.path.join(place, 'src', 'lib.rt'), 'first\n    1\nsecond\n    1\n    1\n')
    yield 'a text that is more than once', fails(texts_with, place, [one])
    after = one._replace(changes=[change._replace(after='second\n')])
    yield 'a text behind another', texts_with(place, [after]) == {
        'src/lib.rt': 'first\n    1\nsecond\n    2\n    1\n'}
    yield 'two edits of one text', fails(texts_with, place, [after, after])


def on_changes(place):
    write_text(os.path.join(place, 'src', 'lib.rt'), SOURCE)
    for old, new, named, is_apart in CHANGES:
        named = set(named.split())
        found = edits.functions_broken(place, Change('src/lib.rt', old, new), named)
        yield f'{new} for {old}', found == (named if is_apart else set())

    def edit(name, old, new, touches=()):
        return Edit(name, [Goal('toy', name, 'returns')], [Change('src/lib.rt', old, new)], touches)

    size, length, limit = edit('size', "b('{'", "i('{'"), edit('len', '  c\n', '  i\n'), edit('g', '> K', '>')
    # a function with the name of another, which is in its own file
    write_text(os.path.join(place, 'src', 'other.rt'), 'fn len() {\n    b()\n}\n')
    other = Edit('other', [Goal('toy', 'other::len', 'returns')], [Change('src/other.rt', 'b()', 'c()')])
    with mock.patch.object(edits, 'crate_folder', lambda crate: place):
        for group, sizes in (([size, length], [2]), ([size, size], [1, 1]), ([length, limit], [1, 1]),
                             ([length, limit._replace(touches=('usize',))], [1, 1]),
                             ([other, limit._replace(touches=('usize',))], [2]),
                             ([length, limit._replace(touches=('LIMIT',))], [2])):
            yield f'which go together of {group}', list(map(len, edits.groups_of('toy', group))) == sizes


def on_said():
    yield 'a caller', not said.refused_in('toy', 'fn toy::caller: no proof: it calls `row`\n')
    for line in NO_REFUSAL:
        yield line, (said.ill_formed(line) == [line.replace('\n  ', ' ')]
                     and said.refused_in('toy', line).get('a') is None)


def played(_, case):
    """Answers a case as the model of `inline_script`."""
    own = Case('', case.words, case.input, case.io)
    answer(own)
    return own.output, own.status


def answered(_, case):
    """Answers each call of questions with the same."""
    return re.sub('(?=; |\n)', ' = none, "" heap', beside.QUOTED.sub('""', case.input.decode())).encode(), 0


def on_digests(folder):
    """In words what is done, and whether `beside` says what it must."""
    path = os.path.join(folder, 'digests')

    def failed(text, runner=answered):
        write_text(path, text)
        with mock.patch.multiple(beside, run=runner, STEP=1000):
            failed, _ = beside.failed_digests({'one': ''}, beside.stored(path, {'calls': 1000}))
            return failed['one']

    with mock.patch.multiple(beside, run=answered, STEP=1000):
        lines, (answers,), tally = beside.answered([''], ('calls', 0))
    right = f'calls 0 {lines} {answers}\n'
    yield 'lines that are answered as is stored', failed(right) == 0
    yield 'another digest of answers', failed(f'calls 0 {lines} {"0" * 64}\n') == 1
    for text in (f'calls 0 {"0" * 16} {answers}\n', '', right * 2, f'calls 0 {lines}\n',
                 right.replace('calls 0', 'calls 1000')):
        yield f'digests {text}', fails(failed, text)
    for what, fault in LINE_FAULTS.items():
        yield what, failed(right, lambda *given: fault(answered(*given)[0])) == 1
    words, sort = text_of(beside.WORDS), 'pop none'
    yield 'the words of the commands', not fails(beside.check_words, words)
    yield 'another word', fails(beside.check_words, words.replace('"pop" =>', '"peek" =>'))
    yield 'enough of a sort', not list(too_few(tally, {sort: 10}))
    for floors in ({sort: 10 ** 6}, {'String flies': 1}, {sort: 0}, {}):
        yield f'floors {floors}', bool(list(too_few(tally, floors)))


def on_scripts(folder):
    """The same of `hostile`."""
    cases = hostile.named_cases()

    def is_right(runner):
        with mock.patch.object(hostile, 'run', runner):
            return hostile.are_right({'one': ''}, cases, INPUTS)

    yield 'a program that is as the model', is_right(played)
    for what, fault in SCRIPT_FAULTS.items():
        yield what, not is_right(lambda *given: fault(*played(*given)))
    path = os.path.join(folder, 'cases.py')
    whole = "CASES = [('a', [], b'', '', b'', 2), ('b', [], b'', '', b'', 2)]\n"
    for old, new in (('', ''), ("('a', [], b'', '', b'', 2), ", ''), ("'b'", "'a'"), ('2)', 'None)'),
                     ("b'', ''", "b'', 'stdin-nought'")):
        write_text(path, whole.replace(old, new))
        yield f'cases with {new} for {old}', fails(hostile.named_cases, 2, path) == bool(old)
    with mock.patch.multiple(hostile, HOSTILE_INPUTS=1, HOSTILE={'done': 10 ** 6}):
        yield 'too few replies', not is_right(played)


def shown():
    """All that is planted, in words, and whether it is noticed."""
    runs = [(f'{script} {stream}', run('/bin/sh', Case('', ['-c', script], b'input', stream)) == wanted)
            for script, stream, wanted in RUNS]
    with tempfile.TemporaryDirectory() as place, contextlib.redirect_stdout(io.StringIO()):
        os.mkdir(os.path.join(place, 'src'))
        return [*runs, *on_floors(), *on_edits(place), *on_changes(place), *on_said(), *on_digests(place),
                *on_scripts(place)]
