"""gate selftest: shows that the parts of the gate fail where they must, in a small repository of their own.

There a stand-in for `rt` says what a check would. Each part passes on what is in order, and has to fail, and
to say why, where one thing is broken: a row of BROKEN. `selftest_cases.py` has what needs no run of a part, and
`selftest_rows.py` what both builds of `inline_vectors`, which `rt ci` leaves, must find.
"""
import os
import re
import shutil
import tempfile

from gate_parts import selftest_cases, selftest_rows
from gate_parts.tree import in_tree, run_in, text_of, write_text

FLOORS = '''
EDITS, MUST_FAIL, WRONG_DEFINITIONS, WRONG_CLAUSES = {'toy': 1}, {'toy': 1}, {'toy': 1}, {'toy': 1}
CALLERS = 1
PROGRAMS = 1
REFUSALS, WRONG_BODIES, WRONG_BODIES_PROVED = {'toy': (2, 3)}, {'toy': 2}, {'toy': 1}
BENCH_WORKLOADS, BENCH_TEXTS = 1, {'One': 1, 'Two': 1}
GROWTH = {'jobs toy': 30_000, 'word_index': 4_000}
PROOFS, CITED, UNSAFE, ROWS = 2, 3, {}, 3
QUICK_PROVED, QUICK_PASSED, QUICK_HELD = 2, 1, 1
'''
SOURCE = '''pub const LIMIT: usize = 1;

/// One, as a caller wants it.
pub fn one() -> usize
    ensures value { result ≡ LIMIT }
{
    1
}

pub fn other() -> usize {
    one()
}
'''
LAW = '''ghost use Rattle.toy.specs.Word.{word};

pub fn law()
    ensures value { word ≡ 1 }
{}
'''
TESTS = '\n\n'.join(
    f'#[test]\nfn {name}(rt: HostRuntime) -> Result<(), Fail> {{\n    assert_{asserted})\n}}' for name, asserted in (
        ('first', 'requests(&rt, One, 0, Two, 2'), ('second', 'unseen(&rt, Two(1), 0, Three, (2, 1)')))
EDIT = '''edit two_for_one
refused: one returns-clause-value
old:     1
new:     2
'''
TABLE = '''| Edit | What is wrong | Refused by |
|---|---|---|
| `two_for_other` | it is two | `other` `returns-clause-value` |
'''
DEFINITION = '''edit two_is_one
refused: laws::law returns-clause-value
refused: above/rows::row returns-clause-value
old: word = 1
new: word = 2
'''
CLAUSE = '''edit one_promises_nothing
refused: callers/call returns-clause-value
old: result ≡ LIMIT
new: result ≡ result
'''
BODY = EDIT.replace('one returns-clause-value', 'refusals::first none')
PROVED_BODY = BODY.replace('none', 'more')
OTHER_BODY = BODY.replace('first', 'second').replace('    1', '    one()').replace('    2', '    3')
IN_LIB = 'file: src/lib.rt\nold:'
# A workload on two types of text, and a program that has its sum.
WORKLOADS = '''from collections import namedtuple

Workload = namedtuple('Workload', 'name word width drawn rounds texts')
WORKLOADS, AT_CAPACITIES = (Workload('from 6', 'from', 6, lambda: b'input', (1, 2), ('One', 'Two')),), ()
'''
SUMMING = '''#!/bin/sh
[ "$(cat) $2 $3 $4" = "input from 6 2" ] && case $1 in One | Two) echo 11;; esac
'''
# A turn for each of its names or words.
GROWING = '''#!/bin/sh
turns=$3
[ "$1" = toy ] || turns=$(wc -w)
echo "$turns"
while [ "$turns" -gt 0 ]; do turns=$((turns - 1)); done
'''
# Four times the size takes 32 times as long: a machine that is slow for a while does not hide it.
STEEP = '$((turns * turns / 60000 * (turns / 30000 + 2) / 3))'
# It finds a row wrong that has that word.
PLAYS = '; plays: String 2; calls 1, run 1\n'
PLAYING = f'''#!/bin/sh
cat "$@" >/dev/null || exit 2
for file; do
    echo "$file: $(grep -c '^[^ #]' "$file") rows, $(grep -c wrong "$file") wrong{PLAYS[:-1]}"
done
! grep -q wrong "$@"
'''
# What `rt try --test` says of two tests, of which one needs the proved build.
HELD = 'test two ... FAILED\n    this test needs the proved build\n'
TRIED = f'test one ... ok\n{HELD}test result: FAILED.'
# It says what the variables of its environment tell it to: where WORD stands in a source or a
# definition, the functions of REFUSED are refused, with a line ERROR before that.
STAND_IN = r'''#!/usr/bin/env python3
import os, re, sys
crate, words = os.path.basename(os.getcwd()), sys.argv[1:]
texts = {}
for place, _, names in os.walk('..'):
    for path in (os.path.join(place, name) for name in names if name.endswith(('.rt', '.antt'))):
        texts[path] = open(path, encoding='utf-8').read()
text = ''.join(texts.values())
def is_refused(function):
    copy = re.match('copied::r(.*)::', function)
    own = ''.join(texts[path] for path in texts if f'/E{copy[1]}' in path) if copy else text
    return crate + '/' + function.split('::')[-1] in os.environ.get('REFUSED', '').split() and os.environ['WORD'] in own
if words[:2] == ['try', '--']:
    print(open(os.environ['PRINTED']).read(), end='')
    sys.exit(int(os.environ['STATUS']))
if crate in ('inlinable_string', 'inline_tests'):
    print(os.environ[crate.upper()])
    sys.exit(int(os.environ['STATUS']))
if words[0] == 'test':
    for name, planted in ('first', '    2\n'), ('second', '    3\n'):
        print(f'test refusals::{name} ... ' + ('FAILED\n    ' + os.environ['FELL'] if planted in text else 'ok'))
    sys.exit()
if words[0] == 'try':
    turns = re.findall(r'fn ((first|second)_at_(\d))', text)
    for name, of, turn in turns or [(of, of, words[-1]) for of in ('first', 'second')]:
        is_wrong = {'first': '    2\n', 'second': '    3\n'}[of] in text
        said = os.environ['WRONG' if is_wrong else of.upper()]
        print(f'test refusals::{name} ... ' + os.environ.get('RESULT', 'ok'))
        for said in said.split(',')[int(turn) - 1:][:1]:
            print('    {} refused of {} requests, {} unseen'.format(*said.split()))
    print('test result: ok.' if 'CUT_OFF' not in os.environ else '')
    sys.exit()
asked = [words[at + 1] for at, word in enumerate(words) if word == '--only'] or {'toy': ['one', 'other'], 'above': ['row'], 'callers': ['call'], 'pasted': ['main'], 'inline_script': ['main']}[crate]
if any(map(is_refused, asked)):
    print(os.environ.get('ERROR', ''))
for function in asked:
    if is_refused(function):
        print('note: src/lib.rt:1:1: it is not proved that all is well (`returns-clause-value`); so it is')
        print(f'fn {crate}::{function}: no proof: expected answers in ./proofs')
    else:
        print(f'fn {crate}::{function}: proved')
if '--list-axioms' in words:
    print('  libc::read   reached')
sys.exit(any(map(is_refused, asked)))
'''
TOGETHER, ALONE = 'crates/toy/must-fail-together/lib.edits', 'crates/toy/must-fail/two_for_other.edit'
LISTED, DEFINITIONS = 'crates/toy/must-fail/README.md', 'crates/toy/wrong-definitions/Word.edits'
CLAUSES, LIB = 'crates/toy/wrong-clauses/lib.edits', 'crates/toy/src/lib.rt'
BODIES, OTHER_BODIES = 'crates/toy/wrong-bodies/lib.edits', 'crates/toy/wrong-bodies/other.edits'
PROVED_BODIES, SWEPT = 'crates/toy/wrong-bodies-proved/lib.edits', 'crates/toy/src/refusals.rt'
PROOF = 'crates/toy/proofs/Toy.antt'
ARGS, STDOUT = 'crates/inline_vectors/args', 'crates/inline_vectors/stdout'
ONE, TWO = 'crates/inline_vectors/data/one.rows', 'crates/inline_vectors/data/two.rows'
LLVM, RATTLE = (f'crates/inline_vectors/out/inline_vectors{ending}' for ending in ('', '.by-rattle'))
SHOWN = 'crates/inline_script/stdout'
JOBS, WORDS = 'crates/jobs/out/jobs', 'crates/word_index/out/word_index'
REPOSITORY = {
    '.ci/floors.py': text_of(in_tree('.ci', 'floors.py')) + FLOORS, 'HANDLES': 'Handles allowed: none.\n',
    'crates.txt': 'toy:\nabove: toy\ncallers: toy\ninlinable_string:\ninline_script: toy\ninline_tests:\ninline_vectors:\n'
                  'jobs:\nword_index:\n',
    'bin/rt': STAND_IN, 'bin/program': SUMMING, LIB: SOURCE, SWEPT: TESTS, 'crates/toy/src/laws.rt': LAW,
    'crates/toy/specs/Lib.antt': 'pub mod Word\n', 'crates/toy/specs/Word.antt': 'word = 1\n',
    'crates/above/src/lib.rt': 'pub mod rows;\n', 'crates/above/src/rows.rt': LAW.replace('law', 'row'),
    'crates/callers/src/lib.rt': SOURCE.replace('one', 'call'), TOGETHER: EDIT, LISTED: TABLE,
    'crates/inline_script/src/main.rt': 'fn main() {}\n', SHOWN: 'done\n',
    'crates/inline_script/args': 'inline\n', 'crates/inline_script/stdin': 'clear\n',
    'crates/inlinable_string/args': '', 'crates/inline_tests/args': '',
    ALONE: 'file: src/lib.rt\nold:     one()\nnew:     2\n', DEFINITIONS: DEFINITION, CLAUSES: CLAUSE,
    BODIES: BODY, PROVED_BODIES: PROVED_BODY, OTHER_BODIES: OTHER_BODY.replace('two_for', 'three_for').replace('old:', IN_LIB),
    'bench/sums.py': text_of(in_tree('bench', 'sums.py')), 'bench/workloads.py': WORKLOADS,
    ARGS: 'one.rows\ntwo.rows\n', STDOUT: f'one.rows: 2 rows, 0 wrong{PLAYS}two.rows: 1 rows, 0 wrong{PLAYS}',
    ONE: '# Two rows.\nfirst:\n  call\nsecond: call\n', TWO: 'third: call\n', LLVM: PLAYING, RATTLE: PLAYING,
    'bench/sums': '11 from 6\n', JOBS: GROWING, WORDS: GROWING, PROOF: 'one = 1\n',
    'README.md': '```rust\nfn main() {}\n```\nIt prints `fn pasted::main: proved`. `toy/src/lib.rt` has `rows::row`.\n'
                 'C files, of which `inline_script` calls `read`.\n'}
# By part, the words behind it and the environment in which it passes.
IN_ORDER = {
    'edits': ('--jobs 2', {'WORD': '    2\n', 'REFUSED': 'toy/one toy/other'}),
    'definitions': ('--jobs 2', {'WORD': 'word = 2', 'REFUSED': 'toy/law above/row'}),
    'callers': ('', {'WORD': 'result ≡ result', 'REFUSED': 'callers/call'}),
    'refusals': ('', {'FIRST': 'one 2 0,one 2 0,last 2 0', 'SECOND': 'none 2 1,one 2 1,last 2 1',
                      'WRONG': 'none 2 0,none 2 0', 'WORD': 'WRONG', 'FELL': 'more'}),
    'bench': ('bin/program', {}),
    'rows': ('', {}),
    'quick': ('', {'INLINABLE_STRING': 'only=2 proved=2', 'INLINE_TESTS': TRIED, 'PRINTED': 'stdout', 'STATUS': '0'}),
    'counts': ('', {})}
ILL = './specs/E1Word.antt:1:1: error: `word`: expected type `ℕ`'
# A part, what it must say, and what is broken: another environment, or in a file a text, and what is in its
# place. Where that is None, the file is gone.
BROKEN = (
    ('edits', 'one: returns-clause-value is not refused', {'REFUSED': 'toy/other'}),
    ('edits', 'other: returns-clause-value is not refused', {'REFUSED': 'toy/one'}),
    ('edits', 'toy is not proved as it is', {'WORD': '    1\n'}),
    ('edits --proved', 'toy is not proved as it is', {'WORD': '    1\n'}),
    ('edits', 'clause-other is not refused', TOGETHER, 'clause-value', 'clause-other'),
    ('edits', 'which is not of toy', TOGETHER, ': one', ': above/row'),
    ('edits', 'two_for_one: this is 0 times', TOGETHER, 'old:     1', 'old:     3'),
    ('edits', '/crates/toy/src/none.rt', TOGETHER, 'old:', 'file: src/none.rt\nold:'),
    ('edits', 'must-fail/ and the table of its README differ', LISTED, 'two_for_other', 'two'),
    ('edits', 'or change, (Change', TOGETHER, EDIT, EDIT + '\n' + EDIT.replace('two_for_one', 'again')),
    ('edits', 'has 1 edits in must-fail-together', '.ci/floors.py', "= {'toy': 1},", "= {'toy': 2},"),
    ('edits', 'has 1 edits in must-fail,', '.ci/floors.py', "= {'toy': 1}, {'toy': 1},", "= {'toy': 1}, {},"),
    ('definitions', 'tried at above/rows::row', {'REFUSED': 'toy/law'}),
    ('definitions', 'tried at toy/laws::law', {'REFUSED': 'above/row'}),
    ('definitions', 'above/rows::row is not proved as it is', {'WORD': 'word = 1', 'REFUSED': 'above/row'}),
    ('definitions', 'not well formed', {'ERROR': ILL}),
    ('definitions', None, {'ERROR': ILL.replace('E1', 'E2')}),
    ('definitions', 'changes nothing that above/rows::row', 'crates/above/src/rows.rt', 'word ≡', 'other ≡'),
    ('definitions', 'toy/one is no row', DEFINITIONS, 'laws::law', 'one'),
    ('definitions', 'must change files of specs/', DEFINITIONS, 'old:', IN_LIB),
    ('definitions', 'has 1 edits in wrong-definitions', '.ci/floors.py', "1}, {'toy': 1}\n", "2}, {'toy': 1}\n"),
    ('definitions --named three', 'nothing has that name', {}),
    ('callers', 'call: returns-clause-value is not refused', {'REFUSED': ''}),
    ('callers', 'toy is not proved as it is', {'REFUSED': 'toy/one'}),
    ('callers', '1 public functions', '.ci/floors.py', 'CALLERS = 1\n', 'CALLERS = 2\n'),
    ('callers', '1 READMEs have a program', '.ci/floors.py', 'PROGRAMS = 1', 'PROGRAMS = 2'),
    ('callers', 'has 1 edits in wrong-clauses', '.ci/floors.py', '1}\nCALLERS', '2}\nCALLERS'),
    # (the folder stays)
    ('callers', 'does not run as it says', 'README.md', 'main: proved', 'main: not proved'),
    ('callers', 'other C functions', 'README.md', '`read`', '`read`, `write`'),
    ('callers', 'a folder proofs', 'crates/callers/proofs/Lib.antt', '', 'one = 1\n'),
    ('refusals', None, {'SECOND': 'one 2 0,one 2 0,last 2 0'}),
    ('refusals', 'TOO FEW', {'FIRST': 'one 1 0,last 1 0,none 1 0'}),
    ('refusals', 'first says one refused', '.ci/floors.py', 'PREPARED = {', "PREPARED = {'toy': 1, "),
    ('refusals', '6 of 6 tests failed', {'RESULT': 'FAILED'}),
    ('refusals', '1 of 6 tests failed', {'CUT_OFF': ''}),
    ('refusals', 'must be a call of `assert_requests`', SWEPT, 'One', 'Some(One)'),
    ('refusals', '3 meetings, 0 of 7 tests failed', SWEPT, '#[test]', TESTS[:TESTS.index('\n\n')].replace(
        'first', 'unseen').replace('2)', '0)') + '\n\n#[test]'),
    *(('refusals', 'second says', {'SECOND': said}) for said in (
        'one 1 0,one 1 0', 'one 2 0,last 2 0', 'one 1 0,last 1 0,one 1 0', 'none 1 0', 'none 2 1,none 2 1',
        'one 1 1,last 1 1', 'one 1 0')),
    ('refusals', 'first does not go wrong with `none`', {'WRONG': 'one 2 0,one 2 0'}),
    ('refusals', 'second goes wrong, and no edit', BODIES, BODY, BODY + 'old:     one()\nnew:     3\n'),
    ('refusals', 'a test is named twice', BODIES, 'old:', 'refused: refusals::first last\nold:'),
    ('refusals', 'has 2 edits in wrong-bodies', '.ci/floors.py', "(2, 3)}, {'toy': 2}", "(2, 3)}, {'toy': 1}"),
    ('refusals', 'first does not go wrong with `more`', {'FELL': 'less'}),
    ('refusals', 'toy is not proved as it is', {'WORD': '    2\n', 'REFUSED': 'toy/one'}),
    ('refusals', 'second goes wrong, and no edit', PROVED_BODIES, 'old:     1\nnew:     2',
     'old:     one()\nnew:     3\nold:     1\nnew:     2'),
    ('refusals', 'has 1 edits in wrong-bodies-proved', '.ci/floors.py', "2}, {'toy': 1}\nB", "2}, {}\nB"),
    ('bench', 'wanted 11, given 12', 'bin/program', 'echo 11', 'echo 12'),
    ('bench', 'is not there', 'bin/program', '', None),
    ('bench', '0 are `Two`, and at least 1 must be', 'bench/workloads.py', "'One', 'Two'", "'One',"),
    ('bench', 'missing, or of no workload: from 6', 'bench/sums', '11 from 6\n', ''),
    ('bench', 'nothing was summed: from 6', 'bench/sums', '11', '0'),
    *(('bench', 'must be from 2 to 8', program, 'echo', f'turns={turns}; echo') for program, turns in (
        (JOBS, STEEP), (WORDS, STEEP), (JOBS, '30000'))),
    ('bench', 'too short to be compared', JOBS, 'echo', 'turns=1; echo'),
    *(('bench', 'must end with 0 and print the same', JOBS, *answer) for answer in (
        ('echo "$turns"\n', ''), ('"$turns"\n', '$$\n'), ('; done\n', '; done\nexit 3\n'))),
    ('bench', 'is not there', WORDS, '', None),
    ('rows', 'args must be these 2 lines', ARGS, 'two.rows\n', ''),
    *(('rows', 'stdout must be these 2 lines', STDOUT, *fault) for fault in ((': 2', ': 1'), (PLAYS, '\n'))),
    # A type, a way or a room is lost: of the room both numbers are less.
    *(('rows', 'status 0: NOT WELL', program, *fault) for program in (LLVM, RATTLE) for fault in (
        ('String 2', 'String 0'), ('run 1', 'run 0'), ('String 2; calls 1', 'String 1; calls 0'))),
    ('rows', 'two.rows has no row', TWO, 'third', '# third'),
    ('rows', 'two.rows:1: the row is that of one.rows:2', TWO, 'third', 'first'),
    ('rows', 'there are 2 rows', ONE, 'second', ' second'),
    ('rows', 'there are 3 rows', '.ci/floors.py', '{}, 3\n', '{}, 2\n'),
    ('rows', 'two.rows: 1 rows, 1 wrong', TWO, 'call', 'wrong'),
    *(('rows', *fault) for program in (LLVM, RATTLE) for fault in (
        ('status 0: NOT WELL', program, ' wrong;', ' bad;'), ('status 1: NOT WELL', program, '! ', ''),
        ('is not there', program, '', None))),
    (f'rows {ONE} {TWO}', None, ARGS, 'two.rows\n', ''),
    (f'rows {ONE} {TWO}', 'status 1: NOT WELL', TWO, 'call', 'wrong'),
    ('rows none.rows', 'status 2: NOT WELL', {}),
    *(('quick', 'inlinable_string::run are proved: NOT WELL', broken) for broken in (
        {'INLINABLE_STRING': 'only=2 proved=1'}, {'INLINABLE_STRING': 'only=1 proved=1'}, {'STATUS': '1'})),
    *(('quick', f'{found} need the proved build: NOT WELL', {'INLINE_TESTS': TRIED.replace(*changed)})
      for found, *changed in (
          ('0 tests passed, 1 failed, 1', 'ok', 'FAILED'), ('1 tests passed, 1 failed, 1', 'test result: FAILED.', ''),
          ('0 tests passed, 0 failed, 1', 'test one ... ok', ''), ('1 tests passed, 0 failed, 2', HELD, HELD + HELD))),
    *(('quick', 'inline_script runs its script: NOT WELL', *broken) for broken in (
        ({'PRINTED': 'stdin'},), ({'STATUS': '1'},), (SHOWN, 'done\n', ''))),
    ('counts', 'there is no toy/src/other.rt', 'README.md', 'lib.rt', 'other.rt'),
    ('counts', 'is no word of std', 'README.md', 'has `rows', 'lies in `rows'),
    ('counts', 'there is no rows::law', 'README.md', 'rows::row', 'rows::law'),
    ('counts', '2 are `names`, and at least 3 must be', 'README.md', '`rows::row`', 'a row'),
    ('counts', '1 are `proofs`, and at least 2 must be', PROOF, '', None),
    ('counts', "unsafe blocks: {'others': 1}", LIB, '    1\n', '    unsafe { 1 }\n'),
    *(('counts', 'no code may name', LIB, 'pub fn other', f'{code}\npub fn other') for code in (
        'impl Comparable<u8> for One {}', 'fn find<K, Q: Equivalent<K>>(key: Q) {}',
        'use std::collections::btree_map::{BTreeMap, Comparable};')),
    ('counts', None, LIB, 'pub fn other', '/// No `Comparable`.\npub fn other'),
    ('counts', 'more than 100 columns', LIB, '    1\n', '    1 + ' + '1' * 93 + '\n'),
    ('counts', 'more than 100 columns', TWO, 'call', 'call' * 24),
    ('counts', 'is no word of std', ONE, 'Two', 'so many'),
    ('counts', 'more than 500 lines', LIB, '    1\n', '    1\n' * 500),
    ('counts', 'one has 31 lines', PROOF, '1\n', '1\n' + '    1\n' * 30))
PARTS = '#!/bin/sh\necho part "$@"\n[ "$1" != "$FAILING" ]\n'


class Repository:
    def __init__(self, place):
        self.place = place
        shutil.copytree(in_tree('.ci'), self.path('.ci'), ignore=shutil.ignore_patterns('__pycache__'))
        for name, text in REPOSITORY.items():
            self.write(name, text)

    def path(self, name):
        return os.path.join(self.place, name)

    def write(self, name, text):
        """Has the file this text; None where there is to be no file."""
        if text is None:
            os.remove(self.path(name))
            return
        os.makedirs(os.path.dirname(self.path(name)), exist_ok=True)
        write_text(self.path(name), text)
        os.chmod(self.path(name), 0o755)

    def ran(self, name, *words, **variables):
        """What a program of the repository prints, and its exit status."""
        path = self.path('bin') + os.pathsep + os.environ['PATH']
        return run_in(self.place, self.path(name), *words, PATH=path, **variables)

    def is_noticed(self, part, why, *broken):
        """Whether a part fails, and says why, where this is broken; with no `why`, whether it passes."""
        name, *more = part.split()
        words, variables = IN_ORDER[name]
        path, old, new = broken if len(broken) == 3 else ('HANDLES', '', '')
        own = REPOSITORY.get(path)
        self.write(path, own.replace(old, new, 1) if own and new is not None else new)
        changed = broken[0] if len(broken) == 1 else {}
        printed, status = self.ran('.ci/gate', name, *words.split(), *more, **{**variables, **changed})
        self.write(path, own)
        return status == 1 and why in printed if why else status == 0


def on_options(repository):
    """Whether each part of the gate, and what is no part of it, tells its options."""
    said, _ = repository.ran('.ci/gate')
    for part in re.search('PART is one of: (.*)', said)[1].split(', '):
        yield f'{part} --help', repository.ran('.ci/gate', part, '--help')[1] == 0


def on_run(repository):
    """The same of `.ci/run`, which ends at the first part that fails, and keeps what parts print."""
    parts = len(re.findall('^part ', text_of(repository.path('.ci/run')), re.MULTILINE))
    repository.write('.ci/gate', PARTS)
    repository.write('bin/rt', PARTS)
    for failing, last in (('none', f'PASSED: all {parts} parts'), ('ci', 'FAILED in rt ci, '),
                          ('hostile', 'FAILED in .ci/gate hostile, ')):
        printed, status = repository.ran('.ci/run', FAILING=failing)
        is_kept = 'part bench\n' in text_of(repository.path('out/gate.log'))
        found = [status == 0, printed.count(' .. passed, in ') == parts, is_kept]
        yield f'.ci/run, where {failing} fails', (
            printed.splitlines()[-1].startswith(last) and found == [failing == 'none'] * 3)


def main(_):
    """Whether all that is planted is noticed, and nothing else."""
    with tempfile.TemporaryDirectory(prefix='gate-selftest-') as place:
        repository = Repository(place)
        rows = [*((part, None) for part in IN_ORDER), *BROKEN]
        shown = [(' '.join(map(str, row)), repository.is_noticed(*row)) for row in rows]
        shown += [*on_options(repository), *on_run(repository)]
    shown += [*selftest_cases.shown(), *selftest_rows.shown()]
    unnoticed = [f'NOT NOTICED: {what}' for what, is_noticed in shown if not is_noticed]
    print(*unnoticed, f'{len(shown)} things shown, {len(unnoticed)} not', sep='\n')
    return not unnoticed
