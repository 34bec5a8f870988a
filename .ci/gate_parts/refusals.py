"""gate refusals [CRATE ..]: fails each allocation of the tests in turn, from the first on.

The tests of the modules `refusals` must pass each time, and each says what its rows state: how many requests
it makes, and how many of them are unseen, as std does without (`shrink_to_fit` and `collect` do so). One request
more of each test is its last. A test must say `one refused` where one of its requests fails, except as often as
it has unseen ones, and `last refused` at the next. So a call that allocates where it need not is found, even if it does
without where that fails. A build of these tests fails one allocation, always the same. So each test makes a fixed number
before its call, which floors.py has, and the one build has it several times, with one less before the call each time.
Rows of `inline_vectors` that state requests are played by its program, in two builds (`stated_rows.py`).
Without CRATE the wrong bodies of `wrong-bodies/` and `wrong-bodies-proved/` are tried too, as docs/TESTING.md
says.
"""
import os
import re
from collections import defaultdict
from glob import glob

from floors import PREPARED, REFUSALS, WRONG_BODIES, WRONG_BODIES_PROVED
from gate_parts.edit_files import edits_of, read_edits, texts_with
from gate_parts.rooms import Room, copies, require_proof
from gate_parts.stated_rows import CRATE, rows_are_swept, wrong_rows
from gate_parts.tree import PROCESSORS, Failure, crate_folder, crates_with, run_in, too_few

OPTIONS, FOLDER, PROVED = 'crates', 'wrong-bodies', 'wrong-bodies-proved'

# A test, and what it printed.
TEST = re.compile(r'^test (?!result:)(\S+) [^\n]*?(\S+)$(.*?)(?=^test |\Z)', re.MULTILINE | re.DOTALL)
OF_REFUSALS = re.compile(r'(^|::)refusals::')
SAYING = re.compile(r'^ +(one|last|none) refused of (\d+) requests, (\d+) unseen$', re.MULTILINE)
ENDED = re.compile(r'^test result:', re.MULTILINE)
# A test as it is written: its name, the number of requests for its state, and how many its call makes.
WRITTEN = re.compile(r"""^#\[test\]
fn (\w+)(\(rt: HostRuntime\) -> Result<\(\), Fail> \{
(?:    let [^\n]*;\n)?    assert_\w+\(&rt, \w+(?:\(\d+\))?, )([^,]+)(, .*?, \(?(\d+)(?:, \d+\))?\)
\})$""", re.MULTILINE | re.DOTALL)
MODULE = re.compile(r'^(#\[cfg\(test\)\]\nmod (\w+);\n)', re.MULTILINE)


def tests_of(said):
    """Of the tests of the modules `refusals`, what each says, and how many failed.

    A run that ended early counts as a failed one.
    """
    own = [(name, how, SAYING.findall(printed)) for name, how, printed in TEST.findall(said)
           if OF_REFUSALS.search(name)]
    failed = sum(how != 'ok' for _, how, _ in own) + (not ENDED.search(said))
    return {name: sayings for name, _, sayings in own}, failed


def faults_of(request, sayings, unseen):
    """In words, which tests say what they must not where this allocation fails.

    How often each didn't see its refusal is brought up to date.
    """
    for name, said in sorted(sayings.items()):
        if len(said) != 1:
            yield f'{name} says {len(said)} times what it met'
            continue
        which, count, most_unseen = said[0][0], *map(int, said[0][1:])
        wanted = 'one' if request <= count else 'last' if request == count + 1 else 'none'
        is_unseen = wanted == 'one' and which == 'none'
        unseen[name] = unseen.get(name, 0) + is_unseen
        if which != wanted and not (is_unseen and unseen[name] <= most_unseen):
            yield f'{name} says {which} refused of {count} requests where allocation {request} fails'
        if wanted == 'last' and unseen[name] != most_unseen:
            yield f'{name} says {most_unseen} unseen requests, and has {unseen[name]}'


def is_swept(crate):
    """Fails each allocation of the tests of a crate; whether all was well."""
    prepared, turns, unseen = PREPARED.get(crate, 0), defaultdict(dict), {}
    with copies([], 1) as (top,), Room(top, crate) as room:
        texts = in_turn(room)
        room.write({**with_tests_of({'refusals'}, room), **texts})
        said = run_in(room.folder, 'rt', 'try', '--test', '--fail-alloc', str(prepared + 1))[0]
    sayings, failed = tests_of(said)
    for name, told in sayings.items():
        test, turn = name.rsplit('_at_', 1)
        turns[int(turn)][test] = told
    faults = [fault for turn, own in sorted(turns.items()) for fault in faults_of(prepared + turn, own, unseen)]
    meetings = sum(which == 'one' for each in sayings.values() for which, _, _ in each)
    requests = max((int(count) for each in sayings.values() for _, count, _ in each), default=0)
    least = zip(('requests', 'meetings'), REFUSALS.get(crate, (1, 1)))
    faults += too_few({'requests': requests, 'meetings': meetings}, dict(least))
    count = sum(text.count('#[test]') for text in texts.values())
    is_well = not failed and not faults and len(sayings) == count
    print(f'{crate}: up to request {requests} each failed, {meetings} meetings, {failed} of {count} tests failed',
          *faults, *[said] * (not is_well), sep='\n')
    return is_well


def in_turn(room):
    """The texts of the modules `refusals` with each test once for each request of its call and for the next one, each
    time with one request less before the call."""
    texts = {}
    for path in files_of('refusals', room):
        texts[path], count = WRITTEN.subn(turns_of, room.text(path))
        if count != room.text(path).count('#[test]'):
            raise Failure(f'{path}: a test must be a call of `assert_requests` or `assert_unseen` with its numbers')
    return texts


def turns_of(found):
    name, head, own, rest, requests = found.groups()
    return '\n\n'.join(f'#[test]\nfn {name}_at_{turn}{head}{own} + {turn - 1}{rest}'
                       for turn in range(1, int(requests) + 2))


def tried(top, crate, names, own):
    """What the tests of a crate print where an allocation fails, and by name that of those that go wrong; of
    the program of rows, what its rows with these names print."""
    if crate == CRATE:
        return wrong_rows(top, names, own)
    request = PREPARED.get(crate, 0) + 1
    with Room(top, crate) as room:
        room.write(with_tests_of({'refusals'}, room))
        said = run_in(room.folder, 'rt', 'try', '--test', '--fail-alloc', str(request))[0]
    return said, {name: printed for name, how, printed in TEST.findall(said)
                  if how != 'ok' or list(faults_of(request, {name: SAYING.findall(printed)}, {}))}


def tested(top, library, crate, modules):
    """The same of the proved build, over a library whose bodies keep each contract, with the tests of these modules
    alone: each costs a proof."""
    require_proof(top, library, PROCESSORS)
    with Room(top, crate) as room:
        room.write(with_tests_of(modules, room))
        said = run_in(room.folder, 'rt', 'test')[0]
    return said, {name: printed for name, how, printed in TEST.findall(said) if how != 'ok'}


def files_of(module, room):
    """The files of a module, and of those right below it."""
    return [os.path.relpath(path, room.folder) for end in ('.rt', '/*.rt')
            for path in glob(os.path.join(room.folder, 'src', module + end))]


def with_tests_of(modules, room):
    """The texts of a crate of tests with those modules of tests alone, and what has no tests."""
    root, texts = room.text('src/lib.rt'), {}
    for line, module in MODULE.findall(root):
        paths = files_of(module, room)
        if module not in modules and any('#[test]' in room.text(path) for path in paths):
            texts.update(dict.fromkeys(paths))
            root = root.replace(line, '')
    return {**texts, 'src/lib.rt': root}


def are_refused(library, edits, named=None):
    """Whether tests go wrong over these wrong bodies of a library as they say, and no other that is named; where
    no names are given, those of the proved build do, and no other of their modules."""
    goals = [goal for edit in edits for goal in edit.goals]
    crate, own = goals[0].crate, {goal.function for goal in goals}
    with copies([library, crate], 1) as (top,), Room(top, library) as room:
        room.write(texts_with(crate_folder(library), edits))
        modules = {function.split('::')[0] for function in own}
        said, found = tested(top, library, crate, modules) if named is None else tried(top, crate, named, own)
    others = found.keys() - own if named is None else named & found.keys() - own
    faults = [f'{goal.function} does not go wrong with `{goal.name}`' for goal in goals
              if goal.name not in re.findall(r'\w+', found.get(goal.function, ''))]
    faults += [f'{name} goes wrong, and no edit here names it' for name in sorted(others)]
    faults += ['a test is named twice'] * (len(own) < len(goals))
    print(f'{library}: {"NOT AS THEY MUST BE" if faults else "refused by tests"}',
          *(edit.name for edit in edits), *faults, *[said] * bool(faults), sep='\n    ', flush=True)
    return not faults


def groups_of(folder, said):
    """The wrong bodies in such folders, of the number that floors.py has: by library those of each file."""
    for library in sorted({*crates_with(folder), *said}):
        edits_of(library, folder, said)
        whole = os.path.join(crate_folder(library), folder)
        for path in sorted(glob(os.path.join(whole, '*'))):
            yield library, read_edits(whole, path, library)


def main(given):
    unproved, proved = [list(groups_of(*folder)) * (not given.crates)
                        for folder in ((FOLDER, WRONG_BODIES), (PROVED, WRONG_BODIES_PROVED))]
    named = frozenset(function for _, edits in unproved for edit in edits for _, function in edit.functions())
    return all([*[rows_are_swept(named) if crate == CRATE else is_swept(crate) for crate in given.crates or REFUSALS],
                *[are_refused(library, edits, named) for library, edits in unproved],
                *[are_refused(library, edits) for library, edits in proved]])
