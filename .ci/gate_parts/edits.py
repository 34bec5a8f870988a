"""gate edits [CRATE ..] [--named WORD] [--proved] [--jobs N]: tries wrong code, several edits in one check.

With --named only those edits are tried whose name has the word in it. The functions that they name must be
proved as they are; after `rt ci`, --proved says that they are, and only libraries are built. docs/TESTING.md
says which edits go together, and why that is as strict as to try each alone. Which functions a change breaks is
told by the layout of `rt fmt` and by their last names: an edit that names another of the same name leaves that
one proved, and fails.
"""
import os
import re
from collections import namedtuple
from functools import lru_cache
from time import monotonic

from floors import EDITS, MUST_FAIL
from gate_parts.edit_files import (
    edits_of, place_of, read_edit, refuse_repetitions, require_as_many, texts_with)
from gate_parts.rooms import Room, require_libraries, require_proofs, said_of, tried_in_copies
from gate_parts.said import answers_of, refused_in
from gate_parts.tree import Failure, crate_folder, crates_with, text_of

OPTIONS = 'crates --named --proved --jobs'
FOLDER, ALONE = 'must-fail-together', 'must-fail'
# A row of the README of `must-fail/`: a name, what is wrong, what refuses it and what it touches.
ROW = re.compile(r'^\| `(\w+)` \| [^|]+ \| ([^|]+) \|$', re.MULTILINE)
REFUSAL = re.compile(r'`([\w:]+)` `([\w-]+)`')
TOUCHED = re.compile(r'touches `(\w+)`')
HEAD = re.compile(r'( *)(?:[a-z]\S* )*(fn|macro_rules!) (\w+)')
# A function or a macro, and the lines on which it begins, its body begins, and it ends.
Body = namedtuple('Body', 'kind name first opened closed')


def must_fail_edits(crate):
    """The edits of `must-fail/`, which `rt ci` tries too: each is a row of the table, each row an edit."""
    folder = os.path.join(crate_folder(crate), ALONE)
    if not os.path.isdir(folder):
        return []
    rows = ROW.findall(text_of(os.path.join(folder, 'README.md')))
    names, told = sorted(os.listdir(folder)), sorted(['README.md', *(f'{name}.edit' for name, _ in rows)])
    if names != told:
        odd = sorted(set(names) ^ set(told)) or 'a row stands twice'
        raise Failure(f'{crate}: must-fail/ and the table of its README differ: {odd}')
    return [alone_edit(crate, os.path.join(folder, f'{name}.edit'), name, refused) for name, refused in rows]


def alone_edit(crate, path, name, refused):
    lines = [f'edit {name}', *(f'refused: {function} {goal}' for function, goal in REFUSAL.findall(refused)),
             *(f'touches: {word}' for word in TOUCHED.findall(refused)), *text_of(path).split('\n')]
    return read_edit(path, crate, '\n'.join(filter(None, lines)) + '\n')


def own_edits(crate):
    """The edits of the crate, which name functions of it alone; as many as are said."""
    together, alone = edits_of(crate, FOLDER, EDITS, crate), must_fail_edits(crate)
    require_as_many(crate, ALONE, alone, MUST_FAIL)
    refuse_repetitions(crate, together + alone)
    return together + alone


@lru_cache(maxsize=None)
def bodies(text):
    lines = text.split('\n')
    return [body for first, line in enumerate(lines) if HEAD.match(line) for body in body_at(lines, first)]


def body_at(lines, first):
    """The body of what begins at a line; none where it has only a contract."""
    indent, kind, name = HEAD.match(lines[first]).groups()
    # the lines as far in as the first: a brace, or the end of what is said before it
    beside = [at for at in range(first, len(lines)) if re.match(indent + r'\S', lines[at])]
    for at, end in zip(beside, [*beside[1:], None]):
        if at > first and lines[at].lstrip()[0] not in '){w':
            return
        if lines[at].endswith(('{', '{}')):
            yield Body(kind, name, first, at, at if lines[at].endswith('}') else end)
            return


def body_changed(text, change):
    """The body that the change stays in; None where it is in none, or leaves it."""
    line = text.count('\n', 0, place_of(change, text))
    # what is put in behind the brace that begins the body is in it
    around = [body for body in bodies(text) if body.opened < line < body.closed
              or line == body.opened and change.new.startswith(change.old)]
    depths = [part.count('{') - part.count('}') for part in (change.old, change.new)]
    return max(around, key=lambda body: body.opened) if around and depths[0] == depths[1] else None


def functions_broken(folder, change, named):
    """Those of the named functions in whose bodies or answers the change stands: all, where it is in a macro
    that is used for as many. None, where it may break others."""
    if change.path.startswith('proofs/'):
        return named & {answers_of(change.path)}
    body = body_changed(text_of(os.path.join(folder, change.path)), change)
    if body and body.kind != 'fn':
        uses = sum(len(re.findall(rf'\b{body.name}!', text)) for text in sources(folder))
        return named if uses == len(named) else set()
    return {function for function in named if body and function.split('::')[-1] == body.name}


@lru_cache(maxsize=None)
def text_of_function(crate, function):
    """The functions of its name, in its own file if that has one, with contracts, and its answers; None where none
    is found."""
    folder, (*modules, name) = crate_folder(crate), function.split('::')
    paths = [os.path.join(folder, 'src', *modules[:depth]) + '.rt' for depth in range(len(modules), 0, -1)]
    own = [text_of(path) for path in filter(os.path.exists, paths)][:1]
    found = texts_of(name, own) or texts_of(name, sources(folder))
    answers = os.path.join(folder, 'proofs', *modules, name, 'Answers.antt')
    return '\n'.join(found + ([text_of(answers)] if os.path.exists(answers) else [])) if found else None


def texts_of(name, files):
    """The functions of this name in the texts of files."""
    return ['\n'.join(text.split('\n')[body.first:body.closed + 1]) for text in files for body in bodies(text)
            if body.kind == 'fn' and body.name == name]


def sources(folder):
    """The text of each source file of the crate."""
    return [text_of(os.path.join(place, name))
            for place, _, names in os.walk(os.path.join(folder, 'src')) for name in names]


def stays_in_its_functions(crate, edit):
    """Whether the edit changes nothing but the functions that it names, and their answers."""
    named = {goal.function for goal in edit.goals}
    broken = [functions_broken(crate_folder(crate), change, named) for change in edit.changes]
    return all(broken) and set().union(*broken) == named


def are_apart(edit, other):
    """Whether no goal of one can stay open for what the other changes: they name other functions, whose texts
    have no name that the other touches."""
    return edit.functions().isdisjoint(other.functions()) and not any(
        text is None or name in re.findall(r'\w+', text) for one, of in ((edit, other), (other, edit))
        for name in of.touches for text in (text_of_function(*function) for function in one.functions()))


def groups_of(crate, edits):
    """The edits in lists, each for one check: in few, since each check takes long before its first function."""
    alone = [edit for edit in edits if not edit.touches and not stays_in_its_functions(crate, edit)]
    others = [edit for edit in edits if edit not in alone]
    against = [{at for at, other in enumerate(others) if at != own and not are_apart(edit, other)}
               for own, edit in enumerate(others)]
    found = (placed(against, count) for count in range(1, len(others) + 1))
    return [[others[at] for at in group] for group in next(filter(None, found), [])] + [[edit] for edit in alone]


def placed(against, count):
    """The numbers of edits in so many lists, as even as can be, none with one that it is against: first those that
    are hardest to place. None where one finds no place."""
    groups = [[] for _ in range(count)]
    for own in sorted(range(len(against)), key=lambda at: -len(against[at])):
        able = [group for group in groups if against[own].isdisjoint(group)]
        if not able:
            return None
        min(able, key=len).append(own)
    return groups


def functions_of(group):
    return sorted({goal.function for edit in group for goal in edit.goals})


def listed(names):
    return ', '.join(sorted(names)) or 'none'


def are_refused(crate, of, group, said, start):
    """Whether the edits are refused as they say, by what a check of the crate said; prints how it went."""
    refused = refused_in(of, said)
    found = [f'{goal.function}: {goal.name} is not refused; open goals of it: '
             f'{listed(refused.get(goal.function, ()))}'
             for edit in group for goal in edit.goals if goal.name not in refused.get(goal.function, ())]
    how, names = 'NOT AS THEY MUST BE' if found else 'refused', ', '.join(edit.name for edit in group)
    print(f'{crate}: {how}, {len(group)} after {monotonic() - start:.0f} s: {names}', *found,
          *[said] * bool(found), sep='\n    ', flush=True)
    return not found


def tried(top, task):
    """Whether a group of edits of a crate is refused in a copy."""
    (crate, group), start = task, monotonic()
    with Room(top, crate) as room:
        room.write(texts_with(crate_folder(crate), group))
        said, _ = said_of(top, crate, 1, functions_of(group))
    return are_refused(crate, crate, group, said, start)


def prepared(crate, named):
    """The groups of edits of the crate, each of which can be applied."""
    edits = [edit for edit in own_edits(crate) if named in edit.name]
    for edit in edits:
        texts_with(crate_folder(crate), [edit])
    groups = groups_of(crate, edits)
    print(f'{crate}: {sum(map(len, groups))} edits in {len(groups)} checks, '
          f'{sum(len(group) == 1 for group in groups)} of them of one edit', flush=True)
    return [(crate, group) for group in groups]


def main(given):
    crates = given.crates or sorted({*crates_with(FOLDER), *crates_with(ALONE), *EDITS, *MUST_FAIL})
    # those of many edits first, so that at the end no processor is left alone with a long check
    tasks = sorted((task for crate in crates for task in prepared(crate, given.named)),
                   key=lambda task: -len(task[1]))
    functions = {crate: functions_of([edit for other, group in tasks if other == crate for edit in group])
                 for crate, _ in tasks}
    (require_libraries if given.proved else require_proofs)(given.jobs, functions)
    well = tried_in_copies(sorted(functions), given.jobs, tried, tasks)
    good = sum(len(group) for (_, group), is_well in zip(tasks, well) if is_well)
    others = sum(len(group) for _, group in tasks) - good
    print(f'{good} edits refused as they say, {others} in checks that are not as they must be')
    return good > 0 and not others
