"""Edits: wrong code, wrong definitions or weaker clauses, and the goals that refuse them.

CONTRIBUTING.md has the form of a file of edits. A line `touches: NAME ..` names what else a change breaks,
where that is no function's body: those functions whose text has one of these names.
"""
import os
import re
from collections import Counter, defaultdict, namedtuple

from gate_parts.tree import Failure, crate_folder, text_of

ENDING = '.edits'
CHANGE = r'(?:file: (.+)\n)?(?:after: (.+)\n)?old: (.+)\nnew:(?: (.*))?\n'
EDIT = re.compile(rf'edit (\S+)\n((?:refused: \S+ \S+\n)+)((?:touches: .+\n)*)((?:{CHANGE})+)')
DEFINITIONS = 'wrong-definitions'

# A goal of a function that must stay open.
Goal = namedtuple('Goal', 'crate function name')
# A text of a file, once in it or the first after another text, and what replaces it.
Change = namedtuple('Change', 'path old new after', defaults=[''])


class Edit(namedtuple('Edit', 'name goals changes touches', defaults=[()])):
    def functions(self):
        return {(goal.crate, goal.function) for goal in self.goals}


def edits_of(crate, name, said, named=None):
    """The edits in all files of this folder of the crate, as many as floors.py says by crate; with `named`,
    they name functions of that one."""
    folder = os.path.join(crate_folder(crate), name)
    paths = sorted(os.path.join(place, name) for place, _, names in os.walk(folder) for name in names)
    for path in paths:
        if not path.endswith(ENDING):
            raise Failure(f'{path}: a file of edits ends in {ENDING}')
    edits = [edit for path in paths for edit in read_edits(folder, path, crate)]
    refuse_repetitions(folder, edits)
    require_as_many(crate, name, edits, said)
    for goal in (goal for edit in edits for goal in edit.goals):
        if named not in (None, goal.crate):
            raise Failure(f'{folder}: {goal.crate}/{goal.function} is named, which is not of {named}')
    return edits


def require_as_many(crate, name, edits, said):
    if len(edits) != said.get(crate, 0):
        raise Failure(f'{crate} has {len(edits)} edits in {name}, and floors.py says {said.get(crate)}')


def refuse_repetitions(folder, edits):
    """No name stands twice, and no change under two names: it would be counted twice."""
    for told in ([edit.name for edit in edits], [tuple(edit.changes) for edit in edits]):
        for what, count in Counter(told).items():
            if count > 1:
                raise Failure(f'{folder}: {count} edits have the name, or change, {what}')


def read_edits(folder, path, crate):
    """The edits of a file of the folder. Where they name no other, their functions are of this crate, and
    `a/b.edits` changes `src/a/b.rt`, or `specs/a/b.antt` if it has wrong definitions."""
    name = os.path.relpath(path, folder)[:-len(ENDING)]
    changed = f'specs/{name}.antt' if os.path.basename(folder) == DEFINITIONS else f'src/{name}.rt'
    text = re.sub('^#.*\n', '', text_of(path), flags=re.MULTILINE)
    return [read_edit(path, crate, block + '\n', changed) for block in re.split('\n{2,}', text.strip('\n'))]


def read_edit(path, crate, text, file=''):
    """An edit, which changes the file where it names no other."""
    found = EDIT.fullmatch(text)
    if not found:
        raise Failure(f'{path}: this is no edit: {text}')
    goals = [Goal(other or crate, function, name)
             for other, function, name in re.findall(r'refused: (?:(\w+)/)?(\S+) (\S+)\n', found[2])]
    if len(set(goals)) < len(goals):
        raise Failure(f'{path}: {found[1]} names a goal twice')
    changes = []
    for own, after, old, new in re.findall(CHANGE, found[4]):
        file = own or file
        changes.append(Change(file, old, new, after))
    return Edit(found[1], goals, changes, tuple(found[3].replace('touches:', '').split()))


def texts_with(folder, edits):
    """The text of each file below the folder that the edits change, as they make it."""
    texts, changes = {}, defaultdict(list)
    for edit, change in ((edit, change) for edit in edits for change in edit.changes):
        text = texts.setdefault(change.path, text_of(os.path.join(folder, change.path)))
        changes[change.path].append((only_place(edit, change, text), change))
    for path, own in changes.items():
        before = len(texts[path])
        # from the end on, so that each place stays where it was
        for place, change in sorted(own, reverse=True):
            end = place + len(change.old)
            if end > before:
                raise Failure(f'{path}: two edits that go together change this: {change.old}')
            texts[path] = texts[path][:place] + change.new + texts[path][end:]
            before = place
    return texts


def only_place(edit, change, text):
    """Where the old text stands, of which there must be no doubt."""
    known = change.after or change.old
    if text.count(known) != 1:
        raise Failure(f'{edit.name}: this is {text.count(known)} times in {change.path}, not once: {known}')
    place = place_of(change, text)
    if place < 0:
        raise Failure(f'{edit.name}: in {change.path} this is not after {change.after}: {change.old}')
    return place


def place_of(change, text):
    """Where the old text stands in the text of its file."""
    return text.find(change.old, text.index(change.after) + len(change.after))
