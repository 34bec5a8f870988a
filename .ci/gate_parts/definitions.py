"""gate definitions [CRATE ..] [--named WORD] [--jobs N]: tries the wrong definitions, which a row must refuse.

With --named only those are tried whose name has the word in it. A row is a function that does nothing, whose
contract it is. Each is tried over copies: of the row with its answers, in a module `copied::rN`, and of the
definitions and lemmas that it reaches and that stand on the changed one (`E1Run` of `Run`). Each row must also
be proved over copies of all definitions as they are, in the first check of its crate.
"""
import os
import re
from collections import namedtuple
from time import monotonic

from floors import WRONG_DEFINITIONS
from gate_parts.edit_files import DEFINITIONS as FOLDER, edits_of, texts_with
from gate_parts.edits import listed
from gate_parts.rooms import Room, require_libraries, said_of, tried_in_copies
from gate_parts.said import ill_formed, open_goals
from gate_parts.tree import Failure, crate_folder, crates_with, text_of

OPTIONS = 'crates --named --jobs'
# How many are tried in one check, which takes long before the first: of a crate all, or half of them.
TOGETHER = 90
# The number of a copy, in the path of an error.
COPY = re.compile(r'^[^:]*?/[Er](\d+)(?![a-z])')
# A file of definitions or of lemmas, as they and the sources name it.
NAMED = re.compile(r'\b(?:Rattle\.(\w+)\.(specs|proofs)\.|crate::(proofs)::)(\w+)\b')
# A function that does nothing, with its attributes.
ROW = r'(?:^ *#\[[^\n]*\]\n)*^ *pub fn {}\b.*?^ *\{{\}}$'
IMPORT = re.compile(r'^(?:ghost )?use [^;]*;$', re.MULTILINE)
# The names that an import gives, where it gives none but these.
GIVEN = re.compile(r'\{([^}]*)\};$')
WORD = re.compile(r'[^\s(){}\[\];,.→λ:]+')
# A file of definitions or of lemmas. A row with the imports that it needs, and its answers. A wrong
# definition, a row that must refuse it, and the files to copy for that.
File = namedtuple('File', 'crate folder name')
Row = namedtuple('Row', 'function text answers')
Trial = namedtuple('Trial', 'edit row copied')


class Files:
    """The definitions of a library and of the crate that has the rows, and the lemmas of that crate."""

    def __init__(self, library, crate):
        self.library, self.crate, self.texts = library, crate, {}
        for name, folder in {(library, 'specs'), (crate, 'specs'), (crate, 'proofs')}:
            place = os.path.join(crate_folder(name), folder)
            for file, ending in map(os.path.splitext, os.listdir(place) if os.path.isdir(place) else ()):
                if ending == '.antt' and file != 'Lib':
                    self.texts[File(name, folder, file)] = text_of(os.path.join(place, file + ending))

    def file_of(self, found):
        return File(found[1] or self.crate, found[2] or found[3], found[4])

    def reached_by(self, text):
        """The files that a text names, and those that these name in turn."""
        found, left = set(), {text}
        while left:
            named = {self.file_of(each) for text in left for each in NAMED.finditer(text)}
            left = {self.texts[file] for file in named & self.texts.keys() - found}
            found |= named & self.texts.keys()
        return found

    def standing_on(self, changed, row):
        """The files that a row reaches and that reach one of the changed ones, or are changed."""
        return {file for file in self.reached_by(row.text + row.answers)
                if file in changed or self.reached_by(self.texts[file]) & changed}

    def citing(self, text, number, copied):
        """The text with the names of the copies in the place of those of the copied files."""
        def renamed(found):
            if self.file_of(found) not in copied:
                return found[0]
            front = f'crate::{found[3]}::' if found[3] else f'Rattle.{self.crate}.{found[2]}.'
            return f'{front}E{number}{found[4]}'
        return NAMED.sub(renamed, text)


def row_of(crate, function):
    *modules, name = function.split('::')
    folder = crate_folder(crate)
    source = os.path.join(folder, 'src', *modules) + '.rt'
    text = text_of(source) if os.path.exists(source) else ''
    found = re.search(ROW.format(name), text, re.MULTILINE | re.DOTALL)
    if not found or found[0].count('pub fn') != 1:
        raise Failure(f'{crate}/{function} is no row')
    above = '::'.join(['crate', *modules[:-1], ''])
    imports = '\n'.join(needed(IMPORT.findall(text), found[0])).replace('super::', above)
    answers = os.path.join(folder, 'proofs', *modules, name, 'Answers.antt')
    return Row(function, f'{imports}\n\n{found[0]}\n', text_of(answers) if os.path.exists(answers) else '')


def needed(imports, row):
    """The imports that give a word of the row; those that list no names are all kept."""
    words = set(WORD.findall(row))
    for line in imports:
        given = GIVEN.search(line)
        if not given or '.std.' in line or words & set(WORD.findall(given[1])):
            yield line


def add_files(room, files, number, copied, texts):
    """Adds copies of files; `texts` are those of the library that a wrong definition changes."""
    for file in sorted(copied):
        changed = texts.get(f'specs/{file.name}.antt') if file[:2] == (files.library, 'specs') else None
        text = files.citing(changed or files.texts[file], number, copied)
        room.add(f'{file.folder}/E{number}{file.name}.antt', text)
        room.add(f'{file.folder}/Lib.antt', f'pub mod E{number}{file.name}\n')


def add_row(room, files, row, at, number, copied):
    """Adds a copy of a row, which cites these copies; what `rt` calls it."""
    *modules, name = row.function.split('::')
    if at == 0:
        room.add('src/lib.rt', '\npub mod copied;\n')
    room.add('src/copied.rt', f'pub mod r{at};\n')
    room.add(f'src/copied/r{at}.rt', files.citing(row.text, number, copied))
    if row.answers:
        own = f'Rattle.{files.crate}.proofs.'
        answers = row.answers.replace(f'{own}{".".join(modules)}.{name}.', f'{own}copied.r{at}.{name}.')
        room.add(f'proofs/copied/r{at}/{name}/Answers.antt', files.citing(answers, number, copied))
    return f'copied::r{at}::{name}'


def wrong_definitions(crate):
    """The edits of the crate, as many as are said; each changes definitions alone."""
    edits = edits_of(crate, FOLDER, WRONG_DEFINITIONS)
    for edit in edits:
        if any(not change.path.startswith('specs/') for change in edit.changes):
            raise Failure(f'{crate}: {edit.name} must change files of specs/, and no others')
        texts_with(crate_folder(crate), [edit])
    return edits


def trials_of(library, files, edit):
    """How the edit is tried at each row that it names of the crate of these files."""
    changed = {File(library, 'specs', os.path.basename(change.path)[:-len('.antt')])
               for change in edit.changes}
    for crate, function in sorted(edit.functions()):
        if crate == files.crate:
            row = row_of(crate, function)
            copied = files.standing_on(changed, row)
            if not changed <= copied:
                raise Failure(f'{library}: {edit.name} changes nothing that {crate}/{function} reaches')
            yield Trial(edit, row, copied)


def added_as_they_are(room, files, rows):
    """Adds copies of the rows as things are to the room; what `rt` calls each."""
    every = set(files.texts) if rows else set()
    add_files(room, files, 0, every, {})
    return [add_row(room, files, row, at, 0, every) for at, row in enumerate(rows)]


def added(room, files, number, trial):
    """Adds what is tried to the room; what `rt` calls the row that must refuse it."""
    texts = texts_with(crate_folder(files.library), [trial.edit])
    add_files(room, files, number, trial.copied, texts)
    return add_row(room, files, trial.row, number, number, trial.copied)


def breach(crate, trial, name, said, number):
    """In words, what is not as the edit says; None where the copy of this number is refused by each goal."""
    bad = [line for line in ill_formed(said) if (COPY.match(line) or ['', str(number)])[1] == str(number)]
    if bad:
        return f'the definition is not well formed, or a name has gone: {bad[0]}'
    left = open_goals(crate, name, said)
    for goal in trial.edit.goals:
        if (goal.crate, goal.function) == (crate, trial.row.function) and goal.name not in left:
            return f'tried at {crate}/{goal.function} {goal.name}, not refused; open goals: {listed(left)}'
    return None


def tried(top, files, rows, trials):
    """The names of the edits that are not refused as they say; prints how they went. The rows must be proved
    as things are."""
    start, numbers = monotonic(), range(len(rows), len(rows) + len(trials))
    with Room(top, files.crate) as room:
        copies = added_as_they_are(room, files, rows)
        names = [added(room, files, number, trial) for number, trial in zip(numbers, trials)]
        said, _ = said_of(top, files.crate, 1, copies + names)
    for row, copy in zip(rows, copies):
        if f'fn {files.crate}::{copy}: proved' not in said.splitlines():
            raise Failure(f'{files.crate}/{row.function} is not proved as it is:\n{said}')
    found = [(trial.edit.name, breach(files.crate, trial, name, said, number))
             for number, trial, name in zip(numbers, trials, names)]
    refused = [name for name, wrong in found if not wrong]
    wrong = [f'{files.library}: NOT AS IT MUST BE: {name}: {wrong}' for name, wrong in found if wrong]
    print(f'{files.library}: refused by {files.crate}, {len(refused)} after {monotonic() - start:.0f} s: '
          f'{listed(refused)}', *wrong, *[said] * bool(wrong), sep='\n', flush=True)
    return {(files.library, name) for name, wrong in found if wrong}


def tasks_of(library, edits):
    """What is tried of a library, by check: as even as can be, the first of a crate with all of its rows."""
    for crate in sorted({crate for edit in edits for crate, _ in edit.functions()}):
        files = Files(library, crate)
        trials = [trial for edit in edits for trial in trials_of(library, files, edit)]
        rows, count = sorted({trial.row for trial in trials}), -(-len(trials) // TOGETHER)
        for at in range(count):
            yield files, rows * (at == 0), trials[at::count]


def main(given):
    edits = {library: [edit for edit in wrong_definitions(library) if given.named in edit.name]
             for library in given.crates or sorted({*crates_with(FOLDER), *WRONG_DEFINITIONS})}
    tasks = [task for library, own in edits.items() for task in tasks_of(library, own)]
    crates = sorted({crate for files, _, _ in tasks for crate in (files.library, files.crate)})
    count = sum(map(len, edits.values()))
    print(f'{count} wrong definitions in {len(tasks)} checks', flush=True)
    require_libraries(given.jobs, crates)
    wrong = len(set().union(*tried_in_copies(crates, given.jobs, lambda top, task: tried(top, *task), tasks)))
    print(f'{count - wrong} wrong definitions refused as they say, {wrong} not')
    return not wrong
