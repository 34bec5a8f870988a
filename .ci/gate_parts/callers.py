"""gate callers [--jobs N]: shows that the callers of a library need the clauses of its contracts.

Those that the edits of `wrong-clauses` name must be proved as things are, with no proof of their own.
docs/TESTING.md says what else is shown, of the README too.
"""
import os
import re
from time import monotonic

from floors import CALLERS, PROGRAMS, WRONG_CLAUSES
from gate_parts.edit_files import edits_of, texts_with
from gate_parts.edits import are_refused, functions_of, sources
from gate_parts.rooms import Room, copies, require_proof, said_of
from gate_parts.tree import Failure, crate_folder, crates_with, in_tree, run_in, text_of, with_those_below, write_text

OPTIONS, FOLDER = '--jobs', 'wrong-clauses'
CRATE, PROGRAM = 'callers', 'inline_script'
ENSURES = re.compile(r'^ *ensures\b', re.MULTILINE)
FIRST = re.compile(r'^```rust\n(.*?)^```$', re.MULTILINE | re.DOTALL)
# A C function that a program reaches, and what the README says of them.
REACHED = re.compile(r'^ *\S+::(\w+) +reached$', re.MULTILINE)
TRUSTED = re.compile(r'of which `inline_script` calls\s+(.*?)\.$', re.MULTILINE | re.DOTALL)


def require_callers():
    """There are as many callers as there must be, and they have no proof of their own."""
    if os.path.exists(os.path.join(crate_folder(CRATE), 'proofs')):
        raise Failure(f'{CRATE} has a folder proofs: a caller must not need any')
    functions = [function for text in sources(crate_folder(CRATE)) for function in text.split('pub fn ')[1:]]
    count = len(list(filter(ENSURES.search, functions)))
    if count < CALLERS:
        raise Failure(f'{CRATE} has {count} public functions with an `ensures`, and must have {CALLERS}')
    print(f'{CRATE}: {count} public functions with an `ensures`, and no proof', flush=True)


def programs(library):
    """By the path of each README that has a program: the crate that is made of it, and what that uses."""
    found = {'README.md': ('pasted', [library])}
    for crate in sorted(os.listdir(in_tree('crates'))):
        path = os.path.join('crates', crate, 'README.md')
        if os.path.exists(in_tree(path)) and FIRST.search(text_of(in_tree(path))):
            found[path] = f'pasted_{crate}', sorted(with_those_below([crate]))
    if len(found) != PROGRAMS:
        raise Failure(f'{len(found)} READMEs have a program, and {PROGRAMS} must have one')
    return found


def require_program(top, path, crate, uses):
    """The first program of a README is proved in a new crate, and prints what the README says."""
    readme, folder, crates = text_of(in_tree(path)), crate_folder(crate, top), os.path.join(top, 'crates.txt')
    os.makedirs(os.path.join(folder, 'src'))
    write_text(os.path.join(folder, 'src', 'main.rt'), FIRST.search(readme)[1])
    write_text(crates, f'{text_of(crates)}{crate}: {" ".join(uses)}\n')
    said, status = run_in(folder, 'rt', 'run', '--jobs', '1')
    printed = said.splitlines()[-1]
    if status or f'It prints `{printed}`' not in readme:
        raise Failure(f'the first program of {path} does not run as it says:\n{said}')
    print(f'the first program of {path} prints {printed}', flush=True)


def require_trusted():
    """The README names each C function that the program calls, and no other."""
    said, _ = run_in(crate_folder(PROGRAM), 'rt', 'check', '--list-axioms', '--jobs', '1')
    reached = set(REACHED.findall(said))
    named = set(re.findall(r'`(\w+)`', TRUSTED.search(text_of(in_tree('README.md')))[1]))
    if not reached or reached != named:
        raise Failure(f'{PROGRAM} calls other C functions than the README names: {reached ^ named}\n{said}')
    print(f'{PROGRAM} calls {len(reached)} C functions, as the README says', flush=True)


def are_needed(library, edits, jobs):
    """Whether the named callers are refused over the library with its weaker contracts, still proved."""
    functions, start, pasted = functions_of(edits), monotonic(), programs(library)
    with copies({CRATE, *(crate for _, uses in pasted.values() for crate in uses)}, 1) as (top,):
        require_proof(top, CRATE, jobs, functions)
        for path, (crate, uses) in pasted.items():
            require_program(top, path, crate, uses)
        with Room(top, library) as room:
            room.write(texts_with(crate_folder(library), edits))
            require_proof(top, library, jobs)
            said, _ = said_of(top, CRATE, jobs, functions)
    return are_refused(library, CRATE, edits, said, start)


def main(given):
    edits = {library: edits_of(library, FOLDER, WRONG_CLAUSES, CRATE)
             for library in {*crates_with(FOLDER), *WRONG_CLAUSES}}
    require_callers()
    require_trusted()
    return all([are_needed(library, own, given.jobs) for library, own in edits.items()])
