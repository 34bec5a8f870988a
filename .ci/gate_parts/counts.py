"""gate counts: prints how long the tree is, and finds what is too long or is cited and not there.

A line of a crate, of its rows too, has at most 100 columns, unless it imports; a file at most 500 lines; a lemma
with its type or an answer to a goal at most 30, comments aside. Each path or name that a document has in backticks
is in the tree. No document or comment of a source has a word of ODD, of a dialect that the tree was once written
in. No code names a trait of FORBIDDEN.
"""
import os
import re
from collections import Counter

from floors import CITED, PROOFS, UNSAFE
from gate_parts.tree import TOP, text_of, too_few

LIBRARY = 'inlinable_string'
COLUMNS, FILE_LINES, PROOF_LINES = 100, 500, 30
# Folders that no commit has.
MADE = ('.git', 'out', '__pycache__')
EDIT_FOLDERS = ('must-fail', 'must-fail-together', 'wrong-definitions', 'wrong-clauses', 'wrong-bodies')
# Files whose lines are in a crate, and files that a reader reads: stored answers and inputs are none.
NARROW, SOURCES = ('.rt', '.antt', '.rows'), ('.rt', '.antt', '.py', '.rs', '.cpp')
READ = (*SOURCES, '.edits', '.md', '.rows')
TEST_MODULE = re.compile(r'^#\[cfg\(test\)\]\n *mod (\w+);', re.MULTILINE)
UNSAFE_BLOCK = re.compile(r'^(?! *//).*\bunsafe \{', re.MULTILINE)
# Traits of std that are to go, which its rules let no crate implement, nor ask of a type. Comments may name them.
FORBIDDEN = re.compile(r'^(?! *//).*\b(Comparable|Equivalent)\b', re.MULTILINE)
IMPORT = re.compile(r' *(pub )?(ghost )?(use|mod) ')
# The name of a declaration, after what may stand before one.
DECLARED = re.compile(r' *(?:(?:pub|abbrev|record) )*([^\s:({]+)')
# What stands between backticks, outside of a fence of code.
FENCE = re.compile(r'^```.*?^```', re.MULTILINE | re.DOTALL)
SPAN = re.compile(r'`([^`\n]+)`')
PATH = re.compile(r'[\w.+-]*/[\w./+-]*|[\w+-]+\.(?:rt|antt|py|rs|cpp|md|edits|rows|cases|svg|txt)')
NAME = re.compile(r'[a-z]\w*_\w*|\w+(?:::\w+)+')
# Write: allocation failure, fails, is stored, after, before, except, instead of, states, is unchanged.
ODD = re.compile(r'\b(?:want of memory|memory (?:is|was) refused|not refused|lies|behind|in front|so many|but for|'
                 r'be it|in the place of|(?:is|are) told by|tells|is said|as (?:it was|they were)|asked for)\b')
PROSE = {'.md': '(.*)', '.rt': '^ *//[/!]?(.*)', '.antt': '^ *--(.*)', '.rows': '^#(.*)'}
# What begins so is std's or the kit's, or is made by a run.
FOREIGN = re.compile(
    r'(std|str|String|char|usize|mem|fmt|arrayvec|smallvec)::|rattle|out/|crates/NAME|/|.*/out$')


def texts_by_path():
    """The text of each file that a commit has, by its path below the top."""
    found = {}
    for place, folders, names in os.walk(TOP):
        folders[:] = sorted(name for name in folders if name not in MADE)
        for path in (os.path.join(place, name) for name in sorted(names)):
            found[os.path.relpath(path, TOP)] = text_of(path)
    return found


# How long the tree is.

def test_paths(texts):
    """The paths, without their endings, of the modules that are there for tests alone."""
    for path, text in texts.items():
        stem, ending = os.path.splitext(path)
        inside = os.path.dirname(path) if os.path.basename(stem) in ('lib', 'main') else stem
        for module in TEST_MODULE.findall(text) if ending == '.rt' else ():
            yield f'{inside}/{module}'


def kind_of(path, tests):
    """What a file counts as."""
    top, crate, folder = (*path.split('/')[:-1], '', '', '')[:3]
    if path.endswith('.md'):
        return 'documents'
    if path.endswith('.rows'):
        return 'rows'
    if top in ('.ci', 'replay', 'bench'):
        return top
    if folder in EDIT_FOLDERS:
        return 'edits'
    if crate == 'test_support' or any(re.match(rf'{test}[./]', path) for test in tests):
        return 'tests'
    if folder in ('src', 'specs', 'proofs'):
        return f'{"library" if crate == LIBRARY else "other crates"}: {folder}'
    return 'the rest'


def print_lines(texts):
    """Prints the lines of the tree by kind."""
    tests, lines = set(test_paths(texts)), Counter()
    for path, text in texts.items():
        lines[kind_of(path, tests)] += text.count('\n')
    for kind in sorted(lines):
        print(f'{lines[kind]:>8,}  {kind}')
    print(f'{sum(lines.values()):>8,}  the whole tree')


def unknown_unsafe(texts):
    """In words, whether the library or the other crates have another number of `unsafe` blocks."""
    found = Counter()
    for path, text in texts.items():
        if path.endswith('.rt'):
            found['library' if path.split('/')[1] == LIBRARY else 'others'] += len(UNSAFE_BLOCK.findall(text))
    return [] if found == Counter(UNSAFE) else [f'unsafe blocks: {dict(found)}, and {UNSAFE} are known']


def forbidden_traits(texts):
    """In words, each line of code that names a trait of FORBIDDEN."""
    return [f'{path}: no code may name `{name}`' for path, text in texts.items() if path.endswith('.rt')
            for name in FORBIDDEN.findall(text)]


def proofs_in(text):
    """The name of each declaration of a file of proofs, those in its modules too, and its number of lines."""
    level, name, count = 0, None, 0
    for line in text.splitlines():
        if not line.strip() or line.lstrip().startswith('--') or IMPORT.match(line):
            continue
        indent = len(line) - len(line.lstrip())
        level = min(level, indent)
        begins = indent == level and line[level] not in ')]}'
        if begins and DECLARED.match(line)[1] != name:
            yield name, count
            name, count = DECLARED.match(line)[1], 0
        count += 1
        if name == 'module' and line.endswith(' where'):
            level, name = level + 2, None
    yield name, count


def too_long(texts):
    """How many proofs there are, and in words what is too long in these files of the tree."""
    proofs = [(path, *proof) for path, text in texts.items() if path.endswith('.antt')
              for proof in proofs_in(text) if proof[0]]
    wrong = [f'{path}: {name} has {count} lines, and may have {PROOF_LINES}'
             for path, name, count in proofs if count > PROOF_LINES]
    wrong += [f'{path}: the file has more than {FILE_LINES} lines' for path, text in texts.items()
              if path.endswith(READ) and text.count('\n') > FILE_LINES]
    wrong += [f'{path}:{number}: the line has more than {COLUMNS} columns'
              for path, text in texts.items() if path.endswith(NARROW)
              for number, line in enumerate(text.splitlines(), 1)
              if len(line) > COLUMNS and not IMPORT.match(line)]
    return len(proofs), wrong


# What the documents cite.

def cited_in(text):
    """The paths and the names in backticks of a document, its fences aside."""
    spans = [re.sub(r'(\(\))?;?/?$', '', span) for span in SPAN.findall(FENCE.sub('', text))]
    return [word for word in spans
            if (PATH.fullmatch(word) or NAME.fullmatch(word)) and not FOREIGN.match(word)]


def is_path(word, document, texts):
    """Whether these names stand one after the other in a path of the tree, the ending of a file aside."""
    near = os.path.normpath(os.path.join(os.path.dirname(document), word))
    return any(f'/{word}/' in f'/{path}/' or f'/{word}.' in f'/{path}' or path == near for path in texts)


def is_item(word, sources, words):
    """Whether a source has the name, and if modules are named with it, a file of the last that has files."""
    *modules, name = word.split('::')
    for module in reversed([each for each in modules if each.islower()]):
        homes = [text for path, text in sources.items() if module in re.split('[/.]', path)]
        if homes:
            return any(re.search(rf'\b{name}\b', text) for text in homes)
    return name in words and (not modules or modules[-1] in words)


def missing(texts):
    """How many names and paths the documents cite, and in words each that the tree does not have."""
    sources = {path: text for path, text in texts.items() if path.endswith(SOURCES)}
    told = [text for path, text in texts.items() if path.endswith((*SOURCES, '.edits'))]
    words = set(re.findall(r'\w+', ' '.join([*told, *map(os.path.dirname, texts)])))
    words |= {os.path.splitext(os.path.basename(path))[0] for path in texts}
    # (`gate edits` reads those of must-fail/: functions and goals)
    cited = [(path, word) for path, text in texts.items()
             if path.endswith('.md') and '/must-fail/' not in path for word in cited_in(text)]
    return len(cited), [f'{document}: there is no {word}' for document, word in cited if not (
        is_path(word, document, texts) if PATH.fullmatch(word) else is_item(word, sources, words))]


def odd_words(texts):
    """In words, each word of ODD that a file has in its prose, code in backticks aside."""
    for path, text in texts.items():
        lines = re.findall(PROSE.get(os.path.splitext(path)[1], '$.'), text, re.MULTILINE)
        for word in ODD.findall(re.sub('`[^`]*`', '', ' '.join(' '.join(lines).split()))):
            yield f'{path}: "{word}" is no word of std\'s documentation'


def main(_):
    texts = texts_by_path()
    print_lines(texts)
    (proofs, wrong), (cited, absent) = too_long(texts), missing(texts)
    wrong += [*absent, *odd_words(texts), *unknown_unsafe(texts), *forbidden_traits(texts),
              *too_few({'proofs': proofs, 'names': cited}, {'proofs': PROOFS, 'names': CITED})]
    print(*wrong, f'{proofs} proofs and {cited} names were looked at, {len(wrong)} faults', sep='\n')
    return not wrong
