"""gate beside [PROGRAM ..]: questions of calls and of scripts, answered as by the original crate and Rust's std.

Without PROGRAM they are the two builds of `inline_vectors` that `rt ci` leaves. `replay/digests` has a line for
STEP lines each: their kind, the number of the first, their digest, and that of what the judge of
`replay/judge` answered. `.ci/floors.py` says how many answers of each sort there must be.

    .ci/gate beside JUDGE --store >replay/digests   makes the digests
    .ci/gate beside --lines 7                       prints the lines of the seventh digest
"""
import re
from collections import Counter
from functools import partial
from hashlib import sha256

from floors import BESIDE, BESIDE_OF_EACH
from gate_parts.call_inputs import calls_line, script_line
from gate_parts.draw import SEED
from gate_parts.language import COMMANDS
from gate_parts.programs import Case, all_runs, chosen, run
from gate_parts.tree import Failure, in_tree, text_of, too_few

OPTIONS = 'programs --store --lines'
STEP = 5000
DRAWN = {'calls': calls_line, 'script': script_line}
DIGESTS = in_tree('replay', 'digests')
WORDS = in_tree('crates', 'script_language', 'src', 'line.rt')
# A step without what is in quotes: its word, the words of its answer, and where the text is stored then.
STEP_FORM = re.compile(r'(\w+)[^=;]* = ([^_,]*?)(?: ?_[^,]*)?, _ ?(\w*)')
QUOTED = re.compile(r'''b?"(?:[^"\\]|\\.)*"|'(?:[^'\\]|\\.)*\'''')


def starts(held):
    """The kind and the number of the first line of each digest."""
    return [(kind, first) for kind, count in held.items() for first in range(0, count, STEP)]


def stored(path=DIGESTS, held=BESIDE):
    """By its start, each two digests: the file has just those of all that is held."""
    rows = [line.split() for line in text_of(path).splitlines()]
    wanted = [[kind, str(first)] for kind, first in starts(held)]
    if not wanted or [row[:2] for row in rows] != wanted or any(len(row) != 4 for row in rows):
        raise Failure(f'{path} has not the {len(wanted)} digests that it must have, in order')
    return dict(zip(starts(held), (row[2:] for row in rows)))


def lines_from(kind, first):
    """STEP lines, as a program reads them."""
    return ''.join(DRAWN[kind](SEED, number) + '\n' for number in range(first, first + STEP)).encode()


def answered(programs, start):
    """The digest of STEP lines, that of each program's answers, and what there is of each sort."""
    lines = lines_from(*start)
    ran = [run(program, Case('lines', ['-'], lines)) for program in programs]
    # the answers of the first program: where those of another differ, its digest does
    return sha256(lines).hexdigest()[:16], [
        f'status {status}' if status else sha256(output).hexdigest() for output, status in ran
    ], counted(ran[0][0])


def counted(output):
    """How many answers there are of each sort that `.ci/floors.py` names."""
    names = Counter()
    for line in output.decode(errors='replace').split('\n')[:-1]:
        head, _, steps = QUOTED.sub('_', line).partition(': ')
        name, *words = head.split(' ')
        if name == 'script':
            names.update([f'{words[0]} {words[-2][:-1]}', f'{words[0]} {line[:-3].split(" ")[-1]}'])
            continue
        before = {'InlineString': '', 'String': 'heap'}.get(name, 'inline')
        for word, answer, storage in STEP_FORM.findall(steps):
            names.update([f'{name} {word}', f'{word} {answer.replace(" ", "_") or "value"}'])
            if before != storage:
                names[f'{word} {"promotes" if storage == "heap" else "demotes"}'] += 1
            before = storage
        names[f'{name} {before}'] += 1
    return names


def failed_digests(builds, digests):
    """How many digests each build fails, and what there is of each sort. Each that fails is printed."""
    failed, tally = dict.fromkeys(builds, 0), Counter()
    given = all_runs(partial(answered, list(builds.values())), digests)
    for at, (start, wanted, (lines, answers, names)) in enumerate(zip(digests, digests.values(), given), 1):
        if lines != wanted[0]:
            raise Failure(f'{start}: not the lines that the judge answered: what draws them was changed, so '
                          'make the digests again')
        tally += names
        for name in (name for name, answer in zip(builds, answers) if answer != wanted[1]):
            failed[name] += 1
            print(f'{name}: {start}: not the answers of the judge\n    .ci/gate beside --lines {at} >LINES; '
                  f'JUDGE - <LINES >WANTED; {builds[name]} - <LINES | diff WANTED -')
    return failed, tally


def check_words(source):
    """Fails where the program and the model, by which scripts are drawn, do not have the same words of commands."""
    words = set(re.findall(r'^ +"(\w+)" =>', source, re.MULTILINE))
    if words != set(COMMANDS):
        raise Failure(f'{WORDS} has the words {sorted(words)}, and language.py has others')


def main(given):
    if given.lines:
        print(lines_from(*starts(BESIDE)[given.lines - 1]).decode(), end='')
        return True
    builds = chosen(given.programs, 'inline_vectors')
    if given.store:
        work = partial(answered, list(builds.values()))
        for start, (lines, answers, _) in zip(starts(BESIDE), all_runs(work, starts(BESIDE))):
            print(*start, lines, *answers)
        return True
    check_words(text_of(WORDS))
    failed, tally = failed_digests(builds, stored())
    lacking = list(too_few(tally, BESIDE_OF_EACH))
    print(*(f'{name}: {sum(BESIDE.values())} lines by {len(starts(BESIDE))} digests: {count} failed'
            for name, count in failed.items()), *lacking, sep='\n')
    return not lacking and not any(failed.values())
