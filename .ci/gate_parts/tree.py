"""Where things stand in the repository, and which crates stand on which."""
import os
import subprocess

TOP = os.path.dirname(os.path.dirname(os.path.dirname(os.path.abspath(__file__))))
PROCESSORS = len(os.sched_getaffinity(0))


class Failure(Exception):
    """A part can't be tried, or has tried less than it must: its message is for whoever runs it."""


def too_few(counts, floors):
    """In words, of what there is less than there must be."""
    if min(floors.values(), default=0) < 1:
        yield 'TOO FEW: no floor says how much there must be'
    for name, least in floors.items():
        if counts[name] < least:
            yield f'TOO FEW: {counts[name]} are `{name}`, and at least {least} must be'


def in_tree(*names):
    return os.path.join(TOP, *names)


def crate_folder(crate, top=TOP):
    return os.path.join(top, 'crates', crate)


def run_in(folder, *command, **variables):
    """What a command prints in a folder, with these variables of its environment, and its exit status."""
    ran = subprocess.run(command, cwd=folder, env={**os.environ, **variables}, stdin=subprocess.DEVNULL,
                         stdout=subprocess.PIPE, stderr=subprocess.STDOUT, encoding='utf-8', errors='replace')
    return ran.stdout, ran.returncode


def text_of(path):
    with open(path, encoding='utf-8', newline='') as reading:
        return reading.read()


def write_text(path, text):
    with open(path, 'w', encoding='utf-8', newline='') as writing:
        writing.write(text)


def with_those_below(crates):
    """The crates, and all of the repository that they stand on."""
    uses, found, left = {}, set(), list(crates)
    for line in text_of(in_tree('crates.txt')).splitlines():
        crate, colon, used = line.split('#')[0].partition(':')
        if colon:
            uses[crate.split()[0]] = used.split()
    while left:
        crate = left.pop()
        if crate in crates and crate not in uses:
            raise Failure(f'crates.txt has no crate {crate}')
        # (what is no crate of the repository is the kit's)
        if crate in uses and crate not in found:
            found.add(crate)
            left += uses[crate]
    return found


def below(crates):
    """All of the repository that one of the crates stands on."""
    return set().union(*(with_those_below([crate]) - {crate} for crate in crates))


def crates_with(folder):
    """The crates that have such a folder, in order."""
    return [crate for crate in sorted(os.listdir(in_tree('crates')))
            if os.path.isdir(os.path.join(crate_folder(crate), folder))]
