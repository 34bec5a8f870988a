"""The programs of the bench, built into `out/` where there is a compiler for them."""
import os
import shutil
import subprocess
from typing import Callable, NamedTuple

from workloads import CAPACITIES, OURS

HERE = os.path.dirname(os.path.abspath(__file__))
OUT = os.path.join(HERE, 'out')
CRATES = os.path.join(os.path.dirname(HERE), 'crates')
# As the Rattle kit has LLVM compile a program.
RUST = ('rustc', '-C', 'opt-level=3', '-C', 'codegen-units=1', '-C', 'target-cpu=x86-64-v2')
CXX = ('g++', '-std=c++20', '-O3', '-march=x86-64-v2', '-DNDEBUG')
SMALL = ('-DSMALL', '-isystem', '/usr/lib/llvm-14/include')
SUPPORT = ('/usr/lib/llvm-14/lib/libLLVMSupport.a', '/usr/lib/llvm-14/lib/libLLVMDemangle.a', '-lz', '-ltinfo')
BOOST = '/usr/include/boost/static_string'
CAPACITY = 'INLINE_STRING_CAPACITY: usize = 30;'


class Peer(NamedTuple):
    """Programs, and the type of text that they are asked for."""
    title: str
    # one of the words that a workload names its peers by; in Rattle the text itself says it
    kind: str
    text: str
    # by the word of a workload the program that has its loop, built if it has to be
    program: Callable

    def has(self, workload):
        return self.kind in workload.peers or self.kind == 'rattle' and self.text in workload.texts


def in_out(name):
    return os.path.join(OUT, name)


def in_here(*names):
    return os.path.join(HERE, *names)


def newest(*folders):
    """The time of the last change of a file in these folders."""
    return max(os.stat(os.path.join(place, name)).st_mtime
               for folder in folders for place, _, names in os.walk(folder) for name in names)


def is_fresh(program, *folders):
    """Whether a program was built after the last change of what it is built from."""
    return os.path.isfile(program) and os.stat(program).st_mtime > newest(*folders)


def built(program, *command, **how):
    """The program that a command builds."""
    print('building', os.path.relpath(program), flush=True)
    ran = subprocess.run(command, stdin=subprocess.DEVNULL, stdout=subprocess.PIPE,
                         stderr=subprocess.STDOUT, encoding='utf-8', **how)
    if ran.returncode:
        raise SystemExit(f'{ran.stdout}\nFAILED: {" ".join(command)}')
    return program


def rattle_build(backend):
    """The proved program, as a compiler builds it."""
    program = in_out(backend)
    crate = os.path.join(CRATES, 'bench')
    library = os.path.join(CRATES, 'inlinable_string')
    if not is_fresh(program, os.path.join(crate, 'src'), os.path.join(library, 'src')):
        built(program, 'rt', 'run', '--backend', backend, '--', OURS, 'read', '0', '0', cwd=crate)
        shutil.copy(os.path.join(crate, 'out', 'bench'), program)
    return program


def rust_build(name, word, *more, also=()):
    """The program that has the loop of one workload alone."""
    program = in_out(f'{name}-{word}')
    if is_fresh(program, in_here('rust'), *also):
        return program
    return built(program, *RUST, '--edition', '2021', '--cfg', f'workload="{word}"', *more, '-o', program,
                 in_here('rust', 'main.rs'))


def copy_at(folder, capacity):
    """A copy of the original crate's sources, with its one constant of the capacity changed."""
    sources = in_out(f'original{capacity}-src')
    shutil.rmtree(sources, ignore_errors=True)
    shutil.copytree(os.path.join(folder, 'src'), sources, copy_function=shutil.copyfile)
    path = os.path.join(sources, 'inline_string.rs')
    with open(path, encoding='utf-8') as reading:
        text = reading.read()
    if text.count(CAPACITY) != 1:
        raise SystemExit(f'{path} does not say once: {CAPACITY}')
    with open(path, 'w', encoding='utf-8') as writing:
        writing.write(text.replace(CAPACITY, CAPACITY.replace('30', str(capacity))))
    return os.path.join(sources, 'lib.rs')


def original_builds(folder, capacity):
    """By the word of a workload, the program over the original crate at a capacity."""
    library = in_out(f'libinlinable_string{capacity}.rlib')
    sources = os.path.join(folder, 'src')
    if not is_fresh(library, sources):
        built(library, *RUST, '--edition', '2018', '--cap-lints', 'allow', '--crate-type', 'rlib',
              '--crate-name', 'inlinable_string', '-o', library, copy_at(folder, capacity))
    return lambda word: rust_build(f'original{capacity}', word, '--cfg', 'original', '--extern',
                                   f'inlinable_string={library}', also=(sources,))


def cxx_builds(name, flags=(), libraries=()):
    def build(word):
        program = in_out(f'{name}-{word}')
        if is_fresh(program, in_here('cxx')):
            return program
        return built(program, *CXX, *flags, f'-DWORKLOAD="{word}"', '-o', program, in_here('cxx', 'main.cpp'),
                     *libraries)
    return build


def rattle_peers():
    llvm, rattle = rattle_build('llvm'), rattle_build('rattle')
    return [Peer('ours', 'rattle', OURS, lambda word: llvm),
            Peer("ours, Rattle's compiler", 'rattle', OURS, lambda word: rattle),
            Peer('the kit\'s `String`', 'rattle', 'String', lambda word: llvm)]


def rust_peer():
    return Peer('Rust `String`', 'rust', 'String', lambda word: rust_build('rust', word))


def other_peers(folder):
    """Those in Rust and C++; the original crate where its folder is given, and texts of libraries that are there."""
    peers = []
    if shutil.which(RUST[0]):
        peers.append(rust_peer())
        if folder:
            peers.append(Peer('original', 'original', OURS, original_builds(folder, 30)))
    if shutil.which(CXX[0]):
        peers.append(Peer('libstdc++', 'cxx', '-', cxx_builds('std')))
        if os.path.exists(SUPPORT[0]):
            peers.append(Peer('llvm::SmallString', 'cxx', '-', cxx_builds('small', SMALL, SUPPORT)))
        if os.path.exists(BOOST):
            peers.append(Peer('boost::static_string', 'static', '-', cxx_builds('static', ('-DSTATIC',))))
    return peers


def all_peers(folder):
    return rattle_peers() + other_peers(folder)


def capacity_peers(folder):
    """By capacity, our text at it and, where the folder is given, the original crate's."""
    peers = {}
    for capacity in CAPACITIES:
        peers[capacity] = [Peer('ours', 'rattle', f'InlinableStringN<{capacity}>', lambda word: in_out('llvm'))]
        if folder and capacity:
            peers[capacity].append(Peer('original', 'original', OURS, original_builds(folder, capacity)))
    return peers
