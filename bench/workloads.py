"""The workloads of the bench, and the inputs that they work on.

A program of the bench takes a type of text, the word of a workload, how many bytes a piece of
its input has (0: pieces end at spaces) and a number of rounds, and the input on standard input. It
prints a checksum, which has to be the same of every type and every program.
"""
import os
from functools import lru_cache
from typing import Callable, NamedTuple

OURS = 'InlinableString'
CAPACITIES = (0, 8, 22, 30, 62)


class Workload(NamedTuple):
    """A row of the table."""
    name: str
    # what the programs know it by
    word: str
    width: int
    # the input, and how many times a round does what is counted
    drawn: Callable
    calls: int
    # who has it, of the peers named below
    peers: tuple
    # two numbers of rounds, whose difference is what is counted
    rounds: tuple = (20, 60)
    # the types of text in Rattle, by the words that `crates/bench` knows
    texts: tuple = (OURS, 'String')


# Peers beside the Rattle types: Rust's `String`, the original crate, the texts of C++ that grow, and
# Boost's, which has room for 30 bytes and no more.
NO_CXX = ('rust', 'original')
GROWING = (*NO_CXX, 'cxx')
ALL = (*GROWING, 'static')


# What is drawn: always the same.

def numbers(seed):
    """Numbers of 64 bits, by xorshift."""
    while True:
        seed ^= seed << 13 & (1 << 64) - 1
        seed ^= seed >> 7
        seed ^= seed << 17 & (1 << 64) - 1
        yield seed


@lru_cache(maxsize=None)
def letters(size):
    drawn = numbers(0x9e3779b97f4a7c15)
    return bytes(ord('a') + next(drawn) % 26 for _ in range(size))


@lru_cache(maxsize=None)
def symbols():
    """100,000 words of 1 to 15 letters, 8 on the average; every second one was there before."""
    drawn, new, words = numbers(42), [], []
    for number in range(100_000):
        if number % 2:
            words.append(new[next(drawn) % len(new)])
        else:
            size = 1 + next(drawn) % 8 + next(drawn) % 8
            new.append(bytes(ord('a') + next(drawn) % 26 for _ in range(size)))
            words.append(new[-1])
    return b' '.join(words)


def words_listed(path):
    """100,000 words, drawn out of those that a file lists, one a line; one may come more than once."""
    with open(path, 'rb') as reading:
        listed = [word for word in reading.read().split(b'\n') if word and b' ' not in word]
    if len(listed) < 1000:
        raise ValueError(f'{path} lists {len(listed)} words, and must list 1,000')
    drawn = numbers(42)
    return b' '.join(listed[next(drawn) % len(listed)] for _ in range(100_000))


# By kind of a text, its characters, and after how many bytes or units one is bad. Mixed characters have every width in
# UTF-8, and a quarter of them two units; prose is ASCII to 97 in 100; a character of Chinese has three bytes.
MIXED, PROSE = 'aé€😀zß中𝄞', 'abcdefghijklmnopqrstuvwxyz      é'
KINDS = {'ASCII': ('abcdefghijklmnopqrstuvwxyz', None), 'prose': (PROSE, None), 'bad prose': (PROSE, 100),
         'Chinese': ('的一是不了人我在有他这中大来上国', None), 'mixed': (MIXED, None), 'bad': (MIXED, 10)}


@lru_cache(maxsize=None)
def text_of(kind, width, pieces, encoding):
    """Pieces of so many bytes or units, each of whole characters where none is bad."""
    characters, step = KINDS[kind]
    unit, bad = (1, b'\xff') if encoding == 'utf-8' else (2, b'\x00\xd8')
    drawn, made = numbers(7), bytearray()
    for _ in range(pieces):
        piece = b''
        while len(piece) < unit * width:
            character = characters[next(drawn) % len(characters)].encode(encoding)
            piece += character if len(piece) + len(character) <= unit * width else 'q'.encode(encoding)
        made += piece
    for at in range(0, len(made), unit * step) if step else ():
        made[at:at + unit] = bad
    return bytes(made)


class Limits(NamedTuple):
    """How long a text of a list of commands may get, and what comes where it would get longer."""
    longest: int
    instead: tuple


INLINE, PROMOTING = Limits(30, (4, 3, b'')), Limits(300, (7, 0, b''))
RECORD = 16


def drawn_command(drawn, size):
    """A command on a text of such a size: which one, its place and its text."""
    kind = next(drawn) % 16
    if kind == 6:
        return 2, next(drawn) % size if size else 0, b'z'
    plain = {4: (1, 0, b'hello'), 5: (1, 0, b'hello'), 7: (3, size // 2, b'abc'),
             8: (4, size - size // 4, b''), 9: (5, 0, b''), 10: (5, 0, b''),
             11: (6, size // 3, b''), 12: (6, size // 3, b''), 13: (4, size + 3, b''),
             14: (9, 4, b''), 15: (11, 0, b'')}
    return plain.get(kind, (0, 0, b'q'))


def size_after(size, command, place, text):
    if command <= 3:
        return size + len(text)
    if command == 4 and place <= size:
        return place
    if command == 5 or command == 6 and place < size:
        return max(size - 1, 0)
    return 0 if command == 7 else size


@lru_cache(maxsize=None)
def commands(limits):
    """256 records: which command, a place of one byte, the size of a text, and the text."""
    drawn, size, made = numbers(7), 0, b''
    for _ in range(256):
        command, place, text = drawn_command(drawn, size)
        if size + len(text) + 4 > limits.longest:
            command, place, text = limits.instead
        size = size_after(size, command, place, text)
        made += (bytes((command, place & 255, len(text))) + text).ljust(RECORD, b'\0')
    return made


# The rows.

def on_words(name, word, width, pieces=64, peers=ALL, **more):
    return Workload(name, word, width, lambda: letters(width * pieces), pieces, peers, **more)


def on_symbols(name, word, **more):
    return Workload(name, word, 0, symbols, 100_000, ALL, (1, 2), **more)


def on_listed(path):
    """Interning words of a real list, which is not in the repository: so its checksum isn't stored."""
    words = words_listed(path)
    return Workload(f'intern 100k of {os.path.basename(path)}', 'intern', 0, lambda: words, 100_000, ALL, (1, 2))


def on_text(word, width, kind):
    """Reading pieces of so many bytes or units."""
    encoding, unit = ('utf-16-le', 2) if 'utf16' in word else ('utf-8', 1)
    pieces = 64 if width < 100 else 16
    return Workload(f'{word} {width}, {kind}', word, unit * width, lambda: text_of(kind, width, pieces, encoding),
                    pieces, NO_CXX)


def on_list(name, word, limits, texts):
    return Workload(name, word, RECORD, lambda: commands(limits), 256, NO_CXX, texts=texts)


ALONE = (OURS,)

TEXTS = (
    on_words('read 6', 'read', 6),
    on_words('from literal 6', 'from_literal', 6, pieces=1),
    *(on_words(f'from {width}', 'from', width) for width in (1, 6, 16, 30)),
    on_words('from 31', 'from', 31, peers=GROWING),
    on_words('from 694', 'from', 694, pieces=16, peers=GROWING),
    on_words('push_str 6 onto empty', 'push_str', 6),
    on_words('push_str 694 onto empty', 'push_str', 694, pieces=16, peers=GROWING),
    on_words('from 6, push_str 6', 'from_push_str', 6),
    on_words('from, push_str literal 6', 'push_literal', 6, pieces=1),
    on_words('from 694, push_str 694', 'from_push_str', 694, pieces=16, peers=GROWING),
    on_words('push 8 chars', 'push', 8),
    on_words('push 30 chars', 'push', 30),
    on_words('push 31 chars (promotes)', 'push', 31, peers=GROWING),
    on_words('from 7, insert(0)', 'insert', 7),
    on_words('from 29, insert(0)', 'insert', 29),
    on_words('from 8, remove(0)', 'remove', 8),
    on_words('from 30, remove(0)', 'remove', 30),
    on_words('from 8, pop all', 'pop', 8),
    on_words('from 30, pop all', 'pop', 30),
    on_words('clone 8', 'clone', 8),
    on_words('clone 30', 'clone', 30),
    on_words('clone 694', 'clone', 694, pieces=16, peers=GROWING),
)

KEYS = (
    on_words('eq 8', 'eq', 8),
    on_words('eq 30', 'eq', 30),
    on_words('cmp 8', 'cmp', 8),
    on_words('hash 8', 'hash', 8),
    on_words('hash 30', 'hash', 30),
    on_symbols('sort 100k', 'sort'),
    on_symbols('set 100k', 'set'),
    on_symbols('intern 100k', 'intern'),
    on_symbols('look up 100k', 'look_up'),
)

STRICT = ((30, 'ASCII'), (694, 'ASCII'), (694, 'prose'), (694, 'Chinese'), (30, 'mixed'), (694, 'mixed'))
LOSSY = ((694, 'prose'), (694, 'Chinese'), (30, 'mixed'), (30, 'bad'), (694, 'bad'), (694, 'bad prose'))
READERS = tuple(on_text(word, *text) for word, texts in (('from_utf8', STRICT), ('from_utf8_lossy', LOSSY),
                                                         ('from_utf16', STRICT), ('from_utf16_lossy', LOSSY))
                for text in texts)

JOINS = (
    on_words('from 6, add 6', 'add', 6, texts=ALONE),
    on_words('from 30, add 30 (promotes)', 'add', 30, peers=GROWING, texts=ALONE),
    on_words('extend_chars 8', 'extend_chars', 8, peers=NO_CXX, texts=ALONE),
    on_words('from_chars 8', 'from_chars', 8, peers=NO_CXX, texts=ALONE),
    on_words('from_chars 31 (promotes)', 'from_chars', 31, peers=NO_CXX, texts=ALONE),
    on_words('from_strs of 3, 18 in all', 'from_strs', 6, texts=ALONE),
    on_words('from_strs of 3, 66 in all', 'from_strs', 30, peers=GROWING, texts=ALONE),
    on_words('to_json and back, 8', 'json', 8, peers=NO_CXX, texts=ALONE),
    on_words('to_json and back, 694', 'json', 694, 16, peers=NO_CXX, texts=ALONE),
)

LISTS = (
    on_list('run, 256 commands in place', 'run', INLINE, (OURS, 'String')),
    on_list('run, 256 commands that promote', 'run', PROMOTING, (OURS, 'String')),
    on_list('run_dyn, 256 commands in place', 'run_dyn', INLINE, ALONE),
    on_list('run_dyn, 256 commands that promote', 'run_dyn', PROMOTING, ALONE),
    Workload('push of one char onto 20,000', 'grow', 1, lambda: b'', 1, GROWING, (10_000, 30_000)),
    on_words('insert(0), remove(0) at 100', 'fronts', 100, pieces=1, peers=GROWING),
    on_words('insert(0), remove(0) at 10,000', 'fronts', 10_000, pieces=1, peers=GROWING),
)

WORKLOADS = TEXTS + KEYS + READERS + JOINS + LISTS

# What is measured at each capacity; the original crate is built at each.
AT_EACH = tuple(f'InlinableStringN<{capacity}>' for capacity in CAPACITIES)
AT_CAPACITIES = tuple(
    on_words(name, word, width, peers=('original',), texts=AT_EACH)
    for name, word, width in (
        ('from 6', 'from', 6), ('from 16', 'from', 16), ('from 30', 'from', 30),
        ('push_str 16 onto empty', 'push_str', 16), ('push 30 chars', 'push', 30),
        ('from 16, remove(0)', 'remove', 16), ('clone 16', 'clone', 16), ('eq 16', 'eq', 16)))
