"""The rules of `inline_script` as a small model: what a run writes, and the status it ends with.

Written from the rules alone, for `gate hostile`. A text is a plain list of characters. Memory is
ample: only a reservation that no machine can grant is refused.
"""
import re
from itertools import accumulate

MOST_BYTES = 65_536
GREATEST = 2 ** 64 - 1
# Memory grants a text of the first size, and no process of an x86-64 machine can have the second.
AMPLE, ABSURD = 10 ** 7, 2 ** 48
# Of each word: how many bytes lie inline at most, None where no text does; and where it starts.
STARTS = {'inline': (30, 'inline'), 'inline0': (0, 'inline'), 'inline8': (8, 'inline'),
          'heap': (30, 'heap'), 'string': (None, 'heap')}


class Undecided(Exception):
    """A reservation that memory may grant or refuse."""


class Fault(Exception):
    """The line that is all the output, and its status."""


# The parts of a line. Each answers None where it cannot be read.

def number(digits):
    return int(digits) if re.fullmatch('[0-9]{1,20}', digits) and int(digits) <= GREATEST else None


def character(rest):
    return rest if len(rest) == 1 else None


def pairs(rest):
    return bytes.fromhex(rest) if re.fullmatch('([0-9a-fA-F]{2})*', rest) else None


READERS = {'place': number, 'amount': number, 'character': character, 'text': str, 'pairs': pairs}
# By the word of a command: how often it is drawn beside the others, and what each part is that follows it.
COMMANDS = {
    'push': (10, ['character']), 'push_str': (10, ['text']),
    'insert': (10, ['place', 'character']), 'insert_str': (10, ['place', 'text']),
    'truncate': (8, ['place']), 'pop': (8, []), 'remove': (12, ['place']), 'clear': (1, []),
    'replace_bytes': (10, ['pairs']), 'reserve': (6, ['amount']), 'reserve_exact': (6, ['amount']),
    'shrink_to_fit': (6, [])}


def command_of(line):
    """A line's word and its arguments; None where the line is bad."""
    word = line.split(' ')[0]
    _, kinds = COMMANDS.get(word, (0, []))
    first, *parts = line.split(' ', len(kinds))
    if word not in COMMANDS or first != word or len(parts) < len(kinds):
        return None
    command = [word, *(READERS[kind](part) for kind, part in zip(kinds, parts))]
    return None if None in command else command


class Text:
    """A list of characters, and where it lies. Each command answers its reply."""

    def __init__(self, word, storage=None):
        self.limit, starts = STARTS[word]
        self.storage, self.chars, self.size = storage or starts, [], 0

    def obey(self, command):
        word, *arguments = command
        return getattr(self, word)(*arguments)

    def places(self):
        """Where the text falls in two, in order."""
        return accumulate(map(width, self.chars), initial=0)

    def index_of(self, place):
        """How many characters stand before a place; None where the text does not fall in two there."""
        index, at = next(((index, at) for index, at in enumerate(self.places()) if at >= place), (None, None))
        return index if at == place else None

    def make_room(self, size):
        if self.storage == 'inline' and size > self.limit:
            self.storage = 'heap'
        return 'done'

    def put_in(self, index, added):
        self.chars[index:index] = added
        self.size += width(added)
        return self.make_room(self.size)

    def take_out(self, index):
        char = self.chars.pop(index)
        self.size -= width(char)
        return 'char ' + char

    def push(self, char):
        return self.put_in(len(self.chars), char)

    def insert(self, place, char):
        index = self.index_of(place)
        return 'bad place' if index is None else self.put_in(index, char)

    def truncate(self, place):
        index = self.index_of(place)
        if index is None:
            return 'bad place'
        self.chars, self.size = self.chars[:index], place
        return 'done'

    def remove(self, place):
        index = self.index_of(place)
        return 'bad place' if index in (None, len(self.chars)) else self.take_out(index)

    def pop(self):
        return self.take_out(-1) if self.chars else 'none'

    def clear(self):
        return self.truncate(0)

    def replace_bytes(self, data):
        if len(data) != self.size:
            return 'wrong length'
        try:
            self.chars = list(data.decode())
        except UnicodeDecodeError:
            return 'not utf-8'
        return 'done'

    def reserve(self, more):
        size = self.size + more
        if AMPLE < size < ABSURD:
            raise Undecided
        return 'no memory' if size >= ABSURD else self.make_room(size)

    def shrink_to_fit(self):
        if self.limit is not None and self.size <= self.limit:
            self.storage = 'inline'
        return 'done'

    push_str, insert_str, reserve_exact = push, insert, reserve


def width(text):
    return len(text.encode())


def accepted(case):
    """The word and the commands of a case; where it is refused, the first fault in the order of the rules."""
    if len(case.words) != 1 or case.words[0] not in STARTS:
        raise Fault('bad argument', 2)
    if case.io == 'stdin-dir':
        raise Fault('read fault', 1)
    if case.io == 'stdin-zero' or len(case.input) > MOST_BYTES:
        raise Fault('input too long', 2)
    try:
        lines = case.input.decode().split('\n')
    except UnicodeDecodeError:
        raise Fault('input is not utf-8', 2)
    commands = [(at, command_of(line)) for at, line in enumerate(lines, 1) if line]
    for at, command in commands:
        if command is None:
            raise Fault(f'line {at}: bad command', 2)
    return case.words[0], [command for _, command in commands]


def answer(case):
    """Gives a case its output and status. Answers how it ends, and its replies."""
    can_write, replies = case.io not in ('stdout-full', 'stdout-closed'), []
    try:
        word, commands = accepted(case)
        text = Text(word)
        replies = [text.obey(command) for command in commands]
        lines = [*replies, 'text ' + ''.join(text.chars), f'length {text.size}', 'storage ' + text.storage]
        ends, case.status = ('accepted', 0) if can_write else ('write fault', 1)
    except Fault as fault:
        line, case.status = fault.args
        lines, ends = [line], line.split(': ')[-1] + (', not written' if not can_write else '')
    case.output = ''.join(line + '\n' for line in lines).encode() if can_write else b''
    return ends, replies
