"""Questions of the grammar of rows (`crates/inline_vectors/README.md`): calls on one text, and scripts."""
from contextlib import suppress

from gate_parts.draw import ESCAPED, MARKS, Draw, is_alike
from gate_parts.encodings import nearly_utf8, nearly_utf16
from gate_parts.good_scripts import a_growth, an_edge, at_the_ends, good_script, line_of, way_back
from gate_parts.language import ABSURD, COMMANDS, GREATEST, STARTS, Text, Undecided, answer, command_of, width
from gate_parts.programs import Case

ARRAY, HEAP, SHORT, STRING = 'InlineString', 'InlinableString', 'InlinableStringN<8>', 'String'
# By type: the word of the script language whose text it is, as the model has it.
TYPES = {ARRAY: 'inline', HEAP: 'inline', SHORT: 'inline8', STRING: 'string'}
HEAP_READERS = 'from_utf8_unchecked from_utf8_lossy from_utf16 from_utf16_lossy'
READERS = f'from_utf8 {HEAP_READERS}'
JOINS = 'add extend extend_chars extend_char_refs extend_strs'
OWN_MAKERS = 'from_string from_chars from_strs from_strs_with'
EDITS = 'retain retain_odd replace_range drain split_off make_ascii_uppercase make_ascii_lowercase'
# By word: what Python's `str` has instead, which is given the white space.
TRIMS = {'trim_in_place': str.strip, 'trim_start_in_place': str.lstrip, 'trim_end_in_place': str.rstrip}
# The calls of an array alone.
CONVERSIONS, ROOM_LEFT = 'parse try_from try_from_char', 'remaining_capacity is_full'
# By kind: how often it comes beside the others, more often where there is more to answer, and the words
# that are drawn most.
KINDS = {
    'growths': (1, f'push push_str insert insert_str write_str write_char {ROOM_LEFT}'),
    'cuts': (1, 'pop remove truncate clear'),
    'edits': (3, f'{EDITS} into_string copy'),
    'trims': (2, ' '.join(TRIMS)),
    'parts': (2, 'drain split_off split_once replace_bytes as_str'),
    'slides': (2, f'slide pop remove {ROOM_LEFT}'),
    'makers': (4, f'new default from from_str clone {OWN_MAKERS} {CONVERSIONS} repeat collect with_capacity '
                 'from_utf8'),
    'room': (2, 'reserve reserve_exact with_capacity shrink_to_fit capacity push_str'),
    'readers': (3, READERS),
    'joins': (2, f'{JOINS} write_str write_char write'),
    'comparisons': (2, 'eq eq_str hash cmp partial_cmp'),
    'prints': (1, 'display padded cut debug'),
    'views': (1, 'len is_empty as_bytes as_str into_bytes clone capacity'),
}
# What is drawn between the words of a kind.
BETWEEN = 'push push_str insert insert_str pop remove truncate slide'.split()
# What a type lacks.
LACKING = {
    ARRAY: f'{HEAP_READERS} extend extend_char_refs collect with_capacity reserve reserve_exact '
           'shrink_to_fit into_string split_once',
    **dict.fromkeys((HEAP, SHORT), f'copy {CONVERSIONS} {ROOM_LEFT}'),
    STRING: f'default {OWN_MAKERS} {CONVERSIONS} repeat {EDITS} {" ".join(TRIMS)} {ROOM_LEFT} add copy '
            'extend_char_refs into_string'}
# Of a kind with fewer words than FEWEST there is none on a type. A text is cut at LONGEST.
FEWEST, LONGEST = 3, 40
# How many calls there are at most, after the one that a text begins with.
TURNS = (3, 6, 6, 6, 20)
SIZES = (0, 1, 2, 7, 8, 9, 26, 27, 28, 28, 29, 29, 30, 30, 31, 32)
# How a text that is compared is made, with how many bytes more it had; or on the heap. How many scripts of a
# hundred have one byte wrong.
WAYS, ON_HEAP, SPOILT = {'': 0, ' other after "𝄞"': 4, ' other before "more"': 4}, ' other room 31', 10
# All white space. What is drawn at the ends of a text that is trimmed: also what only looks like it.
WHITE = ''.join(map(chr, (*range(9, 14), 0x20, 0x85, 0xa0, 0x1680, *range(0x2000, 0x200b), 0x2028, 0x2029,
                          0x202f, 0x205f, 0x3000)))
ENDS = (' ', WHITE[:6], WHITE, WHITE, '\0\x08\x0e\x1c\x1f\u180e\u200b\u200d\u2060\ufeff')
# The words that are given a character, and what rows write by an escape.
CHARACTERS = {'write_char', 'try_from_char', 'split_once',
              *(word for word, (_, kinds) in COMMANDS.items() if 'character' in kinds)}
LETTERS = {ord(char): '\\' + letter for char, letter in zip('\n\r\t\0\\', 'nrt0\\')}
IN_TEXT = {**{code: f'\\u{{{code:x}}}' for code in (*range(32), *range(127, 160))}, **LETTERS}
IN_BYTES = {**{code: f'\\x{code:02x}' for code in (*range(32), *range(127, 256))}, **LETTERS}


class Played:
    """A text as the calls leave it, as far as draws go by it."""

    def __init__(self, name):
        self.name, self.text = name, Text(TYPES[name])
        self.most = self.text.limit if name == ARRAY else GREATEST

    def obey(self, command):
        added = ''.join(part for part in command[1:] if isinstance(part, str))
        if self.text.size + width(added) <= self.most:
            self.text.obey(command)

    def becomes(self, string, storage=None):
        if width(string) <= self.most:
            self.text = Text(TYPES[self.name], storage if self.name != ARRAY else None)
            self.text.push_str(string)

    def holds(self, string):
        """After an edit, which leaves the text where it is stored if it fits there."""
        if width(string) <= self.most:
            self.text.chars, self.text.size = list(string), width(string)
            self.text.make_room(self.text.size)


def value(given, quote='"'):
    """A text, bytes, a list or a number, as a row is printed."""
    if isinstance(given, list):
        return '[' + ', '.join(map(value, given)) + ']'
    if isinstance(given, bytes):
        return 'b' + quoted(given.decode('latin-1'), IN_BYTES, quote)
    return quoted(given, IN_TEXT, quote) if isinstance(given, str) else str(given)


def quoted(string, escapes, quote):
    return quote + string.translate(escapes).replace(quote, '\\' + quote) + quote


def call(word, *given):
    quote = "'" if word in CHARACTERS else '"'
    return ' '.join([word, *(value(each, quote) for each in given)])


def alike(string):
    """Without characters that `Debug` may print in another way here and there, and not too long."""
    return ''.join(char if is_alike(char) else 'é' for char in string[:LONGEST])


def any_text(draw):
    """Of a size near an edge as often as any other, or of what prints in another form."""
    if draw.chance(60):
        return draw.string(draw.choice(SIZES))
    if draw.chance(50):
        return ''.join(draw.choices(ESCAPED + MARKS, draw.randint(0, 9)))
    return ''.join(draw.char() for _ in range(draw.randint(0, 14)))


# Of each sort of word: the call, as it is drawn for the text that it is made on.

def scripted(played, line):
    """The call of a line of a script."""
    word, *parts = command_of(line)
    parts = [alike(part) if isinstance(part, str) else part for part in parts]
    if word == 'replace_bytes' and not all(map(is_alike, parts[0].decode(errors='replace'))):
        parts = [b'']
    played.obey([word, *parts])
    return call(word, *parts)


def slide(draw, played, _):
    """At the ends of an inline text; of a text on the heap, the way back."""
    ends = at_the_ends if played.text.storage == 'inline' else way_back
    return scripted(played, ends(draw, played.text))


def some_strings(draw, text):
    """Empty ones too, and more than an array has bytes at times."""
    if draw.chance(20):
        return [''] * (1 + draw.choice((1, 7, 8, 28, 29, 30, 31, max(0, 30 - text.size), 40)))
    return [alike(any_text(draw))[:4] for _ in range(draw.randint(0, 6))]


def joined(draw, played, word):
    """What is added or made."""
    is_added = word in f'write write_str write_char {JOINS}'.split()
    between = [alike(any_text(draw))[:draw.choice((0, 1, 1, 4))]] * (word == 'from_strs_with')
    has_list = word in ('collect', 'extend') and played.name != STRING and draw.chance(50)
    if has_list or 'strs' in word:
        given = some_strings(draw, played.text) or [''] * has_list
    elif word in CHARACTERS:
        given = alike(draw.char())
    else:
        given = alike(any_text(draw) if draw.chance(30) else draw.string(
            a_growth(draw, played.text if is_added else Text(TYPES[played.name]))))
    string = ''.join(between).join(given)
    if is_added:
        played.obey(['push_str', string])
    else:
        played.becomes(string)
    return call(word, *between, given)


def repeated(draw, played, word):
    """To about an edge, or as often as makes too much, wraps to little, or is a great many times nothing."""
    string = draw.string(draw.choice((0, 1, 1, 2, 3, 4, 5, 7, 8, 15, 29, 30, 31)))
    size = width(string)
    times = max(0, an_edge(draw, played.text) // max(1, size) + draw.choice((-1, 0, 0, 1, 2)))
    if draw.chance(30):
        times = draw.choice((ABSURD, 2 ** 63 - 1, 2 ** 63, GREATEST, -(-2 ** 64 // max(2, size))))
    if size * times < ABSURD:
        played.becomes(string * min(times, LONGEST))
    return call(word, string, times)


def emptied(_, played, word):
    played.becomes('')
    return word


def kept(draw, played, word):
    """About three of four characters, or each second one."""
    chars = played.text.chars
    string = ''.join(char for char in dict.fromkeys(chars) if draw.chance(75))
    played.holds(''.join(chars[::2] if word == 'retain_odd' else (char for char in chars if char in string)))
    return call(word, *[string] * (word == 'retain'))


def trimmed(draw, played, word):
    """A text that is given ends first."""
    ends = [''.join(map(draw.choice, draw.choices(ENDS, draw.choice((0, 1, 1, 2, 3))))) for _ in range(2)]
    calls = [scripted(played, line + end) for line, end in zip(('insert_str 0 ', 'push_str '), ends)]
    played.holds(TRIMS[word](''.join(played.text.chars), WHITE))
    return '; '.join([*calls, word])


def parted(draw, played, word):
    """At a character of the text, or at any."""
    chars = played.text.chars
    return call(word, draw.choice(chars) if chars and draw.chance(70) else alike(draw.char()))


def split(draw, played, word):
    """At a place that is drawn as for a cut."""
    return word + scripted(played, line_of(draw, played.text, 'truncate'))[len('truncate'):]


def ranged(draw, played, word):
    """From a place to another, of which one is bad at times, or after the other."""
    _, place, added = command_of(line_of(draw, played.text, 'insert_str'))
    start, end = sorted((place % 2 ** 16, draw.choice(list(played.text.places()))), reverse=draw.chance(5))
    given = [alike(added)] * (word == 'replace_range')
    chars, first, past = played.text.chars, *map(played.text.index_of, (start, end))
    if None not in (first, past) and first <= past:
        played.holds(''.join([*chars[:first], *given, *chars[past:]]))
    return call(f'{word} {start}..{end}', *given)


def with_capacity(draw, played, word):
    capacity = draw.choice((0, 1, 7, 8, 9, 29, 30, 31, 32, 100, 2 ** 48, 2 ** 63 - 1, 2 ** 63, GREATEST))
    if capacity < 2 ** 48:
        played.becomes('', *['heap'] * (capacity > (played.text.limit or 0)))
    return call(word, capacity)


def read(draw, played, word):
    """Of a text, with pieces between its characters that are in none at times, or of such pieces alone."""
    encoding, pieces = ('utf-16-be', nearly_utf16) if 'utf16' in word else ('utf-8', nearly_utf8)
    data = [char.encode(encoding) for char in alike(any_text(draw))]
    if word != 'from_utf8_unchecked':
        data = data if draw.chance(50) else []
        while draw.chance(50) or not data:
            data.insert(draw.randint(0, len(data)), pieces(draw, 1))
    data = b''.join(data)
    string = data.decode(encoding, 'replace')
    if not all(map(is_alike, string)):
        string = alike(string)
        data = string.encode(encoding)
    # what is replaced stands as often as it may, which a draw need not know
    is_text = data == string.encode(encoding)
    if word != 'from_utf8_lossy' and (is_text or word == 'from_utf16_lossy'):
        played.becomes(string, 'heap')
    units = [int.from_bytes(data[at:at + 2], 'big') for at in range(0, len(data), 2)]
    return call(word, units if 'utf16' in word else data)


def compared(draw, played, word):
    """With the same text, a prefix of it, one that is longer, and others, in each way."""
    chars = played.text.chars
    front, end = chars[:draw.randint(0, len(chars))], list(any_text(draw))
    string = alike(''.join(draw.choice((chars, chars, front, chars + end, front + end, end))))
    if word == 'eq_str':
        return call(word, string)
    ways = [way for way, more in WAYS.items() if width(string) + more <= played.most or not way]
    return call(word, string) + draw.choice(ways if played.name == ARRAY else [*ways, ON_HEAP])


def printed(draw, played, word):
    """At a width or a precision about as large as the text has characters."""
    size = len(played.text.chars)
    return call(word, max(0, draw.choice((size - 1, size, size + 1, size + 3, draw.randint(0, 40)))))


# The words that are no COMMANDS; any other is a call alone.
SORTS = {
    slide: 'slide', emptied: 'new default into_bytes into_string', with_capacity: 'with_capacity',
    read: READERS, kept: 'retain retain_odd', split: 'split_off', ranged: 'replace_range drain',
    joined: f'from from_str {OWN_MAKERS} {CONVERSIONS} collect write write_str write_char {JOINS}',
    repeated: 'repeat', trimmed: ' '.join(TRIMS), parted: 'split_once',
    compared: 'eq eq_str cmp partial_cmp', printed: 'padded cut'}
DRAWN = {word: sort for sort, words in SORTS.items() for word in words.split()}


def a_call(draw, played, word):
    if word in COMMANDS:
        return scripted(played, line_of(draw, played.text, word))
    return DRAWN[word](draw, played, word) if word in DRAWN else word


def calls_line(seed, number):
    """Calls `number` of a seed. Always the same ones."""
    draw = Draw(f'calls {seed}:{number}')
    kind = draw.weighted({kind: often for kind, (often, _) in KINDS.items()})
    words = {name: [word for word in KINDS[kind][1].split() if word not in LACKING[name].split()]
             for name in TYPES}
    name = draw.choice([name for name in TYPES if len(words[name]) >= FEWEST])
    played, calls = Played(name), []
    if draw.chance(80):
        reader = draw.choice(READERS.split())
        calls.append(a_call(draw, played, 'from' if name == ARRAY or draw.chance(60) else reader))
    for _ in range(draw.randint(1, draw.choice(TURNS))):
        calls.append(a_call(draw, played, draw.choice(words[name] if draw.chance(70) else BETWEEN)))
    return f'{name} "": ' + '; '.join(calls)


def script_line(seed, number):
    """Script `number` of a seed, with a byte left out, doubled or changed at times. Always the same one."""
    draw = Draw(f'{seed}:{number}')
    word = draw.choice(list(STARTS))
    data = good_script(draw, word)
    if draw.chance(SPOILT):
        at = draw.randrange(len(data) + 1)
        byte = data[at:at + 1]
        wrong = data[:at] + draw.choice((b'', byte * 2, draw.randbytes(1))) + data[at + 1:]
        # unless it asks for memory that one machine grants and another refuses
        with suppress(Undecided):
            answer(Case('', [word], wrong))
            data = wrong
    with suppress(UnicodeDecodeError):
        data = data.decode()
    return f'script {word} {value(data)}'
