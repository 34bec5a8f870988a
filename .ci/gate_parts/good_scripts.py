"""Scripts that the program takes, drawn at random, with places and sizes near the edges."""
from gate_parts.encodings import nearly_utf8
from gate_parts.language import ABSURD, COMMANDS, GREATEST, Text, command_of

EDGES = (0, 8, 30)


def an_edge(draw, text):
    """The text's own limit, or another's."""
    return draw.choice(EDGES) if text.limit is None or draw.chance(30) else text.limit


def a_growth(draw, text):
    """How many bytes to add: to an edge or one beside it, few, many, or very many."""
    kind = draw.randrange(100)
    if kind < 60:
        return max(0, an_edge(draw, text) - text.size + draw.choice((-2, -1, 0, 0, 1, 2)))
    if kind < 95:
        return draw.randint(0, 5)
    return draw.randint(6, 600) if kind < 99 else draw.randint(601, 6000)


def written(draw, value):
    """A number's digits, with zeros before them at times."""
    return str(value).zfill(draw.choice((0, 0, 0, 0, 0, 2, 19, 20)))


def a_place(draw, text):
    """A place, the inside of a character, past the end, or what would wrap to a place."""
    cut, kind = draw.choice(list(text.places())), draw.randrange(100)
    if kind < 60:
        place = draw.choice((0, text.size, cut, cut))
    elif kind < 75:
        inner = sorted(set(range(text.size)).difference(text.places()))
        place = draw.choice(inner) if inner else text.size + 1
    elif kind < 85:
        place = draw.randint(0, text.size + 4)
    else:
        place = draw.choice((GREATEST, GREATEST - cut, *(cut + 2 ** bits for bits in (8, 16, 31, 32, 63))))
    return written(draw, place)


def an_amount(draw, text):
    """With the size at an edge or beside it; or small; or what no machine grants, or what wraps."""
    kind = draw.randrange(100)
    if kind < 50:
        amount = max(0, an_edge(draw, text) - text.size + draw.randint(-1, 2))
    elif kind < 65:
        amount = draw.choice((0, 1, 100, 5000, 65_536))
    else:
        rest = GREATEST - text.size
        amount = draw.choice((
            GREATEST, rest, rest + draw.randint(1, 31), ABSURD,
            2 ** 63 - text.size, 2 ** 63 - 1 - text.size, 2 ** 63, 2 ** 63 - 1))
    return written(draw, min(amount, GREATEST))


def a_replacement(draw, text):
    """As many bytes as the text has, UTF-8 or not quite; or more or fewer."""
    kind = draw.randrange(100)
    if kind < 45:
        data = draw.string(text.size).encode()
        return data.replace(draw.choice((b'a', b' ', b'b')), b'\n') if draw.chance(30) else data
    data = nearly_utf8(draw, draw.randint(1, 3))
    if kind < 80 and len(data) <= text.size:
        front = draw.randint(0, text.size - len(data))
        return b'a' * front + data + b'b' * (text.size - len(data) - front)
    if kind < 90:
        return data
    return draw.string(max(0, text.size + draw.choice((-1, 1, text.size)))).encode()


def in_digits(draw, data):
    """Pairs of digits of either case."""
    cases = draw.randbytes(2 * len(data))
    return ''.join(digit.upper() if case % 2 else digit for digit, case in zip(data.hex(), cases))


# What draws each part of a line.
PARTS = {
    'character': lambda draw, _: draw.char(), 'text': lambda draw, text: draw.string(a_growth(draw, text)),
    'place': a_place, 'amount': an_amount,
    'pairs': lambda draw, text: in_digits(draw, a_replacement(draw, text))}


def line_of(draw, text, word):
    return ' '.join([word, *(PARTS[kind](draw, text) for kind in COMMANDS[word][1])])


def way_back(draw, text):
    """For a text on the heap: a cut near an edge, or the shrinking after it."""
    edge = an_edge(draw, text)
    if text.size > edge + 1:
        near = [place for place in text.places() if abs(place - edge) <= 2]
        return f'truncate {draw.choice(near)}'
    return 'shrink_to_fit'


def at_the_ends(draw, text):
    """For an inline text: characters off its ends, then about as many bytes as are free."""
    free = text.limit - text.size
    if text.chars and (free < 2 or draw.chance(50)):
        return draw.choice(('remove 0', 'remove 0', 'pop'))
    added = draw.string(draw.choice((free, free, free, free // 2, min(free, 2), free + 1)))
    place = draw.choice(list(text.places()))
    return draw.choice(('push_str', 'insert_str 0', f'insert_str {place}')) + ' ' + added


def good_lines(draw, word, turns):
    """The lines of a script that the program takes."""
    text, lines, slides = Text(word), [], draw.chance(25)
    for _ in range(turns):
        if text.storage == 'heap' and draw.chance(15):
            line = way_back(draw, text)
        elif text.storage == 'inline' and slides and draw.chance(70):
            line = at_the_ends(draw, text)
        else:
            line = line_of(draw, text, draw.weighted({word: often for word, (often, _) in COMMANDS.items()}))
        lines.append(line)
        text.obey(command_of(line))
    return lines


def good_script(draw, word):
    """With empty lines in it, and with or without the last line feed."""
    lines = []
    for line in good_lines(draw, word, draw.randint(0, 30)):
        lines += [''] * draw.chance(5) + [line]
    return '\n'.join(lines + draw.choice(([], [''], ['', '']))).encode()
