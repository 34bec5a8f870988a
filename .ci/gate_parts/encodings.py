"""Bytes that are nearly UTF-8, and units that are nearly UTF-16, as bytes too, at the edges of both."""

# The Unicode Standard, table 3-7: the first and last of each byte of a character, a row for each.
TAIL = (0x80, 0xbf)
ROWS = (((0x00, 0x7f),), ((0xc2, 0xdf), TAIL), ((0xe0, 0xe0), (0xa0, 0xbf), TAIL),
        ((0xe1, 0xec), TAIL, TAIL), ((0xed, 0xed), (0x80, 0x9f), TAIL), ((0xee, 0xef), TAIL, TAIL),
        ((0xf0, 0xf0), (0x90, 0xbf), TAIL, TAIL), ((0xf1, 0xf3), TAIL, TAIL, TAIL),
        ((0xf4, 0xf4), (0x80, 0x8f), TAIL, TAIL))
# Numbers that are no character in a width, in the form of one: overlong, surrogates, past the last.
MISFORMED = ((0, 2), (0x2f, 2), (0x7f, 2), (0, 3), (0x7ff, 3), (0xd800, 3), (0xdbff, 3), (0xdc00, 3),
             (0xdfff, 3), (0, 4), (0xffff, 4), (0x110000, 4), (0x13ffff, 4), (0x140000, 4),
             (0x1fffff, 4), (0x200000, 5), (0x3ffffff, 5), (0x4000000, 6), (0x7fffffff, 6))
# By width: the first byte's high bits.
LEADS = {2: 0xc0, 3: 0xe0, 4: 0xf0, 5: 0xf8, 6: 0xfc}
# Bytes that are in no character, wherever they stand between two.
NO_CHARACTER = [bytes.fromhex(digits) for digits in
                '80 8f 90 9f a0 bf c0 c1 c3 e282 f09d84 e0809f f0808080 f5808080 f5 fe ff'.split()]
# The units beside each edge of a width, and those of surrogates.
EDGES = (0, 0x7f, 0x80, 0x7ff, 0x800, 0xd7ff, 0xe000, 0xfdd0, 0xfeff, 0xfffd, 0xfffe, 0xffff)
HIGH, LOW = (0xd800, 0xd801, 0xdbfe, 0xdbff), (0xdc00, 0xdc01, 0xdffe, 0xdfff)


def in_table(draw):
    """The first or the last bytes of a row, cut off at times."""
    out = bytes(draw.choice(bounds) for bounds in draw.choice(ROWS))
    return out[:draw.randint(1, len(out))] if draw.chance(30) else out


def beside_table(draw):
    """The same, where one byte is beside its bounds."""
    row = draw.choice(ROWS)
    out, at = [draw.choice(bounds) for bounds in row], draw.randrange(len(row))
    out[at] = draw.choice((row[at][0] - 1, row[at][1] + 1)) & 0xff
    return bytes(out)


def misformed(draw):
    code, width = draw.choice(MISFORMED)
    tail = [0x80 | code >> 6 * at & 0x3f for at in reversed(range(width - 1))]
    return bytes([LEADS[width] | code >> 6 * (width - 1), *tail])


def cut_character(draw):
    """A character without some bytes at its end or at its front."""
    char = draw.char().encode()
    at = draw.randint(0, len(char))
    return draw.choice((char[:at], char[:at], char[at:]))


def long_ascii(draw):
    """What is read in blocks has edges of its own."""
    return draw.choice((b'a', b'\0', b'\x7f')) * draw.choice((7, 8, 9, 15, 16, 17, 31, 32, 33, 63, 64, 65))


def some_characters(draw, encoding='utf-8'):
    return ''.join(draw.char() for _ in range(draw.randint(1, 5))).encode(encoding)


def units(codes):
    """Each unit as two bytes, the higher one first."""
    return b''.join(code.to_bytes(2, 'big') for code in codes)


def surrogates(draw):
    """In any order: alone, paired, reversed, highs before a pair, lows behind one."""
    return units(draw.choice(draw.choice((HIGH, LOW))) for _ in range(draw.randint(1, 5)))


# How often each piece comes beside the others.
BYTES = {in_table: 5, beside_table: 5, misformed: 4, lambda draw: draw.choice(NO_CHARACTER): 4,
         cut_character: 3, some_characters: 6, lambda draw: draw.randbytes(draw.randint(1, 8)): 2,
         long_ascii: 1}
UNITS = {lambda draw: units(draw.choices(EDGES, draw.randint(1, 3))): 2, surrogates: 4,
         lambda draw: units([draw.randint(0xd800, 0xdbff), draw.randint(0xdc00, 0xdfff)]): 2,
         lambda draw: some_characters(draw, 'utf-16-be'): 3,
         lambda draw: units(draw.randrange(0x10000) for _ in range(draw.randint(1, 4))): 1}


def nearly_utf8(draw, count):
    """So many pieces."""
    return b''.join(draw.weighted(BYTES)(draw) for _ in range(count))


def nearly_utf16(draw, count):
    return b''.join(draw.weighted(UNITS)(draw) for _ in range(count))
