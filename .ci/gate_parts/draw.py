"""Random draws that are the same on every version of Python: SplitMix64, by whole numbers alone."""
import hashlib
from itertools import accumulate

# Of all that is drawn.
SEED = '20251122'
LOW_BITS = 2 ** 64 - 1
# By width: what looks like an end or a space, the first and last of each width and of each gap.
CHARS = (' \r\0\t\x0b\x1f\x7f~azAF09_-', '\x80\x85\xa0é\u0301\u07ff',
         '\u0800€\u2028\u3000\ud7ff\ue000\ufeff\ufffd\uffff', '\U00010000𝄞😀\U000f0000\U0010ffff')
# What `Debug` writes in another form, and what stands beside that.
ESCAPED = '\0\x01\t\n\r\x1b\x1f "\'\\~\x7f\x80\x85\x9f\xa0\xad\u200b\u2028\ufeff\U000e0001'
# Marks that stand on the character before, the characters that have them, and both in one.
MARKS = 'aeé\xe5\u0300\u0301\u030a\u0903\u0e31\u200d\u20dd\u3099\ufe0f\U0001d165\U0001f3fd'
# `Debug` goes by the version of Unicode: 17.0 in Rust 1.95, and 18.0 in the kit, which writes the
# 12,970 characters that are new there as themselves. In these ranges there is none of them.
ALIKE = ((0, 0x557), (0x58d, 0x208e), (0x20c5, 0x2e5f), (0x2e64, 0xa7dc), (0xab6e, 0xd7ff),
         (0xe000, 0x107ba), (0x12687, 0x18cd5), (0x191d3, 0x1b122), (0x1fafb, 0x2b81d),
         (0x2b81f, 0x3cfff), (0x3fc40, 0x10ffff))
KNOWN = frozenset(''.join((*CHARS, ESCAPED, MARKS)))


def is_alike(char):
    """Whether `Debug` prints it in one way by both versions."""
    return char in KNOWN or any(least <= ord(char) <= most for least, most in ALIKE)


class Draw:
    """The draws from a seed, a string. A method of a name of `random.Random` means the same as there."""

    def __init__(self, seed):
        self.state = int.from_bytes(hashlib.sha256(seed.encode()).digest()[:8], 'big')

    def bits(self):
        """64 bits."""
        self.state = bits = (self.state + 0x9e3779b97f4a7c15) & LOW_BITS
        bits = ((bits ^ (bits >> 30)) * 0xbf58476d1ce4e5b9) & LOW_BITS
        bits = ((bits ^ (bits >> 27)) * 0x94d049bb133111eb) & LOW_BITS
        return bits ^ (bits >> 31)

    def randrange(self, count):
        """A number from 0 on, below the count."""
        return (self.bits() * count) >> 64

    def randint(self, least, most):
        return least + self.randrange(most - least + 1)

    def chance(self, percent):
        """Whether what happens so often of a hundred times does now."""
        return self.randrange(100) < percent

    def choice(self, sequence):
        return sequence[self.randrange(len(sequence))]

    def choices(self, sequence, k):
        return [self.choice(sequence) for _ in range(k)]

    def weighted(self, weights):
        """A key of a dictionary, as often as its value says."""
        sums = list(accumulate(weights.values()))
        drawn = self.randrange(sums[-1])
        return next(key for key, sum_of in zip(weights, sums) if drawn < sum_of)

    def randbytes(self, count):
        return b''.join(self.bits().to_bytes(8, 'big') for _ in range(count // 8 + 1))[:count]

    def char(self):
        if self.chance(10):
            return chr(self.choice((self.randint(0x20, 0xd7ff), self.randint(0xe000, 0x10ffff))))
        return self.choice(self.choice(CHARS))

    def string(self, size):
        """A string of as many bytes."""
        if self.chance(30):
            return self.choice('ab ') * size
        out = ''
        while size:
            step = self.randint(1, min(size, 4))
            out, size = out + self.choice(CHARS[step - 1]), size - step
        return out
