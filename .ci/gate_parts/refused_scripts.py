"""Scripts, what they print, and what they print if a request of theirs is refused: by hand from the rules.

A script makes three requests before its run: for its input, for the bytes that its lines stand for, and for its
commands. One more is for its replies, and one for a text that begins on the heap. If one of these is refused, the
script prints that alone. If one of the run is refused, the command that makes it fails, and the run goes on.
"""

NO_MEMORY = '1, "no memory\\n"'
# A script; how many requests it makes outside of its run; what it prints if each of the run is refused; and if none is.
SCRIPTS = (
    (r'inline "push_str hello world\ntruncate 5\npop\ntruncate 9\npush_str abcdefghijklmnopqrstuvwxyz0\npop\n"', 4,
     [r'0, "done\ndone\nchar o\nbad place\nno memory\nchar l\ntext hel\nlength 3\nstorage inline\n"'],
     r'0, "done\ndone\nchar o\nbad place\ndone\nchar 0\ntext hellabcdefghijklmnopqrstuvwxyz\nlength 30\nstorage heap\n"'),
    (r'inline0 "push a\npop\nshrink_to_fit\n"', 4,
     [r'0, "no memory\nnone\ndone\ntext \nlength 0\nstorage inline\n"'],
     r'0, "done\nchar a\ndone\ntext \nlength 0\nstorage inline\n"'),
    (r'inline8 "push_str 12345678\npush 9\nreplace_bytes 393837363534333231\n"', 4,
     [r'0, "done\nno memory\nwrong length\ntext 12345678\nlength 8\nstorage inline\n"'],
     r'0, "done\ndone\ndone\ntext 987654321\nlength 9\nstorage heap\n"'),
    (r'heap "push_str 0123456789\nreserve 31\nshrink_to_fit\n"', 5,
     [r'0, "done\nno memory\ndone\ntext 0123456789\nlength 10\nstorage inline\n"'],
     r'0, "done\ndone\ndone\ntext 0123456789\nlength 10\nstorage inline\n"'),
    (r'string "push_str abc\nreserve_exact 100\npop\n"', 4,
     [r'0, "no memory\ndone\nnone\ntext \nlength 0\nstorage heap\n"',
      r'0, "done\nno memory\nchar c\ntext ab\nlength 2\nstorage heap\n"'],
     r'0, "done\ndone\nchar c\ntext ab\nlength 2\nstorage heap\n"'),
    (r'stack "pop\n"', 0, [], r'2, "bad argument\n"'),
    (r'heap b"pop\n\xc3"', 1, [], r'2, "input is not utf-8\n"'),
    (r'string "pop\npush ab\n"', 3, [], r'2, "line 2: bad command\n"'))
# What comes of the reading of the program's words if each request is refused, and then none. std's `collect` does
# without the last one.
WORDS = ('no memory',) * 8 + ('4 words',) * 2


def answers():
    """Each script, and what it prints if each of its requests is refused, and then none."""
    for script, outside, of_run, usual in SCRIPTS:
        yield script, [NO_MEMORY] * outside + of_run + [usual]
