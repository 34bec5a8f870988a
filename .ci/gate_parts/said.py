"""What a check by `rt` says: which functions are proved, and which goals are left open.

It is prose, made for people, so all that the gate looks for in it stands here. Where the prose of another
toolchain is another, no goal is found open, and each edit fails.
"""
import re

# A goal that `search` left open; such lines stand before that of the function.
LEFT_OPEN = re.compile(r'^note: src/.*: it is not proved .*\(`([^`]+)`\)')
# What is said of a function: `proved`, `no proof: it ..` where it merely calls a refused one, or else.
FUNCTION = re.compile(r'^fn (\S+): (proved|no proof: it |)')
# An error in a file: the file, and what is wrong.
ERROR = re.compile(r'^(?:\./)?((?:src|specs|proofs)/\S+?):\d+:\d+: error: (.*)')
# An answer that does not prove its goal, and is not only left out for want of another.
UNPROVED = re.compile(r'`([^`]+)`: (?!.*was not admitted)')
# What is left out since it stands on something that was refused; a long list is cut off.
LEFT_OUT = re.compile(
    r'\d+ declarations? that depends? on `.*, (?:was|were) not checked: (.*?)(?: and \d+ more)?$')
# A name has gone: that refuses whatever stands on it, true or not. A hint on how to paste says of a variable
# that it is not in scope, and is no such error.
GONE = re.compile(r'has no field|has no `|is not in scope(?! here, so what is shown)|can be named from here')


def answers_of(path):
    """The function whose answers stand in a file of proofs/; None where it is a file of lemmas. A folder has
    a `+` before the name of a function of a module further down."""
    parts = [part.lstrip('+') for part in path.split('/')]
    return '::'.join(parts[1:-1]) if parts[0] == 'proofs' and len(parts) > 2 else None


def errors_in(said):
    """Each error: its line with the indented ones in which it goes on, the file, and what is wrong."""
    errors = map(ERROR.match, re.sub(r'\n  +', ' ', said).splitlines())
    return [(found[0], found[1], found[2]) for found in errors if found]


def refused_in(crate, said):
    """The functions that are refused by goals of their own, and these goals.

    One that is refused only since it calls such a function is not among them, and neither is a goal
    whose answer names something that has gone.
    """
    refused, left_open = {}, set()
    for line in said.splitlines():
        goal, function = LEFT_OPEN.match(line), FUNCTION.match(line)
        if goal:
            left_open.add(goal[1])
        elif function:
            if not function[2]:
                refused[re.sub(f'^{crate}::', '', function[1])] = left_open
            left_open = set()
    for _, path, wrong in errors_in(said):
        unproved, function = UNPROVED.match(wrong), answers_of(path)
        if unproved and function and not GONE.search(wrong):
            refused.setdefault(function, set()).add(unproved[1])
    return refused


def ill_formed(said):
    """The errors that refuse nothing: in a definition or in the source, or of a name gone."""
    return [line for line, path, wrong in errors_in(said)
            if GONE.search(wrong) or not path.startswith('proofs/')]


def open_goals(crate, function, said):
    """The goals that a check of one function leaves open, by themselves or for want of a lemma."""
    found = set(refused_in(crate, said).get(function, ()))
    for _, path, wrong in errors_in(said):
        left_out = LEFT_OUT.match(wrong)
        if left_out and answers_of(path) == function:
            found |= {name.split(' (via ')[0] for name in left_out[1].split(', ')}
    return found
