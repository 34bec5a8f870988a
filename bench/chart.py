"""Lines over logarithmic axes as an SVG, which has its own white ground and names no font, so that it reads the same
on light and on dark pages.
"""
from math import ceil, floor, log10
from typing import NamedTuple
from xml.sax.saxutils import escape

WIDTH, HEIGHT = 900, 560
LEFT, RIGHT, TOP, BOTTOM = 90, 730, 100, 490
INK, GRID, GROUND = '#1f2328', '#d0d7de', '#ffffff'
# Between two labels at the ends of lines, in pixels.
APART = 19


class Line(NamedTuple):
    title: str
    colour: str
    # as `stroke-dasharray` has it; none for a solid line
    dashes: str
    # the height at each place
    points: dict


class Axis(NamedTuple):
    """Values between two powers of ten, from one pixel to another."""
    least: float
    most: float
    begin: int
    end: int

    def at(self, value):
        share = (log10(value) - log10(self.least)) / (log10(self.most) - log10(self.least))
        return round(self.begin + share * (self.end - self.begin), 1)

    def powers(self):
        return [10 ** power for power in range(round(log10(self.least)), round(log10(self.most)) + 1)]


def axis_of(values, begin, end):
    """The axis between the powers of ten about these values."""
    least = floor(log10(min(values)))
    return Axis(10 ** least, 10 ** max(ceil(log10(max(values))), least + 1), begin, end)


def text(x, y, words, anchor='start', colour=INK, more=''):
    return f'<text x="{x}" y="{y}" text-anchor="{anchor}" fill="{colour}"{more}>{escape(words)}</text>'


def rule(x, y, to_x, to_y):
    return f'<line x1="{x}" y1="{y}" x2="{to_x}" y2="{to_y}" stroke="{GRID}"/>'


def grid(across, up, shown_across, shown_up):
    """Rules at powers of ten, with what each stands for."""
    for value in across.powers():
        yield rule(across.at(value), TOP, across.at(value), BOTTOM)
        yield text(across.at(value), BOTTOM + 22, shown_across(value), 'middle')
    for value in up.powers():
        yield rule(LEFT, up.at(value), RIGHT, up.at(value))
        yield text(LEFT - 10, up.at(value) + 5, shown_up(value), 'end')


def drawn(line, across, up):
    places = [(across.at(x), up.at(y)) for x, y in sorted(line.points.items())]
    path = ' '.join(f'{x},{y}' for x, y in places)
    yield (f'<polyline points="{path}" fill="none" stroke="{line.colour}" stroke-width="2.5"'
           f'{line.dashes and f" stroke-dasharray={chr(34)}{line.dashes}{chr(34)}"}/>')
    for x, y in places:
        yield f'<circle cx="{x}" cy="{y}" r="3.5" fill="{line.colour}"/>'


def labels(lines, across, up):
    """Each line's title after its end, lower where one above it needs the place."""
    last = -APART
    for line in sorted(lines, key=lambda line: up.at(line.points[max(line.points)])):
        end = max(line.points)
        last = max(up.at(line.points[end]), last + APART)
        yield text(across.at(end) + 12, round(last + 5, 1), line.title, 'start', line.colour, ' font-weight="bold"')


def picture(title, below, x_title, lines, shown_across, shown_up):
    """The SVG of some lines. `below` are the lines of text under the title."""
    across = axis_of([x for line in lines for x in line.points], LEFT, RIGHT)
    up = axis_of([y for line in lines for y in line.points.values()], BOTTOM, TOP)
    parts = [f'<svg xmlns="http://www.w3.org/2000/svg" viewBox="0 0 {WIDTH} {HEIGHT}" width="{WIDTH}" '
             f'height="{HEIGHT}" font-family="sans-serif" font-size="14" role="img">',
             f'<title>{escape(title)}</title>',
             f'<rect width="{WIDTH}" height="{HEIGHT}" fill="{GROUND}"/>',
             text(LEFT, 34, title, more=' font-size="19" font-weight="bold"'),
             *(text(LEFT, 58 + 20 * place, words) for place, words in enumerate(below)),
             *grid(across, up, shown_across, shown_up),
             *(part for line in lines for part in drawn(line, across, up)),
             *labels(lines, across, up),
             text((LEFT + RIGHT) // 2, BOTTOM + 52, x_title, 'middle'),
             '</svg>']
    return '\n'.join(parts) + '\n'
