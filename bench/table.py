"""The tables of the bench, as Markdown."""


def shown(number):
    """A number in three places or whole, or nothing."""
    if number is None:
        return ''
    return f'{number:.1f}' if number < 100 else f'{number:,.0f}'


def ratio(number, other):
    return '' if number is None or not other else f'{number / other:.2f}'


def rows_of(lines):
    widths = '|'.join('---' for _ in lines[0])
    yield '| ' + ' | '.join(lines[0]) + ' |'
    yield f'|{widths}|'
    for line in lines[1:]:
        yield '| ' + ' | '.join(line) + ' |'


def compared_to(first, other, numbers, taken):
    """How many times another's instructions the first takes, and in brackets of its time."""
    counted = ratio(numbers.get(first), numbers.get(other))
    timed = ratio(taken.get(first), taken.get(other))
    return f'{counted} ({timed})' if timed else counted


def workload_table(found, taken, titles, compared):
    """Of numbers by workload and title: a row each; last the ratios of the first title to others."""
    first = titles[0]
    lines = [['workload', *titles, *(f'{first} / {other}' for other in compared)]]
    for name, numbers in found.items():
        lines.append([name, *(shown(numbers.get(title)) for title in titles),
                      *(compared_to(first, other, numbers, taken.get(name, {})) for other in compared)])
    return '\n'.join(rows_of(lines))


# In the README of the repository.
README_HEAD = """| Workload | `InlinableString` | original crate | Rust's `String` |
|---|---|---|---|
"""
SHOWN = ['from 6', 'push 30 chars', 'clone 8']


def readme_rows(found, taken):
    """The rows that are always shown, and those that are worst beside two others, by instructions or by time."""
    others, names = ('original', 'Rust `String`'), list(SHOWN)
    for other in others:
        having = [name for name in found if other in found[name] and name not in names]
        names.append(max(having, key=lambda name: max(
            numbers[name]['ours'] / numbers[name][other] for numbers in (found, taken) if name in numbers)))
    cells = [[name, shown(found[name]['ours']), *(
        f'{shown(found[name][other])}: {compared_to("ours", other, found[name], taken.get(name, {}))}'
        for other in others)] for name in names]
    return '\n'.join(f'| {" | ".join(line)} |' for line in cells)


def capacity_table(found):
    """Of pairs by workload and capacity: ours, and ours to the original."""
    capacities = list(next(iter(found.values())))
    lines = [['workload', *(f'N = {capacity}' for capacity in capacities)]]
    for name, pairs in found.items():
        lines.append([name, *(cell(*pairs[capacity]) for capacity in capacities)])
    return '\n'.join(rows_of(lines))


def cell(ours, original):
    compared = ratio(ours, original)
    return f'{shown(ours)} ({compared})' if compared else shown(ours)


def told(found, what, other):
    """In words, how many rows are at most so much of another's."""
    ratios = [numbers['ours'] / numbers[other] for numbers in found.values() if other in numbers]
    few = [sum(one <= most for one in ratios) for most in (.8, 1)]
    return (f'Of {len(ratios)} rows beside {other}, ours takes at most 0.80 of its {what} on '
            f'{few[0]}, and at most as much on {few[1]}.')
