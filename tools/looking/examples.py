"""States of whole numbers that a report doesn't exclude at a point. Outside of what is proved."""
import itertools
from collections.abc import Iterator
from dataclasses import dataclass
from fractions import Fraction

from looking import conditions
from looking.reports import Part, Point
from looking.rows import Generator, Row, State, read_generator, read_row, state_text
from looking.sources import Source

# So many points of a part are paired, so many of its variables varied, and such steps along a ray.
MOST_POINTS, MOST_VARIED = 12, 5
STEPS = (1, 10, 1000, 1000000)


@dataclass(frozen=True)
class Asked:
    """The variables that a condition names, and its numbers with those beside them."""

    names: list[str]
    numbers: list[int]


def asked_in(source: Source, offset: int) -> Asked:
    """Those of the statement at this offset."""
    words = source.statement(offset).split(' ')[1:]
    followed = zip(words, words[1:] + [''])
    names = [word for word, behind in followed if word.isidentifier() and word != 'input' and behind != '[']
    literals = [found for word in dict.fromkeys(words) if (found := conditions.literal(word)) is not None]
    near = [number + step for literal in literals for number in (literal, -literal) for step in (0, 1, -1)]
    return Asked(list(dict.fromkeys(names)), list(dict.fromkeys(near)))


def moved(point: Generator, along: dict[str, Fraction], factor: Fraction | int) -> State:
    """Whole numbers at the point, moved by this factor, or just below."""
    return {name: int((value + factor * along[name]) // 1) for name, value in point.values.items()}


def reaching(point: Generator, along: dict[str, Fraction], numbers: list[int]) -> Iterator[Fraction]:
    """The factors by which a variable comes to one of these numbers."""
    for name, rate in along.items():
        if rate:
            yield from ((number - point.values[name]) / rate for number in numbers)


def by_generators(generators: list[Generator], asked: Asked) -> Iterator[State]:
    """The points of whole numbers; then others: along rays, lines and between two points, there first where a
    variable has a number that is asked for."""
    points = [generator for generator in generators if generator.kind == 'point']
    yield from (moved(point, point.values, 0) for point in points)
    for point in points[:MOST_POINTS]:
        for other in generators:
            if other.kind != 'point':
                factors = [Fraction(step) for step in STEPS] + list(reaching(point, other.values, asked.numbers))
                yield from (
                    moved(point, other.values, factor) for factor in factors if factor > 0 or other.kind == 'line'
                )
                if other.kind == 'line':
                    yield from (moved(point, other.values, -step) for step in STEPS)
    for first, second in itertools.combinations(points[:MOST_POINTS], 2):
        along = {name: second.values[name] - value for name, value in first.values.items()}
        factors = [Fraction(1, 2)] + [factor for factor in reaching(first, along, asked.numbers) if 0 < factor < 1]
        yield from (moved(first, along, factor) for factor in factors)


def bounds(name: str, rows: list[Row], state: State) -> tuple[int | None, int | None]:
    """The least and the greatest value of this variable by these rows, whose other variables the state has."""
    least: int | None = None
    greatest: int | None = None
    for row in rows:
        factor = row.terms[name]
        rest = row.constant - sum(value * state[other] for other, value in row.terms.items() if other != name)
        if row.sign == '=' or (row.sign == '>=') == (factor > 0):
            low = -(-rest // factor)
            least = low if least is None else max(least, low)
        if row.sign == '=' or (row.sign == '<=') == (factor > 0):
            high = rest // factor
            greatest = high if greatest is None else min(greatest, high)
    return least, greatest


def values_of(name: str, rows: list[Row], state: State, numbers: list[int]) -> list[int]:
    """Values of a variable that are tried: its least, its greatest, one between them, and the numbers that are asked
    for."""
    least, greatest = bounds(name, rows, state)
    low = least if least is not None else min(0, greatest) if greatest is not None else 0
    high = greatest if greatest is not None else max(0, low)
    within = [
        number for number in numbers if (least is None or number >= least) and (greatest is None or number <= greatest)
    ]
    away = ([high + step for step in STEPS] if greatest is None else []) + (
        [low - step for step in STEPS] if least is None else []
    )
    return list(dict.fromkeys([low, high, (low + high) // 2, *within, *away]))


def by_rows(names: list[str], rows: dict[str, list[Row]], numbers: list[int], state: State) -> Iterator[State]:
    """Corners of a box or an octagon and states between them, variable by variable, each by the rows whose last one
    it is; only the first few are varied."""
    if len(state) == len(names):
        yield dict(state)
        return
    name = names[len(state)]
    values = values_of(name, rows.get(name, []), state, numbers)
    for value in values if len(state) < MOST_VARIED else values[:1]:
        yield from by_rows(names, rows, numbers, {**state, name: value})


def by_last(names: list[str], rows: list[Row]) -> dict[str, list[Row]]:
    """The rows by the last of their variables in this order."""
    found: dict[str, list[Row]] = {}
    for row in rows:
        found.setdefault(max(row.terms, key=names.index), []).append(row)
    return found


def states(part: Part, asked: Asked, most: int) -> Iterator[State]:
    """States of whole numbers in this part; so many are tried."""
    rows = [read_row(text) for text in part.rows]
    if part.generators is not None:
        tried = by_generators([read_generator(text) for text in part.generators], asked)
    else:
        names = list(dict.fromkeys(asked.names + [name for row in rows for name in row.terms]))
        tried = by_rows(names, by_last(names, rows), asked.numbers, {})
    return (state for state in itertools.islice(tried, most) if all(row.holds(state) for row in rows))


def example(source: Source, point: Point, most: int) -> tuple[State, bool] | None:
    """A state of whole numbers that isn't excluded at an assertion, and whether its condition is false there: the
    first one with a false condition, else the first one."""
    first = None
    asked = asked_in(source, point.offset)
    for part in point.parts:
        for state in states(part, asked, most):
            if conditions.holds(source, point.offset, state) is False:
                return state, True
            first = first or state
    return (first, False) if first else None


@dataclass(frozen=True)
class Example:
    """An example: its state as generators are printed, and in words."""

    state: str
    text: str


def told_example(source: Source, point: Point, most: int) -> Example | None:
    """The example in words; of each part so many states are tried."""
    found = example(source, point, most)
    if found is None:
        return None
    state = state_text(found[0])
    return Example(state, f'{state} is not excluded{", and makes the assertion false" if found[1] else ""}')
