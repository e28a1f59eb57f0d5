"""Certificates from rows: what shows them is found path by path. Outside of what is proved: `lra verify` checks it."""
import re
from collections.abc import Iterator
from dataclasses import dataclass, field

from looking.moves import Form
from looking.multipliers import Against, Premise, Shown, Sum, Walk, show
from looking.paths import Path, Paths, Place
from looking.reports import Fault
from looking.rows import ROW_TEXT, read_row
from looking.sources import Source, decode

# A whole certificate begins with its source, of so many bytes.
HEAD = re.compile(rb'certificate bytes (0|[1-9]\d{0,9})\n')
POINT = re.compile(r'point ([1-9]\d*)(?: (?P<more>\S.*))?', re.ASCII)
LISTED = re.compile(r'assert ([1-9]\d*)', re.ASCII)
NUMBERS = re.compile(r'  (?P<sign>>=|=)(?P<numbers>(?: -?\d+)+)', re.ASCII)
# What a report or a whole certificate has besides, and an empty line or one of the user's own.
PASSED = re.compile(
    r'|#.*|(?:analysis|flagged|fit|access|verdicts|edge|by|dead) .*|assert \d+ \S.*|  gen .*|  row true|end', re.ASCII
)


@dataclass(frozen=True)
class Row:
    """The form over a point's variables is 0, or at least 0."""

    is_zero: bool
    form: Form

    def claims(self) -> Iterator[Form]:
        """What has to be at least 0."""
        yield self.form
        if self.is_zero:
            yield tuple(-number for number in self.form)

    def text(self) -> str:
        return f'  {"=" if self.is_zero else ">="} {" ".join(map(str, self.form))}'


@dataclass
class Rows:
    """Those of each point, none where it is empty; and the assertions that are to be listed."""

    states: list[list[Row] | None]
    listed: list[int] = field(default_factory=list)


def read_rows(text: str, places: tuple[Place, ...]) -> Rows:
    """The rows of a text: as certificates have them, or reports."""
    rows = Rows([[] for _ in places])
    now, told = 0, set()
    for number, line in enumerate(text.splitlines(), 1):
        try:
            if point := POINT.fullmatch(line):
                now = int(point[1])
                if not 1 <= now <= len(places) or now in told:
                    raise Fault(f'there is no point {now}' if now not in told else f'point {now} stands there twice')
                told.add(now)
                if point['more'] == 'empty':
                    rows.states[now - 1] = None
            elif listed := LISTED.fullmatch(line):
                rows.listed.append(asserted(int(listed[1]), places))
            elif not PASSED.fullmatch(line):
                read_state(line, now, places, rows)
        except Fault as fault:
            raise Fault(f'line {number}: {fault}') from None
    return Rows(rows.states, sorted(set(rows.listed)))


def asserted(number: int, places: tuple[Place, ...]) -> int:
    if not 1 <= number <= len(places) or places[number - 1].denied is None:
        raise Fault(f'no assertion stands at a point {number}')
    return number


def read_state(line: str, now: int, places: tuple[Place, ...], rows: Rows) -> None:
    """A line below a point."""
    state = rows.states[now - 1] if now else None
    if line == '  unreachable' and state == []:
        rows.states[now - 1] = None
    elif state is not None and (numbers := NUMBERS.fullmatch(line)):
        form = tuple(int(word) for word in numbers['numbers'].split())
        if len(form) != len(places[now - 1].names) + 1:
            raise Fault(f'{len(form)} numbers, but 1 and {" ".join(places[now - 1].names)} must have one each')
        state.append(Row(numbers['sign'] == '=', form))
    elif state is not None and line.startswith('  row ') and ROW_TEXT.fullmatch(line[6:]):
        state.append(named(line[6:], places[now - 1]))
    else:
        raise Fault('this is not a row of a point')


def named(text: str, place: Place) -> Row:
    """A row as reports print it."""
    read = read_row(text)
    for name in read.terms:
        if name not in place.names:
            raise Fault(f'no variable {name} lives there')
    form = (-read.constant, *(read.terms.get(name, 0) for name in place.names))
    return Row(read.sign == '=', tuple(-number for number in form) if read.sign == '<=' else form)


def premises_of(state: list[Row], walk: Walk) -> list[Premise]:
    """A point's rows, and then the tests of a path from there."""
    return [Premise(row.is_zero, dict(enumerate(row.form))) for row in state] + walk.tests


def line_of(word: str, shown: Shown) -> str:
    return f'{word} {" ".join(map(str, shown.numbers))}'


class Certifier:
    """Shows the rows of a source along all paths."""

    def __init__(self, source: Source, paths: Paths, rows: Rows) -> None:
        self.source = source
        self.paths = paths
        self.rows = rows

    def state(self, number: int) -> list[Row] | None:
        """At the start there is no row."""
        return self.rows.states[number - 1] if number else []

    def names(self, number: int) -> tuple[str, ...]:
        return self.paths.places[number - 1].names if number else ()

    def text(self) -> bytes:
        lines = [*self.points(), *self.edges(), *self.assertions(), 'end']
        head = b'certificate bytes %d\n%s\n' % (len(self.source.data), self.source.data)
        return head + ''.join(f'{line}\n' for line in lines).encode()

    def points(self) -> Iterator[str]:
        for number, state in enumerate(self.rows.states, 1):
            yield f'point {number}' + (' empty' if state is None else '')
            for row in state or []:
                yield row.text()

    def edges(self) -> Iterator[str]:
        for path in self.paths.paths:
            yield f'edge {path.source} {path.goal}'
            state = self.state(path.source)
            if state is not None:
                yield from self.shown(path, state)

    def shown(self, path: Path, state: list[Row]) -> list[str]:
        """The lines of one path: that nothing goes along it, or a line for each claim of its goal."""
        walk = Walk(len(self.names(path.source)), path.actions)
        premises = premises_of(state, walk)
        nothing = show(premises, {0: -1})
        if isinstance(nothing, Shown):
            return [line_of('dead', nothing)]
        goal = self.state(path.goal)
        if goal is None:
            raise self.fault(path, nothing, 'a path leads there')
        lines = []
        for row in goal:
            for claim in row.claims():
                found = show(premises, walk.composed(claim))
                if isinstance(found, Against):
                    raise self.fault(path, found, f'`{row.text().strip()}` is not shown')
                lines.append(line_of('by', found))
        return lines

    def denied(self, number: int) -> list[str] | Against:
        """The lines of an assertion, or what is against it."""
        state = self.state(number)
        if state is None:
            return []
        lines = []
        for path in self.paths.denials(number):
            walk = Walk(len(self.names(number)), path.actions)
            found = show(premises_of(state, walk), {0: -1})
            if isinstance(found, Against):
                return found
            lines.append(line_of('dead', found))
        return lines

    def assertions(self) -> Iterator[str]:
        """Those that are to be listed; where none is, all that are shown."""
        wanted = self.rows.listed
        every = [number for number, place in enumerate(self.paths.places, 1) if place.denied is not None]
        for number in wanted or every:
            found = self.denied(number)
            if isinstance(found, list):
                yield from (f'assert {number}', *found)
            elif wanted:
                at = self.place(self.paths.places[number - 1])
                raise Fault(f'{at}: point {number}: the assertion is not shown{self.told(number, found)}')

    def place(self, place: Place) -> str:
        line, column = self.source.place(place.at)
        return f'{self.source.name}:{line}:{column}'

    def told(self, source: int, against: Against) -> str:
        """What is against it, in the variables at the source."""
        names = self.names(source)
        values = [f'{name}={against.values.get(column, 0)}' for column, name in enumerate(names, 1)]
        if not values:
            return ''
        return f', with {" ".join(values)}' + ('' if against.is_point else ' any number of times')

    def fault(self, path: Path, against: Against, said: str) -> Fault:
        """What isn't shown along a path."""
        at = self.place(self.paths.places[path.goal - 1])
        begun = f'from point {path.source}' if path.source else 'from the start'
        return Fault(f'{at}: point {path.goal}: {said}, {begun}{self.told(path.source, against)}')


def behind_source(data: bytes) -> bytes:
    """What a certificate has behind its source, from where `verify` counts its lines; other texts are whole."""
    head = HEAD.match(data)
    return data[head.end() + int(head[1]) + 1 :] if head else data


def certificate_text(source: Source, paths: Paths, data: bytes) -> bytes:
    """The certificate of the rows in these bytes."""
    rows = read_rows(decode(behind_source(data)), paths.places)
    return Certifier(source, paths, rows).text()
