"""What `lra` prints of a program, by paths of calls and offsets in the source: a report, and what is left by going back
from an assertion."""
import re
from dataclasses import dataclass, field

from looking.rows import ROW_TEXT, Row, State, read_row
from looking.sources import Source

# The places of a run, each with what its variables held there.
Trail = list[tuple[str, int, State]]

PLACE = r'(?P<number>\d+) (?P<path>\S+) (?P<line>\d+):(?P<column>\d+)'
POINT = re.compile(rf'point {PLACE}')
VERDICT = re.compile(rf'(?P<kind>assert|fit|access) {PLACE} (?P<verdict>\D+)')
GONE_BACK = re.compile(r'assert (?P<number>\d+) (?P<verdict>proved|unknown)')
PASSED = re.compile(r'flagged .*|  row true')
WHOLE = re.compile(r'=(-?\d+)(?!\S)')
KNOWN = {'assert': 'proved', 'fit': 'fits', 'access': 'in bounds'}


class Wrong(Exception):
    """What doesn't hold."""


@dataclass
class Point:
    """Its number, and its parts with their rows; none where no run is to come there."""

    number: int
    parts: list[list[Row]] = field(default_factory=lambda: [[]])

    def check(self, state: State) -> None:
        """All rows of some part hold."""
        try:
            holds = any(all(row.holds(state) for row in part) for part in self.parts)
        except KeyError as name:
            raise Wrong(f'no variable {name} lives there') from None
        if not holds:
            raise Wrong('its rows do not hold' if self.parts else 'it is marked unreachable')


class Told:
    """The points that are told of, line by line."""

    def __init__(self, words: str, text: str, source: Source) -> None:
        self.words = words
        self.source = source
        self.points: dict[tuple[str, int | None], Point] = {}
        self.last: Point | None = None
        for line in text.splitlines():
            self.read(line, source)

    def read(self, line: str, source: Source) -> None:
        """Takes in one line."""
        if found := POINT.fullmatch(line):
            self.last = Point(int(found['number']))
            self.points[found['path'], source.offset(int(found['line']), int(found['column']))] = self.last
        elif line == '  unreachable':
            self.latest().parts = []
        elif line == '  or':
            self.latest().parts.append([])
        elif line.startswith('  row ') and ROW_TEXT.fullmatch(line[6:]):
            self.latest().parts[-1].append(read_row(line[6:]))
        elif not self.read_further(line, source) and not PASSED.fullmatch(line):
            raise Wrong(f'a line that is not told of a program: {line}')

    def read_further(self, line: str, source: Source) -> bool:
        """Takes in a line that only one kind of text has; whether it is one."""
        return False

    def latest(self) -> Point:
        """The point that was told of last."""
        assert self.last, 'no point is told of yet'
        return self.last

    def point(self, path: str, at: int) -> Point:
        """The point that stands there."""
        if (path, at) not in self.points:
            raise Wrong('there is no such point')
        return self.points[path, at]


class Report(Told):
    """A report: also whether a verdict is the known one."""

    def __init__(self, words: str, text: str, source: Source) -> None:
        self.verdicts: dict[tuple[str, str, int | None], tuple[int, bool]] = {}
        self.listed = {'assert', 'access'}
        super().__init__(words, text, source)

    def read_further(self, line: str, source: Source) -> bool:
        """A line that only a report has."""
        if found := VERDICT.fullmatch(line):
            at = found['path'], source.offset(int(found['line']), int(found['column']))
            is_known = found['verdict'] == KNOWN[found['kind']]
            self.verdicts[(found['kind'], *at)] = int(found['number']), is_known
            self.listed.add(found['kind'])
        elif line.startswith('analysis ') and ' fits yes' in line:
            self.listed.add('fit')
        return bool(found) or line.startswith(('analysis ', 'verdicts ', '  gen '))

    def expect(self, kind: str, on: tuple[str, int], at: tuple[str, int], is_broken: bool) -> None:
        """What a run does at a point is listed there, where such lines are, and no verdict on it is broken."""
        number, is_known = self.verdicts.get((kind, *at), (0, False))
        if kind in self.listed and number != self.points[on].number:
            raise Wrong(f'no line `{kind}` tells of it')
        if is_broken and is_known:
            raise Wrong(f'it is marked as {KNOWN[kind]}')

    def unknown_assertions(self) -> list[int]:
        """The numbers of the points whose assertions stay unknown."""
        asserted = [told for (kind, *_), told in self.verdicts.items() if kind == 'assert']
        return sorted(number for number, is_known in asserted if not is_known)


class Back(Told):
    """What going back from an assertion leaves: also its verdict, and the whole numbers of the points that are listed."""

    def __init__(self, number: int, text: str, source: Source) -> None:
        self.is_proved: bool | None = None
        self.numbers: list[int] = []
        self.assertion = number
        super().__init__(f'back --point {number}', text, source)
        if self.is_proved is None or text.splitlines()[0] != f'back point {number}':
            raise Wrong(f'it tells of another assertion than {number}')

    def read_further(self, line: str, source: Source) -> bool:
        """A line that only such a text has."""
        if found := GONE_BACK.fullmatch(line):
            self.is_proved = found['verdict'] == 'proved'
            return int(found['number']) == self.assertion
        if line.startswith('  gen point'):
            self.numbers += [number for number in map(int, WHOLE.findall(line)) if number not in self.numbers]
        return line.startswith(('back point ', '  gen '))

    def check(self, trail: Trail) -> None:
        """Each store of a run that fails at the assertion lies in the value of its point; the verdict tells what is
        left at the run's first point."""
        path, at, _ = trail[0]
        if self.is_proved != (not self.point(path, at).parts):
            raise Wrong('its verdict is not that of the first point')
        if self.is_proved:
            raise Wrong('it is marked as proved')
        for path, at, state in trail:
            try:
                self.point(path, at).check(state)
            except Wrong as wrong:
                line, column = self.source.place(at)
                store = ' '.join(f'{name}={value}' for name, value in state.items())
                raise Wrong(f'at {path} {line}:{column} with {store}: {wrong}') from None
