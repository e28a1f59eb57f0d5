"""Reports as JSON: read, checked against their source, and asked for of `lra`. Outside of what is proved."""
import json
import os
import re
import subprocess
from dataclasses import dataclass, field
from typing import Any

from looking.rows import GENERATOR_TEXT, ROW_TEXT
from looking.sources import Source

TOP = os.path.dirname(os.path.dirname(os.path.dirname(os.path.realpath(__file__))))
PROGRAM = os.path.join(TOP, 'crates', 'lra', 'out', 'lra')
PLACE = re.compile(r'([1-9]\d*):([1-9]\d*)', re.ASCII)
STEP = re.compile(r'(?P<name>[A-Za-z_]\w*)@(?P<line>[1-9]\d*):(?P<column>[1-9]\d*)', re.ASCII)
REFUSED = re.compile(r'refused (\d+) (\w+) at ([1-9]\d*):([1-9]\d*)\n', re.ASCII)


class Fault(Exception):
    """What the tools refuse, in one line."""


class Failed(Exception):
    """The program ended with a status that tells no report: that status, in one line."""

    def __init__(self, said: str, status: int) -> None:
        super().__init__(said)
        self.status = status


@dataclass(frozen=True)
class Kind:
    """A kind of verdict: the list that has them in a report, the option under which it stands (none: always), whether
    they count, and whether each has a place of its own: that of an array's element, of which a point may have several,
    and the list stands where there is one. The words for what is known and what isn't, in a report and on a page, how
    both are told, and the word that begins a statement that asks it: a condition, of which a state may be an example
    (none: any statement)."""

    key: str
    option: str
    counts: bool
    own_place: bool
    rule: str
    known: str
    unknown: str
    open: str
    none: str
    passes: str
    fails: str
    asks: bytes
    help: str

    def stands(self, analysis: dict[str, Any]) -> bool:
        """Whether a report under these options has them."""
        return not self.option or bool(analysis.get(self.option))


ASSERTS = Kind(
    key='asserts',
    option='',
    counts=True,
    own_place=False,
    rule='assert',
    known='proved',
    unknown='unknown',
    open='not proved',
    none='no assertion',
    passes='assertion is proved',
    fails="assertion isn't proved",
    asks=b'assert',
    help="Something is left of what is known there where the assertion's condition is false: an execution may fail it, "
    'or more has to be known. Look at the rows that hold there; then try `--best`, or state in an `assume` what '
    'the surroundings promise.',
)
FITS = Kind(
    key='fits',
    option='fits',
    counts=False,
    own_place=False,
    rule='overflow',
    known='fits',
    unknown='may overflow',
    open='may overflow',
    none='nothing computed',
    passes='all that is computed here fits',
    fails='this may overflow',
    asks=b'',
    help='What is known there leaves a number that its type does not have, something that is not linear, or a '
    'divisor that is no constant other than 0 and -1: an execution may end here. Look at the rows that hold '
    'there; then read into a `long`, state in an `assume` what the surroundings promise, and convert; or '
    'compute in 64 bits (`1000L`).',
)
ACCESSES = Kind(
    key='accesses',
    option='',
    counts=True,
    own_place=True,
    rule='bounds',
    known='in bounds',
    unknown='unknown',
    open='may be outside',
    none='no access',
    passes='the index is inside the array',
    fails='this index may be outside the array',
    asks=b'',
    help="What is known there leaves an index that the array does not have, or the index is not linear: an execution "
    'may end here. Look at the rows that hold there; then try `--best`, test the index in an `if` before, state in an '
    '`assume` what the surroundings promise, or give a variable what is not linear (a remainder, an element) and take '
    'that as the index.',
)
# A later kind of verdict is one more.
KINDS = (ASSERTS, FITS, ACCESSES)


@dataclass(frozen=True)
class Part:
    """Rows, and over polyhedra their generators, as texts."""

    rows: tuple[str, ...]
    generators: tuple[str, ...] | None


@dataclass(frozen=True)
class Point:
    """A place of the program on a path of calls, with what holds there; no parts where no execution is there."""

    number: int
    path: str
    line: int
    column: int
    offset: int
    parts: tuple[Part, ...]


@dataclass(frozen=True)
class Verdict:
    """What a report says of a point that asks something, and where: at the point's place, or at its own."""

    kind: Kind
    is_known: bool
    line: int
    column: int
    offset: int

    @property
    def word(self) -> str:
        """Its word in a report."""
        return self.kind.known if self.is_known else self.kind.unknown


@dataclass
class Report:
    """A report of a source that was taken."""

    analysis: dict[str, Any]
    flagged: int
    points: list[Point]
    verdicts: dict[int, tuple[Verdict, ...]]
    milliseconds: float = 0.0

    def all_of(self, kind: Kind) -> list[Verdict]:
        """All verdicts of this kind."""
        return [verdict for told in self.verdicts.values() for verdict in told if verdict.kind is kind]

    def said(self, point: Point) -> tuple[Verdict, ...]:
        """The verdicts on a point."""
        return self.verdicts.get(point.number, ())

    @property
    def counts(self) -> tuple[int, int]:
        """How many of the verdicts that count are known, and how many aren't."""
        counted = [verdict.is_known for kind in KINDS if kind.counts for verdict in self.all_of(kind)]
        return counted.count(True), counted.count(False)

    @property
    def status(self) -> int:
        """The exit status of the run that tells it."""
        return 1 if self.counts[1] else 0

    @property
    def options(self) -> str:
        """The options, as the first line of a report tells them."""
        told = self.analysis
        limited = 'yes' if told['limited'] else 'no'
        tail = ''.join(f' {name} yes' for name in ('thresholds', 'fits') if told.get(name))
        numbers = f'parts {told["parts"]} delay {told["delay"]} narrow {told["narrow"]}'
        return f'{told["domain"]} {numbers} limited {limited}{tail}'

    @property
    def words(self) -> str:
        """The options, as words of a command."""
        flags = ''.join(f' --{name}' for name in ('limited', 'thresholds', 'fits') if self.analysis.get(name))
        return ' '.join(f'--{name} {self.analysis[name]}' for name in ('domain', 'parts', 'delay', 'narrow')) + flags

    def places(self) -> dict[int, list[Point]]:
        """The points by their offset, in text order; those of one offset in the report's order."""
        found: dict[int, list[Point]] = {}
        for point in self.points:
            found.setdefault(point.offset, []).append(point)
        return dict(sorted(found.items()))


@dataclass(frozen=True)
class Refusal:
    """The one refusal that a source deserves."""

    number: int
    name: str
    line: int
    column: int
    offset: int
    status: int = field(default=2)


Answer = Report | Refusal


def expect(is_so: bool, said: str) -> None:
    """Refuses where something isn't as a report has it."""
    if not is_so:
        raise Fault(said)


def is_count(value: object) -> bool:
    """Whether it is a whole number that isn't negative."""
    return isinstance(value, int) and not isinstance(value, bool) and value >= 0


def texts(value: object, form: re.Pattern[str], said: str) -> tuple[str, ...]:
    """A list of texts of this form."""
    expect(
        isinstance(value, list) and all(isinstance(text, str) for text in value),
        'rows and generators are lists of texts',
    )
    assert isinstance(value, list)
    for text in value:
        expect(form.fullmatch(text) is not None, f'`{text[:80]}` is no {said}')
    return tuple(value)


def read_part(told: object, domain: str) -> Part:
    """One part of a state."""
    expect(isinstance(told, dict) and 'rows' in told, 'a part has rows')
    assert isinstance(told, dict)
    expect(('generators' in told) == (domain == 'poly'), 'a part has generators exactly over polyhedra')
    generators = texts(told['generators'], GENERATOR_TEXT, 'generator') if domain == 'poly' else None
    return Part(texts(told['rows'], ROW_TEXT, 'row'), generators)


def offset_in(source: Source, line: int, column: int) -> int:
    """The offset of a place of the report, which has to be in the file."""
    offset = source.offset(line, column)
    if offset is None:
        raise Fault(f'the report is of another source: {line}:{column} is outside the file')
    return offset


def read_place(told: dict[str, Any]) -> tuple[int, int] | None:
    """The line and the column of a place, where there is one."""
    place = PLACE.fullmatch(told['place']) if isinstance(told.get('place'), str) else None
    return (int(place[1]), int(place[2])) if place else None


def read_point(told: object, number: int, domain: str, source: Source) -> Point:
    """The point with this number."""
    expect(isinstance(told, dict) and told.get('number') == number, f'no point {number}')
    assert isinstance(told, dict)
    place = read_place(told)
    expect(
        place is not None and isinstance(told.get('path'), str) and isinstance(told.get('parts'), list),
        f'point {number} has no place, path or parts',
    )
    assert place is not None
    line, column = place
    offset = offset_in(source, line, column)
    expect(source.index_at(offset) is not None, f'the report is of another source: nothing begins at {line}:{column}')
    first, *steps = told['path'].split('/')
    for step in steps:
        found = STEP.fullmatch(step)
        expect(found is not None, f'`{told["path"]}` is no path of calls')
        assert found is not None
        offset_in(source, int(found['line']), int(found['column']))
    expect(first == 'main', f'`{told["path"]}` is no path of calls')
    return Point(number, told['path'], line, column, offset, tuple(read_part(part, domain) for part in told['parts']))


def rows_of(told: dict[str, Any], kind: Kind) -> list[Any]:
    """The list of a kind, where it stands."""
    stands = kind.stands(told['analysis'])
    listed = told.get(kind.key, None if stands and not kind.own_place else [])
    expect(isinstance(listed, list), f'no list of {kind.key}')
    assert isinstance(listed, list)
    expect(not listed or stands, f'{kind.key}, and they are not asked for')
    expect(bool(listed) or not kind.own_place or kind.key not in told, f'a list of {kind.key}, and there are none')
    return listed


def read_verdict(row: Any, kind: Kind, points: list[Point], source: Source) -> tuple[int, Verdict]:
    """The verdict that a row tells, with its point's number."""
    expect(
        isinstance(row, dict)
        and row.get('verdict') in (kind.known, kind.unknown)
        and is_count(row.get('point'))
        and 1 <= row['point'] <= len(points),
        f'{kind.key} has a row without a point or a verdict',
    )
    point = points[row['point'] - 1]
    token = source.tokens[source.index_at(point.offset) or 0]
    expect(
        not kind.asks or token.text == kind.asks,
        f'the report is of another source: no {kind.rule} at {point.line}:{point.column}',
    )
    line, column, offset = own_place(row, point, source) if kind.own_place else (point.line, point.column, point.offset)
    return point.number, Verdict(kind, row['verdict'] == kind.known, line, column, offset)


def own_place(row: dict[str, Any], point: Point, source: Source) -> tuple[int, int, int]:
    """The place of an element that the point's statement has: its line, its column, its offset."""
    place = read_place(row)
    expect(place is not None, f'point {point.number} has an access without a place')
    assert place is not None
    offset = offset_in(source, *place)
    end = source.element_end(offset)
    expect(
        end is not None and point.offset <= offset and end <= source.extent(point.offset),
        f'the report is of another source: no element of the statement at {point.line}:{point.column} begins at '
        f'{place[0]}:{place[1]}',
    )
    return *place, offset


def read_verdicts(told: dict[str, Any], points: list[Point], source: Source) -> dict[int, tuple[Verdict, ...]]:
    """The verdicts of all kinds, by their points' numbers; those on one point in the order of the kinds, each at a
    place of its own or the only one of its kind."""
    found: dict[int, list[Verdict]] = {}
    for kind in KINDS:
        places: set[tuple[int, int]] = set()
        for row in rows_of(told, kind):
            number, verdict = read_verdict(row, kind, points, source)
            expect((number, verdict.offset) not in places, f'two rows of {kind.key} on one point, at one place')
            places.add((number, verdict.offset))
            found.setdefault(number, []).append(verdict)
    return {number: tuple(verdicts) for number, verdicts in found.items()}


def read_report(data: bytes, source: Source) -> Report:
    """The report that these bytes tell, checked: what isn't one, or is one of another source, is refused."""
    try:
        told = json.loads(data.decode('utf-8'))
    except (ValueError, RecursionError):
        raise Fault('not JSON, or cut off') from None
    expect(
        isinstance(told, dict) and isinstance(told.get('analysis'), dict) and isinstance(told.get('points'), list),
        'a JSON that is no report',
    )
    analysis = told['analysis']
    expect(
        analysis.get('domain') in ('poly', 'box', 'oct')
        and isinstance(analysis.get('limited'), bool)
        and all(isinstance(analysis.get(key, False), bool) for key in ('thresholds', 'fits'))
        and all(is_count(analysis.get(key)) for key in ('parts', 'delay', 'narrow')),
        'a report without its options',
    )
    points = [read_point(point, number, analysis['domain'], source) for number, point in enumerate(told['points'], 1)]
    expect(is_count(told.get('flagged')) and told['flagged'] <= len(points), 'a report without its flag')
    verdicts = read_verdicts(told, points, source)
    report = Report(analysis, told['flagged'], points, verdicts)
    expect(
        report.counts == (told.get('proved'), told.get('unknown')),
        "a report whose counts aren't those of its verdicts",
    )
    return report


def read_source(name: str) -> Source:
    """The source in this file."""
    try:
        with open(name, 'rb') as file:
            return Source(name, file.read())
    except OSError as fault:
        raise Fault(f'{name}: {fault.strerror}') from None


def read_refusal(text: str, source: Source) -> Refusal | None:
    """The refusal that this line tells."""
    found = REFUSED.fullmatch(text)
    if not found:
        return None
    line, column = int(found[3]), int(found[4])
    return Refusal(int(found[1]), found[2], line, column, offset_in(source, line, column))


def analyse(source: Source, program: str, words: list[str]) -> Answer:
    """What the program says of the source under these options."""
    try:
        run = subprocess.run(
            [program, 'analyse', '--json', *words], input=source.data, capture_output=True, check=False
        )
    except OSError:
        raise Fault(f'{program} is not a program that runs; ./prove builds it, --lra names another one') from None
    if run.returncode == 2 and (refusal := read_refusal(run.stdout.decode('utf-8', 'replace'), source)):
        return refusal
    if run.returncode not in (0, 1):
        said = (run.stdout + run.stderr).decode('utf-8', 'replace').strip().split('\n')[0]
        raise Failed(
            f'{source.name}: {program} ended with status {run.returncode}: {said or "no word"}', abs(run.returncode)
        )
    try:
        return read_report(run.stdout, source)
    except Fault as fault:
        raise Fault(f'{source.name}: what {program} printed: {fault}') from None
