"""What there is to look at in a report: verdicts that are open, what no run reaches, refusals. Outside of what is
proved."""
import bisect
import hashlib
from dataclasses import dataclass, field
from functools import cached_property

from looking.examples import Example, told_example
from looking.reports import KINDS, Answer, Kind, Point, Refusal, Report
from looking.sources import Source

# So many states of a part are tried for an example, so many for all examples of a source; so many points have one.
MOST_TRIED, MOST_TRIED_IN_ALL, MOST_EXAMPLES = 1000, 10000, 256
# What the refusals mean, as docs/LANGUAGE.md has it.
REFUSALS = {
    'TooLong': 'the source has more than 65,536 bytes',
    'BadByte': 'this byte begins no token',
    'BadLiteral': 'no literal, or one over 2^63 - 1',
    'Syntax': 'no source begins with the tokens up to this one',
    'TooDeep': 'this token opens level 65',
    'NoMain': 'no main without parameters is defined',
    'UnknownName': 'no variable or array of that name is in scope, or no function of that name is defined',
    'DuplicateName': 'the name is declared twice',
    'BadCall': 'the number of arguments differs, or a result is used that there is not',
    'Misplaced': 'not in a loop',
    'Recursive': "the call's callee reaches the function that holds the call",
    'TooManyVariables': 'more than 32 variables live here',
    'TooManyPoints': 'there are more than 2,048 points, or 32 calls on a path',
    'DuplicateCase': 'the value, or default, stands in this switch a second time',
    'BadLength': 'the array has no element, or more than 1,048,576',
    'NotArray': "an array's name without an index, or a variable's with one",
}


@dataclass(frozen=True)
class Asked:
    """A place that asks something, a statement or an element in one, with its points: those at which it is known, and
    those at which it isn't."""

    kind: Kind
    offset: int
    points: tuple[Point, ...]
    open_points: tuple[Point, ...]

    @property
    def statement(self) -> Point:
        """A point of the statement."""
        return self.points[0]

    def end(self, source: Source) -> int:
        """The offset behind what is asked about."""
        return (source.element_end(self.offset) if self.kind.own_place else None) or source.extent(self.offset)

    @property
    def is_known(self) -> bool:
        return not self.open_points

    @property
    def is_reached(self) -> bool:
        return any(point.parts for point in self.points)


@dataclass(frozen=True)
class Stretch:
    """Statements next to each other that no run reaches, from the first one to behind the last one."""

    start: int
    end: int
    count: int
    function: str = ''


@dataclass
class Findings:
    """All of one source."""

    source: Source
    answer: Answer
    asked: list[Asked] = field(default_factory=list)
    dead: list[Stretch] = field(default_factory=list)
    examples: dict[int, Example | None] = field(default_factory=dict)

    @cached_property
    def open(self) -> list[Asked]:
        return [asked for asked in self.asked if not asked.is_known]

    def example(self, kind: Kind, point: Point) -> Example | None:
        """A state that isn't excluded at a point whose condition isn't known: of the first ones only, and of many
        fewer states are tried."""
        if not kind.asks:
            return None
        if point.number not in self.examples and len(self.examples) < MOST_EXAMPLES:
            most = min(MOST_TRIED, MOST_TRIED_IN_ALL // min(MOST_EXAMPLES, self.open_count))
            self.examples[point.number] = told_example(self.source, point, most)
        return self.examples.get(point.number)

    @cached_property
    def open_count(self) -> int:
        """At how many points a condition isn't known, at least 1."""
        return max(1, sum(len(asked.open_points) for asked in self.open if asked.kind.asks))


def asked_in(report: Report) -> list[Asked]:
    """The places that ask something, in text order; those of one place in the order of the kinds."""
    said: dict[tuple[int, int], list[tuple[Point, bool]]] = {}
    for point in report.points:
        for verdict in report.said(point):
            said.setdefault((verdict.offset, KINDS.index(verdict.kind)), []).append((point, verdict.is_known))
    found = []
    for (offset, kind), told in sorted(said.items(), key=lambda own: own[0]):
        points = tuple(point for point, _ in told)
        found.append(Asked(KINDS[kind], offset, points, tuple(point for point, is_known in told if not is_known)))
    return found


def stretch_of(source: Source, offsets: list[int]) -> Stretch | None:
    """The stretch of these places; none where only a `}` stands there."""
    told = [offset for offset in offsets if source.data[offset : offset + 1] != b'}']
    return Stretch(told[0], max(source.extent(offset) for offset in told), len(told)) if told else None


def dead_in(source: Source, report: Report) -> list[Stretch]:
    """The stretches that no run reaches, and the functions that nothing calls, in text order."""
    found: list[Stretch | None] = []
    run: list[int] = []
    places = report.places()
    for offset, points in places.items():
        is_dead = not any(point.parts for point in points)
        if run and (not is_dead or source.function_at(run[-1]) != source.function_at(offset)):
            found.append(stretch_of(source, run))
            run = []
        run += [offset] if is_dead else []
    found.append(stretch_of(source, run) if run else None)
    offsets = list(places)
    for name, start, opened, end in source.functions:
        index = bisect.bisect_left(offsets, opened)
        if index == len(offsets) or offsets[index] >= end:
            found.append(Stretch(start, start + len(name), 0, name))
    return sorted((stretch for stretch in found if stretch), key=lambda stretch: stretch.start)


def find(source: Source, answer: Answer) -> Findings:
    """What there is to look at."""
    if isinstance(answer, Refusal):
        return Findings(source, answer)
    return Findings(source, answer, asked_in(answer), dead_in(source, answer))


class Fingerprints:
    """Names that survive a moved line: of a statement by the rule, the function, the words of the statement, and which
    of equal ones it is; of an element by its statement's name, its words, and which of equal ones it is there."""

    def __init__(self, source: Source) -> None:
        self.source = source
        self.seen: dict[tuple[str, ...], dict[int, int]] = {}
        self.statements: dict[int, str] = {}

    def numbered(self, words: tuple[str, ...], offset: int) -> tuple[str, ...]:
        """The words, and which of equal ones stands here; calls have to come in text order."""
        equal = self.seen.setdefault(words, {})
        return (*words, str(equal.setdefault(offset, len(equal))))

    def count(self, rule: str, offset: int) -> tuple[str, ...]:
        """What names the statement here."""
        return self.numbered((rule, self.source.function_at(offset), self.source.statement(offset)), offset)

    def text(self, rule: str, offset: int) -> str:
        """The name of a statement as hexadecimal digits."""
        return digits_of(self.count(rule, offset))

    def asked(self, asked: Asked) -> str:
        """The name of a place that asks something, as hexadecimal digits."""
        if not asked.kind.own_place:
            return self.text(asked.kind.rule, asked.offset)
        at = asked.statement.offset
        if at not in self.statements:
            self.statements[at] = self.text('', at)
        words = (asked.kind.rule, self.statements[at], self.source.element(asked.offset))
        return digits_of(self.numbered(words, asked.offset))


def digits_of(words: tuple[str, ...]) -> str:
    """The words as hexadecimal digits."""
    return hashlib.sha256('\0'.join(words).encode('utf-8', 'replace')).hexdigest()[:32]
