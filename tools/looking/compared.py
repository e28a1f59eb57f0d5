"""Two reports, compared. Outside of what is proved."""
import re
from collections import Counter
from dataclasses import dataclass

from looking.findings import Fingerprints
from looking.reports import KINDS, STEP, Kind, Point, Report, Verdict
from looking.sources import Source

Key = tuple[object, ...]


@dataclass(frozen=True)
class Told:
    """A point, with the verdicts on it, each by its kind and by which of that kind it is there."""

    point: Point
    said: dict[tuple[Kind, int], Verdict]

    @property
    def verdict(self) -> str:
        return ', '.join(self.word(key) for key in self.said)

    @property
    def where(self) -> str:
        return f'{self.point.line}:{self.point.column} {self.point.path}'

    def word(self, key: tuple[Kind, int]) -> str:
        """What is told of a verdict, and where none is."""
        if key not in self.said:
            return key[0].none
        return self.said[key].word + ('' if self.point.parts else ', never reached')

    def place(self, key: tuple[Kind, int]) -> str:
        """Where a verdict is told; where none is, the point's place."""
        own = self.said.get(key, self.point)
        return f'{own.line}:{own.column} {self.point.path}'


class Names:
    """The keys by which points of two versions are told: of their statements and of the calls on their paths."""

    def __init__(self, source: Source) -> None:
        self.source = source
        self.fingerprints = Fingerprints(source)
        self.known: dict[int, Key] = {}

    def prepare(self, report: Report) -> None:
        """Names all statements, in text order."""
        for offset in report.places():
            self.known[offset] = self.fingerprints.count('', offset)

    def step(self, found: re.Match[str]) -> str:
        """A step of a path, by its call's statement instead of its place."""
        offset = self.source.offset(int(found['line']), int(found['column']))
        index = max((own for own in self.known if offset is not None and own <= offset), default=0)
        return f'{found["name"]}@{self.known.get(index)}'

    def key(self, point: Point) -> Key:
        return (*self.known[point.offset], STEP.sub(self.step, point.path))


def told_of(report: Report, names: Names | None) -> dict[Key, Told]:
    """The points of a report by their keys: by place and path, or by the statement's name and path."""
    if names:
        names.prepare(report)
    found = {}
    for point in report.points:
        counts: Counter[Kind] = Counter()
        said = {}
        for verdict in report.said(point):
            said[verdict.kind, counts[verdict.kind]] = verdict
            counts[verdict.kind] += 1
        key = names.key(point) if names else (point.line, point.column, point.path)
        found[key] = Told(point, said)
    return found


def rows_of(point: Point) -> set[str]:
    """The rows of a point; of several parts each part's together."""
    if len(point.parts) == 1:
        return set(point.parts[0].rows)
    return {f'({", ".join(part.rows) or "any values"})' for part in point.parts}


def change_of(old: Told, new: Told, kinds: list[Kind]) -> list[str]:
    """What changed at a point, of verdicts of these kinds."""
    keys = [key for key in dict.fromkeys([*new.said, *old.said]) if key[0] in kinds]
    changed = [key for key in keys if old.word(key) != new.word(key)]
    lines = [f'{new.place(key)}: {old.word(key)} became {new.word(key)}' for key in changed]
    if bool(old.point.parts) != bool(new.point.parts):
        return lines + [f'{new.where}: {"reached now" if new.point.parts else "never reached now"}']
    lost, won = rows_of(old.point) - rows_of(new.point), rows_of(new.point) - rows_of(old.point)
    lines += [f'{new.where}: lost {row}' for row in sorted(lost)]
    return lines + [f'{new.where}: won {row}' for row in sorted(won)]


def changes(old: Report, new: Report, old_source: Source | None, new_source: Source | None) -> list[str]:
    """What changed, in the order of the new report; then what is gone."""
    before = told_of(old, Names(old_source) if old_source else None)
    after = told_of(new, Names(new_source) if new_source else None)
    kinds = [kind for kind in KINDS if kind.stands(old.analysis) and kind.stands(new.analysis)]
    lines = []
    for key, told in after.items():
        if key in before:
            lines += change_of(before[key], told, kinds)
        elif told.verdict:
            lines.append(f'{told.where}: new, {told.verdict}')
    return lines + [
        f'{told.where}: gone, was {told.verdict}' for key, told in before.items() if key not in after and told.verdict
    ]
