#!/usr/bin/env python3
"""Reports against runs: programs drawn from seeds are analysed, and run by an interpreter of docs/DEFINITIONS.md.

    tests/differential/runs.py [PROGRAM] [--seed N] [--count N] [--threads N] [--runs N] [--guided] [FILE..]

Whenever a run is at a point, the rows printed there have to hold; no run comes to a point that is marked unreachable,
fails an assertion that is marked proved, ends by a number where all is marked as fitting, or has an index outside an
array where an access is marked in bounds. Where a run fails, what `back` writes for that assertion has to have each of
its stores at its point. The programs are those of the seeds from N on (1), so many (50), or those in the files; each is
run so many times (20). So are programs of several threads (20), whose order is drawn, too: they are held against what
`threads` prints, in three ways, and what each thread gives a global against its lines `writes`. Files without `main`
are such programs. Before, texts that are wrong are tried, which have to be noticed, and runs whose end is known.
With `--guided` as many runs more are made for each assertion that polyhedra leave unknown, of whose draws half are
numbers of the generators that `back` lists, and it is told how many of both kinds of runs fail there. Says what doesn't
hold, with the program and the draws of the run, and ends with 1 then. Outside of what is proved.
"""
import argparse
import os
import subprocess
import sys
from collections.abc import Callable, Iterable, Iterator, Sequence

from beside import Told, compare_threads
from drawing import Draws, program_of, threads_of
from known import BACKS, ENDS, REPORTS, THREADS
from running import FAILED, NUMBER, Run
from told import Back, Report, Trail, Wrong

from looking.programs import read_program
from looking.sources import Source

HERE = os.path.dirname(os.path.realpath(__file__))
PROGRAM = os.path.join(HERE, '../../crates/lra/out/lra')
WAYS = ('--domain box --fits', '--domain oct --fits', '--fits', '--best --fits', '--domain box --parts 4 --fits')
BESIDE = ('', '--delay 0 --narrow 0', '--delay 3 --narrow 2')
Failing = dict[tuple[str, int], list[Trail]]
# What ends a run is broken by a verdict of this kind.
BROKEN = {FAILED: 'assert', NUMBER: 'fit'}


class Checker:
    """Watches runs, and holds them against reports of the program; what each failing run met is kept by where it
    failed."""

    def __init__(self, reports: Sequence[Report]) -> None:
        self.reports = reports
        self.seen: set[tuple[str | int, ...]] = set()
        self.report: Report | None = None
        self.trail: Trail = []
        self.failing: Failing = {}

    def come(self, path: str, at: int, names: Sequence[str], values: Sequence[int]) -> None:
        """The rows of the point hold."""
        state = dict(zip(names, values))
        self.trail.append((path, at, state))
        if (path, at, *values) in self.seen:
            return
        self.seen.add((path, at, *values))
        for self.report in self.reports:
            self.report.point(path, at).check(state)

    def access(self, path: str, on: int, at: int, is_inside: bool) -> None:
        """An access is listed, and lies inside where it is marked so."""
        for self.report in self.reports:
            self.report.expect('access', (path, on), (path, at), not is_inside)

    def gave(self, path: str, name: str, number: int) -> None:
        """Nothing is told of what a global gets where a program runs alone."""

    def ended(self, path: str, on: int, how: str) -> None:
        """What ends the run there isn't excluded."""
        for self.report in self.reports:
            if how in BROKEN:
                self.report.expect(BROKEN[how], (path, on), (path, on), True)
        if how == FAILED:
            self.failing.setdefault((path, on), []).append(self.trail)
        self.trail = []


def told(source: Source, checker: Checker, run: Run, draws: Draws, wrong: Wrong) -> str:
    """All that whoever looks for the fault needs."""
    line, column = source.place(run.on)
    words = checker.report.words if checker.report else ''
    store = ' '.join(f'{name}={value}' for name, value in checker.trail[-1][2].items()) if checker.trail else ''
    return (f'{source.name}, {words}: at {run.path} {line}:{column} with {store}: {wrong}\n'
            f'draws {" ".join(map(str, draws.drawn))}\n{source.data.decode()}')


def compare(source: Source, reports: Sequence[Report], runs: Iterable[Draws]) -> tuple[str, list[str], Failing]:
    """Runs the program; what doesn't hold of the reports, or nothing, how the runs ended, and what failing ones met."""
    program, checker, ends = read_program(source), Checker(reports), []
    for draws in runs:
        run = Run(source, program, draws.draw, checker)
        try:
            ends.append(run.run())
        except Wrong as wrong:
            return told(source, checker, run, draws, wrong), ends, {}
    return '', ends, checker.failing


def seeded(count: int) -> list[Draws]:
    """The draws of so many runs."""
    return [Draws(seed) for seed in range(count)]


def guided(count: int, numbers: Sequence[int]) -> list[Draws]:
    """The same, half of them numbers of this list."""
    return [Draws(seed, numbers) for seed in range(count)]


def answered(lra: str, source: Source, words: str, refusal: str | None = None) -> str:
    """What is written of a program that is taken; nothing where the text of a refusal begins so."""
    ended = subprocess.run([lra, *words.split()], input=source.data, capture_output=True, check=False)
    text = ended.stdout.decode()
    if refusal and ended.returncode == 2 and text.startswith(refusal):
        return ''
    if ended.returncode not in (0, 1):
        raise Wrong(f'{source.name}, {words}: status {ended.returncode}: {text}{source.data.decode()}')
    return text


def analysed(lra: str, source: Source, words: str) -> Report:
    """The report of a program."""
    return Report(words, answered(lra, source, f'analyse {words}'), source)


def told_of_threads(lra: str, source: Source, words: str) -> Told:
    """What is told of a program of several threads."""
    return Told(words, answered(lra, source, f'threads {words}'), source)


def gone_back(lra: str, source: Source, number: int) -> Back | None:
    """What going back from an assertion of the program leaves; nothing where too many paths lead from a point."""
    text = answered(lra, source, f'back --point {number}', 'refused paths at point ')
    return Back(number, text, source) if text else None


def held_back(source: Source, back: Back, trails: Iterable[Trail]) -> str:
    """What of these runs, which fail at its assertion, the text doesn't have."""
    for trail in trails:
        try:
            back.check(trail)
        except Wrong as wrong:
            return f'{source.name}, {back.words}: {wrong}\n{source.data.decode()}'
    return ''


def is_of_threads(source: Source) -> bool:
    """Whether it has no `main`."""
    return 'main' not in [name for name, *_ in source.functions]


def checked(lra: str, source: Source, runs: int) -> Iterator[str]:
    """What doesn't hold of a program's reports, and of what is left by going back from each assertion that fails; or of
    what is told of its threads."""
    if is_of_threads(source):
        yield compare_threads(source, [told_of_threads(lra, source, way) for way in BESIDE], runs)
        return
    reports = [analysed(lra, source, way) for way in WAYS]
    wrong, _, failing = compare(source, reports, seeded(runs))
    yield wrong
    for place, trails in failing.items():
        back = gone_back(lra, source, reports[0].point(*place).number)
        yield held_back(source, back, trails) if back else ''


def counted(lra: str, source: Source, runs: int) -> Iterator[str]:
    """Of each assertion that stays unknown: how many runs fail there, by chance and with numbers of its generators."""
    report = analysed(lra, source, '')
    for number in report.unknown_assertions():
        back, counts = gone_back(lra, source, number), []
        if not back:
            continue
        for draws in (seeded(runs), guided(runs, back.numbers)):
            failing = compare(source, [report], draws)[2]
            here = [found for place, found in failing.items() if report.point(*place).number == number]
            trails = here[0] if here else []
            counts.append(len(trails))
            yield held_back(source, back, trails)
        verdict = 'proved' if back.is_proved else 'unknown'
        print(f'{source.name}, assertion {number}, {verdict}: of {runs} runs {counts[0]} fail there, '
              f'of {runs} guided ones {counts[1]}')


def known_reports() -> Iterator[str]:
    """Reports written by hand, and what each becomes when a part is replaced: whether this is noticed."""
    for name, text, report, changes in REPORTS:
        source = Source(name, text.encode())
        for old, new in [('', ''), *changes]:
            if report.count(old) != 1 and old:
                yield f'{name}: `{old}` stands {report.count(old)} times in its report'
            wrong = [Report('by hand', report.replace(old, new) if old else report, source)]
            noticed = compare(source, wrong, seeded(20))[0]
            if bool(noticed) != bool(old):
                yield f'{name}: `{new}` in place of `{old}` is not noticed' if old else noticed


def known_backs() -> Iterator[str]:
    """The same of what is left by going back; some runs fail, all of them there."""
    for name, text, number, left, changes in BACKS:
        source = Source(name, text.encode())
        failing = compare(source, [], seeded(200))[2]
        if len(failing) != 1:
            yield f'{name}: runs fail at {len(failing)} points'
        trails = [trail for found in failing.values() for trail in found]
        for old, new in [('', ''), *changes]:
            if left.count(old) != 1 and old:
                yield f'{name}: `{old}` stands {left.count(old)} times in what is left'
            try:
                noticed = held_back(source, Back(number, left.replace(old, new) if old else left, source), trails)
            except Wrong as wrong:
                noticed = str(wrong)
            if bool(noticed) != bool(old):
                yield f'{name}: `{new}` in place of `{old}` is not noticed' if old else noticed


def known_threads() -> Iterator[str]:
    """The same of what is told of threads."""
    for name, text, told_so, changes in THREADS:
        source = Source(name, text.encode())
        for old, new in [('', ''), *changes]:
            if told_so.count(old) != 1 and old:
                yield f'{name}: `{old}` stands {told_so.count(old)} times in what is told of it'
            try:
                given = Told('by hand', told_so.replace(old, new) if old else told_so, source)
                noticed = compare_threads(source, [given], 200)
            except Wrong as wrong:
                noticed = str(wrong)
            if bool(noticed) != bool(old):
                yield f'{name}: `{new}` in place of `{old}` is not noticed' if old else noticed


def known_ends() -> Iterator[str]:
    """Programs whose end is known."""
    for text, wanted in ENDS:
        source = Source('a known end', text.encode())
        ends = compare(source, [], seeded(3))[1]
        if set(ends) != {wanted}:
            yield f'`{text}` ends otherwise: {ends}'


def drawn(first: int, count: int, written: Callable[[int], str]) -> list[Source]:
    """The sources of so many seeds, written so."""
    return [Source(f'seed {seed}', written(seed).encode()) for seed in range(first, first + count)]


def read(name: str) -> Source:
    """A source from a file."""
    with open(name, 'rb') as file:
        return Source(name, file.read())


def command() -> int:
    """Tries what is known, then compares the programs; the exit status."""
    words = argparse.ArgumentParser(description=__doc__, formatter_class=argparse.RawDescriptionHelpFormatter)
    words.add_argument('program', metavar='PROGRAM', nargs='?', default=PROGRAM)
    words.add_argument('files', metavar='FILE', nargs='*')
    words.add_argument('--seed', type=int, default=1)
    words.add_argument('--count', type=int, default=50)
    words.add_argument('--threads', type=int, default=20)
    words.add_argument('--runs', type=int, default=20)
    words.add_argument('--guided', action='store_true')
    asked = words.parse_args()
    if not os.access(asked.program, os.X_OK):
        sys.exit(f"tests/differential/runs.py: {os.path.normpath(asked.program)} isn't there; ./prove builds it")
    faults = [*known_reports(), *known_backs(), *known_threads(), *known_ends()]
    alone, beside = drawn(asked.seed, asked.count, program_of), drawn(asked.seed, asked.threads, threads_of)
    sources = [read(name) for name in asked.files] or alone + beside
    for source in sources:
        try:
            faults += filter(None, checked(asked.program, source, asked.runs))
            if asked.guided and not is_of_threads(source):
                faults += filter(None, counted(asked.program, source, asked.runs))
        except Wrong as wrong:
            faults.append(str(wrong))
    for fault in faults:
        print(f'tests/differential/runs.py: {fault}')
    print(f'tests/differential/runs.py: {len(sources)} programs, {asked.runs} runs of each, {len(faults)} faults')
    return 1 if faults else 0


if __name__ == '__main__':
    sys.exit(command())
