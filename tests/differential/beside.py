"""Runs of the threads of a program beside each other, in an order that is drawn, and what `lra threads` tells of them.

One step takes one thread from its point to its next one, or ends it. Whatever each of them sees at its point, before
and behind each step of another, the report has to have.
"""
import re
from collections.abc import Sequence
from itertools import count, takewhile

from drawing import Drawing, Draws
from running import FAILED, Globals, Run
from told import Report, Wrong

from looking.programs import Program, read_program
from looking.sources import Source

# How many points a thread passes at most.
MOST_POINTS = 300
OVER = object()
WRITES = re.compile(r'writes (?P<thread>t[1-8]) (?P<name>\w+) (?P<low>none|-?\d+) (?P<high>none|-?\d+)')


def threads_of(program: Program) -> list[str]:
    """The names of its threads."""
    names = (f't{number}' for number in count(1) if number <= 8)
    return list(takewhile(lambda name: name in program.functions and not program.functions[name].parameters, names))


def bound(text: str) -> int | None:
    """A bound, or none."""
    return None if text == 'none' else int(text)


class Told(Report):
    """What is told of threads: a report, and of threads and globals the interval of what the one gives the other."""

    def __init__(self, words: str, text: str, source: Source) -> None:
        self.written: dict[tuple[str, str], tuple[int | None, int | None]] = {}
        super().__init__(words, text, source)

    def read_further(self, line: str, source: Source) -> bool:
        """A line that only such a text has."""
        if found := WRITES.fullmatch(line):
            self.written[found['thread'], found['name']] = bound(found['low']), bound(found['high'])
            return True
        return line.startswith('threads box ') or super().read_further(line, source)

    def give(self, thread: str, name: str, number: int) -> None:
        """The number lies in the interval that is told."""
        if (thread, name) not in self.written:
            raise Wrong(f'{thread} gives {name} a value, and no line `writes` tells of it')
        low, high = self.written[thread, name]
        if low is not None and number < low or high is not None and number > high:
            raise Wrong(f'{thread} gives {name} the value {number}')


class Watcher:
    """Watches the threads of runs, and holds what they do against what is told."""

    def __init__(self, tells: Sequence[Told]) -> None:
        self.tells = tells
        self.told: Told | None = None
        self.seen: set[tuple[str | int, ...]] = set()

    def come(self, path: str, at: int, names: Sequence[str], values: Sequence[int]) -> None:
        """The rows of the point hold."""
        if (path, at, *values) in self.seen:
            return
        self.seen.add((path, at, *values))
        state = dict(zip(names, values))
        for self.told in self.tells:
            self.told.point(path, at).check(state)

    def access(self, path: str, on: int, at: int, is_inside: bool) -> None:
        """An access is listed, and lies inside where it is marked so."""
        for self.told in self.tells:
            self.told.expect('access', (path, on), (path, at), not is_inside)

    def gave(self, path: str, name: str, number: int) -> None:
        """What a global gets is told."""
        for self.told in self.tells:
            self.told.give(path.split('/')[0], name, number)

    def ended(self, path: str, on: int, how: str) -> None:
        """An assertion that fails isn't marked as proved."""
        for self.told in self.tells:
            if how == FAILED:
                self.told.expect('assert', (path, on), (path, on), True)


class Beside:
    """One run of all threads. `order` says who goes on: so many times of a hundred any of them, else the one that went
    last. `last` is the one that was looked at, or went, last; `trail` has who went on."""

    def __init__(self, source: Source, program: Program, draws: Draws, order: Drawing, watcher: Watcher) -> None:
        shared = Globals(program)
        names = threads_of(program)
        self.runs = [Run(source, program, draws.draw, watcher, shared, name, MOST_POINTS) for name in names]
        self.order = order
        self.changes = order.one_of(10, 50, 90)
        self.last = self.runs[0]
        self.trail: list[str] = []

    def run(self) -> list[str]:
        """From the first point of each to where all have ended; how each did."""
        going = {run: run.steps() for run in self.runs}
        for self.last in self.runs:
            next(going[self.last])
        chosen = self.runs[0]
        while going:
            for self.last in going:
                self.last.look()
            if chosen not in going or self.order.happens(self.changes):
                chosen = self.order.one_of(*going)
            self.last = chosen
            self.trail.append(chosen.path.split('/')[0])
            if next(going[chosen], OVER) is OVER:
                del going[chosen]
        return [run.how for run in self.runs]


def compare_threads(source: Source, tells: Sequence[Told], runs: int) -> str:
    """Runs the threads of the program beside each other, so often; what doesn't hold of what is told, or nothing."""
    program, watcher = read_program(source, ('t1', 't2')), Watcher(tells)
    for seed in range(runs):
        draws = Draws(seed)
        beside = Beside(source, program, draws, Drawing(seed), watcher)
        try:
            beside.run()
        except Wrong as wrong:
            run, words = beside.last, watcher.told.words if watcher.told else ''
            line, column = source.place(run.on)
            store = ' '.join(f'{cell.name}={cell.value}' for cell in run.store)
            return (f'{source.name}, {words}: at {run.path} {line}:{column} with {store}: {wrong}\n'
                    f'order {" ".join(beside.trail)}\ndraws {" ".join(map(str, draws.drawn))}\n{source.data.decode()}')
    return ''
