"""Measures runs of the program: warm-up, repeats, median, spread, growth; prints a table, and writes JSON.

A bench is a small file that names its inputs and its aim as a `Bench`, and ends with `run_alone(BENCH)`.

  bench/NAME [--repeats N] [--json FILE]     one bench
  bench/all [--repeats N] [--json FILE] ..   all of them, or the named ones

Run it by hand, on a quiet machine, when `./prove` or the gate has built the program; LRA names another one. A time is
the processor time of a whole run. The spread is how far the slowest run is above the fastest one, in parts of the
median. The growth is the exponent of the size: the slope of the logarithms over the last three sizes.
"""
import argparse
import datetime
import json
import math
import os
import re
import shutil
import statistics
import subprocess
import sys
import tempfile
from collections.abc import Callable, Iterable, Iterator
from dataclasses import dataclass, field
from pathlib import Path
from typing import Any, NoReturn

TOP = Path(__file__).resolve().parent.parent
EXAMPLES = TOP / 'examples'
DOMAINS = {'box': 'boxes', 'oct': 'octagons', 'poly': 'polyhedra'}
NO_BOUND = ''
LONGEST_RUN = 60
# Under this many milliseconds a growth says more of the start of the program than of the input.
LEAST_GROWN = 5.0


class Refused(Exception):
    """A run that doesn't answer as its bench says."""


# what is measured -----------------------------------------------------------------------------------------------------


def flag(answer: str) -> str:
    """What the report says of limits: nothing if none was exceeded. The program has to accept the input."""
    found = re.search(r'^flagged .*$', answer, re.MULTILINE)
    if not found:
        raise Refused(answer[:200])
    return '' if found[0] == 'flagged 0' else found[0]


def unflagged(answer: str) -> str:
    """No limit may be exceeded."""
    if flag(answer):
        raise Refused(flag(answer))
    return ''


def last_line(answer: str) -> str:
    """The last line; the program has to accept the input."""
    flag(answer)
    return answer.splitlines()[-1]


@dataclass(frozen=True)
class Job:
    """Runs of the program: its words, the input of each draw, and a check of the answer, which gives a note."""
    words: tuple[str, ...]
    texts: tuple[str, ...]
    check: Callable[[str], str] = flag


def job(words: str, *texts: str, check: Callable[[str], str] = flag) -> Job:
    """A job by its words in one string."""
    return Job(tuple(words.split()), texts, check)


def analyse(domain: str, text: str, more: str = '', check: Callable[[str], str] = flag) -> Job:
    """An analysis over a domain."""
    return job(f'analyse --domain {domain} {more}', text, check=check)


@dataclass(frozen=True)
class Case:
    """One size of a series: a job for each column; how many parts the size has; a job whose time is taken off."""
    size: int | str
    jobs: dict[str, Job]
    parts: int = 0
    less: Job | None = None


@dataclass(frozen=True)
class Series:
    """Inputs of one kind, in series of sizes; `beside` names for a column the one that it is compared with.

    Of many programs the sizes are their names: the table has their sum, the dearest, and the greatest ratio.
    """
    name: str
    cases: list[Case]
    beside: dict[str, str] = field(default_factory=dict)
    many: bool = False


@dataclass(frozen=True)
class Bench:
    """A subject: what it measures, the bound that it is held against, how many runs, and its series.

    What isn't a series of times is measured and printed by `before`, which returns its rows for JSON.
    """
    name: str
    title: str
    aim: str
    bound: str
    repeats: int
    series: Callable[[], Iterable[Series]]
    before: Callable[[int], list[dict[str, Any]]] | None = None
    needs: str = ''


def over_domains(text: str, domains: Iterable[str] = DOMAINS, more: str = '') -> dict[str, Job]:
    """A column for each domain."""
    return {DOMAINS[domain]: analyse(domain, text, more) for domain in domains}


# runs -----------------------------------------------------------------------------------------------------------------


def program() -> Path:
    """The program that is measured."""
    path = Path(os.environ.get('LRA') or TOP / 'crates/lra/out/lra').resolve()
    if not os.access(path, os.X_OK):
        sys.exit(f"bench: {path} isn't there; ./prove builds it")
    return path


def spent_by(words: Iterable[str], path: str) -> float:
    """The milliseconds of processor time of one run over the file."""
    with open(path, 'rb') as given:
        started = subprocess.Popen([program(), *words], stdin=given, stdout=subprocess.DEVNULL,
                                   stderr=subprocess.DEVNULL)
    _, _, used = os.wait4(started.pid, 0)
    started.returncode = 0  # It has been waited for.
    milliseconds: float = (used.ru_utime + used.ru_stime) * 1000
    return milliseconds


def answer_of(words: Iterable[str], path: str) -> str | None:
    """What the program writes; nothing if it takes longer than a minute."""
    with open(path, 'rb') as given:
        try:
            ended = subprocess.run([program(), *words], stdin=given, capture_output=True, timeout=LONGEST_RUN,
                                   check=False)
        except subprocess.TimeoutExpired:
            return None
    return ended.stdout.decode()


def answer_to(words: Iterable[str], text: str) -> str:
    """What the program writes of a text."""
    return subprocess.run([program(), *words], input=text, capture_output=True, text=True, check=False).stdout


@dataclass(frozen=True)
class Times:
    """The milliseconds of each run, and the note of the check."""
    runs: list[float]
    note: str = ''

    @property
    def median(self) -> float:
        """The median; 0 if nothing ran to its end."""
        return statistics.median(self.runs) if self.runs else 0.0

    @property
    def spread(self) -> float:
        """How far the slowest is above the fastest, in parts of the median."""
        return (max(self.runs) - min(self.runs)) / self.median if self.median else 0.0


def measure(asked: Job, repeats: int) -> Times:
    """Times of so many runs of each draw, after one that is checked and warms up."""
    runs: list[float] = []
    notes: list[str] = []
    with tempfile.NamedTemporaryFile('w', encoding='utf-8') as file:
        for text in asked.texts:
            file.seek(0)
            file.truncate()
            file.write(text)
            file.flush()
            answer = answer_of(asked.words, file.name)
            if answer is None:
                return Times([], 'longer than a minute')
            note = asked.check(answer)
            notes += [note] if note and note not in notes else []
            runs += [spent_by(asked.words, file.name) for _ in range(repeats)]
    return Times(runs, ', '.join(notes))


# results --------------------------------------------------------------------------------------------------------------


@dataclass(frozen=True)
class Row:
    """A series over one column."""
    series: str
    column: str
    sizes: list[int | str]
    times: list[Times]
    each: list[float]
    ratios: list[float]
    growth: float | None
    many: bool


def growth_of(sizes: list[int | str], medians: list[float]) -> float | None:
    """The exponent over the last three sizes, if they are numbers and the runs long enough."""
    pairs = [(size, median) for size, median in zip(sizes, medians) if isinstance(size, int) and median > 0][-3:]
    if len(pairs) < 2 or len(pairs) < min(3, len(sizes)) or pairs[-1][1] < LEAST_GROWN:
        return None
    (first, low), (last, high) = pairs[0], pairs[-1]
    return math.log(high / low) / math.log(last / first) if first > 0 and first != last else None


def measure_case(case: Case, column: str, repeats: int) -> Times:
    """The times of a column, less the median of what is taken off."""
    if column not in case.jobs:
        return Times([])
    times = measure(case.jobs[column], repeats)
    off = measure(case.less, repeats).median if case.less else 0.0
    return Times([run - off for run in times.runs], times.note)


def row_of(series: Series, column: str, by_column: dict[str, list[Times]]) -> Row:
    """The row of a column, beside the one that it is compared with."""
    times = by_column[column]
    medians = [one.median for one in times]
    other = [one.median for one in by_column[series.beside[column]]] if column in series.beside else []
    sizes = [case.size for case in series.cases]
    each = [median * 1000 / case.parts for median, case in zip(medians, series.cases) if case.parts]
    return Row(series.name, column, sizes, times, each, [a / b for a, b in zip(medians, other) if b > 0],
               growth_of(sizes, medians), series.many)


def rows_of(bench: Bench, repeats: int) -> Iterator[Row]:
    """Measures all series of a bench."""
    for series in bench.series():
        by_column: dict[str, list[Times]] = {}
        for column in dict.fromkeys(column for case in series.cases for column in case.jobs):
            try:
                by_column[column] = [measure_case(case, column, repeats) for case in series.cases]
            except Refused as fault:
                sys.exit(f'bench/{bench.name}: {series.name}, {column}: {fault}')
        yield from (row_of(series, column, by_column) for column in by_column)


def machine() -> dict[str, Any]:
    """The machine, its load at the start, the day and the program."""
    models = re.findall(r'^model name\s*: (.*)$', Path('/proc/cpuinfo').read_text(encoding='utf-8'), re.MULTILINE)
    told = subprocess.run([program(), '--version'], capture_output=True, text=True, check=False).stdout.strip()
    return {
        'date': datetime.date.today().isoformat(), 'processors': len(os.sched_getaffinity(0)),
        'model': models[0] if models else os.uname().machine, 'load': round(os.getloadavg()[0], 1), 'program': told,
    }


# what is printed ------------------------------------------------------------------------------------------------------


def number(value: float) -> str:
    """Two digits, or all before the point."""
    return f'{value:,.0f}' if value >= 9.95 else f'{value:.1f}'


def span(values: list[float], form: Callable[[float], str] = '{:.2f}'.format) -> str:
    """The least and the greatest, once if they look alike."""
    ends = [form(min(values)), form(max(values))] if values else ['']
    return ' to '.join(dict.fromkeys(ends))


def notes_of(row: Row) -> str:
    """The notes of a row, each once with its sizes if it isn't that of all."""
    sizes: dict[str, list[str]] = {}
    for size, times in zip(row.sizes, row.times):
        sizes.setdefault(times.note, []).append(str(size))
    sizes.pop('', None)
    return '; '.join(note if len(at) == len(row.sizes) else f'{note} at {", ".join(at)}' for note, at in sizes.items())


def dearest(names: list[int | str], values: list[float], form: Callable[[float], str]) -> str:
    """The greatest value, with its name."""
    value, name = max(zip(values, map(str, names)), default=(0.0, ''))
    return f'{form(value)} at most (`{name}`)'


def cells_of_many(row: Row) -> list[str]:
    """The cells of a row of many programs."""
    medians = [times.median for times in row.times]
    mean = f'{statistics.fmean(row.ratios):.2f} in the mean, ' if row.ratios else ''
    ratios = mean and mean + dearest(row.sizes, row.ratios, '{:.2f}'.format)
    return [row.series, row.column, f'{len(medians)}', f'{number(sum(medians))}, {dearest(row.sizes, medians, number)}',
            f'{statistics.median(times.spread for times in row.times):.0%}', '', ratios, '', '']


def cells_of(row: Row) -> list[str]:
    """The cells of a row."""
    if row.many:
        return cells_of_many(row)
    return [
        row.series, row.column, ', '.join(f'{size:,}' if isinstance(size, int) else size for size in row.sizes),
        ', '.join(number(times.median) if times.runs else '-' for times in row.times),
        f'{max(times.spread for times in row.times):.0%}', '' if row.growth is None else f'{row.growth:.1f}',
        span(row.ratios), ', '.join(map(number, row.each)), notes_of(row).replace('|', r'\|'),
    ]


HEADS = ['Source', 'Over', 'Sizes', 'Milliseconds', 'Spread', 'Growth', 'Times the other', 'Microseconds each', 'Note']


def table(heads: list[str], lines: list[list[str]]) -> str:
    """A table of a page, without columns that are empty."""
    kept = [k for k in range(len(heads)) if any(line[k] for line in lines)]
    chosen = [[line[k] for k in kept] for line in (heads, ['---'] * len(heads), *lines)]
    marked = [[re.sub(r'(?<!\\)\|', r'\\|', cell) for cell in cells] for cells in chosen]
    return '\n'.join(f'|{"|".join(cells)}|' if cells[0] == '---' else f'| {" | ".join(cells)} |' for cells in marked)


def print_section(title: str, aim: str, bound: str, how: str, shown: str) -> None:
    """One subject of docs/SPEED.md."""
    held = f'Bound: {bound}.' if bound else 'No bound is set.'
    print(f'\n## {title}\n\n{aim} {held} {how}.\n\n{shown}', flush=True)


def run_bench(bench: Bench, repeats: int) -> dict[str, Any]:
    """Measures and prints a bench; returns what JSON says of it."""
    count = repeats or bench.repeats
    others = bench.before(count) if bench.before else []
    rows = list(rows_of(bench, count))
    if rows:
        print_section(bench.title, bench.aim, bench.bound, f'`bench/{bench.name}`: medians of {count}',
                      table(HEADS, [cells_of(row) for row in rows]))
    return {'bench': bench.name, 'aim': bench.aim, 'bound': bench.bound, 'repeats': count,
            'rows': [json_of(row) for row in rows], 'others': others}


def json_of(row: Row) -> dict[str, Any]:
    """A row, with the milliseconds of each run."""
    return {
        'series': row.series, 'over': row.column, 'growth': row.growth, 'ratios': row.ratios, 'each_us': row.each,
        'cases': [{'size': size, 'median_ms': times.median, 'spread': times.spread, 'runs_ms': times.runs,
                   'note': times.note} for size, times in zip(row.sizes, row.times)],
    }


# commands -------------------------------------------------------------------------------------------------------------


def options(about: str | None) -> argparse.ArgumentParser:
    """The options that all benches have."""
    words = argparse.ArgumentParser(description=about, formatter_class=argparse.RawDescriptionHelpFormatter)
    words.add_argument('--repeats', type=int, default=0, metavar='N', help="so many runs, not the bench's own number")
    words.add_argument('--json', metavar='FILE', help='writes all times there, too')
    return words


def print_machine(told: dict[str, Any]) -> None:
    """The line about the machine."""
    print(f'Measured on {told["date"]}: {told["processors"]} processors ({told["model"]}), load {told["load"]} at the '
          f'start, `{told["program"]}`.', flush=True)


def write_json(path: str | None, told: dict[str, Any], benches: list[dict[str, Any]]) -> None:
    """Writes everything, if a file is named."""
    if path:
        Path(path).write_text(json.dumps({'machine': told, 'benches': benches}, indent=1) + '\n', encoding='utf-8')


def can_run(bench: Bench) -> bool:
    """Whether the command that the bench needs is installed."""
    missing = bool(bench.needs) and not shutil.which(bench.needs)
    if missing:
        print(f'bench/{bench.name}: skipped: {bench.needs} is not installed', file=sys.stderr)
    return not missing


def run_asked(bench: Bench, asked: argparse.Namespace) -> NoReturn:
    """Runs one bench by these words; ends with 2 if something isn't installed."""
    if not can_run(bench):
        sys.exit(2)
    told = machine()
    print_machine(told)
    write_json(asked.json, told, [run_bench(bench, asked.repeats)])
    sys.exit(0)


def run_alone(bench: Bench) -> NoReturn:
    """The command of one bench."""
    run_asked(bench, options(f'{bench.title}: {bench.aim}').parse_args())
