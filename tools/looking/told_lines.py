"""Findings as lines in GCC's form. Outside of what is proved."""
from looking.findings import REFUSALS, Asked, Findings, Stretch
from looking.reports import Point, Refusal, Report

# So many rows of a point are told.
MOST_ROWS = 8


def rows_text(point: Point) -> str:
    """The rows of a point, at most eight, then how many more."""
    left, told, hidden = MOST_ROWS, [], 0
    for part in point.parts:
        shown = part.rows[:left]
        left -= len(shown)
        hidden += len(part.rows) - len(shown)
        if shown or not part.rows:
            told.append(', '.join(shown) or 'nothing is known')
    text = told[0] if len(point.parts) == 1 else ' or '.join(f'({rows})' for rows in told)
    return text + (f', and {hidden} more row{"s" if hidden > 1 else ""}' if hidden else '')


def notes_of(findings: Findings, asked: Asked, place: str) -> list[str]:
    """What holds at each point at which it isn't known, with an example."""
    notes = []
    for point in asked.open_points:
        path = f'in {point.path}: ' if len(asked.points) > 1 or '/' in point.path else ''
        notes.append(f'{place}: note: {path}what is known here: {rows_text(point)}')
        if told := findings.example(asked.kind, point):
            notes.append(f'{place}: note: {path}{told.text}')
    return notes


def place_of(findings: Findings, offset: int) -> str:
    line, column = findings.source.place(offset)
    return f'{findings.source.name}:{line}:{column}'


def asked_lines(findings: Findings, asked: Asked) -> list[str]:
    """The lines of one place that isn't known."""
    place = place_of(findings, asked.offset)
    count = f' in {len(asked.open_points)} of {len(asked.points)} paths of calls' if len(asked.points) > 1 else ''
    return [f'{place}: warning: {asked.kind.fails}{count} [{asked.kind.rule}]', *notes_of(findings, asked, place)]


def dead_line(findings: Findings, stretch: Stretch) -> str:
    """The line of one stretch."""
    said = f': {stretch.function} is never called' if stretch.function else ''
    return f'{place_of(findings, stretch.start)}: warning: unreachable{said} [dead]'


def flag_lines(findings: Findings, report: Report) -> list[str]:
    """The line of the first point at which something was dropped."""
    if not report.flagged:
        return []
    place = place_of(findings, report.points[report.flagged - 1].offset)
    return [
        f'{place}: note: a number or a list grew past its limit here: what is told holds, and may be weaker than it'
        ' could be [flagged]'
    ]


def lines_of(findings: Findings) -> list[str]:
    """All lines of one source, in text order."""
    answer = findings.answer
    if isinstance(answer, Refusal):
        place = place_of(findings, answer.offset)
        note = [f'{place}: note: {REFUSALS[answer.name]}'] if answer.name in REFUSALS else []
        return [f'{place}: error: {answer.name} [refused {answer.number}]', *note]
    told = [(asked.offset, asked_lines(findings, asked)) for asked in findings.open]
    told += [(stretch.start, [dead_line(findings, stretch)]) for stretch in findings.dead]
    return flag_lines(findings, answer) + [
        line for _, lines in sorted(told, key=lambda pair: pair[0]) for line in lines
    ]
