"""Many sources in a table, as text and as a page of links. Outside of what is proved."""
import os
from dataclasses import dataclass
from urllib.parse import quote

from looking.findings import Findings
from looking.reports import FITS, Refusal
from looking.sources import decode
from looking.told_page import POLICY, escaped, own_file

COLUMNS = ('file', 'points', 'proved', 'unknown', 'overflow', 'unreachable', 'refused', 'flagged', 'milliseconds')


@dataclass(frozen=True)
class Outcome:
    """What came of one source: the cells of its row, the words of a refusal, the milliseconds of its run."""

    name: str
    points: int = 0
    proved: int = 0
    unknown: int = 0
    overflow: int | None = None
    unreachable: int = 0
    refused: str = ''
    flagged: str = ''
    milliseconds: float = 0.0

    def cells(self) -> list[str]:
        if self.refused:
            return [self.name, '', '', '', '', '', self.refused, '', f'{self.milliseconds:.0f}']
        overflow = '' if self.overflow is None else str(self.overflow)
        counts = (str(self.points), str(self.proved), str(self.unknown), overflow, str(self.unreachable))
        return [self.name, *counts, '', self.flagged, f'{self.milliseconds:.0f}']


def outcome_of(findings: Findings) -> Outcome:
    """The row of one source, with the counts of its last line; what may overflow is counted where it is asked for, what
    no run reaches in stretches of statements."""
    answer, name = findings.answer, findings.source.name
    if isinstance(answer, Refusal):
        return Outcome(name, refused=f'{answer.name} at {answer.line}:{answer.column}')
    overflowing = [verdict for verdict in answer.all_of(FITS) if not verdict.is_known]
    flagged = ''
    if answer.flagged:
        point = answer.points[answer.flagged - 1]
        flagged = f'at {point.line}:{point.column}'
    return Outcome(
        name,
        len(answer.points),
        *answer.counts,
        len(overflowing) if FITS.stands(answer.analysis) else None,
        len(findings.dead),
        '',
        flagged,
        answer.milliseconds,
    )


def total_of(outcomes: list[Outcome]) -> Outcome:
    """The last row."""
    refused = sum(bool(one.refused) for one in outcomes)
    flagged = sum(bool(one.flagged) for one in outcomes)
    return Outcome(
        f'{len(outcomes)} files, {refused} refused, {flagged} flagged',
        sum(one.points for one in outcomes),
        sum(one.proved for one in outcomes),
        sum(one.unknown for one in outcomes),
        sum(asked) if (asked := [one.overflow for one in outcomes if one.overflow is not None]) else None,
        sum(one.unreachable for one in outcomes),
        '',
        '',
        sum(one.milliseconds for one in outcomes),
    )


def table_text(outcomes: list[Outcome]) -> str:
    """The table as text: columns of numbers to the right."""
    rows = [list(COLUMNS)] + [one.cells() for one in [*outcomes, total_of(outcomes)]]
    widths = [max(len(row[index]) for row in rows) for index in range(len(COLUMNS))]
    left = (0, 6, 7)
    lines = [
        '  '.join(
            cell.ljust(width) if index in left else cell.rjust(width)
            for index, (cell, width) in enumerate(zip(row, widths))
        ).rstrip()
        for row in rows
    ]
    return '\n'.join(lines) + '\n'


def page_names(names: list[str]) -> list[str]:
    """Of each source the name of its page below the folder: its own path, each once, without ways up."""
    taken: set[str] = set()
    found = []
    for name in names:
        steps = [step if step != '..' else 'up' for step in os.path.normpath(name).split('/') if step]
        plain = '/'.join(steps)
        own, count = f'{plain}.html', 1
        while own in taken or own == 'index.html':
            count += 1
            own = f'{plain}.{count}.html'
        taken.add(own)
        found.append(own)
    return found


def index_row(one: Outcome, page: str) -> str:
    """A row of the page of links."""
    name, *cells = [escaped(decode(os.fsencode(cell))) for cell in one.cells()]
    link = f'<a href="{quote(os.fsencode(page))}">{name}</a>' if page else name
    styles = {
        2: 'unknown' if one.unknown else '',
        3: 'unknown' if one.overflow else '',
        5: 'refused' if one.refused else '',
    }
    return (
        f'<tr><th scope="row">{link}</th>'
        + ''.join(f'<td class="{styles.get(index, "")}">{cell}</td>' for index, cell in enumerate(cells))
        + '</tr>\n'
    )


def index_text(outcomes: list[Outcome], pages: list[str]) -> str:
    """The page of links; a source without a page has no link."""
    heads = ''.join(f'<th scope="col">{column}</th>' for column in COLUMNS)
    rows = ''.join(index_row(one, page) for one, page in zip(outcomes, pages))
    return f"""<!doctype html>
<html lang="en">
<head>
<meta charset="utf-8">
<meta name="viewport" content="width=device-width, initial-scale=1">
<meta http-equiv="Content-Security-Policy" content="{POLICY}">
<title>{len(outcomes)} sources</title>
<style>
{own_file('page.css')}</style>
</head>
<body>
<header><h1>{len(outcomes)} sources</h1></header>
<div class="wide"><table>
<thead><tr>{heads}</tr></thead>
<tbody>
{rows}</tbody>
<tfoot>
{index_row(total_of(outcomes), '')}</tfoot>
</table></div>
<footer>Made by tools/all from reports of lra. What lra says is proved; this page is not.</footer>
</body>
</html>
"""
