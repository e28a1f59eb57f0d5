"""Findings as SARIF 2.1.0, the form in which code hosts take them. Outside of what is proved."""
import hashlib
import json
import os
from typing import Any
from urllib.parse import quote

from looking.findings import REFUSALS, Asked, Findings, Fingerprints, Stretch
from looking.reports import KINDS, Point, Refusal, Report
from looking.told_lines import rows_text

SCHEMA = 'https://docs.oasis-open.org/sarif/sarif/v2.1.0/errata01/os/schemas/sarif-schema-2.1.0.json'
# The version of this form; `lra` has none.
VERSION = '1.0.0'
FINGERPRINT = 'statement/v1'
# So many rows of a part are kept in a result's properties.
MOST_ROWS = 64
Json = dict[str, Any]


def rule(name: str, short: str, text: str, level: str) -> Json:
    """A rule with its help."""
    return {
        'id': name,
        'shortDescription': {'text': short},
        'fullDescription': {'text': text},
        'help': {'text': text},
        'defaultConfiguration': {'level': level},
    }


RULES = [rule(kind.rule, kind.fails, kind.help, 'warning') for kind in KINDS] + [
    rule(
        'dead',
        'Unreachable',
        'No execution comes to these statements. Where one should, look at the conditions before them, and at '
        'each assume and assert on the way: a run ends where one is false.',
        'warning',
    ),
    rule(
        'flagged',
        'Something grew past its limit',
        'A number passed 127 bits here, or a list 4,096 entries. What is told still holds, '
        'but may be weaker than it could be.',
        'note',
    ),
]
INDEX = {own['id']: index for index, own in enumerate(RULES)}
REFUSED = [{'id': name, 'shortDescription': {'text': text[0].upper() + text[1:]}} for name, text in REFUSALS.items()]


def uri(name: str) -> str:
    """The file's name as an address: relative as it was told, absolute behind `file://`."""
    path = quote(os.fsencode(name))
    if path.startswith('/'):
        return f'file://{path}'
    return path if ':' not in path.split('/')[0] else f'./{path}'


def region(findings: Findings, start: int, end: int) -> Json:
    """The stretch of the source from one offset to another, in lines and UTF-16 units."""
    source = findings.source
    line, last = source.place(start)[0], source.place(end)[0]
    return {
        'startLine': line,
        'startColumn': source.utf16_column(start),
        'endLine': last,
        'endColumn': source.utf16_column(end),
    }


def location(findings: Findings, file: int, start: int, end: int, paths: list[str]) -> Json:
    """A place in the file, on these paths of calls."""
    physical = {
        'artifactLocation': {'uri': uri(findings.source.name), 'index': file},
        'region': region(findings, start, end),
    }
    logical = [
        {'name': path.split('/')[-1].split('@')[0], 'fullyQualifiedName': path, 'kind': 'function'} for path in paths
    ]
    return {'physicalLocation': physical, **({'logicalLocations': logical} if logical else {})}


def result(name: str, message: str, where: Json, fingerprint: str, **more: Any) -> Json:
    """A result of the rule with this name."""
    return {
        'ruleId': name,
        'ruleIndex': INDEX[name],
        'level': RULES[INDEX[name]]['defaultConfiguration']['level'],
        'message': {'text': message},
        'locations': [where],
        'partialFingerprints': {FINGERPRINT: fingerprint},
        **more,
    }


def rows_of(point: Point) -> Json:
    """What holds at a point, for the properties."""
    parts = [{'rows': list(part.rows[:MOST_ROWS]), 'left': max(0, len(part.rows) - MOST_ROWS)} for part in point.parts]
    return {'path': point.path, 'parts': parts}


def asked_message(findings: Findings, asked: Asked) -> str:
    """What is said of a place that isn't known: at its first path, and on how many of them."""
    first = asked.open_points[0]
    count = (
        f' on {len(asked.open_points)} of {len(asked.points)} paths of calls; on {first.path}'
        if len(asked.points) > 1
        else ''
    )
    told = findings.example(asked.kind, first)
    said = f'{asked.kind.fails[0].upper()}{asked.kind.fails[1:]}{count}. What is known here: {rows_text(first)}.'
    return f'{said} The state {told.text}.' if told else said


def asked_result(findings: Findings, file: int, asked: Asked, fingerprint: str) -> Json:
    """The result of a place that asks something."""
    points = asked.points if asked.is_known else asked.open_points
    where = location(findings, file, asked.offset, asked.end(findings.source), [point.path for point in points])
    rows = {'properties': {'rows': [rows_of(point) for point in points]}}
    if asked.is_known:
        message = f'{asked.kind.passes[0].upper()}{asked.kind.passes[1:]}.'
        return {**result(asked.kind.rule, message, where, fingerprint, **rows), 'kind': 'pass', 'level': 'none'}
    return result(asked.kind.rule, asked_message(findings, asked), where, fingerprint, **rows)


def dead_result(findings: Findings, file: int, stretch: Stretch, fingerprint: str) -> Json:
    """The result of a stretch that no run reaches."""
    said = (
        f'Unreachable: {stretch.function} is never called.'
        if stretch.function
        else 'Unreachable: no execution comes here.'
    )
    return result('dead', said, location(findings, file, stretch.start, stretch.end, []), fingerprint)


def results_of(findings: Findings, file: int, with_passes: bool) -> list[Json]:
    """The results of one source, in text order."""
    answer = findings.answer
    if isinstance(answer, Refusal):
        return []
    names = Fingerprints(findings.source)
    told = []
    for asked in findings.asked:
        name = names.asked(asked)
        if with_passes or not asked.is_known:
            told.append((asked.offset, asked_result(findings, file, asked, name)))
    told += [
        (stretch.start, dead_result(findings, file, stretch, names.text('dead', stretch.start)))
        for stretch in findings.dead
    ]
    if answer.flagged:
        point = answer.points[answer.flagged - 1]
        where = location(findings, file, point.offset, findings.source.extent(point.offset), [point.path])
        told.append(
            (
                point.offset,
                result(
                    'flagged',
                    RULES[INDEX['flagged']]['fullDescription']['text'],
                    where,
                    names.text('flagged', point.offset),
                ),
            )
        )
    return [one for _, one in sorted(told, key=lambda pair: pair[0])]


def notification(findings: Findings, file: int, refusal: Refusal) -> Json:
    """A refusal, as a notification of the run."""
    end = min(
        findings.source.extent(refusal.offset),
        findings.source.line_starts[refusal.line - 1] + len(findings.source.lines[refusal.line - 1]),
    )
    meaning = REFUSALS.get(refusal.name, '')
    where = location(findings, file, refusal.offset, max(refusal.offset, end), [])
    index = {'index': list(REFUSALS).index(refusal.name)} if meaning else {}
    return {
        'descriptor': {'id': refusal.name, **index},
        'level': 'error',
        'locations': [where],
        'message': {'text': f'Refused {refusal.number} {refusal.name}{": " + meaning if meaning else ""}.'},
    }


def artifact(findings: Findings) -> Json:
    """The file that was looked at."""
    data = findings.source.data
    return {
        'location': {'uri': uri(findings.source.name)},
        'length': len(data),
        'sourceLanguage': 'c',
        'hashes': {'sha-256': hashlib.sha256(data).hexdigest()},
    }


def sarif(all_findings: list[Findings], with_passes: bool) -> Json:
    """One run over all these sources."""
    numbered = list(enumerate(all_findings))
    refusals = [
        notification(findings, file, findings.answer)
        for file, findings in numbered
        if isinstance(findings.answer, Refusal)
    ]
    options = sorted({findings.answer.options for _, findings in numbered if isinstance(findings.answer, Report)})
    run = {
        'tool': {
            'driver': {
                'name': 'lra',
                'version': VERSION,
                'rules': RULES,
                'notifications': REFUSED,
                'shortDescription': {'text': 'A proved analyser for integer C'},
            }
        },
        'columnKind': 'utf16CodeUnits',
        'invocations': [{'executionSuccessful': not refusals, 'toolExecutionNotifications': refusals}],
        'artifacts': [artifact(findings) for findings in all_findings],
        'results': [one for file, findings in numbered for one in results_of(findings, file, with_passes)],
        'properties': {'analysis': options},
    }
    return {'$schema': SCHEMA, 'version': '2.1.0', 'runs': [run]}


def sarif_text(all_findings: list[Findings], with_passes: bool) -> str:
    """The same as text."""
    return json.dumps(sarif(all_findings, with_passes), indent=1, ensure_ascii=True) + '\n'
