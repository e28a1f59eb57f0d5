"""A source with what is known of it, as one page of HTML that needs nothing else. Outside of what is proved."""
import bisect
import html
import os
from collections.abc import Iterator
from dataclasses import dataclass

from looking.findings import REFUSALS, Asked, Findings
from looking.reports import KINDS, Kind, Part, Point, Refusal, Report
from looking.rows import read_generator
from looking.sources import Source, decode

HERE = os.path.dirname(os.path.realpath(__file__))
# The bytes of a page, and of each point the rows, the generators, and the elements, that it tells; fewer where the page
# would be larger. The characters of an element; the marks of more elements in a source have no titles.
MOST_BYTES, MOST_TOLD, MOST_OF_ELEMENT, MOST_TITLES = 3_000_000, (64, 16, 4, 1, 0), 60, 2000
MARKS = {code: 0xFFFD for code in range(32) if code != 9} | {127: 0xFFFD}
DOMAINS = {'poly': 'polyhedra', 'box': 'boxes', 'oct': 'octagons'}
POLICY = "default-src 'none'; style-src 'unsafe-inline'; script-src 'unsafe-inline'"


def escaped(text: str) -> str:
    """The text as HTML has it, in texts and in attributes; what isn't shown becomes a replacement character."""
    return html.escape(text.translate(MARKS), quote=True)


def shown(data: bytes) -> str:
    """Bytes of the source, escaped."""
    return escaped(decode(data.removesuffix(b'\r')))


def own_file(name: str) -> str:
    """A file of this folder, for the page's style and script."""
    with open(os.path.join(HERE, name), encoding='utf-8') as file:
        return file.read()


def name_of(source: Source) -> str:
    """The name of a source, escaped."""
    return escaped(decode(os.fsencode(source.name)))


@dataclass(frozen=True)
class Verdict:
    """A verdict by sign and word."""

    style: str
    sign: str
    word: str

    def text(self, count: int | None = None) -> str:
        word = self.word if count is None else f'{count} {self.word}'
        return f'<span class="verdict {self.style}">{self.sign} {word}</span>'


NEVER, REFUSED = Verdict('never', '∅', 'never reached'), Verdict('refused', '✗', 'refused')


def known_of(kind: Kind, is_reached: bool = True) -> Verdict:
    """That it is known."""
    return Verdict('proved', '✓', kind.known if is_reached else f'{kind.known}: never reached')


def open_of(kind: Kind) -> Verdict:
    """That it isn't."""
    return Verdict('unknown', '?', kind.open)


def verdict_of(asked: Asked) -> Verdict:
    """Whether it is known at all points of a place."""
    return known_of(asked.kind, asked.is_reached) if asked.is_known else open_of(asked.kind)


class Page:
    """A page in the making; of each point it tells at most so many rows, and as many generators and elements."""

    def __init__(self, findings: Findings, most: int) -> None:
        self.findings = findings
        self.source = findings.source
        self.most = most
        self.report = findings.answer if isinstance(findings.answer, Report) else None
        self.places = self.report.places() if self.report else {}
        self.extents = self.trimmed_extents()
        self.elements = {asked.offset: asked for asked in findings.asked if asked.kind.own_place}
        self.element_offsets = list(self.elements)

    def trimmed_extents(self) -> dict[int, int]:
        """Of each place the offset behind its statement, before the next place."""
        if isinstance(self.findings.answer, Refusal):
            offset = self.findings.answer.offset
            return {offset: self.source.extent(offset)}
        offsets = list(self.places)
        return {
            offset: min(self.source.extent(offset), following)
            for offset, following in zip(offsets, offsets[1:] + [len(self.source.data)])
        }

    # The state of each point.

    def part(self, part: Part, generators_left: int, rows_left: int) -> str:
        """One part, its rows and its generators."""
        rows = part.rows[:rows_left]
        items = ''.join(f'<li>{escaped(row)}' for row in rows) or (
            '<li class="any">any values' if not part.rows else ''
        )
        more = f'<li class="more">and {len(part.rows) - len(rows)} more rows' if len(part.rows) > len(rows) else ''
        text = f'<div class="part"><ul class="rows">{items}{more}</ul>'
        if part.generators is not None:
            told = part.generators[:generators_left]
            listed = ''.join(f'<li>{escaped(generator)}' for generator in told)
            left = len(part.generators) - len(told)
            cut = f'<li class="more">and {left} more' if left else ''
            head = f'<summary>{self.counted(part.generators)}</summary>'
            text += f'<details>{head}<ul class="generators">{listed}{cut}</ul></details>'
        return text + '</div>'

    @staticmethod
    def counted(generators: tuple[str, ...]) -> str:
        """How many points, rays and lines there are."""
        kinds = [read_generator(text).kind for text in generators]
        counts = [(kinds.count(kind), kind) for kind in ('point', 'ray', 'line')]
        return ', '.join(f'{count} {kind}{"s" if count > 1 else ""}' for count, kind in counts if count)

    def state(self, point: Point) -> str:
        """What holds at a point; where it is what holds at the one before, that is said."""
        assert self.report
        if not point.parts:
            return f'<p class="count">{NEVER.text()}: no execution comes here</p>'
        first = point.number
        while first > 1 and self.report.points[first - 2].parts == point.parts:
            first -= 1
        if first != point.number:
            same = self.report.points[first - 1]
            link = f'<a href="#p{first}">at line {same.line}, column {same.column}</a>'
            return f'<p class="same" data-same="{first}">what holds {link}</p>'
        count = len(point.parts)
        head = f'<p class="count">one of {count} parts holds:</p>' if count > 1 else ''
        parts, rows_left, generators_left = [], self.most, self.most
        for part in point.parts:
            parts.append(self.part(part, generators_left, rows_left))
            rows_left = max(0, rows_left - len(part.rows))
            generators_left = max(0, generators_left - len(part.generators or ()))
        return head + '<p class="or">or</p>'.join(parts)

    def verdicts(self, point: Point) -> dict[tuple[Kind, Verdict], list[int]]:
        """What is said of a point, and at which offsets."""
        assert self.report
        found: dict[tuple[Kind, Verdict], list[int]] = {}
        for verdict in self.report.said(point):
            kind = verdict.kind
            own = known_of(kind, bool(point.parts)) if verdict.is_known else open_of(kind)
            found.setdefault((kind, own), []).append(verdict.offset)
        return found

    def element(self, offset: int) -> str:
        """The element that begins here, cut where it is long."""
        text = self.source.element(offset)
        return escaped(text if len(text) <= MOST_OF_ELEMENT else f'{text[: MOST_OF_ELEMENT - 2]}..')

    def elements_text(self, offsets: list[int]) -> str:
        """The elements that begin here."""
        told = ''.join(f' <code>{self.element(offset)}</code>' for offset in offsets[: self.most])
        left = len(offsets) - min(len(offsets), self.most)
        return told + (f' <span class="more">and {left} more</span>' if left else '')

    def point(self, point: Point, several: bool) -> str:
        """One point: its path, its verdicts, an example, what holds."""
        path = (
            f'<p class="path">on the path <code>{escaped(point.path)}</code></p>'
            if several or '/' in point.path
            else ''
        )
        told = ''
        for (kind, verdict), offsets in self.verdicts(point).items():
            told += f'<p>{verdict.text()}{self.elements_text(offsets) if kind.own_place else ""}</p>'
            if verdict == open_of(kind) and (found := self.findings.example(kind, point)):
                told += f'<p class="example">{escaped(found.text)}</p>'
        head = f'<div class="point" id="p{point.number}" data-path="{escaped(point.path)}">'
        return f'{head}{path}{told}{self.state(point)}</div>'

    def article(self, offset: int, points: list[Point]) -> str:
        """A place with its points."""
        line, column = points[0].line, points[0].column
        statement = shown(b' '.join(self.source.data[offset : self.extents[offset]].split()))
        link = f'<a href="#s{line}-{column}">line {line}, column {self.source.utf16_column(offset)}</a>'
        head = f'<h3>{link} <code>{statement}</code></h3>'
        body = ''.join(self.point(point, len(points) > 1) for point in points)
        return f'<article id="a{line}-{column}">{head}{body}</article>\n'

    # The source.

    def pieces(self) -> Iterator[tuple[int, int, int | None]]:
        """The stretches of the source: from, to, and the place that has it."""
        at = 0
        for offset, end in self.extents.items():
            yield at, offset, None
            yield offset, end, offset
            at = end
        yield at, len(self.source.data), None

    def piece(self, start: int, end: int, place: int | None, line_start: int) -> str:
        """A stretch within one line."""
        text = self.marked(start, end)
        if place is None:
            return text
        line, column = self.source.place(place)
        if self.report is None:
            return f'<mark id="s{line}-{column}">{text}</mark>'
        dead = '' if any(point.parts for point in self.places[place]) else ' dead'
        own = f'id="s{line}-{column}"' if line_start <= place else 'tabindex="-1"'
        return f'<a class="at{dead}" {own} href="#a{line}-{column}">{text}</a>'

    def marked(self, start: int, end: int) -> str:
        """A stretch within one line, with a mark at each array's name behind which an index is judged."""
        text, at, data = '', start, self.source.data
        first = bisect.bisect_left(self.element_offsets, start)
        last = bisect.bisect_left(self.element_offsets, end)
        for offset in self.element_offsets[first:last]:
            verdict = verdict_of(self.elements[offset])
            behind = self.source.tokens[self.source.index_at(offset) or 0].end
            title = f' title="{self.element(offset)}: {verdict.word}"' if len(self.elements) <= MOST_TITLES else ''
            text += shown(data[at:offset])
            text += f'<span class="access {verdict.style}"{title}>{shown(data[offset:behind])}</span>'
            at = behind
        return text + shown(data[at:end])

    def line_texts(self) -> list[str]:
        """The lines of the source, with their statements marked."""
        texts = [''] * len(self.source.lines)
        for start, end, place in self.pieces():
            while start < end:
                line = self.source.place(start)[0]
                line_start = self.source.line_starts[line - 1]
                stop = min(end, line_start + len(self.source.lines[line - 1]))
                if start < stop:
                    texts[line - 1] += self.piece(start, stop, place, line_start)
                start = stop + 1 if stop < end else end
        return texts

    def together(self) -> Iterator[tuple[int, Verdict, list[Asked]]]:
        """The places that ask something, by lines and verdicts; elements of one statement in one line together."""
        found: dict[tuple[int, Verdict, int], list[Asked]] = {}
        for asked in self.findings.asked:
            line = self.source.place(asked.offset)[0]
            found.setdefault((line, verdict_of(asked), asked.statement.offset), []).append(asked)
        for (line, verdict, _), told in found.items():
            yield line, verdict, told

    def signs(self) -> dict[int, str]:
        """The verdicts of each line, behind its text; of kinds that don't count only what isn't known."""
        found: dict[int, str] = {}
        if isinstance(self.findings.answer, Refusal):
            return {self.findings.answer.line: f' {REFUSED.text()}'}
        for line, verdict, told in self.together():
            if told[0].kind.counts or not told[0].is_known:
                point, text = told[0].statement, verdict.text(len(told) if len(told) > 1 else None)
                link = f'<a class="sign" tabindex="-1" href="#a{point.line}-{point.column}">{text}</a>'
                found[line] = f'{found.get(line, "")} {link}'
        for stretch in self.findings.dead:
            line = self.source.place(stretch.start)[0]
            if NEVER.word not in found.get(line, ''):
                found[line] = (
                    found.get(line, '')
                    + ' '
                    + (NEVER if not stretch.function else Verdict('never', '∅', 'never called')).text()
                )
        return found

    def gone(self) -> set[int]:
        """The lines on which nothing is reached: of stretches that no run reaches, and of functions that nothing
        calls."""
        ends = {start: end for _, start, _, end in self.source.functions}
        found: set[int] = set()
        for stretch in self.findings.dead:
            end = ends[stretch.start] if stretch.function else stretch.end
            found.update(range(self.source.place(stretch.start)[0], self.source.place(end)[0] + 1))
        return found - {point.line for points in self.places.values() for point in points if point.parts}

    def lines(self) -> str:
        """The source with line numbers and verdicts."""
        signs, texts, dead = self.signs(), self.line_texts(), self.gone()
        if texts and not texts[-1]:
            texts.pop()
        return ''.join(
            f'<div class="line{" gone" if number in dead else ""}" id="l{number}"><a class="number" tabindex="-1" '
            f'href="#l{number}">{number}</a><code>{text}</code>{signs.get(number, "")}</div>\n'
            for number, text in enumerate(texts, 1)
        )

    # The whole.

    def summary(self) -> str:
        """What is said of the source, in a line."""
        answer = self.findings.answer
        if isinstance(answer, Refusal):
            meaning = REFUSALS.get(answer.name, '')
            return (
                f'{REFUSED.text()} line {answer.line}, column {self.source.utf16_column(answer.offset)}: {answer.name}'
                f'{": " + escaped(meaning) if meaning else ""}'
            )
        told = []
        for kind in KINDS:
            known = [asked.is_known for asked in self.findings.asked if asked.kind is kind]
            told += [(known.count(False), open_of(kind)), (known.count(True), known_of(kind))]
        told.append((len(self.findings.dead), NEVER))
        counted = ' '.join(verdict.text(count) for count, verdict in told if count)
        flag = (
            f' · flagged from line {answer.points[answer.flagged - 1].line} on: what is told holds, and may be '
            'weaker than it could be'
            if answer.flagged
            else ''
        )
        domain = DOMAINS[answer.analysis['domain']]
        return f'{counted or "no assertion"} · over {domain}, <code>{answer.words}</code>{flag}'

    def to_look_at(self) -> str:
        """Links to what is open."""
        if self.report is None:
            return ''
        items = []
        for line, _, told in self.together():
            kind, point = told[0].kind, told[0].statement
            if not told[0].is_known:
                said = f'line {line}: {escaped(kind.fails)}'
                said += self.elements_text([asked.offset for asked in told]) if kind.own_place else ''
                items.append((told[0].offset, f'<li><a class="jump" href="#a{point.line}-{point.column}">{said}</a>'))
        for stretch in self.findings.dead:
            line = self.source.place(stretch.start)[0]
            said = f'{escaped(stretch.function)} is never called' if stretch.function else 'no run comes here'
            items.append((stretch.start, f'<li><a href="#l{line}">line {line}: {said}</a>'))
        listed = ''.join(item for _, item in sorted(items))
        return f'<nav aria-label="To look at"><ul>{listed}</ul></nav>' if listed else ''

    def states(self) -> str:
        """What holds at each statement."""
        if self.report is None:
            return ''
        articles = ''.join(self.article(offset, points) for offset, points in self.places.items())
        cut = (
            f'<p>Of each point at most {self.most} rows, generators and elements each stand here.</p>'
            if self.most < MOST_TOLD[0]
            else ''
        )
        return (
            '<details id="states" open>'
            '<summary>What holds at each statement, whenever an execution is just before it</summary>'
            f'{cut}\n{articles}</details>'
        )

    def text(self) -> str:
        """The page."""
        name = name_of(self.source)
        flagged = self.report.flagged if self.report else 0
        domain = self.report.analysis['domain'] if self.report else ''
        return f"""<!doctype html>
<html lang="en">
<head>
<meta charset="utf-8">
<meta name="viewport" content="width=device-width, initial-scale=1">
<meta http-equiv="Content-Security-Policy" content="{POLICY}">
<title>{name}</title>
<style>
{own_file('page.css')}</style>
</head>
<body data-domain="{domain}" data-flagged="{flagged}">
<header><h1>{name}</h1><p class="summary">{self.summary()}</p>{self.to_look_at()}</header>
<main>
<section id="source" aria-label="Source">
{self.lines()}</section>
<aside id="panel" aria-live="polite" aria-label="What holds at the chosen statement" hidden></aside>
</main>
{self.states()}
<footer>Made by tools/page from a report of lra. What lra says is proved; this page is not.</footer>
<script>
{own_file('page.js')}</script>
</body>
</html>
"""


def size_of(report: Report, most: int) -> int:
    """About how many bytes the states of a report take in a page, each with so many rows and generators."""
    before: tuple[Part, ...] | None = None
    size = 0
    for point in report.points:
        if point.parts != before:
            told = [
                text for part in point.parts for texts in (part.rows, part.generators or ()) for text in texts[:most]
            ]
            size += sum(map(len, told)) + 8 * len(told)
        before = point.parts
        size += 60 * min(most, len(report.said(point)))
    return size + 500 * len(report.points)


def page_text(findings: Findings) -> str:
    """The page of a source, with as many rows at a point as fit."""
    text = ''
    for most in MOST_TOLD:
        if most and isinstance(findings.answer, Report) and size_of(findings.answer, most) > MOST_BYTES:
            continue
        text = Page(findings, most).text()
        if len(text.encode('utf-8', 'replace')) <= MOST_BYTES:
            break
    return text
