"""Sources as bytes: lines, tokens, the extent of a statement, columns. Outside of what is proved."""
import bisect
import itertools
import re
from dataclasses import dataclass
from functools import cached_property

BLANKS = rb'[ \t\n\r\v\f]+'
INCLUDE = rb'(?m:^[ \t]*#[ \t]*include(?![A-Za-z0-9_])[^\n]*)'
TOKEN = re.compile(
    rb'(?P<skipped>' + BLANKS + rb'|//[^\n]*|/\*.*?\*/|' + INCLUDE + rb')'
    rb'|(?P<token>[A-Za-z0-9_]+|[\xc0-\xff][\x80-\xbf]*|/\*|==|!=|<=|>=|&&|\|\||\+\+|--|[-+*/%]=|.)',
    re.DOTALL,
)
NAME = re.compile(rb'[A-Za-z_][A-Za-z0-9_]*')
HEADS = (b'if', b'while', b'for', b'switch')


@dataclass(frozen=True)
class Token:
    """A word or sign: the offsets of its first byte and of the byte behind it."""

    start: int
    end: int
    text: bytes


def decode(data: bytes) -> str:
    """The text of these bytes; each byte that isn't UTF-8 becomes one replacement character."""
    return re.sub('[\udc80-\udcff]', '\ufffd', data.decode('utf-8', 'surrogateescape'))


def units(data: bytes) -> int:
    """How many UTF-16 units the text of these bytes has."""
    return len(data) if data.isascii() else len(decode(data).encode('utf-16-le')) // 2


class Source:
    """A file of the analysed language, under the name by which it was called."""

    def __init__(self, name: str, data: bytes) -> None:
        self.name = name
        self.data = data
        self.lines = data.split(b'\n')
        self.line_starts = [0]
        for line in self.lines[:-1]:
            self.line_starts.append(self.line_starts[-1] + len(line) + 1)
        self._extents: dict[int, int] = {}

    @cached_property
    def tokens(self) -> list[Token]:
        """All tokens, without blanks, comments and `#include` lines."""
        return [
            Token(found.start(), found.end(), found['token']) for found in TOKEN.finditer(self.data) if found['token']
        ]

    @cached_property
    def _token_starts(self) -> list[int]:
        return [token.start for token in self.tokens]

    def offset(self, line: int, column: int) -> int | None:
        """The offset of a place, lines and columns counted from 1 and in bytes; none where it isn't in the file."""
        if not (1 <= line <= len(self.lines) and 1 <= column <= len(self.lines[line - 1]) + 1):
            return None
        return self.line_starts[line - 1] + column - 1

    def place(self, offset: int) -> tuple[int, int]:
        """The line and the column in bytes of an offset."""
        line = bisect.bisect_right(self.line_starts, offset)
        return line, offset - self.line_starts[line - 1] + 1

    def utf16_column(self, offset: int) -> int:
        """The column of an offset in UTF-16 units of the source's text."""
        line, column = self.place(offset)
        return units(self.lines[line - 1][: column - 1]) + 1

    def index_at(self, offset: int) -> int | None:
        """The index of the token that begins at this offset."""
        index = bisect.bisect_left(self._token_starts, offset)
        return index if index < len(self.tokens) and self.tokens[index].start == offset else None

    def tokens_between(self, start: int, end: int) -> list[Token]:
        """The tokens that begin at `start` or behind it, and before `end`."""
        return self.tokens[bisect.bisect_left(self._token_starts, start) : bisect.bisect_left(self._token_starts, end)]

    def extent(self, offset: int) -> int:
        """The offset behind the statement that begins here: behind the `)` of a head, else behind its `;`, before a
        `,` between declarators, or before what closes its surroundings."""
        if offset not in self._extents:
            self._extents[offset] = self._statement_end(offset)
        return self._extents[offset]

    def _statement_end(self, offset: int) -> int:
        """The same, looked for."""
        first = self.index_at(offset)
        if first is None:
            return min(offset + 1, len(self.data))
        if self.tokens[first].text in (b'{', b'}', b';') or self.tokens[first].text[0] >= 0x80:
            return self.tokens[first].end
        is_head = self.tokens[first].text in HEADS
        end, depth = self.tokens[first].end, 0
        for index in range(first + 1, len(self.tokens)):
            token = self.tokens[index]
            depth += (token.text == b'(') - (token.text == b')')
            if token.text in (b'{', b'}') or depth < 0 or (depth == 0 and token.text == b',' and not is_head):
                break
            end = token.end
            if depth == 0 and token.text == (b')' if is_head else b';'):
                break
        return end

    def element_end(self, offset: int) -> int | None:
        """The offset behind the array's element that begins here; none where none does."""
        first = self.index_at(offset)
        if first is None or not NAME.fullmatch(self.tokens[first].text):
            return None
        depth = 0
        for token in itertools.islice(self.tokens, first + 1, None):
            depth += (token.text == b'[') - (token.text == b']')
            if depth == 0:
                return token.end if token.text == b']' else None
        return None

    def element(self, offset: int) -> str:
        """The element that begins here, with a blank for each gap between its words, but for those at brackets."""
        text, behind = '', offset
        for token in self.tokens_between(offset, self.element_end(offset) or offset):
            is_apart = token.start > behind and token.text not in (b'[', b']') and not text.endswith('[')
            text += f'{" " if is_apart else ""}{decode(token.text)}'
            behind = token.end
        return text

    def statement(self, offset: int) -> str:
        """The words of the statement that begins here, with one blank between them."""
        return ' '.join(decode(token.text) for token in self.tokens_between(offset, self.extent(offset)))

    @cached_property
    def functions(self) -> list[tuple[str, int, int, int]]:
        """Of each function its name, the offset of its name, and those of its body's `{` and behind its `}`."""
        found, depth, name, opened = [], 0, None, 0
        for index, token in enumerate(self.tokens):
            if token.text == b'(' and depth == 0 and index > 0:
                name = self.tokens[index - 1]
            depth += (token.text in (b'{', b'(')) - (token.text in (b'}', b')'))
            if token.text == b'{' and depth == 1:
                opened = token.start
            elif token.text == b'}' and depth == 0 and name is not None:
                found.append((decode(name.text), name.start, opened, token.end))
                name = None
        return found

    def function_at(self, offset: int) -> str:
        """The name of the function in whose body this offset is; empty where there is none."""
        index = bisect.bisect_right(self.functions, offset, key=lambda function: function[2]) - 1
        return self.functions[index][0] if index >= 0 and offset < self.functions[index][3] else ''
