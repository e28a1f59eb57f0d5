"""The condition of an assertion, evaluated in a state. Outside of what is proved: it chooses among examples, and
says nothing else."""
import re
from dataclasses import dataclass
from typing import Callable

from looking.rows import State
from looking.sources import Source, decode

LITERAL = re.compile(r'(0[xX][0-9a-fA-F]+|[0-9]+)[lL]{0,2}', re.ASCII)
LEVELS: tuple[tuple[str, ...], ...] = (
    ('||',),
    ('&&',),
    ('==', '!=', '<', '<=', '>', '>='),
    ('+', '-'),
    ('*', '/', '%'),
)
LEAST, GREATEST = -(2**63), 2**63 - 1


class Untold(Exception):
    """What this evaluation can't tell: an `input()`, an element, a name without a value, a number past 64 bits, a zero
    divisor."""


def literal(word: str) -> int | None:
    """The value of a literal; none of another word."""
    found = LITERAL.fullmatch(word)
    if not found:
        return None
    base = 16 if found[1][:2] in ('0x', '0X') else 8 if found[1][0] == '0' else 10
    return int(found[1], base) if base != 8 or set(found[1]) <= set('01234567') else None


def literal_type(word: str, value: int) -> str:
    """The type of a literal with this value."""
    return 'long' if word[-1] in 'lL' or value > 2**31 - 1 else 'int'


def quotient(left: int, right: int) -> int:
    """C's quotient, towards 0."""
    if right == 0:
        raise Untold
    return abs(left) // abs(right) * (1 if (left < 0) == (right < 0) else -1)


OPERATIONS: dict[str, Callable[[int, int], int]] = {
    '||': lambda left, right: int(bool(left) or bool(right)),
    '&&': lambda left, right: int(bool(left) and bool(right)),
    '==': lambda left, right: int(left == right),
    '!=': lambda left, right: int(left != right),
    '<': lambda left, right: int(left < right),
    '<=': lambda left, right: int(left <= right),
    '>': lambda left, right: int(left > right),
    '>=': lambda left, right: int(left >= right),
    '+': lambda left, right: left + right,
    '-': lambda left, right: left - right,
    '*': lambda left, right: left * right,
    '/': quotient,
    '%': lambda left, right: left - quotient(left, right) * right,
}


@dataclass
class Reader:
    """Reads the words of a condition, and evaluates it on the way."""

    words: list[str]
    state: State
    at: int = 0

    def word(self) -> str:
        return self.words[self.at] if self.at < len(self.words) else ''

    def take(self) -> str:
        self.at += 1
        return self.words[self.at - 1] if self.at <= len(self.words) else ''

    def level(self, depth: int) -> int:
        """An operation of this level or a closer one."""
        if depth == len(LEVELS):
            return self.unary()
        value = self.level(depth + 1)
        while self.word() in LEVELS[depth]:
            value = self.in_range(OPERATIONS[self.take()](value, self.level(depth + 1)))
        return value

    def unary(self) -> int:
        word = self.take()
        if word in ('-', '+', '!'):
            value = self.unary()
            return self.in_range({'-': -value, '+': value, '!': int(not value)}[word])
        if word == '(':
            value = self.level(0)
            self.take()
            return value
        if (number := literal(word)) is not None:
            return self.in_range(number)
        if word not in self.state or self.word() in ('(', '['):
            raise Untold
        return self.state[word]

    @staticmethod
    def in_range(value: int) -> int:
        if not LEAST <= value <= GREATEST:
            raise Untold
        return value


def holds(source: Source, offset: int, state: State) -> bool | None:
    """Whether the condition behind the word at this offset holds in the state; none where this can't be told."""
    words = [decode(token.text) for token in source.tokens_between(offset, source.extent(offset))]
    try:
        return bool(Reader(words[2:-2], state).level(0))
    except (Untold, ValueError, RecursionError):
        return None
