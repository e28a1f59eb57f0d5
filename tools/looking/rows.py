"""Rows and generators as reports print them, read back. Outside of what is proved."""
import re
from dataclasses import dataclass
from fractions import Fraction
from functools import lru_cache

NAME = r'[A-Za-z_]\w*(?:~\d+)?'
TERM = re.compile(rf'(?P<sign>[-+]?)\s*(?:(?P<factor>\d+)\*)?(?P<name>{NAME})\s*', re.ASCII)
COMPARED = re.compile(r'(?P<sign>=|>=|<=) (?P<constant>-?\d+)', re.ASCII)
KINDS = ('point', 'ray', 'line')
TERM_TEXT = rf'(?:\d+\*)?{NAME}'
ROW_TEXT = re.compile(rf'-?{TERM_TEXT}(?: [-+] {TERM_TEXT})* (?:=|>=|<=) -?\d+', re.ASCII)
GENERATOR_TEXT = re.compile(rf'(?:point|ray|line)(?: {NAME}=-?\d+(?:/[1-9]\d*)?)*', re.ASCII)

State = dict[str, int]


@dataclass(frozen=True)
class Row:
    """The sum of the terms, compared with the constant by `=`, `>=` or `<=`."""

    terms: dict[str, int]
    sign: str
    constant: int

    def holds(self, state: State) -> bool:
        """Whether the row holds of the state, in which each variable that it names has a value."""
        value = sum(factor * state[name] for name, factor in self.terms.items())
        return {'=': value == self.constant, '>=': value >= self.constant, '<=': value <= self.constant}[self.sign]


@dataclass(frozen=True)
class Generator:
    """A point, a ray or a line, by its coordinates."""

    kind: str
    values: dict[str, Fraction]


@lru_cache(maxsize=65536)
def read_row(text: str) -> Row:
    """The row that this text tells; it has the form of one."""
    terms: dict[str, int] = {}
    at = 0
    while found := TERM.match(text, at):
        terms[found['name']] = int(found['sign'] + (found['factor'] or '1'))
        at = found.end()
    compared = COMPARED.fullmatch(text, at)
    assert compared, text
    return Row(terms, compared['sign'], int(compared['constant']))


@lru_cache(maxsize=65536)
def read_generator(text: str) -> Generator:
    """The generator that this text tells; it has the form of one."""
    kind, *words = text.split(' ')
    values = [word.split('=') for word in words]
    return Generator(kind, {name: Fraction(value) for name, value in values})


def state_text(state: State) -> str:
    """A state as generators are printed."""
    return ' '.join(f'{name}={value}' for name, value in state.items())
