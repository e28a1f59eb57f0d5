"""Draws from a seed, the same on each machine, and programs made of them, some of several threads: two types, arrays,
calls, loops, `switch`, names that hide one another. Each program is accepted; most of its indexes lie inside, and most of its loops end.
"""
from collections.abc import Sequence
from dataclasses import dataclass
from random import Random
from typing import TypeVar

COMPARISONS = ('<', '<=', '>', '>=', '==', '!=')
LEAST = {'int': -(2**31), 'long': -(2**63)}
T = TypeVar('T')


class Drawing:
    """Numbers and choices drawn from a seed."""

    def __init__(self, seed: int) -> None:
        self.random = Random(seed).random

    def number(self, low: int, high: int) -> int:
        """A number between two."""
        return low + int(self.random() * (high - low + 1))

    def one_of(self, *choices: T) -> T:
        """One of these."""
        return choices[self.number(0, len(choices) - 1)]

    def happens(self, percent: int) -> bool:
        """Whether it happens, so many times of a hundred."""
        return self.number(1, 100) <= percent


class Draws(Drawing):
    """What a run draws: mostly small numbers, some at the ends of the type; where numbers are given, half of the draws
    are among these. All are kept in `drawn`."""

    def __init__(self, seed: int, numbers: Sequence[int] = ()) -> None:
        super().__init__(seed)
        self.numbers = numbers
        self.drawn: list[int] = []

    def draw(self, kind: str) -> int:
        """A number of this type."""
        given = [number for number in self.numbers if LEAST[kind] <= number < -LEAST[kind]]
        value = self.one_of(*given) if given and self.happens(50) else self.any_of(kind)
        self.drawn.append(value)
        return value

    def any_of(self, kind: str) -> int:
        """A number of this type, of whatever size."""
        least, most = LEAST[kind], -LEAST[kind] - 1
        part = self.number(1, 100)
        if part <= 25:
            value = self.number(0, 1)
        elif part <= 75:
            value = self.number(-3, 12)
        elif part <= 85:
            value = self.number(-100, 100)
        elif part <= 92:
            near = self.number(0, 2)
            value = self.one_of(least + near, most - near)
        elif part <= 95:
            value = self.one_of(LEAST['int'], -LEAST['int'] - 1)
            value += self.number(-1, 1) if kind == 'long' else 0
        else:
            value = self.number(LEAST['int'], -LEAST['int'] - 1)
            value = value if kind == 'int' else value * 2**32 + self.number(0, 2**32 - 1)
        return value


@dataclass(frozen=True)
class Name:
    """A variable, or an array with its length."""

    name: str
    kind: str
    length: int = 0


@dataclass(frozen=True)
class Signature:
    result: str
    name: str
    parameters: tuple[Name, ...]


class Writer(Drawing):
    """Writes one program, line by line."""

    def __init__(self, seed: int) -> None:
        super().__init__(seed)
        self.lines: list[str] = []
        self.depth = 0
        self.scopes: list[list[Name]] = [[]]
        self.functions: list[Signature] = []
        self.result = 'void'
        self.loops = 0
        self.switches = 0
        self.made = 0

    # what is in scope ---------------------------------------------------------------------------------------------

    def visible(self) -> list[Name]:
        """What each name means: the newest of its name."""
        return list({own.name: own for scope in self.scopes for own in scope}.values())

    def variable(self, writable: bool = False) -> Name:
        """Some variable; counters of loops are written seldom."""
        found = [own for own in self.visible() if not own.length]
        if writable and not self.happens(5):
            found = [own for own in found if own.name[0] != 'i']
        return self.one_of(*found)

    def array(self) -> Name | None:
        """Some array; none where there is none."""
        found = [own for own in self.visible() if own.length]
        return self.one_of(*found) if found else None

    def fresh(self, letter: str) -> str:
        """A new name, or one that hides an older one; some variables stay."""
        taken = {own.name for own in self.scopes[-1]} | {own.name for own in self.functions}
        older = [own.name for own in self.visible() if own.name not in taken and own.name[0] != 'i']
        if sum(not own.length for own in self.visible()) > 2 and older and self.happens(15):
            return self.one_of(*older)
        self.made += 1
        return f'{letter}{self.made}'

    # expressions --------------------------------------------------------------------------------------------------

    def expression(self, depth: int = 2) -> str:
        """Operators up to this depth."""
        part = self.number(1, 100)
        if depth == 0 or part <= 45:
            return self.leaf()
        if part <= 50:
            return f'-{self.leaf()}'
        if part <= 80:
            return f'{self.expression(depth - 1)} {self.one_of("+", "-")} {self.product(depth - 1)}'
        return self.product(depth - 1)

    def product(self, depth: int) -> str:
        """A product, a quotient or a remainder, mostly by a small number."""
        left = self.leaf() if depth == 0 else f'({self.expression(depth - 1)})'
        operator = self.one_of('*', '/', '%')
        right = self.leaf() if self.happens(20) else f'{self.number(1, 5)}'
        return f'{left} {operator} {right}'

    def leaf(self) -> str:
        """An operand."""
        part = self.number(1, 100)
        if part <= 30:
            return self.literal()
        if part <= 75:
            return self.variable().name
        if part <= 92:
            return self.element() or self.variable().name
        return 'input()'

    def literal(self) -> str:
        """Mostly small, of either type."""
        part = self.number(1, 100)
        if part <= 85:
            return str(self.number(0, 12))
        if part <= 92:
            return f'{self.number(0, 40)}{self.one_of("L", "ll")}'
        return self.one_of('0x1f', '017', '100', '2147483647', '2147483648', '65536')

    def element(self) -> str | None:
        """An element of some array, mostly one that is there."""
        array = self.array()
        if array is None:
            return None
        part = self.number(1, 100)
        if part <= 80:
            index = str(self.number(0, array.length - 1))
        elif part <= 92:
            index = self.variable().name + self.one_of('', '', ' + 1', f' % {array.length}')
        else:
            index = self.expression(1)
        return f'{array.name}[{index}]'

    def near(self, name: str, array: Name) -> str:
        """The element of which the variable is the index, or nearly so."""
        before, behind = self.one_of(('', ''), ('', ''), ('', ' + 1'), ('', ' - 1'), (f'{array.length - 1} - ', ''))
        return f'{array.name}[{before}{name}{behind}]'

    def condition(self, depth: int = 1) -> str:
        """Comparisons, and what is made of them."""
        part = self.number(1, 100)
        if depth and part <= 25:
            return f'{self.condition(0)} {self.one_of("&&", "||")} {self.condition(0)}'
        if depth and part <= 32:
            return f'!({self.condition(0)})'
        if part <= 42:
            return self.expression(1)
        right = self.literal() if self.happens(70) else self.expression(1)
        return f'{self.expression(1)} {self.one_of(*COMPARISONS)} {right}'

    def guard(self) -> str:
        """What often holds."""
        name = self.variable().name
        if self.happens(50):
            return f'{name} >= {self.number(-3, 1)} && {name} <= {self.number(5, 14)}'
        return f'{name} {self.one_of("<=", "<", "!=")} {self.variable().name} + {self.number(0, 9)}'

    # statements ---------------------------------------------------------------------------------------------------

    def line(self, text: str) -> None:
        """A line, as deep as it stands."""
        self.lines.append('  ' * self.depth + text)

    def block(self, head: str, count: int, declares: bool = True) -> None:
        """So many statements in braces, in a scope of their own."""
        self.line(f'{head}{{'.lstrip())
        self.depth += 1
        self.scopes.append([])
        if declares and self.happens(40):
            self.declare()
        self.statements(count)
        self.scopes.pop()
        self.depth -= 1
        self.line('}')

    def statements(self, count: int) -> None:
        """So many."""
        for _ in range(count):
            self.statement()

    def declare(self) -> None:
        """Variables or an array."""
        kind = self.one_of('int', 'long')
        if self.happens(30):
            name, length = self.fresh('a'), self.number(1, 6)
            self.line(f'{kind} {name}[{length}];')
            self.scopes[-1].append(Name(name, kind, length))
            return
        name = self.fresh('x')
        self.scopes[-1].append(Name(name, kind))
        value = self.literal() if self.happens(75) else self.expression(1)
        value = self.one_of('input()', f'-{self.literal()}') if self.happens(15) else value
        self.line(f'{kind} {name};' if self.happens(15) else f'{kind} {name} = {value};')

    def statement(self) -> None:
        """One of all kinds."""
        part = self.number(1, 100)
        deep = self.depth > 3
        if part <= 40 or (deep and part <= 70):
            self.assignment()
        elif part <= 48:
            self.line(f'assert({self.guard() if self.happens(60) else self.condition()});')
        elif part <= 53:
            self.line(f'assume({self.guard()});')
        elif part <= 60:
            self.jump()
        elif part <= 69:
            self.call()
        elif part <= 76:
            self.choice()
        elif part <= 84 and not deep:
            self.loop()
        elif part <= 88 and not deep:
            self.switch()
        elif part <= 96 and self.array():
            self.indexed()
        else:
            self.block('', self.number(1, 2))

    def assignment(self) -> None:
        """Of a variable or an element."""
        part = self.number(1, 100)
        element = self.element() if part <= 30 else None
        name = self.variable(writable=True).name
        if element:
            self.line(f'{element} = {self.called() or self.expression()};')
        elif part <= 70:
            self.line(f'{name} = {self.expression()};')
        elif part <= 85:
            self.line(f'{name} {self.one_of("+=", "-=", "*=", "/=", "%=")} {self.literal()};')
        else:
            self.line(self.one_of(f'{name}++;', f'--{name};'))

    def called(self) -> str | None:
        """A call of a function with a result, sometimes."""
        found = [own for own in self.functions if own.result != 'void']
        if not found or self.happens(70):
            return None
        return self.call_of(self.one_of(*found))

    def call_of(self, function: Signature) -> str:
        """A call with its arguments."""
        return f'{function.name}({", ".join(self.expression(1) for _ in function.parameters)})'

    def call(self) -> None:
        """A call that stands alone, or gives a variable its result."""
        if not self.functions:
            return self.assignment()
        function = self.one_of(*self.functions)
        begins = '' if function.result == 'void' or self.happens(20) else f'{self.variable(writable=True).name} = '
        return self.line(f'{begins}{self.call_of(function)};')

    def jump(self) -> None:
        """Out of a loop, a `switch` or a function, under a condition."""
        words = ['return;' if self.result == 'void' or self.happens(10) else f'return {self.expression(1)};']
        words += ['continue;', 'break;'] if self.loops else ['break;'] if self.switches else []
        self.line(f'if ({self.condition()}) {self.one_of(*words)}')

    def indexed(self) -> None:
        """Elements whose index is guarded, or a loop's counter."""
        array, name = self.array(), self.variable().name
        assert array, 'it is asked for only if there is an array'
        if self.happens(40):
            last = array.length + self.one_of(0, 0, -1, 1)
            self.line(f'if ({name} >= 0 && {name} < {last}) {self.near(name, array)} = {self.expression(1)};')
            return
        self.made += 1
        name = f'i{self.made}'
        self.scopes.append([Name(name, self.one_of('int', 'long'))])
        self.line(f'for ({self.scopes[-1][0].kind} {name} = {self.one_of(0, 0, 1)}; {name} < {array.length}; {name}++)')
        target = self.one_of(f'{array.name}[{name}]', self.near(name, array), f'{self.variable(True).name}')
        self.line(f'  {target} = {self.one_of(self.near(name, array), self.expression(1))};')
        self.scopes.pop()

    def choice(self) -> None:
        """An `if`, with an `else` or without."""
        self.block(f'if ({self.condition()}) ', self.number(1, 2))
        if self.happens(50):
            self.block('else ', self.number(1, 2))

    def loop(self) -> None:
        """One that counts up or down, or that an input ends."""
        count, part = self.number(1, 7), self.number(1, 100)
        self.made += 1
        name = f'i{self.made}'
        self.loops += 1
        self.scopes.append([Name(name, 'int')])
        if part <= 50:
            step = self.one_of(f'{name}++', f'{name} = {name} + 1', f'{name} += 2')
            self.block(f'for (int {name} = {self.number(0, 1)}; {name} < {count}; {step}) ', self.number(1, 3))
        elif part <= 70:
            self.block(f'for (int {name} = {count}; {name} > 0; {name}--) ', self.number(1, 3))
        else:
            self.scopes[-1] = []
            self.block(f'while ({self.one_of("input()", self.condition())}) ', self.number(1, 3))
        self.scopes.pop()
        self.loops -= 1

    def switch(self) -> None:
        """Labels in order, some of which fall through."""
        self.line(f'switch ({self.expression(1)}) {{')
        self.switches += 1
        values = [str(value) for value in range(-1, self.number(1, 4))]
        labels = [f'case {value}:' for value in values] + ['default:'] * self.happens(60)
        for label in labels:
            self.line(f'  {label}')
            self.depth += 2
            if self.happens(70) or label == labels[-1]:
                self.assignment()
            if self.happens(60):
                self.line('break;')
            self.depth -= 2
        self.switches -= 1
        self.line('}')

    # a program ----------------------------------------------------------------------------------------------------

    def function(self, head: str, parameters: Sequence[Name], count: int) -> None:
        """With its parameters and declarations in one scope."""
        self.line(f'{head} {{')
        self.depth += 1
        self.scopes.append(list(parameters))
        for _ in range(self.number(1, 3)):
            self.declare()
        self.statements(count)
        if self.result != 'void' and self.happens(85):
            self.line(f'return {self.expression(1)};')
        self.scopes.pop()
        self.depth -= 1
        self.line('}')

    def define(self, name: str) -> None:
        """A function, which calls those before it."""
        self.result = self.one_of('int', 'long', 'long', 'void')
        parameters = tuple(Name(f'p{k}', self.one_of('int', 'long')) for k in range(self.number(0, 2)))
        told = ', '.join(f'{own.kind} {own.name}' for own in parameters) or 'void'
        self.function(f'{self.result} {name}({told})', parameters, self.number(1, 3))
        self.functions.append(Signature(self.result, name, parameters))

    def program(self) -> str:
        """Globals, functions, and `main`."""
        self.line(f'{self.one_of("int", "long")} g = {self.one_of("0", "3", "-1", "10")};')
        self.scopes[0].append(Name('g', self.lines[-1].split()[0]))
        if self.happens(70):
            self.line(f'{self.one_of("int", "long")} t[4];')
            self.scopes[0].append(Name('t', self.lines[-1].split()[0], 4))
        for number in range(self.number(0, 2)):
            self.define(f'f{number}')
        self.result = 'int'
        self.function('int main(void)', (), self.number(6, 10))
        return '\n'.join(self.lines) + '\n'


class ThreadsWriter(Writer):
    """Writes one program of several threads, which often give the globals values."""

    def statement(self) -> None:
        """One of all kinds, or one for others."""
        found = [own.name for own in self.visible() if own in self.scopes[0] and not own.length]
        if found and self.happens(20):
            self.shared(self.one_of(*found))
        else:
            super().statement()

    def shared(self, name: str) -> None:
        """A global gets what is read, or a number, and another one is waited for."""
        if self.happens(50):
            self.line(f'{name} = input();')
            return
        number = self.number(0, 5)
        self.line(f'{name} = {number};')
        self.loops += 1
        self.block(f'while ({name} {self.one_of("==", "<=", ">=")} {number + self.number(-1, 1)}) ', 1)
        self.loops -= 1

    def program(self) -> str:
        """Globals, functions, and threads, which may call those before them."""
        for number in range(self.number(2, 4)):
            kind = self.one_of('int', 'long')
            self.line(f'{kind} g{number} = {self.number(-1, 5)};')
            self.scopes[0].append(Name(f'g{number}', kind))
        if self.happens(70):
            self.line('long t[4];')
            self.scopes[0].append(Name('t', 'long', 4))
        for number in range(self.number(0, 2)):
            self.define(f'f{number}')
        for number in range(self.number(2, 4)):
            self.result = self.one_of('void', 'void', 'long')
            self.function(f'{self.result} t{number + 1}(void)', (), self.number(3, 7))
            self.functions.append(Signature(self.result, f't{number + 1}', ()))
        return '\n'.join(self.lines) + '\n'


def program_of(seed: int) -> str:
    """The program of a seed."""
    return Writer(seed).program()


def threads_of(seed: int) -> str:
    """The program of several threads of a seed."""
    return ThreadsWriter(seed).program()
