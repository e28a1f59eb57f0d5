"""Runs of a program, as docs/DEFINITIONS.md tells them. Written from that page and docs/LANGUAGE.md, not from `lra`.

A run stands on a point before each statement but a block, before each declarator, before each test of a loop and at
each `}` of a block. What watches it is told of each point to which it comes, of each access of an array, of each value
that a global gets, and how it ends. At each point others may go on in between: whatever comes to one is a generator.
"""
import os
import sys
from collections.abc import Callable, Generator, Iterable, Sequence
from dataclasses import dataclass
from functools import lru_cache
from typing import Protocol

sys.path.append(os.path.join(os.path.dirname(os.path.realpath(__file__)), '../../tools'))

from looking.paths import printed  # noqa: E402
from looking.programs import (  # noqa: E402
    And,
    Asked,
    Assigned,
    Block,
    Call,
    Called,
    Chosen,
    Compared,
    Condition,
    Declared,
    DeclaredArray,
    Element,
    Expression,
    Input,
    Jump,
    Label,
    Literal,
    Loop,
    Negated,
    Not,
    Nothing,
    Program,
    Read,
    Return,
    Statement,
    Switch,
    Value,
    Written,
)
from looking.sources import Source  # noqa: E402

Steps = Generator[None, None, None]
Left = Generator[None, None, str]
LEAST = {'int': -(2**31), 'long': -(2**63)}
# How a run ends: behind its last statement, at a false condition, at a number that its type doesn't have or that has
# no value, at an index outside its array; and where it is cut off.
END, FAILED, ASSUMED, NUMBER, INDEX, CUT = 'end', 'assertion', 'assumption', 'number', 'index', 'cut'
COMPARES: dict[str, Callable[[int, int], bool]] = {
    '<': lambda left, right: left < right,
    '<=': lambda left, right: left <= right,
    '>': lambda left, right: left > right,
    '>=': lambda left, right: left >= right,
    '==': lambda left, right: left == right,
    '!=': lambda left, right: left != right,
}


@lru_cache(maxsize=4096)
def names_of(names: tuple[str, ...]) -> tuple[str, ...]:
    """The names as reports print them."""
    return printed(list(names))


class Ended(Exception):
    """The run ends before its last statement."""

    def __init__(self, how: str) -> None:
        super().__init__(how)
        self.how = how


def fits(kind: str, number: int) -> bool:
    """Whether the type has the number."""
    return LEAST[kind] <= number < -LEAST[kind]


def checked(kind: str, number: int) -> int:
    """The number, where the type has it; else the run ends."""
    if not fits(kind, number):
        raise Ended(NUMBER)
    return number


def quotient(left: int, right: int) -> int:
    """Towards 0."""
    return abs(left) // abs(right) * (1 if (left < 0) == (right < 0) else -1)


def computed(kind: str, operator: str, left: int, right: int) -> int:
    """In this type."""
    if operator in '/%' and right == 0:
        raise Ended(NUMBER)
    if operator == '+':
        return checked(kind, left + right)
    if operator == '-':
        return checked(kind, left - right)
    if operator == '*':
        return checked(kind, left * right)
    whole = checked(kind, quotient(left, right))
    return whole if operator == '/' else left - whole * right


@dataclass(eq=False)
class Cell:
    """A variable that lives."""

    name: str
    kind: str
    value: int


@dataclass(eq=False)
class Cells:
    """An array's elements."""

    kind: str
    values: list[int]


@dataclass(frozen=True)
class Receiver:
    """What a value is given to, and the types on its way there; nothing where nobody asks for it."""

    kinds: tuple[str, ...]
    put: Callable[[int], None] | None = None

    def behind(self, result: str) -> 'Receiver':
        """A function's result goes there."""
        return self if result == 'void' else Receiver((result, *self.kinds), self.put)

    def give(self, number: int) -> None:
        """Each type on the way has to have the number."""
        for kind in self.kinds:
            checked(kind, number)
        if self.put:
            self.put(number)


NOBODY = Receiver(())


class Watching(Protocol):
    """What watches a run."""

    def come(self, path: str, at: int, names: Sequence[str], values: Sequence[int]) -> None:
        """The run is at a point."""

    def access(self, path: str, on: int, at: int, is_inside: bool) -> None:
        """An element is read or gets a value."""

    def gave(self, path: str, name: str, number: int) -> None:
        """A global got a value."""

    def ended(self, path: str, on: int, how: str) -> None:
        """The run has ended."""


class Globals:
    """The globals with their first values, and the global arrays, which hold zeros."""

    def __init__(self, program: Program) -> None:
        self.cells = [Cell(variable.name, variable.type, value) for variable, value in program.variables]
        arrays = {array.name: Cells(array.type, [0] * array.length) for array in program.arrays}
        self.named: dict[str, Cell | Cells] = {cell.name: cell for cell in self.cells} | arrays


class Run:
    """One run of a program, or of one of its threads, over these globals. `draw` gives a number of a type; what watches
    the run has `come(path, at, names, values)`, `access(path, on, at, is_inside)`, `gave(path, name, number)` and
    `ended(path, on, how)`: a path of calls, and offsets in the source."""

    def __init__(self, source: Source, program: Program, draw: Callable[[str], int], watcher: Watching,
                 shared: Globals | None = None, begins: str = 'main', most_points: int = 2000) -> None:
        shared = shared or Globals(program)
        self.source = source
        self.program = program
        self.draw = draw
        self.watcher = watcher
        self.left = most_points
        self.store = list(shared.cells)
        self.globals = shared.named
        self.scope = dict(shared.named)
        self.path = begins
        self.on = 0
        self.receiver = NOBODY
        self.how = ''

    def run(self) -> str:
        """From the start to the end, and how it ends."""
        for _ in self.steps():
            self.look()
        return self.how

    def steps(self) -> Steps:
        """The same, from point to point."""
        function = self.program.functions[self.path]
        try:
            self.receiver = NOBODY.behind(function.result)
            yield from self.body(function.body)
            self.how = END
        except Ended as ended:
            self.how = ended.how
        self.watcher.ended(self.path, self.on, self.how)

    def come(self, at: int) -> None:
        """The point is on top."""
        self.on = at
        if self.left == 0:
            raise Ended(CUT)
        self.left -= 1

    def look(self) -> None:
        """Tells of the point on top, and of the store there."""
        names = names_of(tuple(cell.name for cell in self.store))
        self.watcher.come(self.path, self.on, names, [cell.value for cell in self.store])

    def into(self, cell: Cell) -> Receiver:
        """A variable's receiver."""
        return Receiver((cell.kind,), lambda number: self.put(cell, number))

    def put(self, cell: Cell, number: int) -> None:
        """The variable gets the number."""
        cell.value = number
        if self.globals.get(cell.name) is cell:
            self.watcher.gave(self.path, cell.name, number)

    def appear(self, name: str, kind: str, value: int) -> Cell:
        """A new variable."""
        cell = Cell(name, kind, value)
        self.store.append(cell)
        return cell

    def cell(self, name: str) -> Cell:
        """The variable that the name means."""
        found = self.scope[name]
        assert isinstance(found, Cell)
        return found

    # expressions: values with their types ---------------------------------------------------------------------------

    def value(self, read: Expression) -> tuple[int, str]:
        """Its value and its type."""
        match read:
            case Literal():
                return read.value, read.type
            case Read():
                cell = self.cell(read.name)
                return cell.value, cell.kind
            case Element():
                cells, place = self.place(read)
                return cells.values[place], cells.kind
            case Input():
                return self.draw('long'), 'long'
            case Negated():
                number, kind = self.value(read.operand)
                return checked(kind, -number), kind
        left, one = self.value(read.left)
        right, other = self.value(read.right)
        kind = 'long' if 'long' in (one, other) else 'int'
        return computed(kind, read.operator, left, right), kind

    def place(self, element: Element) -> tuple[Cells, int]:
        """An element's array and index, which lies inside."""
        index, _ = self.value(element.index)
        cells = self.scope[element.name]
        assert isinstance(cells, Cells)
        is_inside = 0 <= index < len(cells.values)
        self.watcher.access(self.path, self.on, element.at, is_inside)
        if not is_inside:
            raise Ended(INDEX)
        return cells, index

    def holds(self, condition: Condition) -> bool:
        """Whether the condition is true; `&&` and `||` stop early."""
        match condition:
            case Compared():
                left, right = self.value(condition.left)[0], self.value(condition.right)[0]
                return COMPARES[condition.sign](left, right)
            case Not():
                return not self.holds(condition.operand)
            case And():
                return self.holds(condition.left) and self.holds(condition.right)
        return self.holds(condition.left) or self.holds(condition.right)

    # statements: each says how it is left, '' where the run goes on behind it -----------------------------------------

    def statement(self, done: Statement) -> Left:
        """Makes one statement, a declarator among them."""
        match done:
            case Block():
                return (yield from self.block(done))
            case Loop():
                return (yield from self.loop(done))
        self.come(done.at)
        yield
        match done:
            case Declared():
                cell = self.appear(done.name, done.type, self.draw(done.type))
                self.scope[done.name] = cell
                yield from self.gives(self.into(cell), done.value)
            case DeclaredArray():
                array = done.array
                self.scope[array.name] = Cells(array.type, [self.draw(array.type) for _ in range(array.length)])
            case Assigned():
                yield from self.gives(self.into(self.cell(done.name)), done.value)
            case Written():
                yield from self.written(done)
            case Called():
                yield from self.call(done.call, NOBODY)
            case Chosen():
                way = done.so if self.holds(done.condition) else done.otherwise
                return (yield from self.statement(way)) if way else ''
            case Jump():
                return done.word
            case Return():
                return (yield from self.returned(done))
            case Asked():
                self.asked(done)
            case Switch():
                return (yield from self.switch(done))
        return ''

    def asked(self, done: Asked) -> None:
        """An assertion or an assumption."""
        if not self.holds(done.condition):
            raise Ended(FAILED if done.word == 'assert' else ASSUMED)

    def gives(self, receiver: Receiver, value: Value | None) -> Steps:
        """The receiver gets the value, where there is one."""
        if isinstance(value, Call):
            yield from self.call(value, receiver)
        elif value:
            receiver.give(self.value(value)[0])

    def written(self, done: Written) -> Steps:
        """The index comes first, and waits for the value."""
        cells, place = self.place(done.element)
        receiver = Receiver((cells.kind,), lambda number: cells.values.__setitem__(place, number))
        yield from self.gives(receiver, done.value)

    def items(self, items: Iterable[Statement]) -> Left:
        """One behind the other, until one is left."""
        for item in items:
            left = yield from self.statement(item)
            if left:
                return left
        return ''

    def block(self, body: Block) -> Left:
        """A scope of its own; at its end its variables still live."""
        scope, live = self.scope, len(self.store)
        self.scope = dict(scope)
        left = yield from self.body(body)
        self.scope = scope
        del self.store[live:]
        return left

    def body(self, body: Block) -> Left:
        """The items of a block, and its end."""
        left = yield from self.items(body.items)
        if not left:
            self.come(body.end)
            yield
        return left

    def loop(self, done: Loop) -> Left:
        """A `for` with its beginning, or a `while`."""
        scope, before = self.scope, len(self.store)
        self.scope = dict(scope)
        yield from self.items(done.begin)
        live, left = len(self.store), ''
        while not left:
            self.come(done.at)
            yield
            if not self.holds(done.condition):
                break
            left = yield from self.statement(done.body)
            del self.store[live:]
            if left in ('', 'continue'):
                left = (yield from self.statement(done.step)) if done.step else ''
        self.scope = scope
        del self.store[before:]
        return left if left == 'return' else ''

    def switch(self, done: Switch) -> Left:
        """Behind the label that names the value, else behind `default`."""
        number, live = self.value(done.value)[0], len(self.store)
        labels = [part.value if isinstance(part, Label) else () for part in done.parts]
        goal = number if number in labels else None
        if goal not in labels:
            return ''
        left = yield from self.items(part for part in done.parts[labels.index(goal) :] if not isinstance(part, Label))
        del self.store[live:]
        return '' if left == 'break' else left

    # calls ----------------------------------------------------------------------------------------------------------

    def call(self, call: Call, receiver: Receiver) -> Steps:
        """The callee's body, with the arguments' values in its parameters; then the caller goes on where it stood."""
        function = self.program.functions[call.name]
        numbers = [
            checked(own.type, self.value(given)[0]) for own, given in zip(function.parameters, call.arguments)
        ]
        before = self.scope, self.path, self.receiver
        live, (line, column) = len(self.store), self.source.place(call.at)
        self.scope, self.path = dict(self.globals), f'{self.path}/{call.name}@{line}:{column}'
        self.receiver = receiver.behind(function.result)
        for own, number in zip(function.parameters, numbers):
            self.scope[own.name] = self.appear(own.name, own.type, number)
        if not (yield from self.body(function.body)):
            self.give_any()
        self.scope, self.path, self.receiver = before
        del self.store[live:]

    def returned(self, done: Return) -> Left:
        """The value, or any, goes to who asked for it."""
        if done.value:
            yield from self.gives(self.receiver, done.value)
        else:
            self.give_any()
        return 'return'

    def give_any(self) -> None:
        """The receiver gets a draw that all types on its way have."""
        if self.receiver.put:
            self.receiver.give(self.draw('int' if 'int' in self.receiver.kinds else 'long'))
