"""Sources as trees: what their statements, conditions and expressions are. Outside of what is proved; of a source that
`lra` refuses nothing is claimed."""
from dataclasses import dataclass

from looking.conditions import literal, literal_type
from looking.reports import Fault
from looking.sources import Source, decode

COMPARISONS = ('<', '<=', '>', '>=', '==', '!=')
ASSIGNMENTS = ('+=', '-=', '*=', '/=', '%=')
TYPES = ('int', 'long')
MOST_ELEMENTS = 1_048_576


@dataclass(frozen=True, eq=False)
class Literal:
    value: int
    type: str


@dataclass(frozen=True, eq=False)
class Read:
    """A variable's value."""

    name: str


@dataclass(frozen=True, eq=False)
class Element:
    """An array's element, with the offset of the array's name."""

    at: int
    name: str
    index: 'Expression'


@dataclass(frozen=True, eq=False)
class Input:
    """Any value, a new one each time."""


@dataclass(frozen=True, eq=False)
class Negated:
    operand: 'Expression'


@dataclass(frozen=True, eq=False)
class Binary:
    operator: str
    left: 'Expression'
    right: 'Expression'


Expression = Literal | Read | Element | Input | Negated | Binary


@dataclass(frozen=True, eq=False)
class Compared:
    sign: str
    left: Expression
    right: Expression


@dataclass(frozen=True, eq=False)
class Not:
    operand: 'Condition'


@dataclass(frozen=True, eq=False)
class And:
    left: 'Condition'
    right: 'Condition'


@dataclass(frozen=True, eq=False)
class Or:
    left: 'Condition'
    right: 'Condition'


Condition = Compared | Not | And | Or


@dataclass(frozen=True)
class Call:
    """With the offset of the called name."""

    at: int
    name: str
    arguments: tuple[Expression, ...]


Value = Expression | Call


@dataclass(frozen=True)
class Nothing:
    """`;`. Each statement that has a point has its offset, too."""

    at: int


@dataclass(frozen=True)
class Block:
    items: tuple['Statement', ...]
    end: int


@dataclass(frozen=True)
class Declared:
    at: int
    type: str
    name: str
    value: Value | None


@dataclass(frozen=True)
class Array:
    type: str
    name: str
    length: int


@dataclass(frozen=True)
class DeclaredArray:
    at: int
    array: Array


@dataclass(frozen=True)
class Assigned:
    at: int
    name: str
    value: Value


@dataclass(frozen=True)
class Written:
    """An element gets a value."""

    at: int
    element: Element
    value: Value


@dataclass(frozen=True)
class Called:
    at: int
    call: Call


@dataclass(frozen=True)
class Chosen:
    """`if`."""

    at: int
    condition: Condition
    so: 'Statement'
    otherwise: 'Statement | None'


@dataclass(frozen=True)
class Loop:
    """`while`, or a `for` with how it begins and its step."""

    at: int
    begin: tuple['Statement', ...]
    condition: Condition
    step: 'Statement | None'
    body: 'Statement'


@dataclass(frozen=True)
class Jump:
    """`break` or `continue`."""

    at: int
    word: str


@dataclass(frozen=True)
class Return:
    at: int
    value: Value | None


@dataclass(frozen=True)
class Asked:
    """`assert` or `assume`."""

    at: int
    word: str
    condition: Condition


@dataclass(frozen=True)
class Label:
    """`case` with its value; without one `default`."""

    value: int | None


@dataclass(frozen=True)
class Switch:
    at: int
    value: Expression
    parts: tuple['Label | Statement', ...]


Statement = (
    Nothing
    | Block
    | Declared
    | DeclaredArray
    | Assigned
    | Written
    | Called
    | Chosen
    | Loop
    | Jump
    | Return
    | Asked
    | Switch
)


@dataclass(frozen=True)
class Variable:
    type: str
    name: str


@dataclass(frozen=True)
class Function:
    """The type of its result, or `void`."""

    result: str
    parameters: tuple[Variable, ...]
    body: Block


@dataclass(frozen=True)
class Program:
    """The globals with their first values, the global arrays, and the functions by their names."""

    variables: tuple[tuple[Variable, int], ...]
    arrays: tuple[Array, ...]
    functions: dict[str, Function]


class Reader:
    """Reads a source from its first token on."""

    def __init__(self, source: Source) -> None:
        self.source = source
        self.words = [decode(token.text) for token in source.tokens]
        self.at = 0

    def word(self, ahead: int = 0) -> str:
        """The next word; empty behind the last one."""
        place = self.at + ahead
        return self.words[place] if place < len(self.words) else ''

    def offset(self) -> int:
        tokens = self.source.tokens
        return tokens[self.at].start if self.at < len(tokens) else len(self.source.data)

    def fault(self, said: str = "this isn't the analysed language") -> Fault:
        """What is wrong with the next word."""
        line, column = self.source.place(self.offset())
        return Fault(f'{self.source.name}:{line}:{column}: {said}')

    def is_next(self, *words: str) -> bool:
        """Whether one of these words comes next; then it is read."""
        if self.word() not in words:
            return False
        self.at += 1
        return True

    def take(self, word: str) -> None:
        if not self.is_next(word):
            raise self.fault()

    def take_name(self) -> str:
        word = self.word()
        if not (word.isidentifier() and word.isascii()):
            raise self.fault()
        self.at += 1
        return word

    def take_type(self) -> str:
        if self.is_next('int'):
            return 'int'
        self.take('long')
        self.is_next('long')
        self.is_next('int')
        return 'long'

    def take_number(self) -> int:
        """A literal, with a sign or not."""
        sign = -1 if self.is_next('-') else 1
        value = literal(self.word())
        if value is None:
            raise self.fault()
        self.at += 1
        return sign * value

    def program(self, needed: tuple[str, ...]) -> Program:
        """One that defines these functions."""
        variables: list[tuple[Variable, int]] = []
        arrays: list[Array] = []
        functions: dict[str, Function] = {}
        while self.word():
            self.is_next('extern')
            kind = 'void' if self.is_next('void') else self.take_type()
            if self.word(1) == '(':
                self.function(kind, functions)
            else:
                self.first_values(kind, variables, arrays)
        if not all(name in functions for name in needed):
            raise self.fault()
        return Program(tuple(variables), tuple(arrays), functions)

    def first_values(self, kind: str, variables: list[tuple[Variable, int]], arrays: list[Array]) -> None:
        """The globals of one declaration."""
        while True:
            name = self.take_name()
            if self.word() == '[':
                arrays.append(Array(kind, name, self.length()))
            else:
                variables.append((Variable(kind, name), self.take_number() if self.is_next('=') else 0))
            if not self.is_next(','):
                break
        self.take(';')

    def length(self) -> int:
        """An array's, with its brackets."""
        self.take('[')
        value = literal(self.word())
        if value is None:
            raise self.fault()
        if not 1 <= value <= MOST_ELEMENTS:
            raise self.fault(f'an array has 1 to {MOST_ELEMENTS:,} elements')
        self.at += 1
        self.take(']')
        return value

    def function(self, kind: str, functions: dict[str, Function]) -> None:
        """A function, or a prototype, which means nothing."""
        name = self.take_name()
        self.take('(')
        parameters = []
        if self.word() == 'void' and self.word(1) == ')':
            self.take('void')
        while not self.is_next(')'):
            own = self.take_type()
            parameters.append(Variable(own, self.take_name() if self.word() not in (',', ')') else ''))
            if self.word() != ')':
                self.take(',')
        if not self.is_next(';'):
            functions[name] = Function(kind, tuple(parameters), self.block())

    def block(self) -> Block:
        self.take('{')
        items: list[Statement] = []
        while self.word() != '}':
            items += self.declaration() if self.word() in TYPES else [self.statement()]
        end = self.offset()
        self.take('}')
        return Block(tuple(items), end)

    def declaration(self) -> list[Statement]:
        declared = self.declarators()
        self.take(';')
        return declared

    def declarators(self) -> list[Statement]:
        kind = self.take_type()
        declared: list[Statement] = []
        while True:
            at, name = self.offset(), self.take_name()
            if self.word() == '[':
                declared.append(DeclaredArray(at, Array(kind, name, self.length())))
            else:
                declared.append(Declared(at, kind, name, self.value() if self.is_next('=') else None))
            if not self.is_next(','):
                return declared

    def value(self) -> Value:
        if self.word(1) == '(' and self.word() not in ('input', '(', '-', '+'):
            return self.call()
        return self.expression()

    def call(self) -> Call:
        at, name = self.offset(), self.take_name()
        self.take('(')
        arguments: list[Expression] = []
        while not self.is_next(')'):
            arguments.append(self.expression())
            if self.word() != ')':
                self.take(',')
        return Call(at, name, tuple(arguments))

    def element(self) -> Element:
        at, name = self.offset(), self.take_name()
        self.take('[')
        index = self.expression()
        self.take(']')
        return Element(at, name, index)

    def assignment(self) -> Assigned | Written:
        at, one = self.offset(), Literal(1, 'int')
        if self.word(1) == '[':
            element = self.element()
            self.take('=')
            return Written(at, element, self.value())
        for sign in ('++', '--'):
            if self.is_next(sign):
                name = self.take_name()
                return Assigned(at, name, Binary(sign[0], Read(name), one))
        name, sign = self.take_name(), self.word()
        self.at += 1
        if sign == '=':
            return Assigned(at, name, self.value())
        if sign in ASSIGNMENTS:
            return Assigned(at, name, Binary(sign[0], Read(name), self.expression()))
        if sign in ('++', '--'):
            return Assigned(at, name, Binary(sign[0], Read(name), one))
        self.at -= 1
        raise self.fault()

    def statement(self) -> Statement:
        at, word = self.offset(), self.word()
        if word == '{':
            return self.block()
        if word in ('if', 'while', 'for', 'switch', 'assert', 'assume'):
            self.at += 1
            self.take('(')
            return self.with_head(at, word)
        if word in ('break', 'continue', 'return', ';'):
            self.at += 1
            return self.with_word(at, word)
        if self.word(1) == '(':
            done: Statement = Called(at, self.call())
        else:
            done = self.assignment()
        self.take(';')
        return done

    def with_word(self, at: int, word: str) -> Statement:
        """The statement that this word begins, which is read."""
        if word == ';':
            return Nothing(at)
        done: Statement = Jump(at, word)
        if word == 'return':
            done = Return(at, None if self.word() == ';' else self.value())
        self.take(';')
        return done

    def with_head(self, at: int, word: str) -> Statement:
        """The statement that this word begins, which is read with its parenthesis."""
        if word == 'for':
            return self.for_loop(at)
        if word == 'switch':
            return self.switch(at)
        condition = self.condition()
        self.take(')')
        if word == 'while':
            return Loop(at, (), condition, None, self.statement())
        if word == 'if':
            so = self.statement()
            return Chosen(at, condition, so, self.statement() if self.is_next('else') else None)
        self.take(';')
        return Asked(at, word, condition)

    def for_loop(self, at: int) -> Loop:
        begin: list[Statement] = []
        if self.word() in TYPES:
            begin = self.declarators()
        elif self.word() != ';':
            begin = [self.assignment()]
        self.take(';')
        condition = self.truth(Literal(1, 'int')) if self.word() == ';' else self.condition()
        self.take(';')
        step = None if self.word() == ')' else self.assignment()
        self.take(')')
        return Loop(at, tuple(begin), condition, step, self.statement())

    def switch(self, at: int) -> Switch:
        value = self.expression()
        self.take(')')
        self.take('{')
        parts: list[Label | Statement] = []
        while not self.is_next('}'):
            if self.is_next('case'):
                parts.append(Label(self.take_number()))
                self.take(':')
            elif self.is_next('default'):
                parts.append(Label(None))
                self.take(':')
            else:
                parts.append(self.statement())
        return Switch(at, value, tuple(parts))

    def expression(self) -> Expression:
        return self.number(self.sum())

    def condition(self) -> Condition:
        return self.truth(self.either())

    def number(self, read: Expression | Condition) -> Expression:
        """What is read, where it is an expression."""
        if isinstance(read, (Compared, Not, And, Or)):
            raise self.fault()
        return read

    @staticmethod
    def truth(read: Expression | Condition) -> Condition:
        """What is read as a condition; a bare expression is one that isn't 0."""
        return read if isinstance(read, (Compared, Not, And, Or)) else Compared('!=', read, Literal(0, 'int'))

    def either(self) -> Expression | Condition:
        left = self.both()
        return Or(self.truth(left), self.truth(self.either())) if self.is_next('||') else left

    def both(self) -> Expression | Condition:
        left = self.comparison()
        return And(self.truth(left), self.truth(self.both())) if self.is_next('&&') else left

    def comparison(self) -> Expression | Condition:
        left, sign = self.sum(), self.word()
        if not self.is_next(*COMPARISONS):
            return left
        return Compared(sign, self.number(left), self.number(self.sum()))

    def sum(self) -> Expression | Condition:
        left, sign = self.product(), self.word()
        while self.is_next('+', '-'):
            left = Binary(sign, self.number(left), self.number(self.product()))
            sign = self.word()
        return left

    def product(self) -> Expression | Condition:
        left, sign = self.operand(), self.word()
        while self.is_next('*', '/', '%'):
            left = Binary(sign, self.number(left), self.number(self.operand()))
            sign = self.word()
        return left

    def operand(self) -> Expression | Condition:
        if self.is_next('!'):
            return Not(self.truth(self.operand()))
        if self.is_next('+'):
            return self.number(self.operand())
        if self.is_next('-'):
            return Negated(self.number(self.operand()))
        if self.is_next('('):
            inner = self.either()
            self.take(')')
            return inner
        if self.is_next('input'):
            self.take('(')
            self.take(')')
            return Input()
        if (value := literal(self.word())) is not None:
            self.at += 1
            return Literal(value, literal_type(self.words[self.at - 1], value))
        return self.element() if self.word(1) == '[' else Read(self.take_name())


def read_program(source: Source, needed: tuple[str, ...] = ('main',)) -> Program:
    """The program of a source, which defines these functions."""
    return Reader(source).program(needed)
