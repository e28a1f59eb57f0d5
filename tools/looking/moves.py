"""Moves: what a statement does to linear forms of its variables, and the sides of a condition. Outside of what is
proved; `docs/CERTIFICATES.md` tells it under Paths."""
from collections.abc import Callable, Iterable
from dataclasses import dataclass

from looking.programs import And, Binary, Compared, Condition, Element, Expression, Input, Literal, Negated, Not, Read
from looking.reports import Fault

# A constant, then a coefficient for each live variable.
Form = tuple[int, ...]
LEAST, GREATEST = -(2**63), 2**63 - 1
INT_LEAST, INT_GREATEST = -(2**31), 2**31 - 1
MOST_PATHS = 1024
OPPOSITES = {'<': '>=', '>=': '<', '>': '<=', '<=': '>', '==': '!=', '!=': '=='}


@dataclass(frozen=True)
class Assign:
    place: int
    form: Form


@dataclass(frozen=True)
class Forget:
    place: int


@dataclass(frozen=True)
class Appear:
    """So many new variables, of any value."""

    count: int


@dataclass(frozen=True)
class Vanish:
    """The newest ones go."""

    count: int


@dataclass(frozen=True)
class Test:
    """The form is 0, or at least 0."""

    is_zero: bool
    form: Form


Action = Assign | Forget | Appear | Vanish | Test
# The sides of a move: what is done on each.
Sides = list[tuple[Action, ...]]
STAY: Sides = [()]


class TooMany(Exception):
    """More sides than are taken."""


def capped(sides: Sides) -> Sides:
    if len(sides) > MOST_PATHS:
        raise TooMany
    return sides


def then(first: Sides, *others: Sides) -> Sides:
    """One behind the other: the sides of the later are the outer ones."""
    for later in others:
        if len(first) * len(later) > MOST_PATHS:
            raise TooMany
        first = [one + other for other in later for one in first]
    return first


def fitting(numbers: Iterable[int]) -> Form | None:
    """The form, where all of it has 64 bits."""
    form = tuple(numbers)
    return form if all(LEAST <= number <= GREATEST for number in form) else None


def constant(live: int, value: int) -> Form:
    return (value,) + (0,) * live


def opposite(form: Form) -> Form | None:
    """-1 minus the form: at least 0 where the form is below 0."""
    return fitting(-number - (place == 0) for place, number in enumerate(form))


@dataclass(frozen=True)
class Division:
    """Its quotient t and what is left, r, as two variables behind the live ones."""

    numerator: Form
    opposite: Form
    divisor: int

    def cases(self, done: Action) -> Sides:
        """What is done where the numerator is at least 0, and where it is below."""
        zeros = constant(len(self.numerator) - 1, 0)
        left_over = Test(True, self.numerator + (-self.divisor, -1))
        most = (self.divisor - 1,) + zeros[1:]
        above = (Test(False, zeros + (0, 1)), Test(False, most + (0, -1)))
        below = (Test(False, most + (0, 1)), Test(False, zeros + (0, -1)))
        return [
            (Test(False, self.numerator), Appear(2), *above, left_over, done, Vanish(2)),
            (Test(False, self.opposite), Appear(2), *below, left_over, done, Vanish(2)),
        ]


@dataclass(frozen=True)
class Divided:
    """A form over the live variables and a division's two."""

    division: Division
    form: Form


# What is seen of a number; nothing where it may be any.
Seen = Form | Divided | None


# What each name means that is in scope: the place of a variable, or an array, which has none.
Meanings = dict[str, int | None]


@dataclass(frozen=True)
class Scope:
    """What the names mean, where so many variables live."""

    meanings: Meanings
    live: int

    def meaning(self, name: str) -> int | None:
        """That of a name, which has to be in scope."""
        if name not in self.meanings:
            raise Fault(f'no variable or array {name} is in scope')
        return self.meanings[name]

    def place(self, name: str) -> int:
        """The place of the variable with this name."""
        place = self.meaning(name)
        if place is None:
            raise Fault(f'{name} is an array, but has no index')
        return place

    def look_at(self, element: Element) -> None:
        """That there is such an element: nothing else is known of it."""
        if self.meaning(element.name) is not None:
            raise Fault(f'{element.name} is not an array, but has an index')
        self.form(element.index)

    def form(self, read: Expression) -> Form | None:
        """The linear form of an expression, where it has one."""
        if isinstance(read, Literal):
            return fitting(constant(self.live, read.value))
        if isinstance(read, Read):
            place = self.place(read.name) + 1
            return tuple(int(place == column) for column in range(self.live + 1))
        if isinstance(read, Input):
            return None
        if isinstance(read, Element):
            self.look_at(read)
            return None
        if isinstance(read, Negated):
            inner = self.form(read.operand)
            return None if inner is None else fitting(-number for number in inner)
        return combined(read.operator, self.form(read.left), self.form(read.right))

    def seen(self, read: Expression) -> Seen:
        form = self.form(read)
        if form is not None or not isinstance(read, Binary) or read.operator not in '/%':
            return form
        numerator, divisor = self.form(read.left), self.form(read.right)
        if numerator is None or divisor is None or any(divisor[1:]) or divisor[0] < 1:
            return None
        more, less = fitting((numerator[0] + 1,) + numerator[1:]), opposite(numerator)
        if more is None or less is None:
            return None
        shares = (1, 0) if read.operator == '/' else (0, 1)
        return Divided(Division(numerator, less, divisor[0]), constant(self.live, 0) + shares)

    def sides(self, condition: Condition, wanted: bool = True) -> Sides:
        """Those of a condition where it is true, or where it is false."""
        return Splitting(self).sides(condition, wanted)


def combined(operator: str, left: Form | None, right: Form | None) -> Form | None:
    """The form of a sum, a difference, or a product of which one side is constant."""
    if left is None or right is None:
        return None
    if operator == '+':
        return fitting(one + other for one, other in zip(left, right))
    if operator == '-':
        return fitting(one - other for one, other in zip(left, right))
    if operator == '*' and not any(left[1:]):
        return fitting(left[0] * number for number in right)
    if operator == '*' and not any(right[1:]):
        return fitting(number * right[0] for number in left)
    return None


def subtracted(left: Seen, right: Seen) -> Seen:
    """Nothing is seen of the difference of two divisions."""
    if left is None or right is None or (isinstance(left, Divided) and isinstance(right, Divided)):
        return None
    if isinstance(left, Divided):
        assert not isinstance(right, Divided)
        form = combined('-', left.form, right + (0, 0))
        return None if form is None else Divided(left.division, form)
    if isinstance(right, Divided):
        form = combined('-', left + (0, 0), right.form)
        return None if form is None else Divided(right.division, form)
    return combined('-', left, right)


def test_of(sign: str, form: Form) -> Test | None:
    """The test of a difference that is compared with 0, where it has 64 bits."""
    if sign == '==':
        return Test(True, form)
    ways: dict[str, Callable[[], Form | None]] = {
        '<': lambda: opposite(form),
        '<=': lambda: fitting(-number for number in form),
        '>': lambda: fitting((form[0] - 1,) + form[1:]),
        '>=': lambda: form,
    }
    tested = ways[sign]()
    return None if tested is None else Test(False, tested)


def compared(sign: str, difference: Seen) -> Sides:
    """A difference that is compared with 0."""
    if difference is None:
        return STAY
    if sign == '!=':
        return compared('<', difference) + compared('>', difference)
    if isinstance(difference, Divided):
        test = test_of(sign, difference.form)
        return STAY if test is None else difference.division.cases(test)
    test = test_of(sign, difference)
    return STAY if test is None else [(test,)]


class Splitting:
    """The sides of conditions in one scope; what stands in several of them is made once."""

    def __init__(self, scope: Scope) -> None:
        self.scope = scope
        self.made: dict[tuple[Condition, bool], Sides] = {}

    def sides(self, condition: Condition, wanted: bool) -> Sides:
        key = (condition, wanted)
        if key not in self.made:
            self.made[key] = capped(self.split(condition, wanted))
        return self.made[key]

    def split(self, condition: Condition, wanted: bool) -> Sides:
        if isinstance(condition, Not):
            return self.sides(condition.operand, not wanted)
        if isinstance(condition, Compared):
            sign = condition.sign if wanted else OPPOSITES[condition.sign]
            return compared(sign, subtracted(self.scope.seen(condition.left), self.scope.seen(condition.right)))
        left, right = self.sides(condition.left, wanted), condition.right
        if isinstance(condition, And) == wanted:
            return then(left, self.sides(right, wanted))
        return left + then(self.sides(condition.left, not wanted), self.sides(right, wanted))


def within(kind: str, place: int, live: int) -> Sides:
    """Behind what gives a variable of this type a value: an `int` has 32 bits."""
    if kind != 'int':
        return STAY
    unit = tuple(int(column == place) for column in range(live))
    return [(Test(False, (-INT_LEAST, *unit)), Test(False, (INT_GREATEST, *(-number for number in unit))))]


def given(kind: str, place: int, live: int, seen: Seen) -> Sides:
    """The variable gets what is seen."""
    if seen is None:
        done: Sides = [(Forget(place),)]
    elif isinstance(seen, Divided):
        done = seen.division.cases(Assign(place, seen.form))
    else:
        done = [(Assign(place, seen),)]
    return then(done, within(kind, place, live))


def appended(kind: str, live: int) -> Sides:
    """A new variable of this type behind so many."""
    return then([(Appear(1),)], within(kind, live, live + 1))


def kept(live: int, count: int) -> Sides:
    """The variables behind the first ones go."""
    return [(Vanish(live - count),)] if live > count else STAY


def pushed(kind: str, live: int, seen: Seen) -> Sides:
    """A new variable of this type behind so many, with this value, over one variable more."""
    return then([(Appear(1),)], given(kind, live, live + 1, seen))


def unmatched(seen: Seen, live: int, values: Iterable[int]) -> Sides:
    """What is seen has none of these values."""
    return then(STAY, *(valued(seen, live, value, '!=') for value in values))


def valued(seen: Seen, live: int, value: int, sign: str = '==') -> Sides:
    """What is seen has this value, or another one."""
    return compared(sign, subtracted(seen, constant(live, value)))
