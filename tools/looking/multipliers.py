"""Multipliers that show a row over premises, by exact numbers. Outside of what is proved: `lra verify` checks them."""
from dataclasses import dataclass
from fractions import Fraction
from math import lcm

from looking.moves import Action, Appear, Assign, Form, Forget, Test, Vanish

# A number for 1 and for each unknown of a path that occurs: by its column, of which 0 is that of 1.
Sum = dict[int, int]


@dataclass(frozen=True)
class Premise:
    """The sum is 0, or at least 0."""

    is_zero: bool
    sum: Sum


class Walk:
    """What the variables are along a path: sums of its unknowns, the variables of its source first."""

    def __init__(self, live: int, actions: tuple[Action, ...]) -> None:
        self.sums: list[Sum] = [{place: 1} for place in range(1, live + 1)]
        self.unknowns = live
        self.tests: list[Premise] = []
        for action in actions:
            self.do(action)

    def unknown(self) -> Sum:
        """A new one."""
        self.unknowns += 1
        return {self.unknowns: 1}

    def do(self, action: Action) -> None:
        match action:
            case Assign(place, form):
                self.sums[place] = self.composed(form)
            case Forget(place):
                self.sums[place] = self.unknown()
            case Appear(count):
                self.sums += [self.unknown() for _ in range(count)]
            case Vanish(count):
                del self.sums[len(self.sums) - count :]
            case Test(is_zero, form):
                self.tests.append(Premise(is_zero, self.composed(form)))

    def composed(self, form: Form) -> Sum:
        """A form over the variables, as one over the unknowns."""
        total: Sum = {0: form[0]}
        for factor, variable in zip(form[1:], self.sums):
            for column, number in variable.items():
                total[column] = total.get(column, 0) + factor * number
        return total


class Simplex:
    """How often each of some columns is taken, at least 0 times, to make a wanted one: the first phase of the simplex
    method by Bland's rule. Each row begins with a column of its own, which makes what is left. All numbers of the table
    are whole ones over one divisor."""

    def __init__(self, columns: list[list[int]], wanted: list[int]) -> None:
        self.count, self.signs = len(columns), [-1 if number < 0 else 1 for number in wanted]
        self.table = [
            [sign * number for number in numbers] + unit(row, len(wanted)) + [abs(wanted[row])]
            for row, (sign, numbers) in enumerate(zip(self.signs, zip(*columns)))
        ]
        self.basis = [self.count + row for row in range(len(wanted))]
        self.left = [sum(numbers) for numbers in zip(*self.table)]
        self.left[self.count : -1] = [0] * len(wanted)
        self.divisor = 1
        while (column := self.entering()) is not None:
            self.enter(column, self.leaving(column))

    def entering(self) -> int | None:
        return next((column for column in range(self.count) if self.left[column] > 0), None)

    def leaving(self, column: int) -> int:
        rows = [row for row, numbers in enumerate(self.table) if numbers[column] > 0]
        return min(rows, key=lambda row: (Fraction(self.table[row][-1], self.table[row][column]), self.basis[row]))

    def enter(self, column: int, row: int) -> None:
        """The column is taken in place of the row's."""
        chosen = self.table[row]
        factor, divisor = chosen[column], self.divisor
        for place, numbers in enumerate([*self.table, self.left]):
            if place != row:
                times = numbers[column]
                numbers[:] = [(factor * one - times * other) // divisor for one, other in zip(numbers, chosen)]
        self.basis[row], self.divisor = column, factor

    def solution(self) -> list[Fraction] | None:
        """How often each column is taken; none where there is no way."""
        if self.left[-1]:
            return None
        taken = [Fraction(0)] * self.count
        for row, column in enumerate(self.basis):
            if column < self.count:
                taken[column] = Fraction(self.table[row][-1], self.divisor)
        return taken

    def against(self) -> list[int]:
        """Where there is no way: numbers whose product with no column is below 0, and with the wanted one is."""
        return [-sign * (self.divisor + self.left[self.count + row]) for row, sign in enumerate(self.signs)]


def unit(place: int, count: int) -> list[int]:
    return [int(place == column) for column in range(count)]


@dataclass(frozen=True)
class Shown:
    """A divisor, the number for 1 and those for the premises: a line of a certificate."""

    numbers: tuple[int, ...]


@dataclass(frozen=True)
class Against:
    """What the premises allow and the claim doesn't: values of the unknowns, or a direction, along which any number of
    steps is allowed."""

    is_point: bool
    values: dict[int, Fraction]


def show(premises: list[Premise], claim: Sum) -> Shown | Against:
    """Multipliers by which the premises give that the claim is at least 0, or what is against it."""
    sums = [{0: 1}, *(premise.sum for premise in premises)]
    backwards = [place for place, premise in enumerate(premises, 1) if premise.is_zero]
    rows = sorted({0, *claim, *(column for one in sums for column in one)})
    columns = [[one.get(row, 0) for row in rows] for one in sums]
    columns += [[-number for number in columns[place]] for place in backwards]
    simplex = Simplex(columns, [claim.get(row, 0) for row in rows])
    taken = simplex.solution()
    if taken is None:
        vector = dict(zip(rows, simplex.against()))
        scale = vector.pop(0)
        return Against(scale != 0, {row: Fraction(number, scale or 1) for row, number in vector.items()})
    for place, back in zip(backwards, taken[len(sums) :]):
        taken[place] -= back
    divisor = lcm(*(number.denominator for number in taken))
    return Shown((divisor, *(int(divisor * number) for number in taken[: len(sums)])))
