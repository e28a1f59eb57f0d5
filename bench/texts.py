"""Inputs that several benches share: scripts for `lra calc` and sources in C, the same on each machine.

What is drawn has a seed: 1, 2, ..
"""
from collections.abc import Iterable, Iterator

MODULUS, FACTOR = 2147483647, 16807
SCRIPT_BYTES = 59_900


class Draw:
    """Numbers drawn from a seed, and the parts of scripts that are made of them."""

    def __init__(self, seed: int) -> None:
        self.state = seed * 7919 + 1
        for _ in range(9):
            self.number(0, 1)

    def number(self, low: int, high: int) -> int:
        """A number between two, both included."""
        self.state = self.state * FACTOR % MODULUS
        return low + self.state % (high - low + 1)

    def numbers(self, count: int, low: int, high: int) -> list[int]:
        """So many numbers between two."""
        return [self.number(low, high) for _ in range(count)]

    def two(self, count: int, first: int, second: int) -> list[int]:
        """So many numbers, 0 but at two places, which are drawn."""
        a = self.number(1, count)
        b = 1 + (a + self.number(0, count - 2)) % count
        return [first if k == a else second if k == b else 0 for k in range(1, count + 1)]

    def half_space(self, count: int) -> str:
        """A constraint on two variables, which are drawn."""
        most = self.number(2, 8)
        sign = 1 if self.number(0, 1) else -1
        return f'>= {most} {joined(self.two(count, -1, sign))}'

    def place(self, count: int) -> str:
        """A point with two coordinates that aren't 0, which are drawn."""
        first, second = self.number(1, 9), self.number(1, 9)
        return f'point 1 {joined(self.two(count, first, second))}'


def joined(numbers: Iterable[int]) -> str:
    """The numbers as a script writes them."""
    return ' '.join(map(str, numbers))


def unit(count: int, place: int, number: int = 1) -> str:
    """So many numbers, 0 but at one place; the first place is 1."""
    return joined(number if k == place else 0 for k in range(1, count + 1))


def simplex(count: int, most: int) -> str:
    """No variable below 0, and their sum at most a number."""
    rows = [f'>= 0 {unit(count, k)}' for k in range(1, count + 1)]
    return ' ; '.join([*rows, f'>= {most} {joined([-1] * count)}'])


# scripts --------------------------------------------------------------------------------------------------------------


def script(dims: int, *lines: str) -> str:
    """A script over so many variables."""
    return ''.join(f'{line}\n' for line in (f'dims {dims}', *lines))


def cyclic(dims: int, count: int) -> str:
    """The points (t, t^2, .., t^dims) for t from 1 to the count."""
    points = [f'point 1 {joined(t ** k for k in range(1, dims + 1))}' for t in range(1, count + 1)]
    return script(dims, f'gen P {" ; ".join(points)}')


def cube_constraints(dims: int) -> str:
    """The constraints 0 <= x_k <= 1."""
    rows = [f'>= 0 {unit(dims, k)} ; >= 1 {unit(dims, k, -1)}' for k in range(1, dims + 1)]
    return script(dims, f'con P {" ; ".join(rows)}')


def cube_points(dims: int) -> str:
    """The corners of that cube."""
    points = [f'point 1 {joined(c >> j & 1 for j in range(dims))}' for c in range(2 ** dims)]
    return script(dims, f'gen P {" ; ".join(points)}')


def cross_points(dims: int) -> str:
    """The points with one coordinate 1 or -1 and the others 0."""
    points = [f'point 1 {unit(dims, k)} ; point 1 {unit(dims, k, -1)}' for k in range(1, dims + 1)]
    return script(dims, f'gen P {" ; ".join(points)}')


def cross_constraints(dims: int) -> str:
    """The 2^dims constraints of that cross-polytope."""
    rows = [f'>= 1 {joined(1 - 2 * (c >> j & 1) for j in range(dims))}' for c in range(2 ** dims)]
    return script(dims, f'con P {" ; ".join(rows)}')


def hulls(dims: int, *more: str) -> str:
    """The cube by hulls: from the point 0, for each variable the hull with the image by one more."""
    steps = [f'image Q P {k} 1 {unit(dims, k)}\nhull P P Q' for k in range(1, dims + 1)]
    return script(dims, f'gen P point 1 {unit(dims, 0)}', *steps, *more)


def forgotten(dims: int) -> str:
    """Each variable of that cube forgotten."""
    return hulls(dims, *(f'forget F P {k}' for k in range(1, dims + 1)))


def meets(dims: int) -> str:
    """The cube by meets: for each variable with its two bounds."""
    lines = []
    for k in range(1, dims + 1):
        lines.append(f'con {"Q" if k > 1 else "P"} >= 0 {unit(dims, k)} ; >= 1 {unit(dims, k, -1)}')
        lines += ['meet P P Q'] if k > 1 else []
    return script(dims, *lines)


def points(dims: int, count: int, seed: int) -> str:
    """So many points with coordinates from -9 to 9."""
    draw = Draw(seed)
    return script(dims, f'gen P {" ; ".join(f"point 1 {joined(draw.numbers(dims, -9, 9))}" for _ in range(count))}')


def rows(dims: int, count: int, seed: int) -> str:
    """So many constraints with numbers from -9 to 9, and a constant from 1 to 9: so 0 is inside."""
    draw = Draw(seed)
    drawn = [f'>= {draw.number(1, 9)} {joined(draw.numbers(dims, -9, 9))}' for _ in range(count)]
    return script(dims, f'con P {" ; ".join(drawn)}')


def chain(dims: int, seed: int) -> str:
    """105 operations in seven rounds, each on what the one before made.

    A round: four times a meet with a half-space and a hull with a point; an image; a variable forgotten; the meet with
    a simplex larger than the last one; time along a way; the meets with a half-space and with the simplex; the hull
    with the simplex.
    """
    draw = Draw(seed)
    lines = [f'con P {simplex(dims, 9)}']
    for turn in range(1, 8):
        lines.append(f'con T {simplex(dims, 9 + turn)}')
        for _ in range(4):
            lines += [f'con M {draw.half_space(dims)}', 'meet P P M', f'gen H {draw.place(dims)}', 'hull P P H']
        moved = draw.number(1, dims)
        lines += [f'image P P {moved} 1 {unit(dims, moved)}', f'forget P P {draw.number(1, dims)}', 'meet P P T']
        lines += [f'gen D point 1 {joined(draw.two(dims, 1, 1))}', 'elapse P P D']
        lines += [f'con M {draw.half_space(dims)}', 'meet P P M', 'meet P P T', 'hull P P T']
    return script(dims, *lines)


def small(dims: int, seed: int) -> str:
    """60,000 bytes of small operations over a simplex, eight half-spaces, eight points and eight ways."""
    draw = Draw(seed)
    lines = [f'con T {simplex(dims, 9)}']
    for k in range(8):
        lines += [f'con M{k} {draw.half_space(dims)}', f'gen H{k} {draw.place(dims)}']
        lines.append(f'gen D{k} point 1 {joined(draw.two(dims, 1, 1))}')
    text = script(dims, *lines)
    while len(text) < SCRIPT_BYTES:
        text += f'meet P T M{draw.number(0, 7)}\nhull P P H{draw.number(0, 7)}\nelapse P P D{draw.number(0, 7)}\n'
        text += f'meet P P M{draw.number(0, 7)}\nforget P P {draw.number(1, dims)}\nmeet P P M{draw.number(0, 7)}\n'
    return text


def loop_sets(dims: int) -> str:
    """The sets of a loop: the head H, all variables 0; the guard G; the bounds B; the way D that time takes."""
    lower = [f'>= 0 {unit(dims, k)}' for k in range(1, dims + 1)]
    upper = [f'>= 20 {unit(dims, k, -1)}' for k in range(1, dims + 1)]
    return script(dims, f'gen H point 1 {unit(dims, 0)}', f'con G >= 9 {unit(dims, 1, -1)}',
                  f'con B {" ; ".join([*lower, *upper])}', f'gen D point 1 1{" 2" * (dims - 1)}')


def loop(rounds: int, dims: int) -> str:
    """Six operations a round; the forgetting lets one variable be anything in its bounds."""
    return loop_sets(dims) + ''.join(
        f'meet N H G\nelapse N N D\nmeet N N B\nforget N N {2 + k % (dims - 1)}\nmeet N N B\nhull H H N\n'
        for k in range(rounds))


def segments(rounds: int, dims: int) -> str:
    """Five operations a round, on segments all but one; nothing reads what that one makes."""
    return loop_sets(dims) + 'meet N H G\nelapse N N D\nmeet N N B\nhull H H N\nforget F H 3\n' * rounds


# sources --------------------------------------------------------------------------------------------------------------


def main_of(*statements: str) -> str:
    """A source of one function."""
    return f'int main(void){{ {"".join(statements)}}}'


def nested(depth: int, start: str, test: str) -> str:
    """So many loops over four variables, each with a counter.

    The start stands before each loop; `@` is the number of its counter there and in the test.
    """
    opened = ''.join(f'{start.replace("@", str(k % 4))}while({test.replace("@", str(k % 4))}){{' for k in range(depth))
    return main_of('long v0,v1,v2,v3;', opened, *(f'v{k % 4}=v{k % 4}+1;}}' for k in reversed(range(depth))))


def nested_equal(depth: int) -> str:
    """Loops in loops; each inner loop begins with equal values in each round."""
    return nested(depth, 'v0=0;v1=0;v2=0;v3=0;', 'input()')


def nested_counting(depth: int) -> str:
    """Loops in loops; each inner loop begins with what the outer ones count."""
    return nested(depth, 'v@=0;', 'v@<9')


def stepped(count: int) -> str:
    """A loop that steps each variable by one at most, if it is below the one before it."""
    steps = ''.join(f'if(input()&&v{k}<v{k - 1})v{k}=v{k}+1;' for k in range(1, count))
    start = ','.join(f'v{k}=0' for k in range(count))
    return main_of(f'long {start};while(v0<100){{v0=v0+1;{steps}}}assert(v{count - 1}<=100);')


def branches(count: int, asserted: str = 'v0<=v0') -> str:
    """Each branch moves one of four variables up or down."""
    moves = [f'if(input())v{k % 4}=v{k % 4}+{k % 7 + 1};else v{k % 4}=v{k % 4}-{k % 5 + 1};' for k in range(count)]
    return main_of('long v0=0,v1=0,v2=0,v3=0;', *moves, f'assert({asserted});')


def sample_draws(seed: int) -> Iterator[int]:
    """The draws of `lra sample`: the upper 31 bits of a state of 64."""
    state = seed
    while True:
        state = (state * 6364136223846793005 + 1442695040888963407) % 2 ** 64
        yield state >> 33


def sampled(seed: int, blocks: int, asserted: str = 'v0<=v0') -> str:
    """The source of `lra sample`."""
    draws = sample_draws(seed)
    lines = ['int main(void){', *(f'long v{k}=0;' for k in range(4))]
    for _ in range(blocks):
        kind, p, q, c = (drawn % most for most, drawn in zip((4, 4, 4, 100), draws))
        lines.append((
            f'v{p}=v{q}+{c};',
            f'if(v{p}<{c})v{q}=v{q}+1;else v{q}={c};',
            f'v{p}=0;while(v{p}<{c})v{p}=v{p}+1;',
            f'v{p}=input();assume(v{p}>=0&&v{p}<={c});',
        )[kind])
    return '\n'.join([*lines, f'assert({asserted});', '}', ''])


def in_step(count: int) -> str:
    """A loop that moves all variables by 1, so their differences stay."""
    start = ''.join(f',v{k}=v0+{k}' for k in range(1, count))
    return main_of(f'long v0=input(){start};while(input()){{', *(f'v{k}=v{k}+1;' for k in range(count)), '}')


def crossed(count: int) -> str:
    """One variable becomes 1 or -1, the others stay 0: after all branches, a cross-polytope."""
    start = ','.join(f'v{k}=0' for k in range(count))
    moves = [f'v{k // 2}={1 - k % 2 * 2};' for k in range(2 * count)]
    return main_of(f'long {start};', 'else '.join(f'if(input()){move}' for move in moves[:-1]), f'else {moves[-1]}')
