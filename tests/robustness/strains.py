#!/usr/bin/env python3
"""What strains: programs that would double without end, deep loops and conditions, numbers and lists past their range.

    tests/robustness/strains.py [PROGRAM]

Where nothing else is said a run has one second of processor time.
"""
from collections.abc import Iterator
from itertools import chain, islice

from trial import case, ended, refused

BOX = 'analyse --domain box'
M = 2 ** 127 - 1


def doubled(times: int) -> str:
    """Each function calls the one before it twice: two to the `times` calls of `f0`."""
    lines = ['void f0(void){;}'] + [f'void f{k}(void){{ f{k - 1}(); f{k - 1}(); }}' for k in range(1, times + 1)]
    return '\n'.join(lines + [f'int main(void){{ f{times}(); }}'])


def called_points(number: int) -> Iterator[tuple[int, int]]:
    """The places of the points of a call of the function of that number in `doubled`."""
    line = number + 1
    if number == 0:
        yield from ((1, 15), (1, 16))
        return
    first = len(f'void f{number}(void){{ ') + 1
    width = len(f'f{number - 1}(); ')
    for call in range(2):
        yield line, first + call * width
        yield from called_points(number - 1)
    yield line, first + 2 * width


def point_past(times: int) -> str:
    """The place of point 2,049 of `doubled`, as the refusal writes it: the first point is the call in `main`."""
    points = chain([(times + 2, len('int main(void){ ') + 1)], called_points(times))
    return '%d:%d' % next(islice(points, 2048, None))


def doubled_in_loop(parts: int) -> str:
    """The report of 127 doublings in a loop: nothing is known from the loop on."""
    lost = '  row true\n  gen point x=0\n  gen line x=1\n'
    places = [27] + [43 + 7 * k for k in range(127)] + [932, 934]
    points = ''.join(f'point {k + 2} main 1:{place}\n{lost}' for k, place in enumerate(places))
    return (f'analysis poly parts {parts} delay 1 narrow 1 limited no\nflagged at point 129\n'
            f'point 1 main 1:22\n  row true\n  gen point\n{points}verdicts proved 0 unknown 0\n')


def nest(depth: int) -> str:
    """Loops in loops, left at any time."""
    return 'int main(void){ ' + 'while(input()){ ' * depth + '}' * depth + ' }'


def counters(depth: int) -> str:
    """Counters to ten, one in the other."""
    heads = ''.join(f'long i{k}=0; while(i{k}<10){{ ' for k in range(depth))
    return 'int main(void){ ' + heads + ''.join(f'i{k}=i{k}+1; }}' for k in reversed(range(depth))) + ' }'


def alternations(count: int) -> str:
    """So many comparisons, by turns before `||` and `&&`."""
    return ''.join(f'a<{k} {"&&" if k % 2 else "||"} ' for k in range(count)) + 'b<1'


def grouped(count: int) -> str:
    """As many alternations, one inside the other: what holds is 0 < x."""
    return '(0<x||(x<9&&' * (count // 2) + '0<x' + '))' * (count // 2)


def cross_polytope(dims: int) -> str:
    """The hull of the points that have 1 or -1 on one axis has two to the `dims` inequalities; is the origin in it?"""
    points = [[sign if column == axis else 0 for column in range(dims)] for axis in range(dims) for sign in (1, -1)]
    listed = ' ; '.join('point 1 ' + ' '.join(map(str, point)) for point in points)
    return f'dims {dims}\ngen P {listed}\nholds P 1' + ' 0' * dims + '\n'


def cube(names: str) -> str:
    """Each of the variables may be from 0 to 1: two to their number of points."""
    lines = (f'long {name}=input(); assume({name}>=0&&{name}<=1);' for name in names)
    return 'int main(void){ ' + ' '.join(lines) + ' }'


def unknown(names: str) -> str:
    """Each of the variables is an `int` that may have any value: two to their number of points."""
    return 'int main(void){ int ' + ', '.join(names) + '; }'


# texts that open what they don't close
refused('65,536 opening parentheses', '(' * 65536, 'refused 4 Syntax at 1:1')
refused('a comment without an end', '/*' + 'x' * 65000, 'refused 4 Syntax at 1:1')
refused('65,500 opening braces', 'int main(void){' + '{' * 65500, 'refused 5 TooDeep at 1:79')
refused('65,500 negations', 'int main(void){ assert(' + '!' * 65500, 'refused 5 TooDeep at 1:87')
for type in ('long', 'int'):
    case(f'a form of 31,000 terms, {type}', BOX, f'int main(void){{ {type} x=1' + '+1' * 30999 + ';}', 0,
         holds=['  row x = 31000\n'])

# calls that double
for times in (3, 8):
    case(f'2 to the {times} calls', BOX, doubled(times), 0, lacks=['flagged at'])
for times in (11, 30):
    refused(f'2 to the {times} calls', doubled(times), f'refused 13 TooManyPoints at {point_past(times)}')

# loops in loops, and conditions of many parts
for depth in (1, 2, 4, 8, 16, 30, 45, 60):
    case(f'{depth} loops in each other', BOX, nest(depth), 0, holds=['\nflagged 0\n'])
for depth in (1, 4, 8):
    case(f'{depth} counters in each other', BOX, counters(depth), 0, holds=['\nflagged 0\n'])
for count in (14, 30, 60):
    case(f'{count} alternations in turn', BOX, 'int main(void){ long a,b; if(' + alternations(count) + ') ; }', 0)
    case(f'{count} alternations in each other', BOX, 'int main(void){ long x; assume(' + grouped(count) + ');}', 0,
         holds=['\n  row x >= 1\n'])

# lists and numbers at their limits and past them
case('a cross-polytope of 12 dimensions', 'calc', cross_polytope(12), 0, whole='holds P yes\nflagged 0\n')
case('a cross-polytope of 13 dimensions', 'calc', cross_polytope(13), 0, whole='holds P yes\nflagged at line 2\n')
case('numbers that pass only by themselves', 'calc',
     f'dims 2\ncon P = 0 1 0 ; = 0 0 1 ; >= 1 {M} 1 ; >= 1 1 {M}\nshow P\n', 0,
     whole='show P\n  row x1 = 0\n  row x2 = 0\n  gen point x1=0 x2=0\nflagged 0\n')
case('a loop that doubles', 'analyse', 'int main(void){ long x=1; while(input()) x=x+x; }', 0,
     holds=['\nflagged 0\n', 'point 2 main 1:27\n  row x >= 1\n  gen point x=1\n  gen ray x=1\npoint 3 '])
DOUBLINGS = 'int main(void){ long x=1;%s }'
TOP = 2 ** 126
case('126 doublings', 'analyse', DOUBLINGS % (' x=x+x;' * 126), 0,
     holds=['\nflagged 0\n', f'point 128 main 1:909\n  row x = {TOP}\n  gen point x={TOP}\n'])
case('127 doublings', 'analyse', DOUBLINGS % (' x=x+x;' * 127), 0,
     holds=['\nflagged at point 128\n', 'point 129 main 1:916\n  row true\n  gen point x=0\n  gen line x=1\n'])
LOOP = 'int main(void){ long x=1; while(input()){' + ' x=x+x;' * 127 + ' } }'
for parts in (1, 16):
    case(f'127 doublings in a loop, {parts} parts', f'analyse --parts {parts}', LOOP, 0,
         whole=doubled_in_loop(parts))
case('a cube of 12 dimensions', 'analyse', cube('abcdefghijkl'), 0, holds=['\nflagged 0\n'], limit=10)
case('a cube of 13 dimensions', 'analyse', cube('abcdefghijklm'), 0, holds=['\nflagged at point 26\n'], limit=10)
case('12 unknown ints', 'analyse', unknown('abcdefghijkl'), 0, holds=['\nflagged 0\n'], limit=10)
case('13 unknown ints', 'analyse', unknown('abcdefghijklm'), 0, holds=['\nflagged at point 13\n'], limit=10)
case('24 unknown ints over octagons', 'analyse --domain oct', unknown('abcdefghijklmnopqrstuvwx'), 0,
     holds=['\nflagged 0\n', '\n  row x >= -2147483648\n  row x <= 2147483647\nverdicts '])
case('an image whose number passes', 'calc', f'dims 1\ngen P point 1 {M}\nimage Q P 1 0 2\nshow Q\n', 0,
     whole='show Q\n  row true\n  gen point x1=0\n  gen line x1=1\nflagged at line 3\n')
case('an image whose number does not', 'calc', f'dims 1\ngen P point 1 {M}\nimage Q P 1 0 1\nshow Q\n', 0,
     whole=f'show Q\n  row x1 = {M}\n  gen point x1={M}\nflagged 0\n')
ended()
