#!/usr/bin/env python3
"""Certificates: every front of one, inputs at the limit and past it, long lines and many of them, conditions with as many sides as are
taken and with one more, numbers at the ends of their range; and certificates that are written: wide, deep, with many points.

    tests/robustness/certificates.py [PROGRAM]
"""
from levels import IF, SINGLE, stacked
from trial import answer, case, ended, tell

MOST = 2 ** 24
GREATEST = 2 ** 127 - 1
SOURCE = 'int main(void){ long x; x = 3; assert(x >= 3); }'


def headed(source: str) -> str:
    return f'certificate bytes {len(source)}\n{source}\n'


def verified(name: str, text: str, points: int, proved: int, limit: float = 1.0) -> None:
    case(name, 'verify', text, 0, whole=f'verified points {points} proved {proved}\n', limit=limit)


def refused(name: str, text: str, told: str, limit: float = 1.0) -> None:
    case(name, 'verify', text, 2, whole=f'refused {told}\n', limit=limit)


def certified(name: str, source: str, points: int, limit: float = 1.0) -> None:
    """A certificate is written, and verified."""
    ended_with, text, seconds = answer('certify', source)
    agrees = ended_with == 0 and text.startswith(headed(source)) and text.endswith('\nend\n')
    tell(f'{name} certified ({seconds:.2f} s)', agrees and seconds <= limit, (ended_with, text[:100], f'limit {limit} s'))
    verified(name, text, points, text.count('\nassert '), limit)


def uncertified(name: str, source: str, told: str, limit: float = 1.0) -> None:
    """None is written."""
    case(f'{name} uncertified', 'certify', source, 2, whole=f'refused {told}\n', limit=limit)


def assumed(condition: str) -> str:
    """A certificate without rows, up to the paths of this condition."""
    return headed(f'int main(void){{ long a; assume({condition}); }}') + 'point 1\npoint 2\npoint 3\nedge 0 1\nedge 1 2\n'


def alternating(count: int) -> str:
    """So many signs, `||` and `&&` in turn."""
    condition = 'a<0'
    for k in range(1, count + 1):
        condition = f'a<{k}||{condition}' if k % 2 else f'a>{k}&&({condition})'
    return condition


HEAD = headed(SOURCE)
LINES = ('point 1\npoint 2\npoint 3\n  = -3 1\npoint 4\n  = -3 1\nedge 0 1\nedge 1 2\nedge 2 3\nby 1 0\nby 1 0\n'
         'edge 3 4\nby 1 0 1 0\nby 1 0 -1 0\nassert 3\ndead 1 0 1 1\nend\n')
WHOLE = HEAD + LINES

# every front lacks the line in which it ends
verified('the whole', WHOLE, 4, 1)
for length in range(len(WHOLE)):
    place = WHOLE.count('\n', len(HEAD), length) + 1 if length >= len(HEAD) else 0
    refused(f'its first {length} bytes', WHOLE[:length], f'line {place} BadLine')

# the most bytes that are taken, and one more
refused('spaces behind it up to the limit', WHOLE.ljust(MOST), 'line 18 BadLine', limit=5.0)
refused('line feeds behind it up to the limit', WHOLE.ljust(MOST, '\n'), 'line 18 BadLine', limit=5.0)
refused('one byte past the limit', WHOLE.ljust(MOST + 1), 'line 0 TooLong', limit=5.0)
refused('16 MB of line feeds behind the source', HEAD.ljust(MOST, '\n'), 'line 1 BadLine', limit=5.0)
refused('one line of 16 MB', HEAD.ljust(MOST, '7'), 'line 1 BadLine', limit=5.0)
refused('a source of 16 MB', headed(' ' * (MOST - 28)), '1 TooLong at 1:65537', limit=5.0)
refused('a count of 16 million digits', 'certificate bytes '.ljust(MOST, '9'), 'line 0 BadLine', limit=5.0)
refused('a number of 16 million digits', (HEAD + 'point 1\n  >= ').ljust(MOST - 1, '9') + '\n', 'line 2 BadLine', limit=5.0)
refused('8 million numbers in a row', HEAD + 'point 1\n  >=' + ' 1' * ((MOST - len(HEAD) - 13) // 2) + '\n', 'line 2 BadLine',
        limit=5.0)
rows = (MOST - len(HEAD) - 8) // len('  >= 1\n')
refused('two million rows of one point', HEAD + 'point 1\n' + '  >= 1\n' * rows, f'line {rows + 2} BadLine', limit=5.0)

# bytes that no line has
for name, line in (('a zero byte', 'point 1\0\n'), ('a letter beyond ASCII', 'point \u00e9\n'), ('a carriage return', 'point 1\r\n'),
                   ('a tab', 'point\t1\n'), ('a number that begins with 0', 'point 01\n'), ('no number', 'point\n'),
                   ('a number past every range', f'point {10 ** 60}\n')):
    refused(name, HEAD + line + LINES[8:], 'line 1 BadLine')

# the ends of the range
for number, told in ((GREATEST, 'line 10 Wide'), (-GREATEST, 'line 10 NotRow'), (GREATEST + 1, 'line 4 BadLine'),
                     (-GREATEST - 1, 'line 4 BadLine')):
    refused(f'a row of {number}', WHOLE.replace('  = -3 1', f'  = {number} 1', 1), told)
refused('a divisor past the range by its row', WHOLE.replace('by 1 0 1 0', f'by {GREATEST} 0 {GREATEST} 0'), 'line 13 Wide')
refused('the same below 0', WHOLE.replace('by 1 0 -1 0', f'by -{GREATEST} 0 1 0'), 'line 14 Wide')

# as many sides as are taken, and one more
for count, condition in ((1024, '||'.join(f'a<{k}' for k in range(1024))), (1024, '&&'.join(f'a!={k}' for k in range(10))),
                         (33, alternating(64)), (1, '&&'.join(f'a>{k}' for k in range(7000))),
                         (1024, '&&'.join(['(a<0||a>9)'] * 10)), (1, '!(' * 30 + 'a<0' + ')' * 30)):
    verified(f'{count} paths of {condition[:20]}..', assumed(condition) + 'edge 2 3\n' * count + 'end\n', 3, 0)
for condition in ('||'.join(f'a<{k}' for k in range(1025)), '&&'.join(f'a!={k}' for k in range(11)),
                  '&&'.join(f'a!={k}' for k in range(5000)), '&&'.join(['(a<0||a>9)'] * 5000)):
    refused(f'too many paths of {condition[:20]}..', assumed(condition), 'paths at point 2')

# certificates written: wide, deep, with many points, with as many paths as are taken, and more
NAMES = [f'v{k}' for k in range(32)]
certified('32 variables of any value', f'int main(void){{ long {",".join(NAMES)}; }}', 33)
certified('32 variables set to numbers', f'int main(void){{ long {",".join(f"{name}=1" for name in NAMES)}; }}', 33)
certified('12 ints of any value', f'int main(void){{ int {",".join(NAMES[:12])}; }}', 13)
certified('2,048 points', f'int main(void){{ {";" * 2047} }}', 2048)
for word, level in SINGLE.items():
    if level[1] == 1:
        certified(f'32 functions of 62 {word}', stacked(level, 62, 32), 2048, limit=5.0)
certified('32 functions of 60 if, each with a variable', stacked(IF, 60, 32, begins='long v; '), 2016, limit=2.0)
for count, condition in ((50, '||'.join(f'a<{k}' for k in range(50))), (1024, '&&'.join(f'a!={k}' for k in range(10))),
                         (1024, '&&'.join(['(a<0||a>9)'] * 10)), (1, '!(' * 30 + 'a<0' + ')' * 30)):
    certified(f'{count} paths of {condition[:20]}..', f'int main(void){{ long a; assume({condition}); }}', 3)
for condition in ('||'.join(f'a<{k}' for k in range(1025)), '&&'.join(f'a!={k}' for k in range(11)), '||'.join(['a'] * 20000)):
    uncertified(f'{condition[:20]}..', f'int main(void){{ long a; assume({condition}); }}', 'paths at point 2')
labels = ''.join(f'case {number}:' for number in range(6000))
uncertified('6,000 labels', f'int main(void){{ long x; switch(x){{ {labels} x=1; }} }}', 'paths at point 2')
uncertified('a source of 16 MB', ' ' * MOST, '1 TooLong at 1:65537')
uncertified('large numbers in rows that are combined', 'int main(void){ long x=input(), y=input(); assume(x+y==-3); '
            'assert(-36028797018963977*x-1099511627859*y==-1099511627827); }', 'strained at edge 4 5')
certified('numbers at the ends of 64 bits', 'int main(void){ long x, y; assume(9223372036854775807*x>=9223372036854775805*y && '
          '9223372036854775803*y>=9*x); }', 4)

ended()
