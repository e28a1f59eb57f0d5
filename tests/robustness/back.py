#!/usr/bin/env python3
"""Going back from assertions: as many points, paths, variables and conditions as there may be, and one more; depth;
numbers past the range; words.

    tests/robustness/back.py [PROGRAM]

Wants `cc` for the last rows.
"""
from collections.abc import Iterable

from levels import BLOCK, FOR, IF, IF_BLOCK, SWITCH, WHILE, nested, stacked
from memory import refuse_each
from trial import case, ended, refused

GIVEN = 'int main(void){ long x; '
# The line of its second point.
FIRST = f'point 2 main 1:{len(GIVEN) + 1}\n'
LIMIT = 10
NAMES = [f'v{k}' for k in range(32)]


def left(name: str, point: int, source: str, is_proved: bool, lines: Iterable[str], flag: str = '0',
         limit: float = 1.0) -> None:
    """What is left by going back from a point: these lines, and the verdict."""
    verdict = f'assert {point} {"proved" if is_proved else "unknown"}\n'
    case(f'{name}, from {point}', f'back --point {point}', source, 0 if is_proved else 1,
         begins=f'back point {point}\nflagged {flag}\n', holds=[*lines, verdict], limit=limit)


def refused_at(name: str, point: int, source: str, text: str, limit: float = 1.0) -> None:
    """A source that isn't gone back over from this point."""
    refused(f'{name}, from {point}', source, text, words=f'back --point {point}', limit=limit)


def asserted(condition: str) -> str:
    """A variable of any value, of which this is asserted."""
    return f'{GIVEN}assert({condition}); }}'


def assumed(condition: str) -> str:
    """A variable of which this is assumed, and then that it is below 0."""
    return f'{GIVEN}assume({condition}); assert(x<0); }}'


def joined(mark: str, count: int, sign: str) -> str:
    """So many comparisons."""
    return mark.join(f'x{sign}{k}' for k in range(count))


# words
SMALL = asserted('x>0')
for more in ('', '--point', '--point 0', '--point 2049', '--point -1', '--point 1x', '2', '--point 2 --point 2',
             '--point 2 --json', '--point 2 a.c b.c', '--points 2', '--point 2 --best', '--point 18446744073709551618',
             '--point ' + '9' * 1000):
    case(f'back {more[:40]}', f'back {more}', SMALL, 3, whole='refused usage\n')
case('a word with its number', 'back --point=2', SMALL, 1, begins='back point 2\nflagged 0\n')
left('one assertion', 2, SMALL, False, [FIRST + '  row x <= 0\n'])
for point in (1, 3, 4, 2048):
    refused_at('no assertion', point, SMALL, f'refused point {point}')

# 2,048 points, with an assertion at each end
LINE = GIVEN + 'assert(x>0);' + ';' * 2044 + 'assert(x>1);}'
LAST = len(LINE) - len('assert(x>1);}') + 1
left('2,048 points', 2, LINE, False, [FIRST + '  row x <= 0\n', 'point 2048 main '], limit=LIMIT)
left('2,048 points', 2047, LINE, False, [FIRST + '  row x = 1\n', f'point 2047 main 1:{LAST}\n  row x = 1\n',
     f'point 2048 main 1:{len(LINE)}\n  unreachable\n'], limit=LIMIT)
refused_at('2,048 points', 2048, LINE, 'refused point 2048', limit=LIMIT)
refused_at('2,049 points', 2, LINE.replace(';assert', ';;assert'), f'refused 13 TooManyPoints at 1:{len(LINE) + 1}')
ROUND = GIVEN + 'while(input()){ assert(x>0);' + ';' * 2042 + 'assert(x>1);}}'
left('2,048 points in a loop', 2046, ROUND, False, [FIRST + '  row x = 1\n'], limit=LIMIT)

# as many paths as are taken, between two points and where an assertion is false, and more
left('ten numbers left out', 3, assumed(joined('&&', 10, '!=')), False, [FIRST + '  row x >= 10\n'], limit=LIMIT)
left('1,024 comparisons by ||', 3, assumed(joined('||', 1024, '<')), False,
     [FIRST + '  row x >= 0\n  row x <= 1022\n'], limit=LIMIT)
left('7,000 comparisons by &&', 3, assumed(joined('&&', 7000, '>')), False, [FIRST + '  row x >= 7000\n'],
     limit=LIMIT)
left('30 signs within one another', 3, assumed('!(' * 30 + 'x<0' + ')' * 30 + '||x>3'), False,
     [FIRST + '  row x >= 4\n'])
left('1,024 comparisons by && asserted', 2, asserted(joined('&&', 1024, '>')), False,
     [FIRST + '  row x <= 1023\n'], limit=LIMIT)
left('1,024 comparisons by || denied', 2, asserted(f'!({joined("||", 1024, "<")})'), False,
     [FIRST + '  row x <= 1022\n'], limit=LIMIT)
left('ten numbers asserted', 2, asserted(joined('||', 10, '==')), False, [FIRST + '  row true\n'], limit=LIMIT)
for name, condition in (('1,025 comparisons by ||', joined('||', 1025, '<')),
                        ('eleven numbers left out', joined('&&', 11, '!=')),
                        ('20,000 numbers left out', '&&'.join(['x'] * 20000))):
    refused_at(name, 3, assumed(condition), 'refused paths at point 2')
    refused_at(f'{name}, where no assertion is', 2, assumed(condition), 'refused point 2')
for name, condition in (('1,025 comparisons by && asserted', joined('&&', 1025, '>')),
                        ('1,025 comparisons by || denied', f'!({joined("||", 1025, "<")})'),
                        ('eleven numbers asserted', joined('||', 11, '==')),
                        ('20,000 numbers', '||'.join(['x'] * 20000)),
                        ('7,000 comparisons by && asserted', joined('&&', 7000, '>'))):
    refused_at(name, 2, asserted(condition), 'refused paths at point 2')
    refused_at(f'{name}, another one', 2, f'{GIVEN}assert(x); assert({condition}); }}', 'refused paths at point 3')

# as many variables as may live, alone and in a call
ALL = ','.join(NAMES)
left('32 variables', 33, f'int main(void){{ long {ALL}; assert(v0!=v31); }}', False, ['  row v0 - v31 = 0\n'],
     limit=LIMIT)
left('32 variables in one sum', 33, f'int main(void){{ long {ALL}; assert({"+".join(NAMES)}!=7); }}', False,
     [f'  row {" + ".join(NAMES)} = 7\n'], limit=LIMIT)
left('31 variables and a parameter', 33,
     f'void f(long p){{ assert(p!=5); }} int main(void){{ long {",".join(NAMES[:31])}; f(v30+1); }}', False,
     ['  row v30 = 4\n  gen', '  row v30 = 4\n  row p = 5\n'], limit=LIMIT)
left('12 ints', 13, f'int main(void){{ int {",".join(NAMES[:12])}; assert(v0<v11); }}', False,
     ['  row v0 - v11 >= 0\n'], limit=LIMIT)

# depth: one function, and calls
for name, level, before in (('while', WHILE, 60), ('if', IF, 60), ('for', FOR, 60), ('blocks', BLOCK, 0),
                            ('if with blocks', IF_BLOCK, 60), ('switch', SWITCH, 60)):
    source = GIVEN + nested(level, 60, 'assert(x!=3);') + ' }'
    left(f'60 {name} in one function', before + 2, source, False, [FIRST + '  row x = 3\n'] if before else [],
         limit=LIMIT)
left('32 functions of 62 if', 32 * 63, stacked(IF, 62, 32, inside='assert(0);'), False, ['point 1 main '], limit=LIMIT)
left('32 functions of 20 while', 32 * 21, stacked(WHILE, 20, 32, inside='assert(0);'), False, ['point 1 main '],
     limit=LIMIT)

# numbers: going back over the third of these products passes the range; forward the last of the doublings does
SCALE = 'x=4611686018427387904*x; '
left('numbers past the range', 5, GIVEN + SCALE * 3 + 'assert(x!=1); }', False, [FIRST + '  row true\n'],
     flag='at point 2')
DOUBLED = 'int main(void){ long x=1;' + ' x=x+x;' * 127 + ' assert(x!=0); }'
left('127 doublings', 129, DOUBLED, True, ['  row x = 0\n', 'point 128 main 1:909\n  unreachable\n'],
     flag='at point 128')

# each allocation of one run refused, and a hundred of those of others
refuse_each('back --point 4', 'int main(void){ long x=input(), y; y=x+1; assert(y!=0); }', 1, [
    'back point 4\nflagged 0\npoint 1 main 1:22\n  row true\n  gen point\npoint 2 main 1:33\n  row x = -1\n'], 5000)
for words, source, status in [
        ('back --point 5', 'int main(void){ long n=input(), s=0; while(s<n) s=s+3; assert(s!=7); }', 1),
        ('back --point 7', 'int main(void){ long x=input(), y; if(x>=0) y=1; else y=0; if(y==0) assert(x<0); }', 0),
        ('back --point 2', LINE, 1), ('back --point 3', assumed(joined('&&', 10, '!=')), 1),
        ('back --point 33', f'int main(void){{ long {ALL}; assert(v0!=v31); }}', 1)]:
    refuse_each(words, source, status, [], 0)
ended()
