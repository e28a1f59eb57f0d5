#!/usr/bin/env python3
"""Each limit from both sides: the last source that is taken, and the first that isn't, each within a second.

    tests/robustness/limits.py [PROGRAM]
"""
from trial import case, ended, refused

BOX = 'analyse --domain box'
NAMES = ['v%d' % k for k in range(1, 34)]


def chain(last: int) -> str:
    """`main` calls the last function, and each the one before it, down to `a0`."""
    lines = ['void a0(void){}'] + [f'void a{k}(void){{ a{k - 1}(); }}' for k in range(1, last + 1)]
    return '\n'.join(lines + [f'int main(void){{ a{last}(); }}'])


def called(body: str, calls: int) -> str:
    """`main` calls a function with this body so many times."""
    return 'void f(void){' + body + '} int main(void){' + 'f();' * calls + '}'


# bytes of a source and of a script
case('65,536 bytes', BOX, 'int main(void){}' + ' ' * 65520, 0, holds=['point 1 main 1:16\n  row true\n'])
refused('65,537 bytes', 'int main(void){}' + ' ' * 65521, 'refused 1 TooLong at 1:65537')
refused('65,537 spaces', ' ' * 65537, 'refused 1 TooLong at 1:65537')
refused('line ends, then a byte past the limit', '\n' * 65536 + 'x', 'refused 1 TooLong at 65537:1')
case('a script of 65,536 bytes', 'calc', '\n' * 65536, 0, whole='flagged 0\n')
refused('a script of 65,537 bytes', '\n' * 65537, 'refused 1 TooLong at 65537:1', words='calc')

# levels of nesting
GROUPED = 'int main(void){ long x; x = %s1%s; }'
case('63 parentheses', BOX, GROUPED % ('(' * 63, ')' * 63), 0, holds=['  row x = 1\n'])
refused('64 parentheses', GROUPED % ('(' * 64, ')' * 64), 'refused 5 TooDeep at 1:92')
refused('64 opening parentheses alone', 'int main(void){ long x; x = ' + '(' * 64, 'refused 5 TooDeep at 1:92')
refused('65,000 opening parentheses', 'int main(void){ long x; x = ' + '(' * 65000, 'refused 5 TooDeep at 1:92')
case('63 blocks', BOX, 'int main(void){' + '{' * 63 + '}' * 63 + '}', 0)
refused('64 blocks', 'int main(void){' + '{' * 64, 'refused 5 TooDeep at 1:79')

# literals
case('the greatest literal', BOX, 'int main(void){ long x=9223372036854775807; }', 0,
     holds=['  row x = 9223372036854775807\n'])
refused('one more', 'int main(void){ long x=9223372036854775808; }', 'refused 3 BadLiteral at 1:24')
refused('an octal 8', 'int main(void){ long x=08; }', 'refused 3 BadLiteral at 1:24')

# first values of globals, and numbers of 32 bits
case('the least and the greatest int', BOX, 'int g=-2147483648, h=2147483647; int main(void){}', 0,
     holds=['  row g = -2147483648\n  row h = 2147483647\n'])
refused('one less', 'int g=-2147483649; int main(void){}', 'refused 3 BadLiteral at 1:8')
refused('one more than the greatest int', 'int g=2147483648; int main(void){}', 'refused 3 BadLiteral at 1:7')
refused('the same with a suffix', 'int g=2147483648L; int main(void){}', 'refused 3 BadLiteral at 1:7')
case('the same as a long', BOX, 'long g=2147483648; int main(void){}', 0, holds=['  row g = 2147483648\n'])
case('an int past the greatest', BOX, 'int main(void){ int x=2147483648; }', 0,
     holds=['point 2 main 1:35\n  unreachable\n'])
case('63 signs of an int', BOX, 'int main(void){ int x=' + '- ' * 63 + '1; }', 0, holds=['  row x = -1\n'])
refused('64 signs of an int', 'int main(void){ int x=' + '- ' * 64 + '1; }', 'refused 5 TooDeep at 1:149')

# calls in a path: the one past the limit is that of `a0` in `a1`
case('32 calls in a path', BOX, chain(31), 0)
refused('33 calls in a path', chain(32), 'refused 13 TooManyPoints at 2:16')

# variables that live at a point, at once and through a call
case('32 variables', BOX, 'int main(void){ long ' + ','.join(NAMES[:32]) + ';}', 0, holds=['point 33 main '])
refused('33 variables', 'int main(void){ long ' + ','.join(NAMES) + ';}', 'refused 12 TooManyVariables at 1:145')
case('32 ints', BOX, 'int main(void){ int ' + ','.join(NAMES[:32]) + ';}', 0, holds=['point 33 main '])
THROUGH = 'void f(long p){}\nint main(void){ long %s; f(1);}'
case('31 variables and a parameter', BOX, THROUGH % ','.join(NAMES[:31]), 0)
refused('32 variables and a parameter', THROUGH % ','.join(NAMES[:32]), 'refused 12 TooManyVariables at 1:16')

# points, in one body and through calls: a call of `f` is one, its body's n statements and its end n + 1
case('2,048 points', BOX, 'int main(void){' + ';' * 2047 + '}', 0, holds=['point 2048 main 1:2063\n'],
     lacks=['point 2049'])
refused('2,049 points', 'int main(void){' + ';' * 2048 + '}', 'refused 13 TooManyPoints at 1:2064')
case('2,048 points through 23 calls', BOX, called(';' * 87, 23), 0, holds=['point 2048 main '], lacks=['point 2049'])
refused('2,049 points through 16 calls', called(';' * 126, 16), 'refused 13 TooManyPoints at 1:221')
ended()
