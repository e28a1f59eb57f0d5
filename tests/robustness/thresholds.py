#!/usr/bin/env python3
"""Thresholds: many of them, large ones, deep loops, loops with many comparisons; and words that can't stand together.

    tests/robustness/thresholds.py [PROGRAM]
"""
from trial import case, ended

BEST = 'analyse --best'
ONE = 'analyse --thresholds'
LINE = 'analysis poly parts %d delay 1 narrow 1 limited no thresholds yes\nflagged 0\n'
USAGE = 'refused usage\n'


def wide(variables: int, constants: int) -> str:
    """Three loops deep, each with a counter that stops at one of so many constants, which the variables get before."""
    names = [f'v{k}' for k in range(variables)]
    given = ''.join(f' {names[k % variables]}={100 + k};' for k in range(constants))
    return ('int main(void){ long ' + ', '.join(f'{name}=0' for name in names) + ';' + given + ' v0=0; v1=0; v2=0;'
            ' while(input()) { if(v0<100) v0=v0+1; while(input()) { if(v1<120) v1=v1+1;'
            ' while(input()) { if(v2<140) v2=v2+1; } } } assert(v0<=100); assert(v1<=120); assert(v2<=140); }')


def compared(comparisons: int) -> str:
    """One loop with so many comparisons, of which the tightest that x reaches is the last."""
    tests = ''.join(f' if(x<{k + 1}) x=x+1;' for k in range(comparisons))
    return 'int main(void){ long x=0; while(input()) {' + tests + f' }} assert(x<={comparisons}); }}'


# thresholds that are too large aren't given: nothing flags
ENDS = ('int main(void){ long x=9223372036854775807; while(input()) if(x>-9223372036854775807) x=x-1; '
        'assert(x<=9223372036854775807); }')
case('literals up to the ends of 64 bits', ONE, ENDS, 0, begins=LINE % 1, holds=['verdicts proved 1 unknown 0\n'])
case('the same in parts', BEST, ENDS, 0, begins=LINE % 4)

# the greatest threshold, and the first number past it
case('a bound of 2^31', ONE, 'int main(void){ long x=0; while(input()) if(x<2147483648) x=x+1; assert(x<=2147483648); }', 0,
     begins=LINE % 1, holds=['  row x <= 2147483648\n', 'verdicts proved 1 unknown 0\n'])
case('a bound of 2^31 + 1', ONE, 'int main(void){ long x=0; while(input()) if(x<2147483649) x=x+1; assert(x<=2147483649); }', 1,
     begins=LINE % 1, holds=['verdicts proved 0 unknown 1\n'])

# more literals than constants are taken
def literals(before: int) -> str:
    """So many literals from 1,000 on, and then a counter whose bound is told by its comparison alone."""
    return ('int main(void){ long y=0; ' + ''.join(f'y={1000 + k}; ' for k in range(before))
            + 'long x=0; while(input()){ x=x+1; if(x==50+50) x=0; } assert(x<=99); }')


case('60 constants before a bound', ONE, literals(60), 0, holds=['verdicts proved 1 unknown 0\n'])
case('90 constants before it', ONE, literals(90), 0, holds=['verdicts proved 1 unknown 0\n'])

# many
PROVED = ['verdicts proved 3 unknown 0\n']
case('8 variables, 64 constants, three loops deep', ONE, wide(8, 64), 0, begins=LINE % 1, holds=PROVED)
case('24 variables, 64 constants, three loops deep', ONE, wide(24, 64), 0, begins=LINE % 1, holds=PROVED, limit=5.0)
case('the same in parts', BEST, wide(24, 64), 0, begins=LINE % 4, holds=PROVED, limit=5.0)
case('a loop of 200 comparisons', ONE, compared(200), 0, begins=LINE % 1, limit=1.0)
case('the same in parts', BEST, compared(200), 0, limit=4.0)

# words
for words in ('--thresholds --limited', '--best --limited', '--best --parts 4', '--best --delay 1', '--best --thresholds',
              '--domain box --thresholds', '--domain oct --thresholds', '--best --best'):
    case(f'analyse {words}', f'analyse {words}', 'int main(void){}', 3, whole=USAGE)
ended()
