#!/usr/bin/env python3
"""Divisions by constants: of a sum of 20,000 terms, and by divisors at the ends of their range.

    tests/robustness/divisions.py [PROGRAM]
"""
from trial import case, ended

GREATEST = 2 ** 63 - 1


def judged(name: str, source: str, proved: int) -> None:
    """So many assertions of the source, one or none, are proved over boxes."""
    case(name, 'analyse --domain box', f'int main(void){{ {source} }}', 0 if proved else 1,
         holds=[f'verdicts proved {proved} unknown {1 - proved}\n'], lacks=['flagged at'])


terms = 'x' + '+x' * 19999
judged('a sum of 20,000 terms by 20,000',
       f'long x=input(), q; assume(x>=0&&x<=1); q=({terms})/20000; assert(q>=0&&q<=1);', 1)
judged('what a sum of 20,000 terms leaves', f'long x=input(), q; assume(x>=0); q=({terms})%7; assert(q>=0&&q<=6);', 1)
judged('by 1', 'long x=input(), q; assume(x>=-5&&x<=5); q=x/1; assert(q>=-5&&q<=5);', 1)
judged('by the greatest number',
       f'long x=input(), q; assume(x>=0&&x<={GREATEST}); q=x/{GREATEST}; assert(q>=0&&q<=1);', 1)
judged('an int by 2 to the 31', 'int x; long q; q=x/2147483648; assert(q>=-1&&q<=0);', 1)
# nothing is seen of these
judged('by -1', 'long x=input(), q; assume(x>=-5&&x<=5); q=x/-1; assert(q>=-5&&q<=5);', 0)
judged('the greatest number and more, halved',
       f'long x=input(), q; assume(x>=0&&x<=1); q=({GREATEST}+x)/2; assert(q>=0);', 0)

ended()
