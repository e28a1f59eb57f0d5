#!/usr/bin/env python3
"""What can overflow, asked of what is meant to break it: deep expressions and conditions, long sums, deep programs, long
reports.

    tests/robustness/fits.py [PROGRAM [large]]

`large` runs the last row, too, whose report has 1.4 GB.
"""
import sys
from collections.abc import Iterable

from levels import ELSE, FOR, IF, IF_BLOCK, WHILE, nested, points_of, stacked
from trial import answer, case, ended, refused, streamed, tell

WAYS = [f'analyse --domain {domain} --fits' for domain in ('box', 'oct', 'poly')]
BOX = WAYS[0]
LIMIT = 10
# The place of the second declarator of `main`.
GIVEN = 'int main(void){ int x=1,y=%s; }'


def fits(name: str, source: str, lines: Iterable[str], limit: float = 1.0) -> None:
    """A row in each domain: nothing is flagged, and these lines stand in the report."""
    for words in WAYS:
        case(f'{name}, {words}', words, source, 0, holds=['\nflagged 0\n', *lines], limit=limit)


# words
for words in ('analyse --fits --fits', 'analyse --fits=yes', 'analyse --fits a.c b.c', 'sample --seed 1 --size 1 --fits',
              'calc --fits'):
    case(words, words, 'int main(void){}', 3, whole='refused usage\n')

# 64 levels, of which main's body is the first: signs, parentheses to the left and to the right, and both
fits('63 signs', GIVEN % ('- ' * 63 + 'x'), ['  row y = -1\n', '\nfit 2 main 1:25 fits\n'])
fits('63 signs of any int', 'int main(void){ int x; x=' + '- ' * 63 + 'x; }', ['\nfit 2 main 1:24 may overflow\n'])
fits('63 parentheses to the left', GIVEN % ('(' * 63 + 'x' + '+x)' * 63),
     ['  row y = 64\n', '\nfit 2 main 1:25 fits\n'])
fits('63 parentheses to the right', GIVEN % ('(x+' * 63 + 'x' + ')' * 63),
     ['  row y = 64\n', '\nfit 2 main 1:25 fits\n'])
fits('31 signs of parentheses, and one', GIVEN % ('-(' * 31 + '-x' + ')' * 31),
     ['  row y = 1\n', '\nfit 2 main 1:25 fits\n'])
refused('64 signs', GIVEN % ('- ' * 64 + 'x'), 'refused 5 TooDeep at 1:153', words=BOX)
refused('64 parentheses', GIVEN % ('(' * 64 + 'x' + '+x)' * 64), 'refused 5 TooDeep at 1:90', words=BOX)
# twice as much with each level: 2^30 fits, and one level more doesn't
fits('a product of 30 twos', GIVEN % ('(' * 30 + 'x' + '*2)' * 30),
     ['  row y = 1073741824\n', '\nfit 2 main 1:25 fits\n'])
fits('a product of 31 twos', GIVEN % ('(' * 31 + 'x' + '*2)' * 31), ['\nfit 2 main 1:25 may overflow\n'])

# conditions: each right side is asked of what its left side leaves
for mark in ('&&', '||'):
    for name, condition in (('left', '(' * 62 + 'x+1>1' + f' {mark} x+1>1)' * 62),
                            ('right', f'(x+1>1 {mark} ' * 62 + 'x+1>1' + ')' * 62)):
        fits(f'62 sides of {mark} to the {name}', f'int main(void){{ int x=1; if({condition}) ; }}',
             ['\nfit 2 main 1:26 fits\n'])
fits('62 opposites of a sum', 'int main(void){ int x=1; if(' + '!' * 62 + '(x+1>1)) ; }', ['\nfit 2 main 1:26 fits\n'])
for mark in ('&&', '||'):
    chain = mark.join(['x+1'] * 10000)
    fits(f'10,000 sums between {mark}', f'int main(void){{ int x=1; if({chain}) ; }}', ['\nfit 2 main 1:26 fits\n'], limit=LIMIT)

# one sum with as many terms as a source has room for
fits('a sum of 32,000 terms', GIVEN % '+'.join(['x'] * 32000), ['  row y = 32000\n', '\nfit 2 main 1:25 fits\n'],
     limit=LIMIT)
fits('a sum of 32,000 terms of any int', 'int main(void){ int x,y=%s; }' % '+'.join(['x'] * 32000),
     ['\nfit 2 main 1:23 may overflow\n'], limit=LIMIT)
case('a sum of 8 ints that nobody knows, 2,500 times', 'analyse --fits',
     'int main(void){ int a,b,c,d,e,f,g,h; long s=%s; }' % '+'.join('abcdefgh' * 2500), 0,
     holds=['\nflagged 0\n', '\nfit 9 main 1:43 may overflow\n'], limit=LIMIT)

# programs as deep as they may be, with a sum in the innermost function; loops in loops keep what their last pass found, so there
# are fewer of them
for name, level, count in (('if', IF, 32), ('else', ELSE, 16), ('if with a block', IF_BLOCK, 16), ('while', WHILE, 10),
                           ('for', FOR, 10)):
    outcome = ' may overflow\n' if level in (WHILE, FOR) else ' fits\n'
    fits(f'{count} functions of 60 {name}', 'int x;\n' + stacked(level, 60, count, inside='x=x+1;'),
         [f'\npoint {points_of(level, 60, count)} main ', outcome], limit=LIMIT)
fits('60 choices, each with a sum', 'int main(void){ int x=0; ' + nested(('if(x+1>0) ', 1, '', 1), 60) + ' }',
     ['\nfit 2 main 1:26 fits\n', '\nfit 61 main '])

# 2,048 points with 8 ints that nobody knows, as JSON: some 70 MB
MANY = 'int main(void){ int a,b,c,d,e,f,g,h; ' + 'assume(a*b);' * 2039 + '}'
BEGINS, ENDS = '{"analysis":{"delay":1,"domain":"poly","fits":true,', '],"proved":0,"unknown":0}\n'
status, text, seconds = answer('analyse --fits --json', MANY)
counts = (text.count('"verdict":"may overflow"'), text.count('"number":'))
tell(f'2,048 points with 8 ints ({seconds:.2f} s, {len(text)} bytes)',
     status == 0 and text.startswith(BEGINS) and text.endswith(ENDS) and counts == (2039, 2048) and seconds <= 60,
     (status, text[:60], counts, 'limit 60 s'))


def large() -> None:
    """The same with 12 of them: a report of 1.4 GB, or want of memory and nothing written."""
    source = MANY.replace('h; ', 'h,i,j,k,l; ').replace('assume(a*b);', '', 4)
    status, size, last = streamed('analyse --fits --json', source)
    tell(f'2,048 points with 12 ints ({size} bytes, status {status})',
         status == 6 and not size or status == 0 and last.endswith(ENDS.encode()), (status, last))


if 'large' in sys.argv[2:]:
    large()
ended()
