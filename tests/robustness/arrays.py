#!/usr/bin/env python3
"""Arrays: indexes within one another up to the limit and past it, many of them side by side, long arrays, many arrays.

    tests/robustness/arrays.py [PROGRAM [large]]

`large` runs the last row, too, whose report has hundreds of megabytes. Wants `cc` for the rows before it.
"""
import sys
from collections.abc import Iterator
from itertools import islice, product
from string import ascii_letters, digits

from memory import refuse_each
from trial import case, ended, refused, streamed, tell

BOX = 'analyse --domain box'
GIVEN = 'int main(void){ long a[2], x; '
BEGUN = len(GIVEN)


def nest(depth: int) -> str:
    """An element whose index is an element, so deep."""
    return 'a[' * depth + '0' + ']' * depth


def short_names(count: int) -> Iterator[str]:
    """So many names, the shortest there are."""
    words = (''.join((first, *rest)) for length in range(3) for first in ascii_letters + '_'
             for rest in product(ascii_letters + digits + '_', repeat=length))
    return islice((word for word in words if word not in ('if', 'do', 'for', 'int')), count)


def told(inside: int, outside: int) -> list[str]:
    """The last line where so many accesses are in bounds, and so many unknown."""
    return [f'verdicts proved {inside} unknown {outside}\n']


# 63 indexes within one another, and the bracket past them, in an expression, a target and a condition; of the innermost one
# alone the index is known
for name, before, behind in [('an expression', 'x=', '; }'), ('a target', '', '=0; }'),
                             ('a condition', 'if(', '>0) ; }')]:
    case(f'63 indexes in {name}', BOX, GIVEN + before + nest(63) + behind, 1, holds=told(1, 62))
    refused(f'64 indexes in {name}', GIVEN + before + nest(64) + behind,
            f'refused 5 TooDeep at 1:{BEGUN + len(before) + 2 * 64}')
refused('64 opening brackets alone', GIVEN + 'x=' + 'a[' * 64, f'refused 5 TooDeep at 1:{BEGUN + 2 + 2 * 64}')
refused('32,000 opening brackets', GIVEN + 'x=' + 'a[' * 32000, f'refused 5 TooDeep at 1:{BEGUN + 2 + 2 * 64}')
case('62 parentheses round an index', BOX, GIVEN + 'x=' + '(' * 62 + 'a[0]' + ')' * 62 + '; }', 0, holds=told(1, 0))

# as many accesses as a source has room for
for domain in ['box', 'oct', 'poly']:
    words = f'analyse --domain {domain}'
    case(f'13,000 accesses side by side, {domain}', words, GIVEN + 'x=' + '+'.join(['a[0]'] * 13000) + '; }', 0,
         holds=told(13000, 0))
    case(f'13,000 accesses in a condition, {domain}', words, GIVEN + 'if(' + '+'.join(['a[1]'] * 13000) + '>0) ; }', 0,
         holds=told(13000, 0))
    case(f'20,000 accesses in nests of 60, {domain}', words, GIVEN + 'x=' + '+'.join([nest(60)] * 333) + '; }', 1,
         holds=told(333, 333 * 59))
case('the same, asked what fits', BOX + ' --fits', GIVEN + 'x=' + '+'.join([nest(60)] * 333) + '; }', 1,
     holds=['fit 3 main 1:31 may overflow\n', *told(333, 333 * 59)])

# long arrays: nothing is kept for what they hold
case('the longest array', BOX, 'int main(void){ long a[1048576]; a[1048575]=1; }', 0, holds=told(1, 0))
case('the index behind its last element', BOX, 'int main(void){ long a[1048576]; a[1048576]=1; }', 1, holds=told(0, 1))
for index in ('9223372036854775807', '-9223372036854775807-1', '9223372036854775807+1'):
    case(f'the index {index}', BOX, f'int main(void){{ long a[1048576]; a[{index}]=1; }}', 1, holds=told(0, 1))
refused('one more element', 'int main(void){ long a[1048577]; }', 'refused 15 BadLength at 1:24')
refused('the greatest literal', 'int main(void){ long a[9223372036854775807], a; }', 'refused 15 BadLength at 1:24')
refused('2^32 + 1 elements', 'int main(void){ long a[4294967297]; }', 'refused 15 BadLength at 1:24')
LONG = ', '.join(f'a{k}[1048576]' for k in range(1000))
case('a thousand long arrays, global', BOX, f'long {LONG}; int main(void){{ a999[0]=1; }}', 0)
case('a thousand long arrays in main', BOX, f'int main(void){{ long {LONG}; a999[0]=1; }}', 0)

# many arrays; none of them lives, and each in a function is a point
NAMES = list(short_names(9500))
GLOBAL = ','.join(f'{name}[1]' for name in NAMES)
MANY = f'long {GLOBAL}; int main(void){{{NAMES[-1]}[0]={NAMES[0]}[0];}}'
case('9,500 global arrays', BOX, MANY, 0, limit=5.0)
refused('9,500 global arrays, and the first one again', f'long {GLOBAL},{NAMES[0]}[1];',
        f'refused 8 DuplicateName at 1:{len(f"long {GLOBAL},") + 1}', limit=5.0)
refused('9,500 global arrays, and a name that none has', f'long {GLOBAL}; int main(void){{____[0]=1;}}',
        f'refused 7 UnknownName at 1:{len(f"long {GLOBAL}; int main(void){{") + 1}', limit=5.0)
LOCAL = ','.join(f'b{k}[1]' for k in range(2047))
case('2,047 arrays in main', BOX, f'int main(void){{ int {LOCAL}; }}', 0, limit=2.0)
refused('2,048 arrays in main', f'int main(void){{ int {LOCAL},b[1]; }}',
        f'refused 13 TooManyPoints at 1:{len(f"int main(void){{ int {LOCAL},b[1]; }}")}')
HIDDEN = 'long a[1]; int main(void){ ' + '{ long a[1]; a[0]=1; ' * 62 + '}' * 62 + ' }'
case('62 arrays that hide each other', BOX, HIDDEN, 0)

# each allocation of one run refused, and a hundred of those of large ones
COPY = 'long a[3]; long f(long k){ a[k]=7; return k; } int main(void){ long i=1; a[i]=f(i+1); i=a[i]; assert(i==1); }'
refuse_each('analyse --domain box --fits', COPY, 1, [
    '\npoint 3 main/f@1:79 1:28\n  row i = 1\n  row k = 2\n',
    '\naccess 2 main 1:74 in bounds\naccess 3 main/f@1:79 1:28 in bounds\naccess 6 main 1:89 in bounds\n'], 5000)
for words, source, status in [(BOX, GIVEN + 'x=' + '+'.join(['a[0]'] * 13000) + '; }', 0),
                              ('analyse', GIVEN + 'x=' + '+'.join([nest(60)] * 333) + '; }', 1), (BOX, MANY, 0)]:
    refuse_each(words, source, status, [], 0)


def large() -> None:
    """12,000 accesses in a function that is called 680 times: a line for each, or want of memory and nothing written."""
    source = 'long a[1],x;void f(void){x=' + '+'.join(['a[0]'] * 12000) + ';}int main(void){' + 'f();' * 680 + '}'
    status, size, last = streamed(BOX, source)
    tell(f'12,000 accesses 680 times ({size} bytes, status {status})',
         status == 6 and not size or status == 0 and last.endswith(b' unknown 0\n'), (status, last))


if 'large' in sys.argv[2:]:
    large()
ended()
