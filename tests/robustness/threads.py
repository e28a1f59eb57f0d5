#!/usr/bin/env python3
"""Programs of several threads that are meant to break it: each limit from both sides, names that are nearly those of
threads, as many rounds as there are bounds to lose, deep threads, numbers past the range.

    tests/robustness/threads.py [PROGRAM]

Wants `cc` for its last rows, in which each allocation of a run is refused, and a hundred of those of others.
"""
from collections.abc import Iterable

from levels import BLOCK, IF, IF_BLOCK, SWITCH, WHILE, WHILE_BLOCK, nested
from memory import refuse_each
from trial import case, ended, refused

THREADS = 'threads'
LIMIT = 10
HEAD = 'threads box count {} delay 1 narrow 1\nflagged 0\n'


def beside(*bodies: str) -> str:
    """A thread for each of these bodies."""
    return ' '.join(f'void t{number}(void){{{body}}}' for number, body in enumerate(bodies, 1))


def names(letter: str, count: int) -> str:
    """So many names."""
    return ','.join(f'{letter}{number}' for number in range(count))


def taken(name: str, source: str, count: int, holds: Iterable[str] = (), lacks: Iterable[str] = (),
          status: int = 0) -> None:
    """A program of so many threads, of which nothing is flagged."""
    case(name, THREADS, source, status, begins=HEAD.format(count), holds=holds, lacks=lacks, limit=LIMIT)


def denied(name: str, source: str, text: str) -> None:
    """A program that is refused."""
    refused(name, source, text, words=THREADS, limit=LIMIT)


def at_end(cause: str, source: str) -> str:
    """The refusal at the last byte of a line."""
    return f'refused {cause} at 1:{len(source)}'


# points of all threads together, in their bodies and through calls
FULL = beside(*[';' * 255] * 8)
taken('2,048 points of eight threads', FULL, 8, lacks=['point 2049'],
      holds=[f'\npoint 2048 t8 1:{len(FULL)}\n  row true\n', '\npoint 257 t2 '])
for place in (1, 8):
    MORE = beside(*[';' * (256 if number == place else 255) for number in range(1, 9)])
    denied(f'2,049 points, one more in t{place}', MORE, at_end('13 TooManyPoints', MORE))
CALLS = 'void f(void){' + ';' * 30 + '} ' + beside(*['f();' * 7 + ';' * 31] * 8)
taken('2,048 points through 56 calls', CALLS, 8, holds=[f'\npoint 2048 t8 1:{len(CALLS)}\n'], lacks=['point 2049'])
LAST = 'void f(void){' + ';' * 30 + '} ' + beside(*['f();' * 7 + ';' * 31] * 7, 'f();' * 7 + ';' * 32)
denied('2,049 points through 56 calls', LAST, at_end('13 TooManyPoints', LAST))

# calls on a path
CHAIN = 'void a0(void){} ' + ' '.join(f'void a{k}(void){{ a{k - 1}(); }}' for k in range(1, 33))
taken('32 calls on a path', f'{CHAIN} {beside("a31();", "")}', 2, holds=['\npoint 1 t1 '])
denied('33 calls on a path', f'{CHAIN} {beside("", "a32();")}',
       f'refused 13 TooManyPoints at 1:{CHAIN.index("a0();") + 1}')

# variables: the globals, and those of each thread by itself
LOCALS = f'long {names("v", 12)};'
taken('20 globals and 12 locals in each of eight threads', f'long {names("g", 20)}; ' + beside(*[LOCALS] * 8), 8)
WIDE = f'long {names("g", 20)}; ' + beside(*[LOCALS] * 7, f'long {names("v", 13)};')
denied('13 locals in the last thread', WIDE, at_end('12 TooManyVariables', WIDE))
GLOBALS = f'long {names("g", 32)}; '
taken('32 globals', GLOBALS + beside('g31=g0;', 'g0=1;'), 2, holds=['\nwrites t1 g31 0 1\nwrites t2 g0 1 1\n'])
OVER = f'long {names("g", 33)}; ' + beside('', '')
denied('33 globals', OVER, f'refused 12 TooManyVariables at 1:{OVER.index("}") + 1}')

# names: at most eight threads, whose numbers follow, without parameters; all others are functions
NINE = 'long g; ' + beside(*['g=1;'] * 9)
taken('a ninth thread is a function', NINE, 8, holds=['\nwrites t8 g 1 1\nverdicts'], lacks=[' t9 ', 'writes t9'])
taken('t9 alone writes', 'long g; ' + beside(*['assert(g==0);'] * 8, 'g=1;'), 8, lacks=['writes', 'unknown\n'])
taken('t9 is called', 'long g; ' + beside(*['t9();'] * 8, 'g=1;'), 8, holds=['\nwrites t8 g 1 1\n', ' t8/t9@'])
for other in ('void t01(void){}', 'void t(void){}', 'void t0(void){}', 'long t10(long a){ return a; }',
              'void T3(void){}', 'void t3(long a){}', 'void main(long a){}', 'long t3;'):
    taken(f'beside `{other}`', f'{beside("", "")} {other}', 2, lacks=[' t3 1:'])
for source in ('', 'void t2(void){}', 'void t1(void){} void t02(void){}', 'void t1(void){} void t3(void){}',
               'long t1; void t2(void){}', 'void t1(long a){} void t2(void){}', 'void t1(void); void t2(void){}'):
    denied(f'`{source}`', source, f'refused 17 NoThreads at 1:{len(source) + 1}')
denied('a name that is unknown, and no thread', 'int main(void){ x=1; }', 'refused 7 UnknownName at 1:17')
denied('a thread twice', beside('', '') + ' void t1(void){}', f'refused 8 DuplicateName at 1:{len(beside("", "")) + 7}')
case('no main', 'analyse', beside('', ''), 2, whole='refused 6 NoMain at 1:32\n')
for words in ('threads --delay 9', 'threads --narrow 5', 'threads --delay', 'threads --domain box', 'threads --json',
              'threads --parts 2', 'threads --best', 'threads a.c b.c', 'threads --delay 1 --delay 1'):
    case(words, words, beside('', ''), 3, whole='refused usage\n')
case('threads --narrow=0 --delay=8', 'threads --narrow=0 --delay=8', beside('', ''), 0,
     begins='threads box count 2 delay 8 narrow 0\nflagged 0\n')

# a thread that calls another's function runs it as its own
taken("a thread that calls another's function", 'long g; ' + beside('g=g+1; assert(g<9);', 't1(); t1();'), 2, status=1,
      holds=['\npoint 5 t2/t1@1:58 1:23\n  row g >= 0\n', '\nwrites t1 g 1 none\nwrites t2 g 1 none\n'])
denied('threads that call each other', beside('t2();', 't1();'), 'refused 11 Recursive at 1:15')
denied('a thread that calls itself', beside('', 't2();'), 'refused 11 Recursive at 1:31')


def handing(count: int, ends: str) -> str:
    """Two threads that hand a number on, each global to the next, so in each round one more bound goes: first all upper
    ones; where the last number is large, the first one falls, and all lower bounds go."""
    bodies = ['while(input()) g0=g0+1;' + ends, '']
    for number in range(1, count):
        bodies[number % 2] += f'g{number}=g{number - 1};'
    return f'long {names("g", count)}; ' + beside(*bodies)


for count in (2, 8, 32):
    taken(f'{count} globals that lose an upper bound, one in each round', handing(count, ''), 2,
          holds=[f'writes t{1 + number % 2} g{number} {int(number == 0)} none\n' for number in range(count)])
    taken(f'{count} globals that lose both bounds', handing(count, f'if(g{count - 1}>9) g0=g0-1;'), 2,
          holds=[f'writes t{1 + number % 2} g{number} none none\n' for number in range(count)])
STEPS = [f'g{number}=g{(number + 23) % 24}+1;' for number in range(24)]
RING = f'long {names("g", 24)}; ' + beside(*[''.join(STEPS[at : at + 3]) for at in range(0, 24, 3)])
taken('eight threads in a ring', RING, 8,
      holds=[f'writes t{1 + number // 3} g{number} {1 + number % 3} none\n' for number in range(24)])

# deep threads: each thread nests as deep as may be
for name, level in (('if', IF), ('while', WHILE), ('blocks', BLOCK), ('if with a block', IF_BLOCK),
                    ('while with a block', WHILE_BLOCK), ('switch', SWITCH)):
    for count in (2, 8):
        taken(f'{count} threads of 60 {name}', 'long g; ' + beside(*[nested(level, 60) + 'g=g+1;'] * count), count,
              holds=[f'writes t{count} g 1 none\n'])
for body, count in (('while(input()) g=g+1;', 8), ('for(long i=0;i<9;i++) if(g<5) g=g+1;', 8)):
    taken(f'{count} threads of `{body}`, 20 times each', 'long g; ' + beside(*[body * 20] * count), count,
          holds=[f'writes t{count} g 1 none\n'])

# numbers past the range: the flag has the point's number among all
LARGE = '9223372036854775807'
FLAGGED = beside(';', f'long x={LARGE}; x={LARGE}*x; x={LARGE}*x;')
case('a number past 127 bits', THREADS, FLAGGED, 0, begins='threads box count 2 delay 1 narrow 1\nflagged at point 5\n',
     holds=['\npoint 6 t2 '])
GIVEN = 'long g, h; ' + beside(f'g={LARGE};', f'h={LARGE}*g; h={LARGE}*h;')
case('the same of what another thread gives', THREADS, GIVEN, 0,
     begins='threads box count 2 delay 1 narrow 1\nflagged at point 4\n', holds=[f'\nwrites t1 g {LARGE} {LARGE}\n'])

# each allocation of one run refused, and a hundred of those of others
refuse_each(THREADS, 'long g; ' + beside(' g=1; g=2; ', ' long x; x=g; assert(x<=2); assert(x!=2); '), 1, [
    '\npoint 6 t2 1:64\n  row g >= 0\n  row g <= 2\n  row x >= 0\n  row x <= 2\n', '\nwrites t1 g 1 2\n'], 5000)
refuse_each(THREADS, 'void t1(void){}', 2, ['refused 17 NoThreads at 1:16\n'], 5000)
for source in (FULL, CALLS, RING, handing(32, 'if(g31>9) g0=g0-1;'), beside(*[nested(WHILE, 60)] * 8)):
    refuse_each(THREADS, source, 0, [], 0)
ended()
