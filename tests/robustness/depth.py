#!/usr/bin/env python3
"""Depth: sources as deep as they may be, in each domain, alone and in sets of parts, and what is one past each limit.

    tests/robustness/depth.py [PROGRAM]

Each run has a stack of 1 MB and ten seconds of processor time. A function nests 63 levels in its body; 32 calls may stand
on a path, 2,048 points in a program, 32 variables live at a point. Wants `cc` for its last row.
"""
from collections.abc import Iterable

from levels import BLOCK, COUNTING, DECLARED, IF, IF_BLOCK, MIXED, SINGLE, WHILE, WHILE_BLOCK
from levels import nested, points_of, stacked
from memory import refuse_each
from trial import case, ended, refused

DOMAINS = ('box', 'oct', 'poly')
WAYS = [f'analyse --domain {domain}{more}' for domain in DOMAINS for more in ('', ' --parts 16 --delay 8')]
LIMIT = 10

def answered(name: str, source: str, points: int, lacks: Iterable[str] = ('unreachable',)) -> None:
    """A row in each way: nothing is flagged, and each of the points has its line."""
    for words in WAYS:
        case(f'{name}, {words}', words, source, 0, holds=['\nflagged 0\n', f'\npoint {points} main '],
             lacks=(f'\npoint {points + 1} ', *lacks), limit=LIMIT)


def both(depth: int) -> str:
    """A choice in both branches of a choice, down one side and then down the other: two branches a level."""
    return 'if(input()) ' * depth + ';' + ' else ;' * depth


def place_of(source: str, word: str, count: int = 1) -> str:
    """Line and column of an occurrence of the word, as a refusal writes them."""
    at = -1
    for _ in range(count):
        at = source.index(word, at + 1)
    return f'{source.count(chr(10), 0, at) + 1}:{at - source.rfind(chr(10), 0, at)}'


# one function, and the level too many
for name, level in SINGLE.items():
    source = f'int main(void){{ {nested(level, 60)} }}'
    answered(f'60 {name} in one function', source, points_of(level, 60, 1))
    refused(f'a level more of {name}', f'int main(void){{ {nested(level, 64)} }}',
            f'refused 5 TooDeep at 1:{len("int main(void){ ") + 64 * len(level[0]) + level[3]}')
answered('15 mixtures of four levels', f'int main(void){{ {nested(MIXED, 15)} }}', points_of(MIXED, 15, 1))
answered('60 choices with both branches', f'int main(void){{ {both(60)} }}', 60 + 61 + 1)

# chains of calls
for count in (2, 5, 10, 20, 31):
    for name, level in SINGLE.items():
        if points_of(level, 60, count) <= 2048:
            answered(f'{count} functions of 60 {name}', stacked(level, 60, count), points_of(level, 60, count))
for name, level in SINGLE.items():
    if level[1] == 1:
        answered(f'as many points as may be: 32 functions of 62 {name}', stacked(level, 62, 32), 2048)
answered('16 functions of 63 while with blocks', stacked(WHILE_BLOCK, 63, 16), 2048)
answered('16 functions of 63 if with blocks', stacked(IF_BLOCK, 63, 16), 2048)

# one point, one call more: what is refused stands in the last function, or is the name that the first one calls
for name, level in SINGLE.items():
    if level[1] == 1:
        source = stacked(level, 62, 32, inside='; ;' if level is BLOCK else '{ ; }')
        refused(f'a point more, {name}', source, f'refused 13 TooManyPoints at {place_of(source, "}", source.count("}"))}')
source = stacked(IF, 1, 34)
refused('a call more', source, f'refused 13 TooManyPoints at {place_of(source, "f0();")}')

# a `for` with its beginning and its step: three points a level
answered('10 functions of 60 for that count', 'long x;\n' + stacked(COUNTING, 60, 10), points_of(COUNTING, 60, 10))

# declarations: as many variables as may live at a point, and one more. Each loop keeps what its last pass found, so what
# loops in loops take grows with the square of their number; where that passes the memory there is, nothing is written
for name, level, depth in (('while', WHILE, 10), ('if', IF, 60)):
    source = stacked(level, depth, 32, begins='long v; ')
    answered(f'32 functions of {depth} {name}, each with a variable', source, points_of(level, depth, 32) + 32)
    source = stacked(level, 60, 33, begins='long v; ')
    refused(f'a variable more, {name}', source, f'refused 12 TooManyVariables at {place_of(source, level[0])}')
case('24 functions of 60 while, each with a variable', 'analyse --domain oct', stacked(WHILE, 60, 24, begins='long v; '),
     6, whole='', limit=LIMIT)
answered('31 blocks with a variable each', f'int main(void){{ long w; {nested(DECLARED, 31)} }}',
         points_of(DECLARED, 31, 1) + 1)

# chains of operands, which nest nothing: as many as a source has room for
for operator in ('||', '&&'):
    operands = operator.join(['x'] * 20000)
    for words in WAYS:
        for head, status in (('if(%s) ;', 0), ('while(%s) ;', 0), ('assert(%s);', 1)):
            case(f'20,000 operands of {operator} in {head[:-5]}, {words}', words,
                 f'int main(void){{ long x; {head % operands} }}', status, holds=['\nflagged 0\n'], limit=LIMIT)

# labels of one `switch`, before one statement: as many as a source has room for
labels = ''.join(f'case {number}:' for number in range(6000))
for words in WAYS:
    case(f'6,000 labels, {words}', words, f'int main(void){{ long x=input(),y=0; switch(x){{ {labels} y=1; }} assert(y<=1); }}',
         0, holds=['\nflagged 0\n', 'verdicts proved 1 '], limit=LIMIT)

# jumps out of one loop: their values are joined one by one
jumps = 'if(input()) break; ' * 1000
answered('1,000 breaks out of one loop', f'int main(void){{ while(input()){{ {jumps}}} }}', 2003)

# each allocation of a deep run refused
refuse_each('analyse --domain box', stacked(WHILE, 20, 3), 0, ['\nflagged 0\n'])
ended()
