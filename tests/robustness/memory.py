#!/usr/bin/env python3
"""Each allocation of some runs refused in turn: the status is 6 and nothing is written, or the answer is the run's own.

    tests/robustness/memory.py [PROGRAM]

Wants `cc`. Prints for each run how many allocations it has, and how often each of the two came.
"""
import os
import subprocess
from collections.abc import Iterable

from shim import made
from trial import PROGRAM, answer, bounded, ended, tell

LIBRARY = made()
UNEQUAL = 'int main(void){ long x, y; if(x!=y) ; }'
HALF = 'int main(void){ long x; if(2*x==1) assert(0); }'

# Words, a source, the status, and what stands in the answer.
RUNS = [
    ('analyse --domain box', 'int main(void){ long x; x = 3; assert(x >= 3); }', 0, [
        'analysis box parts 1 delay 1 narrow 1 limited no\nflagged 0\npoint 1 main 1:22\n  row true\n'
        'point 2 main 1:25\n  row true\npoint 3 main 1:32\n  row x = 3\npoint 4 main 1:48\n  row x = 3\n'
        'assert 3 main 1:32 proved\nverdicts proved 1 unknown 0\n']),
    ('analyse', 'int main(void){ long i=2, j=0; while(input()) if(input()) i=i+4; else { j=j+1; i=i+2; } }', 0, [
        '\nflagged 0\n', 'point 3 main 1:32\n  row i - 2*j >= 2\n  row j >= 0\n  gen point i=2 j=0\n  gen ray i=1 j=0\n'
        '  gen ray i=2 j=1\npoint 4 ']),
    ('analyse --domain oct', HALF, 0, [
        'point 3 main 1:36\n  unreachable\npoint 4 main 1:47\n  row true\nassert 3 main 1:36 proved\n']),
    ('analyse', UNEQUAL, 0, [
        f'point {point}\n  row true\n  gen point x=0 y=0\n  gen line x=1 y=0\n  gen line x=0 y=1\n'
        for point in ('4 main 1:37', '5 main 1:39')]),
    ('analyse --parts 2', UNEQUAL, 0, [
        'point 4 main 1:37\n  row x - y <= -1\n  gen point x=0 y=1\n  gen ray x=0 y=1\n  gen line x=1 y=1\n  or\n'
        '  row x - y >= 1\n  gen point x=0 y=-1\n  gen ray x=0 y=-1\n  gen line x=1 y=1\n'
        'point 5 main 1:39\n  row x - y <= -1\n  gen point x=0 y=1\n  gen ray x=0 y=1\n  gen line x=1 y=1\n  or\n'
        '  row x - y >= 0\n  gen point x=0 y=0\n  gen ray x=0 y=-1\n  gen line x=1 y=1\nverdicts ']),
    ('calc', 'dims 2\ngen P point 1 0 1\ngen Q point 1 0 0 ; line 1 0\nhull R P Q\nshow R\ninclude Q R\ninclude R Q\n'
     'maximise R 0 1 0\nmaximise R 0 0 1\n', 0, [
         'show R\n  row x2 >= 0\n  row x2 <= 1\n  gen point x1=0 x2=0\n  gen point x1=0 x2=1\n  gen line x1=1 x2=0\n'
         'include Q R yes\ninclude R Q no point x1=0 x2=1\nmaximise R unbounded line x1=1 x2=0\n'
         'maximise R at 1 point x1=0 x2=1\nflagged 0\n']),
    ('analyse --domain box',
     'long inc(long x){ x=x+1; return x; } int main(void){ long x=inc(1); x=inc(x); assert(x==3); }', 0, [
         'point 2 main/inc@1:61 1:19\n  row x = 1\n', 'point 4 main/inc@1:61 1:36\n  unreachable\n',
         'point 6 main/inc@1:71 1:19\n  row x~1 = 2\n  row x = 2\n', 'point 9 main 1:79\n  row x = 3\n',
         'verdicts proved 1 unknown 0\n']),
    ('analyse --json', 'int main(void){}', 0, [
        '{"analysis":{"delay":1,"domain":"poly","limited":false,"narrow":1,"parts":1},"asserts":[],"flagged":0,'
        '"points":[{"number":1,"parts":[{"generators":["point"],"rows":[]}],"path":"main","place":"1:16"}],'
        '"proved":0,"unknown":0}\n']),
    ('analyse --domain box --fits',
     'int f(long a){ return a; } int main(void){ int x; if(x>-5 && -x>0) x=f(x*2L); }', 0, [
         '\nfit 2 main 1:51 fits\nfit 3 main 1:68 fits\n'
         'fit 4 main/f@1:70 1:16 fits\nverdicts proved 0 unknown 0\n']),
    ('verify', 'certificate bytes 48\nint main(void){ long x; x = 3; assert(x >= 3); }\npoint 1\npoint 2\npoint 3\n'
     '  = -3 1\npoint 4\n  = -3 1\nedge 0 1\nedge 1 2\nedge 2 3\nby 1 0\nby 1 0\nedge 3 4\nby 1 0 1 0\nby 1 0 -1 0\n'
     'assert 3\ndead 1 0 1 1\nend\n', 0, ['verified points 4 proved 1\n']),
    ('certify', 'int main(void){ long x; x = 3; assert(x >= 3); }', 0, [
        'certificate bytes 48\nint main(void){ long x; x = 3; assert(x >= 3); }\npoint 1\npoint 2\npoint 3\n  = -3 1\n'
        'point 4\n  = -3 1\nedge 0 1\nedge 1 2\nedge 2 3\nby 1 0\nby 1 0\nedge 3 4\nby 1 0 1 0\nby 1 0 -1 0\n'
        'assert 3\ndead 1 0 1 1\nend\n']),
    ('analyse --domain cube', '', 3, ['refused usage\n']),
]


def count_allocations(words: str, source: str) -> int:
    """How many allocations the run has."""
    run = subprocess.run([PROGRAM] + words.split(), input=source.encode(), capture_output=True, preexec_fn=bounded,
                         env=dict(os.environ, LD_PRELOAD=LIBRARY, COUNTED='1'))
    return int(run.stderr.split()[-3])


def refuse_each(words: str, source: str, status: int, told: Iterable[str], most: int | None = None) -> None:
    """Refuses each allocation in turn, and prints the line of the run; of more than `most` a hundred, spread over all."""
    name = f'{words}: {source[:40]!r}'
    ended_with, text, _ = answer(words, source)
    if ended_with != status or not all(part in text for part in told):
        tell(name, False, (ended_with, text))
        return
    count = count_allocations(words, source)
    empty, same, others = 0, 0, []
    every = most is None or count <= most
    for number in range(1, count + 1) if every else (1 + k * (count - 1) // 99 for k in range(100)):
        seen = answer(words, source, {'LD_PRELOAD': LIBRARY, 'REFUSED': str(number)})[:2]
        if seen == (6, ''):
            empty += 1
        elif seen == (status, text):
            same += 1
        else:
            others.append((number, seen))
    tell(f'{name}: {count} allocations, {empty} ended with status 6 and nothing written, {same} with the whole answer',
         not others and count > 0, others[:3])


if __name__ == '__main__':
    for row in RUNS:
        refuse_each(*row)
    ended()
