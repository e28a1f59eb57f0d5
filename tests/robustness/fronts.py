#!/usr/bin/env python3
"""The fronts of a source: each that isn't empty is refused as Syntax, some at known places; of several threads' those
that end behind a definition are whole, and have too few threads.

    tests/robustness/fronts.py [PROGRAM]
"""
from trial import answer, ended, refused, tell

SOURCES = {
    'int main(void){ long x; x = 3; assert(x >= 3); }': {2: '1:1', 3: '1:4', 11: '1:10', 47: '1:48'},
    'int main(void){ int x=input(); for(int i=0;i<x;i++) ; }': {19: '1:20', 20: '1:21', 37: '1:38', 54: '1:55'},
}

refused('no byte', '', 'refused 6 NoMain at 1:1')
for source, places in SOURCES.items():
    for count in range(1, len(source)):
        if count in places:
            refused(f'{count} bytes of {source}', source[:count], f'refused 4 Syntax at {places[count]}')
            continue
        status, text, _ = answer('analyse', source[:count])
        told = text.startswith('refused 4 Syntax at 1:') and text.endswith('\n') and text.count('\n') == 1
        tell(f'{count} bytes of {source}', status == 2 and told, (status, text))
THREADS = 'long g; void t1(void){ g=1; } void t2(void){ assert(g<2); }'
refused('no byte, no thread', '', 'refused 17 NoThreads at 1:1', words='threads')
for count in range(1, len(THREADS)):
    status, text, _ = answer('threads', THREADS[:count])
    wanted = f'refused 17 NoThreads at 1:{count + 1}\n' if count in (7, 8, 29, 30) else 'refused 4 Syntax at 1:'
    tell(f'{count} bytes of {THREADS}', status == 2 and text.startswith(wanted) and text.count('\n') == 1, (status, text))
ended()
