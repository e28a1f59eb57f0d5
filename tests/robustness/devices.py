#!/usr/bin/env python3
"""Each read and each write of a run failing in turn, ten bytes a call, and devices that always fail.

    tests/robustness/devices.py [PROGRAM]

Wants `cc`, and Linux's /dev/full.
"""
import os
import subprocess
import tempfile
from typing import IO

from shim import made
from trial import PROGRAM, answer, bounded, ended, tell

LIBRARY = made()
WORDS = 'analyse --domain box'
SOURCE = 'int main(void){ long x; x = 3; assert(x >= 3); }'
REPORT = '''analysis box parts 1 delay 1 narrow 1 limited no
flagged 0
point 1 main 1:22
  row true
point 2 main 1:25
  row true
point 3 main 1:32
  row x = 3
point 4 main 1:48
  row x = 3
assert 3 main 1:32 proved
verdicts proved 1 unknown 0
'''


def fail(read: int, write: int) -> tuple[int | None, str]:
    """The status and what is written where this read and this write fail."""
    return answer(WORDS, SOURCE, {'LD_PRELOAD': LIBRARY, 'FAILED_READ': str(read), 'FAILED_WRITE': str(write)})[:2]


def run_over(source: int | IO[bytes], sink: int | IO[bytes]) -> int:
    """The status of a run over these files."""
    return subprocess.run([PROGRAM] + WORDS.split(), stdin=source, stdout=sink, preexec_fn=bounded).returncode


def expect(name: str, seen: object, wanted: object) -> None:
    """Prints the line of a case."""
    tell(name, seen == wanted, seen)


assert len(REPORT) == 231
expect('no call fails', fail(0, 0), (0, REPORT))
for call in range(1, 7):
    expect(f'read {call} fails', fail(call, 0), (4, ''))
expect('a seventh read is not made', fail(7, 0), (0, REPORT))
for call in range(1, 25):
    expect(f'write {call} fails', fail(0, call), (5, REPORT[:10 * (call - 1)]))
expect('a 25th write is not made', fail(0, 25), (0, REPORT))

# devices of the system: one that gives nothing, two that take nothing
with tempfile.TemporaryFile() as held:
    folder = os.open('/', os.O_RDONLY)
    expect('a folder is read', (run_over(folder, held), os.fstat(held.fileno()).st_size), (4, 0))
    os.close(folder)
with tempfile.TemporaryFile() as text, open('/dev/full', 'wb') as full:
    text.write(SOURCE.encode())
    text.seek(0)
    expect('a full device is written', run_over(text, full), 5)
    behind, front = os.pipe()
    os.close(behind)
    text.seek(0)
    expect('a pipe without a reader is written', run_over(text, front), 5)
    os.close(front)
ended()
