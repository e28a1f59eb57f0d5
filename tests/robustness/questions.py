#!/usr/bin/env python3
"""Each allocation of the tests of `lra_tests_queries` refused in turn: calls of the library that make polyhedra, boxes and
lists answer that memory is wanting, so the test ends at an assertion of its own, and in no other way.

    tests/robustness/questions.py [PROGRAM]

PROGRAM is that of the tests, which the gate builds. Wants `cc`. Prints for each test how many allocations it has.
"""
import os
import subprocess
import sys

from shim import made

HERE = os.path.dirname(os.path.abspath(__file__))
BUILT = os.path.join(HERE, '../../crates/lra_tests_queries/out/lra_tests_queries_tests')
PROGRAM = os.path.abspath(sys.argv[1] if len(sys.argv) > 1 else BUILT)
LIBRARY = made()


def ended(test: str, **added: str) -> tuple[int, str]:
    """How a run of the test ended: its status, negative where a signal ended it, and what it said on standard error."""
    run = subprocess.run([PROGRAM, test], capture_output=True, timeout=120,
                         env=dict(os.environ, LD_PRELOAD=LIBRARY, **added))
    return run.returncode, run.stderr.decode()


def is_refused(status: int, said: str) -> bool:
    """Whether an assertion of the test ended the run."""
    return status == -6 and 'assertion failed: ' in said


def main() -> int:
    disagreed = 0
    listed = subprocess.run([PROGRAM, '--list'], capture_output=True, text=True, check=True).stdout
    for test in [line[:-len(': test')] for line in listed.split('\n') if line.endswith(': test')]:
        status, said = ended(test, COUNTED='1')
        count = int(said.split()[-3]) if status == 0 else 0
        others = [number for number in range(1, count + 1) if not is_refused(*ended(test, REFUSED=str(number)))]
        disagreed += bool(others) or count == 0
        print(f'{"DISAGREES" if others or count == 0 else "agrees   "} {test}: {count} allocations', *others[:3])
    print(f'disagreed: {disagreed}')
    return 1 if disagreed else 0


sys.exit(main())
