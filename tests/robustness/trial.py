"""What the scripts of this folder share: runs of the program on a stack of 1 MB and in 4 GB of memory, within a limit of
processor time.

Each case prints one line. `ended()` ends with status 1 where a case disagreed. Expected values were written by hand.
"""
import os
import resource
import subprocess
import sys
from collections.abc import Iterable
from typing import NoReturn

HERE = os.path.dirname(os.path.abspath(__file__))
PROGRAM = os.path.abspath(sys.argv[1] if len(sys.argv) > 1 else os.path.join(HERE, '../../crates/lra/out/lra'))
if not os.access(PROGRAM, os.X_OK):
    sys.exit(f"{sys.argv[0]}: {PROGRAM} isn't there; ./prove builds it")
STACK = 1 << 20
MEMORY = 4 << 30
disagreed = 0


def bounded() -> None:
    """Gives the process a stack of 1 MB, and 4 GB of memory."""
    resource.setrlimit(resource.RLIMIT_STACK, (STACK, STACK))
    resource.setrlimit(resource.RLIMIT_AS, (MEMORY, MEMORY))


def spent() -> float:
    """The processor time of the processes that have ended, in seconds."""
    usage = resource.getrusage(resource.RUSAGE_CHILDREN)
    return usage.ru_utime + usage.ru_stime


def answer(words: str, source: str, added: dict[str, str] | None = None) -> tuple[int | None, str, float]:
    """The status (negative where a signal ended the run), what was written, and the processor time."""
    before = spent()
    environment = dict(os.environ, **added) if added else None
    try:
        run = subprocess.run([PROGRAM] + words.split(), input=source.encode(), capture_output=True, timeout=120,
                             preexec_fn=bounded, env=environment)
    except subprocess.TimeoutExpired:
        return None, '', 120.0
    return run.returncode, run.stdout.decode(), spent() - before


def streamed(words: str, source: str) -> tuple[int, int, bytes]:
    """Of a run whose text is too long to be kept: the status, how many bytes there are, and the last of them."""
    run = subprocess.Popen([PROGRAM] + words.split(), stdin=subprocess.PIPE, stdout=subprocess.PIPE, preexec_fn=bounded)
    assert run.stdin and run.stdout
    run.stdin.write(source.encode())
    run.stdin.close()
    size, last = 0, b''
    while part := run.stdout.read(1 << 20):
        size, last = size + len(part), (last + part)[-40:]
    return run.wait(), size, last


def tell(name: str, agrees: bool, seen: object) -> None:
    """Prints the case's line, with what was seen where it disagrees."""
    global disagreed
    if not agrees:
        disagreed += 1
    print(f'agrees    {name}' if agrees else f'DISAGREES {name}: {seen}', flush=True)


def case(name: str, words: str, source: str, status: int, whole: str | None = None, begins: str | None = None,
         holds: Iterable[str] = (), lacks: Iterable[str] = (), limit: float = 1.0) -> None:
    """Runs one case: its status, its text (whole, its beginning, what is in it, what isn't), its limit in seconds."""
    ended_with, text, seconds = answer(words, source)
    agrees = (ended_with == status and (whole is None or text == whole) and (begins is None or text.startswith(begins))
              and all(part in text for part in holds) and not any(part in text for part in lacks))
    tell(f'{name} ({seconds:.2f} s)', agrees and seconds <= limit, (ended_with, text[:100], f'limit {limit} s'))


def refused(name: str, source: str, text: str, words: str = 'analyse', limit: float = 1.0) -> None:
    """A source that is refused with this line alone."""
    case(name, words, source, 2, whole=text + '\n', limit=limit)


def ended() -> NoReturn:
    """Ends with status 1 where a case disagreed."""
    print(f'disagreed: {disagreed}')
    sys.exit(1 if disagreed else 0)
