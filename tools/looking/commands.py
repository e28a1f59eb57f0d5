"""What the commands share: words, faults, whole files. Outside of what is proved."""
import argparse
import os
import sys
import tempfile
import time
from collections.abc import Callable
from typing import NoReturn

from looking.reports import PROGRAM, Answer, Failed, Fault, Report, analyse, read_report, read_source
from looking.sources import Source

# The exit status where a tool itself refuses.
REFUSED = 7
VALUED = ('domain', 'parts', 'delay', 'narrow')
FLAGS = ('limited', 'thresholds', 'fits', 'best')


class Words(argparse.ArgumentParser):
    """The words of a command; wrong ones are refused with the status of the tools."""

    def error(self, message: str) -> NoReturn:
        print(f'{self.prog}: {message}', file=sys.stderr)
        sys.exit(REFUSED)


def words_of(name: str, text: str, with_report: bool = True) -> Words:
    """The words that all commands take over sources."""
    words = Words(
        prog=f'tools/{name}', description=text, formatter_class=argparse.RawDescriptionHelpFormatter, allow_abbrev=False
    )
    words.add_argument(
        '--lra', metavar='PROGRAM', default=PROGRAM, help='the program (default: crates/lra/out/lra)'
    )
    if with_report:
        words.add_argument(
            '--report', metavar='FILE', help='a report as JSON of the one source, instead of a run; - is standard input'
        )
    for option in VALUED:
        words.add_argument(f'--{option}', metavar='WORD', help='passed on to lra')
    for option in FLAGS:
        words.add_argument(f'--{option}', action='store_true', help='passed on to lra')
    return words


def handed_on(asked: argparse.Namespace) -> list[str]:
    """The words for lra."""
    valued = [
        word
        for option in VALUED
        if getattr(asked, option) is not None
        for word in (f'--{option}', getattr(asked, option))
    ]
    return valued + [f'--{option}' for option in FLAGS if getattr(asked, option)]


def read_bytes(name: str) -> bytes:
    """The bytes of a file, or of standard input."""
    try:
        if name == '-':
            return sys.stdin.buffer.read()
        with open(name, 'rb') as file:
            return file.read()
    except OSError as fault:
        raise Fault(f'{name}: {fault.strerror}') from None


def read_answer(source: Source, asked: argparse.Namespace) -> Answer:
    """What is said of the source: by the report that is named, else by the program."""
    if getattr(asked, 'report', None) is None:
        begun = time.monotonic()
        answer = analyse(source, asked.lra, handed_on(asked))
        if isinstance(answer, Report):
            answer.milliseconds = 1000 * (time.monotonic() - begun)
        return answer
    try:
        return read_report(read_bytes(asked.report), source)
    except Fault as fault:
        raise Fault(f'{asked.report}: {fault}') from None


def read_answers(names: list[str], asked: argparse.Namespace) -> list[tuple[Source, Answer]]:
    """The sources, each with what is said of it."""
    if getattr(asked, 'report', None) is not None and len(names) != 1:
        raise Fault('--report needs exactly one source')
    found = []
    for name in names:
        source = read_source(name)
        found.append((source, read_answer(source, asked)))
    return found


def write_whole(name: str, text: str) -> None:
    """Writes the file beside its place and moves it there: it stands whole, or as it was. Lone halves of pairs
    become `?`."""
    folder = os.path.dirname(os.path.abspath(name))
    try:
        handle, beside = tempfile.mkstemp(prefix='.', suffix='.new', dir=folder)
        try:
            with open(handle, 'wb') as file:
                file.write(text.encode('utf-8', 'replace'))
            os.chmod(beside, 0o666 & ~current_mask())
            os.replace(beside, name)
        except BaseException:
            os.unlink(beside)
            raise
    except OSError as fault:
        raise Fault(f'{name}: {fault.strerror}') from None


def current_mask() -> int:
    """The mask of the modes of new files."""
    mask = os.umask(0)
    os.umask(mask)
    return mask


def put(text: str) -> None:
    """Writes the text to standard output."""
    sys.stdout.buffer.write(text.encode('utf-8', 'surrogateescape'))
    sys.stdout.buffer.flush()


def run(name: str, command: Callable[[list[str]], int]) -> NoReturn:
    """Runs a command: what the tools refuse is one line on standard error, and its status."""
    try:
        status = command(sys.argv[1:])
    except Fault as fault:
        print(f'tools/{name}: {fault}', file=sys.stderr)
        status = REFUSED
    except Failed as fault:
        print(f'tools/{name}: {fault}', file=sys.stderr)
        status = fault.status
    except BrokenPipeError:
        sys.stderr.close()
        status = REFUSED
    except KeyboardInterrupt:
        status = 130
    sys.exit(status)
