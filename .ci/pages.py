"""What pages say of the tree: names, files, lines and counts. Each function gives faults, as `PAGE:LINE: WHAT`.

A name is a single word in backticks, or one with dots, `::`, slashes or hyphens. Other texts in backticks (C, rows,
lines of a shell) aren't looked at, nor are numbers, single letters, and words in capitals, which stand for another.
"""
import functools
import os
import re
from collections.abc import Callable, Iterator
from typing import NamedTuple

TOP = os.path.dirname(os.path.dirname(os.path.realpath(__file__)))
# Names of the past stand in these, and are left alone.
LEFT_OUT = ('docs/renames.txt', 'CHANGELOG.md')
# What a shell, the toolchain and other tools call theirs.
OUTSIDE = set('awk bash cat cc clang cmp code cp curl cut diff echo env gcc git grep head jq kill less ls make mypy '
              'nice nproc ocaml perf printf python python3 rm rt rattle sed sh sort strace strings tail taskset tee '
              'time ulimit uniq valgrind wc xdg-open -O2 -O3 --allow-holes .vscode/tasks.json'.split())
# Words of C and of Rattle that aren't declared.
KEYWORDS = set('auto bool break case char const continue default do double else enum extern float for goto if int long '
               'main register return short signed sizeof static struct switch typedef union unsigned void volatile '
               'while as async dyn fn impl in let loop match mod move mut pub ref self trait type unsafe use where '
               'abbrev data decreases ensures ghost invariant laws record requires simp tactic unfolding using view '
               'None Some Ok Err true false'.split())
# On these a word of code is enough, since the prover's goals and the toolchain's words are declared nowhere.
LOOSE = ('docs/PROOFS.md', 'docs/TUTORIAL.md')
# The words of the formats are those of the blocks of these.
FORMATS = ('docs/CERTIFICATES.md', 'docs/EDITORS.md', 'docs/LANGUAGE.md', 'docs/REPORT.md', 'docs/SCRIPTS.md')
# What was measured at other times, and counted then.
MEASURED = ('docs/SPEED.md',)
# Columns of tables that have other tools' names.
FOREIGN = re.compile(r'PPL|Apron|ELINA|Eva|IKOS|Verasco|MOPSA')
WORD = re.compile(r"[^\W\d][\w']*")
BLOCK = re.compile(r'^```\w*\n(.*?)^```|(?<=\n\n)((?:^ {4}[^\n]*\n)+)', re.MULTILINE | re.DOTALL)
SPAN = re.compile(r'`([^`]+)`')
NAME = re.compile(r"-{0,2}[^\W\d][\w./:'-]*|\.{1,2}/?[\w./-]+|\.\w[\w./-]*")
CITED = re.compile(r'([\w./-]+):(\d+)')
FUNCTION = re.compile(r'\s*(?:pub(?:\([\w ]+\))? )?(?:const )?fn (\w+)')
CLAUSE = re.compile(r'\s*(?:ensures|requires) (\w+) \{')
TYPE = re.compile(r'\s*(?:pub(?:\([\w ]+\))? )?(?:struct|enum|trait|type|const) (\w+)')
GHOST = re.compile(r'\s+ghost (\w+)')
DATA = re.compile(r'\s*(?:(?:abbrev|pub) )*(?:data|record) (?:pub )?(\w+)')
DEFINED = re.compile(r"\s*(?:(?:abbrev|pub|mod|module|coherent) )*([^\s(){}:]+)(?= [:({]|$)")
COUNTED = re.compile(r'(\d[\d,]*)(<!-- ([\w ]+) -->)? +(?:must-fail +)?'
                     r'(crates|edits|mutants|assertions|cases|programs|scripts|certificates)\b')
MARK = re.compile(r'(\d[\d,]*)<!-- ([\w ]+) -->')
DATE = re.compile(r'\b20\d\d-\d\d-\d\d\b')


class Place(NamedTuple):
    """Where a name is declared: its file and line, and the function or the type that it is of."""
    owner: str
    name: str
    line: int


def text_of(path: str) -> str:
    """The text of a file, by its path from the top."""
    with open(f'{TOP}/{path}', encoding='utf-8', errors='replace') as file:
        return file.read()


@functools.cache
def files() -> list[str]:
    """All files, by their paths from the top, but for what the toolchain and git make."""
    found = []
    for at, folders, names in os.walk(TOP):
        folders[:] = sorted(name for name in folders if name not in ('.git', 'out', '__pycache__', '.mypy_cache'))
        found += [os.path.relpath(os.path.join(at, name), TOP) for name in sorted(names)]
    return found


@functools.cache
def pages() -> list[str]:
    """The pages that are looked at."""
    return [path for path in files() if path not in LEFT_OUT and (
        path in ('README.md', 'CONTRIBUTING.md', 'crates/guzhtarel/CALLING.md') or re.fullmatch(r'docs/\w+\.md', path))]


@functools.cache
def crates() -> list[str]:
    """The names that crates.txt lists."""
    return re.findall(r'^([a-z]\w*)[^:\n]*:', text_of('crates.txt'), re.MULTILINE)


def bare(path: str) -> str:
    """The text of a file without its comments."""
    if path.endswith('.rt'):
        return re.sub(r'//[^\n]*', '', text_of(path))
    return re.sub(r'(?m)(^|\s)--\s[^\n]*', '', text_of(path)) if path.endswith('.antt') else text_of(path)


def declared_in(path: str, text: str) -> set[str]:
    """The names that a file declares or imports, and the words of its texts; of other files all words."""
    if path.endswith('.rt'):
        found = set(re.findall(r'\b(?:fn|struct|enum|trait|type|const|static|mod|ensures|requires|ghost) +(\w+)', text))
        found.update(re.findall(r'(?m)^\s*(?:pub(?:\([\w ]+\))? )?(\w+):', text))
        found.update(re.findall(r'\b[A-Z]\w*', text))
        found.update(word for words in re.findall(r'\buse ([^;]*);', text) for word in WORD.findall(words))
        texts = ' '.join(re.findall(r'"((?:[^"\\]|\\.)*)"', text))
        found.update(re.findall(r'[\w-]+', texts))
        return found
    if not path.endswith('.antt'):
        return set(WORD.findall(text)) | set(re.findall(r'--?\w[\w-]*', text))
    found = {match[1] for line in text.split('\n') for match in (DATA.match(line), DEFINED.match(line)) if match}
    found.update(word for line in re.findall(r'(?m)^\s*(?:pub )?use .*$', text) for word in WORD.findall(line))
    return found


@functools.cache
def known() -> tuple[set[str], set[str]]:
    """The names of the tree, and all words of its code."""
    names, words = KEYWORDS | OUTSIDE | set(crates()), set()
    for path in files():
        if path in LEFT_OUT or path.endswith(('.png', '.svg')):
            continue
        if path.endswith('.md'):
            blocks = BLOCK.findall(text_of(path)) if path in FORMATS else []
            names.update(word for block in blocks for word in re.findall(r"-{0,2}\w[\w'-]*", ''.join(block)))
            continue
        text = bare(path)
        names |= declared_in(path, text)
        words.update(WORD.findall(text))
    return names, names | words


@functools.cache
def tails() -> dict[str, list[str]]:
    """Each path of the tree, and each end of one, with and without its ending, with the files that it stands for."""
    found: dict[str, list[str]] = {}
    for path in files():
        parts = path.split('/')
        for first in range(len(parts)):
            tail = '/'.join(parts[first:])
            for text in {tail, re.sub(r'(?<=\w)\.\w+$', '', tail)}:
                found.setdefault(text, []).append(path)
            for last in range(first + 1, len(parts)):
                found.setdefault('/'.join(parts[first:last]), [])
    return found


def shape(text: str) -> str:
    """The page with its code blocks, and the cells of other tools' columns, left blank; lines stay."""
    text = re.sub(r'(?ms)^```.*?^```', lambda block: '\n' * block[0].count('\n'), text)
    lines: list[str] = []
    foreign: set[int] = set()
    for line in text.split('\n'):
        if line.startswith('|'):
            cells = re.split(r'(?<!\\)\|', line)
            if not lines or not lines[-1].startswith('|'):
                foreign = {k for k, cell in enumerate(cells) if FOREIGN.search(cell)}
            line = '|'.join(cell if k not in foreign else ' ' for k, cell in enumerate(cells))
        lines.append('' if line.startswith('    ') and (not lines or not lines[-1].strip()) else line)
    return '\n'.join(lines)


def spans(page: str) -> Iterator[tuple[str, int, str]]:
    """The texts in backticks of a page, each with its line and what stands between it and the one before."""
    text, end = shape(text_of(page)), 0
    for match in SPAN.finditer(text):
        yield re.sub(r'\s+', ' ', match[1]), text.count('\n', 0, match.start()) + 1, text[end:match.start()]
        end = match.end()


def is_known(name: str, names: set[str]) -> bool:
    """Whether a name is one of the tree: a path, or each word of it declared; `x..` and `_x` stand for longer names."""
    name = name.removeprefix('./')
    if name.endswith('..') and any(other.startswith(name[:-2]) for other in tails()):
        return True
    if name.rstrip('/') in tails() or name in names or re.fullmatch(r'[A-Z][A-Z_]+', name):
        return True
    if name.startswith('_'):
        return any(other.endswith(name) for other in names)
    if '/' in name:
        return '/out/' in f'/{name}/' or bool(re.search(r'\b[A-Z]{3,}\b', name))
    parts = [part for part in re.split(r'::|[.:-]', name) if part]
    return bool(parts) and all(part in names or re.fullmatch(r'\w|[a-z][A-Z]|[A-Z][A-Z_]+|\d+', part) for part in parts)


@functools.cache
def words_of(whole: str) -> set[str]:
    """The words of the files for which a path stands, or of a crate; none where it stands for something else."""
    paths = [path for path in files() if path.startswith(f'crates/{whole}/')] if whole in crates() else []
    paths += tails().get(whole, []) if '/' in whole else []
    return {word for path in paths for word in WORD.findall(bare(path)) + re.findall(r'\w+', path)}


def name_faults() -> list[str]:
    """Names on pages that are nowhere in the tree, or not in the crate or the file of which they are said to be."""
    found = []
    for page in pages():
        names, before = known()[page in LOOSE], ''
        for text, line, between in spans(page):
            whole = [text] if NAME.fullmatch(text) and not CITED.fullmatch(text) else []
            for name in whole or re.findall(r'(?<!\S)--[a-z][\w-]*', text):
                if not is_known(name, names):
                    found.append(f'{page}:{line}: {name} is nowhere in the tree')
            part, words = re.split(r'::|[./]', before)[-1], words_of(text) if between.strip() == 'of' else set()
            if words and WORD.fullmatch(part) and part not in words:
                found.append(f'{page}:{line}: {before} is nowhere in {text}')
            before = text
    return found


def link_faults() -> list[str]:
    """Links on pages to files that aren't there."""
    found = []
    for page in pages():
        text = shape(text_of(page))
        for link in re.finditer(r'\]\(([^)#:\s]+)(?:#[^)]*)?\)', text):
            if not os.path.exists(os.path.join(TOP, os.path.dirname(page), link[1])):
                found.append(f'{page}:{text.count(chr(10), 0, link.start()) + 1}: {link[1]} is nowhere in the tree')
    return found


@functools.cache
def places(path: str) -> list[Place]:
    """What a file declares, line by line: functions with their clauses, types, definitions with their fields."""
    found, owner, depth = [], '', 0
    for k, line in enumerate(text_of(path).split('\n'), 1):
        if path.endswith('.antt'):
            data, name, indent = DATA.match(line), DEFINED.match(line), len(line) - len(line.lstrip())
            if data:
                owner, depth = data[1], indent
                found.append(Place('', owner, k))
            elif name:
                owner = owner if indent > depth else ''
                found.append(Place(owner, name[1], k))
            continue
        clause, head = CLAUSE.match(line), FUNCTION.match(line) or TYPE.match(line) or GHOST.match(line)
        if clause:
            found.append(Place(owner, clause[1], k))
        elif head:
            owner = head[1]
            found.append(Place('', owner, k))
    return found


class Citation(NamedTuple):
    """A file and a line that a page cites, the name for which it does, and the names that the name may be of."""
    page: str
    line: int
    text: str
    path: str
    cited: int
    name: str
    owners: set[str]


def file_for(path: str, crate: str) -> str:
    """The file for which a path on a page stands, below the top, `crates/` or the crate of the heading."""
    for full in (path, f'crates/{path}', f'crates/{crate}/{path}'):
        if os.path.isfile(f'{TOP}/{full}'):
            return full
    return ''


def citations() -> Iterator[Citation]:
    """The files with lines that pages cite. What stands in backticks just before, with a comma, is the name."""
    for page in pages():
        lines = text_of(page).split('\n')
        headings = {k: set(re.findall(r'`(?:\w+::)?(\w+)`', line))
                    for k, line in enumerate(lines, 1) if re.match(r'##+ ', line)}
        before: list[tuple[str, int, str]] = []
        for text, line, between in spans(page):
            match = CITED.fullmatch(text)
            if match:
                above = [headings[k] for k in sorted(headings) if k < line][-2:]
                crate = next((name for names in reversed(above) for name in names if name in crates()), '')
                name, owners = '', set()
                if before and re.fullmatch(r',\s+', between):
                    name = before[-1][0]
                    if len(before) > 1 and re.fullmatch(r'\s+of\s+', before[-1][2]):
                        name, owners = before[-2][0], {before[-1][0]}
                if not owners:
                    owners = {word for words in above for word in words}
                    start = next(k for k in range(line, 0, -1) if k == 1 or re.match(r'\s*- |\s*$', lines[k - 1]))
                    owners |= {word.split('::')[-1] for word, at, _ in before if at >= start}
                yield Citation(page, line, text, file_for(match[1], crate), int(match[2]), name, owners)
            before.append((text, line, between))


def right_lines(citation: Citation) -> list[int]:
    """The lines of the cited file that declare the name, of one of its owners where it is of one."""
    return [place.line for place in places(citation.path) if place.name == citation.name.split('::')[-1]
            and (not place.owner or place.owner in citation.owners)]


def citation_faults() -> list[str]:
    """Cited files that aren't there, and cited lines that don't declare the name for which they are cited."""
    found = []
    for one in citations():
        if not one.path:
            found.append(f'{one.page}:{one.line}: {one.text} is nowhere in the tree')
        elif one.cited > text_of(one.path).count('\n'):
            found.append(f'{one.page}:{one.line}: {one.text} is past the end of the file')
        elif one.name and one.cited not in right_lines(one):
            where = ', '.join(map(str, right_lines(one))) or 'nowhere in that file'
            found.append(f'{one.page}:{one.line}: {one.text} does not declare {one.name}: it is at {where}')
    return found


def mend_lines() -> None:
    """Writes the lines that have moved on the pages that cite them: of several the nearest."""
    for page in pages():
        text, at = text_of(page), 0
        for one in citations():
            if one.page != page:
                continue
            at = text.index(f'`{one.text}`', at)
            lines = right_lines(one) if one.path and one.name else []
            if lines and one.cited not in lines:
                new = min(lines, key=lambda line: abs(line - one.cited))
                moved = re.sub(r'\d+$', str(new), one.text)
                text = text[:at] + f'`{moved}`' + text[at + len(one.text) + 2:]
            at += 1
        if text != text_of(page):
            with open(f'{TOP}/{page}', 'w', encoding='utf-8') as file:
                file.write(text)


def count_files(pattern: str) -> int:
    """How many files have paths of this form."""
    return sum(bool(re.fullmatch(pattern, path)) for path in files())


# What a mark behind a number on a page says that the number counts.
COUNTS: dict[str, Callable[[], int]] = {
    'crates': lambda: len(crates()),
    'mutants': lambda: count_files(r'(?:mutants|crates/\w+/must-fail)/.*\.edit'),
    'mutants in the gate': lambda: count_files(r'crates/\w+/must-fail/.*\.edit'),
    'programs': lambda: count_files(r'examples/\w+\.c'),
    'scripts': lambda: count_files(r'examples/\w+\.calc'),
    'certificates': lambda: count_files(r'examples/\w+\.cert'),
    'assertions': lambda: sum(len(re.findall(r'\bassert\s*\(', text_of(path)))
                              for path in files() if re.fullmatch(r'examples/\w+\.c', path)),
}


def count_faults() -> list[str]:
    """Marked numbers that aren't what they count, and numbers that count something and have neither mark nor date."""
    found = []
    for page in pages():
        text = shape(text_of(page))
        for mark in MARK.finditer(text):
            line, counted = text.count('\n', 0, mark.start()) + 1, COUNTS.get(mark[2])
            if counted is None:
                found.append(f'{page}:{line}: nothing counts {mark[2]}')
            elif int(mark[1].replace(',', '')) != counted():
                found.append(f'{page}:{line}: {mark[1]} {mark[2]}, and there are {counted()}')
        for number in COUNTED.finditer(text):
            section = text[max(text.rfind('\n## ', 0, number.start()), 0):]
            section = section[:section.find('\n## ', 1)] if '\n## ' in section[1:] else section
            if not number[2] and page not in MEASURED and not DATE.search(section):
                line = text.count('\n', 0, number.start()) + 1
                found.append(f'{page}:{line}: {number[0]}: a mark is missing after the number, as <!-- mutants -->, '
                             'or its date')
    return found
