"""Cuts a program's LLVM module, in the text that clang prints, into parts that are compiled side by side and linked.

What `main` doesn't reach is left out. Each function of more than LONG lines stands in one part and is declared in the
others; shorter ones, and constants, stand in each part that needs them, so that they are still written into their
callers.
"""
import re
from collections.abc import Callable, Iterable
from dataclasses import dataclass

LONG = 200
NAME = re.compile(r'@("[^"]*"|[\w.$-]+)')


class Uncut(Exception):
    """The module isn't of the form that can be cut."""


@dataclass(frozen=True)
class Module:
    """Functions, constants and declarations by their names, the lines beside them, and the names that each uses."""

    functions: dict[str, str]
    constants: dict[str, str]
    declared: dict[str, str]
    others: list[str]
    uses: dict[str, set[str]]


def name_in(text: str) -> str:
    """The first name of a global in the text."""
    found = NAME.search(text)
    if found is None:
        raise Uncut(f'no name: {text[:100]}')
    return found[1]


def read_module(text: str) -> Module:
    """The module of this text."""
    head, *pieces = re.split(r'(?m)^(?=define )', text)
    lines, functions = head.split('\n'), {}
    for piece in pieces:
        end = piece.index('\n}\n') + 3
        functions[name_in(piece)] = piece[:end]
        lines += piece[end:].split('\n')
    constants = {name_in(line): line for line in lines if line.startswith('@')}
    declared = {name_in(line): line for line in lines if line.startswith('declare ')}
    others = [line for line in lines if line and not line.startswith((';', '@', 'declare '))]
    uses = {name: set(NAME.findall(text)) for name, text in [*functions.items(), *constants.items()]}
    return Module(functions, constants, declared, others, uses)


def check(module: Module) -> None:
    """Refuses a module in which a variable, or a name that others may use, would stand in two parts."""
    for line in module.constants.values():
        if ' constant ' not in line or ' private ' not in line:
            raise Uncut(f'a variable, or a constant that others may use: {line[:100]}')
    for name, text in module.functions.items():
        if name != 'main' and not text.startswith('define internal '):
            raise Uncut(f'a function that others may call: {text[:100]}')
    if 'main' not in module.functions:
        raise Uncut('no function main')


def reached(module: Module, start: Iterable[str], stops: Callable[[str], bool]) -> set[str]:
    """The names that these use, and those that they use in turn, but for what a name uses at which it stops."""
    found: set[str] = set()
    left = list(start)
    while left:
        name = left.pop()
        if name not in found:
            found.add(name)
            left += () if stops(name) else module.uses.get(name, ())
    return found


def share_out(module: Module, count: int) -> dict[str, int]:
    """The part of `main` and of each long function that it reaches: each part gets about as many lines of these."""
    live = reached(module, ['main'], lambda name: False)
    lines = {name: text.count('\n') for name, text in module.functions.items() if name in live}
    shared = [name for name in lines if lines[name] > LONG or name == 'main']
    total, before, part_of = sum(lines[name] for name in shared), 0, {}
    for name in shared:
        part_of[name] = count * before // total
        before += lines[name]
    return part_of


def text_in(module: Module, name: str, part: int, part_of: dict[str, int]) -> str:
    """The function's text in a part: itself, a declaration where it stands in another, or a copy of a short one."""
    text = module.functions[name]
    if name == 'main' or name not in part_of:
        return text
    if part_of[name] == part:
        return text.replace('define internal ', 'define hidden ', 1)
    return text[: text.index('\n')].rstrip(' {').replace('define internal ', 'declare hidden ', 1)


def part_text(module: Module, part: int, part_of: dict[str, int]) -> str:
    """The text of a part: its long functions and what they need."""
    own = [name for name in part_of if part_of[name] == part]
    here = reached(module, own, lambda name: part_of.get(name, part) != part)
    texts = list(module.others)
    texts += [text for name, text in module.constants.items() if name in here]
    texts += [text_in(module, name, part, part_of) for name in module.functions if name in here]
    texts += [text for name, text in module.declared.items() if name in here]
    return '\n'.join([*texts, ''])


def cut(text: str, count: int) -> list[str]:
    """The parts of the module of this text."""
    module = read_module(text)
    check(module)
    part_of = share_out(module, count)
    return [part_text(module, part, part_of) for part in range(count)]
