"""Sources as deep as they may be: levels, one in the other, in functions that call one another."""

# What opens a level, how many points it has, what closes it, and where the token stands that opens the level, from the
# end of what opens it.
Level = tuple[str, int, str, int]
WHILE = ('while(input()) ', 1, '', 1)
IF = ('if(input()) ', 1, '', 1)
FOR = ('for(;input();) ', 1, '', 1)
BLOCK = ('{ ', 1, '}', -1)
ELSE = ('if(input()) ; else ', 2, '', -6)
WHILE_BLOCK = ('while(input()){ ', 2, '}', -1)
IF_BLOCK = ('if(input()){ ', 2, '}', -1)
MIXED = ('while(input()) if(input()) { for(;input();) ', 4, '}', 1)
COUNTING = ('for(x=1;x<3;x=x+1) ', 3, '', 1)
DECLARED = ('{ long v; ', 2, '}', 1)
SWITCH = ('switch(input()){ case 1: ', 1, '}', -9)
SINGLE = {'while': WHILE, 'if': IF, 'for': FOR, 'blocks': BLOCK, 'else': ELSE, 'switch': SWITCH}


def nested(level: Level, depth: int, inside: str = ';') -> str:
    """So many levels, one in the other."""
    return level[0] * depth + inside + level[2] * depth


def stacked(level: Level, depth: int, functions: int, begins: str = '', inside: str = ';') -> str:
    """Functions each of which nests so many levels round a call of the one before it; `main` is the last."""
    lines = []
    for number in range(functions):
        body = begins + nested(level, depth, f'f{number - 1}();' if number else inside)
        head = 'int main(void)' if number == functions - 1 else f'void f{number}(void)'
        lines.append(f'{head}{{ {body} }}')
    return '\n'.join(lines)


def points_of(level: Level, depth: int, functions: int) -> int:
    """The points of `stacked`: those of the levels, and in each function that of what stands inside, and its end."""
    return functions * (level[1] * depth + 2)
