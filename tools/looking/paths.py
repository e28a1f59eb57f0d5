"""Points of a source with its calls written out, and the paths from each to the next. Outside of what is proved:
`lra verify` makes them anew."""
from collections.abc import Iterator
from contextlib import contextmanager
from dataclasses import dataclass, field, replace

from looking.moves import (
    MOST_PATHS,
    Action,
    Meanings,
    Scope,
    Seen,
    Sides,
    TooMany,
    appended,
    constant,
    given,
    kept,
    pushed,
    then,
    unmatched,
    valued,
)
from looking.programs import (
    Asked,
    Assigned,
    Block,
    Call,
    Called,
    Chosen,
    Condition,
    Declared,
    DeclaredArray,
    Jump,
    Label,
    Loop,
    Nothing,
    Program,
    Return,
    Statement,
    Switch,
    Value,
    Variable,
    Written,
)
from looking.reports import Fault

MOST_POINTS = 2048


@dataclass(frozen=True)
class Denied:
    """What is asserted, over what the names mean there."""

    condition: Condition
    scope: Scope


@dataclass(frozen=True)
class Place:
    """A point: its offset, the names of the variables that live there as reports print them, and what fails where an
    assertion is false there."""

    at: int
    names: tuple[str, ...]
    denied: Denied | None


@dataclass(frozen=True)
class Path:
    source: int
    goal: int
    actions: tuple[Action, ...]


# What leads on from somewhere: for each point from which a path comes there, what is done on its ways.
Ends = list[tuple[int, Sides]]


def onward(ends: Ends, sides: Sides) -> Ends:
    """The same, behind a move."""
    found = []
    for source, done in ends:
        try:
            found.append((source, then(done, sides)))
        except TooMany:
            raise too_many(source) from None
    return found


def too_many(source: int) -> Fault:
    return Fault(f'more than {MOST_PATHS:,} paths lead from point {source} to the next one')


@dataclass(frozen=True)
class Exit:
    """Where a jump comes out: so many variables are kept, and its ends are put together."""

    live: int
    ends: Ends = field(default_factory=list)


@dataclass(frozen=True)
class Frame:
    """Where `break`, `continue` and `return` come out, and the place of the variable that gets the call's value."""

    breaks: Exit | None = None
    continues: Exit | None = None
    returns: Exit | None = None
    receiver: int | None = None


def printed(names: list[str]) -> tuple[str, ...]:
    """Names as reports print them: of two alike the older one tells how many hide it."""
    newer: dict[str, int] = {}
    found = []
    for name in reversed(names):
        hidden = newer.get(name, 0)
        newer[name] = hidden + 1
        found.append(f'{name}~{hidden}' if hidden else name)
    return tuple(reversed(found))


class Writer:
    """Writes a program's calls out: numbers its points in text order, and links each with the next ones."""

    def __init__(self, program: Program) -> None:
        self.program = program
        self.places: list[Place | None] = []
        self.links: dict[tuple[int, int], Sides] = {}
        self.variables: list[Variable] = []
        self.scope: Meanings = dict.fromkeys(array.name for array in program.arrays)
        self.globals = self.scope
        self.frame = Frame()

    @property
    def live(self) -> int:
        return len(self.variables)

    def here(self) -> Scope:
        """What the names mean now: `scope` is never changed, but replaced."""
        return Scope(self.scope, self.live)

    def appear(self, variable: Variable) -> int:
        """A new variable, by its place."""
        self.scope = {**self.scope, variable.name: self.live}
        self.variables.append(variable)
        return self.live - 1

    @contextmanager
    def inner(self) -> Iterator[int]:
        """A scope of its own: with what lived before it."""
        live, scope = self.live, self.scope
        yield live
        del self.variables[live:]
        self.scope = scope

    @contextmanager
    def framed(self, frame: Frame) -> Iterator[None]:
        before, self.frame = self.frame, frame
        yield
        self.frame = before

    def reserve(self) -> int:
        """The next point's number, before it is known what lives there."""
        if len(self.places) == MOST_POINTS:
            raise Fault(f'there are more than {MOST_POINTS:,} points')
        self.places.append(None)
        return len(self.places)

    def come(self, number: int, at: int, ends: Ends, denied: Condition | None = None) -> Ends:
        """These come to the point of this number, and go on from there."""
        names = printed([variable.name for variable in self.variables])
        self.places[number - 1] = Place(at, names, Denied(denied, self.here()) if denied is not None else None)
        self.link(number, ends)
        return [(number, [()])]

    def link(self, number: int, ends: Ends) -> None:
        for source, done in ends:
            paths = self.links.setdefault((source, number), [])
            paths += done
            if len(paths) > MOST_PATHS:
                raise too_many(source)

    def point(self, at: int, ends: Ends, denied: Condition | None = None) -> Ends:
        return self.come(self.reserve(), at, ends, denied)

    def start(self) -> None:
        """The globals get their first values, and main begins."""
        begun: Sides = [()]
        for variable, value in self.program.variables:
            place = self.appear(variable)
            begun = then(begun, pushed(variable.type, place, constant(place + 1, value)))
        self.globals = self.scope
        body = self.program.functions['main'].body
        ends = self.items(body, [(0, begun)])
        self.point(body.end, ends)

    def items(self, body: Block, ends: Ends) -> Ends:
        for item in body.items:
            ends = self.statement(item, ends)
        return ends

    def statement(self, done: Statement, ends: Ends) -> Ends:
        """What leads on from the statement, where these lead to it."""
        match done:
            case Block():
                return self.block(done, ends)
            case Loop():
                return self.loop(done, ends)
        if not isinstance(done, Asked) or done.word != 'assert':
            ends = self.point(done.at, ends)
        match done:
            case Nothing():
                return ends
            case Declared():
                return self.declared(done, ends)
            case DeclaredArray():
                self.scope = {**self.scope, done.array.name: None}
                return ends
            case Assigned():
                return self.gives(self.here().place(done.name), done.value, ends)
            case Written():
                self.here().look_at(done.element)
                return self.gives(None, done.value, ends)
            case Called():
                return self.gives(None, done.call, ends)
            case Chosen():
                return self.chosen(done, ends)
            case Jump():
                return self.jump(done, ends)
            case Return():
                return self.returned(done, ends)
            case Asked():
                return self.asked(done, ends)
            case Switch():
                return self.switch(done, ends)

    def block(self, body: Block, ends: Ends) -> Ends:
        with self.inner() as live:
            ends = self.point(body.end, self.items(body, ends))
            return onward(ends, kept(self.live, live))

    def declared(self, done: Declared, ends: Ends) -> Ends:
        ends = onward(ends, appended(done.type, self.live))
        place = self.appear(Variable(done.type, done.name))
        return ends if done.value is None else self.gives(place, done.value, ends)

    def gives(self, receiver: int | None, value: Value, ends: Ends) -> Ends:
        """The receiver's variable, where there is one, gets the value."""
        if isinstance(value, Call):
            return self.call(receiver, value, ends)
        seen = self.here().seen(value)
        return ends if receiver is None else onward(ends, self.set_to(receiver, seen))

    def set_to(self, receiver: int, seen: Seen) -> Sides:
        return given(self.variables[receiver].type, receiver, self.live, seen)

    def call(self, receiver: int | None, call: Call, ends: Ends) -> Ends:
        """The callee's body, in place of its call."""
        function = self.program.functions.get(call.name)
        if function is None:
            raise Fault(f'no function {call.name} is defined')
        scope, live = self.scope, self.live
        for parameter, argument in zip(function.parameters, call.arguments):
            seen = Scope(scope, self.live + 1).seen(argument)
            ends = onward(ends, pushed(parameter.type, self.live, seen))
            self.variables.append(parameter)
        own = {parameter.name: live + place for place, parameter in enumerate(function.parameters)}
        self.scope = {**self.globals, **own}
        returns = Exit(live)
        with self.framed(Frame(returns=returns, receiver=receiver)):
            ends = self.body(function.body, ends)
        ends = returns.ends + onward(ends, kept(self.live, live))
        del self.variables[live:]
        self.scope = scope
        return ends

    def body(self, body: Block, ends: Ends) -> Ends:
        """A callee's body; where it ends without a value, the receiver may have any."""
        with self.inner() as live:
            ends = self.point(body.end, self.items(body, ends))
            ends = onward(ends, kept(self.live, live))
        return ends if self.frame.receiver is None else onward(ends, self.set_to(self.frame.receiver, None))

    def chosen(self, done: Chosen, ends: Ends) -> Ends:
        scope, others = self.here(), ends
        ends = self.statement(done.so, self.tested(ends, scope, done.condition, True))
        others = self.tested(others, scope, done.condition, False)
        return ends + (others if done.otherwise is None else self.statement(done.otherwise, others))

    @staticmethod
    def tested(ends: Ends, scope: Scope, condition: Condition, wanted: bool) -> Ends:
        try:
            return onward(ends, scope.sides(condition, wanted))
        except TooMany:
            raise too_many(ends[0][0]) from None

    def loop(self, done: Loop, ends: Ends) -> Ends:
        """The point of a `for` stands in front of its beginning, its step in front of its body."""
        number = self.reserve()
        with self.inner() as live:
            for begun in done.begin:
                ends = self.statement(begun, ends)
            ends = self.come(number, done.at, ends)
            ends = self.rounds(number, done, ends)
            return onward(ends, kept(self.live, live))

    def rounds(self, number: int, done: Loop, ends: Ends) -> Ends:
        """What begins at a point doesn't ask what leads there: so the step comes first, and is linked later."""
        scope, again = self.here(), number
        breaks, continues = Exit(self.live), Exit(self.live)
        if done.step is not None:
            again = len(self.places) + 1
            self.link(number, self.statement(done.step, []))
        with self.framed(replace(self.frame, breaks=breaks, continues=continues)):
            inside = self.statement(done.body, self.tested(ends, scope, done.condition, True))
        self.link(again, inside + continues.ends)
        return self.tested(ends, scope, done.condition, False) + breaks.ends

    def jump(self, done: Jump, ends: Ends) -> Ends:
        out = self.frame.breaks if done.word == 'break' else self.frame.continues
        if out is None:
            raise Fault(f'a {done.word} is outside a loop')
        out.ends.extend(onward(ends, kept(self.live, out.live)))
        return []

    def returned(self, done: Return, ends: Ends) -> Ends:
        """Nothing comes behind it; main's ends the run."""
        receiver, returns = self.frame.receiver, self.frame.returns
        if done.value is not None:
            ends = self.gives(receiver, done.value, ends)
        elif receiver is not None:
            ends = onward(ends, self.set_to(receiver, None))
        if returns is not None:
            returns.ends.extend(onward(ends, kept(self.live, returns.live)))
        return []

    def asked(self, done: Asked, ends: Ends) -> Ends:
        if done.word == 'assert':
            ends = self.point(done.at, ends, done.condition)
        return self.tested(ends, self.here(), done.condition, True)

    def switch(self, done: Switch, ends: Ends) -> Ends:
        """Behind each label what falls through to it comes first."""
        seen, asked = self.here().seen(done.value), ends
        values = [part.value for part in done.parts if isinstance(part, Label) and part.value is not None]
        breaks = Exit(self.live)
        inside: Ends = []
        with self.framed(replace(self.frame, breaks=breaks)):
            for part in done.parts:
                if isinstance(part, Label):
                    inside = inside + self.labelled(asked, part, seen, values)
                else:
                    inside = self.statement(part, inside)
        if Label(None) not in done.parts:
            inside = inside + self.labelled(asked, Label(None), seen, values)
        return inside + breaks.ends

    def labelled(self, ends: Ends, label: Label, seen: Seen, values: list[int]) -> Ends:
        try:
            sides = unmatched(seen, self.live, values) if label.value is None else valued(seen, self.live, label.value)
        except TooMany:
            raise too_many(ends[0][0]) from None
        return onward(ends, sides)


@dataclass(frozen=True)
class Paths:
    """The points of a program, and all paths between two of them, from the start (0) on."""

    places: tuple[Place, ...]
    paths: tuple[Path, ...]

    def denials(self, number: int) -> list[Path]:
        """The paths to where the assertion at this point is false."""
        place = self.places[number - 1]
        assert place.denied is not None
        try:
            sides = place.denied.scope.sides(place.denied.condition, False)
        except TooMany:
            raise too_many(number) from None
        return [Path(number, number, actions) for actions in sides]


def paths_of(program: Program) -> Paths:
    """In the order of their sources, then of their goals."""
    writer = Writer(program)
    writer.start()
    places = tuple(place for place in writer.places if place is not None)
    links = sorted(writer.links.items(), key=lambda link: link[0])
    return Paths(places, tuple(Path(*ends, actions) for ends, sides in links for actions in sides))
