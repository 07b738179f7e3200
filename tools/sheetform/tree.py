"""The tree of a sheet, and the words of its text form."""
from dataclasses import dataclass, field
from typing import NamedTuple

# In the sheet's order: the place in the list is the number in the token.
BASIC_TYPES = ['bool', 'int8', 'int16', 'int32', 'int64', 'uint8', 'uint16', 'uint32', 'uint64', 'float32', 'float64', 'char']
KINDS = ['function', 'node', 'imported']
UNARY = ['not', '-']
BINARY = ['and', 'or', 'xor', '=>', '=', '<>', '<', '<=', '>', '>=', '+', '-', '*', '/', 'mod', 'land', 'lor', 'lxor', 'lsl', 'lsr']

# Which of two operators takes its operand first: the higher level.
IF, ARROW, NOT, WHEN, PREFIX, POSTFIX, ATOM = 1, 2, 7, 10, 11, 12, 13
LEVELS = {'->': ARROW, '=>': 3, 'or': 4, 'xor': 4, 'and': 5,
          '=': 6, '<>': 6, '<': 6, '<=': 6, '>': 6, '>=': 6,
          '+': 8, '-': 8, 'lor': 8, 'lxor': 8, '*': 9, '/': 9, 'mod': 9, 'land': 9, 'lsl': 9, 'lsr': 9}
TO_THE_RIGHT = {'->', '=>'}
COMPARISON = 6

KEYWORDS = frozenset(BASIC_TYPES + KINDS + [w for w in UNARY + BINARY if w.isalpha()] + [
    'cast', 'else', 'enum', 'false', 'fold', 'if', 'let', 'map', 'merge', 'names', 'pre', 'probe', 'returns', 'struct',
    'tel', 'then', 'true', 'type', 'var', 'when'])

LONGEST_NAME = 32


class Place(NamedTuple):
    """A line and a column of a text, counted from 1."""
    line: int
    column: int


class Name(str):
    """The letters of a name, and where they stand in the text."""
    at = Place(1, 1)


def name_at(letters, at):
    """A name with its place."""
    name = Name(letters)
    name.at = at
    return name


@dataclass
class Type:
    """A type: `basic` (value: its number), `array` (value: its length; element), `named` (value: its name)."""
    form: str
    value: object
    element: 'Type' = None
    at: Place = Place(1, 1)


@dataclass
class Definition:
    """A type's definition: `enum` (items: names), `record` (items: name and type each), `alias` (items: one type)."""
    form: str
    name: str
    items: list
    at: Place = Place(1, 1)


@dataclass
class Expr:
    """An expression: its form, the value of its token, and its operands in the sheet's order.

    A struct has its fields' names in `fields`, a cast its type in `type`; a map or fold whose first operand is a start
    value says so in `started`."""
    form: str
    value: object = None
    operands: list = field(default_factory=list)
    fields: list = field(default_factory=list)
    type: Type = None
    started: bool = False
    at: Place = Place(1, 1)


@dataclass
class Equation:
    """Left names and a right side."""
    lefts: list
    right: Expr
    at: Place = Place(1, 1)


@dataclass
class Node:
    """A node; declarations are pairs of a name and a type, probes pairs of a label and a name."""
    name: str
    kind: int
    inputs: list = field(default_factory=list)
    outputs: list = field(default_factory=list)
    locals: list = field(default_factory=list)
    equations: list = field(default_factory=list)
    probes: list = field(default_factory=list)
    at: Place = Place(1, 1)


@dataclass
class Sheet:
    """Types, nodes, and the names that the table begins with; the others follow in the order of their first use."""
    names: list = field(default_factory=list)
    types: list = field(default_factory=list)
    nodes: list = field(default_factory=list)


def leads_on(definition):
    """The names of types that a definition goes on to."""
    if definition.form == 'enum':
        return []
    types = [t for _, t in definition.items] if definition.form == 'record' else definition.items
    return [t.value for t in map(below_arrays, types) if t.form == 'named']


def below_arrays(t):
    """The type that an array's elements, or their elements, are of."""
    while t.form == 'array':
        t = t.element
    return t


def first_circle(types):
    """The place of the first definition that reaches itself, or None."""
    first = {}
    for k, definition in enumerate(types):
        first.setdefault(definition.name, k)
    following = [[first[n] for n in leads_on(d) if n in first] for d in types]
    for k in range(len(types)):
        if reaches(following, k):
            return k
    return None


def reaches(following, k):
    """Whether k can be reached from k."""
    seen, waiting = set(), list(following[k])
    while waiting:
        j = waiting.pop()
        if j == k:
            return True
        if j not in seen:
            seen.add(j)
            waiting.extend(following[j])
    return False
