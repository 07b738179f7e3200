"""Bytes of a sheet to its tree; refusals 1 to 7, in checking order."""
import re
import struct

from .limits import INPUT
from .tree import Definition, Equation, Expr, Node, Sheet, Type, first_circle

FORMED = re.compile(r'[A-Za-z_][A-Za-z0-9_]{0,31}')

# As the programs say it; the tokens are as many as a sheet may have.
WORDS = {
    1: 'the input has fewer than 12 bytes: hand in a whole sheet',
    2: 'a size is outside its limit (place 0: 1,024 names, 1: 16,384 letters, 2: 2 to {:,} tokens): split the '
       'sheet, or make one of a text with tools/sheet read',
    3: 'the length is not 12 + names + letters + 5 x tokens: hand in the whole sheet and nothing more',
    4: 'this name, counted from 0, repeats an earlier one or is not 1 to 32 letters, digits and _, no digit '
       'first; past the last name: the lengths do not sum to the letters',
    5: 'this token, counted from 0, is not allowed there or its value is out of range; past the last token: the '
       'tokens end early',
    6: 'at this token, counted from 0, a count, array length or depth is outside its limit: rewrite --help lists '
       'the limits',
    7: 'this type, counted from 0, reaches itself through fields, targets or elements: break the circle',
}


class Refused(Exception):
    """A refusal: its number and place."""

    def __init__(self, number, place, tokens=INPUT.tokens):
        super().__init__('refused %d %d: %s' % (number, place, WORDS[number].format(tokens)))
        self.number, self.place = number, place


def decode(data, limits=INPUT):
    """The tree of a sheet's bytes."""
    names, tags, values = parts(data, limits)
    reader = Reader(names, tags, values, limits)
    types, nodes = reader.sheet()
    circle = first_circle(types)
    if circle is not None:
        raise Refused(7, circle)
    return Sheet(names, types, nodes)


def parts(data, limits):
    """Names, tags and values of a sheet's bytes: refusals 1 to 4."""
    if len(data) < 12:
        raise Refused(1, 0)
    m, l, t = struct.unpack('<3I', data[:12])
    for place, (size, least, most) in enumerate([(m, 0, limits.names), (l, 0, limits.letters), (t, 2, limits.tokens)]):
        if not least <= size <= most:
            raise Refused(2, place, limits.tokens)
    if len(data) != 12 + m + l + 5 * t:
        raise Refused(3, 0)
    letters_at, tags_at = 12 + m, 12 + m + l
    names = read_names(data[12:letters_at], data[letters_at:tags_at])
    return names, data[tags_at:tags_at + t], struct.unpack('<%dI' % t, data[tags_at + t:])


def read_names(lengths, letters):
    """The table of names: refusal 4."""
    if sum(lengths) != len(letters):
        raise Refused(4, len(lengths))
    names, seen, at = [], set(), 0
    for k, n in enumerate(lengths):
        name = letters[at:at + n].decode('latin-1')
        at += n
        if not FORMED.fullmatch(name) or name in seen:
            raise Refused(4, k)
        names.append(name)
        seen.add(name)
    return names


class Reader:
    """Tokens to a tree: refusals 5 and 6, the first token decides."""

    def __init__(self, names, tags, values, limits):
        self.names, self.tags, self.values, self.limits = names, tags, values, limits
        self.at = 0

    def next(self):
        """The next token: its place, tag and value."""
        at = self.at
        if at >= len(self.tags):
            raise Refused(5, len(self.tags))
        self.at += 1
        return at, self.tags[at], self.values[at]

    def want(self, tag):
        """A token of this tag: its place and value."""
        at, got, value = self.next()
        if got != tag:
            raise Refused(5, at)
        return at, value

    def name(self, at, value):
        """The name of an id."""
        if value >= len(self.names):
            raise Refused(5, at)
        return self.names[value]

    def named(self, tag=4):
        """A token of this tag that names something."""
        return self.name(*self.want(tag))

    def count(self, most, least=0, tag=3):
        """A count within its limit."""
        at, value = self.want(tag)
        if not least <= value <= most:
            raise Refused(6, at)
        return value

    def sheet(self):
        """Types and nodes, and no token after them."""
        types = [self.definition() for _ in range(self.count(self.limits.types, tag=1))]
        nodes = [self.node() for _ in range(self.count(self.limits.nodes, tag=2))]
        if self.at < len(self.tags):
            raise Refused(5, self.at)
        return types, nodes

    def definition(self):
        """A type's definition."""
        at, tag, value = self.next()
        if tag not in (10, 11, 12):
            raise Refused(5, at)
        name = self.name(at, value)
        if tag == 10:
            return Definition('enum', name, [self.named() for _ in range(self.count(self.limits.items))])
        if tag == 11:
            return Definition('record', name, self.pairs(self.count(self.limits.items)))
        return Definition('alias', name, [self.type()])

    def pairs(self, n):
        """n names, each with its type."""
        return [(self.named(), self.type()) for _ in range(n)]

    def type(self, around=0):
        """A type inside so many array types."""
        at, tag, value = self.next()
        if 20 <= tag <= 31 and value == 0:
            return Type('basic', tag - 20)
        if tag == 33:
            return Type('named', self.name(at, value))
        if tag != 32:
            raise Refused(5, at)
        if value > self.limits.length or around >= self.limits.nested:
            raise Refused(6, at)
        return Type('array', value, self.type(around + 1))

    def node(self):
        """A node."""
        name = self.named(40)
        at, kind = self.want(41)
        if kind > 2:
            raise Refused(5, at)
        node = Node(name, kind)
        room = self.limits.declared
        for declared in (node.inputs, node.outputs, node.locals):
            declared.extend(self.pairs(self.count(room)))
            room -= len(declared)
        node.equations.extend(self.equation() for _ in range(self.count(self.limits.equations)))
        node.probes.extend((self.named(), self.named()) for _ in range(self.count(self.limits.items)))
        return node

    def equation(self):
        """An equation."""
        lefts = [self.named() for _ in range(self.count(self.limits.lefts, least=1))]
        return Equation(lefts, self.expression(1))

    def expression(self, level):
        """An expression whose first token stands at this level, 1 for a right side."""
        at, tag, value = self.next()
        value = self.expression_value(at, tag, value)
        if level > self.limits.depth:
            raise Refused(6, at)
        return READERS[tag](self, tag, value, level + 1)

    def expression_value(self, at, tag, value):
        """What the value of an expression's token says."""
        if tag in NAMED:
            return self.name(at, value)
        if value > GREATEST.get(tag, -1):
            raise Refused(5, at)
        return value

    def high(self, low):
        """A word of 64 bits."""
        return self.want(5)[1] << 32 | low

    def expressions(self, n, level):
        """n expressions."""
        return [self.expression(level) for _ in range(n)]

    def items(self, level):
        """A count and so many expressions."""
        return self.expressions(self.count(self.limits.items), level)

    def integer(self, tag, low, level):
        """An integer, of a word in two's complement."""
        word = self.high(low)
        return Expr('int', word - (word >> 63 << 64))

    def structure(self, tag, name, level):
        """A record's value."""
        e = Expr('struct', name)
        for _ in range(self.count(self.limits.items)):
            e.fields.append(self.named())
            e.operands.append(self.expression(level))
        return e

    def iteration(self, tag, name, level):
        """A map or a fold."""
        starts = self.expressions(self.count(self.limits.starts), level)
        return Expr('map' if tag == 70 else 'fold', name, starts + self.items(level), started=bool(starts))


def leaf(form):
    """A reader of a form without operands."""
    return lambda reader, tag, value, level: Expr(form, value)


def over(form, n):
    """A reader of a form over n operands."""
    return lambda reader, tag, value, level: Expr(form, value, reader.expressions(n, level))


def listed(form):
    """A reader of a form over a counted list."""
    return lambda reader, tag, value, level: Expr(form, value, reader.items(level))


NAMED = {54, 60, 61, 65, 67, 68, 69, 70, 71}
# The greatest value of the other tags; int and float take any word.
GREATEST = {50: 1, 51: 2 ** 32, 52: 2 ** 32, 53: 255, 55: 1, 56: 19, 57: 0, 58: 0, 59: 0, 62: 0, 63: 0, 64: 0, 66: 0}
READERS = {
    50: leaf('bool'), 51: Reader.integer, 53: leaf('char'), 54: leaf('var'),
    52: lambda reader, tag, low, level: Expr('float', reader.high(low)),
    55: over('unary', 1), 56: over('binary', 2), 57: over('if', 3), 58: over('pre', 1), 59: over('arrow', 2),
    60: listed('call'), 61: over('field', 1), 62: over('index', 2), 63: listed('tuple'), 64: listed('array'),
    65: Reader.structure,
    66: lambda reader, tag, value, level: Expr('cast', type=reader.type(), operands=reader.expressions(1, level)),
    67: over('when', 1), 68: over('when-not', 1), 69: over('merge', 2), 70: Reader.iteration, 71: Reader.iteration,
}
