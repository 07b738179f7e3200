"""A tree to the bytes of its sheet; what passes a limit is named with its place in the text."""
import struct

from .limits import INPUT
from .tree import first_circle

TAGS = {'bool': 50, 'int': 51, 'float': 52, 'char': 53, 'var': 54, 'unary': 55, 'binary': 56, 'if': 57, 'pre': 58,
        'arrow': 59, 'call': 60, 'field': 61, 'index': 62, 'tuple': 63, 'array': 64, 'struct': 65, 'cast': 66,
        'when': 67, 'when-not': 68, 'merge': 69, 'map': 70, 'fold': 71}
DEFINITIONS = {'enum': 10, 'record': 11, 'alias': 12}
NAMED = {'var', 'call', 'field', 'struct', 'when', 'when-not', 'merge', 'map', 'fold'}
COUNTED = {'call', 'tuple', 'array'}


class TextError(Exception):
    """A message about a place of the text."""

    def __init__(self, at, message):
        super().__init__('%d:%d: %s' % (at.line, at.column, message))


def encode(sheet, limits=INPUT):
    """The bytes of a sheet."""
    return encode_placed(sheet, limits)[0]


def encode_placed(sheet, limits=INPUT):
    """The bytes of a sheet, and where in the text each of its tokens stands: an answer that names a token is then told with its line."""
    writer = Writer(limits)
    for name in sheet.names:
        writer.id(name)
    writer.sheet(sheet)
    circle = first_circle(sheet.types)
    if circle is not None:
        name = sheet.types[circle].name
        raise TextError(name.at, 'type `%s` reaches itself; a type is built from others only' % name)
    return writer.bytes(), writer.places


def used_names(sheet):
    """The names of a sheet's tokens, in the order of their first use."""
    writer = Writer(None)
    writer.sheet(sheet)
    return list(writer.ids)


class Writer:
    """Tokens and ids, as the tree is gone through. Without limits nothing is tested."""

    def __init__(self, limits):
        self.limits = limits
        self.ids, self.letters = {}, 0
        self.tags, self.values, self.places = [], [], []

    def bytes(self):
        """The bytes of what was written."""
        names = list(self.ids)
        return b''.join([
            struct.pack('<3I', len(names), self.letters, len(self.tags)),
            bytes(len(n) for n in names), ''.join(names).encode('ascii'),
            bytes(self.tags), struct.pack('<%dI' % len(self.values), *self.values)])

    def within(self, size, limit, at, what, advice):
        """Refuses a size past a limit."""
        if self.limits and size > getattr(self.limits, limit):
            raise TextError(at, 'more than %s %s; %s' % (format(getattr(self.limits, limit), ','), what, advice))

    def put(self, tag, value, at):
        """Writes a token."""
        self.within(len(self.tags) + 1, 'tokens', at, 'tokens in a sheet', 'shorten the sequence or split it into two sheets')
        self.tags.append(tag)
        self.values.append(value)
        self.places.append(at)

    def id(self, name):
        """The id of a name, which joins the table at its first use."""
        if name not in self.ids:
            self.ids[name] = len(self.ids)
            self.letters += len(name)
            at = getattr(name, 'at', None)
            self.within(len(self.ids), 'names', at, 'names in a sheet', 'use names again or split the sheet')
            self.within(self.letters, 'letters', at, 'letters in all names of a sheet', 'use shorter names')
        return self.ids[name]

    def name(self, name, tag=4):
        """Writes a token that names something."""
        self.put(tag, self.id(name), getattr(name, 'at', None))

    def count(self, places, limit, at, what, advice, before=0, tag=3):
        """Writes a count; of too many items the first past the limit is named."""
        n = len(places)
        most = getattr(self.limits, limit) - before if self.limits else n
        self.within(before + n, limit, places[most] if most < n else at, what, advice)
        self.put(tag, n, at)

    def sheet(self, sheet):
        """Writes types and nodes."""
        start = first_place(sheet)
        self.count(places(sheet.types), 'types', start, 'types in a sheet', 'leave some out or split the sheet', tag=1)
        for definition in sheet.types:
            self.definition(definition)
        self.count(places(sheet.nodes), 'nodes', start, 'nodes in a sheet', 'leave some out or split the sheet', tag=2)
        for node in sheet.nodes:
            self.node(node)

    def definition(self, d):
        """Writes a type's definition."""
        self.name(d.name, DEFINITIONS[d.form])
        if d.form == 'alias':
            self.type(d.items[0])
            return
        names = d.items if d.form == 'enum' else [name for name, _ in d.items]
        what = 'variants in an enum' if d.form == 'enum' else 'fields in a struct'
        self.count(places(names), 'items', d.at, what, 'split the type')
        for item in d.items:
            self.name(item) if d.form == 'enum' else self.pair(item)

    def pair(self, declared):
        """Writes a name and its type."""
        self.name(declared[0])
        self.type(declared[1])

    def type(self, t, around=0):
        """Writes a type inside so many array types."""
        if t.form == 'basic':
            self.put(20 + t.value, 0, t.at)
        elif t.form == 'named':
            self.name(t.value, 33)
        else:
            self.within(t.value, 'length', t.at, 'elements in an array', 'use a shorter array')
            self.within(around + 1, 'nested', t.at, 'array types inside each other', 'use fewer dimensions')
            self.put(32, t.value, t.at)
            self.type(t.element, around + 1)

    def node(self, node):
        """Writes a node."""
        self.name(node.name, 40)
        self.put(41, node.kind, node.at)
        before = 0
        for declared in (node.inputs, node.outputs, node.locals):
            self.count(places([name for name, _ in declared]), 'declared', node.at, 'declared names in a node',
                       'split the node in two', before=before)
            before += len(declared)
            for pair in declared:
                self.pair(pair)
        self.count(places(node.equations), 'equations', node.at, 'equations in a node', 'split the node in two')
        for equation in node.equations:
            self.equation(equation)
        self.count(places([label for label, _ in node.probes]), 'items', node.at, 'probes in a node', 'leave some out')
        for label, name in node.probes:
            self.name(label)
            self.name(name)

    def equation(self, equation):
        """Writes an equation."""
        self.count(places(equation.lefts), 'lefts', equation.at, 'left names in an equation', 'split the called node')
        for name in equation.lefts:
            self.name(name)
        self.expression(equation.right, 1)

    def expression(self, e, level):
        """Writes an expression that stands at this level, 1 for a right side."""
        self.within(level, 'depth', e.at, 'levels in an expression', 'give a part of it a name in an equation of its own')
        self.head(e)
        if e.form == 'cast':
            self.type(e.type)
        operands = list(e.operands)
        if e.form in ('map', 'fold'):
            self.put(3, int(e.started), e.at)
            if e.started:
                self.expression(operands.pop(0), level + 1)
        if e.form in COUNTED or e.form in ('map', 'fold'):
            self.count(places(operands), 'items', e.at, 'items in a list', 'split the list')
        if e.form == 'struct':
            self.count(places(e.fields), 'items', e.at, 'fields in a struct', 'split the type')
        for k, operand in enumerate(operands):
            if e.form == 'struct':
                self.name(e.fields[k])
            self.expression(operand, level + 1)

    def head(self, e):
        """Writes an expression's own tokens."""
        tag = TAGS[e.form]
        if e.form in NAMED:
            self.put(tag, self.id(e.value), e.at)
        elif e.form in ('int', 'float'):
            self.put(tag, e.value & 0xffffffff, e.at)
            self.put(5, e.value >> 32 & 0xffffffff, e.at)
        else:
            self.put(tag, int(e.value or 0), e.at)


def places(items):
    """Where items stand in the text."""
    return [getattr(item, 'at', None) for item in items]


def first_place(sheet):
    """Where the sheet begins in the text."""
    return min([item.at for item in sheet.types + sheet.nodes], default=None)
