"""Runs of a node over a list of ticks, as document 01 has them: a source node on its clocks, a rewritten one at every tick.

Integers are whole numbers without a bound. An undeclared name, such as a variant of an enum, stands for itself."""
import operator
import struct

from .tree import BASIC_TYPES, BINARY, KINDS

FUNCTION, OPERATOR, IMPORTED = range(len(KINDS))
CONDACT = 'condact'


class RunError(Exception):
    """Why there is no run."""


class Unset:
    """What a `pre` gives at the first tick of its clock."""

    def __repr__(self):
        return '?'


UNSET = Unset()


def quotient(a, b):
    """a over b; of integers, towards zero."""
    if isinstance(a, float):
        return a / b
    return abs(a) // abs(b) * (1 if (a < 0) == (b < 0) else -1)


BINARY_MEANING = {
    'and': lambda a, b: a is True and b is True, 'or': lambda a, b: a or b, 'xor': operator.ne, '=>': lambda a, b: b or not a,
    '=': operator.eq, '<>': operator.ne, '<': operator.lt, '<=': operator.le, '>': operator.gt, '>=': operator.ge,
    '+': operator.add, '-': operator.sub, '*': operator.mul, '/': quotient, 'mod': lambda a, b: a - b * quotient(a, b),
    'land': operator.and_, 'lor': operator.or_, 'lxor': operator.xor, 'lsl': operator.lshift, 'lsr': operator.rshift}


def read_clocks(listing):
    """The clocks of each node's equations, from what the program `clocks` prints: tuples of a name and whether it is on."""
    nodes = []
    for line in listing.splitlines():
        first, rest = line.split(' ', 1)
        if first.isdigit():
            nodes[-1].append(tuple((c[:-1], c[-1] == '+') for c in rest.split('/')[1:]))
        elif first == 'fault':
            raise RunError('a node with a clock fault has no run: %s' % line)
        elif first != 'chain':
            nodes.append([])
    return nodes


def on_base(sheet):
    """Every equation on base, as in a rewritten sheet."""
    return [[()] * len(node.equations) for node in sheet.nodes]


class Run:
    """A run of a node; its values are found when they are asked for.

    `clocks` has the clocks of all nodes' equations, `inputs` the values of the inputs by name, a dictionary a tick."""

    def __init__(self, sheet, node, clocks, inputs):
        self.sheet, self.node, self.clocks, self.inputs = sheet, sheet.nodes[node], clocks, inputs
        self.defined = {}
        for k, equation in enumerate(self.node.equations):
            for j, name in enumerate(equation.lefts):
                self.defined[name] = k, j
        self.equation_clocks = clocks[node]
        self.known, self.open = {}, set()

    def declared(self):
        """The declared names in order."""
        return [name for name, _ in self.node.inputs + self.node.outputs + self.node.locals]

    def clock(self, name):
        """The clock of a declared name."""
        ports = [n for n, _ in self.node.inputs + self.node.outputs]
        return () if name in ports or name not in self.defined else self.equation_clocks[self.defined[name][0]]

    def on(self, clock, t):
        """Whether a clock is on: its parent is, and the name is true (on) or is not."""
        if not clock:
            return True
        name, wanted = clock[-1]
        return self.on(clock[:-1], t) and (self.value(name, t) is True) == wanted

    def ticks(self, clock, t):
        """The ticks of a clock up to t."""
        return [s for s in range(t + 1) if self.on(clock, s)]

    def value(self, name, t):
        """The value of a name at a tick."""
        if name in self.inputs[t]:
            return self.inputs[t][name]
        if name not in self.defined:
            return str(name)
        k, j = self.defined[name]
        right = self.right(k, t)
        return right[j] if len(self.node.equations[k].lefts) > 1 else right

    def right(self, k, t):
        """The value of an equation's right side at a tick."""
        if (k, t) not in self.known:
            if (k, t) in self.open:
                raise RunError('`%s` depends on itself at tick %d' % (self.node.equations[k].lefts[0], t))
            self.open.add((k, t))
            self.known[k, t] = self.meaning(self.node.equations[k].right, self.equation_clocks[k], t)
            self.open.discard((k, t))
        return self.known[k, t]

    def meaning(self, e, clock, t):
        """The value of an expression on its clock, at a tick of that clock."""
        own = getattr(self, 'of_' + e.form.replace('-', '_'), None)
        if own:
            return own(e, clock, t)
        parts = [self.meaning(o, clock, t) for o in e.operands]
        if any(p is UNSET for p in parts):
            return UNSET
        return fixed(e, parts)

    def of_var(self, e, clock, t):
        """A name."""
        return self.value(e.value, t)

    def of_if(self, e, clock, t):
        """The second operand where the first is true, else the third."""
        condition = self.meaning(e.operands[0], clock, t)
        return self.meaning(e.operands[1 if condition is True else 2], clock, t)

    def of_pre(self, e, clock, t):
        """The operand one tick of the clock ago."""
        before = self.ticks(clock, t)[:-1]
        return self.meaning(e.operands[0], clock, before[-1]) if before else UNSET

    def of_arrow(self, e, clock, t):
        """The left at the clock's first tick, then the right."""
        return self.meaning(e.operands[0 if self.ticks(clock, t) == [t] else 1], clock, t)

    def of_when(self, e, clock, t):
        """The operand, on the clock's parent."""
        if not clock or clock[-1] != (e.value, e.form == 'when'):
            raise RunError('a when of `%s` where another clock is expected' % e.value)
        return self.meaning(e.operands[0], clock[:-1], t)

    of_when_not = of_when

    def of_merge(self, e, clock, t):
        """The branch whose condition is on."""
        for operand, wanted in zip(e.operands, (True, False)):
            branch = clock + ((e.value, wanted),)
            if self.on(branch, t):
                return self.meaning(operand, branch, t)

    def of_call(self, e, clock, t):
        """A function of the arguments now, or of an operator's at the ticks of the clock so far."""
        if e.value == CONDACT:
            return self.condact(e, clock, t)
        callee = self.callee(e)
        ticks = [t] if self.sheet.nodes[callee].kind == FUNCTION else self.ticks(clock, t)
        return self.called(callee, e, clock, ticks)

    def condact(self, e, clock, t):
        """Where the first argument is true, the call on a clock of just those ticks; held elsewhere."""
        if clock or e.operands[1].form != 'call':
            raise RunError('condact is run on base and over a call only')
        active = [s for s in range(t + 1) if self.meaning(e.operands[0], clock, s) is True]
        if active:
            return self.called(self.callee(e.operands[1]), e.operands[1], clock, active)
        defaults = [self.meaning(d, clock, t) for d in e.operands[2:]]
        return defaults[0] if len(defaults) == 1 else tuple(defaults)

    def callee(self, e):
        """The place of the first node of a name."""
        for k, node in enumerate(self.sheet.nodes):
            if node.name == e.value and node.kind != IMPORTED:
                return k
        raise RunError('`%s` is no node of the sheet with equations to run' % e.value)

    def called(self, callee, e, clock, ticks):
        """The outputs of a node that runs over these ticks, at the last one."""
        names = [name for name, _ in self.sheet.nodes[callee].inputs]
        inputs = [dict(zip(names, [self.meaning(o, clock, s) for o in e.operands])) for s in ticks]
        run = Run(self.sheet, callee, self.clocks, inputs)
        values = [run.value(name, len(ticks) - 1) for name, _ in run.node.outputs]
        return values[0] if len(values) == 1 else tuple(values)


def fixed(e, parts):
    """The fixed functions of their operands' values."""
    if e.form in FIXED:
        return FIXED[e.form](e, parts)
    raise RunError('a %s is not run here' % e.form)


def cast(e, parts):
    """A number as another type of number."""
    name = BASIC_TYPES[e.type.value] if e.type.form == 'basic' else ''
    if name.startswith('float'):
        return float(parts[0])
    return int(parts[0]) if 'int' in name else parts[0]


FIXED = {
    'bool': lambda e, parts: e.value == 1,
    'int': lambda e, parts: e.value,
    'float': lambda e, parts: struct.unpack('<d', struct.pack('<Q', e.value))[0],
    'char': lambda e, parts: chr(e.value),
    'unary': lambda e, parts: -parts[0] if e.value else parts[0] is not True,
    'binary': lambda e, parts: BINARY_MEANING[BINARY[e.value]](*parts),
    'field': lambda e, parts: parts[0][e.value],
    'index': lambda e, parts: parts[0][parts[1]],
    'tuple': lambda e, parts: tuple(parts),
    'array': lambda e, parts: list(parts),
    'struct': lambda e, parts: dict(zip(e.fields, parts)),
    'cast': cast,
}


def read_ticks(text, node):
    """The inputs of a node, tick by tick: a line of their names, then a line of values a tick. Comments begin with --."""
    lines = [(k, line.split('--')[0].split()) for k, line in enumerate(text.splitlines(), 1)]
    lines = [(k, words) for k, words in lines if words]
    types = {name: t for name, t in node.inputs}
    if not lines or sorted(lines[0][1]) != sorted(types):
        raise RunError('the first line names the inputs: %s' % ' '.join(types))
    names, ticks = lines[0][1], []
    for k, words in lines[1:]:
        if len(words) != len(names):
            raise RunError('line %d: one value for each of the %d inputs' % (k, len(names)))
        ticks.append({n: input_value(w, types[n], k) for n, w in zip(names, words)})
    return ticks


def input_value(word, t, k):
    """The value of an input."""
    if t.form == 'basic' and BASIC_TYPES[t.value] == 'bool':
        if word not in ('0', '1', 'true', 'false'):
            raise RunError('line %d: %s is neither 0 nor 1' % (k, word))
        return word in ('1', 'true')
    return int(word) if word.lstrip('-').isdigit() else word


def kept(run):
    """Each declared name's values at the ticks of its clock, None elsewhere."""
    return {name: [run.value(name, t) if run.on(run.clock(name), t) else None for t in range(len(run.inputs))]
            for name in run.declared()}


def differences(source, rewritten):
    """Where a rewritten node's run, kept to each name's source clock, is not the source's run."""
    found = []
    for name, values in kept(source).items():
        for t, value in enumerate(values):
            other = rewritten.value(name, t)
            if value is not None and value != other:
                found.append('`%s` at tick %d: %s in the source, %s rewritten' % (name, t, value, other))
    return found
