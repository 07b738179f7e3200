"""Words of a text to the tree of a sheet."""
from .encode import TextError
from .lexer import words
from .tree import (BASIC_TYPES, BINARY, COMPARISON, IF, KEYWORDS, KINDS, LEVELS, NOT, PREFIX, TO_THE_RIGHT, WHEN,
                   Definition, Equation, Expr, Node, Sheet, Type)

DEEPEST = 9000
CLOCK = 'a clock, which is a plain name and no expression'
SIGN = 1 << 63


def parse(text):
    """The tree of a text."""
    return Parser(words(text)).sheet()


class Parser:
    """Goes through the words; `self.word` is the one at hand."""

    def __init__(self, found):
        self.words, self.k, self.depth = found, 0, 0

    @property
    def word(self):
        """The word at hand."""
        return self.words[self.k]

    def shown(self):
        """The word at hand, as a message says it."""
        w = self.word
        return w.text if w.kind == 'end' or '`' in w.text else '`%s`' % w.text

    def fail(self, message, at=None):
        """Says what is wrong."""
        raise TextError(at or self.word.at, message)

    def here(self, *texts):
        """Whether a keyword or sign stands here."""
        return self.word.kind in ('keyword', 'symbol') and self.word.text in texts

    def take(self):
        """The word at hand; the next one is then at hand."""
        w = self.word
        if w.kind != 'end':
            self.k += 1
        return w

    def taken(self, *texts):
        """Takes a keyword or sign if it stands here."""
        return self.take() if self.here(*texts) else None

    def want(self, text, why):
        """Takes a keyword or sign that must stand here."""
        if not self.here(text):
            self.fail('expected `%s` %s, found %s' % (text, why, self.shown()))
        return self.take()

    def name(self, what):
        """Takes a name."""
        if self.word.kind != 'name':
            hint = '; a keyword as a name stands in ` `' if self.word.kind == 'keyword' and self.word.text in KEYWORDS else ''
            self.fail('expected %s, found %s%s' % (what, self.shown(), hint))
        return self.take().value

    def listed(self, closing, item, signs=',', why='between items'):
        """Items with a sign between them, up to a closing sign; whether one stood after the last."""
        items, trailing = [], False
        while not self.here(closing):
            items.append(item())
            trailing = bool(self.taken(*signs))
            if not trailing and not self.here(closing):
                self.fail('expected `%s` %s or `%s`, found %s' % (signs[0], why, closing, self.shown()))
        self.take()
        return items, trailing

    # The sheet, types, nodes.

    def sheet(self):
        """A whole text."""
        sheet = Sheet()
        if self.taken('names'):
            sheet.names = self.table()
        while self.word.kind != 'end':
            if self.here('type'):
                sheet.types.append(self.definition())
            elif self.here(*KINDS):
                sheet.nodes.append(self.node())
            else:
                self.fail('expected `type`, `node`, `function` or `imported`, found %s' % self.shown())
        return sheet

    def table(self):
        """The names that the table begins with."""
        names = []
        while not self.taken(';'):
            name = self.name('a name or `;` after the last')
            if name in names:
                self.fail('`%s` stands twice; name each once' % name, name.at)
            names.append(name)
        return names

    def definition(self):
        """A type's definition."""
        at = self.take().at
        name = self.name("the new type's name")
        self.want('=', "after the new type's name")
        if self.taken('enum'):
            self.want('{', 'after `enum`')
            d = Definition('enum', name, self.listed('}', lambda: self.name('a variant'))[0], at)
        elif self.taken('struct'):
            self.want('{', 'after `struct`')
            d = Definition('record', name, self.declarations('}', 'a field'), at)
        else:
            d = Definition('alias', name, [self.type()], at)
        self.want(';', "after the type's definition")
        return d

    def declarations(self, closing, what):
        """Names with their types, up to a closing sign or keyword."""
        groups, _ = self.listed(closing, lambda: self.group(what), ';', 'between declarations')
        return [pair for group in groups for pair in group]

    def group(self, what):
        """Names of one type."""
        names = [self.name(what)]
        while self.taken(','):
            names.append(self.name(what))
        self.want(':', 'and a type after %s' % what)
        t = self.type()
        if self.here('when'):
            self.fail('leave out the clock of a declaration; the pass finds it')
        return [(name, t) for name in names]

    def type(self):
        """A type."""
        w = self.word
        if self.here(*BASIC_TYPES):
            t = Type('basic', BASIC_TYPES.index(self.take().text), at=w.at)
        else:
            t = Type('named', self.name('a type'), at=w.at)
        while self.here('^'):
            at = self.word.at
            t = Type('array', self.length(), t, at)
        return t

    def length(self):
        """`^` and the length of an array."""
        self.take()
        if self.word.kind != 'int':
            self.fail('expected the length of the array, a number, found %s' % self.shown())
        if self.word.value >= 1 << 32:
            self.fail('more than 256 elements in an array; use a shorter array')
        return self.take().value

    def node(self):
        """A node."""
        w = self.take()
        node = Node(self.name("the node's name"), KINDS.index(w.text), at=w.at)
        self.want('(', "after the node's name, before its inputs")
        node.inputs = self.declarations(')', 'an input')
        self.want('returns', 'after the inputs')
        self.want('(', 'after `returns`, before the outputs')
        node.outputs = self.declarations(')', 'an output')
        ended = self.taken(';')
        if self.here('var', 'let'):
            self.body(node)
        elif not ended:
            self.fail('expected `;`, `var` or `let` after the outputs, found %s' % self.shown())
        return node

    def body(self, node):
        """Locals, equations and probes."""
        while self.taken('var'):
            while self.word.kind == 'name':
                node.locals.extend(self.group('a local'))
                self.want(';', 'after the declaration')
        self.want('let', 'before the equations')
        while not self.taken('tel'):
            if self.here('probe'):
                node.probes.append(self.probe())
            else:
                node.equations.append(self.equation())
        self.taken(';')

    def probe(self):
        """`probe LABEL: NAME;`"""
        self.take()
        label = self.name("the probe's label")
        self.want(':', "after the probe's label")
        pair = label, self.name('the name that the probe shows')
        self.want(';', 'after the probe')
        return pair

    def equation(self):
        """An equation."""
        at = self.word.at
        wanted = 'a left name, `probe` or `tel`'
        bracket = self.taken('(')
        lefts = [self.name('a left name' if bracket else wanted)]
        while self.taken(','):
            lefts.append(self.name('a left name'))
        if bracket:
            self.want(')', 'after the left names')
        self.want('=', 'after the left side')
        right = self.expression()
        self.want(';', 'after the equation')
        return Equation(lefts, right, at)

    # Expressions.

    def expression(self, least=0):
        """An expression whose operators have at least this level."""
        self.depth += 1
        if self.depth > DEEPEST:
            self.fail('too many levels; take some parentheses away')
        e = self.prefixed()
        while True:
            if WHEN >= least and self.here('when'):
                e = self.when(e)
            elif self.word.text in LEVELS and self.here(*LEVELS) and LEVELS[self.word.text] >= least:
                e = self.binary(e)
            else:
                self.depth -= 1
                return e

    def when(self, operand):
        """`when NAME` or `when not NAME` after its operand."""
        self.take()
        form = 'when-not' if self.taken('not') else 'when'
        return Expr(form, self.name(CLOCK), [operand], at=operand.at)

    def binary(self, left):
        """An operator with its right operand."""
        sign = self.take().text
        level = LEVELS[sign]
        right = self.expression(level if sign in TO_THE_RIGHT else level + 1)
        if level == COMPARISON and LEVELS.get(self.word.text) == COMPARISON and self.word.kind == 'symbol':
            self.fail('comparisons do not follow each other; put one of them into parentheses')
        if sign == '->':
            return Expr('arrow', None, [left, right], at=left.at)
        return Expr('binary', BINARY.index(sign), [left, right], at=left.at)

    def prefixed(self):
        """An operand with what stands before it."""
        w = self.word
        if self.taken('-'):
            if self.word.kind in ('int', 'float'):
                return self.postfixed(self.negative(w.at))
            return Expr('unary', 1, [self.expression(PREFIX)], at=w.at)
        if self.taken('not'):
            return Expr('unary', 0, [self.expression(NOT)], at=w.at)
        if self.taken('pre'):
            return Expr('pre', None, [self.expression(PREFIX)], at=w.at)
        if self.taken('if'):
            return self.choice(w.at)
        return self.postfixed(self.atom())

    def negative(self, at):
        """A number with its sign."""
        w = self.take()
        if w.kind == 'float':
            return Expr('float', w.value ^ SIGN, at=at)
        return self.integer(-w.value, at)

    def integer(self, value, at):
        """An integer of 64 bits."""
        if not -SIGN <= value < SIGN:
            self.fail('an integer is from -%d to %d' % (SIGN, SIGN - 1), at)
        return Expr('int', value, at=at)

    def choice(self, at):
        """`if` and what follows."""
        condition = self.expression()
        self.want('then', 'after the condition')
        first = self.expression()
        self.want('else', 'and a second value after the first')
        return Expr('if', None, [condition, first, self.expression(IF)], at=at)

    def postfixed(self, e):
        """An operand with fields and indices after it."""
        while True:
            if self.taken('.'):
                e = Expr('field', self.name("a field's name after `.`"), [e], at=e.at)
            elif self.taken('['):
                e = Expr('index', None, [e, self.expression()], at=e.at)
                self.want(']', 'after the index')
            else:
                return e

    def atom(self):
        """A constant, a name, a call, or something in brackets."""
        w = self.word
        if w.kind in ('int', 'float', 'bits', 'char', 'string'):
            return self.constant()
        if w.kind == 'name':
            return self.named()
        if self.here('true', 'false'):
            return Expr('bool', int(self.take().text == 'true'), at=w.at)
        if self.here(*BASIC_TYPES, 'cast'):
            return self.cast()
        if self.here('merge'):
            return self.merge()
        if self.here('map', 'fold'):
            return self.iteration()
        if self.taken('['):
            return Expr('array', None, self.listed(']', self.expression, ',;')[0], at=w.at)
        if self.taken('('):
            return self.bracketed(w.at)
        hint = '; a keyword as a name stands in ` `' if w.kind == 'keyword' else ''
        self.fail('expected an expression, found %s%s' % (self.shown(), hint))

    def constant(self):
        """A number, a character, or a string, which is an array of characters."""
        w = self.take()
        if w.kind == 'int':
            return self.integer(w.value, w.at)
        if w.kind == 'char':
            return Expr('char', w.value[0], at=w.at)
        if w.kind == 'string':
            return Expr('array', None, [Expr('char', c, at=w.at) for c in w.value], at=w.at)
        return Expr('float', w.value, at=w.at)

    def named(self):
        """A name, a call, or a record's value."""
        at = self.word.at
        name = self.take().value
        if self.taken('('):
            return Expr('call', name, self.listed(')', self.expression)[0], at=at)
        if self.taken('{'):
            pairs, _ = self.listed('}', self.field)
            return Expr('struct', name, [e for _, e in pairs], [n for n, _ in pairs], at=at)
        return Expr('var', name, at=at)

    def field(self):
        """`NAME: EXPRESSION` of a record's value."""
        name = self.name("a field's name")
        self.want(':', "after the field's name")
        return name, self.expression()

    def cast(self):
        """`int16(E)`, or `cast(TYPE; E)`."""
        at = self.word.at
        general = self.taken('cast')
        if general:
            self.want('(', 'after `cast`')
        t = self.type() if general else Type('basic', BASIC_TYPES.index(self.take().text), at=at)
        self.want(*(';', 'between type and operand') if general else ('(', 'after the type of a cast'))
        e = Expr('cast', None, [self.expression()], type=t, at=at)
        self.want(')', 'after the operand of a cast')
        return e

    def merge(self):
        """`merge(NAME; E, E)`."""
        at = self.take().at
        self.want('(', 'after `merge`')
        clock = self.name(CLOCK)
        if not self.taken(';', ','):
            self.fail('expected `;` after the name of the clock, found %s' % self.shown())
        first = self.expression()
        self.want(',', 'between the two branches')
        e = Expr('merge', clock, [first, self.expression()], at=at)
        self.want(')', 'after the second branch')
        return e

    def iteration(self):
        """`map(F; ARRAYS)`, `map(F; START; ARRAYS)`, and `fold` alike."""
        w = self.take()
        self.want('(', 'after `%s`' % w.text)
        e = Expr(w.text, self.name('the name of a node'), at=w.at)
        self.want(';', 'after the name of the node')
        if not self.here(')'):
            e.operands.append(self.expression())
            e.started = bool(self.taken(';'))
            if not e.started and not self.here(')'):
                self.want(',', '(or `;` after a start value)')
        e.operands.extend(self.listed(')', self.expression)[0])
        return e

    def bracketed(self, at):
        """`(E)` is E; `()`, `(E,)` and `(E, E)` are tuples."""
        items, trailing = self.listed(')', self.expression)
        if len(items) == 1 and not trailing:
            return items[0]
        return Expr('tuple', None, items, at=at)
