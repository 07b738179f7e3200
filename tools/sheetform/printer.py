"""The tree of a sheet to its text."""
import struct
import textwrap

from .encode import used_names
from .lexer import word_of
from .tree import (ARROW, ATOM, BASIC_TYPES, BINARY, COMPARISON, IF, KEYWORDS, KINDS, LEVELS, NOT, POSTFIX, PREFIX,
                   TO_THE_RIGHT, WHEN)

WIDTH = 118


def print_sheet(sheet):
    """The text of a sheet."""
    parts = [definition(d) + '\n' for d in sheet.types]
    if parts:
        parts = [''.join(parts)]
    parts.extend(node(n) for n in sheet.nodes)
    first = table_start(sheet)
    if first:
        parts.insert(0, textwrap.fill('names %s;' % ' '.join(map(word, first)), WIDTH, subsequent_indent='  ') + '\n')
    return '\n'.join(parts)


def table_start(sheet):
    """The shortest beginning of the table after which the names follow in the order of their first use."""
    order = {name: k for k, name in enumerate(used_names(sheet))}
    k, after = len(sheet.names), len(order)
    while k > 0 and order.get(sheet.names[k - 1], after) < after:
        after = order[sheet.names[k - 1]]
        k -= 1
    return sheet.names[:k]


def word(name):
    """A name; one that is a keyword stands in ` `."""
    return '`%s`' % name if name in KEYWORDS else name


def definition(d):
    """A type's definition."""
    if d.form == 'alias':
        body = type_text(d.items[0])
    elif d.form == 'enum':
        body = 'enum {%s}' % padded(', '.join(map(word, d.items)))
    else:
        body = 'struct {%s}' % padded('; '.join(groups(d.items)))
    return 'type %s = %s;' % (word(d.name), body)


def padded(text):
    """A text with blanks around it, if there is any."""
    return ' %s ' % text if text else ''


def type_text(t):
    """A type."""
    if t.form == 'basic':
        return BASIC_TYPES[t.value]
    if t.form == 'named':
        return word(t.value)
    return '%s^%d' % (type_text(t.element), t.value)


def groups(declared):
    """Declarations, neighbours of one type together."""
    found = []
    for name, t in declared:
        text = type_text(t)
        if found and found[-1][1] == text:
            found[-1][0].append(word(name))
        else:
            found.append(([word(name)], text))
    return ['%s: %s' % (', '.join(names), text) for names, text in found]


def node(n):
    """A node."""
    lines = ['%s %s(%s) returns (%s);' % (KINDS[n.kind], word(n.name), '; '.join(groups(n.inputs)), '; '.join(groups(n.outputs)))]
    if n.locals:
        lines.append('var')
        lines.extend('  %s;' % g for g in groups(n.locals))
    if n.locals or n.equations or n.probes or n.kind != KINDS.index('imported'):
        lines.append('let')
        lines.extend(map(equation, n.equations))
        lines.extend('  probe %s: %s;' % (word(label), word(name)) for label, name in n.probes)
        lines.append('tel')
    return '\n'.join(lines) + '\n'


def equation(q):
    """An equation; a long if or merge stands on several lines."""
    line = '  %s = %s;' % (lefts(q.lefts), expression(q.right))
    if len(line) <= WIDTH or q.right.form not in ('if', 'merge'):
        return line
    if q.right.form == 'if':
        parts = 'if %s\n    then %s\n    else %s' % tuple(branches(q.right))
    else:
        parts = 'merge(%s;\n    %s,\n    %s)' % ((word(q.right.value),) + tuple(map(expression, q.right.operands)))
    return '  %s = %s;' % (lefts(q.lefts), parts)


def lefts(names):
    """The left side of an equation."""
    text = ', '.join(map(word, names))
    return text if len(names) == 1 else '(%s)' % text


def expression(e, least=0):
    """An expression, in parentheses if its level is lower than its place asks for."""
    level, text = FORMS[e.form](e)
    return '(%s)' % text if level < least else text


def operand(e, least):
    """An operand; a when stands in parentheses beside every other operator, since what it samples is easily misread."""
    return expression(e, max(least, PREFIX) if e.form in ('when', 'when-not') else least)


def items(operands):
    """Expressions with commas between them."""
    return ', '.join(expression(o) for o in operands)


def float_text(bits):
    """The shortest decimal that reads back to the same bits; else the bits."""
    value = struct.unpack('<d', struct.pack('<Q', bits))[0]
    text = repr(value)
    if text.lstrip('-')[0].isdigit() and word_of(float(text)) == bits:
        return text
    return 'float#%016x' % bits


def number(text):
    """A number's level: with a sign, that of a sign."""
    return PREFIX if text.startswith('-') else ATOM, text


def letter(code, quote):
    """A character inside quotes."""
    if chr(code) in ('\\', quote):
        return '\\' + chr(code)
    return chr(code) if 32 <= code <= 126 else '\\x%02x' % code


def unary(e):
    """`not` and the sign; a sign's operand that begins with a sign or is a number stands in parentheses."""
    if e.value == 0:
        return NOT, 'not ' + operand(e.operands[0], NOT)
    text = operand(e.operands[0], PREFIX)
    return PREFIX, '-(%s)' % text if text[0] in '-0123456789' else '-' + text


def infix(sign, operands):
    """An operator between two operands; a `not` stands in parentheses beside a comparison."""
    level = LEVELS[sign]
    left, right = (level + 1, level) if sign in TO_THE_RIGHT else (level, level + 1)
    if level == COMPARISON:
        left = right = NOT + 1
    return level, '%s %s %s' % (operand(operands[0], left), sign, operand(operands[1], right))


def choice(e):
    """An if; another one, or a `->`, inside stands in parentheses."""
    return IF, 'if %s then %s else %s' % tuple(branches(e))


def branches(e):
    """The three parts of an if."""
    return [expression(o, ARROW + 1) for o in e.operands]


def sequence(e):
    """An array; of characters, a string."""
    if e.operands and all(o.form == 'char' for o in e.operands):
        return ATOM, '"%s"' % ''.join(letter(o.value, '"') for o in e.operands)
    return ATOM, '[%s]' % items(e.operands)


def group(e):
    """A tuple."""
    return ATOM, '(%s,)' % items(e.operands) if len(e.operands) == 1 else '(%s)' % items(e.operands)


def structure(e):
    """A record's value."""
    pairs = ['%s: %s' % (word(f), expression(o)) for f, o in zip(e.fields, e.operands)]
    return ATOM, '%s {%s}' % (word(e.value), padded(', '.join(pairs)))


def cast(e):
    """A cast: `int16(E)`, or `cast(TYPE; E)`."""
    t, text = type_text(e.type), expression(e.operands[0])
    return ATOM, '%s(%s)' % (t, text) if e.type.form == 'basic' else 'cast(%s; %s)' % (t, text)


def when(sign):
    """A printer of a when."""
    return lambda e: (WHEN, '%s %s %s' % (expression(e.operands[0], WHEN), sign, word(e.value)))


def iteration(e):
    """A map or fold."""
    start = expression(e.operands[0]) + '; ' if e.started else ''
    text = '%s(%s; %s%s' % (e.form, word(e.value), start, items(e.operands[e.started:]))
    return ATOM, text.rstrip() + ')'


# Of each form: its level and text.
FORMS = {
    'bool': lambda e: (ATOM, 'true' if e.value else 'false'),
    'int': lambda e: number(str(e.value)),
    'float': lambda e: number(float_text(e.value)),
    'char': lambda e: (ATOM, "'%s'" % letter(e.value, "'")),
    'var': lambda e: (ATOM, word(e.value)),
    'unary': unary,
    'binary': lambda e: infix(BINARY[e.value], e.operands),
    'if': choice,
    'pre': lambda e: (PREFIX, 'pre ' + operand(e.operands[0], PREFIX)),
    'arrow': lambda e: infix('->', e.operands),
    'call': lambda e: (ATOM, '%s(%s)' % (word(e.value), items(e.operands))),
    'field': lambda e: (POSTFIX, '%s.%s' % (operand(e.operands[0], POSTFIX), word(e.value))),
    'index': lambda e: (POSTFIX, '%s[%s]' % (operand(e.operands[0], POSTFIX), expression(e.operands[1]))),
    'tuple': group,
    'array': sequence,
    'struct': structure,
    'cast': cast,
    'when': when('when'),
    'when-not': when('when not'),
    'merge': lambda e: (ATOM, 'merge(%s; %s)' % (word(e.value), items(e.operands))),
    'map': iteration,
    'fold': iteration,
}
