"""Text to words, each with its line and column."""
import re
import struct
from typing import NamedTuple

from .encode import TextError
from .tree import KEYWORDS, LONGEST_NAME, Place, name_at

PATTERN = re.compile(r'''
    (?P<blank>[ \t\r\n\f]+|--[^\n]*)
  | (?P<bits>float\#[0-9A-Za-z]*)
  | (?P<number>[0-9]+(\.[0-9]+)?([eE][+-]?[0-9]+)?)
  | (?P<name>[A-Za-z_][A-Za-z0-9_]*)
  | (?P<quoted>`[^`\n]*`)
  | (?P<char>'(\\.|[^'\\\n])*')
  | (?P<string>"(\\.|[^"\\\n])*")
  | (?P<symbol>->|=>|<>|<=|>=|[-=<>+*/()\[\]{},;:.^])
''', re.VERBOSE)
NAME = re.compile('[A-Za-z_][A-Za-z0-9_]*')
LETTER = re.compile(r'\\x([0-9A-Fa-f]{2})|\\([nrt0\\\'"])|([ -~])')
MOST_DIGITS = 400
ESCAPES = {'n': 10, 'r': 13, 't': 9, '0': 0}
UNCLOSED = {'`': 'a name in ` ` stands on one line and ends with `', "'": "a character ends with '",
            '"': 'a string stands on one line and ends with "'}


class Word(NamedTuple):
    """A word: its kind (name, keyword, int, float, char, string, symbol, end), its letters, its value and its place."""
    kind: str
    text: str
    value: object
    at: Place


def words(text):
    """The words of a text, and an end."""
    found, lines = [], Lines(text)
    at = 0
    while at < len(text):
        match = PATTERN.match(text, at)
        if not match:
            raise TextError(lines.place(at), unknown(text[at]))
        if match.lastgroup != 'blank':
            found.append(word(match, lines.place(at), text[match.end():match.end() + 1]))
        at = match.end()
    found.append(Word('end', 'the end of the text', None, lines.place(len(text))))
    return found


class Lines:
    """Places of offsets that only grow."""

    def __init__(self, text):
        self.text, self.line, self.start, self.seen = text, 1, 0, 0

    def place(self, at):
        """The line and column of an offset."""
        self.line += self.text.count('\n', self.seen, at)
        self.start = max(self.start, self.text.rfind('\n', self.seen, at) + 1)
        self.seen = at
        return Place(self.line, at - self.start + 1)


def unknown(letter):
    """What is said of a letter that begins no word."""
    if letter in UNCLOSED:
        return UNCLOSED[letter]
    return '%s has no meaning here; names are letters, digits and underscores, comments begin with --' % ascii(letter)


def word(match, at, following):
    """The word of a match."""
    text = match.group()
    kind = match.lastgroup
    if kind == 'name':
        return Word('keyword', text, None, at) if text in KEYWORDS else Word('name', text, named(text, at), at)
    if kind == 'quoted':
        return Word('name', text, named(text[1:-1], at), at)
    if kind == 'number':
        return number(text, at, following)
    if kind == 'bits':
        return Word('bits', text, bits(text, at), at)
    if kind in ('char', 'string'):
        return Word(kind, text, letters(text, at), at)
    return Word('symbol', text, None, at)


def named(letters, at):
    """A name, which is well formed."""
    if not NAME.fullmatch(letters):
        raise TextError(at, '`%s` is no name; a name is letters, digits and underscores, no digit first' % letters)
    if len(letters) > LONGEST_NAME:
        raise TextError(at, 'a name of more than %d letters; use a shorter one' % LONGEST_NAME)
    return name_at(letters, at)


def number(text, at, following):
    """A number: of 64 bits each, an integer or, with a point or an exponent, a float."""
    if re.match('[A-Za-z_]', following):
        raise TextError(at, '%s runs into a letter; a name begins with no digit, and a number ends before a blank or sign' % text)
    if len(text) > MOST_DIGITS:
        raise TextError(at, 'a number of more than %d digits; use a shorter one' % MOST_DIGITS)
    if text.isdigit():
        return Word('int', text, int(text), at)
    if float(text) == float('inf'):
        raise TextError(at, '%s is too large for a float; infinity is float#7ff0000000000000' % text)
    return Word('float', text, word_of(float(text)), at)


def word_of(value):
    """The 64 bits of a float."""
    return struct.unpack('<Q', struct.pack('<d', value))[0]


def bits(text, at):
    """The 64 bits of a float given in hex."""
    if not re.fullmatch('float#[0-9A-Fa-f]{16}', text):
        raise TextError(at, 'after float# stand 16 hex digits, the bits of the number')
    return int(text[6:], 16)


def letters(text, at):
    """The bytes of a character or string."""
    inside, found, k = text[1:-1], [], 0
    while k < len(inside):
        match = LETTER.match(inside, k)
        if not match:
            raise TextError(at, r"write letters past ASCII as \x and two hex digits, and a backslash as \\")
        code, escape, plain = match.groups()
        found.append(int(code, 16) if code else ESCAPES.get(escape, ord(escape)) if escape else ord(plain))
        k = match.end()
    if text[0] == "'" and len(found) != 1:
        raise TextError(at, "one character stands between ' and '; a string stands between \" and \"")
    return found
